/*
 * Calls the library's compiled queries, and compares.
 *
 *   query_driver           reads commands from standard input (see tests/query_test.py)
 *   query_driver --stack   prints how much stack the deepest rules take
 *   query_driver --time    prints the time of a call for some rules
 *
 * The commands are words and decimal numbers parted by blanks. A list of words
 * is written as its length, then how many words are not 0, then an index and a
 * value for each of these:
 *
 *   part NAME NUMBER     names the part of the test that comes next
 *   rule LIST            lends a rule
 *   call ITEMS CONCEPTS ROLES QUERY ROOMS
 *                        makes calls on it; QUERY is a number and so many words, due
 *                        in the room where the rule is not refused, and ROOMS is a
 *                        number and so many pairs, one for each call: the length of
 *                        the room, and the result due
 *
 * After every call the result and all words of the rule and the room are compared,
 * also the bytes kept around those lent. The first difference is printed and ends
 * the program with 1. A call that fails, or does not come back within some seconds,
 * ends it by a signal; which call it was is printed.
 */
#define _XOPEN_SOURCE 600

#include "calls.h"
#include "measure.h"
#include "saltreeve.h"

/* What is lent, what is due, and where the test is. */
static struct {
    struct lent rule, room;
    uint64_t items, concepts, roles;
    uint16_t query[SALTREEVE_QUERY_WORDS];  /* the words due */
    size_t query_words;
    int64_t result;
    struct place place;
} run;

/* Lends a room for a call, and says which words are to be written to it. */
static void lend_room(size_t length)
{
    lend(&run.room, sizeof(uint16_t), length, GUARD);
    for (size_t i = 0; run.result >= 0 && i < run.query_words && i < length; i++)
        set_due(&run.room, i, run.query[i]);
}

/* Makes one call and compares. */
static void call_once(void)
{
    const struct named lists[] = {{"rule", &run.rule}, {"room", &run.room}};
    next_call(&run.place, run.room.length);
    limit_call(CALL_SECONDS);
    int64_t got = saltreeve_compile(run.items, run.concepts, run.roles, run.rule.entries, run.rule.length,
                                    run.room.entries, run.room.length);
    limit_call(0);
    compare_call(run.result, got, lists, COUNT(lists));
}

/* Reads the words of a query. */
static void read_query(void)
{
    run.query_words = read_number();
    if (run.query_words > SALTREEVE_QUERY_WORDS)
        stop("a query is too long");
    for (size_t i = 0; i < run.query_words; i++)
        run.query[i] = (uint16_t)read_number();
}

/* Makes calls with rooms of some lengths. */
static void do_call(void)
{
    run.items = read_number();
    run.concepts = read_number();
    run.roles = read_number();
    read_query();
    for (uint64_t left = read_number(); left > 0; left--) {
        size_t length = read_number();
        run.result = read_result();
        lend_room(length);
        call_once();
    }
}

/* Carries out a command. */
static void do_command(const char *word)
{
    if (strcmp(word, "rule") == 0)
        lend_list(&run.rule);
    else if (strcmp(word, "call") == 0)
        do_call();
    else
        stop("unknown command");
}

/* Carries out all commands. */
static void run_commands(void)
{
    struct lent *const lists[] = {&run.rule, &run.room};
    carry_out(&run.place, do_command, lists, COUNT(lists));
}

/* --- Measuring: the deepest rules, over 128 items, 32 concepts and 16 roles. --- */

enum { TIMED_CALLS = 2000 };

/* A rule to be measured, and the result due. */
struct measured {
    const char *name;
    uint64_t head, kind, count;  /* `depth` nodes of a kind around a name, on the left of a sub or alone in an in */
    uint64_t depth;
    int64_t due;
};

static const struct measured MEASURED[] = {
    {"in, no node but a name", SALTREEVE_IN, SALTREEVE_NODE_NAME, 0, 0, 4 * 3},
    {"in, 31 nested nots", SALTREEVE_IN, SALTREEVE_NODE_NOT, 0, 31, 4 * 65},
    {"in, 31 nested at least 1", SALTREEVE_IN, SALTREEVE_NODE_AT_LEAST, 1, 31, 4 * 34},
    {"sub, 30 nested at least 1", SALTREEVE_SUB, SALTREEVE_NODE_AT_LEAST, 1, 30, 4 * 34 + 1},
    {"sub, 30 nested nots", SALTREEVE_SUB, SALTREEVE_NODE_NOT, 0, 30, 4 * 64 + 1},
    {"sub, 15 nested ands", SALTREEVE_SUB, SALTREEVE_NODE_AND, 0, 15, 4 * 19 + 1},
    {"sub, 2 nested at least 6", SALTREEVE_SUB, SALTREEVE_NODE_AT_LEAST, 6, 2, 4 * 396 + 1},
    {"sub, 30 nested at least 8, too long", SALTREEVE_SUB, SALTREEVE_NODE_AT_LEAST, 8, 30, -5},
};

/* The rule that is measured, where it is written, and what came out. */
static uint64_t measured_rule[SALTREEVE_RULE_WORDS];
static uint16_t measured_room[SALTREEVE_QUERY_WORDS];
static int64_t measured_result;

/* Adds a node to the rule that is measured. */
static void node(uint64_t kind, uint64_t a, uint64_t b, uint64_t c, uint64_t d)
{
    uint64_t words[] = {kind, a, b, c, d};
    uint64_t number = measured_rule[SALTREEVE_NODE_COUNT]++;
    memcpy(measured_rule + SALTREEVE_FIRST_NODE + SALTREEVE_NODE_WORDS * number, words, sizeof words);
}

/* Writes the rule that is to be measured. */
static void build(const struct measured *measured)
{
    uint64_t n = 0;
    memset(measured_rule, 0, sizeof measured_rule);
    measured_rule[0] = measured->head;
    for (; n < measured->depth; n++) {
        uint64_t next = measured_rule[SALTREEVE_NODE_COUNT] + 1;
        if (measured->kind == SALTREEVE_NODE_AND) {
            node(SALTREEVE_NODE_AND, next, next + 1, 0, 0);
            node(SALTREEVE_NODE_NAME, 0, 0, 0, 0);
        } else if (measured->kind == SALTREEVE_NODE_AT_LEAST)
            node(SALTREEVE_NODE_AT_LEAST, measured->count, n % SALTREEVE_ROLES, n % 2, next);
        else
            node(SALTREEVE_NODE_NOT, next, 0, 0, 0);
    }
    node(SALTREEVE_NODE_NAME, 1, 0, 0, 0);
    measured_rule[2] = measured->head == SALTREEVE_SUB ? measured_rule[SALTREEVE_NODE_COUNT] : SALTREEVE_ITEMS - 1;
    if (measured->head == SALTREEVE_SUB)
        node(SALTREEVE_NODE_NAME, 2, 0, 0, 0);
}

/* Compiles the rule that is measured. */
static void compile_measured(void)
{
    measured_result = saltreeve_compile(SALTREEVE_ITEMS, SALTREEVE_CONCEPTS, SALTREEVE_ROLES, measured_rule,
                                        SALTREEVE_RULE_WORDS, measured_room, SALTREEVE_QUERY_WORDS);
}

/* Ends the program if what came out is not what was due. */
static void require_due(const struct measured *measured)
{
    if (measured_result == measured->due)
        return;
    printf("%s: expected %" PRId64 ", got %" PRId64 "\n", measured->name, measured->due, measured_result);
    exit(1);
}

/* Prints how much stack each rule takes. */
static void run_stacks(void)
{
    for (size_t i = 0; i < COUNT(MEASURED); i++) {
        build(&MEASURED[i]);
        size_t used = stack_used(compile_measured);
        require_due(&MEASURED[i]);
        printf("%-38s %8zu bytes of stack\n", MEASURED[i].name, used);
    }
}

/* Prints how long each rule takes. */
static void run_times(void)
{
    for (size_t i = 0; i < COUNT(MEASURED); i++) {
        build(&MEASURED[i]);
        double start = seconds();
        for (int call = 0; call < TIMED_CALLS; call++) {
            compile_measured();
            require_due(&MEASURED[i]);
        }
        printf("%-38s %8.2f microseconds a call\n", MEASURED[i].name, (seconds() - start) * 1e6 / TIMED_CALLS);
    }
}

/* Runs the commands or a measurement. */
int main(int argc, char **argv)
{
    const struct driver driver = {"query_driver", run_commands, run_stacks, run_times};
    return run_driver(&driver, argc, argv);
}
