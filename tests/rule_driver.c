/*
 * Calls the library's rules by number, and compares.
 *
 *   rule_driver          reads commands from standard input (see tests/rule_test.py)
 *   rule_driver --time   prints the time of a call for the worst rules and stores
 *   rule_driver --stack  prints how much stack those rules take
 *
 * The commands are words and decimal numbers parted by blanks. A list of words
 * is written as its length, then how many words are not 0, then an index and a
 * value for each of these:
 *
 *   part NAME NUMBER     names the part of the test that comes next
 *   store LIST           lends a store
 *   rule LIST            lends a rule
 *   call ITEMS CONCEPTS ROLES RESULT FINDINGS ROOMS
 *                        makes calls on them; RESULT is due, FINDINGS are so many
 *                        pairs of items (none if RESULT is below 0), and ROOMS is a
 *                        number and so many lengths of out lists, one for each call
 *
 * After every call the result and all words of the store, the rule and the out
 * list are compared, also the words kept around those lent. The first difference
 * is printed and ends the program with 1. A call that fails, or does not come back
 * within some seconds, ends it by a signal; which call it was is printed.
 */
#define _XOPEN_SOURCE 600

#include "measure.h"
#include "saltreeve.h"

/* What is lent, what is due, and where the test is. */
static struct {
    struct lent store, rule, out;
    uint64_t items, concepts, roles;
    int64_t result;
    struct lent found;  /* the pairs due */
    struct place place;
} run;

/* Lends an out list for a call, and says which pairs are to be written to it. */
static void lend_out(size_t length)
{
    lend(&run.out, sizeof(uint64_t), length, GUARD);
    for (size_t i = 0; i < run.found.length && i < length / 2 * 2; i++)
        set_due(&run.out, i, get_entry(run.found.due, run.found.width, i));
}

/* Makes one call and compares. */
static void call_once(void)
{
    const struct named lists[] = {{"store", &run.store}, {"rule", &run.rule}, {"out list", &run.out}};
    next_call(&run.place, run.out.length);
    limit_call(CALL_SECONDS);
    int64_t got = saltreeve_findings(run.store.entries, run.store.length, run.items, run.concepts, run.roles,
                                     run.rule.entries, run.rule.length, run.out.entries, run.out.length);
    limit_call(0);
    compare_call(run.result, got, lists, COUNT(lists));
}

/* Reads the pairs that are due. */
static void read_findings(void)
{
    lend(&run.found, sizeof(uint64_t), run.result > 0 ? 2 * (size_t)run.result : 0, 0);
    for (size_t i = 0; i < run.found.length; i++)
        set_due(&run.found, i, read_number());
}

/* Makes calls with out lists of some lengths. */
static void do_call(void)
{
    run.items = read_number();
    run.concepts = read_number();
    run.roles = read_number();
    run.result = read_result();
    read_findings();
    for (uint64_t left = read_number(); left > 0; left--) {
        lend_out(read_number());
        call_once();
    }
}

/* Carries out a command. */
static void do_command(const char *word)
{
    if (strcmp(word, "store") == 0)
        lend_list(&run.store);
    else if (strcmp(word, "rule") == 0)
        lend_list(&run.rule);
    else if (strcmp(word, "call") == 0)
        do_call();
    else
        stop("unknown command");
}

/* Carries out all commands. */
static void run_commands(void)
{
    struct lent *const lists[] = {&run.store, &run.rule, &run.out, &run.found};
    carry_out(&run.place, do_command, lists, COUNT(lists));
}

/* --- Measuring: always 128 items, or 512 in the larger store, 32 concepts and 16 roles. --- */

enum {
    TIMED_CALLS = 100,               /* of each rule, if they are quick */
    APART = SALTREEVE_ROLES - 1,     /* the role that links nothing in some stores */
    EMPTY = SALTREEVE_CONCEPTS - 1,  /* the concept that no item is in */
    PAIRS = SALTREEVE_ITEMS * SALTREEVE_ITEMS,
    LARGE_PAIRS = SALTREEVE_LARGE_ITEMS * SALTREEVE_LARGE_ITEMS
};

static const double TIMED_SECONDS = 0.2;  /* after which a rule is called no more */

typedef uint64_t timed_rule[SALTREEVE_RULE_WORDS];

/* The store that is measured: its length, its items and the words of an item row, and its words. */
static struct {
    size_t length, row;
    uint64_t items;
    uint64_t words[SALTREEVE_LARGE_WORDS];
} measured_store = {SALTREEVE_WORDS, 2, SALTREEVE_ITEMS, {0}};

/* The word that the concepts begin with; the roles, the items in concepts and the links follow. */
static size_t concepts_at(void)
{
    return measured_store.items * measured_store.row;
}

/* Makes each item the same as itself, or all items the same. */
static void fill_same(int merged)
{
    for (uint64_t a = 0; a < measured_store.items; a++) {
        uint64_t *row = measured_store.words + measured_store.row * a;
        for (size_t i = 0; i < measured_store.row; i++)
            row[i] = merged ? UINT64_MAX : 0;
        row[a / 64] |= (uint64_t)1 << a % 64;
    }
}

/* Puts every item into every concept but the empty one, and each concept under itself only. */
static void fill_concepts(void)
{
    uint64_t *w = measured_store.words + concepts_at();
    for (uint64_t A = 0; A < SALTREEVE_CONCEPTS; A++)
        w[A] = (uint64_t)1 << A;
    for (uint64_t a = 0; a < measured_store.items; a++)
        w[48 + a] = ((uint64_t)1 << EMPTY) - 1;
}

/* Lets the roles below `linking` link all to all and be under each other both ways. */
static void fill_roles(uint64_t linking)
{
    uint64_t ring = ((uint64_t)1 << linking) - 1, *w = measured_store.words + concepts_at();
    size_t links = measured_store.items * measured_store.row;
    for (uint64_t R = 0; R < SALTREEVE_ROLES; R++) {
        w[32 + R] = R < linking ? ring | ring << 16 : (uint64_t)1 << R;
        for (uint64_t i = 0; i < links; i++)
            w[48 + measured_store.items + links * R + i] = R < linking ? UINT64_MAX : 0;
    }
}

/* Writes the head of a rule with up to four words, and no node. */
static void head(timed_rule rule, uint64_t kind, uint64_t a, uint64_t b, uint64_t c, uint64_t d)
{
    uint64_t words[] = {kind, a, b, c, d};
    memset(rule, 0, sizeof(timed_rule));
    memcpy(rule, words, sizeof words);
}

/* Adds a node. */
static void node(timed_rule rule, uint64_t kind, uint64_t a, uint64_t b, uint64_t c, uint64_t d)
{
    uint64_t words[] = {kind, a, b, c, d};
    uint64_t number = rule[SALTREEVE_NODE_COUNT]++;
    memcpy(rule + SALTREEVE_FIRST_NODE + SALTREEVE_NODE_WORDS * number, words, sizeof words);
}

/* Adds so many at leasts, each around the next and every second one over an inverse; the next node is the last. */
static void nest(timed_rule rule, uint64_t depth, uint64_t count)
{
    for (uint64_t level = 0; level < depth; level++)
        node(rule, SALTREEVE_NODE_AT_LEAST, count, level % APART, level % 2, rule[SALTREEVE_NODE_COUNT] + 1);
}

/* in: 31 nested some of a last node. */
static void in_nest(timed_rule rule, uint64_t last_kind)
{
    head(rule, SALTREEVE_IN, 0, measured_store.items - 1, 0, 0);
    nest(rule, SALTREEVE_NODES - 1, 1);
    node(rule, last_kind, EMPTY, 0, 0, 0);
}

/* sub: 30 nested at leasts of a last node on the left, the empty concept on the right. */
static void sub_nest(timed_rule rule, uint64_t count, uint64_t last_kind)
{
    head(rule, SALTREEVE_SUB, 0, SALTREEVE_NODES - 1, 0, 0);
    nest(rule, SALTREEVE_NODES - 2, count);
    node(rule, last_kind, EMPTY, 0, 0, 0);
    node(rule, SALTREEVE_NODE_NAME, EMPTY, 0, 0, 0);
}

/* in: 31 nested some of top. */
static void in_some_top(timed_rule rule)
{
    in_nest(rule, SALTREEVE_NODE_TOP);
}

/* in: 31 nested some of the empty concept. */
static void in_some_empty(timed_rule rule)
{
    in_nest(rule, SALTREEVE_NODE_NAME);
}

/* sub: 30 nested some of top. */
static void sub_some_top(timed_rule rule)
{
    sub_nest(rule, 1, SALTREEVE_NODE_TOP);
}

/* sub: 30 nested some of the empty concept. */
static void sub_some_empty(timed_rule rule)
{
    sub_nest(rule, 1, SALTREEVE_NODE_NAME);
}

/* sub: 30 nested at least 8 of top. */
static void sub_eight_top(timed_rule rule)
{
    sub_nest(rule, 8, SALTREEVE_NODE_TOP);
}

/* sub: 30 nested at least 8 of the empty concept. */
static void sub_eight_empty(timed_rule rule)
{
    sub_nest(rule, 8, SALTREEVE_NODE_NAME);
}

/* sub: one at least 8 of top on the left, over a role or its inverse, the empty concept on the right. */
static void sub_one_count(timed_rule rule, uint64_t inverse)
{
    head(rule, SALTREEVE_SUB, 0, 2, 0, 0);
    node(rule, SALTREEVE_NODE_AT_LEAST, 8, 0, inverse, 1);
    node(rule, SALTREEVE_NODE_TOP, 0, 0, 0, 0);
    node(rule, SALTREEVE_NODE_NAME, EMPTY, 0, 0, 0);
}

/* sub: one at least 8 over a role. */
static void sub_eight(timed_rule rule)
{
    sub_one_count(rule, 0);
}

/* sub: one at least 8 over an inverse. */
static void sub_eight_inverse(timed_rule rule)
{
    sub_one_count(rule, 1);
}

/* sub: a tree of 15 ands over 16 concepts, as wide as it can be. */
static void sub_wide_and(timed_rule rule)
{
    head(rule, SALTREEVE_SUB, 0, SALTREEVE_NODES - 1, 0, 0);
    for (uint64_t n = 0; n < 15; n++)
        node(rule, SALTREEVE_NODE_AND, 2 * n + 1, 2 * n + 2, 0, 0);
    for (uint64_t A = 0; A < 16; A++)
        node(rule, SALTREEVE_NODE_NAME, A, 0, 0, 0);
    node(rule, SALTREEVE_NODE_NAME, EMPTY, 0, 0, 0);
}

/* sub: a tree of 15 ands over 16 concepts, as deep as it can be. */
static void sub_deep_and(timed_rule rule)
{
    head(rule, SALTREEVE_SUB, 0, SALTREEVE_NODES - 1, 0, 0);
    for (uint64_t n = 0; n < 30; n += 2) {
        node(rule, SALTREEVE_NODE_AND, n + 1, n + 2, 0, 0);
        node(rule, SALTREEVE_NODE_NAME, n / 2, 0, 0, 0);
    }
    node(rule, SALTREEVE_NODE_NAME, 15, 0, 0, 0);
    node(rule, SALTREEVE_NODE_NAME, EMPTY, 0, 0, 0);
}

/* chain: four roles, of which two are inverses, and the last role. */
static void chain_of_four(timed_rule rule)
{
    static const uint64_t FIELDS[] = {4, 0, 0, 1, 1, 2, 0, 3, 1, APART, 0};
    head(rule, SALTREEVE_CHAIN, 0, 0, 0, 0);
    memcpy(rule + 1, FIELDS, sizeof FIELDS);
}

/* rsub: a role and the one that may link nothing. */
static void rsub_pair(timed_rule rule)
{
    head(rule, SALTREEVE_RSUB, 0, 1, APART, 0);
}

/* dis: two roles. */
static void dis_pair(timed_rule rule)
{
    head(rule, SALTREEVE_DIS, 0, 0, 1, 1);
}

/* irr: one role. */
static void irr_one(timed_rule rule)
{
    head(rule, SALTREEVE_IRR, 0, 0, 0, 0);
}

/* What is timed: the rule, the roles that link, the words of the out list, and the findings due. A number of findings that
   is one of all items or all pairs is so in the larger store too. */
struct timing {
    const char *name;
    void (*build)(timed_rule);
    uint64_t linking;
    size_t room;
    int64_t due_merged, due_different;
};

static const struct timing TIMINGS[] = {
    {"irr", irr_one, 16, 2 * PAIRS, 128, 128},
    {"in, 31 nested some of top", in_some_top, 16, 2 * PAIRS, 0, 0},
    {"in, 31 nested some of an empty concept", in_some_empty, 16, 2 * PAIRS, 1, 1},
    {"sub, 30 nested some of top", sub_some_top, 16, 2 * PAIRS, 128, 128},
    {"sub, 30 nested some of an empty concept", sub_some_empty, 16, 2 * PAIRS, 0, 0},
    {"sub, 30 nested at least 8 of top", sub_eight_top, 16, 2 * PAIRS, 0, 128},
    {"sub, 30 nested at least 8 of an empty concept", sub_eight_empty, 16, 2 * PAIRS, 0, 0},
    {"sub, one at least 8 of top", sub_eight, 16, 2 * PAIRS, 0, 128},
    {"sub, one at least 8 of an inverse of top", sub_eight_inverse, 16, 2 * PAIRS, 0, 128},
    {"sub, wide tree of 15 ands", sub_wide_and, 16, 2 * PAIRS, 128, 128},
    {"sub, deep tree of 15 ands", sub_deep_and, 16, 2 * PAIRS, 128, 128},
    {"chain of 4, nothing found", chain_of_four, 16, 2 * PAIRS, 0, 0},
    {"chain of 4, all pairs found", chain_of_four, 15, 2 * PAIRS, PAIRS, PAIRS},
    {"dis, all pairs found and listed", dis_pair, 16, 2 * PAIRS, PAIRS, PAIRS},
    {"dis, all pairs found, none listed", dis_pair, 16, 0, PAIRS, PAIRS},
    {"rsub, nothing found", rsub_pair, 16, 2 * PAIRS, 0, 0},
    {"rsub, all pairs found and listed", rsub_pair, 15, 2 * PAIRS, PAIRS, PAIRS},
};

/* The rule that is measured, the words of the out list, and the findings due. */
static timed_rule measured_rule;
static size_t measured_room;
static int64_t measured_due;

/* Makes one call; a result that is not due ends the program. */
static void measured_call(void)
{
    static uint64_t out[2 * LARGE_PAIRS];
    limit_call(CALL_SECONDS);
    int64_t got = saltreeve_findings(measured_store.words, measured_store.length, measured_store.items, SALTREEVE_CONCEPTS,
                                     SALTREEVE_ROLES, measured_rule, SALTREEVE_RULE_WORDS, out, measured_room);
    limit_call(0);
    if (got != measured_due) {
        printf("expected %" PRId64 " findings, got %" PRId64 "\n", measured_due, got);
        exit(1);
    }
}

/* Prints the time of a call. */
static void print_time(void)
{
    int calls = 0;
    double start = seconds(), spent = 0;
    for (; calls < TIMED_CALLS && spent < TIMED_SECONDS; calls++) {
        measured_call();
        spent = seconds() - start;
    }
    printf("%12.2f microseconds a call (%d calls, %" PRId64 " findings)\n", spent * 1e6 / calls, calls, measured_due);
}

/* Prints the stack of a call. */
static void print_stack(void)
{
    printf("%8zu bytes of stack\n", stack_used(measured_call));
}

/* The number of findings in the store that is measured, where it is so many in the smaller one. */
static int64_t due_there(int64_t due)
{
    if (due == SALTREEVE_ITEMS)
        return (int64_t)measured_store.items;
    return due == PAIRS ? (int64_t)(measured_store.items * measured_store.items) : due;
}

/* Measures one rule on a store of all items the same or all different, and prints one line. */
static void measure_rule(const struct timing *timing, int merged, void (*print)(void))
{
    fill_same(merged);
    fill_concepts();
    fill_roles(timing->linking);
    timing->build(measured_rule);
    measured_room = timing->room == 0 ? 0 : 2 * measured_store.items * measured_store.items;
    measured_due = due_there(merged ? timing->due_merged : timing->due_different);
    printf("%s%-13s %-46s", measured_store.length == SALTREEVE_WORDS ? "" : "larger store, ", merged ? "all the same" : "all different",
           timing->name);
    fflush(stdout);
    print();
}

/* Measures all rules on both kinds of store. */
static void measure_all(void (*print)(void))
{
    for (int merged = 1; merged >= 0; merged--)
        for (size_t i = 0; i < sizeof TIMINGS / sizeof TIMINGS[0]; i++)
            measure_rule(&TIMINGS[i], merged, print);
}

/* Measures all rules on the smaller store, then on the larger. */
static void measure_sizes(void (*print)(void))
{
    measure_all(print);
    measured_store.length = SALTREEVE_LARGE_WORDS;
    measured_store.row = 8;
    measured_store.items = SALTREEVE_LARGE_ITEMS;
    measure_all(print);
}

/* Prints how much stack each rule takes. */
static void run_stacks(void)
{
    limit_call(0);  /* so that the first call is measured without what finding this function takes */
    measure_sizes(print_stack);
}

/* Prints how long each rule takes. */
static void run_times(void)
{
    measure_sizes(print_time);
}

/* Runs the commands or a measurement. */
int main(int argc, char **argv)
{
    const struct driver driver = {"rule_driver", run_commands, run_stacks, run_times};
    return run_driver(&driver, argc, argv);
}
