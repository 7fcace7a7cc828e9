/*
 * Calls the sheet check as the order-entry host does, and compares.
 *
 *   host_driver           reads commands from standard input (see tests/host_test.py)
 *   host_driver --stack   prints how much stack a call takes, for some sheets, and how
 *                         much the check in a lent store does
 *   host_driver --time    prints the processor time of a call, for the same sheets
 *
 * The last two read sheets of examples/, so they are run from the folder above it. The
 * commands are words and decimal numbers parted by blanks.
 *
 *   part NAME NUMBER     names the part of the test that comes next
 *   sheet LENGTH BYTES   lends a sheet
 *   text LENGTH BYTES    says which text is due for it
 *   call ROOMS           makes calls; ROOMS is a number and so many lengths of
 *                        rooms. A room that the text fits into is to hold it, and
 *                        its length is the result; otherwise the result is -8
 *
 * After every call the result and all bytes of the sheet and the room are compared,
 * also those kept around them. The first difference is printed and ends the program
 * with 1. A call that fails, or does not come back within some seconds, ends it by a
 * signal; which call it was is printed.
 */
#define _XOPEN_SOURCE 600

#include "measured_sheet.h"

/* What is lent, what is due, and where the test is. */
static struct {
    struct lent sheet, text, room;
    struct place place;
} run;

/* Makes calls with rooms of some lengths. */
static void do_call(void)
{
    const struct named lists[] = {{"sheet", &run.sheet}, {"room", &run.room}};
    for (uint64_t left = read_number(); left > 0; left--) {
        lend_room_for(&run.room, read_number(), &run.text);
        next_call(&run.place, run.room.length);
        limit_call(CALL_SECONDS);
        int64_t got = saltreeve_check(run.sheet.entries, run.sheet.length, run.room.entries, run.room.length);
        limit_call(0);
        compare_call(text_result(&run.text, &run.room), got, lists, COUNT(lists));
    }
}

/* Carries out a command. */
static void do_command(const char *word)
{
    if (strcmp(word, "sheet") == 0)
        lend_bytes(&run.sheet);
    else if (strcmp(word, "text") == 0)
        lend_bytes(&run.text);
    else if (strcmp(word, "call") == 0)
        do_call();
    else
        stop("unknown command");
}

/* Carries out all commands. */
static void run_commands(void)
{
    struct lent *const lists[] = {&run.sheet, &run.text, &run.room};
    carry_out(&run.place, do_command, lists, COUNT(lists));
}

/* --- Measuring: sheets at the limits, and the rules that go deepest. --- */

/* How long each sheet is checked over and over, in seconds of processor time. */
static const double TIMED_SECONDS = 0.5;

/* Where the text of the sheet that is measured is written, and what came out. */
static uint8_t measured_room[SALTREEVE_TEXT];
static int64_t measured_result;

/* Puts every role under every other one and its inverse. */
static void join_roles(void)
{
    add_lettered(SALTREEVE_ROLES, "runder\t%c\t%c\n");
    add("runder\tA\t~A\n");
}

/* The first example. */
static void worked(void)
{
    add_file("examples/blades.sheet");
}

/* The catalogue. */
static void catalogue(void)
{
    add_file("examples/catalogue.sheet");
}

/* The header and empty lines, as many as a sheet holds. */
static void empty_lines(void)
{
    add("sheet\t1\n");
    while (measured_length < SALTREEVE_SHEET)
        add("\n");
}

/* All items are one article, and every role links it to itself. */
static void one_article(void)
{
    add_names();
    add_lettered(SALTREEVE_ROLES, "rel\t%c\ti0\ti1\n");
    add_numbered(SALTREEVE_ITEMS, "same\ti%d\ti%d\n");
}

/* 3,000 links between 66 items. */
static void links(void)
{
    int count = sizeof LETTERS - 1;
    add("sheet\t1\n");
    add_lettered(SALTREEVE_ROLES, "role\t%c\n");
    add_lettered(count, "item\t%c\n");
    join_roles();
    for (int i = 0; i < 3000; i++)
        add("rel\t%c\t%c\t%c\n", LETTERS[i % SALTREEVE_ROLES], LETTERS[i % count], LETTERS[(i + i / count) % count]);
}

/* Families under families, 500 times, with an item in each. */
static void unders(void)
{
    add_names();
    add_numbered(SALTREEVE_CONCEPTS, "in\ti%d\tC%d\n");
    for (int i = 0; i < 500; i++)
        add("under\tC%d\tC%d\n", i % SALTREEVE_CONCEPTS, (i + 1 + i / SALTREEVE_CONCEPTS) % SALTREEVE_CONCEPTS);
}

/* Items linked in rings, all different. */
static void rings(void)
{
    add_names();
    add("runder\tA\t~B\n");
    add_numbered(SALTREEVE_CONCEPTS, "in\ti%d\tC0\n");
    add_numbered(SALTREEVE_ITEMS, "rel\tA\ti%d\ti%d\n");
    add_numbered(SALTREEVE_ITEMS, "rel\tC\ti%d\ti%d\n");
    add_numbered(SALTREEVE_ITEMS, "rel\tD\ti0\ti%d\n");
}

/* One article with names of 24 bytes, and rules on lines of five digits. */
static void long_names(void)
{
    add("sheet\t1\nrole\tA\n");
    add_numbered(SALTREEVE_ITEMS, "item\t%024d\n");
    add_numbered(SALTREEVE_ITEMS, "same\t%024d\t%024d\n");
    add("rel\tA\t%024d\t%024d\n", 0, 0);
    add_numbered(10000, "\n");
}

/* One article, all roles joined, and 2,400 lines that join them again. */
static void role_steps(void)
{
    one_article();
    join_roles();
    for (int i = 0; i < 2400; i++)
        add("runder\t%c\t%c\n", LETTERS[i % SALTREEVE_ROLES], LETTERS[i / SALTREEVE_ROLES % SALTREEVE_ROLES]);
}

/* A text again and again. */
#define TIMES_5(text) text text text text text
#define TIMES_15(text) TIMES_5(text) TIMES_5(text) TIMES_5(text)
#define TIMES_30(text) TIMES_15(text) TIMES_15(text)
#define TIMES_31(text) TIMES_30(text) text

/* Sixteen rules; those with expressions have 32 nodes. */
static const char ALL_KINDS[] =
    "rule\tsub\ttop" TIMES_30("\tsome\tA") "\ttop\n"
    "rule\tsub\ttop" TIMES_30("\tsome\t~B") "\ttop\n"
    "rule\tsub\ttop" TIMES_15("\tnot\tatleast\t8\t~D") "\tC0\n"
    "rule\tsub\ttop" TIMES_15("\tatmost\t7\tC") "\ttop\n"
    "rule\tsub\ttop" TIMES_5("\tall\tA\tall\t~C") "\tC0\n"
    "rule\tsub" TIMES_30("\tnot") "\tC0\ttop\n"
    "rule\tsub" TIMES_15("\tand") TIMES_15("\tC0") "\ttop\ttop\n"
    "rule\tsub\ttop" TIMES_15("\tand\tself\tA") "\tone\ti5\n"
    "rule\tsub\ttop" TIMES_5("\tor\tC0") "\tor\tC1\tC2\n"
    "rule\tin" TIMES_31("\tsome\tC") "\ttop\ti0\n"
    "rule\tchain\t~A\t~B\t~C\t~D\tE\n"
    "rule\trsub\tA\t~C\n"
    "rule\tdis\tA\tC\n"
    "rule\tref\tD\n"
    "rule\tnorel\t~A\ti1\ti0\n"
    "rule\tdiffer\ti0\ti1\n";

/* A sheet to be measured: how it begins, a text that follows so many times, and the length of what is printed. */
struct measured {
    const char *name;
    void (*begin)(void);
    const char *rules;
    int times;
    int64_t due;
};

static const struct measured SHEETS[] = {
    {"the worked sheet", worked, "", 0, 25},
    {"the catalogue", catalogue, "", 0, 339},
    {"32,760 empty lines", empty_lines, "", 0, 8},
    {"one article, 64 rules of 32 nodes", one_article, "rule\tsub\ttop" TIMES_30("\tsome\t~A") "\ttop\n", 64, 8},
    {"3,000 links, two rules", links, "rule\tirr\tA\nrule\tchain\tA\tB\tC\n", 1, 999},
    {"500 unders, a rule", unders, "rule\tsub\ttop\tC0\n", 1, 1573},
    {"64 rules of sixteen kinds", rings, ALL_KINDS, 4, 3233},
    {"the longest text", long_names, "rule\tdis\tA\t~A\n", 64, SALTREEVE_TEXT},
    {"2,400 runders, 64 chains of inverses", role_steps, "rule\tchain\t~A\t~B\t~C\t~D\tE\n", 64, 8},
};

static const struct measured DEEPEST[] = {
    {"31 nested nots", one_article, "rule\tin" TIMES_31("\tnot") "\ttop\ti0\n", 1, 23},
    {"31 nested nots of one item", one_article, "rule\tin" TIMES_31("\tnot") "\tone\ti0\ti0\n", 1, 23},
    {"31 nested some", one_article, "rule\tin" TIMES_31("\tsome\tA") "\ttop\ti0\n", 1, 8},
    {"31 nested some of an inverse", one_article, "rule\tin" TIMES_31("\tsome\t~A") "\ttop\ti0\n", 1, 8},
    {"31 nested at least 8", one_article, "rule\tin" TIMES_31("\tatleast\t8\tA") "\ttop\ti0\n", 1, 23},
    {"15 nested at most 7", one_article, "rule\tin" TIMES_15("\tatmost\t7\tA") "\ttop\ti0\n", 1, 8},
    {"10 nested all", one_article, "rule\tin" TIMES_5("\tall\tA\tall\t~B") "\ttop\ti0\n", 1, 8},
    {"15 ands, each left in the one before", one_article,
     "rule\tin" TIMES_15("\tand") TIMES_15("\ttop") "\ttop\ti0\n", 1, 8},
    {"15 ands, each right in the one before", one_article, "rule\tin" TIMES_15("\tand\ttop") "\ttop\ti0\n", 1, 8},
    {"6 nested ors", one_article, "rule\tin" TIMES_5("\tor\ttop") "\tor\ttop\ttop\ti0\n", 1, 8},
    {"sub, 30 nested some and a name", one_article, "rule\tsub" TIMES_30("\tsome\tA") "\ttop\tC0\n", 1, 2076},
    {"sub, a name and 30 nested some", one_article, "rule\tsub\tC0" TIMES_30("\tsome\tA") "\ttop\n", 1, 8},
    {"120 nested nots, refused", one_article,
     "rule\tin" TIMES_30("\tnot") TIMES_30("\tnot") TIMES_30("\tnot") TIMES_30("\tnot") "\ttop\ti0\n", 1, 15},
};

/* Writes the sheet that is to be measured. */
static void build(const struct measured *measured)
{
    measured_length = 0;
    measured->begin();
    for (int i = 0; i < measured->times; i++)
        add("%s", measured->rules);
}

/* Checks the sheet that is measured. */
static void check_measured(void)
{
    measured_result = saltreeve_check((const uint8_t *)measured_sheet, measured_length, measured_room, SALTREEVE_TEXT);
}

/* Checks it in a lent store. */
static void check_measured_in(void)
{
    static uint64_t words[SALTREEVE_WORDS];
    measured_result = saltreeve_check_in((const uint8_t *)measured_sheet, measured_length, words, SALTREEVE_WORDS,
                                         measured_room, SALTREEVE_TEXT);
}

/* Ends the program if what came out is not what was due. */
static void require_due(const struct measured *measured)
{
    if (measured_result == measured->due)
        return;
    printf("%s: expected %" PRId64 ", got %" PRId64 "\n", measured->name, measured->due, measured_result);
    exit(1);
}

/* Prints how much stack each sheet takes. */
static void print_stacks(const struct measured *sheets, size_t count)
{
    for (size_t i = 0; i < count; i++) {
        build(&sheets[i]);
        size_t used = stack_used(check_measured);
        require_due(&sheets[i]);
        size_t used_in = stack_used(check_measured_in);
        require_due(&sheets[i]);
        printf("%-40s %8zu bytes of stack, %8zu in a lent store\n", sheets[i].name, used, used_in);
    }
}

/* The mean time of a call for the sheet that is measured. */
static double mean_time(void)
{
    double start = seconds(), spent = 0;
    int calls = 0;
    for (; spent < TIMED_SECONDS; calls++) {
        check_measured();
        spent = seconds() - start;
    }
    return spent / calls;
}

/* Prints how long each sheet takes. */
static void print_times(const struct measured *sheets, size_t count)
{
    for (size_t i = 0; i < count; i++) {
        build(&sheets[i]);
        double time = mean_time();
        require_due(&sheets[i]);
        printf("%-40s %8zu bytes %12.3f milliseconds a call\n", sheets[i].name, measured_length, time * 1e3);
    }
}

/* Prints how much stack each sheet takes. */
static void run_stacks(void)
{
    print_stacks(SHEETS, COUNT(SHEETS));
    print_stacks(DEEPEST, COUNT(DEEPEST));
}

/* Prints how long each sheet takes. */
static void run_times(void)
{
    print_times(SHEETS, COUNT(SHEETS));
}

/* Runs the commands or a measurement. */
int main(int argc, char **argv)
{
    const struct driver driver = {"host_driver", run_commands, run_stacks, run_times};
    return run_driver(&driver, argc, argv);
}
