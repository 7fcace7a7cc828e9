/*
 * Checks sheets in lent stores, and compares.
 *
 *   read_driver                  reads commands from standard input (see tests/read_test.py)
 *   read_driver --time SHEET..   prints the mean time of checking the worst sheets, those of
 *                                edition 2 with the larger store, and those in the files given
 *
 * The commands are words and decimal numbers parted by blanks. A list of words is
 * written as its length, then how many words are not 0, then an index and a value for
 * each of these:
 *
 *   part NAME NUMBER     names the part of the test that comes next
 *   sheet LENGTH BYTES   lends a sheet
 *   text LENGTH BYTES    says which text is due
 *   after LIST           says which words are due in the store
 *   untouched            says that the store is to stay as it is
 *   call NUMBER LENGTH ROOM
 *                        makes a call. The store has LENGTH words of garbage, of which
 *                        there is other for each NUMBER; where NUMBER is 0, the store is
 *                        as the call before left it. The room has ROOM bytes: if the text
 *                        fits into them, it is due there, and its length is the result;
 *                        otherwise -8 is due. The words due in the store are so in both cases
 *
 * After every call the result, the sheet, all words of the store and all bytes of the room
 * are compared, also the bytes kept around those lent. The first difference is printed
 * and ends the program with 1. A call that fails, or does not come back within some
 * seconds, ends it by a signal; which call it was is printed.
 */
#define _XOPEN_SOURCE 600

#include "calls.h"
#include "saltreeve.h"

#include <stdarg.h>
#include <time.h>

enum { AS_LEFT = 0 };

/* What is lent, what is due, and where the test is. */
static struct {
    struct lent sheet, store, room;
    struct lent text, after;
    int touched;  /* whether the words of `after` are due */
    struct place place;
} run;

/* Lends all that a call asks for, and says what is due of it. */
static void lend_call(void)
{
    uint64_t number = read_number(), length = read_number();
    if (number != AS_LEFT)
        lend_garbage(&run.store, number, length);
    if (run.store.length != length)
        stop("the store has another length");
    lend_room_for(&run.room, read_number(), &run.text);
    if (run.touched)
        set_all_due(&run.store, &run.after);
}

/* Makes a call. */
static void do_call(void)
{
    const struct named lists[] = {{"sheet", &run.sheet}, {"store", &run.store}, {"room", &run.room}};
    lend_call();
    next_call(&run.place, run.room.length);
    limit_call(CALL_SECONDS);
    int64_t got = saltreeve_check_in(run.sheet.entries, run.sheet.length, run.store.entries, run.store.length,
                                     run.room.entries, run.room.length);
    limit_call(0);
    compare_call(text_result(&run.text, &run.room), got, lists, COUNT(lists));
}

/* Carries out a command. */
static void do_command(const char *word)
{
    if (strcmp(word, "sheet") == 0)
        lend_bytes(&run.sheet);
    else if (strcmp(word, "text") == 0)
        lend_bytes(&run.text);
    else if (strcmp(word, "after") == 0) {
        lend_list(&run.after);
        run.touched = 1;
    } else if (strcmp(word, "untouched") == 0)
        run.touched = 0;
    else if (strcmp(word, "call") == 0)
        do_call();
    else
        stop("unknown command");
}

/* Carries out all commands. */
static void run_commands(void)
{
    struct lent *const lists[] = {&run.sheet, &run.store, &run.room, &run.text, &run.after};
    carry_out(&run.place, do_command, lists, COUNT(lists));
}

/* --- Times --- */

enum {
    RULES = 64, LETTERS = 64, DEPTH = 30, MOST_CALLS = 200
};

static const double TIMED_SECONDS = 1;  /* after which a sheet is checked no more */

/* A sheet that is timed. */
struct timed {
    char bytes[SALTREEVE_SHEET + 1];
    size_t length;
};

/* Adds text to a sheet. */
static void add(struct timed *sheet, const char *text)
{
    size_t length = strlen(text);
    if (sheet->length + length > SALTREEVE_SHEET)
        stop("a timed sheet is too long");
    memcpy(sheet->bytes + sheet->length, text, length);
    sheet->length += length;
}

/* Adds a tab and the name of a number: one letter, or two where there are no more of one. */
static void add_name(struct timed *sheet, size_t number)
{
    static const char NAMES[LETTERS + 1] = "ABCDEFGHIJKLMNOPQRSTUVWXYZabcdefghijklmnopqrstuvwxyz0123456789._";
    char text[] = {'\t', NAMES[number % LETTERS], number < LETTERS ? 0 : '-', 0};
    add(sheet, text);
}

/* Adds a line: a word and some names. */
static void add_line(struct timed *sheet, const char *word, size_t count, const size_t *numbers)
{
    add(sheet, word);
    for (size_t i = 0; i < count; i++)
        add_name(sheet, numbers[i]);
    add(sheet, "\n");
}

/* Adds the declarations of so many names. */
static void declare(struct timed *sheet, const char *word, size_t count)
{
    for (size_t number = 0; number < count; number++)
        add_line(sheet, word, 1, &number);
}

/* Begins a sheet that declares so many items, concepts and roles. */
static void begin(struct timed *sheet, size_t items, size_t concepts, size_t roles)
{
    sheet->length = 0;
    add(sheet, "sheet\t1\n");
    declare(sheet, "concept", concepts);
    declare(sheet, "role", roles);
    declare(sheet, "item", items);
}

/* Begins a sheet with all names; all items are the same, and so many roles link all to all. */
static void begin_merged(struct timed *sheet, size_t linking)
{
    begin(sheet, SALTREEVE_ITEMS, SALTREEVE_CONCEPTS, SALTREEVE_ROLES);
    for (size_t b = 1; b < SALTREEVE_ITEMS; b++)
        add_line(sheet, "same", 2, (size_t[]){0, b});
    for (size_t role = 0; role < linking; role++)
        add_line(sheet, "rel", 3, (size_t[]){role, 0, 0});
}

/* Nothing but the header and empty lines. */
static void line_feeds(struct timed *sheet)
{
    begin(sheet, 0, 0, 0);
    while (sheet->length < SALTREEVE_SHEET)
        add(sheet, "\n");
}

/* A rule of 32 nodes: 30 nested at least 8 of top, under a concept. */
static void add_deep_rule(struct timed *sheet)
{
    add(sheet, "rule\tsub");
    for (size_t level = 0; level < DEPTH; level++) {
        add(sheet, "\tatleast\t8");
        add_name(sheet, level % SALTREEVE_ROLES);
    }
    add(sheet, "\ttop\tA\n");
}

/* All items the same, all roles linked, 64 such rules. */
static void deep_rules(struct timed *sheet)
{
    begin_merged(sheet, SALTREEVE_ROLES);
    for (size_t rule = 0; rule < RULES; rule++)
        add_deep_rule(sheet);
}

/* All items the same, all roles but one linked, 64 chains of four roles under that one: every pair is found. */
static void chains(struct timed *sheet)
{
    begin_merged(sheet, SALTREEVE_ROLES - 1);
    for (size_t rule = 0; rule < RULES; rule++)
        add_line(sheet, "rule\tchain", 5, (size_t[]){0, 1, 2, 3, SALTREEVE_ROLES - 1});
}

/* 3,000 links, no two of them equal. */
static void links(struct timed *sheet)
{
    begin(sheet, LETTERS, 0, SALTREEVE_ROLES);
    for (size_t n = 0; n < 3000; n++)
        add_line(sheet, "rel", 3, (size_t[]){n % SALTREEVE_ROLES, n / LETTERS, n % LETTERS});
}

/* 496 unders: each concept under all later ones, the last ones first. */
static void unders(struct timed *sheet)
{
    begin(sheet, SALTREEVE_ITEMS, SALTREEVE_CONCEPTS, SALTREEVE_ROLES);
    for (size_t over = SALTREEVE_CONCEPTS - 1; over > 0; over--)
        for (size_t under = 0; under < over; under++)
            add_line(sheet, "under", 2, (size_t[]){under, over});
}

/* --- Sheets of edition 2 --- */

enum { BLADES = 400, HUBS = 60, RINGS = 52 };

/* Adds to a sheet, in the manner of printf. */
static void add_text(struct timed *sheet, const char *format, ...)
{
    char text[SALTREEVE_TEXT];
    va_list given;
    va_start(given, format);
    vsnprintf(text, sizeof text, format, given);
    va_end(given);
    add(sheet, text);
}

/* Adds the code of one of 512 items: blades, then hubs, then rings. */
static void add_code(struct timed *sheet, const char *before, size_t item)
{
    if (item < BLADES)
        add_text(sheet, "%sAX-%03zu", before, item + 1);
    else if (item < BLADES + HUBS)
        add_text(sheet, "%sHX-%02zu", before, item - BLADES + 1);
    else
        add_text(sheet, "%sRX-%02zu", before, item - BLADES - HUBS + 1);
}

/* Begins a sheet of edition 2 with so many concepts and roles and 512 items, named by their codes. */
static void begin_large(struct timed *sheet, size_t concepts, size_t roles)
{
    sheet->length = 0;
    add(sheet, "sheet\t2\n");
    declare(sheet, "concept", concepts);
    declare(sheet, "role", roles);
    for (size_t item = 0; item < SALTREEVE_LARGE_ITEMS; item++) {
        add_code(sheet, "item\t", item);
        add(sheet, "\n");
    }
}

/* Makes all items the same, the last ones first. */
static void merge_large(struct timed *sheet)
{
    for (size_t item = SALTREEVE_LARGE_ITEMS - 1; item > 0; item--) {
        add_code(sheet, "same\t", item);
        add_code(sheet, "\t", item - 1);
        add(sheet, "\n");
    }
}

/* Adds a link by a role. */
static void link_large(struct timed *sheet, size_t role, size_t first, size_t second)
{
    add(sheet, "rel");
    add_name(sheet, role);
    add_code(sheet, "\t", first);
    add_code(sheet, "\t", second);
    add(sheet, "\n");
}

/* Adds links by the first role from blades to hubs as long as there is room, and line feeds up to the last byte. */
static void fill_up(struct timed *sheet, const char *rules)
{
    for (size_t blade = 0; blade < BLADES && sheet->length + strlen(rules) + 20 <= SALTREEVE_SHEET; blade++)
        link_large(sheet, 0, blade * 7 % BLADES, BLADES + blade % HUBS);
    add(sheet, rules);
    while (sheet->length < SALTREEVE_SHEET)
        add(sheet, "\n");
}

/* A catalogue of 512 codes and 32,768 bytes: each item in its family, a few the same, links, and rules that are broken. */
static void catalogue_512(struct timed *sheet)
{
    static const char RULES[] = "rule\tsub\tA\tsome\tA\tB\nrule\tsub\tB\tatleast\t2\tB\tA\nrule\tirr\tA\nrule\tdis\tA\tC\n"
        "rule\trsub\tB\t~A\nrule\tchain\tA\tB\tC\nrule\tsub\tC\tall\tC\tC\nrule\tsub\tB\tatmost\t7\tB\tA\n"
        "rule\tdiffer\tAX-001\tAX-400\nrule\trel\tA\tAX-129\tHX-01\nrule\tin\tD\tRX-52\nrule\tsub\tE\tnot\tsome\tA\ttop\n";
    begin_large(sheet, 5, 3);
    add(sheet, "under\tA\tD\nunder\tB\tD\nunder\tC\tD\nrunder\tA\t~B\n");
    for (size_t item = 0; item < SALTREEVE_LARGE_ITEMS; item++) {
        add_code(sheet, "in\t", item);
        add_name(sheet, item < BLADES ? 0 : item < BLADES + HUBS ? 1 : 2);
        add(sheet, "\n");
    }
    for (size_t item = 0; item < 12; item++) {
        add_code(sheet, "same\t", 30 * item);
        add_code(sheet, "\t", 31 * item + 7);
        add(sheet, "\n");
    }
    fill_up(sheet, RULES);
}

/* 512 items and 511 lines that make all of them the same, one by one, each with what is linked to it. */
static void merges_512(struct timed *sheet)
{
    begin_large(sheet, 1, SALTREEVE_ROLES);
    for (size_t role = 0; role < SALTREEVE_ROLES; role++)
        link_large(sheet, role, 0, SALTREEVE_LARGE_ITEMS - 1);
    merge_large(sheet);
}

/* All items the same and linked, then each role under the next one's inverse, around and around. */
static void turns_512(struct timed *sheet)
{
    begin_large(sheet, 0, SALTREEVE_ROLES);
    merge_large(sheet);
    link_large(sheet, 0, 0, 0);
    for (size_t step = 0; sheet->length + 40 <= SALTREEVE_SHEET && step < 16 * SALTREEVE_ROLES; step++) {
        add(sheet, "runder");
        add_name(sheet, step % SALTREEVE_ROLES);
        add_text(sheet, "\t~%c\n", "ABCDEFGHIJKLMNOP"[(step * 7 + 1) % SALTREEVE_ROLES]);
    }
}

/* All items the same and linked by all roles, and as many rules of 30 nested at leasts as there is room for. */
static void deep_512(struct timed *sheet)
{
    begin_large(sheet, 1, SALTREEVE_ROLES);
    merge_large(sheet);
    for (size_t role = 0; role < SALTREEVE_ROLES; role++)
        link_large(sheet, role, 0, 0);
    for (size_t rule = 0; rule < RULES && sheet->length + 500 <= SALTREEVE_SHEET; rule++)
        add_deep_rule(sheet);
}

/* All items the same and linked by all roles but the last, and 64 chains of four roles under that one. */
static void chains_512(struct timed *sheet)
{
    begin_large(sheet, 1, SALTREEVE_ROLES);
    merge_large(sheet);
    for (size_t role = 0; role + 1 < SALTREEVE_ROLES; role++)
        link_large(sheet, role, 0, 0);
    for (size_t rule = 0; rule < RULES; rule++)
        add_line(sheet, "rule\tchain", 5, (size_t[]){0, 1, 2, 3, SALTREEVE_ROLES - 1});
}

/* 512 items, and as many links as there is room for. */
static void links_512(struct timed *sheet)
{
    begin_large(sheet, 0, 4);
    for (size_t n = 0; sheet->length + 30 <= SALTREEVE_SHEET; n++)
        link_large(sheet, n % 4, n * 37 % SALTREEVE_LARGE_ITEMS, n * 101 % SALTREEVE_LARGE_ITEMS);
}

/* The sheets that are timed, the last line of the text of each, and the words of the store. */
static const struct timing {
    const char *name;
    void (*build)(struct timed *);
    const char *due;
    size_t words;
} TIMINGS[] = {
    {"header, then line feeds only", line_feeds, "total\t0\n", SALTREEVE_WORDS},
    {"all same, all linked, 64 rules of 32 nodes", deep_rules, "total\t0\n", SALTREEVE_WORDS},
    {"all same, 64 chains of 4, all pairs found", chains, "total\t1048576\n", SALTREEVE_WORDS},
    {"3,000 links", links, "total\t0\n", SALTREEVE_WORDS},
    {"496 unders", unders, "total\t0\n", SALTREEVE_WORDS},
    {"larger store: header, line feeds", line_feeds, "total\t0\n", SALTREEVE_LARGE_WORDS},
    {"larger store: 512 codes, a catalogue", catalogue_512, "total\t3007\n", SALTREEVE_LARGE_WORDS},
    {"larger store: 512 codes, links", links_512, "total\t0\n", SALTREEVE_LARGE_WORDS},
    {"larger store: 512 made the same", merges_512, "total\t0\n", SALTREEVE_LARGE_WORDS},
    {"larger store: turns after full links", turns_512, "total\t0\n", SALTREEVE_LARGE_WORDS},
    {"larger store: all linked, deep rules", deep_512, "total\t0\n", SALTREEVE_LARGE_WORDS},
    {"larger store: 64 chains, all pairs found", chains_512, "total\t16777216\n", SALTREEVE_LARGE_WORDS},
};

/* The text of the sheet that was timed last. */
static uint8_t timed_text[SALTREEVE_LARGE_TEXT];
static size_t timed_length;

/* Seconds since some fixed moment. */
static double seconds(void)
{
    struct timespec now;
    clock_gettime(CLOCK_MONOTONIC, &now);
    return (double)now.tv_sec + (double)now.tv_nsec / 1e9;
}

/* Checks a sheet some times and prints how long that takes. */
static void time_sheet(const char *name, const struct timed *sheet, size_t length)
{
    static uint64_t words[SALTREEVE_LARGE_WORDS];
    int calls = 0;
    double start = seconds(), spent = 0;
    for (; calls < MOST_CALLS && spent < TIMED_SECONDS; calls++) {
        limit_call(CALL_SECONDS);
        timed_length = (size_t)saltreeve_check_in((const uint8_t *)sheet->bytes, sheet->length, words, length,
                                                  timed_text, sizeof timed_text);
        limit_call(0);
        spent = seconds() - start;
    }
    printf("%-44s %6zu bytes %10.2f milliseconds a sheet (%d calls)\n", name, sheet->length, spent * 1e3 / calls, calls);
}

/* Whether the text of the sheet that was timed last ends so. */
static int ends_in(const char *line)
{
    size_t length = strlen(line);
    return length <= timed_length && memcmp(timed_text + timed_length - length, line, length) == 0;
}

/* Times the worst sheets; a text that is not due ends the program. */
static void time_worst(struct timed *sheet)
{
    for (size_t i = 0; i < COUNT(TIMINGS); i++) {
        TIMINGS[i].build(sheet);
        time_sheet(TIMINGS[i].name, sheet, TIMINGS[i].words);
        if (!ends_in(TIMINGS[i].due))
            stop("a timed sheet comes to something else");
    }
}

/* Times the sheet in a file; one that is refused ends the program. */
static void time_file(struct timed *sheet, const char *name)
{
    FILE *file = fopen(name, "rb");
    if (file == NULL)
        stop("a file cannot be read");
    sheet->length = fread(sheet->bytes, 1, sizeof sheet->bytes, file);
    fclose(file);
    time_sheet(name, sheet, SALTREEVE_WORDS);
    if (timed_text[0] == 'r')
        stop("the sheet in the file is refused");
}

/* Runs the commands or the timing. */
int main(int argc, char **argv)
{
    static struct timed sheet;
    if (argc >= 2 && strcmp(argv[1], "--time") == 0) {
        time_worst(&sheet);
        for (int i = 2; i < argc; i++)
            time_file(&sheet, argv[i]);
    } else if (argc == 1)
        run_commands();
    else {
        fprintf(stderr, "usage: read_driver [--time SHEET..]\n");
        return 2;
    }
    return 0;
}
