/*
 * Asks why something holds, and passes on the answers.
 *
 *   why_driver           reads commands from standard input (see tests/why_test.py)
 *   why_driver --stack   prints how much stack a call takes, for the slowest sheets
 *   why_driver --time    prints the processor time of a call, for the same sheets
 *
 * The last two read sheets of examples/, so they are run from the folder above it. The
 * commands are words and decimal numbers parted by blanks. A list of words is written as
 * its length, then how many words are not 0, then an index and a value for each of these:
 *
 *   part NAME NUMBER          names the part of the test that comes next
 *   sheet LENGTH BYTES        lends a sheet
 *   after LIST                says which words are due in a store
 *   store LENGTH TOUCHED      lends a store of LENGTH words for the calls that follow; if
 *                             TOUCHED is 1 it is to hold the words of `after`, else what it held
 *   cell AMPLE KIND A B C     asks for a cell by number
 *   finding AMPLE RULE ITEM   asks for a finding by number
 *   text AMPLE LENGTH BYTES   asks a question in a line of text
 *
 * Each question is asked with a list or room of AMPLE entries, and then with none, half as many
 * as the answer has, one less, as many, and one more. For each call a line is printed:
 *
 *   answer ENTRIES RESULT CHANGED LIST
 *
 * where ENTRIES were lent, and LIST are those up to the last one that was changed, bytes in
 * hexadecimal. The sheet, the question, the store and the bytes kept around all that is lent are
 * compared here: a difference is printed and ends the program with 1. A store has garbage before a
 * call, other each time, or what the call before left. A call that fails, or does not come back
 * within some seconds, ends the program by a signal; which call it was is printed.
 */
#define _XOPEN_SOURCE 600

#include "measured_sheet.h"

enum { LEFT_EVERY = 4, RIGHT_CONCEPT = 1000000 };

/* What an entry of a list is before a call. */
static const uint32_t LIST_FILL = 0xC3A5C3A5;

/* The sorts of questions. */
enum sort { CELL, FINDING, TEXT };

/* A question: the numbers of a cell or of a finding. */
struct question {
    enum sort sort;
    uint64_t numbers[4];
};

/* What is lent, what is due, and where the test is. */
static struct {
    struct lent sheet, line, store, after, out;
    size_t store_length;
    int touched;  /* whether the words of `after` are due */
    struct place place;
} run;

/* Lends a store of garbage; now and then it stays as the call before left it. */
static void lend_store(void)
{
    if (run.place.calls % LEFT_EVERY != 0 || run.store.length != run.store_length)
        lend_garbage(&run.store, run.place.calls, run.store_length);
    if (run.touched && run.after.length != run.store_length)
        stop("the store has another length");
    if (run.touched)
        memcpy(run.store.due, run.after.due, run.store_length * sizeof(uint64_t));
}

/* Makes a call. */
static int64_t make_call(const struct question *asked)
{
    const uint64_t *n = asked->numbers;
    if (asked->sort == TEXT)
        return saltreeve_why(run.sheet.entries, run.sheet.length, run.line.entries, run.line.length,
                             run.out.entries, run.out.length);
    if (asked->sort == FINDING)
        return saltreeve_explain_finding(run.sheet.entries, run.sheet.length, run.store.entries, run.store.length,
                                         n[0], n[1], run.out.entries, run.out.length);
    return saltreeve_explain(run.sheet.entries, run.sheet.length, run.store.entries, run.store.length,
                             n[0], n[1], n[2], n[3], run.out.entries, run.out.length);
}

/* Ends the program if something that is lent is not what it should be; `other` is the store, or the question. */
static void compare_lent(const struct lent *other)
{
    if (as_due(&run.sheet) && as_due(other) && guards_stand(&run.out))
        return;
    printf("%s", place_text);
    print_entries("sheet", &run.sheet);
    print_entries(other == &run.store ? "store" : "question", other);
    if (!guards_stand(&run.out))
        printf("a byte outside the list or room was changed\n");
    exit(1);
}

/* How many entries there are up to the last one that was changed. */
static size_t changed(const struct lent *out)
{
    size_t count = out->length;
    while (count > 0 && get_entry(out->entries, out->width, count - 1) == get_entry(out->due, out->width, count - 1))
        count--;
    return count;
}

/* Prints the answer of a call. */
static void print_answer(const struct lent *out, int64_t result)
{
    size_t count = changed(out);
    printf("answer %zu %" PRId64 " %zu ", out->length, result, count);
    for (size_t i = 0; i < count; i++)
        printf(out->width == 1 ? "%02" PRIx64 : "%" PRIu64 " ", get_entry(out->entries, out->width, i));
    printf("\n");
    fflush(stdout);
}

/* Asks a question with so many entries; gives the result. */
static int64_t ask_with(const struct question *asked, size_t entries)
{
    int is_text = asked->sort == TEXT;
    next_call(&run.place, entries);
    if (!is_text)
        lend_store();
    lend(&run.out, is_text ? 1 : sizeof(uint32_t), entries, is_text ? GUARD_BYTE : LIST_FILL);
    limit_call(CALL_SECONDS);
    int64_t result = make_call(asked);
    limit_call(0);
    compare_lent(is_text ? &run.line : &run.store);
    print_answer(&run.out, result);
    return result;
}

/* Asks a question with an ample list or room, and then with those around the length of the answer. */
static void ask(const struct question *asked, size_t ample)
{
    int64_t result = ask_with(asked, ample);
    size_t length = result < 0 ? 0 : (size_t)(asked->sort == FINDING ? result % RIGHT_CONCEPT : result);
    if (length > ample)
        length = ample;
    size_t tried[] = {0, length / 2, length > 0 ? length - 1 : 0, length, length + 1};
    for (size_t i = 0; i < COUNT(tried); i++)
        if (i == 0 || tried[i] > tried[i - 1])
            ask_with(asked, tried[i]);
}

/* Reads a question by number and asks it. */
static void do_numbers(enum sort sort)
{
    struct question asked = {sort, {0}};
    size_t ample = read_number();
    for (int i = 0; i < (sort == CELL ? 4 : 2); i++)
        asked.numbers[i] = read_number();
    ask(&asked, ample);
}

/* Reads a question in a line and asks it. */
static void do_text(void)
{
    struct question asked = {TEXT, {0}};
    size_t ample = read_number();
    lend_bytes(&run.line);
    ask(&asked, ample);
}

/* Says which store is lent from now on. */
static void do_store(void)
{
    run.store_length = read_number();
    run.touched = read_number() == 1;
}

/* Carries out a command. */
static void do_command(const char *word)
{
    if (strcmp(word, "sheet") == 0)
        lend_bytes(&run.sheet);
    else if (strcmp(word, "after") == 0)
        lend_list(&run.after);
    else if (strcmp(word, "store") == 0)
        do_store();
    else if (strcmp(word, "cell") == 0)
        do_numbers(CELL);
    else if (strcmp(word, "finding") == 0)
        do_numbers(FINDING);
    else if (strcmp(word, "text") == 0)
        do_text();
    else
        stop("unknown command");
}

/* Carries out all commands. */
static void run_commands(void)
{
    struct lent *const lists[] = {&run.sheet, &run.line, &run.store, &run.after, &run.out};
    carry_out(&run.place, do_command, lists, COUNT(lists));
}

/* --- Measuring: the slowest sheets that we know, and catalogues. --- */

enum { KINDS = 6, MOST_LINES = 8192, MOST_CELLS = 24, ROOM_BYTES = 65536, AGAIN = 3 };

/* The longest that the cells of a kind are measured, in seconds of processor time. */
static const double KIND_SECONDS = 0.4;

/* A cell by number. */
struct cell {
    uint64_t kind, a, b, c;
};

/* What is asked of the sheet that is measured, and what came out. */
static struct cell measured_cell;
static const char *measured_question;
static uint64_t measured_words[SALTREEVE_WORDS];
static uint32_t measured_list[MOST_LINES];
static uint8_t measured_room[ROOM_BYTES];
static int64_t measured_result;

/* Fills the sheet with links between items, but for so many bytes. */
static void fill_links(size_t left)
{
    for (int i = 0; measured_length + left + 16 < SALTREEVE_SHEET; i++)
        add("rel\t%c\ti%d\ti%d\n", LETTERS[i % SALTREEVE_ROLES], i % SALTREEVE_ITEMS, i / 7 % SALTREEVE_ITEMS);
}

/* Adds a chain of 127 `same`, from the first item or from the last. */
static void add_chain(int turned)
{
    for (int i = 0; i < SALTREEVE_ITEMS - 1; i++) {
        int at = turned ? SALTREEVE_ITEMS - 2 - i : i;
        add("same\ti%d\ti%d\n", at, at + 1);
    }
}

/* A chain, then links. */
static void chain_first(void)
{
    add_names();
    add_chain(0);
    fill_links(0);
}

/* The same, the chain from its end. */
static void chain_first_turned(void)
{
    add_names();
    add_chain(1);
    fill_links(0);
}

/* Links, then a chain. */
static void chain_last(void)
{
    add_names();
    fill_links(16 * SALTREEVE_ITEMS);
    add_chain(0);
}

/* The same, the chain from its end. */
static void chain_last_turned(void)
{
    add_names();
    fill_links(16 * SALTREEVE_ITEMS);
    add_chain(1);
}

/* 500 role steps around in a cycle with one turn in it, the last ones first, and links. */
static void role_cycle(void)
{
    add_names();
    for (int i = 499; i >= 0; i--) {
        int at = i % SALTREEVE_ROLES;
        add("runder\t%c\t%s%c\n", LETTERS[at], at == SALTREEVE_ROLES - 1 ? "~" : "", LETTERS[(at + 1) % SALTREEVE_ROLES]);
    }
    add("rel\tA\ti0\ti1\n");
    fill_links(0);
}

/* 2,400 role steps between 16 roles, and a link. */
static void role_steps(void)
{
    add_names();
    add("rel\tA\ti0\ti1\n");
    for (int i = 0; i < 2400; i++)
        add("runder\t%c\t%c\n", LETTERS[i % SALTREEVE_ROLES], LETTERS[(i + i / SALTREEVE_ROLES) % SALTREEVE_ROLES]);
    add("runder\tP\t~A\n");
}

/* Every family under every other one, and an item in each. */
static void unders(void)
{
    add_names();
    for (int step = SALTREEVE_CONCEPTS - 1; step > 0; step--)
        for (int i = 0; i < SALTREEVE_CONCEPTS; i++)
            add("under\tC%d\tC%d\n", i, (i + step) % SALTREEVE_CONCEPTS);
    add_numbered(SALTREEVE_CONCEPTS, "in\ti%d\tC%d\n");
}

/* All items one article, thousands of links. */
static void one_article(void)
{
    add_names();
    add_numbered(SALTREEVE_ITEMS, "same\ti%d\ti%d\n");
    add_numbered(SALTREEVE_ITEMS, "in\ti%d\tC0\n");
    fill_links(0);
}

/* The same, the links first. */
static void one_article_last(void)
{
    add_names();
    fill_links(28 * SALTREEVE_ITEMS);
    add_numbered(SALTREEVE_ITEMS, "same\ti%d\ti%d\n");
    add_numbered(SALTREEVE_ITEMS, "in\ti%d\tC0\n");
}

/* The catalogue of examples/. */
static void catalogue(void)
{
    add_file("examples/catalogue.sheet");
}

/* A catalogue of 128 codes: families under families, links under links, a few codes for one article. */
static void catalogue_128(void)
{
    add_names();
    for (int i = 1; i < SALTREEVE_CONCEPTS; i++)
        add("under\tC%d\tC%d\n", i, (i - 1) / 2);
    add("runder\tB\tA\nrunder\tC\t~A\nrunder\tD\tB\n");
    for (int i = 0; i < SALTREEVE_ITEMS; i++) {
        add("in\ti%d\tC%d\n", i, 1 + i % (SALTREEVE_CONCEPTS - 1));
        add("rel\t%c\ti%d\ti%d\n", LETTERS[i % 5], i, (7 * i + 3) % SALTREEVE_ITEMS);
    }
    for (int i = 0; i < SALTREEVE_ITEMS; i += 16)
        add("same\ti%d\ti%d\n", i, i + 5);
    add_numbered(8, "rule\tsub\tC%d\tC%d\n");
}

/* A sheet to be measured: how it is made, a question, and a cell with the least number of lines of its reason. */
struct measured {
    const char *name;
    void (*begin)(void);
    const char *question;
    struct cell cell;
    int64_t least;
};

static const struct measured SHEETS[] = {
    {"127 same, then links", chain_first, "same\ti0\ti127", {0, 0, 127, 0}, 127},
    {"127 same from the end, then links", chain_first_turned, "same\ti127\ti0", {0, 127, 0, 0}, 127},
    {"links, then 127 same", chain_last, "same\ti0\ti127", {0, 0, 127, 0}, 127},
    {"links, then 127 same from the end", chain_last_turned, "same\ti127\ti0", {0, 127, 0, 0}, 127},
    {"500 runders in a cycle, links", role_cycle, "runder\tA\t~P", {3, 0, 15, 0}, 16},
    {"2,400 runders, a link", role_steps, "rel\tP\ti1\ti0", {5, 1, 0, 15}, 1},
    {"992 unders", unders, "in\ti0\tC31", {4, 0, 31, 0}, 1},
    {"one article, then links", one_article, "same\ti0\ti64", {0, 0, 64, 0}, 1},
    {"links, then one article", one_article_last, "same\ti0\ti64", {0, 0, 64, 0}, 1},
    {"a catalogue of 128 codes", catalogue_128, "in\ti30\tC0", {4, 30, 0, 0}, 2},
    {"examples/catalogue.sheet", catalogue, "in\tHX-01\tPart", {4, 11, 0, 0}, 1},
};

/* Writes the sheet that is to be measured, and what is asked of it. */
static void build(const struct measured *measured)
{
    measured_length = 0;
    measured->begin();
    measured_cell = measured->cell;
    measured_question = measured->question;
}

/* Asks for the cell that is measured. */
static void explain_measured(void)
{
    const struct cell *cell = &measured_cell;
    measured_result = saltreeve_explain((const uint8_t *)measured_sheet, measured_length, measured_words, SALTREEVE_WORDS,
                                        cell->kind, cell->a, cell->b, cell->c, measured_list, MOST_LINES);
}

/* Asks the question that is measured. */
static void why_measured(void)
{
    measured_result = saltreeve_why((const uint8_t *)measured_sheet, measured_length, (const uint8_t *)measured_question,
                                    strlen(measured_question), measured_room, ROOM_BYTES);
}

/* Ends the program if what came out is less than was due. */
static void require_least(const char *name, int64_t least)
{
    if (measured_result >= least)
        return;
    printf("%s: at least %" PRId64 " expected, got %" PRId64 "\n", name, least, measured_result);
    exit(1);
}

/* Prints how much stack each sheet takes. */
static void print_stacks(void)
{
    for (size_t i = 0; i < COUNT(SHEETS); i++) {
        build(&SHEETS[i]);
        size_t explaining = stack_used(explain_measured);
        require_least(SHEETS[i].name, SHEETS[i].least);
        size_t telling = stack_used(why_measured);
        require_least(SHEETS[i].name, 1);
        printf("%-36s %8zu bytes of stack by number, %8zu with the text\n", SHEETS[i].name, explaining, telling);
    }
}

/* The least time of a call out of some. */
static double least_time(void (*call)(void))
{
    double least = 0;
    for (int i = 0; i < AGAIN; i++) {
        double start = seconds();
        call();
        double spent = seconds() - start;
        least = i == 0 || spent < least ? spent : least;
    }
    return least;
}

/* Whether a cell is true in the store that the last call left; numbers past the tables' ends are none. */
static int is_true(const struct cell *cell)
{
    uint64_t a = cell->a, b = cell->b;
    size_t words[KINDS] = {2 * a + b / 64, 256 + a, 288 + a, 288 + a, 304 + a, 432 + 2 * (128 * cell->c + a) + b / 64};
    uint64_t bits[KINDS] = {b % 64, b, b, 16 + b, b, b % 64};
    return measured_words[words[cell->kind]] >> bits[cell->kind] & 1;
}

/* The cell of a kind that has a number among all that a store has room for; 0 if there are no more. */
static int cell_at(struct cell *cell, uint64_t kind, uint64_t number)
{
    static const uint64_t FIRSTS[KINDS] = {SALTREEVE_ITEMS, SALTREEVE_CONCEPTS, SALTREEVE_ROLES, SALTREEVE_ROLES,
                                           SALTREEVE_ITEMS, SALTREEVE_ITEMS};
    static const uint64_t SECONDS[KINDS] = {SALTREEVE_ITEMS, SALTREEVE_CONCEPTS, SALTREEVE_ROLES, SALTREEVE_ROLES,
                                            SALTREEVE_CONCEPTS, SALTREEVE_ITEMS};
    uint64_t first = FIRSTS[kind], second = SECONDS[kind], third = kind == 5 ? SALTREEVE_ROLES : 1;
    *cell = (struct cell){kind, number / second % first, number % second, number / second / first};
    return number < first * second * third;
}

/* Chooses true cells of a kind, spread over the store; how many. */
static size_t choose_cells(struct cell *chosen, uint64_t kind)
{
    struct cell cell;
    size_t found = 0, count = 0;
    for (uint64_t n = 0; cell_at(&cell, kind, n); n++)
        found += (size_t)is_true(&cell);
    size_t step = found / MOST_CELLS + 1, at = 0;
    for (uint64_t n = 0; cell_at(&cell, kind, n); n++)
        if (is_true(&cell) && at++ % step == 0 && count < MOST_CELLS)
            chosen[count++] = cell;
    return count;
}

/* The longest time of a call for a cell of a kind; 0 if no cell of it is true. */
static double kind_time(const struct measured *measured, uint64_t kind)
{
    struct cell cells[MOST_CELLS];
    size_t count = choose_cells(cells, kind);
    double start = seconds(), longest = 0;
    for (size_t i = 0; i < count && seconds() - start < KIND_SECONDS; i++) {
        measured_cell = cells[i];
        double time = least_time(explain_measured);
        require_least(measured->name, 0);
        longest = time > longest ? time : longest;
    }
    return longest;
}

/* Prints how long each sheet takes. */
static void print_times(void)
{
    printf("%-36s %s\n", "milliseconds a call, the longest:",
           " bytes     cell     text     same    under   runder  ~runder       in      rel");
    for (size_t i = 0; i < COUNT(SHEETS); i++) {
        build(&SHEETS[i]);
        double cell = least_time(explain_measured);
        require_least(SHEETS[i].name, SHEETS[i].least);
        printf("%-36s %6zu %8.3f", SHEETS[i].name, measured_length, cell * 1e3);
        printf(" %8.3f", least_time(why_measured) * 1e3);
        require_least(SHEETS[i].name, 1);
        for (uint64_t kind = 0; kind < KINDS; kind++)
            printf(" %8.3f", kind_time(&SHEETS[i], kind) * 1e3);
        printf("\n");
        fflush(stdout);
    }
}

/* Runs the commands or a measurement. */
int main(int argc, char **argv)
{
    const struct driver driver = {"why_driver", run_commands, print_stacks, print_times};
    return run_driver(&driver, argc, argv);
}
