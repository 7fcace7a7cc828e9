/*
 * Calls the library's store as a host would, and compares.
 *
 *   store_driver          reads commands from standard input (see tests/store_test.py)
 *   store_driver --time   prints the mean time of an added statement
 *
 * The commands are words and decimal numbers parted by blanks. A list of words
 * is written as their number, then an index and a value for each:
 *
 *   part NAME NUMBER      names the part of the test that comes next
 *   load LENGTH LIST      lends a store of LENGTH words, all 0 but those listed
 *   flip INDEX MASK       turns over the bits of MASK in one word
 *   call KIND ITEMS CONCEPTS ROLES X Y Z RESULT LIST
 *                         makes a call with the numbers X, Y and Z (0 where it has
 *                         fewer); RESULT is due, and LIST has the words that change
 *   all ITEMS CONCEPTS ROLES STATEMENTS PLACES ANSWERS LIST
 *                         adds a list of statements. STATEMENTS is a number and so many
 *                         words; there are PLACES for answers; ANSWERS is a number,
 *                         which is the result due, and so many answers that are due
 *   convert ITEMS CONCEPTS ROLES LENGTH NUMBER RESULT LIST
 *                         moves the store to a target of LENGTH words of garbage, of
 *                         which there is other for each NUMBER; RESULT is due. If it is no
 *                         refusal, the target is due to be 0 but for the words listed
 *   turn                  lends the target of the last conversion as the store
 *   keep                  remembers the store and the sum of the counts since fresh or load
 *   compare               asks that both are as remembered
 *
 * After every call the result and all words are compared, also the words kept
 * around those lent. The first difference is printed and ends the program with 1.
 * A call that does not come back within some seconds ends it by a signal.
 */
#define _XOPEN_SOURCE 600

#include "calls.h"
#include "saltreeve.h"

#include <time.h>

enum { MOST_WORDS = SALTREEVE_WORDS + SALTREEVE_LARGE_WORDS };  /* the longest store that can be loaded */

/* One call: which function, the counts, and up to three numbers. */
struct call {
    char kind[NAME_BYTES];
    uint64_t items, concepts, roles, x, y, z;
};

/* The words lent, what they should be, and where the test is. */
struct run {
    uint64_t *block;  /* guard words, the words lent, guard words */
    uint64_t *words;
    size_t length;
    uint64_t expected[MOST_WORDS];
    int64_t sum;      /* of the counts since the store was fresh or loaded */
    uint64_t kept[MOST_WORDS];
    int64_t kept_sum;
    struct lent target, statements, answers;
    struct place place;
};

/* Reads a list of words into the expected store. */
static void read_list(struct run *run)
{
    for (uint64_t left = read_number(); left > 0; left--) {
        uint64_t index = read_number();
        if (index >= run->length)
            stop("an index is too large");
        run->expected[index] = read_number();
    }
}

/* Reads the numbers of a call. */
static struct call read_call(void)
{
    struct call call;
    if (!read_word(call.kind))
        stop("a call is missing");
    call.items = read_number();
    call.concepts = read_number();
    call.roles = read_number();
    call.x = read_number();
    call.y = read_number();
    call.z = read_number();
    return call;
}

/* Makes a call on some words. */
static int64_t make_call(const struct call *call, uint64_t *w, size_t length)
{
    uint64_t i = call->items, c = call->concepts, r = call->roles;
    if (strcmp(call->kind, "fresh") == 0)
        return saltreeve_fresh(w, length, i, c, r);
    if (strcmp(call->kind, "same") == 0)
        return saltreeve_add_same(w, length, i, c, r, call->x, call->y);
    if (strcmp(call->kind, "under") == 0)
        return saltreeve_add_under(w, length, i, c, r, call->x, call->y);
    if (strcmp(call->kind, "role_under") == 0)
        return saltreeve_add_role_under(w, length, i, c, r, call->x, call->y, call->z);
    if (strcmp(call->kind, "in") == 0)
        return saltreeve_add_in(w, length, i, c, r, call->x, call->y);
    if (strcmp(call->kind, "link") == 0)
        return saltreeve_add_link(w, length, i, c, r, call->x, call->y, call->z);
    stop("unknown call");
    return 0;
}

/* Says where the first difference is. */
static void print_place(const struct run *run)
{
    printf("difference in %s %" PRIu64 ", call %" PRIu64 "\n", run->place.part, run->place.part_number,
           run->place.part_calls);
}

/* Says which call it was. */
static void print_call(const struct run *run, const struct call *call)
{
    print_place(run);
    printf("it was: %s %" PRIu64 " %" PRIu64 " %" PRIu64 ", on %zu words with %" PRIu64 " items, %" PRIu64
           " concepts, %" PRIu64 " roles\n",
           call->kind, call->x, call->y, call->z, run->length, call->items, call->concepts, call->roles);
}

/* Whether the guard words are as they were. */
static int store_guards_stand(const struct run *run)
{
    for (size_t i = 0; i < GUARD_WORDS; i++)
        if (run->block[i] != GUARD || run->words[run->length + i] != GUARD)
            return 0;
    return 1;
}

/* Whether all words of the store, and those around them, are what they should be. */
static int store_as_due(const struct run *run)
{
    return memcmp(run->words, run->expected, run->length * sizeof *run->words) == 0 && store_guards_stand(run);
}

/* Says what was due of the result and of the store. */
static void print_store(const struct run *run, int64_t expected, int64_t got)
{
    printf("result: expected %" PRId64 ", got %" PRId64 "\n", expected, got);
    for (size_t i = 0; i < run->length; i++)
        if (run->words[i] != run->expected[i]) {
            printf("word %zu: expected %016" PRIx64 ", got %016" PRIx64 "\n", i, run->expected[i], run->words[i]);
            break;
        }
    if (!store_guards_stand(run))
        printf("a word outside the store was changed\n");
}

/* Ends the program if the result or a word is not what it should be. */
static void compare_single(const struct run *run, const struct call *call, int64_t expected, int64_t got)
{
    if (expected == got && store_as_due(run))
        return;
    print_call(run, call);
    print_store(run, expected, got);
    exit(1);
}

/* Ends the program if the result, a word of the store or of another list lent is not what it should be. */
static void compare_lists(const struct run *run, const struct call *call, int64_t expected, int64_t got,
                          const struct named *lists, size_t count)
{
    int right = expected == got && store_as_due(run);
    for (size_t i = 0; i < count; i++)
        right = right && as_due(lists[i].lent);
    if (right)
        return;
    print_call(run, call);
    print_store(run, expected, got);
    for (size_t i = 0; i < count; i++)
        print_entries(lists[i].name, lists[i].lent);
    exit(1);
}

/* Notes that the next call comes. */
static void count_call(struct run *run)
{
    run->place.calls++;
    run->place.part_calls++;
}

/* Carries out a call and compares. */
static void do_call(struct run *run)
{
    struct call call = read_call();
    int64_t expected = read_result();
    read_list(run);
    count_call(run);
    limit_call(CALL_SECONDS);
    int64_t got = make_call(&call, run->words, run->length);
    limit_call(0);
    compare_single(run, &call, expected, got);
    if (strcmp(call.kind, "fresh") == 0 && got >= 0)
        run->sum = 0;
    if (got > 0)
        run->sum += got;
}

/* Lends so many words with what is expected of them as a new store. */
static void lend_store(struct run *run)
{
    run->sum = 0;
    free(run->block);
    run->block = malloc((run->length + 2 * GUARD_WORDS) * sizeof *run->block);
    if (run->block == NULL)
        stop("no memory");
    run->words = run->block + GUARD_WORDS;
    for (size_t i = 0; i < GUARD_WORDS; i++)
        run->block[i] = run->words[run->length + i] = GUARD;
    memcpy(run->words, run->expected, run->length * sizeof *run->words);
}

/* Lends a new store. */
static void do_load(struct run *run)
{
    run->length = read_number();
    if (run->length > MOST_WORDS)
        stop("the store is too long");
    memset(run->expected, 0, sizeof run->expected);
    read_list(run);
    lend_store(run);
}

/* Reads the counts of a call of another kind. */
static struct call read_counts(const char *kind)
{
    struct call call = {"", 0, 0, 0, 0, 0, 0};
    strcpy(call.kind, kind);
    call.items = read_number();
    call.concepts = read_number();
    call.roles = read_number();
    return call;
}

/* Reads a list of statements and the answers that are due to them; gives the number of these. */
static int64_t read_statements(struct run *run)
{
    lend(&run->statements, sizeof(uint64_t), read_number(), 0);
    for (size_t i = 0; i < run->statements.length; i++)
        set_due(&run->statements, i, read_number());
    fill(&run->statements);
    lend(&run->answers, sizeof(int64_t), read_number(), GUARD);
    int64_t due = read_result();
    for (int64_t i = 0; i < due; i++) {
        int64_t answer = read_result();
        if ((size_t)i >= run->answers.length)
            stop("there is no place for an answer");
        set_due(&run->answers, (size_t)i, (uint64_t)answer);
        run->sum += answer > 0 ? answer : 0;
    }
    return due;
}

/* Adds a list of statements and compares. */
static void do_all(struct run *run)
{
    const struct named lists[] = {{"statements", &run->statements}, {"answers", &run->answers}};
    struct call call = read_counts("all");
    int64_t due = read_statements(run);
    read_list(run);
    count_call(run);
    limit_call(CALL_SECONDS);
    int64_t got = saltreeve_add_all(run->words, run->length, call.items, call.concepts, call.roles,
                                    run->statements.entries, run->statements.length,
                                    run->answers.entries, run->answers.length);
    limit_call(0);
    compare_lists(run, &call, due, got, lists, COUNT(lists));
}

/* Moves the store to a target and compares. */
static void do_convert(struct run *run)
{
    const struct named lists[] = {{"target", &run->target}};
    struct call call = read_counts("convert");
    size_t length = read_number();
    lend_garbage(&run->target, read_number(), length);
    int64_t due = read_result();
    if (due >= 0)
        memset(run->target.due, 0, length * sizeof(uint64_t));
    for (uint64_t left = read_number(); left > 0; left--) {
        uint64_t index = read_number();
        if (index >= length)
            stop("an index is too large");
        set_due(&run->target, index, read_number());
    }
    call.x = length;
    count_call(run);
    limit_call(CALL_SECONDS);
    int64_t got = saltreeve_convert(run->words, run->length, call.items, call.concepts, call.roles,
                                    run->target.entries, run->target.length);
    limit_call(0);
    compare_lists(run, &call, due, got, lists, COUNT(lists));
}

/* Lends the target of the last conversion as the store, as the library left it. */
static void do_turn(struct run *run)
{
    run->length = run->target.length;
    memset(run->expected, 0, sizeof run->expected);
    memcpy(run->expected, run->target.entries, run->length * sizeof *run->expected);
    lend_store(run);
}

/* Turns over some bits of one word. */
static void do_flip(struct run *run)
{
    uint64_t index = read_number(), mask = read_number();
    if (index >= run->length)
        stop("an index is too large");
    run->words[index] ^= mask;
    run->expected[index] ^= mask;
}

/* Remembers the library's store and the sum of its counts. */
static void do_keep(struct run *run)
{
    memcpy(run->kept, run->words, run->length * sizeof *run->words);
    run->kept_sum = run->sum;
}

/* Ends the program if the store or the sum is not as remembered. */
static void do_compare(struct run *run)
{
    if (memcmp(run->kept, run->words, run->length * sizeof *run->words) == 0 && run->kept_sum == run->sum)
        return;
    print_place(run);
    printf("another order of the statements gave another store or sum of counts: expected sum %" PRId64
           ", got %" PRId64 "\n", run->kept_sum, run->sum);
    exit(1);
}

/* Carries out all commands and says how many calls they were. */
static void run_commands(void)
{
    static struct run run;
    char word[NAME_BYTES];
    while (read_word(word)) {
        if (strcmp(word, "part") == 0)
            do_part(&run.place);
        else if (strcmp(word, "load") == 0)
            do_load(&run);
        else if (strcmp(word, "flip") == 0)
            do_flip(&run);
        else if (strcmp(word, "call") == 0)
            do_call(&run);
        else if (strcmp(word, "all") == 0)
            do_all(&run);
        else if (strcmp(word, "convert") == 0)
            do_convert(&run);
        else if (strcmp(word, "turn") == 0)
            do_turn(&run);
        else if (strcmp(word, "keep") == 0)
            do_keep(&run);
        else if (strcmp(word, "compare") == 0)
            do_compare(&run);
        else
            stop("unknown command");
    }
    free(run.block);
    take_back(&run.target);
    take_back(&run.statements);
    take_back(&run.answers);
    printf("done %" PRIu64 "\n", run.place.calls);
}

/* --- Timing: always 128 items, 32 concepts and 16 roles. --- */

enum {
    TIMED_CALLS = 1000,  /* of each kind */
    ROUND = 5            /* calls before the store is set back, so that it stays as filled */
};

/* A store to be timed on. */
typedef uint64_t store[SALTREEVE_WORDS];

/* The next of a fixed row of numbers that look random, below `limit`. */
static uint64_t draw(uint64_t limit)
{
    static uint64_t state = 17;
    state = state * 6364136223846793005 + 1442695040888963407;
    return (state >> 33) % limit;
}

/* Adds a statement to a store of full counts; the library may not refuse it. */
static int64_t put(store w, const char *kind, uint64_t x, uint64_t y, uint64_t z)
{
    struct call call = {"", SALTREEVE_ITEMS, SALTREEVE_CONCEPTS, SALTREEVE_ROLES, x, y, z};
    strcpy(call.kind, kind);
    int64_t result = make_call(&call, w, SALTREEVE_WORDS);
    if (result < 0) {
        printf("the library refused %s %" PRIu64 " %" PRIu64 " %" PRIu64 ": %" PRId64 "\n", kind, x, y, z, result);
        exit(1);
    }
    return result;
}

/* Adds a statement of a kind, with numbers drawn. */
static int64_t put_drawn(store w, const char *kind)
{
    if (strcmp(kind, "same") == 0)
        return put(w, kind, draw(SALTREEVE_ITEMS), draw(SALTREEVE_ITEMS), 0);
    if (strcmp(kind, "under") == 0)
        return put(w, kind, draw(SALTREEVE_CONCEPTS), draw(SALTREEVE_CONCEPTS), 0);
    if (strcmp(kind, "role_under") == 0)
        return put(w, kind, draw(SALTREEVE_ROLES), draw(SALTREEVE_ROLES), draw(2));
    if (strcmp(kind, "in") == 0)
        return put(w, kind, draw(SALTREEVE_ITEMS), draw(SALTREEVE_CONCEPTS), 0);
    return put(w, kind, draw(SALTREEVE_ROLES), draw(SALTREEVE_ITEMS), draw(SALTREEVE_ITEMS));
}

/* Fills a store moderately. */
static void fill_moderate(store w)
{
    put(w, "fresh", 0, 0, 0);
    for (int i = 0; i < 24; i++)
        put(w, "same", draw(SALTREEVE_ITEMS), draw(SALTREEVE_ITEMS), 0);
    for (uint64_t A = 0; A < 24; A++)
        put(w, "under", A, A + 1 + draw(SALTREEVE_CONCEPTS - A - 1), 0);
    for (uint64_t R = 0; R < 8; R++)
        put(w, "role_under", R, R + 1 + draw(SALTREEVE_ROLES - R - 1), R % 4 == 0);
    for (uint64_t a = 0; a < SALTREEVE_ITEMS; a++)
        put(w, "in", a, draw(SALTREEVE_CONCEPTS), 0);
    for (int i = 0; i < 400; i++)
        put_drawn(w, "link");
}

/* Makes items from..to-1 the same. */
static void merge_items(store w, uint64_t from, uint64_t to)
{
    for (uint64_t a = from; a + 1 < to; a++)
        put(w, "same", a, a + 1, 0);
}

/* Puts concepts from..31 under each other. */
static void ring_concepts(store w, uint64_t from)
{
    for (uint64_t A = from; A < SALTREEVE_CONCEPTS; A++)
        put(w, "under", A, A + 1 < SALTREEVE_CONCEPTS ? A + 1 : from, 0);
}

/* Puts roles from..15 under each other, and under each other's inverse. */
static void ring_roles(store w, uint64_t from)
{
    for (uint64_t R = from; R < SALTREEVE_ROLES; R++)
        put(w, "role_under", R, R + 1 < SALTREEVE_ROLES ? R + 1 : from, 0);
    put(w, "role_under", from, from, 1);
}

/* The worst store: all items the same, all roles under each other, every role linking all to all. */
static void fill_worst(store w)
{
    put(w, "fresh", 0, 0, 0);
    merge_items(w, 0, SALTREEVE_ITEMS);
    ring_roles(w, 0);
    put(w, "link", 0, 0, 0);
}

/* A store to which the one statement `kind 0 64 0` or `kind 0 1 0` adds very many cells. */
static void fill_before_largest(store w, const char *kind)
{
    int halves = strcmp(kind, "same") == 0;
    int link = strcmp(kind, "link") == 0, in = strcmp(kind, "in") == 0;
    put(w, "fresh", 0, 0, 0);
    merge_items(w, 0, halves ? 64 : SALTREEVE_ITEMS);
    if (halves)
        merge_items(w, 64, SALTREEVE_ITEMS);
    ring_concepts(w, strcmp(kind, "under") == 0);
    ring_roles(w, strcmp(kind, "role_under") == 0);
    if (!in)
        put(w, "in", 0, 0, 0);
    if (!link)
        put(w, "link", 0, 0, 0);
}

/* Seconds since some fixed moment. */
static double seconds(void)
{
    struct timespec now;
    clock_gettime(CLOCK_MONOTONIC, &now);
    return (double)now.tv_sec + (double)now.tv_nsec / 1e9;
}

/* Times of calls of one kind: how many, how many of them gave new cells, how many cells, how long. */
struct times {
    int calls, fruitful;
    int64_t cells;
    double spent;
};

/* Notes a call's count of new cells. */
static void note(struct times *times, int64_t cells)
{
    times->calls++;
    times->fruitful += cells > 0;
    times->cells += cells;
}

/* Prints one line of times. */
static void print_times(const char *where, const char *kind, const struct times *times)
{
    printf("%-15s %-10s %10.2f microseconds a statement (%d calls, %d gave new cells, %.1f new cells a call)\n",
           where, kind, times->spent * 1e6 / times->calls, times->calls, times->fruitful,
           (double)times->cells / times->calls);
    fflush(stdout);
}

/* Times drawn statements of a kind on a store. */
static void time_drawn(const char *where, const store base, const char *kind)
{
    static store w;
    struct times times = {0, 0, 0, 0};
    while (times.calls < TIMED_CALLS) {
        memcpy(w, base, sizeof w);
        double start = seconds();
        for (int i = 0; i < ROUND; i++)
            note(&times, put_drawn(w, kind));
        times.spent += seconds() - start;
    }
    print_times(where, kind, &times);
}

/* Times the one statement that adds very many cells. */
static void time_largest(const char *kind)
{
    static store base, w;
    struct times times = {0, 0, 0, 0};
    uint64_t y = strcmp(kind, "same") == 0 ? 64 : strcmp(kind, "in") != 0;
    fill_before_largest(base, kind);
    while (times.calls < TIMED_CALLS / 10) {
        memcpy(w, base, sizeof w);
        double start = seconds();
        note(&times, put(w, kind, 0, y, 0));
        times.spent += seconds() - start;
    }
    print_times("largest change", kind, &times);
}

/* --- Timing of the larger store: always 512 items, 32 concepts and 16 roles. --- */

enum { LARGE_CALLS = 50, LARGE_ROW = 8 };

static const double LARGE_SECONDS = 0.4;  /* after which a call is made no more */

/* A larger store to be timed on, and what it is made of: the classes of items that are the same, of equal size; whether
   the concepts from one on and the roles from one on are all under each other, or each under itself only; the roles that
   link, from 0 on, and whether they link all to all or only the items of the first class. */
struct filling {
    size_t classes;
    uint64_t concept_ring, role_ring, members, linking;
    int first_class_only;
};
static uint64_t large_base[SALTREEVE_LARGE_WORDS], large_words[SALTREEVE_LARGE_WORDS], small_words[SALTREEVE_WORDS];

/* The lowest bits. */
static uint64_t low(uint64_t count)
{
    return count >= 64 ? UINT64_MAX : ((uint64_t)1 << count) - 1;
}

/* Writes a row of the items of one class. */
static void fill_class(uint64_t *row, uint64_t first, uint64_t size)
{
    for (uint64_t b = first; b < first + size; b++)
        row[b / 64] |= (uint64_t)1 << b % 64;
}

/* Writes the links of all roles that link. */
static void fill_links(uint64_t *w, const struct filling *filling, uint64_t size)
{
    uint64_t linked = filling->first_class_only ? size : SALTREEVE_LARGE_ITEMS;
    for (uint64_t R = 0; R < filling->linking; R++)
        for (uint64_t a = 0; a < linked; a++)
            fill_class(w + 4656 + LARGE_ROW * (SALTREEVE_LARGE_ITEMS * R + a), 0, linked);
}

/* Fills the larger store that calls are timed on. */
static void fill_large(const struct filling *filling)
{
    uint64_t *w = large_base, size = SALTREEVE_LARGE_ITEMS / filling->classes;
    memset(large_base, 0, sizeof large_base);
    for (uint64_t a = 0; a < SALTREEVE_LARGE_ITEMS; a++) {
        fill_class(w + LARGE_ROW * a, a / size * size, size);
        w[4144 + a] = filling->members;
    }
    for (uint64_t A = 0; A < SALTREEVE_CONCEPTS; A++)
        w[4096 + A] = A < filling->concept_ring ? (uint64_t)1 << A : low(32) & ~low(filling->concept_ring);
    for (uint64_t R = 0; R < SALTREEVE_ROLES; R++) {
        uint64_t ring = low(16) & ~low(filling->role_ring);
        w[4128 + R] = R < filling->role_ring ? (uint64_t)1 << R : ring | ring << 16;
    }
    fill_links(w, filling, size);
}

/* What is timed on the larger store: one call, and the result due. */
struct large_timing {
    const char *where;
    struct filling filling;
    struct call call;
    int64_t due;
};

enum { ALL_PAIRS = SALTREEVE_LARGE_ITEMS * SALTREEVE_LARGE_ITEMS, HALF_PAIRS = ALL_PAIRS / 4 };

#define LARGE_COUNTS SALTREEVE_LARGE_ITEMS, SALTREEVE_CONCEPTS, SALTREEVE_ROLES

/* All items the same or all different, every role under every role and its inverse, and linking all to all. */
#define FULL_SAME {1, 32, 0, 0x7FFFFFFF, 16, 0}
#define FULL_APART {512, 32, 0, 0x7FFFFFFF, 16, 0}

static const struct large_timing LARGE_TIMINGS[] = {
    {"fullest, all the same", FULL_SAME, {"same", LARGE_COUNTS, 3, 500, 0}, 0},
    {"fullest, all the same", FULL_SAME, {"under", LARGE_COUNTS, 31, 3, 0}, 1},
    {"fullest, all the same", FULL_SAME, {"role_under", LARGE_COUNTS, 3, 5, 1}, 0},
    {"fullest, all the same", FULL_SAME, {"in", LARGE_COUNTS, 300, 31, 0}, 512},
    {"fullest, all the same", FULL_SAME, {"link", LARGE_COUNTS, 15, 511, 0}, 0},
    {"fullest, all the same: refused by 4", FULL_SAME, {"same", LARGE_COUNTS, 512, 0, 0}, -4},
    {"fullest, all different", FULL_APART, {"same", LARGE_COUNTS, 3, 500, 0}, 2},
    {"fullest, all different", FULL_APART, {"under", LARGE_COUNTS, 31, 3, 0}, 1},
    {"fullest, all different", FULL_APART, {"role_under", LARGE_COUNTS, 3, 5, 1}, 0},
    {"fullest, all different", FULL_APART, {"in", LARGE_COUNTS, 300, 31, 0}, 1},
    {"fullest, all different", FULL_APART, {"link", LARGE_COUNTS, 15, 511, 0}, 0},
    {"fullest, all different: refused by 4", FULL_APART, {"same", LARGE_COUNTS, 512, 0, 0}, -4},
    {"largest change", {2, 32, 0, 0x7FFFFFFF, 16, 1}, {"same", LARGE_COUNTS, 0, 256, 0},
     2 * HALF_PAIRS + 16 * (ALL_PAIRS - HALF_PAIRS)},
    {"largest change", {1, 1, 0, 1, 16, 0}, {"under", LARGE_COUNTS, 0, 1, 0}, 31 + 31 * 512},
    {"largest change", {1, 32, 1, 0, 1, 0}, {"role_under", LARGE_COUNTS, 0, 1, 0}, 30 + 15 * ALL_PAIRS},
    {"largest change", {1, 0, 0, 0, 16, 0}, {"in", LARGE_COUNTS, 0, 0, 0}, 32 * 512},
    {"largest change", {1, 32, 0, 0, 0, 0}, {"link", LARGE_COUNTS, 0, 0, 0}, 16 * ALL_PAIRS},
};

/* Ends the program if a timed call gives something else. */
static void require_result(const char *kind, int64_t due, int64_t got)
{
    if (got == due)
        return;
    printf("\nexpected %" PRId64 " of %s, got %" PRId64 "\n", due, kind, got);
    exit(1);
}

/* Prints one line of times of the larger store. */
static void print_large(const char *where, const char *kind, double spent, int calls, int64_t result)
{
    printf("larger store, %-36s %-10s %10.3f milliseconds a call (%d calls, result %" PRId64 ")\n",
           where, kind, spent * 1e3 / calls, calls, result);
    fflush(stdout);
}

/* Times one call on the larger store. */
static void time_large(const struct large_timing *timing)
{
    double spent = 0;
    int calls = 0;
    fill_large(&timing->filling);
    for (; calls < LARGE_CALLS && spent < LARGE_SECONDS; calls++) {
        memcpy(large_words, large_base, sizeof large_words);
        limit_call(CALL_SECONDS);
        double start = seconds();
        int64_t got = make_call(&timing->call, large_words, SALTREEVE_LARGE_WORDS);
        spent += seconds() - start;
        limit_call(0);
        require_result(timing->call.kind, timing->due, got);
    }
    print_large(timing->where, timing->call.kind, spent, calls, timing->due);
}

/* Times one conversion of the words that stand in the stores. */
static void time_convert(const char *where, const uint64_t *source, size_t length, uint64_t items, uint64_t *target,
                         size_t target_length, int64_t due)
{
    double spent = 0;
    int calls = 0;
    for (; calls < LARGE_CALLS && spent < LARGE_SECONDS; calls++) {
        limit_call(CALL_SECONDS);
        double start = seconds();
        int64_t got = saltreeve_convert(source, length, items, SALTREEVE_CONCEPTS, SALTREEVE_ROLES, target, target_length);
        spent += seconds() - start;
        limit_call(0);
        require_result("convert", due, got);
    }
    print_large(where, "convert", spent, calls, due);
}

/* Times conversions: the fullest smaller store there and back, and the fullest larger one, which cannot go back. */
static void time_conversions(void)
{
    static store base;
    const struct filling full = FULL_APART;
    int64_t cells = 128 + SALTREEVE_CONCEPTS + 2 * 16 * 16 + 16 * 128 * 128;
    put(base, "fresh", 0, 0, 0);
    ring_roles(base, 0);
    for (size_t i = 432; i < SALTREEVE_WORDS; i++)
        base[i] = UINT64_MAX;
    time_convert("full smaller store, there", base, SALTREEVE_WORDS, 128, large_words, SALTREEVE_LARGE_WORDS, cells);
    time_convert("full smaller store, and back", large_words, SALTREEVE_LARGE_WORDS, 128, small_words, SALTREEVE_WORDS, cells);
    fill_large(&full);
    time_convert("fullest, all different: refused by 26", large_base, SALTREEVE_LARGE_WORDS, 512, small_words,
                 SALTREEVE_WORDS, -26);
}

/* Times a list of statements, from a fresh store on. */
static void time_list(const char *where, uint64_t *w, size_t length, uint64_t items)
{
    enum { STATEMENTS = 500 };
    static uint64_t statements[4 * STATEMENTS];
    static int64_t answers[STATEMENTS];
    double spent = 0;
    int calls = 0;
    for (size_t i = 0; i < STATEMENTS; i++) {
        const uint64_t four[] = {SALTREEVE_KIND_LINK, draw(items), draw(items), draw(SALTREEVE_ROLES)};
        memcpy(statements + 4 * i, four, sizeof four);
    }
    for (; calls < LARGE_CALLS && spent < LARGE_SECONDS; calls++) {
        require_result("fresh", (int64_t)(items + 48), saltreeve_fresh(w, length, items, SALTREEVE_CONCEPTS, SALTREEVE_ROLES));
        limit_call(CALL_SECONDS);
        double start = seconds();
        int64_t got = saltreeve_add_all(w, length, items, SALTREEVE_CONCEPTS, SALTREEVE_ROLES, statements, 4 * STATEMENTS,
                                        answers, STATEMENTS);
        spent += seconds() - start;
        limit_call(0);
        require_result("add_all", STATEMENTS, got);
    }
    printf("%-50s %-10s %10.3f milliseconds a call (%d calls, %d statements)\n", where, "add_all", spent * 1e3 / calls, calls,
           STATEMENTS);
}

/* Prints the times of the larger store, of conversions and of lists. */
static void run_large_times(void)
{
    for (size_t i = 0; i < COUNT(LARGE_TIMINGS); i++)
        time_large(&LARGE_TIMINGS[i]);
    time_conversions();
    time_list("500 links to a fresh smaller store", small_words, SALTREEVE_WORDS, SALTREEVE_ITEMS);
    time_list("500 links to a fresh larger store", large_words, SALTREEVE_LARGE_WORDS, SALTREEVE_LARGE_ITEMS);
}

/* Prints the times of all kinds on all stores. */
static void run_times(void)
{
    static const char *const KINDS[] = {"same", "under", "role_under", "in", "link"};
    static store base;
    fill_moderate(base);
    for (int k = 0; k < 5; k++)
        time_drawn("moderate store", base, KINDS[k]);
    fill_worst(base);
    for (int k = 0; k < 5; k++)
        time_drawn("worst store", base, KINDS[k]);
    for (int k = 0; k < 5; k++)
        time_largest(KINDS[k]);
    run_large_times();
}

/* Runs the commands or the timing. */
int main(int argc, char **argv)
{
    const struct driver driver = {"store_driver", run_commands, NULL, run_times};
    return run_driver(&driver, argc, argv);
}
