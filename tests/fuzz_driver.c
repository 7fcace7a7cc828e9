/*
 * Holds the sheet check to what must be so for every sheet, whatever its bytes.
 *
 *   fuzz_driver [--blocks LIST] [SHEET]
 *
 * Reads a sheet from the file SHEET, or from standard input, lends it with rooms of
 * several lengths, and prints its text. What is lent ends where a page without access
 * begins, or begins where one ends, so that no byte too many is read or written
 * unnoticed; the sheet cannot be written at all. The first thing that is not as it
 * should be is said, and ends the program by a signal.
 *
 * A fuzzer gets to know which parts of the library a sheet reaches although the library
 * is built without any aid for that. LIST holds the addresses of its blocks (see
 * tests/fuzz_test.py). Each block gets a breakpoint, which is counted in the fuzzer's map
 * when it is met, and taken away after some times. What the text says is noted as well.
 */
#define _GNU_SOURCE

#include "saltreeve.h"

#include <fcntl.h>
#include <inttypes.h>
#include <signal.h>
#include <stdio.h>
#include <stdlib.h>
#include <string.h>
#include <sys/mman.h>
#include <sys/resource.h>
#include <sys/shm.h>
#include <sys/wait.h>
#include <ucontext.h>
#include <unistd.h>

enum {
    TEXT_TOO_LONG = -8,
    SHEET_BYTES = 32768,
    LEAST_TEXT = 8,
    MOST_FINDING_LINES = 200,
    MOST_FINDINGS = 64 * 128 * 128,
    NAME_BYTES = 24,
    PAGE_BYTES = 4096,
    SHEET_ROOM = 1 << 20,    /* the longest sheet that can be lent */
    GUARD_BYTE = 0xA5,
    MOST_SECONDS = 5         /* of processor time for all calls about one sheet */
};

/* Says what is wrong about the driver's use, and ends. */
static void stop(const char *why)
{
    fprintf(stderr, "fuzz_driver: %s\n", why);
    _exit(3);
}

/* Ends the program by a signal if something that must be so is not. */
static void must(int holds, const char *what)
{
    if (holds)
        return;
    fprintf(stderr, "fuzz_driver: not so: %s\n", what);
    abort();
}

/* --- What is lent --- */

/* A stretch of memory with a page without access on each side. */
struct fenced {
    unsigned char *first;
    size_t size;
};

/* Where in its stretch something is lent. */
enum place { AT_THE_START, AT_THE_END };

/* Memory for at least so many bytes. */
static struct fenced fence(size_t bytes)
{
    size_t size = (bytes + PAGE_BYTES - 1) / PAGE_BYTES * PAGE_BYTES;
    unsigned char *all = mmap(NULL, size + 2 * PAGE_BYTES, PROT_NONE, MAP_PRIVATE | MAP_ANONYMOUS, -1, 0);
    if (all == MAP_FAILED || mprotect(all + PAGE_BYTES, size, PROT_READ | PROT_WRITE) != 0)
        stop("no memory");
    return (struct fenced){all + PAGE_BYTES, size};
}

/* The first of so many bytes that are lent. */
static unsigned char *lent_at(struct fenced fenced, enum place place, size_t length)
{
    return place == AT_THE_START ? fenced.first : fenced.first + (fenced.size - length);
}

/* The sheet, its copies that are lent (they cannot be written), and the room. */
struct lent {
    const unsigned char *sheet;
    size_t length;
    struct fenced copies[2], room;
};

/* Lends a copy of the sheet that ends, or begins, at a page without access. */
static struct fenced lend_copy(const unsigned char *sheet, size_t length, enum place place)
{
    struct fenced copy = fence(length);
    if (length > 0)
        memcpy(lent_at(copy, place, length), sheet, length);
    if (copy.size > 0 && mprotect(copy.first, copy.size, PROT_READ) != 0)
        stop("no memory");
    return copy;
}

/* Whether so many bytes are guard bytes. */
static int all_guards(const unsigned char *at, size_t count)
{
    for (size_t i = 0; i < count; i++)
        if (at[i] != GUARD_BYTE)
            return 0;
    return 1;
}

/* Makes a call; the result, with all bytes around the room and past what was written looked at. */
static int64_t call(const struct lent *lent, enum place place, size_t room_length)
{
    unsigned char *room = lent_at(lent->room, place, room_length);
    unsigned char *sheet = lent_at(lent->copies[place], place, lent->length);
    memset(lent->room.first, GUARD_BYTE, lent->room.size);
    int64_t got = saltreeve_check(sheet, lent->length, room, room_length);
    must(got == TEXT_TOO_LONG || got >= LEAST_TEXT, "the result is -8, or 8 or more");
    must(got <= (int64_t)room_length, "the result is a length within the room");
    size_t before = (size_t)(room - lent->room.first), written = got < 0 ? 0 : (size_t)got;
    must(all_guards(lent->room.first, before), "the bytes before the room are untouched");
    must(all_guards(room + written, lent->room.size - before - written), "the room past the text is untouched");
    return got;
}

/* --- The text --- */

/* What is left of a text. */
struct left {
    const unsigned char *at, *end;
};

/* What a text says: a refusal, or the lines of findings and their total. */
struct said {
    uint64_t line, number;
    uint64_t lines, total;
};

/* Takes a word with the tab or line feed that follows it; 0 if the text does not go on with it. */
static int take_word(struct left *left, const char *word)
{
    size_t length = strlen(word);
    if ((size_t)(left->end - left->at) < length || memcmp(left->at, word, length) != 0)
        return 0;
    left->at += length;
    return 1;
}

/* Takes a decimal number without leading zeros, of seven digits at most. */
static uint64_t take_number(struct left *left)
{
    const unsigned char *first = left->at;
    uint64_t value = 0;
    for (; left->at < left->end && *left->at >= '0' && *left->at <= '9' && left->at - first < 8; left->at++)
        value = 10 * value + (uint64_t)(*left->at - '0');
    must(left->at - first >= 1 && left->at - first <= 7, "a number has 1 to 7 digits");
    must(*first != '0' || left->at - first == 1, "a number has no leading zero");
    return value;
}

/* Whether a byte can be in a name. */
static int in_names(unsigned char byte)
{
    static const char LETTERS[] = "ABCDEFGHIJKLMNOPQRSTUVWXYZabcdefghijklmnopqrstuvwxyz0123456789._/-";
    return byte != 0 && strchr(LETTERS, byte) != NULL;
}

/* Takes a name. */
static void take_name(struct left *left)
{
    const unsigned char *first = left->at;
    while (left->at < left->end && in_names(*left->at))
        left->at++;
    must(left->at - first >= 1 && left->at - first <= NAME_BYTES, "a name has 1 to 24 characters");
}

/* Where a line of the sheet begins, its length if there is no such line; the first one is always there. */
static size_t begin_of(const struct lent *lent, uint64_t line)
{
    size_t at = 0;
    for (uint64_t number = 1; number < line && at < lent->length; number++) {
        const unsigned char *end = memchr(lent->sheet + at, '\n', lent->length - at);
        at = end == NULL ? lent->length : (size_t)(end + 1 - lent->sheet);
    }
    return at;
}

/* Whether a line of the sheet gives a rule. */
static int is_rule(const struct lent *lent, uint64_t line)
{
    static const char RULE[] = "rule\t";
    size_t at = begin_of(lent, line);
    return lent->length - at >= sizeof RULE - 1 && memcmp(lent->sheet + at, RULE, sizeof RULE - 1) == 0;
}

/* Takes what follows `refused`. */
static void take_refusal(struct left *left, const struct lent *lent, struct said *said)
{
    said->line = take_number(left);
    must(take_word(left, "\t"), "a tab stands between the line and the number of refusal");
    said->number = take_number(left);
    must(take_word(left, "\n"), "a refusal ends in a line feed");
    must(said->number >= 9 && said->number <= 21, "a number of refusal is 9 to 21");
    must((said->line == 0) == (said->number == 9), "a refusal has line 0 exactly if its number is 9");
    must(said->line <= 1 || begin_of(lent, said->line) < lent->length, "the line of a refusal is a line of the sheet");
    must((said->line == 1) == (said->number == 11) || said->number == 10,
         "11 is for line 1 alone, which only 10 refuses too");
}

/* Takes what follows `finding`; its line is not before that of the last one. */
static void take_finding(struct left *left, const struct lent *lent, struct said *said)
{
    uint64_t line = take_number(left);
    must(line >= said->line, "findings go by rule");
    must(line == said->line || is_rule(lent, line), "the line of a finding gives a rule");
    must(take_word(left, "\t"), "a tab stands before an item");
    take_name(left);
    if (take_word(left, "\t"))
        take_name(left);
    must(take_word(left, "\n"), "a finding ends in a line feed");
    said->line = line;
    said->lines++;
}

/* Takes the findings and the total. */
static void take_findings(struct left *left, const struct lent *lent, struct said *said)
{
    while (take_word(left, "finding\t"))
        take_finding(left, lent, said);
    must(take_word(left, "total\t"), "the text is a refusal, or ends in a total");
    said->total = take_number(left);
    must(take_word(left, "\n"), "the total ends in a line feed");
    must(said->lines <= MOST_FINDING_LINES, "there are at most 200 lines of findings");
    must(said->lines == said->total || (said->lines == MOST_FINDING_LINES && said->total > said->lines),
         "the total counts the findings");
    must(said->total <= MOST_FINDINGS, "no sheet has more findings than rules and pairs of items");
}

/* Reads a text to its end; stops the program unless it has the form that is due. */
static struct said read_text(const unsigned char *text, size_t length, const struct lent *lent)
{
    struct left left = {text, text + length};
    struct said said = {0, 0, 0, 0};
    if (take_word(&left, "refused\t"))
        take_refusal(&left, lent, &said);
    else
        take_findings(&left, lent, &said);
    must(left.at == left.end, "nothing follows the last line");
    must((said.number == 9) == (lent->length > SHEET_BYTES), "9 is given exactly if the sheet has over 32,768 bytes");
    return said;
}

/* --- What a fuzzer gets to know --- */

enum {
    MAP_BYTES = 1 << 16,
    MOST_BLOCKS = 1 << 15,
    CODE_BYTES = 1 << 20,     /* more than the library's code has */
    BREAKPOINT = 0xCC,
    MOST_TIMES = 4,           /* that a block is counted in the first call */
    ORDERS = 198,             /* the two pipes of afl-fuzz */
    ANSWERS = 199
};

/* The first answer to afl-fuzz: how large the map is. */
static const uint32_t MAP_ANSWER = 0xC0000001 | (MAP_BYTES - 1) << 1;

/* The fuzzer's map; without a fuzzer, a map that nobody reads. */
static unsigned char own_map[MAP_BYTES];
static unsigned char *map = own_map;

/* The library's code from its first block on, the byte that stood at each block, and the block's number. */
static unsigned char *code;
static unsigned char stood[CODE_BYTES];
static uint16_t block_at[CODE_BYTES];

/* Where the block met last begins, and whether its breakpoint comes back when the next is met. */
static size_t last_at;
static int comes_back = 1;

/* Notes the block that was met, and takes its breakpoint away. */
static void on_breakpoint(int signal_number, siginfo_t *info, void *context)
{
    greg_t *next = &((ucontext_t *)context)->uc_mcontext.gregs[REG_RIP];
    size_t at = (size_t)(*next - 1) - (size_t)code;
    (void)signal_number, (void)info;
    must(at < CODE_BYTES && block_at[at] != 0, "only breakpoints of this driver are met");
    if (comes_back && map[block_at[last_at]] < MOST_TIMES)
        code[last_at] = BREAKPOINT;
    last_at = at;
    map[block_at[at]] += comes_back || map[block_at[at]] == 0;
    code[at] = stood[at];
    (*next)--;
}

/* Puts a breakpoint at a block. */
static void set_breakpoint(uintptr_t address, unsigned block)
{
    size_t at = address - (uintptr_t)code;
    if (address < (uintptr_t)code || at >= CODE_BYTES || block >= MOST_BLOCKS)
        stop("a block is out of place");
    stood[at] = code[at];
    block_at[at] = (uint16_t)block;
    code[at] = BREAKPOINT;
}

/* Lets the code be written, from the page of its first block on to that of the last. */
static void open_code(uintptr_t first, uintptr_t last)
{
    uintptr_t page = first / PAGE_BYTES * PAGE_BYTES;
    struct sigaction action = {0};
    action.sa_sigaction = on_breakpoint;
    action.sa_flags = SA_SIGINFO;
    if (mprotect((void *)page, last + 1 - page, PROT_READ | PROT_WRITE | PROT_EXEC) != 0
        || sigaction(SIGTRAP, &action, NULL) != 0)
        stop("no breakpoints can be set");
    code = (unsigned char *)first;
}

/* Sets the breakpoints of a list: how many, the least and the greatest address, then all of them. */
static void set_breakpoints(const char *path)
{
    uintptr_t first, last, address;
    unsigned blocks;
    FILE *list = fopen(path, "r");
    if (list == NULL || fscanf(list, "%u %" SCNxPTR " %" SCNxPTR, &blocks, &first, &last) != 3)
        stop("the list of blocks cannot be read");
    open_code(first, last);
    for (unsigned block = 1; block <= blocks; block++) {
        if (fscanf(list, "%" SCNxPTR, &address) != 1)
            stop("the list of blocks cannot be read");
        set_breakpoint(address, block);
    }
    fclose(list);
}

/* How many binary digits a number has. */
static unsigned digits(uint64_t number)
{
    return number == 0 ? 0 : 1 + digits(number / 2);
}

/* Notes what a text says, roughly: a refusal with the size of its line, the sizes of the lines and the total. */
static void note_said(struct said said)
{
    unsigned refusal = (unsigned)said.number * 32 + digits(said.line);
    unsigned findings = 1024 + digits(said.total) * 16 + digits(said.lines);
    map[MOST_BLOCKS + (said.number != 0 ? refusal : findings)] = 1;
}

/* Takes the map of afl-fuzz, if there is one. */
static void take_map(void)
{
    const char *number = getenv("__AFL_SHM_ID");
    void *shared = number == NULL ? NULL : shmat(atoi(number), NULL, 0);
    if (shared == (void *)-1)
        stop("the fuzzer's map cannot be had");
    if (shared != NULL)
        map = shared;
}

/* Answers afl-fuzz with a number. */
static void answer(uint32_t number)
{
    if (write(ANSWERS, &number, sizeof number) != sizeof number)
        stop("the fuzzer cannot be answered");
}

/* Says which child judges a sheet, waits for it, and says how it ended. */
static void answer_for(pid_t child)
{
    int status = 0;
    if (child < 0)
        stop("no process can be made");
    answer((uint32_t)child);
    if (waitpid(child, &status, 0) != child)
        stop("a process is lost");
    answer((uint32_t)status);
}

/* Makes a child for each order of afl-fuzz; returns in the child, or if there is no fuzzer. */
static void follow_orders(void)
{
    uint32_t order;
    if (map == own_map || fcntl(ANSWERS, F_GETFD) < 0)
        return;
    answer(MAP_ANSWER);
    while (read(ORDERS, &order, sizeof order) == sizeof order) {
        pid_t child = fork();
        if (child == 0)
            return;
        answer_for(child);
    }
    _exit(0);
}

/* --- All calls about a sheet --- */

/* A text that calls gave. */
struct text {
    unsigned char bytes[SALTREEVE_TEXT];
    size_t length;
};

/* Lends a sheet. */
static struct lent lend(const unsigned char *sheet, size_t length)
{
    struct lent lent = {sheet, length, {{NULL, 0}, {NULL, 0}}, fence(SALTREEVE_TEXT + PAGE_BYTES)};
    lent.copies[AT_THE_START] = lend_copy(sheet, length, AT_THE_START);
    lent.copies[AT_THE_END] = lend_copy(sheet, length, AT_THE_END);
    return lent;
}

/* Makes a call with all the room that a text can need. */
static void call_first(const struct lent *lent, struct text *text)
{
    int64_t got = call(lent, AT_THE_END, SALTREEVE_TEXT);
    must(got != TEXT_TOO_LONG, "no text is longer than 12,814 bytes");
    comes_back = 0;
    text->length = (size_t)got;
    memcpy(text->bytes, lent_at(lent->room, AT_THE_END, SALTREEVE_TEXT), text->length);
}

/* Makes a call with a room in which the text is due if it fits. */
static void call_again(const struct lent *lent, enum place place, size_t room_length, const struct text *text)
{
    int64_t got = call(lent, place, room_length);
    must((got == TEXT_TOO_LONG) == (room_length < text->length), "the result is -8 exactly if the text is too long");
    must(got < 0 || (size_t)got == text->length, "the result is the text's length");
    must(got < 0 || memcmp(lent_at(lent->room, place, room_length), text->bytes, text->length) == 0,
         "every call gives the same text");
}

/* Makes calls with rooms of several lengths. */
static void call_with_rooms(const struct lent *lent, const struct text *text)
{
    size_t rooms[] = {0, 1, text->length - 1, text->length, text->length + 1, SALTREEVE_TEXT};
    for (size_t i = 0; i < sizeof rooms / sizeof rooms[0]; i++) {
        call_again(lent, AT_THE_START, rooms[i], text);
        call_again(lent, AT_THE_END, rooms[i], text);
    }
}

/* Makes a call with the sheet cut after the line at fault: what follows that line does not matter. */
static void call_cut(const struct lent *lent, const struct text *text, struct said said)
{
    if (said.number < 10)
        return;
    struct lent cut = lend(lent->sheet, begin_of(lent, said.line + 1));
    call_again(&cut, AT_THE_END, SALTREEVE_TEXT, text);
}

/* Makes all calls about a sheet, prints the text, and gives what it says. */
static struct said judge(const unsigned char *sheet, size_t length)
{
    static struct text text;
    struct lent lent = lend(sheet, length);
    call_first(&lent, &text);
    struct said said = read_text(text.bytes, text.length, &lent);
    call_with_rooms(&lent, &text);
    call_cut(&lent, &text, said);
    if (fwrite(text.bytes, 1, text.length, stdout) != text.length || fflush(stdout) != 0)
        stop("the text cannot be printed");
    return said;
}

/* Reads a sheet to its end; its length. */
static size_t read_sheet(const char *path, unsigned char *sheet)
{
    int from = path == NULL ? STDIN_FILENO : open(path, O_RDONLY);
    size_t length = 0;
    ssize_t got;
    while ((got = read(from, sheet + length, SHEET_ROOM - length)) > 0)
        length += (size_t)got;
    if (got < 0 || length == SHEET_ROOM)
        stop("the sheet cannot be read, or is longer than this driver takes");
    return length;
}

/* Whether the sheet is judged. */
static int is_judged;

/* Asks at the program's end that no call has ended it. */
static void ask_judged(void)
{
    must(is_judged, "every call comes back");
}

/* Reads a sheet and judges it, within so much processor time. */
static struct said judge_file(const char *path)
{
    static unsigned char sheet[SHEET_ROOM];
    struct rlimit limit = {MOST_SECONDS, MOST_SECONDS + 1};
    size_t length = read_sheet(path, sheet);
    if (setrlimit(RLIMIT_CPU, &limit) != 0 || atexit(ask_judged) != 0)
        stop("the calls cannot be watched");
    struct said said = judge(sheet, length);
    is_judged = 1;
    return said;
}

/* Judges one sheet, or as many as the fuzzer orders. */
int main(int count, char **arguments)
{
    int with_blocks = count >= 3 && strcmp(arguments[1], "--blocks") == 0, used = with_blocks ? 3 : 1;
    if (count > used + 1)
        stop("usage: fuzz_driver [--blocks LIST] [SHEET]");
    take_map();
    if (with_blocks)
        set_breakpoints(arguments[2]);
    follow_orders();
    note_said(judge_file(count > used ? arguments[used] : NULL));
    return 0;
}
