/*
 * What the drivers share that lend lists to a call: the lists, with guard bytes
 * around them and what they should be after the call, and where the test is.
 */
#ifndef CALLS_H
#define CALLS_H

#include "commands.h"

#include <signal.h>
#include <sys/time.h>
#include <unistd.h>

enum {
    GUARD_BYTES = 512,       /* kept before and after the entries lent */
    GUARD_BYTE = 0xA5,
    MOST_ENTRIES = 1 << 20,  /* the longest list that can be lent */
    PLACE_BYTES = 256,
    TEXT_TOO_LONG = -8
};

/* A list lent: its entries, of 1, 2, 4 or 8 bytes each, guard bytes around them, and what they should be after a call. */
struct lent {
    unsigned char *block, *due;
    void *entries;
    size_t length, width;
};

/* Where the test is, as text for the case that it ends there. */
static char place_text[PLACE_BYTES];

/* Writes an entry of a list, the lowest byte first. */
static void put_entry(unsigned char *list, size_t width, size_t at, uint64_t value)
{
    for (size_t i = 0; i < width; i++)
        list[at * width + i] = (unsigned char)(value >> 8 * i);
}

/* Reads an entry of a list. */
static uint64_t get_entry(const unsigned char *list, size_t width, size_t at)
{
    uint64_t value = 0;
    for (size_t i = 0; i < width; i++)
        value |= (uint64_t)list[at * width + i] << 8 * i;
    return value;
}

/* Room for so many bytes. */
static unsigned char *allocate(size_t bytes)
{
    unsigned char *room = malloc(bytes + 1);
    if (room == NULL)
        stop("no memory");
    return room;
}

/* Takes back what was lent. */
static void take_back(struct lent *lent)
{
    free(lent->block);
    free(lent->due);
}

/* Hands over the entries as they are due. */
static void fill(struct lent *lent)
{
    memcpy(lent->entries, lent->due, lent->length * lent->width);
}

/* Lends so many entries, all of one value, and takes back what was lent before. */
static void lend(struct lent *lent, size_t width, size_t length, uint64_t value)
{
    if (length > MOST_ENTRIES)
        stop("a list is too long");
    take_back(lent);
    lent->block = allocate(length * width + 2 * GUARD_BYTES);
    lent->due = allocate(length * width);
    lent->entries = lent->block + GUARD_BYTES;
    lent->length = length;
    lent->width = width;
    memset(lent->block, GUARD_BYTE, length * width + 2 * GUARD_BYTES);
    memset(lent->due, 0, length * width);
    for (size_t i = 0; value != 0 && i < length; i++)
        put_entry(lent->due, width, i, value);
    fill(lent);
}

/* Says what an entry is to be after the next call. */
static void set_due(struct lent *lent, size_t at, uint64_t value)
{
    put_entry(lent->due, lent->width, at, value);
}

/* Lends a list of 64-bit words that is read. */
static inline void lend_list(struct lent *lent)
{
    lend(lent, sizeof(uint64_t), read_number(), 0);
    for (uint64_t left = read_number(); left > 0; left--) {
        uint64_t index = read_number();
        if (index >= lent->length)
            stop("an index is too large");
        set_due(lent, index, read_number());
    }
    fill(lent);
}

/* Lends bytes that are read. */
static inline void lend_bytes(struct lent *lent)
{
    lend(lent, 1, read_number(), 0);
    for (size_t i = 0; i < lent->length; i++)
        set_due(lent, i, read_number());
    fill(lent);
}

/* A word of a store before a call, other for each number. */
static inline uint64_t garbage(uint64_t number, uint64_t at)
{
    uint64_t word = (number << 20 | at) * 0x9E3779B97F4A7C15;
    word = (word ^ word >> 32) * 0xD6E8FEB86659FD93;
    return word ^ word >> 32;
}

/* Lends a store of so many words of garbage. */
static inline void lend_garbage(struct lent *store, uint64_t number, size_t length)
{
    lend(store, sizeof(uint64_t), length, 0);
    for (size_t i = 0; i < length; i++) {
        uint64_t word = garbage(number, i);
        memcpy(store->due + i * sizeof word, &word, sizeof word);
    }
    fill(store);
}

/* Says which entries of a list are due, from its start. */
static inline void set_all_due(struct lent *lent, const struct lent *due)
{
    if (lent->length < due->length)
        stop("a list is too short for what is due");
    memcpy(lent->due, due->due, due->length * due->width);
}

/* The result that is due where a text is to be written to a room: its length, or that it is too long. */
static inline int64_t text_result(const struct lent *text, const struct lent *room)
{
    return text->length <= room->length ? (int64_t)text->length : TEXT_TOO_LONG;
}

/* Lends a room of so many bytes, and says that the text is due in it if it fits. */
static inline void lend_room_for(struct lent *room, size_t length, const struct lent *text)
{
    lend(room, 1, length, GUARD);
    if (text_result(text, room) >= 0)
        set_all_due(room, text);
}

/* Whether the guard bytes are as they were. */
static int guards_stand(const struct lent *lent)
{
    const unsigned char *end = lent->block + GUARD_BYTES + lent->length * lent->width;
    for (size_t i = 0; i < GUARD_BYTES; i++)
        if (lent->block[i] != GUARD_BYTE || end[i] != GUARD_BYTE)
            return 0;
    return 1;
}

/* Whether all entries lent, and the bytes around them, are what they should be. */
static int as_due(const struct lent *lent)
{
    return memcmp(lent->entries, lent->due, lent->length * lent->width) == 0 && guards_stand(lent);
}

/* Says which entry is not what it should be, if one is not. */
static void print_entries(const char *name, const struct lent *lent)
{
    for (size_t i = 0; i < lent->length; i++) {
        uint64_t due = get_entry(lent->due, lent->width, i), got = get_entry(lent->entries, lent->width, i);
        if (due != got) {
            printf("word %zu of the %s: expected %" PRIu64 ", got %" PRIu64 "\n", i, name, due, got);
            break;
        }
    }
    if (!guards_stand(lent))
        printf("a byte outside the %s was changed\n", name);
}

/* A list that was lent to a call, and its name. */
struct named {
    const char *name;
    const struct lent *lent;
};

/* Ends the program if the result of a call, or an entry of the lists lent, is not what it should be. */
static inline void compare_call(int64_t due, int64_t got, const struct named *lists, size_t count)
{
    int right = got == due;
    for (size_t i = 0; i < count; i++)
        right = right && as_due(lists[i].lent);
    if (right)
        return;
    printf("%s", place_text);
    printf("result: expected %" PRId64 ", got %" PRId64 "\n", due, got);
    for (size_t i = 0; i < count; i++)
        print_entries(lists[i].name, lists[i].lent);
    exit(1);
}

/* Notes that the next call comes, with so many words or bytes of room. */
static inline void next_call(struct place *place, size_t room)
{
    place->calls++;
    place->part_calls++;
    snprintf(place_text, sizeof place_text,
             "difference in %s %" PRIu64 ", call %" PRIu64 ", which is call %" PRIu64 " of all, room of %zu\n",
             place->part, place->part_number, place->part_calls, place->calls, room);
}

/* Says where the test is when a signal stops a call, and lets the signal end the program. */
static inline void on_signal(int number)
{
    static const char WHY[] = "the call was stopped by a signal\n";
    ssize_t written = write(STDOUT_FILENO, place_text, strlen(place_text));
    if (written >= 0)
        written = write(STDOUT_FILENO, WHY, sizeof WHY - 1);
    signal(number, SIG_DFL);
    raise(number);
}

/* Has the program stopped after so many seconds of its processor time, however busy the machine is; with 0, not at all.
   Never inlined: its words would count to the stack that is measured. */
static __attribute__((noinline, unused)) void limit_call(time_t seconds)
{
    const struct itimerval most = {.it_value = {.tv_sec = seconds}};
    setitimer(ITIMER_VIRTUAL, &most, NULL);
}

/* Has the signals that stop a call say where the test is. */
static inline void watch_signals(void)
{
    static const int STOPPING[] = {SIGVTALRM, SIGABRT, SIGSEGV, SIGBUS, SIGFPE, SIGILL};
    for (size_t i = 0; i < sizeof STOPPING / sizeof STOPPING[0]; i++)
        signal(STOPPING[i], on_signal);
}

/* Reads the next command's word, and carries out those that only say where the test is; 0 at the end. */
static inline int next_command(char word[NAME_BYTES], struct place *place)
{
    while (read_word(word)) {
        if (strcmp(word, "part") != 0)
            return 1;
        do_part(place);
    }
    return 0;
}

/* Carries out all commands, each by its word, takes back what is still lent, and says how many calls they were. */
static inline void carry_out(struct place *place, void (*command)(const char *word), struct lent *const *lists, size_t count)
{
    char word[NAME_BYTES];
    watch_signals();
    while (next_command(word, place))
        command(word);
    for (size_t i = 0; i < count; i++)
        take_back(lists[i]);
    printf("done %" PRIu64 "\n", place->calls);
}

/* How many entries a table has. */
#define COUNT(table) (sizeof(table) / sizeof(table)[0])

#endif
