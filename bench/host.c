/*
 * Calls the sheet check as the order-entry host does: in one process, from a buffer into a buffer.
 *
 *   host once FILE             judges the sheet once and prints its text
 *   host time FILE SECONDS     judges it over and over for about so long, in eleven rounds; prints the
 *                              nanoseconds of processor time that one call took in the best round
 *
 * It is linked once with Saltreeve's library and once with the plain checker, which has the same face. With
 * LARGER defined it calls saltreeve_check_in with a lent store of the larger size instead, which the plain
 * checker does not have: for sheets of edition 2.
 */
#define _POSIX_C_SOURCE 199309L

#include <stdint.h>
#include <stdio.h>
#include <stdlib.h>
#include <string.h>
#include <time.h>

int64_t saltreeve_check(const uint8_t *sheet, size_t sheet_length, uint8_t *room, size_t room_length);
int64_t saltreeve_check_in(const uint8_t *sheet, size_t sheet_length, uint64_t *words, size_t length,
                           uint8_t *room, size_t room_length);

enum { ROUNDS = 11, MOST_SHEET = 40000, MOST_TEXT = 12815 };

static uint8_t sheet[MOST_SHEET], room[MOST_TEXT];
static size_t sheet_length;

/* Ends the program with a message. */
static void fail(const char *message)
{
    fprintf(stderr, "host: %s\n", message);
    exit(3);
}

/* Reads the sheet. */
static void read_sheet(const char *path)
{
    FILE *file = fopen(path, "rb");
    if (file == NULL)
        fail("the sheet cannot be opened");
    sheet_length = fread(sheet, 1, sizeof sheet, file);
    fclose(file);
}

/* One call; gives the length of the text. */
static size_t judge(void)
{
#ifdef LARGER
    static uint64_t words[70192];
    int64_t length = saltreeve_check_in(sheet, sheet_length, words, sizeof words / sizeof *words, room, sizeof room);
#else
    int64_t length = saltreeve_check(sheet, sheet_length, room, sizeof room);
#endif
    if (length < 0)
        fail("the text does not fit into its room");
    return (size_t)length;
}

/* The processor time that the program has taken so far, in nanoseconds. */
static double taken(void)
{
    struct timespec now;
    if (clock_gettime(CLOCK_PROCESS_CPUTIME_ID, &now) != 0)
        fail("the processor time cannot be read");
    return 1e9 * (double)now.tv_sec + (double)now.tv_nsec;
}

/* The processor time of one call, over so many of them. */
static double time_of(uint64_t calls)
{
    double begin = taken();
    for (uint64_t call = 0; call < calls; call++)
        judge();
    return (taken() - begin) / (double)calls;
}

/* The processor time of one call in the best of the rounds. */
static double best_time(double seconds)
{
    double best = time_of(1);
    double calls = seconds * 1e9 / ROUNDS / (best + 1);
    for (int round = 0; round < ROUNDS && best < seconds * 1e9; round++) {
        double time = time_of(calls < 1 ? 1 : (uint64_t)calls);
        best = time < best ? time : best;
    }
    return best;
}

int main(int count, char **words)
{
    if (count == 3 && strcmp(words[1], "once") == 0) {
        read_sheet(words[2]);
        size_t length = judge();
        return fwrite(room, 1, length, stdout) == length ? 0 : 3;
    }
    if (count == 4 && strcmp(words[1], "time") == 0) {
        read_sheet(words[2]);
        printf("%.0f\n", best_time(atof(words[3])));
        return 0;
    }
    fail("use: host once FILE, or host time FILE SECONDS");
}
