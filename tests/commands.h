/*
 * What the drivers share: the commands that they read from standard input, words
 * and decimal numbers parted by blanks, where they are in them, and the guard words
 * around what they lend.
 */
#ifndef COMMANDS_H
#define COMMANDS_H

#include <inttypes.h>
#include <stdint.h>
#include <stdio.h>
#include <stdlib.h>
#include <string.h>

enum {
    GUARD_WORDS = 64,  /* kept before and after the words lent */
    NAME_BYTES = 32,
    CALL_SECONDS = 20
};

static const uint64_t GUARD = 0xA5C3A5C3A5C3A5C3;

/* Where the test is. */
struct place {
    char part[NAME_BYTES];
    uint64_t part_number, part_calls, calls;
};

/* Ends the program because the commands make no sense. */
static void stop(const char *why)
{
    printf("commands: %s\n", why);
    exit(2);
}

/* Reads the next word of the commands; 0 if there is none. */
static int read_word(char word[NAME_BYTES])
{
    int c = getchar();
    size_t n = 0;
    while (c == ' ' || c == '\n')
        c = getchar();
    for (; c != EOF && c != ' ' && c != '\n'; c = getchar()) {
        if (n == NAME_BYTES - 1)
            stop("a word is too long");
        word[n++] = (char)c;
    }
    word[n] = 0;
    return n > 0;
}

/* Reads a number. */
static uint64_t read_number(void)
{
    char word[NAME_BYTES], *end = word;
    uint64_t number = read_word(word) ? strtoull(word, &end, 10) : 0;
    if (end == word || *end != 0)
        stop("a number is missing");
    return number;
}

/* Reads a result, which may be below 0. */
static inline int64_t read_result(void)
{
    char word[NAME_BYTES], *end = word;
    int64_t number = read_word(word) ? strtoll(word, &end, 10) : 0;
    if (end == word || *end != 0)
        stop("a result is missing");
    return number;
}

/* Names the next part, and prints the name in case the program is stopped in it. */
static void do_part(struct place *place)
{
    if (!read_word(place->part))
        stop("a name is missing");
    place->part_number = read_number();
    place->part_calls = 0;
    printf("%s %" PRIu64 "\n", place->part, place->part_number);
    fflush(stdout);
}

/* What a driver does: with no word it reads commands, with --stack and --time it measures. It has no stacks where `stacks` is NULL. */
struct driver {
    const char *name;
    void (*commands)(void);
    void (*stacks)(void);
    void (*times)(void);
};

/* Does what the words of the command line ask for; the exit status. */
static inline int run_driver(const struct driver *driver, int argc, char **argv)
{
    if (argc == 1)
        driver->commands();
    else if (argc == 2 && strcmp(argv[1], "--time") == 0)
        driver->times();
    else if (argc == 2 && strcmp(argv[1], "--stack") == 0 && driver->stacks != NULL)
        driver->stacks();
    else {
        fprintf(stderr, "usage: %s [--time%s]\n", driver->name, driver->stacks != NULL ? " | --stack" : "");
        return 2;
    }
    return 0;
}

#endif
