/*
 * The text of a sheet and how it is put into a room, for the stand-ins that the tests are
 * tried on.
 *
 * The sheet is read by tests/sheet_reference.h. It is slow and proves nothing. The
 * self-tests also run it with one fault planted, one of those listed below, and ask that
 * the tests find it.
 */
#ifndef TEXT_REFERENCE_H
#define TEXT_REFERENCE_H

#include "sheet_reference.h"

#include <inttypes.h>
#include <stdio.h>
#include <stdlib.h>

enum text_fault {
    NO_TEXT_FAULT,
    ALWAYS_TOTAL_0,         /* every sheet is accepted without findings */
    ALWAYS_REFUSED,         /* every sheet is refused by 11 */
    NUMBER_BEFORE_LINE,     /* the number of refusal stands before the line */
    PRINTS_201,             /* 201 findings are printed */
    TOTAL_OF_PRINTED,       /* the total counts the lines printed */
    TOTAL_OF_LAST_RULE,     /* the total counts the findings of the last rule */
    TOTAL_OF_BROKEN,        /* the total counts the rules that are broken */
    TOTAL_OF_16_BITS,       /* the findings are counted in 16 bits */
    ORDER_OF_RULES,         /* rules are judged from the last */
    ROOM_UNASKED,           /* the text is cut where the room ends */
    ROOM_ONE_MORE,          /* the room must have one byte more than the text */
    ROOM_ONE_SHORT,         /* a room of one byte too few is taken */
    REFUSED_FITS_ALWAYS,    /* a refusal's text is not measured */
    WRITES_BEFORE_8,        /* the text is written as far as it fits before -8 */
    CLEARS_BEFORE_8,        /* the room is cleared before -8 */
    WRITES_PAST_THE_TEXT,   /* a zero is written after the text */
    CLEARS_THE_ROOM,        /* the rest of the room is cleared */
    WRITES_PAST_THE_ROOM    /* a byte after the room is written */
};

PLANTED(TEXT_FAULT, NO_TEXT_FAULT)

enum { TEXT_BYTES = 16384, TEXT_TOO_LONG = -8 };

/* The text so far. */
struct text {
    char bytes[TEXT_BYTES];
    size_t length;
};

/* --- The text --- */

/* Adds a piece to the text. */
static void print_piece(struct text *text, const void *at, size_t length)
{
    if (text->length + length > TEXT_BYTES)
        abort();
    memcpy(text->bytes + text->length, at, length);
    text->length += length;
}

/* Adds a word and one or two numbers to the text. */
static void print_numbers(struct text *text, const char *word, uint64_t first, const uint64_t *second)
{
    char line[80];
    int length = second == NULL ? snprintf(line, sizeof line, "%s\t%" PRIu64, word, first)
                                : snprintf(line, sizeof line, "%s\t%" PRIu64 "\t%" PRIu64, word, first, *second);
    print_piece(text, line, (size_t)length);
}

/* Adds a finding to the text. */
static void print_finding(struct text *text, const struct sheet *sheet, uint64_t line, const uint64_t *pair)
{
    print_numbers(text, "finding", line, NULL);
    for (int i = 0; i < 2; i++)
        if (pair[i] != SALTREEVE_NO_ITEM) {
            print_piece(text, "\t", 1);
            print_piece(text, sheet->items.names[pair[i]].at, sheet->items.names[pair[i]].length);
        }
    print_piece(text, "\n", 1);
}

/* The total after a rule with so many findings. */
static uint64_t counted(uint64_t total, uint64_t found)
{
    if (TEXT_FAULT == TOTAL_OF_LAST_RULE)
        return found;
    return total + (TEXT_FAULT == TOTAL_OF_BROKEN ? found > 0 : found);
}

/* Adds the total to the text, of which so many lines were printed. */
static void print_total(struct text *text, uint64_t total, uint64_t printed)
{
    total = EDITION_FAULT == TOTAL_OF_20_BITS ? total % (1 << 20) : total;
    uint64_t shown = TEXT_FAULT == TOTAL_OF_16_BITS ? (uint16_t)total : TEXT_FAULT == TOTAL_OF_PRINTED ? printed : total;
    print_numbers(text, "total", shown, NULL);
    print_piece(text, "\n", 1);
}

/* Adds what breaks the rules to the text. */
static void print_findings(struct text *text, const struct sheet *sheet)
{
    static uint64_t out[2 * PAIRS];
    uint64_t total = 0, printed = 0, most = TEXT_FAULT == PRINTS_201 ? MOST_PRINTED + 1 : MOST_PRINTED;
    for (size_t i = 0; i < sheet->rule_count && TEXT_FAULT != ALWAYS_TOTAL_0; i++) {
        const struct kept *kept = &sheet->rules[TEXT_FAULT == ORDER_OF_RULES ? sheet->rule_count - 1 - i : i];
        uint64_t found = (uint64_t)judge(sheet, kept, out);
        for (uint64_t n = 0; n < found && printed < most; n++, printed++)
            print_finding(text, sheet, kept->line, out + 2 * n);
        total = counted(total, found);
    }
    print_total(text, total, printed);
}

/* Writes the text for a sheet that was read: accepted if `refused` is 0. */
static void print_sheet(struct text *text, const struct sheet *sheet, uint64_t line, uint64_t refused)
{
    text->length = 0;
    if (TEXT_FAULT == ALWAYS_REFUSED)
        line = 1, refused = 11;
    if (refused == 0 || TEXT_FAULT == ALWAYS_TOTAL_0) {
        print_findings(text, sheet);
        return;
    }
    print_numbers(text, "refused", TEXT_FAULT == NUMBER_BEFORE_LINE ? refused : line,
                  TEXT_FAULT == NUMBER_BEFORE_LINE ? &line : &refused);
    print_piece(text, "\n", 1);
}

/* --- The room --- */

/* Whether a text is longer than the room for it. */
static int too_long(const struct text *text, size_t room)
{
    if (TEXT_FAULT == ROOM_UNASKED || (TEXT_FAULT == REFUSED_FITS_ALWAYS && text->bytes[0] == 'r'))
        return 0;
    return text->length + (TEXT_FAULT == ROOM_ONE_MORE) > room + (TEXT_FAULT == ROOM_ONE_SHORT);
}

/* Puts the text into the room and gives its length, or -8. */
static int64_t put_text(const struct text *text, uint8_t *room, size_t length)
{
    size_t fitting = text->length < length ? text->length : length;
    if (TEXT_FAULT == CLEARS_BEFORE_8)
        memset(room, 0, too_long(text, length) ? length : 0);
    if (!too_long(text, length) || TEXT_FAULT == WRITES_BEFORE_8)
        memcpy(room, text->bytes, fitting);
    if (too_long(text, length))
        return TEXT_TOO_LONG;
    if (TEXT_FAULT == WRITES_PAST_THE_TEXT && fitting < length)
        room[fitting] = 0;
    if (TEXT_FAULT == CLEARS_THE_ROOM)
        memset(room + fitting, 0, length - fitting);
    if (TEXT_FAULT == WRITES_PAST_THE_ROOM)
        room[length] = 0;
    return (int64_t)text->length;
}

#endif
