/*
 * What the stand-ins make of the edition of a sheet and of the size of the store that is lent.
 *
 * The self-tests also run them with one fault planted here, one of those listed below, and ask that
 * the tests find it.
 */
#ifndef EDITION_REFERENCE_H
#define EDITION_REFERENCE_H

#include "planted.h"
#include "saltreeve.h"

#include <string.h>

enum edition_fault {
    NO_EDITION_FAULT,
    EDITION_2_IN_SMALL,       /* edition 2 is taken with the smaller store */
    EDITION_3_TAKEN,          /* any edition of one digit is taken with the larger store */
    LONGER_HEADER_TAKEN,      /* a header that goes on after the 2 is taken */
    EDITION_2_REFUSED,        /* edition 2 is never taken */
    EDITION_1_REFUSED,        /* with the larger store only edition 2 is taken */
    EDITION_2_BY_12,          /* edition 2 with the smaller store is refused by 12 */
    EDITION_2_AT_LINE_0,      /* edition 2 with the smaller store is refused at line 0 */
    EDITION_1_TAKES_512,      /* edition 1 takes 512 items with the larger store */
    EDITION_2_TAKES_128,      /* edition 2 takes no more than 128 items */
    EDITION_2_TAKES_511,      /* edition 2 takes no more than 511 items */
    EDITION_2_TAKES_513,      /* edition 2 takes 513 items */
    EDITION_2_NEEDS_129,      /* edition 2 with 128 items or fewer is refused, at its last line by 18 */
    EDITION_1_IN_SMALL_ROWS,  /* edition 1 leaves the cells in the smaller layout, whatever the store */
    LARGE_REST_STAYS,         /* the words of the larger store from the 4,528th on stay as they were */
    LARGE_LAST_WORD_STAYS,    /* the last word of the larger store stays as it was */
    LARGE_NOT_ZERO,           /* a sheet that is refused before its first statement or rule leaves the larger store fresh */
    LARGE_REFUSED,            /* the larger store is refused for its length */
    LARGER_TAKEN,             /* a store of 70,193 words is taken */
    SHORTER_LARGE_TAKEN,      /* a store of 70,191 words is taken */
    TOTAL_OF_20_BITS          /* the findings of a sheet are counted in 20 bits */
};

PLANTED(EDITION_FAULT, NO_EDITION_FAULT)

/* The length of the store that a sheet is read into; 0 if the length lent is none of a store. */
static inline size_t store_taken(size_t length)
{
    if (EDITION_FAULT == LARGE_REFUSED && length == SALTREEVE_LARGE_WORDS)
        return 0;
    if ((EDITION_FAULT == LARGER_TAKEN && length == SALTREEVE_LARGE_WORDS + 1)
        || (EDITION_FAULT == SHORTER_LARGE_TAKEN && length == SALTREEVE_LARGE_WORDS - 1))
        return SALTREEVE_LARGE_WORDS;
    return length == SALTREEVE_WORDS || length == SALTREEVE_LARGE_WORDS ? length : 0;
}

/* The edition that a first line says, read with a store of some length; 0 if it is no header. */
static inline int edition_of(const uint8_t *line, size_t length, size_t store)
{
    int is_large = store == SALTREEVE_LARGE_WORDS;
    if (length < 7 || memcmp(line, "sheet\t", 6) != 0)
        return 0;
    if (length == 7 && line[6] == '1')
        return EDITION_FAULT == EDITION_1_REFUSED && is_large ? 0 : 1;
    if (!is_large && EDITION_FAULT != EDITION_2_IN_SMALL)
        return 0;
    if (line[6] == '2' && (length == 7 || EDITION_FAULT == LONGER_HEADER_TAKEN))
        return EDITION_FAULT == EDITION_2_REFUSED ? 0 : 2;
    return EDITION_FAULT == EDITION_3_TAKEN && length == 7 && line[6] >= '0' && line[6] <= '9' ? 2 : 0;
}

/* The most items of an edition. */
static inline size_t most_items_of(int edition, size_t store)
{
    if (edition == 2 && EDITION_FAULT != EDITION_2_TAKES_128)
        return SALTREEVE_LARGE_ITEMS - (EDITION_FAULT == EDITION_2_TAKES_511) + (EDITION_FAULT == EDITION_2_TAKES_513);
    return EDITION_FAULT == EDITION_1_TAKES_512 && store == SALTREEVE_LARGE_WORDS ? SALTREEVE_LARGE_ITEMS : SALTREEVE_ITEMS;
}

/* The number that a first line is refused by which is no header. */
static inline int header_number(const uint8_t *line, size_t length)
{
    return EDITION_FAULT == EDITION_2_BY_12 && length == 7 && memcmp(line, "sheet\t2", 7) == 0 ? 12 : 11;
}

#endif
