/*
 * A plain stand-in for the check of a sheet in a lent store, to try the tests on.
 *
 * It has the same face as the library. Reading the sheet and writing the text are left to
 * tests/sheet_reference.h and tests/text_reference.h. It is slow and proves nothing. The
 * self-test also runs it with one fault planted, one of those listed below or in those two,
 * and asks that the tests find it.
 */
#include "text_reference.h"

enum read_fault {
    NO_READ_FAULT,
    REFUSED_UNTOUCHED,      /* a refused sheet leaves the store as it was */
    REFUSED_ZERO,           /* a refused sheet leaves zeros */
    REFUSED_FRESH,          /* a sheet that is refused before its first statement or rule leaves a fresh store */
    REFUSED_EMPTY_KEPT,     /* a sheet that is refused before its first statement or rule leaves the store as it was */
    REFUSED_FORGETS,        /* a refused sheet leaves a fresh store, without what its statements gave */
    RULES_MAKE_NO_STORE,    /* a sheet that is refused after rules alone leaves zeros */
    ACCEPTED_ZERO,          /* an accepted sheet without statements leaves zeros */
    ACCEPTED_UNTOUCHED,     /* an accepted sheet without statements leaves the store as it was */
    TOO_LONG_ZERO,          /* a sheet that is too long leaves zeros */
    BITS_STAY,              /* bits that were set before stay set */
    LAST_WORD_STAYS,        /* the last word of the store is never written */
    FIRST_WORD_STAYS,       /* the first word of the store is never written */
    WRITES_PAST_THE_STORE,  /* the word after the store is written */
    LONGER_TAKEN,           /* a store that is longer is taken */
    SHORTER_TAKEN,          /* a store that is shorter by one word is taken */
    EMPTY_TAKEN,            /* without a store the sheet is read all the same */
    TOO_LONG_FIRST,         /* a sheet that is too long is refused before the store's length is asked */
    FAULTS_FIRST,           /* a faulty sheet is refused before the store's length is asked */
    LENGTH_AT_LINE_1,       /* a store of a wrong length is refused at line 1 */
    LENGTH_BY_9,            /* a store of a wrong length is refused by 9 */
    LENGTH_AS_RESULT,       /* a store of a wrong length is answered by -1, without a text */
    WRONG_LENGTH_ZERO,      /* a store of a wrong length is left as zeros */
    UNREAD_BEFORE_8,        /* the store is left as it was where the room is too short */
    CLEARED_BEFORE_8,       /* the store is cleared where the room is too short */
    CHANGES_THE_SHEET       /* the sheet's first byte is changed */
};

PLANTED(READ_FAULT, NO_READ_FAULT)

enum { REFUSED_SIZE = -1 };

/* What reading comes to: the line and the number of refusal, which is 0 for an accepted sheet, and whether the store is
   written. */
struct outcome {
    uint64_t line, refused;
    int touched;
};

/* The length of the store that is taken; 0 if none is. */
static size_t length_taken(size_t length)
{
    if (store_taken(length) != 0)
        return store_taken(length);
    return (READ_FAULT == LONGER_TAKEN && length > SALTREEVE_WORDS)
        || (READ_FAULT == SHORTER_TAKEN && length == SALTREEVE_WORDS - 1) || (READ_FAULT == EMPTY_TAKEN && length == 0)
        ? SALTREEVE_WORDS : 0;
}

/* Whether a sheet is refused before the store's length is asked. */
static int refused_first(const struct outcome *outcome)
{
    return (READ_FAULT == TOO_LONG_FIRST && outcome->refused == 9) || (READ_FAULT == FAULTS_FIRST && outcome->refused != 0);
}

/* What some faults make of the store of a refused sheet. */
static void spoil_refused(struct outcome *outcome, struct sheet *sheet)
{
    if (READ_FAULT == REFUSED_UNTOUCHED || (READ_FAULT == REFUSED_EMPTY_KEPT && sheet->section == 0))
        outcome->touched = 0;
    if (READ_FAULT == REFUSED_ZERO || (READ_FAULT == RULES_MAKE_NO_STORE && sheet->statements == 0))
        memset(sheet->words, 0, sheet->length * sizeof *sheet->words);
    if (READ_FAULT == (sheet->section == 0 ? REFUSED_FRESH : REFUSED_FORGETS))
        make_fresh(sheet);
}

/* What some faults make of the store of an accepted sheet. */
static void spoil_accepted(struct outcome *outcome, struct sheet *sheet)
{
    if (sheet->statements > 0)
        return;
    if (READ_FAULT == ACCEPTED_UNTOUCHED)
        outcome->touched = 0;
    if (READ_FAULT == ACCEPTED_ZERO)
        memset(sheet->words, 0, sheet->length * sizeof *sheet->words);
}

/* Refuses a store of a wrong length. */
static void refuse_length(struct outcome *outcome, struct sheet *sheet)
{
    outcome->line = READ_FAULT == LENGTH_AT_LINE_1;
    outcome->refused = READ_FAULT == LENGTH_BY_9 ? 9 : 1;
    outcome->touched = READ_FAULT == WRONG_LENGTH_ZERO;
    begin(sheet, SALTREEVE_WORDS);
}

/* Reads the sheet and says what it comes to. */
static void read_all(struct outcome *outcome, struct sheet *sheet, const uint8_t *bytes, size_t bytes_length, size_t length)
{
    size_t taken = length_taken(length);
    outcome->refused = 0;
    if (taken || READ_FAULT == TOO_LONG_FIRST || READ_FAULT == FAULTS_FIRST)
        outcome->refused = read_sheet(sheet, bytes, bytes_length, taken ? taken : SALTREEVE_WORDS, &outcome->line);
    outcome->touched = outcome->refused != 9 || READ_FAULT == TOO_LONG_ZERO;
    if (!taken && !refused_first(outcome))
        refuse_length(outcome, sheet);
}

/* Writes the store. */
static void write_store(uint64_t *words, size_t length, const struct sheet *sheet)
{
    size_t most = length < sheet->length ? length : sheet->length;
    if (most > SALTREEVE_WORDS)
        most = EDITION_FAULT == LARGE_REST_STAYS ? SALTREEVE_WORDS : most - (EDITION_FAULT == LARGE_LAST_WORD_STAYS);
    for (size_t i = READ_FAULT == FIRST_WORD_STAYS; i + (READ_FAULT == LAST_WORD_STAYS) < most; i++)
        words[i] = sheet->words[i] | (READ_FAULT == BITS_STAY ? words[i] : 0);
    if (READ_FAULT == WRITES_PAST_THE_STORE)
        words[length] = 0;
}

/* Moves the cells of a sheet to their places in the smaller layout, at the front of the larger store. */
static void in_small_rows(struct sheet *sheet)
{
    static uint64_t moved[SALTREEVE_WORDS];
    if (saltreeve_convert(sheet->words, sheet->length, sheet->items.count, sheet->concepts.count, sheet->roles.count, moved,
                          SALTREEVE_WORDS) < 0)
        return;
    memset(sheet->words, 0, sizeof sheet->words);
    memcpy(sheet->words, moved, sizeof moved);
}

/* What some faults do where the room is too short. */
static void spoil_8(struct outcome *outcome, struct sheet *sheet)
{
    if (READ_FAULT == UNREAD_BEFORE_8)
        outcome->touched = 0;
    if (READ_FAULT == CLEARED_BEFORE_8)
        memset(sheet->words, 0, sheet->length * sizeof *sheet->words);
}

/* Checks a sheet in the words of a store. */
int64_t saltreeve_check_in(const uint8_t *bytes, size_t bytes_length, uint64_t *words, size_t length,
                           uint8_t *room, size_t room_length)
{
    static struct sheet sheet;
    static struct text text;
    struct outcome outcome = {0};
    read_all(&outcome, &sheet, bytes, bytes_length, length);
    print_sheet(&text, &sheet, outcome.line, outcome.refused);
    if (outcome.refused > 1)
        spoil_refused(&outcome, &sheet);
    if (outcome.refused == 0)
        spoil_accepted(&outcome, &sheet);
    if (READ_FAULT == LENGTH_AS_RESULT && outcome.refused == 1)
        return REFUSED_SIZE;
    int64_t result = put_text(&text, room, room_length);
    if (result < 0)
        spoil_8(&outcome, &sheet);
    if (EDITION_FAULT == EDITION_1_IN_SMALL_ROWS && sheet.edition == 1 && sheet.length == SALTREEVE_LARGE_WORDS)
        in_small_rows(&sheet);
    if (outcome.touched)
        write_store(words, length, &sheet);
    if (READ_FAULT == CHANGES_THE_SHEET && bytes_length > 0)
        *(uint8_t *)bytes ^= 1;
    return result;
}
