/*
 * A plain stand-in for the sheet check, to try the tests on.
 *
 * It has the same face as the library. Reading the sheet and writing the text are left to
 * tests/sheet_reference.h and tests/text_reference.h. It is slow and proves nothing. The
 * self-test also runs it with one fault planted, one of those listed below or in those two,
 * and asks that the tests find it.
 */
#include "text_reference.h"

enum host_fault {
    NO_HOST_FAULT,
    CHANGES_THE_SHEET,      /* the sheet's first byte is changed */
    STOPS_THE_PROGRAM,      /* the first sheet that is too long stops the program */
    ENDS_THE_PROGRAM        /* the first sheet that is too long ends the program as if all were well */
};

PLANTED(HOST_FAULT, NO_HOST_FAULT)

/* What some faults do, whatever is written. */
static void spoil(uint8_t *sheet, size_t length)
{
    if (HOST_FAULT == CHANGES_THE_SHEET && length > 0)
        sheet[0] ^= 1;
    if (HOST_FAULT == STOPS_THE_PROGRAM && length > SHEET_BYTES)
        abort();
    if (HOST_FAULT == ENDS_THE_PROGRAM && length > SHEET_BYTES)
        exit(0);
}

/* Checks a sheet. */
int64_t saltreeve_check(const uint8_t *sheet, size_t sheet_length, uint8_t *room, size_t room_length)
{
    static struct sheet read;
    static struct text text;
    uint64_t line, refused = read_sheet(&read, sheet, sheet_length, SALTREEVE_WORDS, &line);
    print_sheet(&text, &read, line, refused);
    spoil((uint8_t *)sheet, sheet_length);
    return put_text(&text, room, room_length);
}
