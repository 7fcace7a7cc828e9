/*
 * What the drivers share that measure sheets of their own making: the sheet that is
 * measured, and how it is put together. It is included after measure.h.
 */
#ifndef MEASURED_SHEET_H
#define MEASURED_SHEET_H

#include "measure.h"
#include "saltreeve.h"

#include <stdarg.h>

/* The names of roles, and of the items of a sheet that has many lines. */
static const char LETTERS[] = "ABCDEFGHIJKLMNOPQRSTUVWXYZabcdefghijklmnopqrstuvwxyz0123456789._/-";

/* The sheet that is measured. */
static char measured_sheet[SALTREEVE_SHEET + 1];
static size_t measured_length;

/* Adds to the sheet, in the manner of printf. */
static void add(const char *format, ...)
{
    size_t left = sizeof measured_sheet - measured_length;
    va_list given;
    va_start(given, format);
    int added = vsnprintf(measured_sheet + measured_length, left, format, given);
    va_end(given);
    if (added < 0 || (size_t)added >= left)
        stop("a sheet is too long");
    measured_length += (size_t)added;
}

/* Adds the bytes of a file. */
static void add_file(const char *path)
{
    FILE *file = fopen(path, "rb");
    if (file == NULL)
        stop("a sheet of examples/ cannot be opened");
    measured_length += fread(measured_sheet + measured_length, 1, sizeof measured_sheet - measured_length, file);
    fclose(file);
}

/* Adds so many lines, with the numbers from 0 on and the one that follows each, around to 0. */
static void add_numbered(int count, const char *format)
{
    for (int i = 0; i < count; i++)
        add(format, i, (i + 1) % count);
}

/* The same with letters. */
static void add_lettered(int count, const char *format)
{
    for (int i = 0; i < count; i++)
        add(format, LETTERS[i], LETTERS[(i + 1) % count]);
}

/* Adds the header and all names that a sheet can have. */
static void add_names(void)
{
    add("sheet\t1\n");
    add_numbered(SALTREEVE_CONCEPTS, "concept\tC%d\n");
    add_lettered(SALTREEVE_ROLES, "role\t%c\n");
    add_numbered(SALTREEVE_ITEMS, "item\ti%d\n");
}

#endif
