/*
 * Which fault is planted in a stand-in. The self-tests name it in the environment, so that a stand-in is built once for
 * all its faults.
 */
#ifndef PLANTED_H
#define PLANTED_H

#include <stdlib.h>

/* The number that the environment has for a name, or another one where it has none. */
static inline int planted(const char *name, int otherwise)
{
    const char *number = getenv(name);
    return number == NULL ? otherwise : atoi(number);
}

/* A variable that has, from before the program's start on, the number that the environment has for its name. */
#define PLANTED(name, otherwise) \
    static int name; \
    __attribute__((constructor)) static void plant_##name(void) \
    { \
        name = planted(#name, otherwise); \
    }

#endif
