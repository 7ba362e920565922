/* HOLD(condition) of the tests in C: where the condition does not hold, the program names the line and ends with 1. */
#ifndef HOLD_H
#define HOLD_H

#include <stdio.h>
#include <stdlib.h>

static void hold(int held, const char *file, int line)
{
    if (!held) {
        printf("%s: line %d does not hold\n", file, line);
        exit(1);
    }
}
#define HOLD(condition) hold((condition) ? 1 : 0, __FILE__, __LINE__)

#endif
