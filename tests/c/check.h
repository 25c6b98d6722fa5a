/* What the C tests count, and how they end where something is not so: its line, and its words. */
#ifndef CHECK_H
#define CHECK_H

#include <stdio.h>
#include <stdlib.h>

static long checks;

static void check(int line, int holds, const char *what)
{
    checks++;
    if (holds)
        return;
    printf("line %d: not so: %s\n", line, what);
    exit(1);
}

#define CHECK(x) check(__LINE__, (x) != 0, #x)

#endif
