/* What the programs here have compared: a line for each, and the counts for the last line. */
#ifndef REEDTANGLE_TELL_H
#define REEDTANGLE_TELL_H

#include <stdio.h>

static int passed, failed;

static inline void tell(int good, const char *what)
{
    printf("%s  %s\n", good ? "ok  " : "FAIL", what);
    if (good) {
        passed += 1;
    } else {
        failed += 1;
    }
}

/* The same of a log of so many records. */
static inline void tell_of(int good, const char *what, size_t records)
{
    char line[256];
    snprintf(line, sizeof line, "%s, %zu records", what, records);
    tell(good, line);
}

#endif
