/* A text that is put together from its lines. */
#ifndef BUILT_H
#define BUILT_H

#include <stdio.h>
#include <string.h>

/* The most bytes of a text that is not refused for its length. */
#define LONGEST 32768

static char built[2 * LONGEST];
static size_t used;

static inline void put(const char *line)
{
    size_t n = strlen(line);
    memcpy(built + used, line, n);
    used += n;
}

static inline void put_many(const char *line, int times)
{
    for (int i = 0; i < times; i++)
        put(line);
}

static inline void put_call(int callee)
{
    char line[32];
    snprintf(line, sizeof line, "  (call %d)\n", callee);
    put(line);
}

#endif
