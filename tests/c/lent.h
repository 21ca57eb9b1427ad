/*
 * Buffers that are lent to a service, each at one end of its pages: the front, where what lies before traps, or the end, where what lies behind does.
 * The task and the prices that they are used with, and the count of what passed.
 */
#ifndef LENT_H
#define LENT_H

#include "felknost.h"
#include "room.h"

#include <pthread.h>
#include <stdio.h>

/* What a buffer holds when it is lent. */
#define FILLER 0xa5

static int passed, failed;

static inline void count(const char *name, int good)
{
    if (good) {
        passed++;
        return;
    }
    failed++;
    printf("%s: FAILED\n", name);
}

/* A task of two functions in which the callee spills one block. */
#define TASK                                                                                  \
    "(stack 5)\n(func 2\n  (store 1)\n  (call 1)\n  (ensure 2)\n  (load 1)\n  (return)\n)\n" \
    "(func 4\n  (store 0)\n  (load 0)\n  (return)\n)\n"

/* The price of a move: start where it moves a block at all, and each for each block. */
struct price {
    uint32_t start, each;
};

static const struct price in_blocks = {0, 1};
static const struct price start_of_10 = {10, 1};

/* One number of each is outside its range. */
static const struct price refused_prices[] = {{256, 1}, {UINT32_MAX, 1}, {0, 0}, {255, 0}, {0, 256}, {255, UINT32_MAX}};
#define REFUSED_PRICES (sizeof refused_prices / sizeof refused_prices[0])

struct buffer {
    struct room room;
    uint8_t *at;
    size_t bytes;
};

static inline void lend(struct buffer *buffer, size_t bytes, int at_end)
{
    memset(buffer->room.start, FILLER, buffer->room.size);
    buffer->at = buffer->room.start + (at_end ? buffer->room.size - bytes : 0);
    buffer->bytes = bytes;
}

static inline void lend_with(struct buffer *buffer, const void *held, size_t bytes, int at_end)
{
    lend(buffer, bytes, at_end);
    if (bytes > 0)
        memcpy(buffer->at, held, bytes);
}

/* All bytes of the buffer's pages are as they were lent, but for its first ones. */
static inline int kept_from(const struct buffer *buffer, size_t first)
{
    const uint8_t *byte = buffer->room.start;
    for (; byte < buffer->room.start + buffer->room.size; byte++)
        if ((byte < buffer->at || byte >= buffer->at + first) && *byte != FILLER)
            return 0;
    return 1;
}

/* A working space of this many numbers is 0 in its first FELKNOST_WORK and untouched behind them, or wholly untouched where it is shorter. */
static inline int cleared(const struct buffer *works, size_t work)
{
    size_t zeros = work < FELKNOST_WORK ? 0 : FELKNOST_WORK * sizeof(uint32_t);
    size_t i;
    for (i = 0; i < zeros; i++)
        if (works->at[i] != 0)
            return 0;
    return kept_from(works, zeros);
}

/* Threads at the same time, each with buffers of its own; calls sets the number that it is given where all its answers were right. */
#define THREADS 8

static inline void in_threads(void *(*calls)(void *))
{
    pthread_t thread[THREADS];
    int good[THREADS], i;
    for (i = 0; i < THREADS; i++)
        if (pthread_create(&thread[i], NULL, calls, &good[i]) != 0)
            abort();
    for (i = 0; i < THREADS; i++) {
        pthread_join(thread[i], NULL);
        count("a thread", good[i]);
    }
}

#endif
