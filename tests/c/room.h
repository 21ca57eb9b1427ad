/* Memory between two pages that may not be touched, and a word on the case at hand where one is touched. */
#ifndef ROOM_H
#define ROOM_H

#include <signal.h>
#include <stdint.h>
#include <stdlib.h>
#include <string.h>
#include <sys/mman.h>
#include <unistd.h>

#define PAGE 4096

struct room {
    uint8_t *start;
    size_t size; /* a multiple of PAGE */
};

static inline struct room room_of(size_t size)
{
    struct room room;
    uint8_t *whole = (uint8_t *)mmap(NULL, size + 2 * PAGE, PROT_NONE, MAP_PRIVATE | MAP_ANONYMOUS, -1, 0);
    if (whole == (uint8_t *)MAP_FAILED || size % PAGE != 0 || mprotect(whole + PAGE, size, PROT_READ | PROT_WRITE) != 0)
        abort();
    room.start = whole + PAGE;
    room.size = size;
    return room;
}

/* Between these the room may only be read. */
static inline void room_close(struct room *room)
{
    if (mprotect(room->start, room->size, PROT_READ) != 0)
        abort();
}

static inline void room_open(struct room *room)
{
    if (mprotect(room->start, room->size, PROT_READ | PROT_WRITE) != 0)
        abort();
}

static inline void room_free(struct room *room)
{
    munmap(room->start - PAGE, room->size + 2 * PAGE);
}

/* What is tried. */
static const char *room_case = "";

static inline void room_trapped(int number)
{
    (void)number;
    if (write(1, room_case, strlen(room_case)) < 0 || write(1, ": a page was touched that may not be\n", 37) < 0)
        _exit(2);
    _exit(1);
}

static inline void room_report_traps(void)
{
    static uint8_t space[64 * 1024];
    stack_t other;
    struct sigaction action;
    memset(&other, 0, sizeof other);
    other.ss_sp = space;
    other.ss_size = sizeof space;
    memset(&action, 0, sizeof action);
    action.sa_handler = room_trapped;
    action.sa_flags = SA_ONSTACK;
    if (sigaltstack(&other, NULL) != 0 || sigaction(SIGSEGV, &action, NULL) != 0)
        abort();
}

#endif
