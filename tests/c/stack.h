/* Calls on a stack of exactly the bytes that the header states, between pages that may not be touched, and in a thread with the stack that it states. */
#ifndef STACK_H
#define STACK_H

#include "felknost.h"
#include "room.h"

#include <pthread.h>
#include <stdio.h>
#include <ucontext.h>

static inline void on_stated_stack(const char *name, void (*calls)(void))
{
    static ucontext_t here, there;
    struct room stack = room_of(FELKNOST_STACK);
    room_case = name;
    for (size_t i = 0; i < stack.size; i++)
        ((volatile uint8_t *)stack.start)[i] = 0xa5;
    getcontext(&there);
    there.uc_stack.ss_sp = stack.start;
    there.uc_stack.ss_size = stack.size;
    there.uc_link = &here;
    makecontext(&there, calls, 0);
    swapcontext(&here, &there);
    size_t untouched = 0;
    while (untouched < stack.size && stack.start[untouched] == 0xa5)
        untouched++;
    printf("%s: %zu bytes of %d used\n", name, stack.size - untouched, FELKNOST_STACK);
    room_free(&stack);
}

static void (*stack_calls)(void);

static inline void *stack_thread(void *unused)
{
    stack_calls();
    return unused;
}

static inline void in_stated_thread(void (*calls)(void))
{
    struct room stack = room_of(FELKNOST_THREAD_STACK);
    pthread_attr_t attributes;
    pthread_t thread;
    room_case = "a thread with the stack stated";
    stack_calls = calls;
    pthread_attr_init(&attributes);
    pthread_attr_setstack(&attributes, stack.start, stack.size);
    if (pthread_create(&thread, &attributes, stack_thread, NULL) != 0)
        abort();
    pthread_join(thread, NULL);
    pthread_attr_destroy(&attributes);
    room_free(&stack);
}

#endif
