/*
 * Tests of felknost_check, built as C and as C++: each refusal with its place, the limits, texts between pages that may not be touched,
 * threads, and the stack that the header states. The last line counts them.
 */
#ifndef _GNU_SOURCE
#define _GNU_SOURCE 1
#endif
#include "built.h"
#include "felknost.h"
#include "room.h"
#include "stack.h"

#include <pthread.h>
#include <stdio.h>
#include <stdlib.h>
#include <string.h>

#define CODES 13

static int passed, failed;

static void count(int good)
{
    if (good)
        passed++;
    else
        failed++;
}

/* ---- one text */

static struct room texts;
static int seen[CODES + 1];

/* The text is judged at the front of its pages, where a byte before it traps, and at their end, where a byte past it does. */
static void expect(const char *name, const void *text, size_t length, uint32_t code, uint32_t place)
{
    uint32_t wanted = code * 65536 + place;
    room_case = name;
    room_open(&texts);
    uint8_t *front = (uint8_t *)memmove(texts.start, text, length);
    room_close(&texts);
    uint32_t first = felknost_check(front, length);
    room_open(&texts);
    uint8_t *end = (uint8_t *)memmove(texts.start + texts.size - length, text, length);
    room_close(&texts);
    uint32_t last = felknost_check(end, length);
    if (first != wanted || last != wanted)
        printf("%s: expected %u %u, got %u %u and %u %u\n", name, code, place, FELKNOST_CODE(first), FELKNOST_PLACE(first), FELKNOST_CODE(last),
               FELKNOST_PLACE(last));
    count(first == wanted && last == wanted);
    if (first == wanted)
        seen[code]++;
}

struct sample {
    const char *name;
    uint32_t code, place;
    const char *text;
};

#define SAMPLE                                                                                \
    "(stack 5)\n(func 2\n  (store 1)\n  (call 1)\n  (ensure 2)\n  (load 1)\n  (return)\n)\n" \
    "(func 4\n  (store 0)\n  (load 0)\n  (return)\n)\n"
#define CALLEE "(func 0\n  (return)\n)\n"

/* Every code but 1 and 6, whose texts are long. */
static const struct sample samples[] = {
    {"accepted", 0, 0, SAMPLE},
    {"empty", 0, 0, ""},
    {"a line feed alone", 2, 1, "\n"},
    {"a stack line alone", 2, 2, "(stack 5)\n"},
    {"form", 2, 3, "(stack 5)\n(func 2\n (return)\n)\n"},
    {"no line feed", 2, 4, "(stack 5)\n(func 2\n  (return)\n)"},
    {"missing line", 2, 3, "(stack 5)\n(func 2\n"},
    {"cut inside a word", 2, 3, "(stack 5)\n(func 2\n  (retur"},
    {"cut inside a number", 2, 1, "(stack 5"},
    {"leading zero", 2, 1, "(stack 05)\n(func 2\n  (return)\n)\n"},
    {"four digits", 3, 1, "(stack 9999)\n"},
    {"five digits", 2, 2, "(stack 5)\n(func 10000\n  (return)\n)\n"},
    {"stack 0", 3, 1, "(stack 0)\n"},
    {"stack 65", 3, 1, "(stack 65)\n"},
    {"frame", 4, 2, "(stack 5)\n(func 6\n  (return)\n)\n"},
    {"offset", 5, 3, "(stack 5)\n(func 0\n  (load 0)\n  (return)\n)\n"},
    {"callee", 7, 3, "(stack 5)\n(func 2\n  (call 0)\n  (ensure 2)\n  (return)\n)\n"},
    {"callee past the last", 7, 3, "(stack 5)\n(func 2\n  (call 1)\n  (ensure 2)\n  (return)\n)\n"},
    {"no ensure", 8, 3, "(stack 5)\n(func 2\n  (call 1)\n  (return)\n)\n" CALLEE},
    {"no call", 8, 3, "(stack 5)\n(func 2\n  (ensure 2)\n  (return)\n)\n"},
    {"other frame", 8, 4, "(stack 5)\n(func 2\n  (call 1)\n  (ensure 3)\n  (return)\n)\n" CALLEE},
    {"target", 9, 3, "(stack 5)\n(func 2\n  (goto 1)\n)\n"},
    {"target an ensure", 9, 5, "(stack 5)\n(func 2\n  (call 1)\n  (ensure 2)\n  (goto 1)\n)\n" CALLEE},
    {"last point", 10, 3, "(stack 5)\n(func 2\n  (store 0)\n)\n"},
    {"unreachable", 11, 4, "(stack 5)\n(func 2\n  (goto 2)\n  (return)\n  (return)\n)\n"},
    {"uncalled", 12, 5, "(stack 5)\n(func 2\n  (return)\n)\n" CALLEE},
    {"uninitialised", 13, 5, "(stack 5)\n(func 2\n  (either 1 2)\n  (store 1)\n  (load 1)\n  (return)\n)\n"},
};
#define SAMPLES (sizeof samples / sizeof samples[0])

static void refusals(void)
{
    for (size_t i = 0; i < SAMPLES; i++)
        expect(samples[i].name, samples[i].text, strlen(samples[i].text), samples[i].code, samples[i].place);
}

/* ---- long texts */

static void built_gives(const char *name, uint32_t code, uint32_t place)
{
    expect(name, built, used, code, place);
    used = 0;
}

static void functions_of(int number)
{
    put("(stack 1)\n");
    for (int f = 0; f < number; f++) {
        put("(func 0\n");
        if (f + 1 < number) {
            put_call(f + 1);
            put("  (ensure 0)\n");
        }
        put("  (return)\n)\n");
    }
}

static void points_in_all(int extra)
{
    put("(stack 1)\n(func 1\n  (call 1)\n  (ensure 1)\n  (call 2)\n  (ensure 1)\n  (call 3)\n  (ensure 1)\n");
    put_many("  (store 0)\n", 249);
    put("  (return)\n)\n");
    for (int f = 0; f < 2; f++) {
        put("(func 1\n");
        put_many("  (store 0)\n", 255);
        put("  (return)\n)\n");
    }
    put(extra ? "(func 1\n  (call 4)\n  (ensure 1)\n" : "(func 1\n  (store 0)\n  (store 0)\n");
    put_many("  (store 0)\n", 253);
    put("  (return)\n)\n");
    if (extra)
        put("(func 1\n  (return)\n)\n");
}

static void limits(void)
{
    functions_of(64);
    built_gives("64 functions", 0, 0);
    functions_of(65);
    built_gives("65 functions", 6, 2 + 64 * 5);

    put("(stack 1)\n(func 1\n");
    put_many("  (store 0)\n", 255);
    put("  (return)\n)\n");
    built_gives("256 points", 0, 0);
    put("(stack 1)\n(func 1\n");
    put_many("  (store 0)\n", 256);
    put("  (return)\n)\n");
    built_gives("257 points", 6, 2 + 257);

    points_in_all(0);
    built_gives("1,024 points", 0, 0);
    points_in_all(1);
    built_gives("1,025 points", 6, 1 + 4 * 258 + 2);

    put(SAMPLE);
    memset(built + used, '\n', LONGEST + 1 - used);
    used = 0;
    expect("32,768 bytes", built, LONGEST, 2, 14);
    expect("32,769 bytes", built, LONGEST + 1, 1, 0);
}

static void null_text(void)
{
    room_case = "NULL with 0";
    count(felknost_check(NULL, 0) == 0);
}

/* ---- threads */

#define THREADS 8
#define ROUNDS 2000

static pthread_barrier_t together;

static void *judge_samples(void *wrong)
{
    pthread_barrier_wait(&together);
    for (int round = 0; round < ROUNDS; round++)
        for (size_t i = 0; i < SAMPLES; i++) {
            const char *text = samples[i].text;
            uint32_t answer = felknost_check((const uint8_t *)text, strlen(text));
            if (answer != samples[i].code * 65536 + samples[i].place)
                ++*(int *)wrong;
        }
    return NULL;
}

static void threads(void)
{
    pthread_t thread[THREADS];
    int wrong[THREADS] = {0};
    room_case = "threads";
    pthread_barrier_init(&together, NULL, THREADS);
    for (int i = 0; i < THREADS; i++)
        if (pthread_create(&thread[i], NULL, judge_samples, &wrong[i]) != 0)
            abort();
    for (int i = 0; i < THREADS; i++) {
        pthread_join(thread[i], NULL);
        if (wrong[i] != 0)
            printf("thread %d: %d wrong answers\n", i, wrong[i]);
        count(wrong[i] == 0);
    }
    pthread_barrier_destroy(&together);
}

/* ---- the stack */

static uint32_t answers[SAMPLES];

static void answer_samples(void)
{
    for (size_t i = 0; i < SAMPLES; i++)
        answers[i] = felknost_check((const uint8_t *)samples[i].text, strlen(samples[i].text));
}

static int answered(void)
{
    int good = 1;
    for (size_t i = 0; i < SAMPLES; i++)
        good &= answers[i] == samples[i].code * 65536 + samples[i].place;
    memset(answers, 0xff, sizeof answers);
    return good;
}

int main(void)
{
    room_report_traps();
    /* First of all, so that the dynamic linker looks memset up on this stack too. */
    on_stated_stack("stack of check, first call", answer_samples);
    count(answered());
    on_stated_stack("stack of check, later call", answer_samples);
    count(answered());
    in_stated_thread(answer_samples);
    count(answered());
    texts = room_of(2 * LONGEST);
    refusals();
    limits();
    null_text();
    for (int code = 0; code <= CODES; code++) {
        if (seen[code] == 0)
            printf("no test has met code %d\n", code);
        count(seen[code] > 0);
    }
    threads();
    printf("%d passed, %d failed\n", passed, failed);
    return failed != 0;
}
