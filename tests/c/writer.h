/*
 * Tests of a function that writes bytes about a task: the bytes of one task, in blocks and at a price, outputs of every length around the one wanted,
 * refusals, buffers between pages that may not be touched and with contents that are not zero, a result that is too short, threads, and the stack that
 * the header states.
 *
 * Before this file is included, SERVICE is the function, NAME its name in what is printed, and BYTES and BYTES_AT_10 are what it writes of TASK in blocks
 * and with a start of 10.
 */
#ifndef WRITER_H
#define WRITER_H

#include "lent.h"
#include "stack.h"

#include <stdlib.h>
#include <string.h>

/* Twelve loads that cost the same, in two functions, and more points than a list has lines. */
#define LOADS "  (store 0)\n  (load 0)\n  (load 0)\n  (load 0)\n  (load 0)\n  (load 0)\n  (load 0)\n  (return)\n)\n"
#define MANY                                                                                          \
    "(stack 8)\n(func 0\n  (call 1)\n  (ensure 0)\n  (call 2)\n  (ensure 0)\n  (return)\n)\n" \
    "(func 1\n" LOADS "(func 1\n" LOADS

#define WANTED (sizeof BYTES - 1)
#define WANTED_AT_10 (sizeof BYTES_AT_10 - 1)

/* ---- one call */

static struct buffer texts, outputs, works, results;

static uint64_t numbers[FELKNOST_WRITE_RESULT];

static int called(const char *text, size_t length, struct price price, size_t output, size_t work, size_t result, int at_end)
{
    lend_with(&texts, text, length, at_end);
    lend(&outputs, output, at_end);
    lend(&works, work * sizeof(uint32_t), at_end);
    lend(&results, result * sizeof(uint64_t), at_end);
    room_close(&texts.room);
    uint32_t answer = SERVICE(texts.at, length, price.start, price.each, outputs.at, output, (uint32_t *)(void *)works.at, work,
                              (uint64_t *)(void *)results.at, result);
    room_open(&texts.room);
    if (result >= FELKNOST_WRITE_RESULT)
        memcpy(numbers, results.at, sizeof numbers);
    return (int)answer;
}

static void expect_at(const char *name, const char *text, size_t length, struct price price, size_t output, size_t work, uint64_t code, uint64_t place,
                      const char *bytes, size_t written)
{
    int at_end;
    for (at_end = 0; at_end < 2; at_end++) {
        room_case = name;
        int answer = called(text, length, price, output, work, FELKNOST_WRITE_RESULT + 2, at_end);
        int same = numbers[FELKNOST_RESULT_CODE] == code && numbers[FELKNOST_RESULT_PLACE] == place && numbers[FELKNOST_RESULT_WRITTEN] == written;
        int wrote = memcmp(outputs.at, bytes, written) == 0 && kept_from(&outputs, written);
        count(name, answer == 1 && same && wrote && cleared(&works, work) && kept_from(&results, sizeof numbers));
    }
}

static void expect(const char *name, const char *text, size_t length, size_t output, size_t work, uint64_t code, uint64_t place, const char *bytes,
                   size_t written)
{
    expect_at(name, text, length, in_blocks, output, work, code, place, bytes, written);
}

/* ---- cases */

/* In outputs of every length up to some bytes too many. */
static void at_every_length(const char *name, const char *text, size_t length, struct price price, const char *bytes, size_t wanted)
{
    size_t output;
    for (output = 0; output <= wanted + 8; output++) {
        int whole = output >= wanted;
        expect_at(name, text, length, price, output, FELKNOST_WORK, whole ? 0 : 14, whole ? 0 : wanted, bytes, whole ? wanted : 0);
    }
}

static void refusals(void)
{
    expect("a line feed alone", "\n", 1, 400, FELKNOST_WORK, 2, 1, "", 0);
    expect("a form", "(stack 5)\n(func 2\n (return)\n)\n", 30, 400, FELKNOST_WORK + 9, 2, 3, "", 0);
    expect("a stack", "(stack 65)\n", 11, 400, FELKNOST_WORK, 3, 1, "", 0);
    expect("a refused text and no output", "(stack 65)\n", 11, 0, FELKNOST_WORK, 3, 1, "", 0);
    expect("a working space too small", TASK, sizeof TASK - 1, 400, FELKNOST_WORK - 1, 15, FELKNOST_WORK, "", 0);
    expect("no working space", TASK, sizeof TASK - 1, 400, 0, 15, FELKNOST_WORK, "", 0);
    expect("15 before the text", "(stack 65)\n", 11, 400, 3, 15, FELKNOST_WORK, "", 0);
    expect("more working space", TASK, sizeof TASK - 1, 400, FELKNOST_WORK + 100, 0, 0, BYTES, WANTED);
}

static void prices(void)
{
    size_t i;
    expect_at("a price", TASK, sizeof TASK - 1, start_of_10, WANTED_AT_10 + 3, FELKNOST_WORK, 0, 0, BYTES_AT_10, WANTED_AT_10);
    expect_at("an output too small at a price", TASK, sizeof TASK - 1, start_of_10, WANTED, FELKNOST_WORK, 14, WANTED_AT_10, "", 0);
    for (i = 0; i < REFUSED_PRICES; i++) {
        expect_at("23", TASK, sizeof TASK - 1, refused_prices[i], 400, FELKNOST_WORK + 9, 23, 0, "", 0);
        expect_at("23 before the text and 14", "(stack 65)\n", 11, refused_prices[i], 0, FELKNOST_WORK, 23, 0, "", 0);
        expect_at("15 before 23", TASK, sizeof TASK - 1, refused_prices[i], 400, FELKNOST_WORK - 1, 15, FELKNOST_WORK, "", 0);
    }
}

static void short_results(void)
{
    size_t result;
    int at_end;
    for (result = 0; result < FELKNOST_WRITE_RESULT; result++)
        for (at_end = 0; at_end < 2; at_end++) {
            room_case = "a result too short";
            int answer = called(TASK, sizeof TASK - 1, in_blocks, 400, FELKNOST_WORK, result, at_end);
            count(room_case, answer == 0 && kept_from(&outputs, 0) && kept_from(&works, 0) && kept_from(&results, 0));
        }
    static const uint64_t refused[FELKNOST_WRITE_RESULT] = {15, FELKNOST_WORK, 0};
    uint64_t alone[FELKNOST_WRITE_RESULT] = {9, 9, 9};
    int answer = (int)SERVICE(NULL, 0, 0, 1, NULL, 0, NULL, 0, alone, FELKNOST_WRITE_RESULT);
    count("nothing is lent but the result", answer == 1 && memcmp(alone, refused, sizeof refused) == 0);
    count("nothing is lent", SERVICE(NULL, 0, 0, 1, NULL, 0, NULL, 0, NULL, 0) == 0);
}

/* ---- threads, each with buffers of its own */

#define ROUNDS 2000

static void *writes(void *good)
{
    static const char task[] = TASK;
    uint32_t *work = (uint32_t *)malloc(FELKNOST_WORK * sizeof *work);
    uint8_t output[WANTED + 3];
    uint64_t result[FELKNOST_WRITE_RESULT];
    int round;
    for (round = 0; work != NULL && round < ROUNDS; round++) {
        memset(work, FILLER, FELKNOST_WORK * sizeof *work);
        memset(output, FILLER, sizeof output);
        uint32_t answer = SERVICE((const uint8_t *)task, sizeof task - 1, 0, 1, output, sizeof output, work, FELKNOST_WORK, result, FELKNOST_WRITE_RESULT);
        if (answer != 1 || result[FELKNOST_RESULT_WRITTEN] != WANTED || memcmp(output, BYTES, WANTED) != 0 || output[WANTED] != FILLER)
            break;
    }
    free(work);
    *(int *)good = round == ROUNDS;
    return NULL;
}

/* ---- the stack */

static uint8_t stack_output[PAGE];
static uint32_t stack_work[FELKNOST_WORK];
static uint64_t stack_result[FELKNOST_WRITE_RESULT];

static void write_of(const char *text, size_t output)
{
    SERVICE((const uint8_t *)text, strlen(text), 0, 1, stack_output, output, stack_work, FELKNOST_WORK, stack_result, FELKNOST_WRITE_RESULT);
}

static void write_tasks(void)
{
    /* Point 1 is reached from a higher one, so that the kernel decides and not the sweep. */
    write_of("(stack 5)\n(func 0\n  (goto 2)\n  (goto 4)\n  (either 1 3)\n  (goto 4)\n  (return)\n)\n", WANTED);
    write_of(MANY, sizeof stack_output);
    write_of(TASK, WANTED);
}

static void stacks(void)
{
    on_stated_stack("stack of " NAME ", first call", write_tasks);
    count(room_case, memcmp(stack_output, BYTES, WANTED) == 0);
    memset(stack_output, FILLER, WANTED);
    in_stated_thread(write_tasks);
    count(room_case, memcmp(stack_output, BYTES, WANTED) == 0);
}

/* ---- all of it */

static void prepare(void)
{
    room_report_traps();
    /* First of all, so that the dynamic linker looks memset up on this stack too. */
    stacks();
    texts.room = room_of(4 * PAGE);
    outputs.room = room_of(FELKNOST_OUTPUT);
    works.room = room_of(20 * PAGE);
    results.room = room_of(PAGE);
}

static void common_cases(void)
{
    at_every_length("an output length", TASK, sizeof TASK - 1, in_blocks, BYTES, WANTED);
    refusals();
    prices();
    short_results();
    in_threads(writes);
}

static int counted(void)
{
    printf(NAME ": %d passed, %d failed\n", passed, failed);
    return failed != 0;
}

#endif
