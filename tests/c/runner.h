/*
 * Tests of a function that runs a task: the two worked runs, in blocks and at a price, runs in which the cores move different blocks, the worked run with one
 * preemption at each of its points against the printed sheet, each refusal of a run with what every buffer holds after it, buffers between pages that may not
 * be touched, a result that is too short, threads, and the stack that the header states.
 *
 * Before this file is included, SERVICE is the function and NAME its name in what is printed. MOVED_BY_CALLS and MOVED_BY_PREEMPTIONS are what it moves in
 * those runs, in blocks, and MOVED_BY_PREEMPTIONS_AT_10 with a start of 10. MOVED_BEHIND_ENSURE is what it moves in the worked run with one preemption right
 * behind the ensure.
 */
#ifndef RUNNER_H
#define RUNNER_H

#include "lent.h"
#include "rows.h"
#include "stack.h"

#include <stdlib.h>
#include <string.h>

#define CHOICE "(stack 5)\n(func 2\n  (either 0 1)\n  (return)\n)\n"
#define STEP 0
#define PREEMPTION 1
#define HELD 0xa5a5a5a5u

/* ---- one run */

static struct buffer texts, lists, answers, caches, memories, works, results;

/* What a run is given: the price, how many numbers of each buffer, and the events. */
struct given {
    const char *text;
    struct price price;
    size_t events, answers, cache, memory, work, result;
    const uint32_t *list;
};

static const uint32_t *number(const struct buffer *buffer)
{
    return (const uint32_t *)(void *)buffer->at;
}

static uint32_t *room_for(struct buffer *buffer, size_t count_of, int at_end)
{
    lend(buffer, count_of * sizeof(uint32_t), at_end);
    return (uint32_t *)(void *)buffer->at;
}

static uint32_t ran(const struct given *given, int at_end)
{
    lend_with(&texts, given->text, strlen(given->text), at_end);
    lend_with(&lists, given->list, given->events * sizeof(uint32_t), at_end);
    uint32_t *answer = room_for(&answers, given->answers, at_end);
    uint32_t *cache = room_for(&caches, given->cache, at_end);
    uint32_t *memory = room_for(&memories, given->memory, at_end);
    uint32_t *work = room_for(&works, given->work, at_end);
    lend(&results, given->result * sizeof(uint64_t), at_end);
    room_close(&texts.room);
    room_close(&lists.room);
    uint32_t returned = SERVICE(texts.at, texts.bytes, given->price.start, given->price.each, number(&lists), given->events, answer, given->answers, cache,
                                given->cache, memory, given->memory, work, given->work, (uint64_t *)(void *)results.at, given->result);
    room_open(&texts.room);
    room_open(&lists.room);
    return returned;
}

/* Code, place, done, moved, allowed. */
static int result_is(uint64_t code, uint64_t place, uint64_t done, uint64_t moved, uint64_t allowed)
{
    const uint64_t wanted[FELKNOST_RUN_RESULT] = {code, place, done, moved, allowed};
    return memcmp(results.at, wanted, sizeof wanted) == 0 && kept_from(&results, sizeof wanted);
}

static int holds(const struct buffer *buffer, const uint32_t *wanted, size_t count_of)
{
    return memcmp(buffer->at, wanted, count_of * sizeof *wanted) == 0;
}

/* ---- cases */

static const uint32_t plain_list[] = {STEP, 3, STEP, 3, STEP, 4, STEP, 4, STEP, 4, STEP, 4, STEP, 4, STEP, 4};
static const uint32_t preempted_list[] = {STEP, 3, STEP, 3, STEP, 3, PREEMPTION, 8, STEP, 3, STEP, 3, STEP, 3, STEP, 3};
static const uint32_t two_preemptions[] = {PREEMPTION, 8, PREEMPTION, 9};

static void worked(int at_end)
{
    /* To the end, on a memory that is one number longer than asked for. Offset 1 of function 0 is address 6, in block 1. */
    static const uint32_t loaded[] = {0, 0, 0, 4, 0, 0, 3, 0};
    static const uint32_t memory[] = {HELD, HELD, HELD, HELD, HELD, HELD, 3};
    static const uint32_t cache[] = {HELD, 3, HELD, HELD, HELD};
    struct given given = {TASK, in_blocks, 16, 9, 5, 7, FELKNOST_WORK + 3, FELKNOST_RUN_RESULT + 1, plain_list};
    room_case = "a run to its end";
    int good = ran(&given, at_end) == 1 && result_is(0, 0, 8, 2, 2);
    count(room_case, good && holds(&answers, loaded, 8) && kept_from(&answers, sizeof loaded) && cleared(&works, given.work));
    count("its memory and cache", holds(&memories, memory, 7) && holds(&caches, cache, 5));
    struct given preempted = {TASK, in_blocks, 16, 8, 5, 6, FELKNOST_WORK, FELKNOST_RUN_RESULT, preempted_list};
    room_case = "a run with a preemption";
    count(room_case, ran(&preempted, at_end) == 1 && result_is(0, 0, 8, 9, 9));
    given.price = preempted.price = start_of_10;
    room_case = "a run to its end at a price";
    good = ran(&given, at_end) == 1 && result_is(0, 0, 8, 22, 22);
    count(room_case, good && holds(&answers, loaded, 8) && holds(&memories, memory, 7) && holds(&caches, cache, 5));
    room_case = "a run with a preemption at a price";
    count(room_case, ran(&preempted, at_end) == 1 && result_is(0, 0, 8, 49, 59));
}

/* The caller's offsets 1 and 2 are the addresses 4 and 5, in the blocks 0 and 1. Both calls push them out, but only the first after a store to them. */
static void calls(int at_end)
{
    static const char text[] = "(stack 4)\n(func 3\n  (store 2)\n  (call 1)\n  (ensure 3)\n  (call 1)\n  (ensure 3)\n  (load 2)\n  (return)\n)\n"
                               "(func 3\n  (store 0)\n  (return)\n)\n";
    static const uint32_t list[] = {STEP, 1, STEP, 2, STEP, 3, STEP, 4, STEP, 5, STEP, 6, STEP, 7, STEP, 8, STEP, 9, STEP, 10, STEP, 11};
    static const uint32_t loaded[] = {0, 0, 0, 0, 0, 0, 0, 0, 0, 1, 0};
    static const uint32_t memory[] = {HELD, HELD, HELD, HELD, HELD, 1};
    static const uint32_t cache[] = {HELD, 1, HELD, HELD};
    struct given given = {text, in_blocks, 22, 11, 4, 6, FELKNOST_WORK, FELKNOST_RUN_RESULT, list};
    room_case = "a run with two calls";
    count(room_case, ran(&given, at_end) == 1 && result_is(0, 0, 11, MOVED_BY_CALLS, 8) && holds(&answers, loaded, 11) && cleared(&works, given.work));
    count("its memory and cache", holds(&memories, memory, 6) && holds(&caches, cache, 4));
}

/* Each preemption brings two blocks back. Before the second nothing was stored to; before the third the upper block was. */
static void preemptions(int at_end)
{
    static const char text[] =
        "(stack 2)\n(func 2\n  (store 0)\n  (store 1)\n  (load 0)\n  (store 1)\n  (load 1)\n  (load 0)\n  (return)\n)\n";
    static const uint32_t list[] = {STEP, 5, STEP, 6, PREEMPTION, 3, PREEMPTION, 4, STEP, 0, STEP, 7, PREEMPTION, 3, STEP, 0, STEP, 0, STEP, 0};
    static const uint32_t loaded[] = {0, 0, 0, 0, 5, 0, 0, 7, 5, 0};
    static const uint32_t kept[] = {5, 7};
    struct given given = {text, in_blocks, 20, 10, 2, 2, FELKNOST_WORK, FELKNOST_RUN_RESULT, list};
    room_case = "a run with three preemptions";
    count(room_case, ran(&given, at_end) == 1 && result_is(0, 0, 10, MOVED_BY_PREEMPTIONS, 12) && holds(&answers, loaded, 10));
    count("its memory and cache", holds(&memories, kept, 2) && holds(&caches, kept, 2));
    given.price = start_of_10;
    room_case = "a run with three preemptions at a price";
    count(room_case, ran(&given, at_end) == 1 && result_is(0, 0, 10, MOVED_BY_PREEMPTIONS_AT_10, 72) && holds(&answers, loaded, 10));
}

/* ---- a single preemption, in blocks */

/* The lines of the printed sheet of TASK: those of its functions, and those of their points. */
static struct row functions[2], points[2][5];

static int sheet_read(void)
{
    static uint8_t output[FELKNOST_OUTPUT];
    static uint32_t work[FELKNOST_WORK];
    static const char task[] = TASK;
    uint64_t result[FELKNOST_WRITE_RESULT] = {1, 1, 0};
    int function, point;
    felknost_report((const uint8_t *)task, sizeof task - 1, 0, 1, output, sizeof output - 1, work, FELKNOST_WORK, result, FELKNOST_WRITE_RESULT);
    const char *line = (const char *)output;
    if (result[FELKNOST_RESULT_CODE] != 0 || strncmp(line, "(report\n", 8) != 0)
        return 0;
    line += 8;
    for (function = 0; function < 2; function++) {
        if ((line = row_of(line, "func", &functions[function])) == NULL || functions[function].fields != FUNCTION_FIELDS)
            return 0;
        for (point = 0; point < (function == 0 ? 5 : 3); point++)
            if ((line = row_of(line, "at", &points[function][point])) == NULL || points[function][point].fields != POINT_FIELDS)
                return 0;
    }
    return 1;
}

/* The points that the steps of TASK come to, one after the other. The second step calls function 1. */
static const int stops[][2] = {{0, 0}, {0, 1}, {1, 0}, {1, 1}, {1, 2}, {0, 2}, {0, 3}, {0, 4}};
#define STOPS 8
#define CALL_STEP 1

/* Of the run to its end with one preemption, at each of them: moved, the spills and fills of the sheet with once of the point, and allowed. */
static const uint64_t preempted_at[STOPS][3] = {{2, 2, 2}, {2, 4, 4}, {4, 4, 4}, {9, 9, 9}, {4, 4, 4}, {2, 2, 3}, {MOVED_BEHIND_ENSURE, 4, 4}, {2, 2, 2}};

static const uint64_t *figures_at(int stop)
{
    return points[stops[stop][0]][stops[stop][1]].field;
}

/* What the sheet has for this many steps without a preemption. */
static uint64_t spills_and_fills(int steps)
{
    uint64_t sum = steps > CALL_STEP ? functions[1].field[SPILL] : 0;
    int stop;
    for (stop = 0; stop < steps; stop++)
        sum += figures_at(stop)[FILL];
    return sum;
}

/* The run ends so, moves at most the first of the sums and is allowed the second. Returns what it moves, or a number above both where one of this fails. */
static uint64_t moved_within(const struct given *given, uint64_t code, uint64_t place, uint64_t done, uint64_t with_once, uint64_t with_cost, int at_end)
{
    uint64_t got[FELKNOST_RUN_RESULT] = {0};
    uint32_t returned = ran(given, at_end);
    memcpy(got, results.at, sizeof got);
    uint64_t moved = got[FELKNOST_RESULT_MOVED];
    return returned == 1 && result_is(code, place, done, moved, with_cost) && moved <= with_once ? moved : UINT64_MAX;
}

/*
 * Lists with exactly one preemption done, at this stop: they end with any event from there on, or go on with one that is refused, of no known kind or a second
 * preemption after the finish.
 */
static void preempted_once(int stop, int at_end)
{
    uint32_t list[2 * (STOPS + 2)];
    struct given given = {TASK, in_blocks, 0, STOPS + 2, 5, 6, FELKNOST_WORK, FELKNOST_RUN_RESULT, list};
    uint64_t moved = 0, refused, with_once = 0, with_cost = 0;
    int done, good = 1;
    room_case = "a run with one preemption";
    for (done = 1; done <= STOPS + 1; done++) {
        list[2 * done - 2] = done == stop + 1 ? PREEMPTION : STEP;
        list[2 * done - 1] = 3;
        if (done <= stop)
            continue;
        with_once = spills_and_fills(done - 1) + figures_at(stop)[ONCE];
        with_cost = spills_and_fills(done - 1) + figures_at(stop)[COST];
        given.events = 2 * (size_t)done;
        moved = moved_within(&given, 0, 0, (uint64_t)done, with_once, with_cost, at_end);
        list[2 * done] = done <= STOPS ? PREEMPTION + 1 : PREEMPTION;
        list[2 * done + 1] = 3;
        given.events += 2;
        refused = moved_within(&given, done <= STOPS ? 20 : 22, (uint64_t)done, (uint64_t)done, with_once, with_cost, at_end);
        good &= moved <= with_once && refused == moved;
    }
    count(room_case, good);
    count("its sums", moved == preempted_at[stop][0] && with_once == preempted_at[stop][1] && with_cost == preempted_at[stop][2]);
}

static void preempted_everywhere(int at_end)
{
    int stop, read = sheet_read();
    count("the sheet of the runs with one preemption", read);
    for (stop = 0; read && stop < STOPS; stop++)
        preempted_once(stop, at_end);
}

/* ---- refusals */

static void nothing_done(const char *name, struct given given, uint64_t code, uint64_t place, int at_end)
{
    room_case = name;
    int good = ran(&given, at_end) == 1 && result_is(code, place, 0, 0, 0);
    int untouched = kept_from(&answers, 0) && kept_from(&caches, 0) && kept_from(&memories, 0);
    count(name, good && untouched && cleared(&works, given.work));
}

static void refused_before_the_first_event(int at_end)
{
    struct given good = {TASK, in_blocks, 16, 8, 5, 6, FELKNOST_WORK, FELKNOST_RUN_RESULT, plain_list};
    struct given given = good;
    given.work = FELKNOST_WORK - 1;
    nothing_done("15", given, 15, FELKNOST_WORK, at_end);
    given = good;
    given.text = "(stack 65)\n";
    nothing_done("3", given, 3, 1, at_end);
    given = good;
    given.events = 15;
    nothing_done("16", given, 16, 0, at_end);
    given = good;
    given.answers = 7;
    nothing_done("17", given, 17, 8, at_end);
    given = good;
    given.cache = 6;
    nothing_done("18, more", given, 18, 5, at_end);
    given.cache = 0;
    nothing_done("18, none", given, 18, 5, at_end);
    given = good;
    given.memory = 5;
    nothing_done("19", given, 19, 6, at_end);
    given.answers = given.cache = given.memory = 0;
    nothing_done("17 before 18 and 19", given, 17, 8, at_end);
    given = good;
    given.events = 0;
    nothing_done("no events", given, 0, 0, at_end);
}

static void refused_for_the_price(int at_end)
{
    struct given given = {TASK, in_blocks, 16, 8, 5, 6, FELKNOST_WORK + 3, FELKNOST_RUN_RESULT, plain_list};
    size_t i;
    for (i = 0; i < REFUSED_PRICES; i++) {
        given.price = refused_prices[i];
        nothing_done("23", given, 23, 0, at_end);
        struct given worse = {"(stack 65)\n", given.price, 15, 0, 0, 0, FELKNOST_WORK, FELKNOST_RUN_RESULT, plain_list};
        nothing_done("23 before the text and 16 to 19", worse, 23, 0, at_end);
        worse.work = FELKNOST_WORK - 1;
        nothing_done("15 before 23", worse, 15, FELKNOST_WORK, at_end);
    }
}

static void refused_events(int at_end)
{
    static const uint32_t kind[] = {STEP, 3, 2, 0, STEP, 0};
    static const uint32_t choice[] = {STEP, 0, STEP, 2, STEP, 0};
    static const uint32_t finished[] = {STEP, 1, STEP, 0, 7, 0};
    static const uint32_t zeros[] = {0, 0};
    struct given given = {TASK, in_blocks, 6, 3, 5, 6, FELKNOST_WORK, FELKNOST_RUN_RESULT, kind};
    room_case = "20";
    count(room_case, ran(&given, at_end) == 1 && result_is(20, 1, 1, 0, 0) && holds(&answers, zeros, 1) && kept_from(&answers, 4));
    struct given other = {CHOICE, in_blocks, 6, 3, 5, 2, FELKNOST_WORK, FELKNOST_RUN_RESULT, choice};
    room_case = "21";
    count(room_case, ran(&other, at_end) == 1 && result_is(21, 1, 1, 0, 0) && holds(&answers, zeros, 1) && kept_from(&answers, 4));
    other.list = finished;
    room_case = "22 before 20";
    count(room_case, ran(&other, at_end) == 1 && result_is(22, 2, 2, 0, 0) && holds(&answers, zeros, 2) && kept_from(&answers, 8));
    struct given many = {TASK, in_blocks, 4, 2, 5, 6, FELKNOST_WORK, FELKNOST_RUN_RESULT, two_preemptions};
    room_case = "preemptions in a row";
    count(room_case, ran(&many, at_end) == 1 && result_is(0, 0, 2, 0, 0) && holds(&answers, zeros, 2));
}

static void short_results(int at_end)
{
    struct given given = {TASK, in_blocks, 16, 8, 5, 6, FELKNOST_WORK, 0, plain_list};
    for (; given.result < FELKNOST_RUN_RESULT; given.result++) {
        room_case = "a result too short";
        int good = ran(&given, at_end) == 0 && kept_from(&answers, 0) && kept_from(&caches, 0) && kept_from(&memories, 0);
        count(room_case, good && kept_from(&works, 0) && kept_from(&results, 0));
    }
}

/* ---- threads, each with buffers of its own */

#define ROUNDS 2000

static void *runs(void *good)
{
    static const char task[] = TASK;
    static const uint64_t ended[FELKNOST_RUN_RESULT] = {0, 0, 8, 9, 9};
    uint32_t *work = (uint32_t *)malloc(FELKNOST_WORK * sizeof *work);
    uint32_t answer[8], cache[5], memory[6];
    uint64_t result[FELKNOST_RUN_RESULT];
    int round;
    for (round = 0; work != NULL && round < ROUNDS; round++) {
        memset(work, FILLER, FELKNOST_WORK * sizeof *work);
        uint32_t returned = SERVICE((const uint8_t *)task, sizeof task - 1, 0, 1, preempted_list, 16, answer, 8, cache, 5, memory, 6, work, FELKNOST_WORK,
                                    result, FELKNOST_RUN_RESULT);
        if (returned != 1 || memcmp(result, ended, sizeof ended) != 0 || answer[7] != 3)
            break;
    }
    free(work);
    *(int *)good = round == ROUNDS;
    return NULL;
}

/* ---- the stack */

static uint32_t stack_answers[8], stack_cache[5], stack_memory[6], stack_work[FELKNOST_WORK];
static uint64_t stack_result[FELKNOST_RUN_RESULT];

static void run_task(void)
{
    static const char task[] = TASK;
    /* Point 1 is reached from a higher one, so that the kernel decides and not the sweep. */
    static const char back[] = "(stack 5)\n(func 0\n  (goto 2)\n  (goto 4)\n  (either 1 3)\n  (goto 4)\n  (return)\n)\n";
    SERVICE((const uint8_t *)back, sizeof back - 1, 0, 1, preempted_list, 0, stack_answers, 8, stack_cache, 5, stack_memory, 6, stack_work,
            FELKNOST_WORK, stack_result, FELKNOST_RUN_RESULT);
    SERVICE((const uint8_t *)task, sizeof task - 1, 0, 1, preempted_list, 16, stack_answers, 8, stack_cache, 5, stack_memory, 6, stack_work,
            FELKNOST_WORK, stack_result, FELKNOST_RUN_RESULT);
}

static void stacks(void)
{
    on_stated_stack("stack of " NAME ", first call", run_task);
    count(room_case, stack_result[FELKNOST_RESULT_MOVED] == 9 && stack_answers[7] == 3);
    memset(stack_result, 0, sizeof stack_result);
    in_stated_thread(run_task);
    count(room_case, stack_result[FELKNOST_RESULT_MOVED] == 9 && stack_answers[7] == 3);
}

/* ---- all of it */

static int run_tests(void)
{
    int at_end;
    room_report_traps();
    /* First of all, so that the dynamic linker looks memset up on this stack too. */
    stacks();
    texts.room = room_of(PAGE);
    lists.room = room_of(PAGE);
    answers.room = room_of(PAGE);
    caches.room = room_of(PAGE);
    memories.room = room_of(PAGE);
    works.room = room_of(20 * PAGE);
    results.room = room_of(PAGE);
    for (at_end = 0; at_end < 2; at_end++) {
        worked(at_end);
        calls(at_end);
        preemptions(at_end);
        preempted_everywhere(at_end);
        refused_before_the_first_event(at_end);
        refused_for_the_price(at_end);
        refused_events(at_end);
        short_results(at_end);
    }
    in_threads(runs);
    printf(NAME ": %d passed, %d failed\n", passed, failed);
    return failed != 0;
}

#endif
