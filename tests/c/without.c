/*
 * Tests of every service on a text of no bytes, which is a task without a stack, built as C and as C++: its verdict, its report into outputs of every length
 * around the one wanted, its list of no line, its runs on both cores over caches and memories of any length, each refusal that is tried for it, and what every
 * buffer holds afterwards. And the texts nearest to it: those of one line are refused, and a task of one return has a stack. The last line counts them.
 */
#ifndef _GNU_SOURCE
#define _GNU_SOURCE 1
#endif

#include "lent.h"

#include <stdlib.h>
#include <string.h>

/* ---- what is lent */

/* The most numbers of an event list, and as many events. */
#define MOST_NUMBERS 131072
#define MOST_EVENTS 65536

/* Buffers are lent at the front of their pages, at the end, where what lies behind traps, or at the front but as NULL where they have no byte. */
enum { AT_FRONT, AT_END, AS_NULL, WAYS };

static struct buffer texts, outputs, lists, answers, caches, memories, works, results;

static void *lent_as(struct buffer *buffer, size_t bytes, int way)
{
    lend(buffer, bytes, way == AT_END);
    return way == AS_NULL && bytes == 0 ? NULL : buffer->at;
}

static void *lent_with(struct buffer *buffer, const void *held, size_t bytes, int way)
{
    void *at = lent_as(buffer, bytes, way);
    if (bytes > 0)
        memcpy(at, held, bytes);
    return at;
}

/* The numbers of answers, cache and memory rise from these, so that none is in two places, and one that is moved is seen. */
#define FIRST_ANSWER 0x10000000u
#define FIRST_CACHED 0x20000000u
#define FIRST_STORED 0x30000000u

static uint32_t *lent_from(struct buffer *buffer, uint32_t first, size_t numbers, int way)
{
    uint32_t *number = (uint32_t *)lent_as(buffer, numbers * sizeof *number, way);
    size_t i;
    for (i = 0; i < numbers; i++)
        number[i] = first + (uint32_t)i;
    return number;
}

static int still_from(const struct buffer *buffer, uint32_t first, size_t numbers)
{
    const uint32_t *number = (const uint32_t *)(const void *)buffer->at;
    size_t i;
    for (i = 0; i < numbers; i++)
        if (number[i] != first + (uint32_t)i)
            return 0;
    return kept_from(buffer, numbers * sizeof *number);
}

static int result_is(const uint64_t *wanted, size_t numbers)
{
    return memcmp(results.at, wanted, numbers * sizeof *wanted) == 0 && kept_from(&results, numbers * sizeof *wanted);
}

static void count_for(const char *service, int way, int good)
{
    count(room_case, good);
    if (!good)
        printf("  %s, lent %s\n", service, way == AT_FRONT ? "at the front" : way == AT_END ? "at the end" : "as NULL where empty");
}

/* ---- texts */

struct text {
    const char *name, *bytes;
    size_t length;
    uint32_t code, place;
};

static const struct text nothing = {"no bytes", "", 0, 0, 0};

static const struct text refused_texts[] = {
    {"a line feed", "\n", 1, 2, 1},
    {"a space", " ", 1, 2, 1},
    {"a zero byte", "\0", 1, 2, 1},
    {"two line feeds", "\n\n", 2, 2, 1},
    {"a stack line without its line feed", "(stack 1)", 9, 2, 1},
    {"a stack line", "(stack 1)\n", 10, 2, 2},
    {"a stack line and an empty one", "(stack 1)\n\n", 11, 2, 2},
    {"a stack of no blocks", "(stack 0)\n", 10, 3, 1},
    {"no stack line", "(func 0\n  (return)\n)\n", 21, 2, 1},
};
#define REFUSED_TEXTS (sizeof refused_texts / sizeof refused_texts[0])

/* Two tasks of one return. They have a stack, though the first uses no block of it. */
static const struct text no_frame = {"a frame of no block", "(stack 1)\n(func 0\n  (return)\n)\n", 31, 0, 0};
static const struct text one_frame = {"a frame of one block", "(stack 1)\n(func 1\n  (return)\n)\n", 31, 0, 0};

static void check_gives(const struct text *text)
{
    int way;
    for (way = 0; way < WAYS; way++) {
        room_case = text->name;
        const uint8_t *at = (const uint8_t *)lent_with(&texts, text->bytes, text->length, way);
        room_close(&texts.room);
        uint32_t answer = felknost_check(at, text->length);
        room_open(&texts.room);
        count_for("check", way, answer == text->code * 65536 + text->place);
    }
}

static void verdicts(void)
{
    size_t i;
    check_gives(&nothing);
    check_gives(&no_frame);
    check_gives(&one_frame);
    for (i = 0; i < REFUSED_TEXTS; i++)
        check_gives(&refused_texts[i]);
}

/* ---- the services that write */

typedef uint32_t writing(const uint8_t *text, size_t text_length, uint32_t start, uint32_t each, uint8_t *output, size_t output_length, uint32_t *work,
                         size_t work_length, uint64_t *result, size_t result_length);

struct writer {
    const char *name;
    writing *call;
    const char *bytes;
};

/* 8, 12 and 2 bytes. */
#define REPORT "(report\n" "  (total 0)\n" ")\n"
#define REPORT_BYTES 22

static const struct writer report = {"report", felknost_report, REPORT};
static const struct writer dearest = {"dearest points", felknost_dearest_points, ""};

/* A price in its ranges changes nothing. */
static const struct price fitting_prices[] = {{0, 1}, {10, 1}, {0, 255}, {255, 1}, {255, 255}};
#define FITTING_PRICES (sizeof fitting_prices / sizeof fitting_prices[0])

/* What such a service is given: the text, the price, and how many bytes or numbers of each buffer. */
struct asked {
    const struct text *text;
    struct price price;
    size_t output, work, result;
};

static uint32_t wrote(const struct writer *writer, const struct asked *asked, int way)
{
    const uint8_t *text = (const uint8_t *)lent_with(&texts, asked->text->bytes, asked->text->length, way);
    uint8_t *output = (uint8_t *)lent_as(&outputs, asked->output, way);
    uint32_t *work = (uint32_t *)lent_as(&works, asked->work * sizeof *work, way);
    uint64_t *result = (uint64_t *)lent_as(&results, asked->result * sizeof *result, way);
    room_close(&texts.room);
    uint32_t returned = writer->call(text, asked->text->length, asked->price.start, asked->price.each, output, asked->output, work, asked->work, result,
                                     asked->result);
    room_open(&texts.room);
    return returned;
}

static void writes(const char *name, const struct writer *writer, struct asked asked, uint64_t code, uint64_t place, const char *bytes)
{
    size_t length = strlen(bytes);
    const uint64_t wanted[FELKNOST_WRITE_RESULT] = {code, place, length};
    int way;
    for (way = 0; way < WAYS; way++) {
        room_case = name;
        int good = wrote(writer, &asked, way) == 1 && result_is(wanted, FELKNOST_WRITE_RESULT) && cleared(&works, asked.work);
        count_for(writer->name, way, good && memcmp(outputs.at, bytes, length) == 0 && kept_from(&outputs, length));
    }
}

static void reports(void)
{
    size_t i;
    count("the bytes of the report", sizeof REPORT - 1 == REPORT_BYTES);
    for (i = 0; i < FITTING_PRICES; i++) {
        struct asked asked = {&nothing, fitting_prices[i], 0, FELKNOST_WORK, FELKNOST_WRITE_RESULT};
        for (; asked.output < REPORT_BYTES; asked.output++)
            writes("14", &report, asked, 14, REPORT_BYTES, "");
        for (; asked.output <= 30; asked.output++)
            writes("a report", &report, asked, 0, 0, REPORT);
        asked.output = FELKNOST_OUTPUT;
        writes("a report in the longest output", &report, asked, 0, 0, REPORT);
    }
}

static void lists_of_no_line(void)
{
    static const size_t lengths[] = {0, 1, 220, FELKNOST_DEAREST_OUTPUT};
    size_t i, price;
    for (price = 0; price < FITTING_PRICES; price++)
        for (i = 0; i < sizeof lengths / sizeof *lengths; i++) {
            struct asked asked = {&nothing, fitting_prices[price], lengths[i], FELKNOST_WORK, FELKNOST_WRITE_RESULT};
            writes("a list of no line", &dearest, asked, 0, 0, "");
        }
}

static void spaces_for(const struct writer *writer)
{
    static const size_t too_small[] = {0, 1, 16383};
    static const size_t fitting[] = {16384, 16385};
    size_t i;
    for (i = 0; i < sizeof too_small / sizeof *too_small; i++) {
        struct asked asked = {&nothing, in_blocks, 30, too_small[i], FELKNOST_WRITE_RESULT};
        writes("15", writer, asked, 15, 16384, "");
        asked.output = 0;
        writes("15 before 14", writer, asked, 15, 16384, "");
        asked.price = refused_prices[0];
        writes("15 before 23", writer, asked, 15, 16384, "");
    }
    for (i = 0; i < sizeof fitting / sizeof *fitting; i++) {
        struct asked asked = {&nothing, in_blocks, 30, fitting[i], FELKNOST_WRITE_RESULT};
        writes("a working space", writer, asked, 0, 0, writer->bytes);
    }
}

static void prices_for(const struct writer *writer)
{
    size_t i;
    for (i = 0; i < REFUSED_PRICES; i++) {
        struct asked asked = {&nothing, refused_prices[i], 30, FELKNOST_WORK + 1, FELKNOST_WRITE_RESULT + 1};
        writes("23", writer, asked, 23, 0, "");
        asked.output = 0;
        writes("23 before 14", writer, asked, 23, 0, "");
    }
}

static void results_for(const struct writer *writer)
{
    struct asked asked = {&nothing, in_blocks, 30, FELKNOST_WORK, 0};
    int way;
    for (; asked.result < FELKNOST_WRITE_RESULT; asked.result++)
        for (way = 0; way < WAYS; way++) {
            room_case = "a result too short";
            int returned = (int)wrote(writer, &asked, way);
            count_for(writer->name, way, returned == 0 && kept_from(&outputs, 0) && kept_from(&works, 0) && kept_from(&results, 0));
        }
    asked.result = FELKNOST_WRITE_RESULT;
    writes("a result of three numbers", writer, asked, 0, 0, writer->bytes);
    asked.result = FELKNOST_WRITE_RESULT + 2;
    writes("a longer result", writer, asked, 0, 0, writer->bytes);
}

static void refused_by(const struct writer *writer)
{
    size_t i;
    for (i = 0; i < REFUSED_TEXTS; i++) {
        const struct text *text = &refused_texts[i];
        struct asked asked = {text, in_blocks, 30, FELKNOST_WORK, FELKNOST_WRITE_RESULT};
        writes(text->name, writer, asked, text->code, text->place, "");
        asked.output = 0;
        writes(text->name, writer, asked, text->code, text->place, "");
    }
}

static void written(void)
{
    static const struct writer *const writers[] = {&report, &dearest};
    size_t i;
    reports();
    lists_of_no_line();
    for (i = 0; i < 2; i++) {
        spaces_for(writers[i]);
        prices_for(writers[i]);
        results_for(writers[i]);
        refused_by(writers[i]);
    }
}

/* ---- the services that run */

typedef uint32_t running(const uint8_t *text, size_t text_length, uint32_t start, uint32_t each, const uint32_t *events, size_t events_length,
                         uint32_t *answers, size_t answers_length, uint32_t *cache, size_t cache_length, uint32_t *memory, size_t memory_length,
                         uint32_t *work, size_t work_length, uint64_t *result, size_t result_length);

static const struct core {
    const char *name;
    running *call;
} cores[] = {{"run", felknost_run}, {"lazy run", felknost_run_lazy}};
#define CORES 2

/* What a run is given: the text, the price, the events, and how many numbers of each buffer. */
struct given {
    const struct text *text;
    struct price price;
    const uint32_t *list;
    size_t events, answers, cache, memory, work, result;
};

/* Only steps; and an event of no known kind, a step and a preemption. */
static const uint32_t steps[MOST_NUMBERS + 2] = {0};
static const uint32_t mixed[] = {7, 0, 0, 3, 1, 5};

static uint32_t ran(const struct core *core, const struct given *given, int way)
{
    const uint8_t *text = (const uint8_t *)lent_with(&texts, given->text->bytes, given->text->length, way);
    const uint32_t *list = (const uint32_t *)lent_with(&lists, given->list, given->events * sizeof *list, way);
    uint32_t *answer = lent_from(&answers, FIRST_ANSWER, given->answers, way);
    uint32_t *cache = lent_from(&caches, FIRST_CACHED, given->cache, way);
    uint32_t *memory = lent_from(&memories, FIRST_STORED, given->memory, way);
    uint32_t *work = (uint32_t *)lent_as(&works, given->work * sizeof *work, way);
    uint64_t *result = (uint64_t *)lent_as(&results, given->result * sizeof *result, way);
    room_close(&texts.room);
    room_close(&lists.room);
    uint32_t returned = core->call(text, given->text->length, given->price.start, given->price.each, list, given->events, answer, given->answers, cache,
                                   given->cache, memory, given->memory, work, given->work, result, given->result);
    room_open(&texts.room);
    room_open(&lists.room);
    return returned;
}

static int stack_kept(const struct given *given)
{
    return still_from(&caches, FIRST_CACHED, given->cache) && still_from(&memories, FIRST_STORED, given->memory);
}

/* No event is done: the last three numbers of the result are 0, and answers, cache and memory are as they were. */
static void ends(const char *name, struct given given, uint64_t code, uint64_t place)
{
    const uint64_t wanted[FELKNOST_RUN_RESULT] = {code, place, 0, 0, 0};
    int core, way;
    for (core = 0; core < CORES; core++)
        for (way = 0; way < WAYS; way++) {
            room_case = name;
            int good = ran(&cores[core], &given, way) == 1 && result_is(wanted, FELKNOST_RUN_RESULT) && cleared(&works, given.work);
            count_for(cores[core].name, way, good && still_from(&answers, FIRST_ANSWER, given.answers) && stack_kept(&given));
        }
}

static void caches_and_memories(void)
{
    static const size_t lengths[] = {0, 1, 64, 65};
    size_t cache, memory;
    for (cache = 0; cache < 4; cache++)
        for (memory = 0; memory < 4; memory++) {
            struct given given = {&nothing, in_blocks, mixed, 0, 0, lengths[cache], lengths[memory], FELKNOST_WORK, FELKNOST_RUN_RESULT};
            ends("no event", given, 0, 0);
            given.events = 6;
            given.answers = 3;
            ends("22", given, 22, 0);
        }
}

static void first_events(void)
{
    static const uint32_t kinds[] = {0, 1, 2, 7, UINT32_MAX};
    static const uint32_t values[] = {0, 1, 2, UINT32_MAX};
    size_t kind, value;
    for (kind = 0; kind < sizeof kinds / sizeof *kinds; kind++)
        for (value = 0; value < sizeof values / sizeof *values; value++) {
            const uint32_t list[] = {kinds[kind], values[value]};
            struct given given = {&nothing, in_blocks, list, 2, 1, 3, 2, FELKNOST_WORK, FELKNOST_RUN_RESULT};
            ends("22 before 20 and 21", given, 22, 0);
        }
}

/* 16 comes before 17, and 17 before 22. */
static void lists_and_answers(void)
{
    static const struct {
        size_t events, answers;
        uint64_t code, place;
    } cases[] = {
        {0, 0, 0, 0},
        {0, 2, 0, 0},
        {1, 0, 16, 0},
        {1, 1, 16, 0},
        {2, 0, 17, 1},
        {2, 1, 22, 0},
        {2, 2, 22, 0},
        {3, 9, 16, 0},
        {4, 0, 17, 2},
        {4, 1, 17, 2},
        {4, 2, 22, 0},
        {4, 9, 22, 0},
        {MOST_NUMBERS - 1, MOST_EVENTS, 16, 0},
        {MOST_NUMBERS, 0, 17, 65536},
        {MOST_NUMBERS, MOST_EVENTS - 1, 17, 65536},
        {MOST_NUMBERS, MOST_EVENTS, 22, 0},
        {MOST_NUMBERS, MOST_EVENTS + 1, 22, 0},
        {MOST_NUMBERS + 1, MOST_EVENTS + 1, 16, 0},
        {MOST_NUMBERS + 2, 0, 16, 0},
        {MOST_NUMBERS + 2, MOST_EVENTS + 1, 16, 0},
    };
    size_t i;
    for (i = 0; i < sizeof cases / sizeof *cases; i++) {
        struct given given = {&nothing, in_blocks, steps, cases[i].events, cases[i].answers, 2, 3, FELKNOST_WORK, FELKNOST_RUN_RESULT};
        ends("a list and its answers", given, cases[i].code, cases[i].place);
    }
}

static void spaces_for_runs(void)
{
    static const size_t too_small[] = {0, 1, 16383};
    static const size_t fitting[] = {16384, 16385};
    size_t i;
    for (i = 0; i < sizeof too_small / sizeof *too_small; i++) {
        struct given given = {&nothing, in_blocks, steps, 0, 0, 0, 0, too_small[i], FELKNOST_RUN_RESULT};
        ends("15", given, 15, 16384);
        given.events = 3;
        given.price = refused_prices[0];
        ends("15 before 23, 16 and 17", given, 15, 16384);
    }
    for (i = 0; i < sizeof fitting / sizeof *fitting; i++) {
        struct given given = {&nothing, in_blocks, steps, 0, 0, 1, 1, fitting[i], FELKNOST_RUN_RESULT + 1};
        ends("a working space", given, 0, 0);
        given.events = 4;
        given.answers = 2;
        ends("a working space and an event", given, 22, 0);
    }
}

static void prices_for_runs(void)
{
    size_t i;
    for (i = 0; i < FITTING_PRICES; i++) {
        struct given given = {&nothing, fitting_prices[i], mixed + 4, 0, 1, 5, 5, FELKNOST_WORK, FELKNOST_RUN_RESULT};
        ends("a price", given, 0, 0);
        given.events = 2;
        ends("a price and a preemption", given, 22, 0);
    }
    for (i = 0; i < REFUSED_PRICES; i++) {
        struct given given = {&nothing, refused_prices[i], steps, 0, 0, 5, 5, FELKNOST_WORK + 1, FELKNOST_RUN_RESULT};
        ends("23", given, 23, 0);
        given.events = 3;
        ends("23 before 16", given, 23, 0);
        given.events = 2;
        ends("23 before 17", given, 23, 0);
    }
}

static void results_for_runs(void)
{
    struct given given = {&nothing, in_blocks, steps, 2, 1, 2, 3, FELKNOST_WORK, 0};
    int core, way;
    for (; given.result < FELKNOST_RUN_RESULT; given.result++)
        for (core = 0; core < CORES; core++)
            for (way = 0; way < WAYS; way++) {
                room_case = "a result too short";
                int good = ran(&cores[core], &given, way) == 0 && still_from(&answers, FIRST_ANSWER, 1) && stack_kept(&given);
                count_for(cores[core].name, way, good && kept_from(&works, 0) && kept_from(&results, 0));
            }
    ends("a result of five numbers", given, 22, 0);
}

static void refused_by_runs(void)
{
    size_t i;
    for (i = 0; i < REFUSED_TEXTS; i++) {
        const struct text *text = &refused_texts[i];
        struct given given = {text, in_blocks, steps, 0, 0, 0, 0, FELKNOST_WORK, FELKNOST_RUN_RESULT};
        ends(text->name, given, text->code, text->place);
        given.events = 3;
        ends(text->name, given, text->code, text->place);
    }
}

/* 18 and 19 are tried for every task that has a stack, and such a task has not finished before its return. */
static void tasks_with_a_stack(void)
{
    static const uint64_t wanted[FELKNOST_RUN_RESULT] = {22, 1, 1, 0, 0};
    struct given given = {&no_frame, in_blocks, steps, 0, 2, 0, 0, FELKNOST_WORK, FELKNOST_RUN_RESULT};
    int core, way;
    ends("18, no cache", given, 18, 1);
    given.cache = 2;
    ends("18, two blocks", given, 18, 1);
    given.cache = 1;
    ends("a frame of no block and no memory", given, 0, 0);
    given.text = &one_frame;
    ends("19", given, 19, 1);
    given.memory = 1;
    ends("a frame of one block", given, 0, 0);
    given.events = 4;
    for (core = 0; core < CORES; core++)
        for (way = 0; way < WAYS; way++) {
            room_case = "22 behind a return";
            int good = ran(&cores[core], &given, way) == 1 && result_is(wanted, FELKNOST_RUN_RESULT) && cleared(&works, given.work);
            const uint32_t *answer = (const uint32_t *)(const void *)answers.at;
            count_for(cores[core].name, way, good && answer[0] == 0 && answer[1] == FIRST_ANSWER + 1 && stack_kept(&given));
        }
}

static void run_on_both_cores(void)
{
    caches_and_memories();
    first_events();
    lists_and_answers();
    spaces_for_runs();
    prices_for_runs();
    results_for_runs();
    refused_by_runs();
    tasks_with_a_stack();
}

int main(void)
{
    room_report_traps();
    texts.room = room_of(PAGE);
    outputs.room = room_of(FELKNOST_OUTPUT);
    lists.room = room_of(MOST_NUMBERS * sizeof(uint32_t) + PAGE);
    answers.room = room_of(MOST_EVENTS * sizeof(uint32_t) + PAGE);
    caches.room = room_of(PAGE);
    memories.room = room_of(PAGE);
    works.room = room_of(20 * PAGE);
    results.room = room_of(PAGE);
    verdicts();
    written();
    run_on_both_cores();
    printf("without a stack: %d passed, %d failed\n", passed, failed);
    return failed != 0;
}
