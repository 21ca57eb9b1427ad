/*
 * Tests of felknost_report, built as C and as C++: those of writer.h, once, which only reports in blocks have, and the last two lines of reports: the total,
 * and the end. The last line counts them.
 */
#ifndef _GNU_SOURCE
#define _GNU_SOURCE 1
#endif

#define SERVICE felknost_report
#define NAME "report"

#define END ")\n"
#define TOTAL "  (total 16)\n"
#define TOTAL_AT_10 "  (total 136)\n"

#define BYTES                                                                                                             \
    "(report\n  (func 0 2 6 6 0 0)\n  (at 0 2 2 2 0 0 0 0 0 0 0)\n  (at 1 2 1 0 1 0 1 0 2 0 2)\n"                         \
    "  (at 2 1 1 0 0 0 1 0 1 1 0)\n  (at 3 2 1 2 1 1 0 0 2 0 2)\n  (at 4 2 2 0 0 0 0 0 0 0 0)\n  (func 1 4 4 4 1 1)\n" \
    "  (at 0 5 4 1 1 0 0 1 2 0 2)\n  (at 1 5 0 1 5 1 0 1 7 0 7)\n  (at 2 5 4 0 1 0 0 1 2 0 2)\n" TOTAL END

#define BYTES_AT_10                                                                                                      \
    "(report\n  (func 0 2 6 6 0 0)\n  (at 0 2 2 2 0 0 0 0 0 0)\n  (at 1 2 1 0 11 0 11 0 22 0)\n"                         \
    "  (at 2 1 1 0 0 0 11 0 11 11)\n  (at 3 2 1 2 11 11 0 0 22 0)\n  (at 4 2 2 0 0 0 0 0 0 0)\n  (func 1 4 4 4 11 11)\n" \
    "  (at 0 5 4 1 11 0 0 11 22 0)\n  (at 1 5 0 1 15 11 0 11 37 0)\n  (at 2 5 4 0 11 0 0 11 22 0)\n" TOTAL_AT_10 END

/* A move of one block costs 2, with each 2 and with a start of 1. Only at the load of the callee has a move more blocks. */
#define BYTES_AT_2(LOAD, TOTAL_AT_2)                                                                                \
    "(report\n  (func 0 2 6 6 0 0)\n  (at 0 2 2 2 0 0 0 0 0 0)\n  (at 1 2 1 0 2 0 2 0 4 0)\n"                       \
    "  (at 2 1 1 0 0 0 2 0 2 2)\n  (at 3 2 1 2 2 2 0 0 4 0)\n  (at 4 2 2 0 0 0 0 0 0 0)\n  (func 1 4 4 4 2 2)\n" \
    "  (at 0 5 4 1 2 0 0 2 4 0)\n" LOAD "  (at 2 5 4 0 2 0 0 2 4 0)\n" TOTAL_AT_2 END
#define BYTES_EACH_2 BYTES_AT_2("  (at 1 5 0 1 10 2 0 2 14 0)\n", "  (total 32)\n")
#define BYTES_START_1 BYTES_AT_2("  (at 1 5 0 1 6 2 0 2 10 0)\n", "  (total 28)\n")

#include "built.h"
#include "rows.h"
#include "writer.h"

/* ---- once */

static int counts_blocks(struct price price)
{
    return price.start == 0 && price.each == 1;
}

/* What once is, from the fields before it. */
static uint64_t once_by(const uint64_t *x)
{
    uint64_t kept = x[DEAD] > x[NEED] ? x[DEAD] : x[NEED];
    uint64_t missing = x[HIGH] > kept ? x[HIGH] - kept : 0;
    uint64_t delayed = x[LATER] + x[CHAIN];
    return x[SAVE] + x[RELOAD] + (delayed < missing ? delayed : missing);
}

/* The report has this many lines of points. All of them have once where moves count blocks, and else none has it. */
static int once_stands(const char *report, struct price price, int points)
{
    int fields = counts_blocks(price) ? POINT_FIELDS : POINT_FIELDS - 1;
    const char *next = strncmp(report, "(report\n", 8) == 0 ? report + 8 : "";
    struct row row;
    do {
        report = next;
        if ((next = row_of(report, "at", &row)) != NULL) {
            if (row.fields != fields || (counts_blocks(price) && row.field[ONCE] != once_by(row.field)))
                return 0;
            points--;
        } else if ((next = row_of(report, "func", &row)) != NULL && row.fields != FUNCTION_FIELDS)
            return 0;
    } while (next != NULL);
    next = row_of(report, "total", &row);
    return points == 0 && next != NULL && row.fields == 1 && strcmp(next, END) == 0;
}

/* ---- the last two lines */

static char whole[FELKNOST_OUTPUT];

/*
 * The report of the text that was put together has this many points and this total, in an output that is enough for every report and in one that is just long
 * enough. It is not written into one that is a byte too short, nor into one with room for all other lines. Returns how many bytes it has.
 */
static size_t built_has(const char *total, struct price price, int points)
{
    size_t line = strlen(total), wanted;
    room_case = total;
    int answer = called(built, used, price, FELKNOST_OUTPUT, FELKNOST_WORK, FELKNOST_WRITE_RESULT, 0);
    wanted = (size_t)numbers[FELKNOST_RESULT_WRITTEN];
    int accepted = answer == 1 && numbers[FELKNOST_RESULT_CODE] == 0;
    int fits = accepted && wanted > line + 2 && wanted < sizeof whole && kept_from(&outputs, wanted);
    count(total, fits);
    if (fits) {
        memcpy(whole, outputs.at, wanted);
        whole[wanted] = '\0';
        const char *last = whole + wanted - line - 2;
        count(total, last[-1] == '\n' && memcmp(last, total, line) == 0 && memcmp(last + line, END, 2) == 0);
        count(total, once_stands(whole, price, points));
        expect_at(total, built, used, price, wanted, FELKNOST_WORK, 0, 0, whole, wanted);
        expect_at(total, built, used, price, wanted - 1, FELKNOST_WORK, 14, wanted, "", 0);
        expect_at(total, built, used, price, wanted - line, FELKNOST_WORK, 14, wanted, "", 0);
    }
    used = 0;
    return fits ? wanted : 0;
}

/* ---- cases */

/* A store and a return, which cost nothing, and loads between them, which cost two moves of one block each. */
static void loads(int number, struct price price, const char *total)
{
    put("(stack 1)\n(func 1\n  (store 0)\n");
    put_many("  (load 0)\n", number);
    put("  (return)\n)\n");
    built_has(total, price, number + 2);
}

/*
 * Function 0 has four blocks, each other one of 64 has one. 60 functions call the next for ever, the last of them the four behind it, which load for ever.
 * The report has this last point, this total and this many bytes.
 */
static void most_points(struct price price, const char *point, const char *total, size_t length)
{
    static const int loads_of[] = {254, 254, 254, 68};
    int callee, i;
    put("(stack 64)\n(func 4\n  (call 1)\n  (ensure 4)\n  (goto 0)\n)\n");
    for (callee = 2; callee < 60; callee++) {
        put("(func 1\n");
        put_call(callee);
        put("  (ensure 1)\n  (goto 0)\n)\n");
    }
    put("(func 1\n");
    for (callee = 60; callee < 64; callee++) {
        put_call(callee);
        put("  (ensure 1)\n");
    }
    put("  (goto 0)\n)\n");
    for (i = 0; i < 4; i++) {
        put("(func 1\n  (store 0)\n");
        put_many("  (load 0)\n", loads_of[i]);
        put("  (goto 1)\n)\n");
    }
    size_t line = strlen(point);
    int good = built_has(total, price, 1024) == length;
    const char *last = whole + length - strlen(total) - 2 - line;
    count("1,024 points", good && last[-1] == '\n' && memcmp(last, point, line) == 0);
}

/* The report of TASK, in an output that is just long enough and in one that is a byte too short. */
static void expect_whole(const char *name, struct price price, const char *bytes, size_t wanted)
{
    expect_at(name, TASK, sizeof TASK - 1, price, wanted, FELKNOST_WORK, 0, 0, bytes, wanted);
    expect_at(name, TASK, sizeof TASK - 1, price, wanted - 1, FELKNOST_WORK, 14, wanted, "", 0);
}

/* Once stands in the report of one price, not in those of its neighbours, and does not come before 23. */
static void once_by_price(void)
{
    static const struct price each_2 = {0, 2}, start_1 = {1, 1}, no_each = {0, 0}, start_256 = {256, 1};
    expect_whole("once", in_blocks, BYTES, 297);
    expect_whole("no once with each 2", each_2, BYTES_EACH_2, sizeof BYTES_EACH_2 - 1);
    expect_whole("no once with start 1", start_1, BYTES_START_1, sizeof BYTES_START_1 - 1);
    expect_at("each 0", TASK, sizeof TASK - 1, no_each, 400, FELKNOST_WORK, 23, 0, "", 0);
    expect_at("start 256", TASK, sizeof TASK - 1, start_256, 400, FELKNOST_WORK, 23, 0, "", 0);
}

static void sample_at(uint32_t start, uint32_t each, const char *total)
{
    struct price price = {start, each};
    put(TASK);
    built_has(total, price, 8);
}

static void totals(void)
{
    static const struct price dearest = {255, 255};
    sample_at(0, 1, TOTAL);
    sample_at(10, 1, TOTAL_AT_10);
    sample_at(0, 2, "  (total 32)\n");
    sample_at(0, 255, "  (total 4080)\n");
    sample_at(1, 1, "  (total 28)\n");
    sample_at(255, 1, "  (total 3076)\n");
    sample_at(255, 255, "  (total 7140)\n");
    loads(0, dearest, "  (total 0)\n");
    loads(4, in_blocks, "  (total 8)\n");
    loads(5, in_blocks, "  (total 10)\n");
    loads(254, dearest, "  (total 259080)\n");
    most_points(dearest, "  (at 69 64 0 1 16575 510 0 31365 48450 0)\n", "  (total 45354810)\n", 45800);
    most_points(in_blocks, "  (at 69 64 0 1 64 1 0 63 128 0 128)\n", "  (total 119877)\n", 39362);
}

int main(void)
{
    prepare();
    common_cases();
    once_by_price();
    totals();
    return counted();
}
