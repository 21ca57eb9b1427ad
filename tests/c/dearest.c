/*
 * Tests of felknost_dearest_points, built as C and as C++: those of writer.h, equal costs with equal saves and with different ones, fewer and more points
 * than a list has lines, and the longest lines. The last line counts them.
 */
#ifndef _GNU_SOURCE
#define _GNU_SOURCE 1
#endif

#define SERVICE felknost_dearest_points
#define NAME "dearest points"

#define BYTES \
    "(dear 1 1 7)\n(dear 0 1 2)\n(dear 0 3 2)\n(dear 1 0 2)\n(dear 1 2 2)\n(dear 0 2 1)\n(dear 0 0 0)\n(dear 0 4 0)\n"

#define BYTES_AT_10 \
    "(dear 1 1 37)\n(dear 0 1 22)\n(dear 0 3 22)\n(dear 1 0 22)\n(dear 1 2 22)\n(dear 0 2 11)\n(dear 0 0 0)\n(dear 0 4 0)\n"

#include "built.h"
#include "writer.h"

/* ---- a list that is put together beside its text */

static char list[FELKNOST_DEAREST_OUTPUT];
static size_t listed;

static void put_dear(int function, int point, int cost)
{
    listed += (size_t)snprintf(list + listed, sizeof list - listed, "(dear %d %d %d)\n", function, point, cost);
}

/* In an output that is just long enough, in one that is enough for every list, and in one that is a byte too short. */
static void built_gives(const char *name, struct price price)
{
    expect_at(name, built, used, price, listed, FELKNOST_WORK, 0, 0, list, listed);
    expect_at(name, built, used, price, FELKNOST_DEAREST_OUTPUT, FELKNOST_WORK, 0, 0, list, listed);
    expect_at(name, built, used, price, listed - 1, FELKNOST_WORK, 14, listed, "", 0);
    used = listed = 0;
}

/* ---- cases */

/* The last two loads of the second function are left out. */
static void equal_costs(struct price price, int cost)
{
    int i;
    put(MANY);
    for (i = 0; i < 10; i++)
        put_dear(1 + i / 6, 1 + i % 6, cost);
    built_gives("equal costs", price);
}

/* Two points cost 6: point 4 saves four blocks and point 1 three. Of those that cost 4 each saves three. */
static void by_save(void)
{
    static const int listed_points[][2] = {{4, 6}, {1, 6}, {2, 5}, {3, 4}, {5, 4}, {6, 4}, {0, 0}, {7, 0}};
    size_t i;
    put("(stack 8)\n(func 4\n  (store 1)\n  (store 3)\n  (store 2)\n  (store 0)\n  (load 0)\n  (goto 6)\n  (load 1)\n  (return)\n)\n");
    for (i = 0; i < sizeof listed_points / sizeof *listed_points; i++)
        put_dear(0, listed_points[i][0], listed_points[i][1]);
    built_gives("equal costs by save", in_blocks);
}

/*
 * Twelve points cost the same. Points 1 to 10 save three blocks, points 12 and 13 four; so points 9 and 10 are left out, and the list is a byte longer than one
 * in which they are listed.
 */
static void saves_at_the_tenth_place(struct price price, int cost)
{
    int point;
    put("(stack 8)\n(func 4\n  (store 1)\n");
    put_many("  (store 3)\n", 10);
    put("  (store 0)\n  (load 0)\n  (load 0)\n  (load 1)\n  (return)\n)\n");
    put_dear(0, 12, cost);
    put_dear(0, 13, cost);
    for (point = 1; point < 9; point++)
        put_dear(0, point, cost);
    at_every_length("saves at the tenth place", built, used, price, list, listed);
    used = listed = 0;
}

/* A store and a return, which cost nothing, and loads between them, which cost two blocks each. */
static void points(int number)
{
    int loads = number - 2, point;
    put("(stack 1)\n(func 1\n  (store 0)\n");
    put_many("  (load 0)\n", loads);
    put("  (return)\n)\n");
    for (point = 1; point <= loads && point <= 10; point++)
        put_dear(0, point, 2);
    if (loads < 10)
        put_dear(0, 0, 0);
    if (loads < 9)
        put_dear(0, number - 1, 0);
    built_gives("some points", in_blocks);
}

static void one_point(void)
{
    put("(stack 1)\n(func 0\n  (return)\n)\n");
    put_dear(0, 0, 0);
    built_gives("one point", in_blocks);
}

/* 64 functions of one block, each calling the next. The loads of the last begin at point 101. */
static void longest_lines(void)
{
    static const struct price dearest = {255, 255};
    int callee, point;
    put("(stack 64)\n");
    for (callee = 1; callee < 64; callee++) {
        put("(func 1\n");
        put_call(callee);
        put("  (ensure 1)\n  (return)\n)\n");
    }
    put("(func 1\n");
    put_many("  (store 0)\n", 101);
    put_many("  (load 0)\n", 154);
    put("  (return)\n)\n");
    for (point = 101; point < 111; point++)
        put_dear(63, point, 49215);
    built_gives("the longest lines", dearest);
}

int main(void)
{
    int number;
    prepare();
    common_cases();
    equal_costs(in_blocks, 2);
    equal_costs(start_of_10, 22);
    by_save();
    saves_at_the_tenth_place(in_blocks, 6);
    saves_at_the_tenth_place(start_of_10, 26);
    one_point();
    for (number = 2; number <= 13; number++)
        points(number);
    longest_lines();
    return counted();
}
