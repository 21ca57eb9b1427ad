/*
 * Tests of felknost_run_lazy, built as C and as C++: those of runner.h. Two blocks are clean at the second call, two at the second preemption, and one behind
 * the ensure of the worked run, and it does not write them back. The last line counts them.
 */
#ifndef _GNU_SOURCE
#define _GNU_SOURCE 1
#endif

#define SERVICE felknost_run_lazy
#define NAME "lazy run"

#define MOVED_BY_CALLS 6
#define MOVED_BY_PREEMPTIONS 10
#define MOVED_BY_PREEMPTIONS_AT_10 60
#define MOVED_BEHIND_ENSURE 3

#include "runner.h"

int main(void)
{
    return run_tests();
}
