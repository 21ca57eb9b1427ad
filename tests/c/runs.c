/*
 * Tests of felknost_run, built as C and as C++: those of runner.h. It moves all that the sheet allows in those in which the cores differ. The last line
 * counts them.
 */
#ifndef _GNU_SOURCE
#define _GNU_SOURCE 1
#endif

#define SERVICE felknost_run
#define NAME "run"

#define MOVED_BY_CALLS 8
#define MOVED_BY_PREEMPTIONS 12
#define MOVED_BY_PREEMPTIONS_AT_10 72
#define MOVED_BEHIND_ENSURE 4

#include "runner.h"

int main(void)
{
    return run_tests();
}
