/*
 * Felknost: the preemption sheet of a task on a core with a stack cache.
 *
 * felknost_check judges a task text, given as its bytes; felknost_report writes its preemption sheet; felknost_dearest_points writes the ten dearest
 * points of that sheet; felknost_run steps and preempts the task on the machine, and felknost_run_lazy does so on a core with a lazy pointer. All return for
 * every byte string and every length of the buffers, and touch nothing but the buffers that they are lent and their own stack. Threads may call them at the
 * same time, each with buffers of its own. Link with libfelknost.a and a C library for memset and memcpy.
 */
#ifndef FELKNOST_H
#define FELKNOST_H

#include <stddef.h>
#include <stdint.h>

#ifdef __cplusplus
extern "C" {
#endif

/*
 * The answer is CODE * 65536 + PLACE. It is 0 where the text is accepted. Else CODE says why it is refused and PLACE where, a line
 * counted from 1, but for code 1, whose place is 0. Where several rows hold, the first in this order counts: 1; the first line with one of 2
 * to 6, and on it the smallest code; the first line with one of 7 to 10, likewise; the first line with 11; with 12; with 13.
 *
 *   1  the text has more than 32,768 bytes
 *   2  a line of no form that is allowed there, a missing line, or no line feed at its end. In a text of no bytes no line is missing
 *   3  the cache size S is outside 1 to 64
 *   4  a frame K is above S
 *   5  an offset is not below its frame K
 *   6  the first function past 64, or the first point past 256 in its function or past 1,024 in all
 *   7  a call of a function that is not a later one, or does not exist
 *   8  a call with no ensure directly after it, an ensure with no call directly before it, or one whose number is not K
 *   9  a target that is no point of the function, or is an ensure
 *  10  the last point of a function is no goto, either or return
 *  11  a point that no walk from point 0 reaches
 *  12  a function that is never called, function 0 excepted (the line that opens it)
 *  13  a load that some walk from point 0 reaches with no store of its offset
 *
 * A text of no bytes is accepted. It is a task without a stack: it has no function and no point, and never touches the stack cache. Every other text has a
 * stack line and a function, or is refused: one line feed with 2 at line 1, a stack line alone with 2 at line 2.
 *
 * text may be NULL where length is 0.
 */
uint32_t felknost_check(const uint8_t *text, size_t length);

/*
 * Writes the preemption sheet of a task text to the front of output.
 *
 * start and each are the price of a move of blocks between cache and memory: start for beginning it, 0 to 255, and each for every block moved, 1 to 255.
 * A move of no blocks costs nothing. With 0 and 1 a price is a number of blocks. On the sheet spill, chain, save, reload, later, cost and fill are prices,
 * each move priced by itself; K, d, D, high, dead and need are blocks. The line before the last is "  (total T)": T is the sum of cost over all points of
 * the task, and is below 2^32.
 *
 * With start 0 and each 1 the line of a point has one field more, its last: once = save + reload + min(later + chain, max(0, high - max(dead, need))). It is
 * at most cost, and bounds what a preemption at this point costs if it is the only one of a run. It is for slots that allow just one preemption. At any other
 * start or each the line has no such field, and nothing is claimed of once.
 *
 * The sheet of a task without a stack has the lines "(report", "  (total 0)" and ")", with their line feeds 22 bytes. It is the same at every start and each
 * in their ranges.
 *
 * result gets FELKNOST_WRITE_RESULT numbers: CODE, PLACE and how many bytes were written. CODE and PLACE are 0 where the text is accepted; else they are as
 * above, and three rows are new:
 *
 *  14  the output is too small; PLACE is the number of bytes wanted. It is tried after all others
 *  15  the working space is too small; PLACE is FELKNOST_WORK. It is tried before all others
 *  23  start is above 255, or each is 0 or above 255; PLACE is 0. It is tried after 15 and before all others
 *
 * All three are tried for a text of no bytes too: with fewer than 22 bytes of output it is refused with 14 and PLACE 22.
 *
 * Where the report is refused, nothing is written to output. Bytes of output behind the report are left as they were. The first FELKNOST_WORK numbers
 * of work are 0 afterwards, and those behind them are left as they were; with 15 work is not touched. What the buffers held before does not
 * matter. No two buffers may overlap. A buffer may be NULL where its length is 0.
 *
 * The return value is 1. It is 0 where result has fewer than FELKNOST_WRITE_RESULT numbers; then nothing is touched.
 */
#define FELKNOST_WORK 16384

/* The numbers of a result of felknost_report and felknost_dearest_points, and the index of each. The first two have the same index in every result. */
#define FELKNOST_WRITE_RESULT 3
#define FELKNOST_RESULT_CODE 0
#define FELKNOST_RESULT_PLACE 1
#define FELKNOST_RESULT_WRITTEN 2

/* Bytes of output that are enough for every task and every start and each: no report has more than 63,967. None has fewer than 22. */
#define FELKNOST_OUTPUT 65536

uint32_t felknost_report(const uint8_t *text, size_t text_length, uint32_t start, uint32_t each, uint8_t *output, size_t output_length,
                         uint32_t *work, size_t work_length, uint64_t *result, size_t result_length);

/*
 * Writes a list of the ten dearest points of a task text to the front of output, or of all points where there are fewer. Each has one line,
 * "(dear F P COST)" and a line feed: the number of the function, the number of the point in it, and the cost that the sheet at the same start and each
 * gives for it. Higher costs come first. Equal costs go by falling save, then by rising function, and in one function by rising point. There are no
 * other lines.
 *
 * A task without a stack has no point, so its list has no line. It is accepted with 0 bytes written, and output is left as it was. 0 bytes of output are
 * enough for it.
 *
 * All else is as for felknost_report: what is lent and what it holds afterwards, start and each, result, the refusals and their order, NULL, overlap and
 * the return value. With 14 PLACE is the number of bytes of the list.
 */

/* Bytes of output that are enough for every list: no list has more than 220. */
#define FELKNOST_DEAREST_OUTPUT 256

uint32_t felknost_dearest_points(const uint8_t *text, size_t text_length, uint32_t start, uint32_t each, uint8_t *output, size_t output_length,
                                 uint32_t *work, size_t work_length, uint64_t *result, size_t result_length);

/*
 * Runs a list of events on the task of a text, from a fresh start on the lent cache and memory, whatever they hold. An event is two numbers: kind 0 takes
 * a step with a value, kind 1 preempts, by a task that leaves the value in every block of the cache. A step at a store stores the value, one at an either
 * goes to its first target on 0 and to its second on 1. answers gets a number for each event done: the number loaded, else 0. start and each are the price
 * of a move, as for felknost_report; a preemption makes two moves, out and back.
 *
 * result gets FELKNOST_RUN_RESULT numbers: CODE, PLACE, how many events were done, the price of all that they moved, and the price that the sheet allows
 * them. With start 0 and each 1 the last two are blocks. The fourth is never more than the fifth. In blocks, with exactly one preemption among the events done,
 * the fourth is also at most the spills and fills that the sheet has for these events plus once of the point of the preemption. The fifth has the cost of that
 * point, not once. CODE and PLACE are 0 where all events were done; else they are as above, but for 14, or one of these:
 *
 *  23  start is above 255, or each is 0 or above 255; PLACE is 0. It is tried after 15 and before all others
 *  16  events has an odd number of numbers or more than 131,072; PLACE is 0
 *  17  answers has fewer numbers than there are events, which is PLACE
 *  18  cache has not exactly as many numbers as the task has cache blocks, which is PLACE. It is not tried for a task without a stack
 *  19  memory has fewer numbers than the task needs at most, which is PLACE. It is not tried for a task without a stack
 *  20  an event of another kind; PLACE is its number, counted from 0, here and below
 *  21  a step at an either with a value above 1
 *  22  an event after the task has finished. A task without a stack has finished before the first event
 *
 * 16 to 19 are tried in this order after the rows of the text. All but 20 to 22 leave answers, cache and memory as they were. The events before one that
 * is refused by 20 to 22 are done, and answers has no number of it or of a later one; at one event 22 is tried first. work, NULL, overlap and the return
 * value are as for felknost_report, but result has FELKNOST_RUN_RESULT numbers.
 *
 * Of a task without a stack: cache and memory may have any length, 0 too. CODE and PLACE are 0 where there is no event; else the first event is refused with
 * 22 and PLACE 0, whatever its kind and value. 15, 23, 16 and 17 are tried before that. In every case answers, cache and memory are left as they were, and the
 * last three numbers of result are 0.
 */

/* The numbers of a result of felknost_run and felknost_run_lazy, and the index of each behind code and place. */
#define FELKNOST_RUN_RESULT 5
#define FELKNOST_RESULT_DONE 2
#define FELKNOST_RESULT_MOVED 3
#define FELKNOST_RESULT_ALLOWED 4

uint32_t felknost_run(const uint8_t *text, size_t text_length, uint32_t start, uint32_t each, const uint32_t *events, size_t events_length,
                      uint32_t *answers, size_t answers_length, uint32_t *cache, size_t cache_length, uint32_t *memory, size_t memory_length,
                      uint32_t *work, size_t work_length, uint64_t *result, size_t result_length);

/*
 * The same run on a core with a lazy pointer. The cached blocks from the pointer up equal memory, so this core writes back only those below it. A store lifts
 * the pointer above its own block; a fill leaves it where it is.
 *
 * For every input it returns what felknost_run returns and leaves what felknost_run leaves in answers, cache, memory and work, but for the fourth number of
 * result: the price of all that was moved, which is never more than on the other core. The same sheet limits both, so the fifth number is the same, and the
 * bound with once holds here too.
 */
uint32_t felknost_run_lazy(const uint8_t *text, size_t text_length, uint32_t start, uint32_t each, const uint32_t *events, size_t events_length,
                           uint32_t *answers, size_t answers_length, uint32_t *cache, size_t cache_length, uint32_t *memory, size_t memory_length,
                           uint32_t *work, size_t work_length, uint64_t *result, size_t result_length);

/*
 * The stack that a call takes, in bytes, measured and rounded up: its own, and what memset and memcpy take, which it calls, with the dynamic
 * linker's look-up of these at the first call. A thread with a stack of the second size has room for the call.
 */
#define FELKNOST_STACK 24576
#define FELKNOST_THREAD_STACK 32768

#define FELKNOST_CODE(answer) ((uint32_t)(answer) >> 16)
#define FELKNOST_PLACE(answer) ((uint32_t)(answer) & 0xffffu)

#ifdef __cplusplus
}
#endif

#endif
