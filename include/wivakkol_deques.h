/* DFDeques (N13), from C: the second scheduler, over the same tables and in the same memory as wivakkol.h's runs. wivakkol_deque_turn is linked from the archive libwivakkol_deque_turn.a
 * (tools/dist.py archive wivakkol_deque_turn), the other three from libwivakkol_deques.a (tools/dist.py archive wivakkol_deques), in either order; a board without DFDeques needs none of them. What wivakkol.h asks of its
 * callers holds here too, and the answers are proved as those are (crates/wivakkol_deque_turn/src/ and crates/wivakkol_deques/src/ have the promises). wivakkol_deque_turn takes
 * at most 160 bytes of stack, wivakkol_deque_list under 320, wivakkol_deque_open and wivakkol_deque_limit under 8 KB, as measured (tests/deques_calls.py).
 *
 * A run is begun by wivakkol_begin, of libwivakkol.a: its memory is then the beginning of both kinds. The limits on memory, threads and turns, rounds, previews, wall charts and marks are
 * AsyncDF's; of a run by these calls none of them is promised. It has limits on memory of its own (docs/REFERENCE.md, DFDeques), which wivakkol_deque_limit gives.
 *
 * Which kind a run is of is not stored: from its first turn on it is of the kind of that turn, and the calls of the two kinds must not be mixed on it. Nothing notices where they are. Each call then
 * still answers as it is defined for whatever the memory holds, and writes to nothing else, but it is no turn of either run; and wivakkol_open and wivakkol_back, where they return 0 on
 * a DFDeques run, which they may, put AsyncDF's second list in the place of the bottoms, so that the deques are lost. */
#ifndef WIVAKKOL_DEQUES_H
#define WIVAKKOL_DEQUES_H

#include "wivakkol.h"

#ifdef __cplusplus
extern "C" {
#endif

/* made from data/refusals.txt: names */
#define WIVAKKOL_REFUSED_CHOICE 49 /* the choice is not below p; of a limit, c is not 1 to p */
/* made to here */

/* The memory of a run is a wivakkol_run with the places of wivakkol.h. Its list (WIVAKKOL_AT_LEFT, _RIGHT, _LEFTMOST) has the lines: deque by deque from the left, the thread that the owner holds, then
 * the deque's threads from the top to the bottom. Its second list (WIVAKKOL_AT_UNDER, _OVER, _FIRST) has the bottoms: the last thread of each line. A line ends with a bottom, and its
 * deque has an owner exactly where its first thread is held: the worker that holds it. A thread that waits stands in neither list. */

/* The row of wivakkol_deque_turn is that of wivakkol_turn: WIVAKKOL_SAID, WIVAKKOL_THREAD and WIVAKKOL_VALUE after the place. WIVAKKOL_PASSED is 0 here. In a sound run
 * idle is said where there is no deque at the place chosen, or it has no thread but its owner's. */
#define WIVAKKOL_DEQUE_TURN_ROW 5

/* The row of wivakkol_deque_list is that of wivakkol_list: WIVAKKOL_SAID and WIVAKKOL_TAKEN after the place. */
#define WIVAKKOL_DEQUE_LIST_ROW 3

/* The row of wivakkol_deque_open has the place alone. */
#define WIVAKKOL_DEQUE_OPEN_ROW 1

/* The row of wivakkol_deque_limit. */
#define WIVAKKOL_DEQUE_LIMIT_MEMORY 1 /* no DFDeques run begun with these p and K whose choices are below c holds more */
#define WIVAKKOL_DEQUE_LIMIT_NEAR 2   /* the same where every choice is 0, whatever c */
#define WIVAKKOL_DEQUE_LIMIT_ROW 3

/* The calls as they are exported: a turn and a list on the four blocks, opening on each part by itself, as wivakkol_open_on is, and the limit on each array, as wivakkol_limit_on is. */
uint32_t wivakkol_deque_turn_on(const uint8_t *table, size_t length, uint32_t w, uint32_t c, uint8_t bytes[WIVAKKOL_BYTES], uint16_t words[WIVAKKOL_WORDS],
                                uint32_t numbers[WIVAKKOL_NUMBERS], uint64_t sums[WIVAKKOL_SUMS], uint64_t row[WIVAKKOL_DEQUE_TURN_ROW]);
uint32_t wivakkol_deque_list_on(const uint8_t *table, size_t length, const uint8_t *order, size_t order_length, uint8_t bytes[WIVAKKOL_BYTES],
                                uint16_t words[WIVAKKOL_WORDS], uint32_t numbers[WIVAKKOL_NUMBERS], uint64_t sums[WIVAKKOL_SUMS],
                                uint64_t row[WIVAKKOL_DEQUE_LIST_ROW]);
uint32_t wivakkol_deque_open_on(const uint8_t *table, size_t length, const uint32_t settings[2], uint16_t parents[1024], const uint16_t next[1024],
                                const uint8_t status[1024], const uint64_t amounts[1024], const uint16_t left[1024], const uint16_t right[1024],
                                const uint16_t under[1024], const uint16_t over[1024], const uint8_t holds[16], const uint16_t threads[16],
                                const uint32_t quotas[16], const uint16_t heads[3], const uint64_t totals[3], uint64_t row[WIVAKKOL_DEQUE_OPEN_ROW],
                                uint64_t rises[1024], uint64_t falls[1024], uint16_t forks[1024], uint16_t seen[1024], uint16_t list[1024]);
uint32_t wivakkol_deque_limit_on(const uint8_t *table, size_t length, uint32_t p, uint32_t quota, uint32_t c, uint64_t row[WIVAKKOL_DEQUE_LIMIT_ROW],
                                 uint64_t rises[1024], uint64_t falls[1024], uint64_t serials[1024], uint16_t depths[1024], uint64_t peaks[17408],
                                 uint64_t rows[17408], uint8_t *filled, size_t room);

/* What a run of DFDeques stays within, before it is begun: two limits of the table that runs with quota K, filled out where an alloc is above K. After a beginning of p workers with this K that
 * returned 0, and through all turns, lists and openings of what these left, refused calls included, no more is held than the first where every choice of the turns taken is below c, and no more
 * than the second where every choice is 0; in every order of the workers. The working memory is that of wivakkol_limit, all 0 afterwards, and `filled` is used as in wivakkol_begin.
 *
 * Returns 0, or the first check that refuses: 1 to 11, the table's own; 20, p is not 1 to 16; 49, c is not 1 to p; 21, K is not 1 to 16,777,215; 44, the filled-out table would pass 1,024 threads
 * or 8,192 actions; 61, it has more bytes than `room`, which never comes with a room of WIVAKKOL_TABLE_MOST bytes. Where it refuses, both numbers are 0 and `filled` is as it was. */
static inline uint32_t wivakkol_deque_limit(wivakkol_limit_work *work, const uint8_t *table, size_t length, uint32_t p, uint32_t quota, uint32_t c,
                                            uint8_t *filled, size_t room, uint64_t row[WIVAKKOL_DEQUE_LIMIT_ROW])
{
    return wivakkol_deque_limit_on(table, length, p, quota, c, row, work->rises, work->falls, work->serials, work->depths, work->peaks, work->rows, filled, room);
}

/* Opens a run that was put away and brought back, or whose memory someone else has written: wivakkol_open for this kind. Returns 0, or 32: the memory has neither a sound record of DFDeques for
 * this table nor the blank one, all 0. Both lists are part of the record, so that all but the parents (WIVAKKOL_AT_PARENTS) is looked at; these are written where it returns 0, whatever was
 * there. Where it refuses, no byte of the run changes. Any order of the deques is sound. */
static inline uint32_t wivakkol_deque_open(wivakkol_run *run, wivakkol_work *work, const uint8_t *table, size_t length, uint64_t row[WIVAKKOL_DEQUE_OPEN_ROW])
{
    return wivakkol_deque_open_on(table, length, run->numbers + WIVAKKOL_AT_P, run->words + WIVAKKOL_AT_PARENTS, run->words + WIVAKKOL_AT_NEXT,
                                  run->bytes + WIVAKKOL_AT_STATUS, run->sums + WIVAKKOL_AT_AMOUNTS, run->words + WIVAKKOL_AT_LEFT,
                                  run->words + WIVAKKOL_AT_RIGHT, run->words + WIVAKKOL_AT_UNDER, run->words + WIVAKKOL_AT_OVER,
                                  run->bytes + WIVAKKOL_AT_HOLDS, run->words + WIVAKKOL_AT_WORKER_THREADS, run->numbers + WIVAKKOL_AT_QUOTAS,
                                  run->words + WIVAKKOL_AT_LEFTMOST, run->sums + WIVAKKOL_AT_HELD, row, work->rises, work->falls, work->forks,
                                  work->parents, work->list);
}

/* A turn of worker w; where it holds no thread, it steals from the deque at place c from the left, counted from 0. Returns 0, or the first of these that applies: 32, 2^64 - 1 turns are taken; 30,
 * w is not below p; 31, the root has ended: the run is over; 49, c is not below p, also where w holds a thread and c is not used; 32, a thread's number is none of the 1,024, w is none of the
 * sixteen workers, c none of sixteen places where it is used, or a number that the turn would write does not fit into its place; of a worker without a thread the bit in WIVAKKOL_AT_BUSY
 * must fit even if it steals none. The last is met on damaged memory alone, never on what a beginning or an opening that returned 0 and turns have left. Where a turn is refused, no byte of
 * the run changes. */
static inline uint32_t wivakkol_deque_turn(wivakkol_run *run, const uint8_t *table, size_t length, uint32_t w, uint32_t c,
                                           uint64_t row[WIVAKKOL_DEQUE_TURN_ROW])
{
    return wivakkol_deque_turn_on(table, length, w, c, run->bytes, run->words, run->numbers, run->sums, row);
}

/* Turns of the workers and choices in `order`, two bytes each, up to the root's end: `order` points to `order_length` bytes, and an odd last byte is not looked at. Returns 0 with finished or
 * spent, or the number with which a turn is refused, 30, 49 or 32; it ends there, and the memory is as after the turns before. Before all else comes 32 where 2^64 - 1 turns are taken, also where
 * the root has ended or there is no turn to take. */
static inline uint32_t wivakkol_deque_list(wivakkol_run *run, const uint8_t *table, size_t length, const uint8_t *order, size_t order_length,
                                           uint64_t row[WIVAKKOL_DEQUE_LIST_ROW])
{
    return wivakkol_deque_list_on(table, length, order, order_length, run->bytes, run->words, run->numbers, run->sums, row);
}

#ifdef __cplusplus
}
#endif

#endif
