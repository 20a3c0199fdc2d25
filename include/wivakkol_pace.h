/* A pace beside a run, from C, for who wants the memory limit with b: a turn that would break the rule with b is refused with 60 and changes nothing, and one that is taken is counted. Archive
 * libwivakkol_pace.a (tools/dist.py archive wivakkol_pace), which a board without a pace needs none of. What wivakkol.h asks of its callers holds here too. Its answers are proved as those of wivakkol.h are
 * (crates/wivakkol_pace/src/ has the promises), and that this header says the same as that source is tested (tests/pace_calls.py).
 *
 * The rule with b: between two turns of a worker, and after its latest, no other worker has more than b turns. It is about workers that have had a turn: one that never had any hinders nobody, and
 * one that stops taking turns stops the others after b turns each, so that idle workers go on taking turns until 31. Somebody may always go on: a worker that has had no turn yet, or the one whose
 * latest turn is the oldest.
 *
 * What is proved: from wivakkol_begin and wivakkol_pace_begin, both 0, for the same p, over every list of paced turns, lists and rounds on that run and pace, refused ones included, and of
 * wivakkol_open, the run's highest is at most S1 + b*K*(p - 1)*(D - 1), with the facts of the table that runs, and the threads in the list at most N + b*(p - 1)*(D - 1); nothing is asked of the
 * workers' turns. That rests on this pace having counted every turn of this run, and no others: with turns taken past it (wivakkol_turn, wivakkol_list, wivakkol_rounds without wivakkol_took),
 * beside another run, or after wivakkol_back, it still answers and the run is still a run, but the limit with b is not promised, and no number tells. A run that is put away and brought back
 * needs its pace put away and brought back too. (The limit S_p of docs/REFERENCE.md needs no pace.)
 *
 * With real memory the order is: take the turn, under one lock around all calls on the run and the pace; where it did a free, free before the lock is given back; draw after its turn; and do what a
 * turn said before the same worker's next turn. */
#ifndef WIVAKKOL_PACE_H
#define WIVAKKOL_PACE_H

#include "wivakkol.h"

#ifdef __cplusplus
extern "C" {
#endif

/* made from data/refusals.txt: names */
#define WIVAKKOL_REFUSED_PACE 60 /* the turn would break the rule with b */
/* made to here */

#define WIVAKKOL_PACE_NUMBERS 260

/* Places in a pace, after 16 numbers for each worker: at 16*w + x stands 0 where x has had no turn or is w, else one more than the turns of w since x's latest. */
#define WIVAKKOL_AT_PACE_B 256      /* b */
#define WIVAKKOL_AT_PACE_WORKERS 257 /* p */
#define WIVAKKOL_AT_PACE_KEPT 258   /* the least b that the turns counted keep */
#define WIVAKKOL_AT_PACE_AFTER 259  /* one more than the worker of the latest turn, 0 before any */

/* The memory of a pace, which C lends: before its first use all of it has been written, whatever the numbers; it overlaps nothing else that the call is given, and there is one call at a time on
 * it. */
typedef struct wivakkol_pace {
    uint32_t numbers[WIVAKKOL_PACE_NUMBERS];
} wivakkol_pace;

/* The calls as they are exported, on each block by itself. */
uint32_t wivakkol_pace_begin_on(uint32_t p, uint32_t b, uint32_t pace[WIVAKKOL_PACE_NUMBERS]);
uint32_t wivakkol_may_on(const uint32_t pace[WIVAKKOL_PACE_NUMBERS], uint32_t w);
uint32_t wivakkol_kept_on(const uint32_t pace[WIVAKKOL_PACE_NUMBERS]);
uint32_t wivakkol_took_on(uint32_t pace[WIVAKKOL_PACE_NUMBERS], uint32_t w);
uint32_t wivakkol_paced_turn_on(const uint8_t *table, size_t length, uint32_t w, uint8_t bytes[WIVAKKOL_BYTES], uint16_t words[WIVAKKOL_WORDS],
                                uint32_t numbers[WIVAKKOL_NUMBERS], uint64_t sums[WIVAKKOL_SUMS], uint32_t pace[WIVAKKOL_PACE_NUMBERS],
                                uint64_t row[WIVAKKOL_TURN_ROW]);
uint32_t wivakkol_paced_list_on(const uint8_t *table, size_t length, const uint8_t *order, size_t turns, uint8_t bytes[WIVAKKOL_BYTES],
                                uint16_t words[WIVAKKOL_WORDS], uint32_t numbers[WIVAKKOL_NUMBERS], uint64_t sums[WIVAKKOL_SUMS],
                                uint32_t pace[WIVAKKOL_PACE_NUMBERS], uint64_t row[WIVAKKOL_RUN_ROW]);
uint32_t wivakkol_paced_rounds_on(const uint8_t *table, size_t length, uint32_t limit, uint8_t bytes[WIVAKKOL_BYTES], uint16_t words[WIVAKKOL_WORDS],
                                  uint32_t numbers[WIVAKKOL_NUMBERS], uint64_t sums[WIVAKKOL_SUMS], uint32_t pace[WIVAKKOL_PACE_NUMBERS],
                                  uint64_t row[WIVAKKOL_RUN_ROW]);

/* Begins a pace for p workers, the run's p, and b: no turn is counted. Returns 0, or with the pace as it was 20, p is not 1 to 16, or 41, b is not 1 to 65,535. */
static inline uint32_t wivakkol_pace_begin(wivakkol_pace *pace, uint32_t p, uint32_t b)
{
    return wivakkol_pace_begin_on(p, b, pace->numbers);
}

/* May worker w have the next turn, as far as the pace is concerned? Returns 0; 30, w is not below the pace's p; 60. No byte changes. */
static inline uint32_t wivakkol_may(const wivakkol_pace *pace, uint32_t w)
{
    return wivakkol_may_on(pace->numbers, w);
}

/* The least b that the turns counted so far keep, 0 where they keep every b. For a pace that refuses it is at most its b. */
static inline uint32_t wivakkol_kept(const wivakkol_pace *pace)
{
    return wivakkol_kept_on(pace->numbers);
}

/* Counts a turn of worker w that was not taken through the pace, for who refuses no turn and wants to know the b that was kept (exact for fewer than 2^32 - 2 turns; begun with any b). Returns 0,
 * or 30, w is not below the pace's p, and then nothing is written. */
static inline uint32_t wivakkol_took(wivakkol_pace *pace, uint32_t w)
{
    return wivakkol_took_on(pace->numbers, w);
}

/* A turn of worker w, as wivakkol_turn, with its row, and counted. Returns 0, or the first of these that applies, with the run and the pace as they were and a row of 0: 32, 30 and 31, as of
 * wivakkol_turn, first, so that a worker that waits hears that the run is over; then what wivakkol_may says, 30, w is not below the pace's p, so that a pace that was never begun lets nobody through, or 60, the turn
 * would break the rule with b: ask again once another worker has had a turn; 32, a number does not fit. */
static inline uint32_t wivakkol_paced_turn(wivakkol_run *run, wivakkol_pace *pace, const uint8_t *table, size_t length, uint32_t w, uint64_t row[WIVAKKOL_TURN_ROW])
{
    return wivakkol_paced_turn_on(table, length, w, run->bytes, run->words, run->numbers, run->sums, pace->numbers, row);
}

/* A paced turn of each worker of `order`, one byte each, up to the root's end, with the row of wivakkol_list. It ends at the first turn that is refused, also by the pace, and returns its number;
 * the turns before it stay taken. Before all else comes 32 where 2^64 - 1 turns are taken. */
static inline uint32_t wivakkol_paced_list(wivakkol_run *run, wivakkol_pace *pace, const uint8_t *table, size_t length, const uint8_t *order, size_t turns,
                                           uint64_t row[WIVAKKOL_RUN_ROW])
{
    return wivakkol_paced_list_on(table, length, order, turns, run->bytes, run->words, run->numbers, run->sums, pace->numbers, row);
}

/* The same for the pace's workers 0 to p - 1 in rounds, at most `limit` turns, on from the worker after that of the latest turn counted, worker 0 before any: so calls one after the other, from
 * the pace's beginning on and with no other turns, keep the rule with b 1 together, which those of wivakkol_rounds do not, and none is refused with 60. As of wivakkol_rounds, a run with no worker gets 30, whatever the limit. */
static inline uint32_t wivakkol_paced_rounds(wivakkol_run *run, wivakkol_pace *pace, const uint8_t *table, size_t length, uint32_t limit,
                                             uint64_t row[WIVAKKOL_RUN_ROW])
{
    return wivakkol_paced_rounds_on(table, length, limit, run->bytes, run->words, run->numbers, run->sums, pace->numbers, row);
}

#ifdef __cplusplus
}
#endif

#endif
