/* Marks to come back to, from C: up to eight runs kept beside a run, each of them that run as it once was. Archive libwivakkol_marks.a (tools/dist.py archive wivakkol_marks), which a board without marks needs
 * none of. What wivakkol.h asks of its callers holds here too. Its answers are proved as those of wivakkol.h are (crates/wivakkol_marks/src/ has the promises), and that this header says the same as
 * that source is tested (tests/marks_calls.py). A call takes under 8 KB of stack.
 *
 * The other calls take no marks and leave them as they are. wivakkol_mark and wivakkol_back test the run and every set mark as wivakkol_open tests a run, also the mark that is to be replaced; in a
 * mark any number but 0 says that a worker holds a thread, and it comes back as 1. So they take up to ten times as long as an opening (docs/C-AND-RUST.md has what was measured). They have no row: the
 * place is 0. */
#ifndef WIVAKKOL_MARKS_H
#define WIVAKKOL_MARKS_H

#include "wivakkol.h"

#ifdef __cplusplus
extern "C" {
#endif

/* made from data/refusals.txt: names */
#define WIVAKKOL_REFUSED_MARK 45  /* the mark is above 7 */
#define WIVAKKOL_REFUSED_UNSET 46 /* the mark is not set */
/* made to here */

#define WIVAKKOL_MOST_MARKS 8

/* The memory of the marks, which C lends: mark i has the i-th stretch of each block, with the places of a wivakkol_run (run.words[WIVAKKOL_AT_NEXT + t] is, of mark i,
 * marks.words[i * WIVAKKOL_WORDS + WIVAKKOL_AT_NEXT + t]), and is set where set[i] is not 0. What the stretches of an unset mark hold is not looked at. A mark keeps all of the run but its table.
 *
 * C must keep to this: before its first use all of it has been written, whatever the numbers, and wivakkol_unmark clears it; it is aligned as a wivakkol_marks is, overlaps nothing else that
 * the call is given, and there is one call at a time on it. It serves one run, with its table. */
typedef struct wivakkol_marks {
    uint64_t sums[WIVAKKOL_MOST_MARKS * WIVAKKOL_SUMS];
    uint32_t numbers[WIVAKKOL_MOST_MARKS * WIVAKKOL_NUMBERS];
    uint16_t words[WIVAKKOL_MOST_MARKS * WIVAKKOL_WORDS];
    uint8_t bytes[WIVAKKOL_MOST_MARKS * WIVAKKOL_BYTES];
    uint8_t set[WIVAKKOL_MOST_MARKS];
} wivakkol_marks;

/* Working memory of wivakkol_mark and wivakkol_back: the run in which a mark is tested, the parts of it that are tested, and a wivakkol_work. It is all 0 after each call, also where that
 * refuses; what C must keep to is what it keeps to for a wivakkol_work. */
typedef struct wivakkol_marks_work {
    wivakkol_run run;
    uint64_t amounts[WIVAKKOL_MOST_THREADS];
    uint16_t next[WIVAKKOL_MOST_THREADS];
    uint16_t left[WIVAKKOL_MOST_THREADS];
    uint16_t right[WIVAKKOL_MOST_THREADS];
    uint8_t status[WIVAKKOL_MOST_THREADS];
    wivakkol_work work;
} wivakkol_marks_work;

/* The calls as they are exported, on each block and array by itself. */
void wivakkol_unmark_on(uint8_t set[WIVAKKOL_MOST_MARKS]);
uint32_t wivakkol_mark_on(const uint8_t *table, size_t length, uint32_t i, const uint8_t bytes[WIVAKKOL_BYTES], const uint16_t words[WIVAKKOL_WORDS],
                          const uint32_t numbers[WIVAKKOL_NUMBERS], const uint64_t sums[WIVAKKOL_SUMS], uint8_t set[WIVAKKOL_MOST_MARKS],
                          uint8_t markbytes[WIVAKKOL_MOST_MARKS * WIVAKKOL_BYTES], uint16_t markwords[WIVAKKOL_MOST_MARKS * WIVAKKOL_WORDS],
                          uint32_t marknumbers[WIVAKKOL_MOST_MARKS * WIVAKKOL_NUMBERS], uint64_t marksums[WIVAKKOL_MOST_MARKS * WIVAKKOL_SUMS],
                          uint8_t sparebytes[WIVAKKOL_BYTES], uint16_t sparewords[WIVAKKOL_WORDS], uint32_t sparenumbers[WIVAKKOL_NUMBERS],
                          uint64_t sparesums[WIVAKKOL_SUMS], uint16_t next[1024], uint8_t status[1024], uint64_t amounts[1024], uint16_t left[1024],
                          uint16_t right[1024], uint64_t rises[1024], uint64_t falls[1024], uint16_t forks[1024], uint16_t seen[1024],
                          uint16_t list[1024]);
uint32_t wivakkol_back_on(const uint8_t *table, size_t length, uint32_t i, uint8_t bytes[WIVAKKOL_BYTES], uint16_t words[WIVAKKOL_WORDS],
                          uint32_t numbers[WIVAKKOL_NUMBERS], uint64_t sums[WIVAKKOL_SUMS], const uint8_t set[WIVAKKOL_MOST_MARKS],
                          const uint8_t markbytes[WIVAKKOL_MOST_MARKS * WIVAKKOL_BYTES], const uint16_t markwords[WIVAKKOL_MOST_MARKS * WIVAKKOL_WORDS],
                          const uint32_t marknumbers[WIVAKKOL_MOST_MARKS * WIVAKKOL_NUMBERS],
                          const uint64_t marksums[WIVAKKOL_MOST_MARKS * WIVAKKOL_SUMS], uint8_t sparebytes[WIVAKKOL_BYTES],
                          uint16_t sparewords[WIVAKKOL_WORDS], uint32_t sparenumbers[WIVAKKOL_NUMBERS], uint64_t sparesums[WIVAKKOL_SUMS],
                          uint16_t next[1024], uint8_t status[1024], uint64_t amounts[1024], uint16_t left[1024], uint16_t right[1024],
                          uint64_t rises[1024], uint64_t falls[1024], uint16_t forks[1024], uint16_t seen[1024], uint16_t list[1024]);

/* Clears the marks: none is set. A beginning is not lent the marks, so "none set at the beginning" is this call after wivakkol_begin; memory that was not cleared may hold set marks. */
static inline void wivakkol_unmark(wivakkol_marks *marks)
{
    wivakkol_unmark_on(marks->set);
}

/* Sets mark i to the run as it is; a mark that was set is replaced. Returns 0, or the first of these that applies, with the marks as they were: 32, the run or a set mark is neither a sound
 * record of this table nor the blank one; 45, i is above 7. No byte of the run changes. */
static inline uint32_t wivakkol_mark(const wivakkol_run *run, wivakkol_marks *marks, wivakkol_marks_work *work, const uint8_t *table, size_t length, uint32_t i)
{
    return wivakkol_mark_on(table, length, i, run->bytes, run->words, run->numbers, run->sums, marks->set, marks->bytes, marks->words, marks->numbers, marks->sums,
                            work->run.bytes, work->run.words, work->run.numbers, work->run.sums, work->next, work->status, work->amounts, work->left,
                            work->right, work->work.rises, work->work.falls, work->work.forks, work->work.parents, work->work.list);
}

/* Goes back to mark i: the run is what it was when the mark was set, turns and peak too, and is opened, as wivakkol_open does it. Returns 0, or the first of these that applies, with the run as
 * it was: 32, as above; 45, i is above 7; 46, mark i is not set. No byte of the marks changes.
 *
 * After a beginning that returned 0 and a wivakkol_unmark the limits on memory, threads and turns hold on, for the turns that led to the mark and those since, as long as nobody else has written
 * to the run or the marks. */
static inline uint32_t wivakkol_back(wivakkol_run *run, const wivakkol_marks *marks, wivakkol_marks_work *work, const uint8_t *table, size_t length, uint32_t i)
{
    return wivakkol_back_on(table, length, i, run->bytes, run->words, run->numbers, run->sums, marks->set, marks->bytes, marks->words, marks->numbers, marks->sums,
                            work->run.bytes, work->run.words, work->run.numbers, work->run.sums, work->next, work->status, work->amounts, work->left,
                            work->right, work->work.rises, work->work.falls, work->work.forks, work->work.parents, work->work.list);
}

#ifdef __cplusplus
}
#endif

#endif
