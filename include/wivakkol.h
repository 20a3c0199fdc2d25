/* Wivakkol, called from C, for x86-64: wivakkol_turn, wivakkol_kind, wivakkol_argument and wivakkol_origin are linked from the archive libwivakkol_turn.a (`tools/dist.py archive wivakkol_turn`), all other calls from
 * libwivakkol.a (`tools/dist.py archive wivakkol`), in either order. A board that does the actions takes single turns, and a turn that is compiled by itself needs little stack (docs/C-AND-RUST.md): so
 * it has an archive of its own. docs/WORKERS.md has what threads that do the actions must keep to.
 *
 * Every call answers every input: no table, no number and no content of a run's memory is outside what it takes. A turn, a list, rounds and a
 * preview do not test that a sound run stands in the memory: wivakkol_open does, once, after which each of them is document 01's call on that record. A call allocates nothing, keeps
 * nothing from one call to the next and writes to no memory but what it is lent. Each answer is proved equal to its definition (crates/wivakkol_turn/src/ and crates/wivakkol/src/ have the promises);
 * that this header says the same as that source is not proved, but tested (tests/board.py).
 *
 * A call returns a number: 0, or the number of the check that refuses (docs/REFERENCE.md, "Refusals"). Into the row it puts the place of the refusal, 0 where there is none, and then its
 * values, all 0 where it refuses but for the turns taken by a run and, with 61, the bytes that wivakkol_begin lacks room for. Every entry of the row is written on every call, whatever was
 * there before. wivakkol_kind, wivakkol_argument and wivakkol_origin are apart: they return what they are asked for, refuse nothing and have no row.
 *
 * What C must keep to, as the proofs take it for granted:
 * - `table` points to `length` bytes that may be read, all of them written before. It is never NULL, not even with a length of 0. `order` likewise points to `turns` bytes.
 * - `row` points to an array of the full size named below, aligned as a uint64_t is. It is never NULL.
 * - `filled` points to `room` bytes that may be written, all of them written before, whatever they hold. It is never NULL, not even with a room of 0, and overlaps nothing else that the call
 *   is given.
 * - The row overlaps neither the table nor the order, and nobody else writes to these two or touches the row before the call returns.
 * - A run, working memory and a line that a call takes are never NULL; what else is asked of them stands below.
 * - There is stack enough: docs/C-AND-RUST.md has what was measured.
 * Calls at the same time are fine as long as each has a row of its own, and a run, working memory and a line of its own where it takes them.
 */
#ifndef WIVAKKOL_H
#define WIVAKKOL_H

#include <stddef.h>
#include <stdint.h>

#ifdef __cplusplus
extern "C" {
#endif

/* The version of this header and of the archives that go with it. */
#define WIVAKKOL_VERSION "0.1.0"

/* What a call returns: 0, or one of these; docs/REFERENCE.md, "Refusals", has each in full. */
/* made from data/refusals.txt: names */
#define WIVAKKOL_REFUSED_HEAD 1          /* the table has under 4 bytes */
#define WIVAKKOL_REFUSED_COUNTS 2        /* n or m is outside its range */
#define WIVAKKOL_REFUSED_LENGTH 3        /* the length is not 4 + 4n + 4m */
#define WIVAKKOL_REFUSED_CONTENTS 4      /* an entry, or the sum of the counts */
#define WIVAKKOL_REFUSED_KIND 5          /* a kind above 5 */
#define WIVAKKOL_REFUSED_ARGUMENT 6      /* an argument against its kind's rule */
#define WIVAKKOL_REFUSED_END 7           /* an end that is not last, or a last action that is no end */
#define WIVAKKOL_REFUSED_FORKED_TWICE 8  /* a thread that an earlier action forks */
#define WIVAKKOL_REFUSED_JOIN 9          /* a join not of the latest unjoined child, or an end with one unjoined */
#define WIVAKKOL_REFUSED_BALANCE 10      /* a balance below 0 */
#define WIVAKKOL_REFUSED_NEVER_FORKED 11 /* a thread other than 0 that nothing forks */
#define WIVAKKOL_REFUSED_WORKERS 20      /* p is not 1 to 16 */
#define WIVAKKOL_REFUSED_QUOTA 21        /* K is not 1 to 16,777,215 */
#define WIVAKKOL_REFUSED_WORKER 30       /* the worker is not below p */
#define WIVAKKOL_REFUSED_ENDED 31        /* the root has ended: the run is over */
#define WIVAKKOL_REFUSED_RECORD 32       /* the record is neither sound nor blank; of a turn, see there */
#define WIVAKKOL_REFUSED_BETWEEN 41      /* b is not 1 to 65,535 */
#define WIVAKKOL_REFUSED_NO_QUOTA 42     /* no quota is small enough for the memory */
#define WIVAKKOL_REFUSED_TURNS 43        /* more than 999,999 turns are taken */
#define WIVAKKOL_REFUSED_FILLING 44      /* the filled-out table would pass 1,024 threads or 8,192 actions */
#define WIVAKKOL_REFUSED_ROOM 61         /* the buffer lent for the filled-out table is too small */
/* made to here */

/* A refusal in words, for whoever prints one: of every number that a call of the headers returns, of 0 that nothing is refused. No two numbers have the same words; a number that no call
 * returns has its own. */
static inline const char *wivakkol_refusal_words(uint32_t number)
{
    switch (number) {
    /* made from data/refusals.txt: words */
    case 0: return "nothing is refused";
    case 1: return "the table has under 4 bytes";
    case 2: return "n is not 1 to 1,024, or m is not 1 to 8,192";
    case 3: return "the length is not 4 + 4n + 4m";
    case 4: return "an entry's first action or count is wrong, or the counts do not add up to m";
    case 5: return "a kind is above 5";
    case 6: return "an argument does not fit its kind";
    case 7: return "an end is not the last of its body, or a last action is no end";
    case 8: return "a thread is forked a second time";
    case 9: return "a join is not of the latest unjoined child, or a thread ends with a child unjoined";
    case 10: return "a thread's balance falls below 0";
    case 11: return "a thread other than 0 is never forked";
    case 20: return "p is not 1 to 16";
    case 21: return "K is not 1 to 16,777,215";
    case 30: return "the worker is not below p";
    case 31: return "the root has ended: the run is over";
    case 32: return "the record is neither sound nor blank, or has no room for another turn";
    case 41: return "b is not 1 to 65,535";
    case 42: return "no quota is small enough for the memory";
    case 43: return "more than 999,999 turns are taken";
    case 44: return "the filled-out table would pass 1,024 threads or 8,192 actions";
    case 45: return "the mark is above 7";
    case 46: return "the mark is not set";
    case 47: return "no part, above 16, or lengths that do not add up to the bytes lent";
    case 48: return "the joined table passes 1,024 threads or 8,192 actions";
    case 49: return "the choice is not below p; of a limit, c is not 1 to p";
    case 60: return "the turn would break the rule with b";
    case 61: return "the buffer lent is too small";
    case 62: return "the text has more than 262,144 bytes";
    case 63: return "a line of the text is not as it should be";
    default: return "no call refuses with this number";
    /* made to here */
    }
}

/* The longest table that is accepted: 1,024 threads and 8,192 actions. A longer input may be handed over, and is refused. */
#define WIVAKKOL_TABLE_MOST 36868

#define WIVAKKOL_MOST_THREADS 1024

/* In every row: where the check that refuses applies, an action, a thread or an entry; 0 where nothing is refused. */
#define WIVAKKOL_PLACE 0

/* The row of wivakkol_check. */
#define WIVAKKOL_THREADS 1 /* n, 1 to 1,024 */
#define WIVAKKOL_ACTIONS 2 /* m, 1 to 8,192 */
#define WIVAKKOL_PEAK 3    /* S1, the most memory that a serial run holds */
#define WIVAKKOL_DEPTH 4   /* D */
#define WIVAKKOL_NESTED 5  /* N, the nested thread levels */
#define WIVAKKOL_CHECK_ROW 6

/* The row of wivakkol_quota. */
#define WIVAKKOL_QUOTA 1 /* K, 1 to 16,777,215 */
#define WIVAKKOL_QUOTA_ROW 2

/* The row of wivakkol_most. */
#define WIVAKKOL_LIMIT 1 /* L, 1 to 262,144 */
#define WIVAKKOL_MOST_ROW 2

/* The row of wivakkol_limit. */
#define WIVAKKOL_LIMIT_MEMORY 1   /* the useful limit: no AsyncDF run with these p, K and b holds more */
#define WIVAKKOL_LIMIT_SERIAL 2   /* S1 */
#define WIVAKKOL_LIMIT_PEAK 3     /* S_p: no AsyncDF run of p workers holds more, whatever K and b */
#define WIVAKKOL_LIMIT_PARALLEL 4 /* the parallel peak: no run of either kind holds more, whatever p */
#define WIVAKKOL_LIMIT_STRETCH 5  /* the most that a stretch draws under K */
#define WIVAKKOL_LIMIT_ROW 6

/* The row of wivakkol_fit. */
#define WIVAKKOL_FIT_FITS 1   /* 1, or 0 where no quota fits */
#define WIVAKKOL_FIT_QUOTA 2  /* K, the largest that fits; or the least of those that need the least */
#define WIVAKKOL_FIT_MEMORY 3 /* the useful limit with this K */
#define WIVAKKOL_FIT_ROW 4

/* Working memory of the calls on tables, which C lends; it keeps nothing from one call to the next. wivakkol_check and wivakkol_quota use `rises`, `falls`, `peaks` and `depths`, wivakkol_most
 * `rises` and `falls`; `names` and `order` are for wivakkol_tables.h. What a call uses of it is all 0 afterwards, also where it refuses.
 *
 * C must keep to this: before its first use all of it has been written, whatever the numbers, as a static or zeroed object is; it is aligned as a wivakkol_tables_work is and overlaps nothing
 * else that the call is given. One may serve many tables, with one call at a time on it. */
typedef struct wivakkol_tables_work {
    uint64_t rises[WIVAKKOL_MOST_THREADS];
    uint64_t falls[WIVAKKOL_MOST_THREADS];
    uint64_t peaks[WIVAKKOL_MOST_THREADS];
    uint16_t depths[WIVAKKOL_MOST_THREADS];
    uint16_t names[WIVAKKOL_MOST_THREADS];
    uint16_t order[WIVAKKOL_MOST_THREADS];
} wivakkol_tables_work;

/* Working memory of wivakkol_limit and wivakkol_fit, and of wivakkol_deque_limit, for which C must keep to the same. All of it is 0 afterwards, also where they refuse. `peaks` has 17 numbers
 * for each thread, and `rows` 17 for each open child. */
#define WIVAKKOL_PEAKS 17408

typedef struct wivakkol_limit_work {
    uint64_t rises[WIVAKKOL_MOST_THREADS];
    uint64_t falls[WIVAKKOL_MOST_THREADS];
    uint64_t serials[WIVAKKOL_MOST_THREADS];
    uint16_t depths[WIVAKKOL_MOST_THREADS];
    uint64_t peaks[WIVAKKOL_PEAKS];
    uint64_t rows[WIVAKKOL_PEAKS];
} wivakkol_limit_work;

/* The calls as they are exported, on each array by itself. Below are those for a wivakkol_tables_work or a wivakkol_limit_work, which keep to what these ask for: each array has its full size, is
 * aligned for its numbers and never NULL, overlaps no other array of the call and was written before. */
uint32_t wivakkol_check_on(const uint8_t *table, size_t length, uint64_t row[WIVAKKOL_CHECK_ROW], uint64_t rises[1024], uint64_t falls[1024],
                           uint64_t peaks[1024], uint16_t depths[1024]);
uint32_t wivakkol_quota_on(const uint8_t *table, size_t length, uint32_t p, uint32_t b, uint64_t memory, uint64_t row[WIVAKKOL_QUOTA_ROW],
                           uint64_t rises[1024], uint64_t falls[1024], uint64_t peaks[1024], uint16_t depths[1024]);
uint32_t wivakkol_most_on(const uint8_t *table, size_t length, uint32_t p, uint32_t quota, uint64_t row[WIVAKKOL_MOST_ROW], uint64_t rises[1024],
                          uint64_t falls[1024]);
uint32_t wivakkol_limit_on(const uint8_t *table, size_t length, uint32_t p, uint32_t quota, uint32_t b, uint64_t row[WIVAKKOL_LIMIT_ROW],
                           uint64_t rises[1024], uint64_t falls[1024], uint64_t serials[1024], uint16_t depths[1024], uint64_t peaks[17408],
                           uint64_t rows[17408], uint8_t *filled, size_t room);
uint32_t wivakkol_fit_on(const uint8_t *table, size_t length, uint32_t p, uint32_t b, uint64_t memory, uint64_t row[WIVAKKOL_FIT_ROW],
                         uint64_t rises[1024], uint64_t falls[1024], uint64_t serials[1024], uint16_t depths[1024], uint64_t peaks[17408],
                         uint64_t rows[17408]);

/* Is this a job table, and what are its facts? Returns 0, or 1 to 11: the first check that refuses it. */
static inline uint32_t wivakkol_check(wivakkol_tables_work *work, const uint8_t *table, size_t length, uint64_t row[WIVAKKOL_CHECK_ROW])
{
    return wivakkol_check_on(table, length, row, work->rises, work->falls, work->peaks, work->depths);
}

/* The largest quota with which p workers hold no more than `memory` units of this table, as long as no worker has more than b turns between two of another: the largest K, from the table's
 * largest alloc (1 if it has none) up to 16,777,215, for which S1 + b*K*(p - 1)*(D - 1) is at most `memory`. Returns 0, or the first check that refuses: 1 to 11, the table's own; 20, p is
 * not 1 to 16; 41, b is not 1 to 65,535; 42, no such K. It checks the table itself: wivakkol_check need not come before it. */
static inline uint32_t wivakkol_quota(wivakkol_tables_work *work, const uint8_t *table, size_t length, uint32_t p, uint32_t b, uint64_t memory,
                                      uint64_t row[WIVAKKOL_QUOTA_ROW])
{
    return wivakkol_quota_on(table, length, p, b, memory, row, work->rises, work->falls, work->peaks, work->depths);
}

/* How many turns a run of p workers with quota K takes at most: p*(m + A + J), with the actions m, allocs A and joins J of the table that runs, filled out where an alloc is above K. From a
 * beginning with the same p and K, wivakkol_rounds with this limit always says finished. Returns 0, or what such a beginning returns, but never 61: 1 to 11, the table's own; 20, p is not 1
 * to 16; 21, K is not 1 to 16,777,215; 44, the filled-out table would pass 1,024 threads or 8,192 actions. No table is filled out for it. */
static inline uint32_t wivakkol_most(wivakkol_tables_work *work, const uint8_t *table, size_t length, uint32_t p, uint32_t quota,
                                     uint64_t row[WIVAKKOL_MOST_ROW])
{
    return wivakkol_most_on(table, length, p, quota, row, work->rises, work->falls);
}

/* The useful limit of the table that runs with p workers and quota K, filled out where an alloc is above K: the least of S1 + b*K*(p - 1)*(D - 1) (for b 1 or more; b 0 says nothing of the
 * turns between two of a worker), of S_p and, where K covers every stretch, of the peak over resting places and what p workers draw from there (docs/REFERENCE.md). No AsyncDF run that begins with
 * these p and K holds more: for b 1 or more as long as no worker has more than b turns between two of another, for b 0 in every order. The row has with it S1, S_p, the parallel peak and the largest draw of a stretch under K. `filled` is used as in wivakkol_begin.
 *
 * Returns 0, or the first check that refuses: 1 to 11, the table's own; 20, p is not 1 to 16; 41, b is above 65,535; 21, K is not 1 to 16,777,215; 44, the filled-out table would pass 1,024
 * threads or 8,192 actions; 61, it has more bytes than `room`, which never comes with a room of WIVAKKOL_TABLE_MOST bytes. Where it refuses, `filled` is as it was. */
static inline uint32_t wivakkol_limit(wivakkol_limit_work *work, const uint8_t *table, size_t length, uint32_t p, uint32_t quota, uint32_t b,
                                      uint8_t *filled, size_t room, uint64_t row[WIVAKKOL_LIMIT_ROW])
{
    return wivakkol_limit_on(table, length, p, quota, b, row, work->rises, work->falls, work->serials, work->depths, work->peaks, work->rows, filled, room);
}

/* The largest quota, from the table's largest alloc (1 if it has none) up to 16,777,215, whose useful limit with p and b is at most `memory`, and that limit; where there is none, the least that
 * any quota in that range needs, and the least such quota. Returns 0, or the first check that refuses: 1 to 11, the table's own; 20, p is not 1 to 16; 41, b is above 65,535. */
static inline uint32_t wivakkol_fit(wivakkol_limit_work *work, const uint8_t *table, size_t length, uint32_t p, uint32_t b, uint64_t memory,
                                    uint64_t row[WIVAKKOL_FIT_ROW])
{
    return wivakkol_fit_on(table, length, p, b, memory, row, work->rises, work->falls, work->serials, work->depths, work->peaks, work->rows);
}

/* ---- A run */

#define WIVAKKOL_MOST_WORKERS 16

/* The memory of a run is four blocks, one for each width of its numbers, and a block has parts that begin at the places below. In a part with a number for each thread that of thread t stands
 * at the part's place + t, and likewise for worker w: run.bytes[WIVAKKOL_AT_STATUS + t] is the status of thread t. Among neighbours
 * and leftmost threads 1,024 stands where there is none to name; the parent of the root and of a thread that nothing forks is 0, and so is the thread of a worker that holds none. */

/* made from data/memory.txt: places */
/* Places in `sums`. */
#define WIVAKKOL_AT_AMOUNTS 0    /* of each thread, the memory that it holds */
#define WIVAKKOL_AT_HELD 1024    /* memory held, by all of them */
#define WIVAKKOL_AT_HIGHEST 1025 /* its highest so far */
#define WIVAKKOL_AT_TURNS 1026   /* turns taken */
#define WIVAKKOL_SUMS 1027

/* Places in `numbers`. */
#define WIVAKKOL_AT_P 0      /* the number of workers */
#define WIVAKKOL_AT_K 1      /* the quota that a worker takes a thread with */
#define WIVAKKOL_AT_QUOTAS 2 /* of each worker, its quota left */
#define WIVAKKOL_NUMBERS 18

/* Places in `words`. */
#define WIVAKKOL_AT_PARENTS 0           /* of each thread, the one that forks it */
#define WIVAKKOL_AT_NEXT 1024           /* its next action */
#define WIVAKKOL_AT_LEFT 2048           /* its neighbours in the list of threads */
#define WIVAKKOL_AT_RIGHT 3072
#define WIVAKKOL_AT_UNDER 4096          /* its neighbours in the second list, of the threads that do not wait */
#define WIVAKKOL_AT_OVER 5120
#define WIVAKKOL_AT_WORKER_THREADS 6144 /* of each worker, the thread that it holds */
#define WIVAKKOL_AT_LEFTMOST 6160       /* the leftmost thread of the list */
#define WIVAKKOL_AT_FIRST 6161          /* the leftmost thread of the second list */
#define WIVAKKOL_AT_BUSY 6162           /* the workers that hold a thread, a bit for each */
#define WIVAKKOL_WORDS 6163

/* Places in `bytes`. */
#define WIVAKKOL_AT_STATUS 0   /* of each thread, one of the five below */
#define WIVAKKOL_AT_HOLDS 1024 /* of each worker, whether it holds a thread: 0 if not */
#define WIVAKKOL_BYTES 1040
/* made to here */

/* The status of a thread. */
#define WIVAKKOL_STATUS_UNBORN 0
#define WIVAKKOL_STATUS_READY 1
#define WIVAKKOL_STATUS_HELD 2
#define WIVAKKOL_STATUS_WAITING 3
#define WIVAKKOL_STATUS_ENDED 4

/* The memory of a run, which C lends. C may read it between two calls, and has no need to write to it. */
typedef struct wivakkol_run {
    uint64_t sums[WIVAKKOL_SUMS];
    uint32_t numbers[WIVAKKOL_NUMBERS];
    uint16_t words[WIVAKKOL_WORDS];
    uint8_t bytes[WIVAKKOL_BYTES];
} wivakkol_run;

/* Besides what is said above, C must keep to this for a run:
 * - Before any other call than wivakkol_begin all of its memory has been written. wivakkol_begin writes all of it, whatever was there, also where it refuses.
 * - It is aligned as a wivakkol_run is, and overlaps nothing else that the call is given.
 * - Every call on it but wivakkol_begin is given the table that runs, unchanged: the run keeps none of its bytes. With another one a turn still answers as defined, but it is no turn of this
 *   run.
 * - There is one call at a time on it, and nobody else touches it before the call returns. */

/* Working memory of wivakkol_begin, wivakkol_open and wivakkol_chart, which C lends; it keeps nothing from one call to the next. wivakkol_begin uses `rises` and `falls` alone. What a call
 * uses of it is all 0 afterwards, also where it refuses.
 *
 * C must keep to this: before its first use all of it has been written, whatever the numbers, as a static or zeroed object is; it is aligned as a wivakkol_work is and overlaps nothing else
 * that the call is given. One may serve many runs, with one call at a time on it. */
typedef struct wivakkol_work {
    uint64_t rises[WIVAKKOL_MOST_THREADS];
    uint64_t falls[WIVAKKOL_MOST_THREADS];
    uint16_t forks[WIVAKKOL_MOST_THREADS];
    uint16_t parents[WIVAKKOL_MOST_THREADS]; /* `seen` of the exported calls */
    uint16_t list[WIVAKKOL_MOST_THREADS];
} wivakkol_work;

/* The row of wivakkol_begin. */
#define WIVAKKOL_FILLED 1 /* the bytes of the filled-out table, which then stands in `filled`; 0 where the table as given runs, and `filled` is as it was */
#define WIVAKKOL_BEGIN_ROW 2

/* The row of wivakkol_open has the place alone. */
#define WIVAKKOL_OPEN_ROW 1

/* The row of wivakkol_turn. */
#define WIVAKKOL_SAID 1   /* one of the four below; 0 where the turn is refused */
#define WIVAKKOL_THREAD 2 /* the thread that it was about */
#define WIVAKKOL_VALUE 3  /* done: the action; quota: the amount wanted; wait: the child */
#define WIVAKKOL_PASSED 4 /* in a sound run, how many threads stood left of one that was taken; 0 if none was */
#define WIVAKKOL_TURN_ROW 5

/* What a turn said. */
#define WIVAKKOL_SAID_IDLE 1  /* in a sound run, no thread was ready; thread and value are 0 */
#define WIVAKKOL_SAID_DONE 2  /* the action was done */
#define WIVAKKOL_SAID_QUOTA 3 /* an alloc was above the quota left: the worker gave its thread up */
#define WIVAKKOL_SAID_WAIT 4  /* a join whose child has not ended: the thread waits, and the worker has none */

/* The kind of an action, and what its argument is. */
#define WIVAKKOL_KIND_END 0   /* 0 */
#define WIVAKKOL_KIND_WORK 1  /* 0 */
#define WIVAKKOL_KIND_ALLOC 2 /* the amount */
#define WIVAKKOL_KIND_FREE 3  /* the amount */
#define WIVAKKOL_KIND_FORK 4  /* the child */
#define WIVAKKOL_KIND_JOIN 5  /* the child */
#define WIVAKKOL_NO_KIND 255  /* of what is no action of the table; its argument is 0 */

/* Of wivakkol_origin: no action of the table as given. */
#define WIVAKKOL_NO_ACTION 65535

/* The row of wivakkol_preview: that of the turn, and after the turn */
#define WIVAKKOL_AFTER_HELD 5    /* memory held */
#define WIVAKKOL_AFTER_HIGHEST 6 /* its highest */
#define WIVAKKOL_AFTER_QUOTA 7   /* the worker's quota left; in a sound run 0 if it then has no thread */
#define WIVAKKOL_PREVIEW_ROW 8

/* The row of wivakkol_list and of wivakkol_rounds: the place, which is 0; WIVAKKOL_SAID, one of the two below, 0 where it refuses; and */
#define WIVAKKOL_TAKEN 2 /* the turns that this call took, also where it refuses */
#define WIVAKKOL_RUN_ROW 3

/* What was said at the end of turns. */
#define WIVAKKOL_SAID_FINISHED 6 /* the root has ended: the run is over */
#define WIVAKKOL_SAID_SPENT 7    /* the order or the limit is at its end, and the root has not ended */

/* A line of the wall chart: 84 characters and a newline, with no 0 after it. */
#define WIVAKKOL_LINE 85

/* The calls as they are exported: a turn, its preview, a list and rounds on the four blocks, the others on each part by itself, where `settings` is p and K, `threads` that of each worker,
 * `heads` the three from WIVAKKOL_AT_LEFTMOST on and `totals` the three from WIVAKKOL_AT_HELD on. Below are the seven for a wivakkol_run, which keep to what these ask for: each array has its full
 * size, is aligned for its numbers and never NULL, and overlaps no other array of the call; each was written before, those of the run in wivakkol_begin_on apart. */
uint32_t wivakkol_begin_on(const uint8_t *table, size_t length, uint32_t p, uint32_t quota, uint32_t settings[2], uint16_t parents[1024],
                           uint16_t next[1024], uint8_t status[1024], uint64_t amounts[1024], uint16_t left[1024], uint16_t right[1024],
                           uint16_t under[1024], uint16_t over[1024], uint8_t holds[16], uint16_t threads[16], uint32_t quotas[16],
                           uint16_t heads[3], uint64_t totals[3], uint64_t row[WIVAKKOL_BEGIN_ROW], uint64_t rises[1024], uint64_t falls[1024],
                           uint8_t *filled, size_t room);
uint32_t wivakkol_open_on(const uint8_t *table, size_t length, const uint32_t settings[2], uint16_t parents[1024], const uint16_t next[1024],
                          const uint8_t status[1024], const uint64_t amounts[1024], const uint16_t left[1024], const uint16_t right[1024],
                          uint16_t under[1024], uint16_t over[1024], const uint8_t holds[16], const uint16_t threads[16],
                          const uint32_t quotas[16], uint16_t heads[3], const uint64_t totals[3], uint64_t row[WIVAKKOL_OPEN_ROW],
                          uint64_t rises[1024], uint64_t falls[1024], uint16_t forks[1024], uint16_t seen[1024], uint16_t list[1024]);
uint32_t wivakkol_turn_on(const uint8_t *table, size_t length, uint32_t w, uint8_t bytes[WIVAKKOL_BYTES], uint16_t words[WIVAKKOL_WORDS],
                          uint32_t numbers[WIVAKKOL_NUMBERS], uint64_t sums[WIVAKKOL_SUMS], uint64_t row[WIVAKKOL_TURN_ROW]);
uint32_t wivakkol_list_on(const uint8_t *table, size_t length, const uint8_t *order, size_t turns, uint8_t bytes[WIVAKKOL_BYTES],
                          uint16_t words[WIVAKKOL_WORDS], uint32_t numbers[WIVAKKOL_NUMBERS], uint64_t sums[WIVAKKOL_SUMS],
                          uint64_t row[WIVAKKOL_RUN_ROW]);
uint32_t wivakkol_rounds_on(const uint8_t *table, size_t length, uint32_t limit, uint8_t bytes[WIVAKKOL_BYTES], uint16_t words[WIVAKKOL_WORDS],
                            uint32_t numbers[WIVAKKOL_NUMBERS], uint64_t sums[WIVAKKOL_SUMS], uint64_t row[WIVAKKOL_RUN_ROW]);
uint32_t wivakkol_preview_on(const uint8_t *table, size_t length, uint32_t w, const uint8_t bytes[WIVAKKOL_BYTES],
                             const uint16_t words[WIVAKKOL_WORDS], const uint32_t numbers[WIVAKKOL_NUMBERS], const uint64_t sums[WIVAKKOL_SUMS],
                             uint64_t row[WIVAKKOL_PREVIEW_ROW]);
uint32_t wivakkol_chart_on(const uint8_t *table, size_t length, const uint32_t settings[2], const uint16_t next[1024], const uint8_t status[1024],
                           const uint64_t amounts[1024], const uint16_t left[1024], const uint16_t right[1024], const uint8_t holds[16],
                           const uint16_t threads[16], const uint32_t quotas[16], const uint16_t heads[3], const uint64_t totals[3],
                           uint8_t line[WIVAKKOL_LINE], uint64_t rises[1024], uint64_t falls[1024], uint16_t forks[1024], uint16_t seen[1024],
                           uint16_t list[1024]);

/* Begins a run of p workers with quota K. Where an alloc of the table is above K, it is the filled-out table that runs (docs/REFERENCE.md, "Allocs above K"): it is put at the start of
 * `filled`, the row says how many bytes it has, and every other call on the run is given these bytes for its table. Where none is, the table as given runs, `room` is not looked at, and nothing
 * is written to `filled`; so it is with a K from wivakkol_quota.
 *
 * Returns 0, or the first check that refuses: 1 to 11, the table's own; 20, p is not 1 to 16; 21, K is not 1 to 16,777,215; 44, the filled-out table would pass 1,024 threads or 8,192 actions;
 * 61, it has more bytes than `room`, and the row then says how many. With a room of WIVAKKOL_TABLE_MOST bytes 61 never comes. Where it refuses, `filled` is as it was, the memory is all 0, and
 * every turn on it is refused with 30. */
static inline uint32_t wivakkol_begin(wivakkol_run *run, wivakkol_work *work, const uint8_t *table, size_t length, uint32_t p, uint32_t quota,
                                      uint8_t *filled, size_t room, uint64_t row[WIVAKKOL_BEGIN_ROW])
{
    return wivakkol_begin_on(table, length, p, quota, run->numbers + WIVAKKOL_AT_P, run->words + WIVAKKOL_AT_PARENTS, run->words + WIVAKKOL_AT_NEXT,
                             run->bytes + WIVAKKOL_AT_STATUS, run->sums + WIVAKKOL_AT_AMOUNTS, run->words + WIVAKKOL_AT_LEFT, run->words + WIVAKKOL_AT_RIGHT,
                             run->words + WIVAKKOL_AT_UNDER, run->words + WIVAKKOL_AT_OVER, run->bytes + WIVAKKOL_AT_HOLDS,
                             run->words + WIVAKKOL_AT_WORKER_THREADS, run->numbers + WIVAKKOL_AT_QUOTAS, run->words + WIVAKKOL_AT_LEFTMOST,
                             run->sums + WIVAKKOL_AT_HELD, row, work->rises, work->falls, filled, room);
}

/* Opens a run that was put away and brought back, or whose memory someone else has written. Returns 0, or 32: the memory has neither a sound record of this table nor the blank one, all 0,
 * which a beginning leaves where it refuses; a number above 1 that says whether a worker holds a thread is not sound. It looks at all but the parents and the second list
 * (the parts WIVAKKOL_AT_PARENTS, WIVAKKOL_AT_UNDER and WIVAKKOL_AT_OVER, and WIVAKKOL_AT_FIRST), and where it returns 0 writes these, whatever was there, as a beginning and turns leave them. Where it
 * refuses, no byte of the run changes. A turn tests none of this: open once, then take turns.
 *
 * After a beginning that returned 0 the limits on memory and on threads hold through all turns, lists, rounds and openings of what these left, refused calls included. After the opening of a
 * sound record that was made up by hand each turn is document 01's, and no limit is promised: such a record may hold more than any run would. */
static inline uint32_t wivakkol_open(wivakkol_run *run, wivakkol_work *work, const uint8_t *table, size_t length, uint64_t row[WIVAKKOL_OPEN_ROW])
{
    return wivakkol_open_on(table, length, run->numbers + WIVAKKOL_AT_P, run->words + WIVAKKOL_AT_PARENTS, run->words + WIVAKKOL_AT_NEXT,
                            run->bytes + WIVAKKOL_AT_STATUS, run->sums + WIVAKKOL_AT_AMOUNTS, run->words + WIVAKKOL_AT_LEFT, run->words + WIVAKKOL_AT_RIGHT,
                            run->words + WIVAKKOL_AT_UNDER, run->words + WIVAKKOL_AT_OVER, run->bytes + WIVAKKOL_AT_HOLDS,
                            run->words + WIVAKKOL_AT_WORKER_THREADS, run->numbers + WIVAKKOL_AT_QUOTAS, run->words + WIVAKKOL_AT_LEFTMOST,
                            run->sums + WIVAKKOL_AT_HELD, row, work->rises, work->falls, work->forks, work->parents, work->list);
}

/* A turn of worker w. Returns 0, or the first of these that applies: 32, 2^64 - 1 turns are taken; 30, w is not below p; 31, the root has ended: the run is over; 32, a thread's number is
 * none of the 1,024, w is none of the sixteen workers, or a number that the turn would write does not fit into its place; of a worker without a thread the bit in WIVAKKOL_AT_BUSY must fit
 * even if it takes none. The last is met on damaged memory alone, never on what a beginning or an opening that returned 0 and turns have left. Where a turn is refused, no byte of the run
 * changes. */
static inline uint32_t wivakkol_turn(wivakkol_run *run, const uint8_t *table, size_t length, uint32_t w, uint64_t row[WIVAKKOL_TURN_ROW])
{
    return wivakkol_turn_on(table, length, w, run->bytes, run->words, run->numbers, run->sums, row);
}

/* Kind and argument of action a of the table that runs; they take no run. Where a turn says done, row[WIVAKKOL_VALUE] is the action, and whoever does the actions asks what it is. Nothing is
 * refused: where a is not below m, the kind is WIVAKKOL_NO_KIND and the argument 0. In an accepted table every action has one of the six kinds; of other bytes the kind is the byte that stands
 * there, 0 behind their end, with m from their head. */
uint32_t wivakkol_kind(const uint8_t *table, size_t length, uint64_t a);
uint32_t wivakkol_argument(const uint8_t *table, size_t length, uint64_t a);

/* Which action of the table as given action a of the table that runs with this quota is, so that whoever does the actions finds what to do also where an alloc is above K and the filled-out table
 * runs. WIVAKKOL_NO_ACTION for what was put in, dummies with their forks and joins, where a is not below m, and where the quota is not 1 to 16,777,215. Each action as given is the origin of exactly
 * one, of the same kind, argument and thread, in order; where no alloc is above K, every action is its own. It is read off the table that runs and K alone, and takes no run: the quota is the one
 * that wivakkol_begin was given, in run.numbers[WIVAKKOL_AT_K]. It looks at all of the table: a board may ask once for each action after the beginning and keep the answers. Of any other bytes the
 * answer is as its definition has it (crates/origin/specs/Origin.antt). */
uint32_t wivakkol_origin(const uint8_t *table, size_t length, uint32_t quota, uint64_t a);

/* A turn of each worker of `order`, one byte each, up to the root's end: turns with a single row for all. Returns 0 with finished or spent, or the number with which a turn is refused, 30 or
 * 32; it ends there, and the memory is as after the turns before. Before all else comes 32 where 2^64 - 1 turns are taken, also where the root has ended or the order is empty. */
static inline uint32_t wivakkol_list(wivakkol_run *run, const uint8_t *table, size_t length, const uint8_t *order, size_t turns,
                                     uint64_t row[WIVAKKOL_RUN_ROW])
{
    return wivakkol_list_on(table, length, order, turns, run->bytes, run->words, run->numbers, run->sums, row);
}

/* The same for the workers 0 to p - 1 in rounds, at most `limit` turns. Every call starts with worker 0. Where p is 0, as after a beginning refused, it returns 30, whatever the limit, after
 * 32 for 2^64 - 1 turns. */
static inline uint32_t wivakkol_rounds(wivakkol_run *run, const uint8_t *table, size_t length, uint32_t limit, uint64_t row[WIVAKKOL_RUN_ROW])
{
    return wivakkol_rounds_on(table, length, limit, run->bytes, run->words, run->numbers, run->sums, row);
}

/* What a turn of worker w would say now, and memory held, its highest and the worker's quota left after it. Returns what wivakkol_turn would return, in the same order, whatever the memory
 * holds; where that is a refusal, the row is all 0. No byte of the run changes. */
static inline uint32_t wivakkol_preview(const wivakkol_run *run, const uint8_t *table, size_t length, uint32_t w, uint64_t row[WIVAKKOL_PREVIEW_ROW])
{
    return wivakkol_preview_on(table, length, w, run->bytes, run->words, run->numbers, run->sums, row);
}

/* The run's line of the wall chart: turns taken right-aligned in 6, sixteen cells of 4 with each worker's thread or a full stop, blank from worker p on, and memory held right-aligned in 14.
 * Returns 0, or the first of these that applies, with `line` as it was: 32, as wivakkol_open; 43, more than 999,999 turns are taken. It has no row: the place is 0. No byte of the run
 * changes. `line` has the full size, overlaps nothing else that the call is given and has been written before, whatever it holds. */
static inline uint32_t wivakkol_chart(const wivakkol_run *run, wivakkol_work *work, const uint8_t *table, size_t length, uint8_t line[WIVAKKOL_LINE])
{
    return wivakkol_chart_on(table, length, run->numbers + WIVAKKOL_AT_P, run->words + WIVAKKOL_AT_NEXT, run->bytes + WIVAKKOL_AT_STATUS,
                             run->sums + WIVAKKOL_AT_AMOUNTS, run->words + WIVAKKOL_AT_LEFT, run->words + WIVAKKOL_AT_RIGHT, run->bytes + WIVAKKOL_AT_HOLDS,
                             run->words + WIVAKKOL_AT_WORKER_THREADS, run->numbers + WIVAKKOL_AT_QUOTAS, run->words + WIVAKKOL_AT_LEFTMOST,
                             run->sums + WIVAKKOL_AT_HELD, line, work->rises, work->falls, work->forks, work->parents, work->list);
}

#ifdef __cplusplus
}
#endif

#endif
