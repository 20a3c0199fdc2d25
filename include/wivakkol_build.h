/* Tables written from C: threads and actions are put behind each other in bytes that the caller lends. It is all in this header: no archive, no heap, no state of its own. It is written in C
 * and not proved, and need not be: whatever it has written, wivakkol_check says whether it is a job table, and every call that takes a table checks it anew. It is tested (tests/build.py).
 *
 *     static uint8_t bytes[WIVAKKOL_TABLE_MOST];
 *     wivakkol_builder b;
 *     uint32_t child;
 *
 *     wivakkol_build(&b, bytes, sizeof bytes);
 *     wivakkol_build_fork(&b, 0, &child);
 *     wivakkol_build_alloc(&b, child, 40);
 *     wivakkol_build_work(&b, child);
 *     wivakkol_build_free(&b, child, 40);
 *     wivakkol_build_join(&b, 0);
 *     if (b.fault == 0)
 *         number = wivakkol_check(&work, bytes, wivakkol_built(&b), row);
 *
 * The root is thread 0, and a fork gives its thread the next number. A join names its child by itself, since it can only be the latest that is forked and not yet joined. Every thread has its
 * end from the start on, and an action is put in front of it: so after each call a whole table stands at the beginning of the bytes. wivakkol_check may still refuse it with 9, a child that is
 * not joined, or 10, a balance below 0, and with nothing else; wivakkol_build_step has the place of such a refusal as thread and step.
 *
 * A call answers 0, or why it has put nothing; the builder goes on from there, and `fault` keeps the first such answer, so that one test at the end will do.
 *
 * What C must keep to: `bytes` points to `room` bytes that may be written, whatever they hold, is never NULL, and nobody else writes to it while the table is being built. A builder is used
 * after wivakkol_build alone, and its fields are not written. A call moves all that stands behind the action put: building a table of m actions takes some m * m / 2 moves of four bytes. */
#ifndef WIVAKKOL_BUILD_H
#define WIVAKKOL_BUILD_H

#include <string.h>

#include "wivakkol.h"

#ifdef __cplusplus
extern "C" {
#endif

/* Why nothing was put. */
#define WIVAKKOL_BUILD_ROOM 1    /* the table would have more bytes than were lent */
#define WIVAKKOL_BUILD_LARGE 2   /* it would pass 1,024 threads or 8,192 actions */
#define WIVAKKOL_BUILD_THREAD 3  /* no such thread */
#define WIVAKKOL_BUILD_AMOUNT 4  /* an alloc or a free of 0, or of more than 16,777,215 */
#define WIVAKKOL_BUILD_NO_JOIN 5 /* the thread has no child that is forked and not yet joined */

#define WIVAKKOL_MOST_ACTIONS 8192
#define WIVAKKOL_MOST_AMOUNT 16777215
#define WIVAKKOL_NO_THREAD 1024 /* where a fork has put nothing: the number of no thread */

typedef struct wivakkol_builder {
    uint8_t *bytes; /* the table, from its first byte on */
    size_t room;
    uint32_t fault; /* the first answer that was not 0 */
} wivakkol_builder;

/* Numbers of 16 and 32 bits, low bytes first. */
static inline uint32_t wivakkol_build_word_(const uint8_t *at)
{
    return (uint32_t)at[0] + 256 * (uint32_t)at[1];
}

static inline void wivakkol_build_put_(uint8_t *at, uint32_t low, uint32_t high)
{
    at[0] = (uint8_t)(low % 256);
    at[1] = (uint8_t)(low / 256 % 256);
    at[2] = (uint8_t)(high % 256);
    at[3] = (uint8_t)(high / 256 % 256);
}

static inline uint32_t wivakkol_build_threads_(const wivakkol_builder *b)
{
    return wivakkol_build_word_(b->bytes);
}

static inline uint32_t wivakkol_build_actions_(const wivakkol_builder *b)
{
    return wivakkol_build_word_(b->bytes + 2);
}

/* The table's bytes, from b->bytes on; 0 where a call has put nothing. */
static inline size_t wivakkol_built(const wivakkol_builder *b)
{
    return b->fault != 0 ? 0 : 4 + 4 * ((size_t)wivakkol_build_threads_(b) + wivakkol_build_actions_(b));
}

static inline uint32_t wivakkol_build_fault_(wivakkol_builder *b, uint32_t fault)
{
    if (b->fault == 0)
        b->fault = fault;
    return fault;
}

/* A table of the root alone, which has nothing to do: 12 bytes. */
static inline uint32_t wivakkol_build(wivakkol_builder *b, uint8_t *bytes, size_t room)
{
    static const uint8_t root[12] = {1, 0, 1, 0, 0, 0, 1, 0, 0, 0, 0, 0};

    b->bytes = bytes;
    b->room = room;
    b->fault = 0;
    if (room < sizeof root) {
        b->room = 0;
        return wivakkol_build_fault_(b, WIVAKKOL_BUILD_ROOM);
    }
    memcpy(bytes, root, sizeof root);
    return 0;
}

/* Whether so many threads and actions more can be put into a thread: 0, or why not. */
static inline uint32_t wivakkol_build_refused_(const wivakkol_builder *b, uint32_t thread, uint32_t threads, uint32_t actions)
{
    uint32_t n, m;

    if (b->room == 0)
        return WIVAKKOL_BUILD_ROOM;
    n = wivakkol_build_threads_(b);
    m = wivakkol_build_actions_(b);
    if (n <= thread)
        return WIVAKKOL_BUILD_THREAD;
    if (WIVAKKOL_MOST_THREADS < n + threads || WIVAKKOL_MOST_ACTIONS < m + actions)
        return WIVAKKOL_BUILD_LARGE;
    return b->room < 4 + 4 * ((size_t)n + threads + m + actions) ? WIVAKKOL_BUILD_ROOM : 0;
}

/* An action in front of the thread's end, for which there is room. */
static inline void wivakkol_build_action_(wivakkol_builder *b, uint32_t thread, uint32_t kind, uint32_t argument)
{
    uint32_t n = wivakkol_build_threads_(b), m = wivakkol_build_actions_(b), t;
    uint8_t *entry = b->bytes + 4 + 4 * (size_t)thread, *bodies = b->bytes + 4 + 4 * (size_t)n;
    size_t end = (size_t)wivakkol_build_word_(entry) + wivakkol_build_word_(entry + 2) - 1;

    memmove(bodies + 4 * (end + 1), bodies + 4 * end, 4 * ((size_t)m - end));
    wivakkol_build_put_(bodies + 4 * end, kind + 256 * (argument % 256), argument / 256);
    wivakkol_build_put_(entry, wivakkol_build_word_(entry), wivakkol_build_word_(entry + 2) + 1);
    for (t = thread + 1; t < n; t++) {
        entry += 4;
        wivakkol_build_put_(entry, wivakkol_build_word_(entry) + 1, wivakkol_build_word_(entry + 2));
    }
    wivakkol_build_put_(b->bytes, n, m + 1);
}

/* A new thread, forked here: its number, WIVAKKOL_NO_THREAD where nothing is put. */
static inline uint32_t wivakkol_build_fork(wivakkol_builder *b, uint32_t thread, uint32_t *child)
{
    uint32_t fault = wivakkol_build_refused_(b, thread, 1, 2), n, m;
    uint8_t *bodies;

    *child = WIVAKKOL_NO_THREAD;
    if (fault != 0)
        return wivakkol_build_fault_(b, fault);
    n = wivakkol_build_threads_(b);
    m = wivakkol_build_actions_(b);
    bodies = b->bytes + 4 + 4 * (size_t)n;
    memmove(bodies + 4, bodies, 4 * (size_t)m);
    wivakkol_build_put_(bodies, m, 1);
    wivakkol_build_put_(bodies + 4 + 4 * (size_t)m, WIVAKKOL_KIND_END, 0);
    wivakkol_build_put_(b->bytes, n + 1, m + 1);
    wivakkol_build_action_(b, thread, WIVAKKOL_KIND_FORK, n);
    *child = n;
    return 0;
}

/* The thread's latest child that is forked and not yet joined, WIVAKKOL_NO_THREAD where it has none. */
static inline uint32_t wivakkol_build_open_(const wivakkol_builder *b, uint32_t thread)
{
    const uint8_t *entry = b->bytes + 4 + 4 * (size_t)thread, *first = b->bytes + 4 + 4 * ((size_t)wivakkol_build_threads_(b) + wivakkol_build_word_(entry));
    const uint8_t *at = first + 4 * (size_t)wivakkol_build_word_(entry + 2);
    uint32_t joined = 0;

    while (at != first) {
        at -= 4;
        if (at[0] == WIVAKKOL_KIND_JOIN)
            joined++;
        else if (at[0] == WIVAKKOL_KIND_FORK && joined-- == 0)
            return wivakkol_build_word_(at + 1);
    }
    return WIVAKKOL_NO_THREAD;
}

/* Waits for the latest child that is forked and not yet joined. */
static inline uint32_t wivakkol_build_join(wivakkol_builder *b, uint32_t thread)
{
    uint32_t fault = wivakkol_build_refused_(b, thread, 0, 0), child;

    if (fault != 0)
        return wivakkol_build_fault_(b, fault);
    child = wivakkol_build_open_(b, thread);
    fault = child == WIVAKKOL_NO_THREAD ? WIVAKKOL_BUILD_NO_JOIN : wivakkol_build_refused_(b, thread, 0, 1);
    if (fault != 0)
        return wivakkol_build_fault_(b, fault);
    wivakkol_build_action_(b, thread, WIVAKKOL_KIND_JOIN, child);
    return 0;
}

/* Joins all children that are left, the latest first; those for which there is room. */
static inline uint32_t wivakkol_build_join_all(wivakkol_builder *b, uint32_t thread)
{
    uint32_t fault = wivakkol_build_refused_(b, thread, 0, 0);

    if (fault != 0)
        return wivakkol_build_fault_(b, fault);
    while (fault == 0 && wivakkol_build_open_(b, thread) != WIVAKKOL_NO_THREAD)
        fault = wivakkol_build_join(b, thread);
    return fault;
}

static inline uint32_t wivakkol_build_one_(wivakkol_builder *b, uint32_t thread, uint32_t kind, uint32_t argument)
{
    uint32_t fault = wivakkol_build_refused_(b, thread, 0, 1);

    if (fault != 0)
        return wivakkol_build_fault_(b, fault);
    wivakkol_build_action_(b, thread, kind, argument);
    return 0;
}

/* Anything that takes a turn and no memory. */
static inline uint32_t wivakkol_build_work(wivakkol_builder *b, uint32_t thread)
{
    return wivakkol_build_one_(b, thread, WIVAKKOL_KIND_WORK, 0);
}

static inline uint32_t wivakkol_build_amount_(wivakkol_builder *b, uint32_t thread, uint32_t kind, uint32_t amount)
{
    if (amount == 0 || WIVAKKOL_MOST_AMOUNT < amount)
        return wivakkol_build_fault_(b, WIVAKKOL_BUILD_AMOUNT);
    return wivakkol_build_one_(b, thread, kind, amount);
}

/* Draws memory. */
static inline uint32_t wivakkol_build_alloc(wivakkol_builder *b, uint32_t thread, uint32_t amount)
{
    return wivakkol_build_amount_(b, thread, WIVAKKOL_KIND_ALLOC, amount);
}

/* Gives memory back: of its own, or what a joined child left. */
static inline uint32_t wivakkol_build_free(wivakkol_builder *b, uint32_t thread, uint32_t amount)
{
    return wivakkol_build_amount_(b, thread, WIVAKKOL_KIND_FREE, amount);
}

/* Of an action of the table: how many actions of its thread come before it, and the thread; so the place of a refusal is found again in the calls that were made. 0 and WIVAKKOL_NO_THREAD
 * where there is no such action. */
static inline uint32_t wivakkol_build_step(const wivakkol_builder *b, uint64_t action, uint32_t *thread)
{
    uint32_t t, first, n = b->room == 0 ? 0 : wivakkol_build_threads_(b);

    for (t = 0; t < n; t++) {
        first = wivakkol_build_word_(b->bytes + 4 + 4 * (size_t)t);
        if (first <= action && action < (uint64_t)first + wivakkol_build_word_(b->bytes + 6 + 4 * (size_t)t)) {
            *thread = t;
            return (uint32_t)action - first;
        }
    }
    *thread = WIVAKKOL_NO_THREAD;
    return 0;
}

#ifdef __cplusplus
}
#endif

#endif
