/* Workers of one's own: p POSIX threads are the workers of one run and do its actions, with real malloc and free, a byte for each unit. docs/WORKERS.md explains it.
 *
 *     workers p K S < TABLE        S: the peak of p workers, S_p, of the table that runs, or another limit that needs no b, as fitquota gives it
 *
 * Prints p, K and the turns; the peak of real memory, the run's highest and S_p; the b that the turns kept, and demand 3's limit with it. Exits 1 where real memory passed the run's highest,
 * the highest S_p or that limit, or where other memory is left than the run holds; 2 for wrong arguments.
 *
 *     cc -O2 -pthread -Iinclude -o target/workers examples/workers.c target/staticlib/libwivakkol_turn.a target/staticlib/libwivakkol.a
 *
 * Three orders keep real memory to what the run counts:
 * - an alloc is done after its turn: the run has counted it;
 * - a free is done before the lock of its turn is given back: nobody takes a turn that counts on it before;
 * - a worker has done what a turn said before it takes its next: whoever goes on with the thread, or joins it, does so after that. */
#define _POSIX_C_SOURCE 200809L
#include <errno.h>
#include <inttypes.h>
#include <pthread.h>
#include <sched.h>
#include <stdio.h>
#include <stdlib.h>
#include <string.h>
#include <time.h>

#include "wivakkol.h"

/* One byte more than the longest table, so that a longer input is refused for its length. */
static uint8_t given[WIVAKKOL_TABLE_MOST + 1];
static uint8_t filled[WIVAKKOL_TABLE_MOST];
static wivakkol_tables_work tables_work;
static wivakkol_work work;

/* The run and the table that runs. The lock is around every call on the run. */
static pthread_mutex_t lock = PTHREAD_MUTEX_INITIALIZER;
static pthread_cond_t ready = PTHREAD_COND_INITIALIZER; /* a thread may have become ready, or the run is over */
static wivakkol_run run;
static const uint8_t *table = given;
static size_t length;
static uint32_t p, last = WIVAKKOL_REFUSED_ENDED; /* what the last turn of a worker was refused with */

/* ---- the b that the turns keep, under the lock */

static uint64_t since[WIVAKKOL_MOST_WORKERS][WIVAKKOL_MOST_WORKERS], kept; /* since[x][w]: turns of w since the latest of x */
static int had[WIVAKKOL_MOST_WORKERS];

static void count_turn(uint32_t w)
{
    uint32_t x;

    for (x = 0; x < p; x++)
        if (x != w && had[x] && kept < ++since[x][w])
            kept = since[x][w];
    memset(since[w], 0, sizeof since[w]);
    had[w] = 1;
}

/* ---- real memory: each thread of the table has a list of blocks, which belongs to the worker that holds the thread */

typedef struct block {
    struct block *next;
    uint64_t size;
} block;

static block *blocks[WIVAKKOL_MOST_THREADS];
static pthread_mutex_t tally = PTHREAD_MUTEX_INITIALIZER;
static uint64_t real, peak; /* under the tally's lock: bytes drawn and not freed, and the most of them */

static void drawn(uint64_t size)
{
    pthread_mutex_lock(&tally);
    real += size;
    if (peak < real)
        peak = real;
    pthread_mutex_unlock(&tally);
}

static void freed(uint64_t size)
{
    pthread_mutex_lock(&tally);
    real -= size;
    pthread_mutex_unlock(&tally);
}

static void draw(uint32_t t, uint64_t size)
{
    block *x;

    drawn(size);
    x = malloc(sizeof *x + size);
    if (x == NULL)
        abort();
    memset(x + 1, 1, size);
    x->size = size;
    x->next = blocks[t];
    blocks[t] = x;
}

/* A free may be of several blocks, or of a part of one. */
static void give_back(uint32_t t, uint64_t size)
{
    uint64_t whole = size;

    while (size != 0) {
        block *x = blocks[t];

        if (x == NULL)
            abort();
        if (x->size <= size) {
            size -= x->size;
            blocks[t] = x->next;
            free(x);
        } else {
            x->size -= size;
            size = 0;
            if ((blocks[t] = realloc(x, sizeof *x + x->size)) == NULL)
                abort();
        }
    }
    freed(whole);
}

/* At a join the parent gets what its child holds. */
static void inherit(uint32_t t, uint32_t child)
{
    block **end = &blocks[child];

    while (*end != NULL)
        end = &(*end)->next;
    *end = blocks[t];
    blocks[t] = blocks[child];
    blocks[child] = NULL;
}

static uint64_t left_over(void)
{
    uint64_t left = 0;
    uint32_t t;

    for (t = 0; t < WIVAKKOL_MOST_THREADS; t++)
        while (blocks[t] != NULL) {
            block *x = blocks[t];

            left += x->size;
            blocks[t] = x->next;
            free(x);
        }
    return left;
}

/* ---- the workers */

static pthread_barrier_t together;

/* An action takes a while, up to some microseconds, each time another, so that no two runs are alike. */
static void take_a_while(uint32_t *seed)
{
    volatile uint32_t i;

    *seed = *seed * 1664525 + 1013904223;
    for (i = *seed >> 20; i != 0; i--)
        ;
    if (*seed >> 29 == 0)
        sched_yield();
}

/* A turn of worker w, and what it said is done; 0 once the run is over. */
static int step(uint32_t w, uint32_t *seed)
{
    uint64_t row[WIVAKKOL_TURN_ROW];
    uint32_t answer, kind = WIVAKKOL_NO_KIND, argument = 0, t;

    pthread_mutex_lock(&lock);
    answer = wivakkol_turn(&run, table, length, w, row);
    if (answer != 0) {
        if (answer != WIVAKKOL_REFUSED_ENDED)
            last = answer;
        pthread_cond_broadcast(&ready);
        pthread_mutex_unlock(&lock);
        return 0;
    }
    count_turn(w);
    t = (uint32_t)row[WIVAKKOL_THREAD];
    if (row[WIVAKKOL_SAID] == WIVAKKOL_SAID_DONE) {
        kind = wivakkol_kind(table, length, row[WIVAKKOL_VALUE]);
        argument = wivakkol_argument(table, length, row[WIVAKKOL_VALUE]);
    }
    if (kind == WIVAKKOL_KIND_FREE)
        give_back(t, argument);
    /* A fork leaves two threads ready, the others one at most. This worker takes one with its next turn, a woken one what is left, or all of it where this one stays away. */
    if (kind == WIVAKKOL_KIND_FORK || kind == WIVAKKOL_KIND_END || row[WIVAKKOL_SAID] == WIVAKKOL_SAID_QUOTA)
        pthread_cond_signal(&ready);
    if (row[WIVAKKOL_SAID] == WIVAKKOL_SAID_IDLE)
        pthread_cond_wait(&ready, &lock);
    pthread_mutex_unlock(&lock);

    if (kind == WIVAKKOL_KIND_ALLOC)
        draw(t, argument);
    else if (kind == WIVAKKOL_KIND_JOIN)
        inherit(t, argument);
    if (kind != WIVAKKOL_NO_KIND)
        take_a_while(seed);
    return 1;
}

static void *worker(void *number)
{
    uint32_t w = (uint32_t)(uintptr_t)number, seed;
    struct timespec now;

    clock_gettime(CLOCK_MONOTONIC, &now);
    seed = (uint32_t)now.tv_nsec + w;
    pthread_barrier_wait(&together);
    while (step(w, &seed))
        ;
    return NULL;
}

static void run_workers(void)
{
    pthread_t threads[WIVAKKOL_MOST_WORKERS];
    uint32_t w;

    pthread_barrier_init(&together, NULL, p);
    for (w = 0; w < p; w++)
        if (pthread_create(&threads[w], NULL, worker, (void *)(uintptr_t)w) != 0)
            abort();
    for (w = 0; w < p; w++)
        pthread_join(threads[w], NULL);
    pthread_barrier_destroy(&together);
}

/* A decimal number up to `most`; ends the program where the argument is none. */
static uint64_t number(const char *text, uint64_t most)
{
    unsigned long long x;
    char *end;

    errno = 0;
    x = strtoull(text, &end, 10);
    if (*text < '0' || '9' < *text || *end != '\0' || errno != 0 || most < x) {
        fprintf(stderr, "workers: not a number up to %" PRIu64 ": %s\n", most, text);
        exit(2);
    }
    return x;
}

static int refused(uint32_t answer, uint64_t place)
{
    printf("refused %" PRIu32 " %" PRIu64 ": %s\n", answer, place, wivakkol_refusal_words(answer));
    return 1;
}

int main(int argc, char **argv)
{
    uint64_t facts[WIVAKKOL_CHECK_ROW], begun[WIVAKKOL_BEGIN_ROW], most, limit, highest;
    uint32_t answer, quota;
    int above;

    if (argc != 4) {
        fprintf(stderr, "usage: workers p K S < TABLE\n");
        return 2;
    }
    p = (uint32_t)number(argv[1], UINT32_MAX);
    quota = (uint32_t)number(argv[2], UINT32_MAX);
    most = number(argv[3], UINT64_MAX);
    length = fread(given, 1, sizeof given, stdin);
    if ((answer = wivakkol_begin(&run, &work, given, length, p, quota, filled, sizeof filled, begun)) != 0)
        return refused(answer, begun[WIVAKKOL_PLACE]);
    if (begun[WIVAKKOL_FILLED] != 0) {
        table = filled;
        length = (size_t)begun[WIVAKKOL_FILLED];
    }
    if ((answer = wivakkol_check(&tables_work, table, length, facts)) != 0)
        return refused(answer, facts[WIVAKKOL_PLACE]);

    run_workers();
    if (last != WIVAKKOL_REFUSED_ENDED)
        return refused(last, 0);
    highest = run.sums[WIVAKKOL_AT_HIGHEST];
    kept = kept == 0 ? 1 : kept; /* b is at least 1 */
    limit = facts[WIVAKKOL_PEAK] + kept * quota * (p - 1) * (facts[WIVAKKOL_DEPTH] - 1);
    above = highest < peak || most < highest || limit < highest || left_over() != run.sums[WIVAKKOL_AT_HELD];
    printf("p %" PRIu32 " K %" PRIu32 " turns %" PRIu64 " peak %" PRIu64 " highest %" PRIu64 " S_p %" PRIu64 " b %" PRIu64 " limit %" PRIu64 "%s\n", p, quota,
           run.sums[WIVAKKOL_AT_TURNS], peak, highest, most, kept, limit, above ? " ABOVE" : "");
    return above;
}
