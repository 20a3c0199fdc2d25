/* One table on standard input, run to its end by every scheduler, the workers in rounds: AsyncDF by wivakkol_turn, DFDeques by wivakkol_deque_turn with all choices 0 and with random ones; and by
 * three models of the thesis's other schedulers, which are written here and of which nothing is proved:
 *   fifo      one queue. A fork puts the child at its end and the worker goes on with the parent; a worker without a thread takes the front; a thread that waited goes to the end (section 5.2).
 *   lifo      the same with a stack (section 5.3).
 *   stealing  a deque for each worker. At a fork the parent goes on top and the worker does the child; at an end it goes on with the parent that waits for it, or else with its deque's top; with
 *             none there it takes the bottom of another worker's deque, drawn at random (section 2.3.2). Worker 0 begins with the root.
 * They have no quota. In all six a take and the thread's first action are one turn, and a turn that finds nothing to take is idle.
 *
 * Arguments p, SEEDS and quotas. For each quota it prints `runs K n m S1 D N above`, of the table that runs (above: 1 where one of its allocs is above K), or `refused K NUMBER`; then for each run
 * `NAME K SEED peak turns takes quota waits idle far leaps place`, the last three being the steals at places from 1 on, those past a deque that has a thread, and the greatest place robbed. The
 * models' lines have K 0. With the largest quota it lets the model of work stealing rob whom DFDeques robs, and fails where the two then differ in a turn. For bench/schedulers.py. */
#include <inttypes.h>
#include <stdio.h>
#include <stdlib.h>
#include <string.h>

#include "wivakkol_deques.h"

#define LARGEST_QUOTA 16777215
#define NOBODY UINT32_MAX
#define READY 1 /* of a thread's status */
#define WAITING 3
#define ENDED 4

enum kind { END, WORK, ALLOC, FREE, FORK, JOIN };
enum rule { FIFO, LIFO, STEALING };

static uint8_t given[WIVAKKOL_TABLE_MOST + 1], filled[WIVAKKOL_TABLE_MOST];
static const uint8_t *table; /* the one that runs */
static size_t given_length, length;
static uint32_t p;
static wivakkol_run run;
static wivakkol_work work;
static uint64_t state; /* of the random numbers */

static struct counts {
    uint64_t peak, turns, takes, quota, waits, idle, far, leaps, place;
} counts;

static void fail(const char *what)
{
    fprintf(stderr, "schedulers: %s\n", what);
    exit(1);
}

/* splitmix64 */
static uint32_t below(uint32_t limit)
{
    uint64_t x = state += 0x9e3779b97f4a7c15u;

    x = (x ^ (x >> 30)) * 0xbf58476d1ce4e5b9u;
    x = (x ^ (x >> 27)) * 0x94d049bb133111ebu;
    return (uint32_t)((x ^ (x >> 31)) % limit);
}

static void report(const char *name, uint32_t quota, unsigned seed)
{
    printf("%s %" PRIu32 " %u %" PRIu64 " %" PRIu64 " %" PRIu64 " %" PRIu64 " %" PRIu64 " %" PRIu64 " %" PRIu64 " %" PRIu64 " %" PRIu64 "\n", name, quota, seed, counts.peak, counts.turns,
           counts.takes, counts.quota, counts.waits, counts.idle, counts.far, counts.leaps, counts.place);
}

/* ---- The table that runs */

static uint32_t threads(void)
{
    return (uint32_t)(table[0] + 256 * table[1]);
}

static uint32_t actions(void)
{
    return (uint32_t)(table[2] + 256 * table[3]);
}

static enum kind kind_of(uint32_t a)
{
    return (enum kind)table[4 + 4 * threads() + 4 * a];
}

static uint32_t argument_of(uint32_t a)
{
    const uint8_t *at = table + 4 + 4 * threads() + 4 * a;

    return at[1] + 256u * at[2] + 65536u * at[3];
}

/* ---- By the proved calls */

static uint32_t begin(uint32_t quota)
{
    uint64_t row[WIVAKKOL_BEGIN_ROW];
    uint32_t refusal = wivakkol_begin(&run, &work, given, given_length, p, quota, filled, sizeof filled, row);

    table = row[WIVAKKOL_FILLED] ? filled : given;
    length = row[WIVAKKOL_FILLED] ? row[WIVAKKOL_FILLED] : given_length;
    memset(&counts, 0, sizeof counts);
    return refusal;
}

static int over(void)
{
    return run.bytes[WIVAKKOL_AT_STATUS] == ENDED;
}

static int holds(uint32_t w)
{
    return run.bytes[WIVAKKOL_AT_HOLDS + w];
}

static void count(const uint64_t row[WIVAKKOL_TURN_ROW], int held)
{
    counts.turns++;
    counts.idle += row[WIVAKKOL_SAID] == WIVAKKOL_SAID_IDLE;
    counts.quota += row[WIVAKKOL_SAID] == WIVAKKOL_SAID_QUOTA;
    counts.waits += row[WIVAKKOL_SAID] == WIVAKKOL_SAID_WAIT;
    counts.takes += !held && row[WIVAKKOL_SAID] != WIVAKKOL_SAID_IDLE;
    counts.peak = run.sums[WIVAKKOL_AT_HIGHEST];
}

static void facts(uint32_t quota)
{
    static wivakkol_tables_work working;
    uint64_t row[WIVAKKOL_CHECK_ROW];
    uint32_t a, above = 0;

    if (wivakkol_check(&working, table, length, row) != 0)
        fail("the table that runs is refused");
    for (a = 0; a < actions(); a++)
        above |= kind_of(a) == ALLOC && argument_of(a) > quota;
    printf("runs %" PRIu32 " %" PRIu64 " %" PRIu64 " %" PRIu64 " %" PRIu64 " %" PRIu64 " %" PRIu32 "\n", quota, row[WIVAKKOL_THREADS], row[WIVAKKOL_ACTIONS], row[WIVAKKOL_PEAK],
           row[WIVAKKOL_DEPTH], row[WIVAKKOL_NESTED], above);
}

/* In rounds, turn by turn; one call in rounds must come to the same. */
static void by_asyncdf(uint32_t quota)
{
    uint64_t row[WIVAKKOL_TURN_ROW], all[WIVAKKOL_RUN_ROW], turns;
    uint32_t w;

    begin(quota);
    while (!over()) {
        int held = holds(w = (uint32_t)(counts.turns % p));

        if (wivakkol_turn(&run, table, length, w, row) != 0)
            fail("a turn is refused");
        count(row, held);
    }
    report("asyncdf", quota, 0);
    turns = counts.turns;
    begin(quota);
    if (wivakkol_rounds(&run, table, length, UINT32_MAX, all) != 0 || all[WIVAKKOL_TAKEN] != turns)
        fail("rounds are not the same run");
}

static uint32_t bottom_at(uint32_t place)
{
    uint32_t t = run.words[WIVAKKOL_AT_FIRST];

    while (place-- > 0 && t < WIVAKKOL_MOST_THREADS)
        t = run.words[WIVAKKOL_AT_OVER + t];
    return t;
}

/* Whether a deque left of a place has a thread; a bottom that is held is its owner's, and the deque is empty. */
static int leaps_to(uint32_t place)
{
    while (place-- > 0)
        if (run.bytes[WIVAKKOL_AT_STATUS + bottom_at(place)] == READY)
            return 1;
    return 0;
}

/* A turn of DFDeques, counted. */
static void turn_of_deques(uint32_t w, uint32_t choice, uint64_t row[WIVAKKOL_DEQUE_TURN_ROW])
{
    int held = holds(w), leap = !held && bottom_at(choice) < WIVAKKOL_MOST_THREADS && leaps_to(choice);

    if (wivakkol_deque_turn(&run, table, length, w, choice, row) != 0)
        fail("a turn of DFDeques is refused");
    count(row, held);
    if (!held && row[WIVAKKOL_SAID] != WIVAKKOL_SAID_IDLE) {
        counts.far += choice > 0;
        counts.leaps += (uint64_t)leap;
        counts.place = choice > counts.place ? choice : counts.place;
    }
}

/* All choices 0, or drawn with a seed. */
static void by_dfdeques(uint32_t quota, unsigned seed)
{
    uint64_t row[WIVAKKOL_DEQUE_TURN_ROW];

    begin(quota);
    state = seed;
    while (!over()) {
        uint32_t w = (uint32_t)(counts.turns % p);

        turn_of_deques(w, seed && !holds(w) ? below(p) : 0, row);
    }
    report(seed ? "random" : "zero", quota, seed);
}

/* ---- The models */

static struct {
    uint32_t next[WIVAKKOL_MOST_THREADS], parent[WIVAKKOL_MOST_THREADS];
    uint8_t status[WIVAKKOL_MOST_THREADS];
    uint32_t thread[WIVAKKOL_MOST_WORKERS]; /* that a worker holds, or NOBODY */
    uint32_t queue[2 * WIVAKKOL_MOST_THREADS], front, back; /* put there: each child at its fork, and its parent at most once for it */
    uint32_t deque[WIVAKKOL_MOST_WORKERS][WIVAKKOL_MOST_THREADS], size[WIVAKKOL_MOST_WORKERS]; /* the bottom first */
    uint64_t held, done;
} model;

static void begin_model(void)
{
    uint32_t t, a, w;

    table = given;
    length = given_length;
    memset(&model, 0, sizeof model);
    memset(&counts, 0, sizeof counts);
    for (t = 0; t < threads(); t++) {
        model.next[t] = given[4 + 4 * t] + 256u * given[5 + 4 * t];
        for (a = model.next[t]; kind_of(a) != END; a++)
            if (kind_of(a) == FORK)
                model.parent[argument_of(a)] = t;
    }
    for (w = 0; w < WIVAKKOL_MOST_WORKERS; w++)
        model.thread[w] = NOBODY;
    model.thread[0] = 0;
    counts.takes = 1;
}

static uint32_t pop_bottom(uint32_t w)
{
    uint32_t t = model.deque[w][0];

    if (model.size[w] == 0)
        return NOBODY;
    memmove(model.deque[w], model.deque[w] + 1, --model.size[w] * sizeof t);
    return t;
}

static uint32_t taken(enum rule by, uint32_t victim)
{
    if (by == STEALING)
        return victim == NOBODY ? NOBODY : pop_bottom(victim);
    if (model.front == model.back)
        return NOBODY;
    return by == FIFO ? model.queue[model.front++] : model.queue[--model.back];
}

/* A thread is there to be taken, or, by stealing, is put on the worker's deque. */
static void put(enum rule by, uint32_t w, uint32_t t)
{
    if (by == STEALING)
        model.deque[w][model.size[w]++] = t;
    else
        model.queue[model.back++] = t;
}

static void let_go(enum rule by, uint32_t w)
{
    model.thread[w] = by == STEALING && model.size[w] ? model.deque[w][--model.size[w]] : NOBODY;
}

static void ends(enum rule by, uint32_t w, uint32_t t)
{
    uint32_t u = model.parent[t];

    model.status[t] = ENDED;
    if (t == 0 || model.status[u] != WAITING || argument_of(model.next[u]) != t) {
        let_go(by, w);
        return;
    }
    model.status[u] = READY;
    if (by == STEALING) {
        model.thread[w] = u;
    } else {
        put(by, w, u);
        let_go(by, w);
    }
}

static void forks(enum rule by, uint32_t w, uint32_t t, uint32_t child)
{
    if (by == STEALING) {
        put(by, w, t);
        model.thread[w] = child;
    } else {
        put(by, w, child);
    }
}

/* A turn; `victim`: whom a worker without a thread robs. The action done, or NOBODY. */
static uint32_t turn_of_model(enum rule by, uint32_t w, uint32_t victim)
{
    uint32_t t, a, x;

    counts.turns++;
    if (model.thread[w] == NOBODY) {
        if ((model.thread[w] = taken(by, victim)) == NOBODY) {
            counts.idle++;
            return NOBODY;
        }
        counts.takes++;
    }
    t = model.thread[w];
    a = model.next[t];
    x = argument_of(a);
    if (kind_of(a) == JOIN && model.status[x] != ENDED) {
        counts.waits++;
        model.status[t] = WAITING;
        let_go(by, w);
        return NOBODY;
    }
    model.done++;
    model.next[t] += kind_of(a) != END;
    model.held += kind_of(a) == ALLOC ? x : 0;
    model.held -= kind_of(a) == FREE ? x : 0;
    counts.peak = model.held > counts.peak ? model.held : counts.peak;
    if (kind_of(a) == FORK)
        forks(by, w, t, x);
    else if (kind_of(a) == END)
        ends(by, w, t);
    return a;
}

static uint32_t another(uint32_t w)
{
    return p == 1 ? NOBODY : (w + 1 + below(p - 1)) % p;
}

static void by_model(enum rule by, const char *name, unsigned seed)
{
    begin_model();
    state = seed;
    while (model.status[0] != ENDED) {
        uint32_t w = (uint32_t)(counts.turns % p);

        turn_of_model(by, w, by == STEALING && model.thread[w] == NOBODY ? another(w) : NOBODY);
    }
    if (model.done != actions())
        fail("a model leaves actions undone");
    report(name, 0, seed);
}

/* ---- DFDeques that never stops for its quota, and work stealing that robs the same */

/* The owner of the deque at a place: who holds the first thread of its line. */
static uint32_t owner_at(uint32_t place)
{
    uint32_t t, w;

    if (bottom_at(place) >= WIVAKKOL_MOST_THREADS)
        return NOBODY;
    t = place ? run.words[WIVAKKOL_AT_RIGHT + bottom_at(place - 1)] : run.words[WIVAKKOL_AT_LEFTMOST];
    for (w = 0; w < p; w++)
        if (holds(w) && run.words[WIVAKKOL_AT_WORKER_THREADS + w] == t)
            return w;
    return NOBODY;
}

/* Worker 0 has the first turn and the root, as in the model. */
static void same_as_stealing(unsigned seed)
{
    uint64_t row[WIVAKKOL_DEQUE_TURN_ROW], turns;

    begin_model();
    begin(LARGEST_QUOTA);
    state = seed;
    for (turns = 0; !over(); turns++) {
        uint32_t w = (uint32_t)(turns % p), choice = turns ? below(p) : 0, victim = holds(w) ? NOBODY : owner_at(choice), a;

        turn_of_deques(w, choice, row);
        a = row[WIVAKKOL_SAID] == WIVAKKOL_SAID_DONE ? (uint32_t)row[WIVAKKOL_VALUE] : NOBODY;
        if (turn_of_model(STEALING, w, victim) != a || run.sums[WIVAKKOL_AT_HELD] != model.held || row[WIVAKKOL_SAID] == WIVAKKOL_SAID_QUOTA)
            fail("DFDeques with the largest quota is not work stealing");
    }
}

int main(int argc, char **argv)
{
    unsigned seeds, seed;
    int i;

    if (argc < 3)
        fail("arguments: p SEEDS K..");
    p = (uint32_t)strtoul(argv[1], NULL, 10);
    seeds = p == 1 ? 1 : (unsigned)strtoul(argv[2], NULL, 10); /* one worker has nothing to choose */
    given_length = fread(given, 1, sizeof given, stdin);
    for (i = 3; i < argc; i++) {
        uint32_t quota = (uint32_t)strtoul(argv[i], NULL, 10), refusal = begin(quota);

        if (refusal != 0) {
            printf("refused %" PRIu32 " %" PRIu32 "\n", quota, refusal);
            continue;
        }
        facts(quota);
        by_asyncdf(quota);
        for (seed = 0; seed <= seeds; seed++)
            by_dfdeques(quota, seed);
    }
    by_model(FIFO, "fifo", 0);
    by_model(LIFO, "lifo", 0);
    for (seed = 1; seed <= seeds; seed++) {
        by_model(STEALING, "stealing", seed);
        same_as_stealing(seed);
    }
    return 0;
}
