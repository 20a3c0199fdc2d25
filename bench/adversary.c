/* The most memory that p workers are made to hold, by an adversary who chooses whose turn is next: it starves the worker whose thread stands leftmost, prefers workers that will draw and puts
 * off those that will free or end, with random choices in between; three of four orders go on from some point of the worst one so far. Every turn is one of wivakkol_turn, what it would do
 * is asked of wivakkol_preview, and each run goes to its end. Arguments p, K, the number of orders and a seed; a table on standard input. Prints `orders N turns T worst W`. For
 * bench/figures.py. */
#include <inttypes.h>
#include <stdio.h>
#include <stdlib.h>

#include "wivakkol.h"

#define MOST_TURNS (2 * 8192) /* that are not idle: m + A + J */
#define READY 1               /* of a thread's status */
#define ENDED 4

static uint8_t table[WIVAKKOL_TABLE_MOST + 1], filled[WIVAKKOL_TABLE_MOST];
static size_t length;
static uint32_t p, quota;
static wivakkol_run run;
static wivakkol_work work;
static uint32_t place[WIVAKKOL_MOST_THREADS]; /* of a thread among all, from the left: the order in which one worker ends them, which is that of the list */

/* What a worker's next turn would do. */
enum does { DRAWS, KEEPS, FREES, ENDS, NOTHING };
static struct next {
    enum does does;
    uint64_t thread;
} next[WIVAKKOL_MOST_WORKERS];

/* What a turn costs the adversary, drawn anew for each order: one that leaves memory as it is; one that frees, and where `ends` is set one that ends a thread, unless the worker could then go
 * to a ready thread further left, which has a cost of its own; and more for the leftmost. It takes the cheapest turn, of several the rightmost or any, and one time in `odd` (0: never) any turn. */
static struct costs {
    unsigned keeps, frees, goes_left, leftmost, odd;
    int ends, by_place;
} costs;

static uint8_t order[MOST_TURNS], worst_order[MOST_TURNS];
static size_t turns, peak_turns, worst_turns; /* taken; of them up to the highest; these of the worst order */
static uint64_t worst, all_turns, state;

static void fail(const char *what)
{
    fprintf(stderr, "adversary: %s\n", what);
    exit(1);
}

/* splitmix64 */
static uint64_t below(uint64_t limit)
{
    uint64_t x = state += 0x9e3779b97f4a7c15u;

    x = (x ^ (x >> 30)) * 0xbf58476d1ce4e5b9u;
    x = (x ^ (x >> 27)) * 0x94d049bb133111ebu;
    return (x ^ (x >> 31)) % limit;
}

static void begin(uint32_t workers)
{
    uint64_t row[WIVAKKOL_BEGIN_ROW];

    if (wivakkol_begin(&run, &work, table, length, workers, quota, filled, sizeof filled, row) != 0 || row[WIVAKKOL_FILLED] != 0)
        fail("refused, or an alloc above K");
    turns = peak_turns = 0;
}

static int holds(uint32_t w)
{
    return run.bytes[WIVAKKOL_AT_HOLDS + w];
}

static void take(uint32_t w, uint64_t row[WIVAKKOL_TURN_ROW])
{
    uint64_t before = run.sums[WIVAKKOL_AT_HIGHEST];

    if (wivakkol_turn(&run, table, length, w, row) != 0)
        fail("a turn is refused");
    if (turns == MOST_TURNS)
        fail("more turns than any run has");
    order[turns++] = (uint8_t)w;
    if (run.sums[WIVAKKOL_AT_HIGHEST] > before)
        peak_turns = turns;
}

static int over(void)
{
    return run.bytes[WIVAKKOL_AT_STATUS] == ENDED;
}

static void find_places(void)
{
    uint64_t row[WIVAKKOL_TURN_ROW];
    uint32_t ended = 0;

    begin(1);
    while (!over()) {
        take(0, row);
        if (run.bytes[WIVAKKOL_AT_STATUS + row[WIVAKKOL_THREAD]] == ENDED)
            place[row[WIVAKKOL_THREAD]] = ended++;
    }
}

static int is_end(uint64_t action)
{
    return table[4 + 4 * (table[0] + 256 * table[1]) + 4 * action] == 0;
}

static enum does foreseen(const uint64_t row[WIVAKKOL_PREVIEW_ROW])
{
    uint64_t held = run.sums[WIVAKKOL_AT_HELD];

    if (row[WIVAKKOL_SAID] == WIVAKKOL_SAID_IDLE)
        return NOTHING;
    if (row[WIVAKKOL_AFTER_HELD] != held)
        return row[WIVAKKOL_AFTER_HELD] > held ? DRAWS : FREES;
    return row[WIVAKKOL_SAID] == WIVAKKOL_SAID_DONE && is_end(row[WIVAKKOL_VALUE]) ? ENDS : KEEPS;
}

static void look(uint32_t w)
{
    uint64_t row[WIVAKKOL_PREVIEW_ROW];

    if (wivakkol_preview(&run, table, length, w, row) != 0)
        fail("a preview is refused");
    next[w].thread = row[WIVAKKOL_THREAD];
    next[w].does = foreseen(row);
}

/* Fills `which` with the workers whose turn would not be idle, one for all that hold nothing, as these would do the same; how many they are. What a worker that holds a thread would do
 * to memory changes by its own turns alone. */
static uint32_t candidates(uint32_t which[WIVAKKOL_MOST_WORKERS])
{
    uint32_t count = 0, w;
    int free_seen = 0;

    for (w = 0; w < p; w++) {
        if (!holds(w)) {
            if (free_seen)
                continue;
            free_seen = 1;
            look(w);
            if (next[w].does == NOTHING)
                continue;
        }
        which[count++] = w;
    }
    return count;
}

/* The place of the thread that a worker without one would take; above all where none is ready. */
static uint32_t ready_place(void)
{
    uint32_t t = run.words[WIVAKKOL_AT_FIRST];

    while (t < WIVAKKOL_MOST_THREADS && run.bytes[WIVAKKOL_AT_STATUS + t] != READY)
        t = run.words[WIVAKKOL_AT_OVER + t];
    return t < WIVAKKOL_MOST_THREADS ? place[t] : UINT32_MAX;
}

static uint64_t cost_of(const struct next *of, uint32_t ready)
{
    if (of->does == FREES || (of->does == ENDS && costs.ends))
        return ready < place[of->thread] ? costs.goes_left : costs.frees;
    return of->does == DRAWS ? 0 : costs.keeps;
}

static uint32_t choose(void)
{
    uint32_t which[WIVAKKOL_MOST_WORKERS], count = candidates(which), i, leftmost = 0, best = 0, ready = ready_place();
    uint64_t least = UINT64_MAX;

    if (count == 0)
        fail("nobody has a turn, and the run is not over");
    if (costs.odd && below(costs.odd) == 0)
        return which[below(count)];
    for (i = 1; i < count; i++)
        if (place[next[which[i]].thread] < place[next[which[leftmost]].thread])
            leftmost = i;
    for (i = 0; i < count; i++) {
        const struct next *of = &next[which[i]];
        uint64_t cost = cost_of(of, ready) + (i == leftmost ? costs.leftmost : 0);

        cost = (cost << 32) + (costs.by_place ? UINT32_MAX - place[of->thread] : (uint32_t)below(UINT32_MAX));
        if (cost < least) {
            least = cost;
            best = which[i];
        }
    }
    return best;
}

static void draw_costs(void)
{
    static const unsigned odd[] = {0, 256, 64, 16, 4};

    costs.keeps = (unsigned)below(2);
    costs.frees = (unsigned)below(6);
    costs.goes_left = below(2) ? 0 : (unsigned)below(costs.frees + 1);
    costs.leftmost = (unsigned)below(8);
    costs.odd = odd[below(5)];
    costs.ends = below(2) == 0;
    costs.by_place = below(3) != 0;
}

/* One order: `first` turns of the worst one so far, then the adversary's. */
static void try_order(size_t first)
{
    uint64_t row[WIVAKKOL_TURN_ROW], highest;
    uint32_t w;
    size_t i;

    begin(p);
    for (i = 0; i < first; i++)
        take(worst_order[i], row);
    for (w = 0; w < p; w++)
        if (holds(w))
            look(w);
    while (!over()) {
        w = choose();
        take(w, row);
        if (holds(w))
            look(w);
    }
    highest = run.sums[WIVAKKOL_AT_HIGHEST];
    all_turns += turns;
    if (highest >= worst) {
        worst = highest;
        worst_turns = peak_turns;
        for (i = 0; i < peak_turns; i++)
            worst_order[i] = order[i];
    }
}

int main(int count, char **words)
{
    unsigned long orders, i;

    if (count != 5)
        fail("arguments: p K ORDERS SEED");
    p = (uint32_t)strtoul(words[1], NULL, 10);
    quota = (uint32_t)strtoul(words[2], NULL, 10);
    orders = strtoul(words[3], NULL, 10);
    state = strtoull(words[4], NULL, 10);
    length = fread(table, 1, sizeof table, stdin);
    find_places();
    for (i = 0; i < orders; i++) {
        draw_costs();
        try_order(i % 4 ? below(worst_turns + 1) : 0);
    }
    printf("orders %lu turns %" PRIu64 " worst %" PRIu64 "\n", orders, all_turns, worst);
    return 0;
}
