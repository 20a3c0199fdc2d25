/* Runs a table on standard input to its end in rounds, N times each by wivakkol_turn, by wivakkol_paced_turn, by the same in plain C (plain.h) and in one call of wivakkol_paced_rounds, one after
 * the other in every of the N. Prints the turns of a run and, of all runs, the least processor time of a turn in each of the four ways, and of a call refused with 60, in nanoseconds. Before that it
 * compares the paced turn with plain C, turn by turn, with turns that are refused between. For bench/pace.py; arguments p, K and N. */
#define _POSIX_C_SOURCE 199309L
#include "measured.h"
#include "wivakkol_pace.h"

static wivakkol_pace pace, other;

/* Rounds keep b 1. */
static void begin_paced(void)
{
    begin();
    begin_plain();
    if (wivakkol_pace_begin(&pace, p, 1) != 0 || plain_pace_begin(other.numbers, p, 1) != 0)
        fail("no pace");
}

/* The same numbers, rows and paces from both, to the end of the run; each worker asks twice, and is refused once where there are others. */
static void compare(void)
{
    uint64_t one[WIVAKKOL_TURN_ROW], two[WIVAKKOL_TURN_ROW];
    uint32_t w = 0, k = 0, number, refused = 0;

    begin_paced();
    do {
        number = wivakkol_paced_turn(&run, &pace, table, length, w, one);
        if (number != plain_paced_turn(plain, other.numbers, w, two) || memcmp(one, two, sizeof one) != 0 || memcmp(&pace, &other, sizeof pace) != 0)
            fail("plain C says something else");
        refused += number == WIVAKKOL_REFUSED_PACE;
        k ^= 1;
        w = k ? w : w + 1 == p ? 0 : w + 1;
    } while (number == 0 || number == WIVAKKOL_REFUSED_PACE);
    if (number != WIVAKKOL_REFUSED_ENDED || (refused == 0 && p > 1))
        fail("not the run that was meant");
}

static double by_turns(void)
{
    uint64_t row[WIVAKKOL_TURN_ROW];
    double start = now();
    uint32_t w;

    for (w = 0; wivakkol_turn(&run, table, length, w, row) == 0; w = w + 1 == p ? 0 : w + 1)
        ;
    return now() - start;
}

static double by_paced_turns(void)
{
    uint64_t row[WIVAKKOL_TURN_ROW];
    double start = now();
    uint32_t w;

    for (w = 0; wivakkol_paced_turn(&run, &pace, table, length, w, row) == 0; w = w + 1 == p ? 0 : w + 1)
        ;
    return now() - start;
}

static double by_plain_paced_turns(void)
{
    uint64_t row[WIVAKKOL_TURN_ROW];
    double start = now();
    uint32_t w;

    for (w = 0; plain_paced_turn(plain, other.numbers, w, row) == 0; w = w + 1 == p ? 0 : w + 1)
        ;
    return now() - start;
}

static double in_paced_rounds(void)
{
    uint64_t row[WIVAKKOL_RUN_ROW];
    double start = now();

    if (wivakkol_paced_rounds(&run, &pace, table, length, UINT32_MAX, row) != 0 || row[WIVAKKOL_SAID] != WIVAKKOL_SAID_FINISHED || row[WIVAKKOL_TAKEN] != turns)
        fail("not the same run in rounds");
    return now() - start;
}

/* A worker that asks again and again after a round and one turn of its own. */
static double refused_calls(uint64_t calls)
{
    uint64_t row[WIVAKKOL_TURN_ROW], i;
    double start;
    uint32_t w;

    for (w = 0; w <= p; w++)
        if (wivakkol_paced_turn(&run, &pace, table, length, w % p, row) != 0)
            fail("refused");
    start = now();
    for (i = 0; i < calls; i++)
        if (wivakkol_paced_turn(&run, &pace, table, length, 0, row) != WIVAKKOL_REFUSED_PACE)
            fail("not refused");
    return now() - start;
}

int main(int argc, char **argv)
{
    double of[5] = { 1e18, 1e18, 1e18, 1e18, 1e18 };
    int n, i;

    n = given(argc, argv);
    if (p < 2)
        fail("one worker");
    compare();
    begin_paced();
    by_turns();
    turns = run.sums[WIVAKKOL_AT_TURNS];
    for (; n > 0; n--) {
        begin_paced();
        least(&of[0], by_turns());
        begin_paced();
        least(&of[1], by_paced_turns());
        if (run.sums[WIVAKKOL_AT_TURNS] != turns)
            fail("not the same run");
        least(&of[2], by_plain_paced_turns());
        begin_paced();
        least(&of[3], in_paced_rounds());
        begin_paced();
        least(&of[4], refused_calls(turns));
    }
    printf("%" PRIu64, turns);
    for (i = 0; i < 5; i++)
        printf(" %.2f", of[i] / (double)turns);
    printf("\n");
    return 0;
}
