/* Runs a table on standard input to its end by DFDeques, N times each by wivakkol_deque_turn and in one call of wivakkol_deque_list, and in the same two ways by plain C (plain.h), one after the
 * other in every of the N. The workers come in rounds, and each choice is drawn from the turn's number. Prints the turns of a run, how many of them are steals and how many idle, and of all
 * runs the least processor time of wivakkol_deque_open in the middle of a run and of a turn in each of the four ways, in nanoseconds. Before that it compares the two, turn by turn. For
 * bench/deques.py; arguments p, K and N. */
#define _POSIX_C_SOURCE 199309L
#include "measured.h"
#include "wivakkol_deques.h"

#define MOST (1 << 21) /* bytes of an order */

static uint8_t order[MOST];
static uint64_t steals, idle;

/* The order of a whole run, with the same numbers and rows from both. */
static void compare(void)
{
    uint64_t one[WIVAKKOL_DEQUE_TURN_ROW], other[WIVAKKOL_DEQUE_TURN_ROW], x = 1;
    uint32_t number, by_plain;

    begin();
    begin_plain();
    for (turns = 0;; turns++) {
        uint8_t *pair = order + 2 * turns;
        int held;

        if (2 * turns + 2 > MOST)
            fail("too many turns");
        x = x * UINT64_C(6364136223846793005) + 1442695040888963407;
        pair[0] = (uint8_t)(turns % p);
        pair[1] = (uint8_t)((x >> 33) % p);
        held = run.bytes[WIVAKKOL_AT_HOLDS + pair[0]];
        number = wivakkol_deque_turn(&run, table, length, pair[0], pair[1], one);
        by_plain = plain_deque_turn(plain, pair[0], pair[1], other);
        if (number != by_plain || memcmp(one, other, sizeof one) != 0)
            fail("plain C says something else");
        if (number != 0)
            break;
        idle += one[WIVAKKOL_SAID] == WIVAKKOL_SAID_IDLE;
        steals += !held && one[WIVAKKOL_SAID] != WIVAKKOL_SAID_IDLE;
    }
}

/* Opening a run after half of its turns: its processor time. */
static double open_run(void)
{
    uint64_t row[WIVAKKOL_DEQUE_LIST_ROW], opened[WIVAKKOL_DEQUE_OPEN_ROW];
    double start;

    if (wivakkol_deque_list(&run, table, length, order, turns / 2 * 2, row) != 0)
        fail("refused");
    start = now();
    if (wivakkol_deque_open(&run, &work, table, length, opened) != 0)
        fail("not opened");
    return now() - start;
}

/* A whole run in each of the four ways: its processor time. */
static double by_turns(void)
{
    uint64_t row[WIVAKKOL_DEQUE_TURN_ROW];
    double start = now();
    const uint8_t *pair;

    for (pair = order; wivakkol_deque_turn(&run, table, length, pair[0], pair[1], row) == 0; pair += 2)
        ;
    return now() - start;
}

static double by_plain_turns(void)
{
    uint64_t row[WIVAKKOL_DEQUE_TURN_ROW];
    double start = now();
    const uint8_t *pair;

    for (pair = order; plain_deque_turn(plain, pair[0], pair[1], row) == 0; pair += 2)
        ;
    return now() - start;
}

static double in_list(void)
{
    uint64_t row[WIVAKKOL_DEQUE_LIST_ROW];
    double start = now();

    if (wivakkol_deque_list(&run, table, length, order, 2 * turns, row) != 0 || row[WIVAKKOL_SAID] != WIVAKKOL_SAID_FINISHED || row[WIVAKKOL_TAKEN] != turns)
        fail("not the same run over a list");
    return now() - start;
}

static double in_plain_list(void)
{
    uint64_t row[WIVAKKOL_DEQUE_LIST_ROW];
    double start = now();

    if (plain_deque_list(plain, order, 2 * turns, row) != 0 || row[WIVAKKOL_SAID] != WIVAKKOL_SAID_FINISHED || row[WIVAKKOL_TAKEN] != turns)
        fail("not the same run over a list by plain C");
    return now() - start;
}

int main(int argc, char **argv)
{
    double of_open = 1e18, of[4] = { 1e18, 1e18, 1e18, 1e18 };
    int n, i;

    n = given(argc, argv);
    compare();
    for (; n > 0; n--) {
        begin();
        least(&of[0], by_turns());
        begin_plain();
        least(&of[1], by_plain_turns());
        begin();
        least(&of[2], in_list());
        begin_plain();
        least(&of[3], in_plain_list());
        begin();
        least(&of_open, open_run());
    }
    printf("%" PRIu64 " %" PRIu64 " %" PRIu64 " %.0f", turns, steals, idle, of_open);
    for (i = 0; i < 4; i++)
        printf(" %.2f", of[i] / (double)turns);
    printf("\n");
    return 0;
}
