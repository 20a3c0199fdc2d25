/* Runs a table on standard input to its end in rounds, N times each by wivakkol_turn and in one call of wivakkol_rounds, and in the same two ways by plain C (plain.h), one after the
 * other in every of the N; then by wivakkol_preview and wivakkol_turn. Prints the turns of a run, and of all runs the least processor time of wivakkol_begin, of wivakkol_open in the middle
 * of a run, and of a turn in each of the five ways, in nanoseconds. Before that it compares the two, turn by turn. For bench/board.py; arguments p, K and N. */
#define _POSIX_C_SOURCE 199309L
#include "measured.h"

/* Opening a run after half of its turns: its processor time. */
static double open_run(void)
{
    uint64_t row[WIVAKKOL_RUN_ROW], opened[WIVAKKOL_OPEN_ROW];
    double start;

    if (wivakkol_rounds(&run, table, length, (uint32_t)(turns / 2), row) != 0)
        fail("refused");
    start = now();
    if (wivakkol_open(&run, &work, table, length, opened) != 0)
        fail("not opened");
    return now() - start;
}

/* The same numbers and rows from both, to the end of the run; its turns. */
static void compare(void)
{
    uint64_t one[WIVAKKOL_TURN_ROW], other[WIVAKKOL_TURN_ROW];
    uint32_t w = 0, number, by_plain;

    begin();
    begin_plain();
    do {
        number = wivakkol_turn(&run, table, length, w, one);
        by_plain = plain_turn(plain, w, other);
        if (number != by_plain || memcmp(one, other, sizeof one) != 0)
            fail("plain C says something else");
        w = w + 1 == p ? 0 : w + 1;
    } while (number == 0);
    turns = run.sums[WIVAKKOL_AT_TURNS];
}

/* A whole run in each of the five ways: its processor time. */
static double by_turns(void)
{
    uint64_t row[WIVAKKOL_TURN_ROW];
    double start = now();
    uint32_t w;

    for (w = 0; wivakkol_turn(&run, table, length, w, row) == 0; w = w + 1 == p ? 0 : w + 1)
        ;
    return now() - start;
}

static double by_plain_turns(void)
{
    uint64_t row[WIVAKKOL_TURN_ROW];
    double start = now();
    uint32_t w;

    for (w = 0; plain_turn(plain, w, row) == 0; w = w + 1 == p ? 0 : w + 1)
        ;
    return now() - start;
}

static double in_rounds(void)
{
    uint64_t row[WIVAKKOL_RUN_ROW];
    double start = now();

    if (wivakkol_rounds(&run, table, length, UINT32_MAX, row) != 0 || row[WIVAKKOL_SAID] != WIVAKKOL_SAID_FINISHED || row[WIVAKKOL_TAKEN] != turns)
        fail("not the same run in rounds");
    return now() - start;
}

static double in_plain_rounds(void)
{
    uint64_t row[WIVAKKOL_RUN_ROW];
    double start = now();

    if (plain_rounds(plain, UINT32_MAX, row) != 0 || row[WIVAKKOL_SAID] != WIVAKKOL_SAID_FINISHED || row[WIVAKKOL_TAKEN] != turns)
        fail("not the same run in rounds by plain C");
    return now() - start;
}

static double by_previews(void)
{
    uint64_t row[WIVAKKOL_TURN_ROW], shown[WIVAKKOL_PREVIEW_ROW];
    double start = now();
    uint32_t w;

    for (w = 0; wivakkol_preview(&run, table, length, w, shown) == 0; w = w + 1 == p ? 0 : w + 1)
        if (wivakkol_turn(&run, table, length, w, row) != 0)
            fail("a turn other than its preview");
    return now() - start;
}

int main(int argc, char **argv)
{
    double of_begin = 1e18, of_open = 1e18, start, of[5] = { 1e18, 1e18, 1e18, 1e18, 1e18 };
    int n, i;

    n = given(argc, argv);
    compare();
    for (; n > 0; n--) {
        start = now();
        begin();
        least(&of_begin, now() - start);
        least(&of[0], by_turns());
        begin_plain();
        least(&of[1], by_plain_turns());
        begin();
        least(&of[2], in_rounds());
        begin_plain();
        least(&of[3], in_plain_rounds());
        begin();
        least(&of[4], by_previews());
        begin();
        least(&of_open, open_run());
    }
    printf("%" PRIu64 " %.0f %.0f", turns, of_begin, of_open);
    for (i = 0; i < 5; i++)
        printf(" %.2f", of[i] / (double)turns);
    printf("\n");
    return 0;
}
