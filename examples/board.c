/* Reads a table on standard input and prints its facts; with the arguments p, b and M also the largest quota for a board with M units of memory by the useful limit, that limit, and a run with that
 * quota to its end, p workers in rounds: its turns and the most memory held. With b 0 the workers may take their turns in any order. Where no quota fits, what the least needs; or the check that refuses. README.md ("From C") has how to build it. */
#include <errno.h>
#include <inttypes.h>
#include <stdio.h>
#include <stdlib.h>

#include "wivakkol.h"

/* One byte more than the longest table, so that a longer input is refused for its length. */
static uint8_t table[WIVAKKOL_TABLE_MOST + 1];
static uint8_t filled[WIVAKKOL_TABLE_MOST];
static wivakkol_run run;
static wivakkol_work work;
static wivakkol_tables_work tables_work;
static wivakkol_limit_work limit_work;

static int refused(uint32_t number, const uint64_t *row)
{
    printf("refused %" PRIu32 " %" PRIu64 "\n", number, row[WIVAKKOL_PLACE]);
    return 1;
}

/* A decimal number up to `most`; ends the program where the argument is none. */
static uint64_t number(const char *text, uint64_t most)
{
    unsigned long long x;
    char *end;

    errno = 0;
    x = strtoull(text, &end, 10);
    if (*text < '0' || '9' < *text || *end != '\0' || errno != 0 || most < x) {
        fprintf(stderr, "board: not a number up to %" PRIu64 ": %s\n", most, text);
        exit(2);
    }
    return x;
}

int main(int argc, char **argv)
{
    uint64_t facts[WIVAKKOL_CHECK_ROW], fit[WIVAKKOL_FIT_ROW], begun[WIVAKKOL_BEGIN_ROW], end[WIVAKKOL_RUN_ROW];
    const uint8_t *running = table;
    uint32_t answer, p;
    size_t length;

    if (argc != 1 && argc != 4) {
        fprintf(stderr, "usage: board [p b M] < TABLE\n");
        return 2;
    }
    length = fread(table, 1, sizeof table, stdin);
    if ((answer = wivakkol_check(&tables_work, table, length, facts)) != 0)
        return refused(answer, facts);
    printf("table %" PRIu64 " %" PRIu64 " serial %" PRIu64 " depth %" PRIu64 " nested %" PRIu64 "\n", facts[WIVAKKOL_THREADS],
           facts[WIVAKKOL_ACTIONS], facts[WIVAKKOL_PEAK], facts[WIVAKKOL_DEPTH], facts[WIVAKKOL_NESTED]);
    if (argc == 1)
        return 0;
    p = (uint32_t)number(argv[1], UINT32_MAX);
    answer = wivakkol_fit(&limit_work, table, length, p, (uint32_t)number(argv[2], UINT32_MAX), number(argv[3], UINT64_MAX), fit);
    if (answer != 0)
        return refused(answer, fit);
    if (fit[WIVAKKOL_FIT_FITS] == 0) {
        printf("none memory %" PRIu64 " quota %" PRIu64 "\n", fit[WIVAKKOL_FIT_MEMORY], fit[WIVAKKOL_FIT_QUOTA]);
        return 1;
    }
    printf("quota %" PRIu64 " memory %" PRIu64 "\n", fit[WIVAKKOL_FIT_QUOTA], fit[WIVAKKOL_FIT_MEMORY]);

    if ((answer = wivakkol_begin(&run, &work, table, length, p, (uint32_t)fit[WIVAKKOL_FIT_QUOTA], filled, sizeof filled, begun)) != 0)
        return refused(answer, begun);
    /* With a smaller quota than wivakkol_fit gives, the filled-out table may be the one that runs. */
    if (begun[WIVAKKOL_FILLED] != 0) {
        running = filled;
        length = (size_t)begun[WIVAKKOL_FILLED];
    }
    /* A board that does the actions takes single turns: where wivakkol_turn says done, its row has the action. */
    if ((answer = wivakkol_rounds(&run, running, length, UINT32_MAX, end)) != 0)
        return refused(answer, end);
    printf("%s %" PRIu64 " peak %" PRIu64 "\n", end[WIVAKKOL_SAID] == WIVAKKOL_SAID_FINISHED ? "done" : "open", end[WIVAKKOL_TAKEN],
           run.sums[WIVAKKOL_AT_HIGHEST]);
    return 0;
}
