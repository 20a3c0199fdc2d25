/* Builds the table of a design with so many repeats, each a thread that draws 40 units, works and gives them back; prints its facts, and the turns and the highest memory of two workers in rounds
 * with quota 40. README.md ("From C") has how such a program is built. */
#include <inttypes.h>
#include <stdio.h>
#include <stdlib.h>

#include "wivakkol_build.h"

static uint8_t table[WIVAKKOL_TABLE_MOST], filled[1];
static wivakkol_run run;
static wivakkol_work work;
static wivakkol_tables_work tables_work;

int main(int argc, char **argv)
{
    uint64_t facts[WIVAKKOL_CHECK_ROW], begun[WIVAKKOL_BEGIN_ROW], end[WIVAKKOL_RUN_ROW];
    uint32_t number, repeat;
    wivakkol_builder b;
    int i, repeats;

    repeats = argc == 2 ? atoi(argv[1]) : 0;
    if (repeats < 1) {
        fprintf(stderr, "usage: build REPEATS\n");
        return 2;
    }
    wivakkol_build(&b, table, sizeof table);
    for (i = 0; i < repeats; i++) {
        wivakkol_build_fork(&b, 0, &repeat);
        wivakkol_build_alloc(&b, repeat, 40);
        wivakkol_build_work(&b, repeat);
        wivakkol_build_free(&b, repeat, 40);
    }
    wivakkol_build_join_all(&b, 0);
    if (b.fault != 0) {
        printf("not built: %" PRIu32 "\n", b.fault);
        return 1;
    }
    if ((number = wivakkol_check(&tables_work, table, wivakkol_built(&b), facts)) != 0) {
        printf("refused %" PRIu32 ": %s\n", number, wivakkol_refusal_words(number));
        return 1;
    }
    printf("table %" PRIu64 " %" PRIu64 " serial %" PRIu64 " depth %" PRIu64 " nested %" PRIu64 "\n", facts[WIVAKKOL_THREADS], facts[WIVAKKOL_ACTIONS], facts[WIVAKKOL_PEAK],
           facts[WIVAKKOL_DEPTH], facts[WIVAKKOL_NESTED]);
    /* No alloc is above the quota, so the table as given runs, and no room is looked at. */
    number = wivakkol_begin(&run, &work, table, wivakkol_built(&b), 2, 40, filled, 0, begun);
    if (number == 0)
        number = wivakkol_rounds(&run, table, wivakkol_built(&b), UINT32_MAX, end);
    if (number != 0) {
        printf("refused %" PRIu32 ": %s\n", number, wivakkol_refusal_words(number));
        return 1;
    }
    printf("done %" PRIu64 " peak %" PRIu64 "\n", end[WIVAKKOL_TAKEN], run.sums[WIVAKKOL_AT_HIGHEST]);
    return 0;
}
