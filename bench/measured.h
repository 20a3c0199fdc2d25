/* What the programs share that measure runs from C against plain C (bench/board.c, bench/deques.c, bench/pace.c): the table, the run and that of plain C, how they begin, and processor time. Each
 * is one file, so that all is here. */
#ifndef MEASURED_H
#define MEASURED_H

#ifndef _POSIX_C_SOURCE
#error "_POSIX_C_SOURCE comes before all else"
#endif
#include <inttypes.h>
#include <stdio.h>
#include <stdlib.h>
#include <string.h>
#include <time.h>

#include "plain.h"
#include "wivakkol.h"

static uint8_t table[WIVAKKOL_TABLE_MOST], filled[WIVAKKOL_TABLE_MOST];
static size_t length;
static uint32_t p, quota;
static wivakkol_run run;
static wivakkol_work work;
static plain_run *plain;
static uint64_t turns;

static double now(void)
{
    struct timespec t;

    clock_gettime(CLOCK_PROCESS_CPUTIME_ID, &t);
    return 1e9 * (double)t.tv_sec + (double)t.tv_nsec;
}

static void least(double *of, double x)
{
    *of = x < *of ? x : *of;
}

static void fail(const char *what)
{
    fprintf(stderr, "bench: %s\n", what);
    exit(1);
}

/* The table from standard input, p and K from the arguments; how many runs are asked for. */
static int given(int argc, char **argv)
{
    if (argc != 4)
        fail("the arguments are p, K and the runs");
    length = fread(table, 1, sizeof table, stdin);
    p = (uint32_t)strtoul(argv[1], NULL, 10);
    quota = (uint32_t)strtoul(argv[2], NULL, 10);
    if ((plain = malloc(plain_size())) == NULL)
        fail("no memory");
    return atoi(argv[3]);
}

static void begin(void)
{
    uint64_t row[WIVAKKOL_BEGIN_ROW];

    if (wivakkol_begin(&run, &work, table, length, p, quota, filled, sizeof filled, row) != 0 || row[WIVAKKOL_FILLED] != 0)
        fail("refused, or an alloc above K");
}

static void begin_plain(void)
{
    if (plain_begin(plain, table, length, p, quota) != 0)
        fail("refused by plain C");
}

#endif
