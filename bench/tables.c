/* Makes calls on the tables of an input of jointables, N times each by the calls of wivakkol_tables.h and by plain C (plain.h), one after the other: with the word `forms` the canonical form of
 * the first and its comparison with the second, with the word `join` all of them joined. Prints the least processor time of each call and of plain C's, in nanoseconds. Before that it compares
 * what the two give, row and bytes. For bench/tables.py; the arguments are N and the word. */
#define _POSIX_C_SOURCE 199309L
#include <stdio.h>
#include <stdlib.h>
#include <string.h>
#include <time.h>

#include "plain.h"
#include "wivakkol_tables.h"

#define MOST_PARTS 16

static uint8_t input[1 + MOST_PARTS * (4 + WIVAKKOL_TABLE_MOST)];
static uint8_t a[WIVAKKOL_TABLE_MOST], b[WIVAKKOL_TABLE_MOST], c[WIVAKKOL_TABLE_MOST], d[WIVAKKOL_TABLE_MOST];
static uint64_t row[WIVAKKOL_JOIN_ROW], plain_row[WIVAKKOL_JOIN_ROW];
static wivakkol_tables_work work;
static const uint8_t *tables;
static uint32_t lengths[MOST_PARTS];
static size_t parts, length;

static double now(void)
{
    struct timespec t;

    clock_gettime(CLOCK_PROCESS_CPUTIME_ID, &t);
    return 1e9 * (double)t.tv_sec + (double)t.tv_nsec;
}

static void fail(const char *what)
{
    fprintf(stderr, "tables: %s\n", what);
    exit(1);
}

static void canonical(void)
{
    if (wivakkol_canonical(&work, tables, lengths[0], a, row) != 0)
        fail("refused");
}

static void canonical_plain(void)
{
    if (plain_canonical(tables, lengths[0], c, plain_row) != 0)
        fail("refused by plain C");
}

static void compare(void)
{
    if (wivakkol_compare(&work, tables, lengths[0], tables + lengths[0], lengths[1], a, b, row) != 0)
        fail("refused");
}

static void compare_plain(void)
{
    if (plain_compare(tables, lengths[0], tables + lengths[0], lengths[1], c, d, plain_row) != 0)
        fail("refused by plain C");
}

static void join(void)
{
    if (wivakkol_join(&work, tables, length, lengths, parts, a, row) != 0)
        fail("refused");
}

static void join_plain(void)
{
    if (plain_join(tables, length, lengths, parts, c, plain_row) != 0)
        fail("refused by plain C");
}

/* Each call with plain C's after it. */
static void (*const FORMS[])(void) = { canonical, canonical_plain, compare, compare_plain };
static void (*const JOIN[])(void) = { join, join_plain };

static void read_input(void)
{
    size_t n = fread(input, 1, sizeof input, stdin), i;

    parts = n > 0 ? input[0] : 0;
    if (parts < 1 || MOST_PARTS < parts || n < 1 + 4 * parts)
        fail("no tables");
    for (i = 0; i < parts; i++)
        lengths[i] = input[1 + 4 * i] | (uint32_t)input[2 + 4 * i] << 8 | (uint32_t)input[3 + 4 * i] << 16;
    tables = input + 1 + 4 * parts;
    length = n - 1 - 4 * parts;
}

static void agree(void (*call)(void), void (*plain)(void))
{
    call();
    plain();
    if (memcmp(row, plain_row, sizeof row) != 0 || memcmp(a, c, sizeof a) != 0 || memcmp(b, d, sizeof b) != 0)
        fail("plain C says something else");
}

int main(int argc, char **argv)
{
    int joins = argc == 3 && strcmp(argv[2], "join") == 0, count = joins ? 2 : 4, n, i;
    void (*const *calls)(void) = joins ? JOIN : FORMS;
    double least[4] = { 1e18, 1e18, 1e18, 1e18 };

    if (argc != 3)
        return 2;
    read_input();
    if (!joins && parts != 2)
        fail("no two tables");
    for (i = 0; i < count; i += 2)
        agree(calls[i], calls[i + 1]);
    for (n = atoi(argv[1]); n > 0; n--)
        for (i = 0; i < count; i++) {
            double start = now(), taken;

            calls[i]();
            taken = now() - start;
            least[i] = taken < least[i] ? taken : least[i];
        }
    for (i = 0; i < count; i++)
        printf("%.0f%c", least[i], i + 1 < count ? ' ' : '\n');
    return 0;
}
