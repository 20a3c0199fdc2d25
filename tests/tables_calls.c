/* Makes calls on whole tables, as records on standard input ask for them, and writes what each answers and leaves (tests/tables_calls.py). A record is 0 for wivakkol_join, 1 for
 * wivakkol_canonical or 2 for wivakkol_compare, the length of the table or tables, these, and then the count of the lengths and the lengths, or the length of the second table and that; all
 * numbers have 4 bytes. An answer is the number returned and the bytes of stack taken, 4 bytes each, a row of 7, which holds 9s before the call, the two buffers and the working memory, which
 * hold noise. */
#define _GNU_SOURCE
#include "calls.h"
#include "wivakkol_tables.h"

static wivakkol_tables_work work;
static uint8_t tables[1 << 20], second[1 << 20], a[WIVAKKOL_TABLE_MOST], b[WIVAKKOL_TABLE_MOST];
static uint32_t lengths[64], call, answer;
static size_t length, parts, second_length;
static uint64_t row[WIVAKKOL_JOIN_ROW];

static size_t bytes(uint8_t *to, size_t most)
{
    size_t n = number();

    if (n > most || fread(to, 1, n, stdin) != n)
        fail("a record ends too early");
    return n;
}

static void make(void)
{
    if (call == 0)
        answer = wivakkol_join(&work, tables, length, lengths, parts, a, row);
    else if (call == 1)
        answer = wivakkol_canonical(&work, tables, length, a, row);
    else
        answer = wivakkol_compare(&work, tables, length, second, second_length, a, b, row);
}

static void read_rest(void)
{
    size_t i;

    length = bytes(tables, sizeof tables);
    if (call == 0) {
        if ((parts = number()) > 64)
            fail("too many lengths");
        for (i = 0; i < parts; i++)
            lengths[i] = number();
    } else if (call == 2) {
        second_length = bytes(second, sizeof second);
    }
}

int main(void)
{
    int first;

    make_stack();
    while ((first = getchar()) != EOF) {
        uint32_t deep;
        size_t i;

        ungetc(first, stdin);
        call = number();
        read_rest();
        for (i = 0; i < WIVAKKOL_JOIN_ROW; i++)
            row[i] = 9;
        memset(&work, 0x5a, sizeof work);
        memset(a, 0x77, sizeof a);
        memset(b, 0x77, sizeof b);
        deep = (uint32_t)(touched = on_stack(make));
        fwrite(&answer, 4, 1, stdout);
        fwrite(&deep, 4, 1, stdout);
        fwrite(row, sizeof row, 1, stdout);
        fwrite(a, sizeof a, 1, stdout);
        fwrite(b, sizeof b, 1, stdout);
        fwrite(&work, sizeof work, 1, stdout);
        fflush(stdout);
    }
    return 0;
}
