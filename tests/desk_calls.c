/* Makes the desk's calls, as records on standard input ask for them, and writes what each answers and leaves (tests/desk_calls.py). A record is 0 for wivakkol_assemble or 1 for
 * wivakkol_disassemble, the length of the text or table, this, and the room lent for the answer; all numbers have 4 bytes. An answer is the number returned and the bytes of stack taken, 4 bytes
 * each, a row of 6, which holds 9s before the call, the buffer with 64 bytes beyond it, and the working memory, which hold noise. */
#define _GNU_SOURCE
#include "calls.h"
#include "wivakkol_desk.h"

#define BEYOND 64

static wivakkol_tables_work work;
static uint8_t given[1 << 20], out[WIVAKKOL_TEXT_MOST + BEYOND];
static uint32_t call, answer;
static size_t length, space;
static uint64_t row[WIVAKKOL_ASSEMBLE_ROW];

static void make(void)
{
    if (call == 0)
        answer = wivakkol_assemble(&work, given, length, out, space, row);
    else
        answer = wivakkol_disassemble(&work, given, length, out, space, row);
}

static void read_rest(void)
{
    length = number();
    if (length > sizeof given || fread(given, 1, length, stdin) != length)
        fail("a record ends too early");
    if ((space = number()) > WIVAKKOL_TEXT_MOST)
        fail("more room than there is");
}

int main(void)
{
    int first;

    make_stack();
    while ((first = getchar()) != EOF) {
        uint32_t deep;
        size_t i;

        ungetc(first, stdin);
        call = number();
        read_rest();
        for (i = 0; i < WIVAKKOL_ASSEMBLE_ROW; i++)
            row[i] = 9;
        memset(&work, 0x5a, sizeof work);
        memset(out, 0x77, sizeof out);
        deep = (uint32_t)(touched = on_stack(make));
        fwrite(&answer, 4, 1, stdout);
        fwrite(&deep, 4, 1, stdout);
        fwrite(row, sizeof row, 1, stdout);
        fwrite(out, 1, space + BEYOND, stdout);
        fwrite(&work, sizeof work, 1, stdout);
        fflush(stdout);
    }
    return 0;
}
