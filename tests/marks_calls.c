/* Takes steps on a run and its marks, and writes what each call answers and leaves: see marks_calls.py. */
#include <stdio.h>
#include <stdlib.h>
#include <string.h>
#include <ucontext.h>
#include "wivakkol_marks.h"

static wivakkol_run run;
static wivakkol_marks marks;
static wivakkol_marks_work work;
static uint8_t table[100000], order[100000], filled[WIVAKKOL_TABLE_MOST];
static uint64_t row[5];
static uint32_t p, quota, i, answer;
static size_t n, k;
static int call;

static uint32_t number(void)
{
    uint8_t c[4];
    if (fread(c, 1, 4, stdin) != 4) exit(1);
    return c[0] | c[1] << 8 | c[2] << 16 | (uint32_t)c[3] << 24;
}

static size_t bytes(void *to)
{
    size_t size = number();
    if (fread(to, 1, size, stdin) != size) exit(1);
    return size;
}

/* A number of bytes at a place. */
static void change(void *whole)
{
    size_t at = number();
    bytes((uint8_t *)whole + at);
}

static void put(const void *from, size_t size) { fwrite(from, 1, size, stdout); }

static void make(void)
{
    if (call == 'b')
        answer = wivakkol_begin(&run, &work.work, table, n, p, quota, filled, sizeof filled, row);
    else if (call == 'l')
        answer = wivakkol_list(&run, table, n, order, k, row);
    else if (call == 'u')
        wivakkol_unmark(&marks);
    else if (call == 's')
        answer = wivakkol_mark(&run, &marks, &work, table, n, i);
    else
        answer = wivakkol_back(&run, &marks, &work, table, n, i);
}

/* Makes the call on a painted stack; how much of it was touched, with the few words of this program's own. */
static uint32_t on_stack(void)
{
    static uint8_t stack[1 << 18];
    static ucontext_t here, there;
    size_t low = 0;
    memset(stack, 0xa5, sizeof stack);
    if (getcontext(&there) != 0) exit(1);
    there.uc_stack.ss_sp = stack;
    there.uc_stack.ss_size = sizeof stack;
    there.uc_link = &here;
    makecontext(&there, make, 0);
    if (swapcontext(&here, &there) != 0) exit(1);
    while (low < sizeof stack && stack[low] == 0xa5) low++;
    return (uint32_t)(sizeof stack - low);
}

static int zero(const void *from, size_t size)
{
    const uint8_t *byte = from;
    while (size > 0 && *byte == 0) byte++, size--;
    return size == 0;
}

/* Every array of the working memory. */
#define ZERO(part) zero(part, sizeof(part))
static uint8_t cleared(void)
{
    return ZERO(work.run.sums) && ZERO(work.run.numbers) && ZERO(work.run.words) && ZERO(work.run.bytes) && ZERO(work.amounts) && ZERO(work.next) &&
           ZERO(work.left) && ZERO(work.right) && ZERO(work.status) && ZERO(work.work.rises) && ZERO(work.work.falls) && ZERO(work.work.forks) &&
           ZERO(work.work.parents) && ZERO(work.work.list);
}

int main(void)
{
    while ((call = getchar()) != EOF) {
        uint32_t deep;
        uint8_t clear;
        if (call == 'm') { change(&run); continue; }
        if (call == 'k') { change(&marks); continue; }
        if (call == 't') { n = bytes(table); continue; }
        if (call == 'b') { p = number(); quota = number(); }
        if (call == 'l') k = bytes(order);
        if (call == 's' || call == 'g') i = number();
        answer = 0;
        memset(&work, 0x5a, sizeof work);
        deep = on_stack();
        clear = cleared();
        put(&answer, 4);
        put(&deep, 4);
        put(&clear, 1);
        put(&run, sizeof run);
        put(&marks, sizeof marks);
    }
    return 0;
}
