/* Takes paced steps on a run and its pace, and writes what each call answers and leaves; last, the most stack that a paced turn, list and rounds took, in bytes, their arguments there and the return
 * address included: see pace_calls.py. */
#define _GNU_SOURCE
#include "calls.h"
#include "wivakkol_pace.h"

static wivakkol_run run;
static wivakkol_work work;
static wivakkol_pace pace;
static uint8_t table[100000], order[100000], filled[WIVAKKOL_TABLE_MOST];
static size_t n, k;
static uint32_t x, y, answer, most[3];
static uint64_t row[5];

static size_t bytes(void *to)
{
    size_t size = number();
    if (fread(to, 1, size, stdin) != size) exit(1);
    return size;
}

static void turn(void) { answer = wivakkol_paced_turn(&run, &pace, table, n, x, row); }
static void list(void) { answer = wivakkol_paced_list(&run, &pace, table, n, order, k, row); }
static void rounds(void) { answer = wivakkol_paced_rounds(&run, &pace, table, n, x, row); }

static uint32_t no_turn(const uint8_t *table, size_t length, uint32_t w, uint8_t *bytes, uint16_t *words, uint32_t *numbers, uint64_t *sums, uint32_t *pace, uint64_t *row)
{
    (void)table, (void)length, (void)w, (void)bytes, (void)words, (void)numbers, (void)sums, (void)pace, (void)row;
    return 0;
}

static uint32_t (*volatile empty)(const uint8_t *, size_t, uint32_t, uint8_t *, uint16_t *, uint32_t *, uint64_t *, uint32_t *, uint64_t *) = no_turn;

static void nothing(void) { answer = empty(table, n, x, run.bytes, run.words, run.numbers, run.sums, pace.numbers, row); }

/* What the C function that makes a call has on the stack: all that a call of nothing touches, but for its return address and its three arguments that no register takes. */
static size_t around(void)
{
    touched = on_stack(nothing);
    return touched - 4 * 8;
}

static void make(void (*f)(void), uint32_t *most)
{
    touched = on_stack(f);
    if (*most < touched) *most = (uint32_t)touched;
}

int main(void)
{
    int call;
    make_stack();
    while ((call = getchar()) != EOF) {
        answer = 0;
        memset(row, 0xa5, sizeof row);
        if (call == 'm') { x = number(); bytes((uint8_t *)&run + x); continue; }
        if (call == 'P') { x = number(); bytes((uint8_t *)&pace + x); continue; }
        if (call == 't') { n = bytes(table); continue; }
        if (call == 'b') {
            x = number(), y = number();
            answer = wivakkol_begin(&run, &work, table, n, x, y, filled, sizeof filled, row);
            memset(row, 0, sizeof row);
        } else if (call == 's') {
            x = number(), y = number();
            answer = wivakkol_pace_begin(&pace, x, y);
        } else if (call == 'o') {
            x = number();
            answer = wivakkol_took(&pace, x);
        } else if (call == 'w') {
            x = number();
            make(turn, &most[0]);
        } else if (call == 'l') {
            k = bytes(order);
            make(list, &most[1]);
        } else if (call == 'r') {
            x = number();
            make(rounds, &most[2]);
        } else
            return 1;
        put(&answer, 4);
        put(row, sizeof row);
        for (x = 0; x < 18; x++) {
            y = wivakkol_may(&pace, x);
            put(&y, 4);
        }
        y = wivakkol_kept(&pace);
        put(&y, 4);
        put(&run, sizeof run);
        put(&pace, sizeof pace);
    }
    for (x = 0; x < 3; x++) {
        y = most[x] > 0 ? most[x] - (uint32_t)around() : 0; /* 0 of a call that was not made */
        put(&y, 4);
    }
    return 0;
}
