/* The builder of wivakkol_build.h on cases from standard input, for tests/build.py; all numbers are little-endian and have 4 bytes.
 *
 * A case is the room, how many steps there are and the steps, each of three numbers: what (0 fork, 1 join, 2 join_all, 3 work, 4 alloc, 5 free), the thread and the amount. Its line: the answer of
 * wivakkol_build; for each step its answer and, of a fork, the child; the first fault, wivakkol_built; of what was built wivakkol_check's number and place, and wivakkol_build_step's thread and step of
 * that place; and the table's bytes. The room ends where the readable memory ends, held the paint before, and what is below it must stay; so must what is behind the table. */
#define _GNU_SOURCE
#include <inttypes.h>

#include "calls.h"
#include "wivakkol_build.h"

static wivakkol_tables_work work;

static void step(wivakkol_builder *b, uint32_t what, uint32_t thread, uint32_t amount)
{
    uint32_t child;

    switch (what) {
    case 0:
        printf("%" PRIu32, wivakkol_build_fork(b, thread, &child));
        printf(" %" PRIu32 " ", child);
        return;
    case 1: printf("%" PRIu32 " ", wivakkol_build_join(b, thread)); return;
    case 2: printf("%" PRIu32 " ", wivakkol_build_join_all(b, thread)); return;
    case 3: printf("%" PRIu32 " ", wivakkol_build_work(b, thread)); return;
    case 4: printf("%" PRIu32 " ", wivakkol_build_alloc(b, thread, amount)); return;
    case 5: printf("%" PRIu32 " ", wivakkol_build_free(b, thread, amount)); return;
    }
    fail("no such step");
}

static void told(const wivakkol_builder *b, uint32_t length)
{
    uint64_t row[WIVAKKOL_CHECK_ROW];
    uint32_t number, thread, steps;
    size_t i, whole;

    printf("%" PRIu32 " %zu ", b->fault, wivakkol_built(b));
    whole = b->room == 0 ? 0 : 4 + 4 * ((size_t)wivakkol_build_threads_(b) + wivakkol_build_actions_(b));
    number = wivakkol_check(&work, b->bytes, whole, row);
    steps = wivakkol_build_step(b, row[WIVAKKOL_PLACE], &thread);
    printf("%" PRIu32 " %" PRIu64 " %" PRIu32 " %" PRIu32 " ", number, row[WIVAKKOL_PLACE], thread, steps);
    for (i = 0; i < whole; i++)
        printf("%02x", b->bytes[i]);
    for (; i < length; i++)
        if (b->bytes[i] != PAINT && whole == 0)
            fail("written where nothing is built");
    printf("\n");
}

int main(void)
{
    uint8_t front[4], *made = room();
    wivakkol_builder b;
    uint32_t length, steps, what, thread;
    size_t i;

    while (got(front, 4)) {
        length = (uint32_t)little(front, 4);
        if (length > ROOM - FENCES)
            fail("too much room");
        memset(made, PAINT, ROOM);
        steps = number();
        printf("%" PRIu32 " ", wivakkol_build(&b, made + ROOM - length, length));
        for (; steps > 0; steps--) {
            what = number();
            thread = number();
            step(&b, what, thread, number());
        }
        told(&b, length);
        for (i = 1; i <= FENCES; i++)
            if (made[ROOM - length - i] != PAINT)
                fail("written below the room");
    }
    return 0;
}
