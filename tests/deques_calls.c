/* The calls of wivakkol_deques.h on cases from standard input, for tests/deques_calls.py; all numbers are little-endian. The first line has the size of a wivakkol_run and where its blocks stand. A
 * case is its length (4) and steps on one run's memory:
 *   t LENGTH TABLE     the table from now on
 *   m AT LENGTH BYTES  these bytes stand in the run's memory
 *   b P K ROOM         wivakkol_begin, with so much room for the filled-out table; where that is filled out, it is the table from now on
 *   o                  wivakkol_deque_open
 *   w W C              wivakkol_deque_turn
 *   l LENGTH ORDER     wivakkol_deque_list
 *   x P K C ROOM       wivakkol_deque_limit, with so much room for the filled-out table
 * with numbers of 4 bytes; each of the last five is answered by the number (4) and the row. Then come, of begin and limit, the bytes of the room, which held the paint; of begin, open and limit, a
 * byte for each field of the working memory, which holds noise before the call: 0, it is all 0; 1, it is as it was; 2, neither. Last comes the whole of the run's memory.
 *
 * A last line has the most stack that each call took, in bytes, its arguments there and its return address included. The table, the order and the room for the filled-out table each end where the
 * readable memory ends, the first two in pages that may not be written; each row, the run and the working memory stand between numbers that must stay, and a row holds anything before the call. */
#define _GNU_SOURCE
#include "calls.h"
#include "wivakkol_deques.h"

#define MOST_ROW WIVAKKOL_DEQUE_TURN_ROW
#define CALLS 5

static uint8_t *memory, *orders, *fillings, *steps;

static struct {
    const uint8_t *table, *order;
    uint8_t *filled;
    uint32_t length, order_length, p, quota, w, c, number, room;
    uint64_t row[MOST_ROW + 2];
} call;

static struct {
    uint64_t below[FENCES];
    wivakkol_run run;
    uint64_t between[FENCES];
    wivakkol_work work;
    uint64_t above[FENCES];
    wivakkol_limit_work limits;
    uint64_t beyond[FENCES];
} lent;

static wivakkol_work before;
static wivakkol_limit_work limits_before;

static void begin(void)
{
    call.number = wivakkol_begin(&lent.run, &lent.work, call.table, call.length, call.p, call.quota, call.filled, call.room, call.row + 1);
}

static void open_run(void)
{
    call.number = wivakkol_deque_open(&lent.run, &lent.work, call.table, call.length, call.row + 1);
}

static void turn(void)
{
    call.number = wivakkol_deque_turn(&lent.run, call.table, call.length, call.w, call.c, call.row + 1);
}

static void list(void)
{
    call.number = wivakkol_deque_list(&lent.run, call.table, call.length, call.order, call.order_length, call.row + 1);
}

static void limit(void)
{
    call.number = wivakkol_deque_limit(&lent.limits, call.table, call.length, call.p, call.quota, call.c, call.filled, call.room, call.row + 1);
}

/* A function that does nothing, with the parameters of wivakkol_deque_turn_on; called as that is, its address not known. */
static uint32_t no_turn(const uint8_t *table, size_t length, uint32_t w, uint32_t c, uint8_t *bytes, uint16_t *words, uint32_t *numbers, uint64_t *sums,
                        uint64_t *row)
{
    (void)table, (void)length, (void)w, (void)c, (void)bytes, (void)words, (void)numbers, (void)sums, (void)row;
    return 0;
}

static uint32_t (*volatile empty)(const uint8_t *, size_t, uint32_t, uint32_t, uint8_t *, uint16_t *, uint32_t *, uint64_t *, uint64_t *) = no_turn;

static void call_nothing(void)
{
    call.number = empty(call.table, call.length, call.w, call.c, lent.run.bytes, lent.run.words, lent.run.numbers, lent.run.sums, call.row + 1);
}

/* What the C function that makes a call has on the stack: all that a call of nothing touches, but for its return address and its three arguments that no register takes. */
static size_t around(void)
{
    touched = on_stack(call_nothing);
    return touched - 4 * 8;
}

/* Makes a call, and looks at the fences and at the stack. */
static void make(void (*f)(void), size_t entries, size_t *most)
{
    size_t i;

    for (i = 0; i < MOST_ROW + 2; i++)
        call.row[i] = FENCE;
    touched = on_stack(f);
    if (*most < touched)
        *most = touched;
    if (call.row[0] != FENCE)
        fail("written below the row");
    for (i = entries + 1; i < MOST_ROW + 2; i++)
        if (call.row[i] != FENCE)
            fail("written above the row");
    for (i = 0; i < FENCES; i++)
        if (lent.below[i] != FENCE || lent.between[i] != FENCE || lent.above[i] != FENCE || lent.beyond[i] != FENCE)
            fail("written outside the run or the working memory");
}

static void stir(void)
{
    noise(&lent.work, sizeof lent.work);
    before = lent.work;
}

static uint8_t *place_table(uint32_t length)
{
    uint8_t *at = place(memory, length);

    call.table = at;
    call.length = length;
    return at;
}

static void put_answer(size_t entries)
{
    put(&call.number, sizeof call.number);
    put(call.row + 1, entries * sizeof call.row[0]);
}

#define LEFT(field) left(lent.work.field, before.field, sizeof lent.work.field)

static void put_work(void)
{
    uint8_t fields[] = {LEFT(rises), LEFT(falls), LEFT(forks), LEFT(parents), LEFT(list)};

    put(fields, sizeof fields);
}

static void put_run(void)
{
    put(&lent.run, sizeof lent.run);
}

/* A call with so much room for the filled-out table. What is below the room stays as it was. */
static void make_in_room(void (*f)(void), size_t entries, uint32_t bytes, size_t *most)
{
    size_t i;

    if (bytes > ROOM - FENCES)
        fail("too much room");
    call.filled = place(fillings, bytes);
    call.room = bytes;
    memset(fillings, PAINT, ROOM);
    make(f, entries, most);
    for (i = 1; i <= FENCES; i++)
        if (call.filled[-(ptrdiff_t)i] != PAINT)
            fail("written below the room");
    put_answer(entries);
    put(call.filled, bytes);
}

#define LIMIT_LEFT(field) left(lent.limits.field, limits_before.field, sizeof lent.limits.field)

static void limit_step(const uint8_t *s, size_t *most)
{
    uint8_t fields[6];

    call.p = (uint32_t)little(s + 1, 4);
    call.quota = (uint32_t)little(s + 5, 4);
    call.c = (uint32_t)little(s + 9, 4);
    noise(&lent.limits, sizeof lent.limits);
    limits_before = lent.limits;
    make_in_room(limit, WIVAKKOL_DEQUE_LIMIT_ROW, (uint32_t)little(s + 13, 4), most);
    fields[0] = LIMIT_LEFT(rises), fields[1] = LIMIT_LEFT(falls), fields[2] = LIMIT_LEFT(serials);
    fields[3] = LIMIT_LEFT(depths), fields[4] = LIMIT_LEFT(peaks), fields[5] = LIMIT_LEFT(rows);
    put(fields, sizeof fields);
    put_run();
}

static void begin_step(uint32_t bytes, size_t *most)
{
    uint64_t size;

    stir();
    make_in_room(begin, WIVAKKOL_BEGIN_ROW, bytes, most);
    put_work();
    put_run();
    size = call.row[1 + WIVAKKOL_FILLED];
    if (call.number == 0 && size != 0) {
        memcpy(place_table((uint32_t)size), call.filled, (size_t)size);
        close_room(memory);
    }
}

/* A call that moves a run, or the limit; how many bytes its step has. */
static size_t move_step(const uint8_t *s, size_t *most)
{
    uint32_t x = (uint32_t)little(s + 1, 4);
    uint8_t *at;

    switch (s[0]) {
    case 'w':
        call.w = x;
        call.c = (uint32_t)little(s + 5, 4);
        make(turn, WIVAKKOL_DEQUE_TURN_ROW, &most[2]);
        put_answer(WIVAKKOL_DEQUE_TURN_ROW);
        put_run();
        return 9;
    case 'l':
        at = place(orders, x);
        memcpy(at, s + 5, x);
        close_room(orders);
        call.order = at;
        call.order_length = x;
        make(list, WIVAKKOL_DEQUE_LIST_ROW, &most[3]);
        put_answer(WIVAKKOL_DEQUE_LIST_ROW);
        put_run();
        return 5 + x;
    case 'x':
        limit_step(s, &most[4]);
        return 17;
    }
    fail("no such step");
    return 0;
}

/* One step; how many bytes it has. */
static size_t step(const uint8_t *s, size_t *most)
{
    uint32_t x = (uint32_t)little(s + 1, 4), y = (uint32_t)little(s + 5, 4);

    switch (s[0]) {
    case 't':
        memcpy(place_table(x), s + 5, x);
        close_room(memory);
        return 5 + x;
    case 'm':
        if (x > sizeof lent.run || y > sizeof lent.run - x)
            fail("not in the run's memory");
        memcpy((uint8_t *)&lent.run + x, s + 9, y);
        return 9 + y;
    case 'b':
        call.p = x;
        call.quota = y;
        begin_step((uint32_t)little(s + 9, 4), &most[0]);
        return 13;
    case 'o':
        stir();
        make(open_run, WIVAKKOL_DEQUE_OPEN_ROW, &most[1]);
        put_answer(WIVAKKOL_DEQUE_OPEN_ROW);
        put_work();
        put_run();
        return 1;
    }
    return move_step(s, most);
}

#define BLOCK(name) printf(" " #name " %zu %zu %zu", offsetof(wivakkol_run, name), sizeof lent.run.name[0], sizeof lent.run.name / sizeof lent.run.name[0])

static void print_layout(void)
{
    printf("size %zu", sizeof(wivakkol_run));
    BLOCK(sums), BLOCK(numbers), BLOCK(words), BLOCK(bytes);
    printf("\n");
    fflush(stdout);
}

int main(void)
{
    uint8_t front[4];
    size_t length, at, i, most[CALLS] = {0};

    memory = room();
    orders = room();
    fillings = room();
    stack = malloc(STACK);
    steps = malloc(ROOM + 13); /* the numbers of a step are read whether or not it has any */
    if (stack == NULL || steps == NULL)
        fail("no memory");
    for (i = 0; i < FENCES; i++)
        lent.below[i] = lent.between[i] = lent.above[i] = lent.beyond[i] = FENCE;
    print_layout();
    while (got(front, sizeof front)) {
        length = (size_t)little(front, 4);
        if (length > ROOM || !got(steps, length))
            fail("a case above the room for it, or cut off");
        for (at = 0; at < length; at += step(steps + at, most))
            ;
        fflush(stdout);
    }
    printf("stack");
    for (i = 0; i < CALLS; i++)
        printf(" %zu", most[i] > 0 ? most[i] - around() : 0); /* 0 of a call that was not made */
    printf("\n");
    return 0;
}
