/* The calls of wivakkol.h on cases from standard input, for tests/board.py; all numbers are little-endian.
 *
 * Without an argument a case is the table's length, p and b (4 bytes each), M (8), K (4) and the table. For each a line: of wivakkol_check, wivakkol_quota and wivakkol_most the number, the
 * row and a number for each field of the working memory, as below; then wivakkol_kind and wivakkol_argument of the actions p, b, M, K and 0, and of the remainders of b by 64 and by 512. With the
 * argument `origins` a case is the table's length and K (4 bytes each) and the table, and its line wivakkol_origin of every (m / 256 + 1)th action below its m, of 65,535, of 2^32 and of 2^64 - 1; with the
 * argument `limits` a case has the room for the filled-out table (4) after K, and its line wivakkol_limit, with a checksum of the room, which held the paint, and wivakkol_fit. With the argument
 * `runs` the first line has the size of a wivakkol_run and where its blocks stand. A case is then its length (4) and steps on one run's memory:
 *   t LENGTH TABLE     the table from now on
 *   m AT LENGTH BYTES  these bytes stand in the run's memory
 *   b P K ROOM         wivakkol_begin, with so much room for the filled-out table; where that is filled out, it is the table from now on
 *   o                  wivakkol_open
 *   w W                wivakkol_turn
 *   l LENGTH ORDER     wivakkol_list
 *   r LIMIT            wivakkol_rounds
 *   v W                wivakkol_preview
 *   c                  wivakkol_chart
 * with numbers of 4 bytes; each of the last seven is answered by the number (4) and the row, or the line. Then come, of begin, the bytes of the room, which held the paint; of begin, open and
 * chart, a byte for each field of the working memory, which holds noise before the call: 0, it is all 0; 1, it is as it was; 2, neither. Last comes the whole of the run's memory, of preview
 * and chart such a byte for it. A case is read whole before its first step is done.
 *
 * A last line has the most stack that each call took, in bytes, its arguments there and its return address included. The table, the order and the room for the filled-out table each end where the readable memory ends, the
 * first two in pages that may not be written; each row, the line, the run and the working memory stand between numbers that must stay, and a row holds anything before the call. */
#define _GNU_SOURCE
#include <inttypes.h>

#include "calls.h"
#include "wivakkol.h"

#define MOST_ROW WIVAKKOL_PREVIEW_ROW

static uint8_t *memory, *orders, *fillings, *steps;

static struct {
    const uint8_t *table, *order;
    uint8_t *filled;
    uint32_t length, turns, p, b, quota, w, limit, number, room;
    uint64_t memory, action, row[MOST_ROW + 2];
    uint8_t line[WIVAKKOL_LINE + 2];
} call;

static struct {
    uint64_t below[FENCES];
    wivakkol_run run;
    uint64_t between[FENCES];
    wivakkol_work work;
    uint64_t above[FENCES];
    wivakkol_tables_work tables;
    uint64_t last[FENCES];
    wivakkol_limit_work limits;
    uint64_t behind[FENCES];
} lent;

static struct {
    wivakkol_run run;
    wivakkol_work work;
    wivakkol_tables_work tables;
    wivakkol_limit_work limits;
} before;

static void check(void)
{
    call.number = wivakkol_check(&lent.tables, call.table, call.length, call.row + 1);
}

static void quota(void)
{
    call.number = wivakkol_quota(&lent.tables, call.table, call.length, call.p, call.b, call.memory, call.row + 1);
}

static void most_turns(void)
{
    call.number = wivakkol_most(&lent.tables, call.table, call.length, call.p, call.quota, call.row + 1);
}

static void limit(void)
{
    call.number = wivakkol_limit(&lent.limits, call.table, call.length, call.p, call.quota, call.b, call.filled, call.room, call.row + 1);
}

static void fit(void)
{
    call.number = wivakkol_fit(&lent.limits, call.table, call.length, call.p, call.b, call.memory, call.row + 1);
}

static void origin(void)
{
    call.number = wivakkol_origin(call.table, call.length, call.quota, call.action);
}

static void begin(void)
{
    call.number = wivakkol_begin(&lent.run, &lent.work, call.table, call.length, call.p, call.quota, call.filled, call.room, call.row + 1);
}

static void open_run(void)
{
    call.number = wivakkol_open(&lent.run, &lent.work, call.table, call.length, call.row + 1);
}

static void turn(void)
{
    call.number = wivakkol_turn(&lent.run, call.table, call.length, call.w, call.row + 1);
}

static void list(void)
{
    call.number = wivakkol_list(&lent.run, call.table, call.length, call.order, call.turns, call.row + 1);
}

static void rounds(void)
{
    call.number = wivakkol_rounds(&lent.run, call.table, call.length, call.limit, call.row + 1);
}

static void preview(void)
{
    call.number = wivakkol_preview(&lent.run, call.table, call.length, call.w, call.row + 1);
}

/* A function that does nothing, with the parameters of wivakkol_turn_on; called as that is, its address not known. */
static uint32_t no_turn(const uint8_t *table, size_t length, uint32_t w, uint8_t *bytes, uint16_t *words, uint32_t *numbers, uint64_t *sums, uint64_t *row)
{
    (void)table, (void)length, (void)w, (void)bytes, (void)words, (void)numbers, (void)sums, (void)row;
    return 0;
}

static uint32_t (*volatile empty)(const uint8_t *, size_t, uint32_t, uint8_t *, uint16_t *, uint32_t *, uint64_t *, uint64_t *) = no_turn;

static void call_nothing(void)
{
    call.number = empty(call.table, call.length, call.w, lent.run.bytes, lent.run.words, lent.run.numbers, lent.run.sums, call.row + 1);
}

static void chart(void)
{
    call.number = wivakkol_chart(&lent.run, &lent.work, call.table, call.length, call.line + 1);
}

/* What the C function that makes a call has on the stack: all that a call of nothing touches, but for its return address and its two arguments that no register takes. */
static size_t around(void)
{
    touched = on_stack(call_nothing);
    return touched - 3 * 8;
}

/* Makes a call, and looks at the fences and at the stack. */
static void make(void (*f)(void), size_t entries, size_t *most)
{
    size_t i;

    for (i = 0; i < MOST_ROW + 2; i++)
        call.row[i] = FENCE;
    memset(call.line, PAINT, sizeof call.line);
    touched = on_stack(f);
    if (*most < touched)
        *most = touched;
    if (call.row[0] != FENCE)
        fail("written below the row");
    for (i = entries + 1; i < MOST_ROW + 2; i++)
        if (call.row[i] != FENCE)
            fail("written above the row");
    if (call.line[0] != PAINT || call.line[WIVAKKOL_LINE + 1] != PAINT)
        fail("written outside the line");
    for (i = 0; i < FENCES; i++)
        if (lent.below[i] != FENCE || lent.between[i] != FENCE || lent.above[i] != FENCE || lent.last[i] != FENCE || lent.behind[i] != FENCE)
            fail("written outside the run or the working memory");
}

static void stir(void)
{
    noise(&lent.work, sizeof lent.work);
    before.work = lent.work;
}

static uint8_t *place_table(uint32_t length)
{
    uint8_t *at = place(memory, length);

    call.table = at;
    call.length = length;
    return at;
}

#define PRINT_LEFT(field) printf(" %d", left(lent.tables.field, before.tables.field, sizeof lent.tables.field))

/* A call on a table, with noise in its working memory: its number, its row and what it has left of that memory. */
static void on_table(void (*f)(void), size_t entries, size_t *most)
{
    size_t i;

    noise(&lent.tables, sizeof lent.tables);
    before.tables = lent.tables;
    make(f, entries, most);
    printf("%" PRIu32, call.number);
    for (i = 1; i <= entries; i++)
        printf(" %" PRIu64, call.row[i]);
    PRINT_LEFT(rises), PRINT_LEFT(falls), PRINT_LEFT(peaks), PRINT_LEFT(depths), PRINT_LEFT(names), PRINT_LEFT(order);
}

static void actions(void)
{
    const uint64_t asked[] = {call.p, call.b, call.memory, call.quota, 0, call.b % 64, call.b % 512};
    size_t i;

    for (i = 0; i < sizeof asked / sizeof asked[0]; i++)
        printf(" %" PRIu32 " %" PRIu32, wivakkol_kind(call.table, call.length, asked[i]), wivakkol_argument(call.table, call.length, asked[i]));
}

static void tables(void)
{
    uint8_t front[24];
    size_t most[3] = {0, 0, 0};

    while (got(front, sizeof front)) {
        uint8_t *at = place_table((uint32_t)little(front, 4));
        call.p = (uint32_t)little(front + 4, 4);
        call.b = (uint32_t)little(front + 8, 4);
        call.memory = little(front + 12, 8);
        call.quota = (uint32_t)little(front + 20, 4);
        if (call.length != 0 && !got(at, call.length))
            fail("a case is cut off");
        close_room(memory);
        on_table(check, WIVAKKOL_CHECK_ROW, &most[0]);
        printf(" ");
        on_table(quota, WIVAKKOL_QUOTA_ROW, &most[1]);
        printf(" ");
        on_table(most_turns, WIVAKKOL_MOST_ROW, &most[2]);
        actions();
        printf("\n");
    }
    printf("stack %zu %zu %zu\n", most[0] - around(), most[1] - around(), most[2] - around());
}

static void asked_origin(uint64_t action, size_t *most)
{
    call.action = action;
    make(origin, 0, most);
    printf("%" PRIu32 " ", call.number);
}

static void origins(void)
{
    uint8_t front[8];
    uint64_t a, m;
    size_t most = 0;

    while (got(front, sizeof front)) {
        uint8_t *at = place_table((uint32_t)little(front, 4));
        call.quota = (uint32_t)little(front + 4, 4);
        if (call.length != 0 && !got(at, call.length))
            fail("a case is cut off");
        close_room(memory);
        m = (call.length > 2 ? call.table[2] : 0) + 256 * (uint64_t)(call.length > 3 ? call.table[3] : 0);
        for (a = 0; a < m; a += m / 256 + 1)
            asked_origin(a, &most);
        asked_origin(65535, &most);
        asked_origin(UINT64_C(1) << 32, &most);
        asked_origin(UINT64_MAX, &most);
        printf("\n");
    }
    printf("stack %zu\n", most - around());
}

#define PRINT_LIMIT_LEFT(field) printf(" %d", left(lent.limits.field, before.limits.field, sizeof lent.limits.field))

static void on_limits(void (*f)(void), size_t entries, size_t *most)
{
    size_t i;

    noise(&lent.limits, sizeof lent.limits);
    before.limits = lent.limits;
    make(f, entries, most);
    printf("%" PRIu32, call.number);
    for (i = 1; i <= entries; i++)
        printf(" %" PRIu64, call.row[i]);
    PRINT_LIMIT_LEFT(rises), PRINT_LIMIT_LEFT(falls), PRINT_LIMIT_LEFT(serials), PRINT_LIMIT_LEFT(depths), PRINT_LIMIT_LEFT(peaks), PRINT_LIMIT_LEFT(rows);
}

/* CRC-32. */
static uint32_t checksum(const uint8_t *bytes, size_t size)
{
    uint32_t sum = UINT32_MAX;
    size_t i;
    int bit;

    for (i = 0; i < size; i++)
        for (sum ^= bytes[i], bit = 0; bit < 8; bit++)
            sum = sum >> 1 ^ (sum & 1 ? UINT32_C(0xedb88320) : 0);
    return ~sum;
}

static void limits(void)
{
    uint8_t front[28];
    size_t i, most[2] = {0, 0};

    while (got(front, sizeof front)) {
        uint8_t *at = place_table((uint32_t)little(front, 4));
        call.p = (uint32_t)little(front + 4, 4);
        call.b = (uint32_t)little(front + 8, 4);
        call.memory = little(front + 12, 8);
        call.quota = (uint32_t)little(front + 20, 4);
        call.room = (uint32_t)little(front + 24, 4);
        if (call.length != 0 && !got(at, call.length))
            fail("a case is cut off");
        if (call.room > ROOM - FENCES)
            fail("too much room");
        close_room(memory);
        call.filled = place(fillings, call.room);
        memset(fillings, PAINT, ROOM);
        on_limits(limit, WIVAKKOL_LIMIT_ROW, &most[0]);
        for (i = 1; i <= FENCES; i++)
            if (call.filled[-(ptrdiff_t)i] != PAINT)
                fail("written below the room");
        printf(" %" PRIu32 " ", checksum(call.filled, call.room));
        on_limits(fit, WIVAKKOL_FIT_ROW, &most[1]);
        printf("\n");
    }
    printf("stack %zu %zu\n", most[0] - around(), most[1] - around());
}

static void put_answer(size_t entries)
{
    put(&call.number, sizeof call.number);
    put(call.row + 1, entries * sizeof call.row[0]);
}

#define LEFT(field) left(lent.work.field, before.work.field, sizeof lent.work.field)

static void put_work(void)
{
    uint8_t fields[] = {LEFT(rises), LEFT(falls), LEFT(forks), LEFT(parents), LEFT(list)};

    put(fields, sizeof fields);
}

static void put_run(void)
{
    put(&lent.run, sizeof lent.run);
}

/* Of a call that reads the run alone. */
static void put_kept(void)
{
    uint8_t kept = memcmp(&lent.run, &before.run, sizeof lent.run) == 0 ? 1 : 2;

    put(&kept, 1);
}

/* A beginning in so much room. What is below the room stays as it was. */
static void begin_step(uint32_t bytes, size_t *most)
{
    uint64_t size;
    size_t i;

    if (bytes > ROOM - FENCES)
        fail("too much room");
    call.filled = place(fillings, bytes);
    call.room = bytes;
    memset(fillings, PAINT, ROOM);
    stir();
    make(begin, WIVAKKOL_BEGIN_ROW, most);
    for (i = 1; i <= FENCES; i++)
        if (call.filled[-(ptrdiff_t)i] != PAINT)
            fail("written below the room");
    put_answer(WIVAKKOL_BEGIN_ROW);
    put(call.filled, bytes);
    put_work();
    put_run();
    size = call.row[1 + WIVAKKOL_FILLED];
    if (call.number == 0 && size != 0) {
        memcpy(place_table((uint32_t)size), call.filled, (size_t)size);
        close_room(memory);
    }
}

/* A call that reads the run alone; how many bytes its step has. */
static size_t read_step(const uint8_t *s, size_t *most)
{
    before.run = lent.run;
    switch (s[0]) {
    case 'v':
        call.w = (uint32_t)little(s + 1, 4);
        make(preview, WIVAKKOL_PREVIEW_ROW, &most[5]);
        put_answer(WIVAKKOL_PREVIEW_ROW);
        put_kept();
        return 5;
    case 'c':
        stir();
        make(chart, 0, &most[6]);
        put_answer(0);
        put(call.line + 1, WIVAKKOL_LINE);
        put_work();
        put_kept();
        return 1;
    }
    fail("no such step");
    return 0;
}

/* A call that moves a run; how many bytes its step has. */
static size_t move_step(const uint8_t *s, size_t *most)
{
    uint32_t x = (uint32_t)little(s + 1, 4);
    uint8_t *at;

    switch (s[0]) {
    case 'w':
        call.w = x;
        make(turn, WIVAKKOL_TURN_ROW, &most[2]);
        put_answer(WIVAKKOL_TURN_ROW);
        put_run();
        return 5;
    case 'l':
        at = place(orders, x);
        memcpy(at, s + 5, x);
        close_room(orders);
        call.order = at;
        call.turns = x;
        make(list, WIVAKKOL_RUN_ROW, &most[3]);
        put_answer(WIVAKKOL_RUN_ROW);
        put_run();
        return 5 + x;
    case 'r':
        call.limit = x;
        make(rounds, WIVAKKOL_RUN_ROW, &most[4]);
        put_answer(WIVAKKOL_RUN_ROW);
        put_run();
        return 5;
    }
    return read_step(s, most);
}

/* One step; how many bytes it has. */
static size_t step(const uint8_t *s, size_t *most)
{
    uint32_t x = (uint32_t)little(s + 1, 4), y = (uint32_t)little(s + 5, 4);

    switch (s[0]) {
    case 't':
        memcpy(place_table(x), s + 5, x);
        close_room(memory);
        return 5 + x;
    case 'm':
        if (x > sizeof lent.run || y > sizeof lent.run - x)
            fail("not in the run's memory");
        memcpy((uint8_t *)&lent.run + x, s + 9, y);
        return 9 + y;
    case 'b':
        call.p = x;
        call.quota = y;
        begin_step((uint32_t)little(s + 9, 4), &most[0]);
        return 13;
    case 'o':
        stir();
        make(open_run, WIVAKKOL_OPEN_ROW, &most[1]);
        put_answer(WIVAKKOL_OPEN_ROW);
        put_work();
        put_run();
        return 1;
    }
    return move_step(s, most);
}

#define BLOCK(name) printf(" " #name " %zu %zu %zu", offsetof(wivakkol_run, name), sizeof lent.run.name[0], sizeof lent.run.name / sizeof lent.run.name[0])

static void print_layout(void)
{
    printf("size %zu", sizeof(wivakkol_run));
    BLOCK(sums), BLOCK(numbers), BLOCK(words), BLOCK(bytes);
    printf("\n");
    fflush(stdout);
}

static void runs(void)
{
    uint8_t front[4];
    size_t length, at, most[7] = {0, 0, 0, 0, 0, 0, 0};

    print_layout();
    while (got(front, sizeof front)) {
        length = (size_t)little(front, 4);
        if (length > ROOM || !got(steps, length))
            fail("a case above the room for it, or cut off");
        for (at = 0; at < length; at += step(steps + at, most))
            ;
        fflush(stdout);
    }
    printf("stack");
    for (at = 0; at < 7; at++)
        printf(" %zu", most[at] > 0 ? most[at] - around() : 0); /* 0 of a call that was not made */
    printf("\n");
}

int main(int argc, char **argv)
{
    size_t i;

    memory = room();
    orders = room();
    fillings = room();
    stack = malloc(STACK);
    steps = malloc(ROOM + 13); /* the numbers of a step are read whether or not it has any */
    if (stack == NULL || steps == NULL)
        fail("no memory");
    for (i = 0; i < FENCES; i++)
        lent.below[i] = lent.between[i] = lent.above[i] = lent.last[i] = lent.behind[i] = FENCE;
    if (argc == 1)
        tables();
    else if (argc == 2 && strcmp(argv[1], "runs") == 0)
        runs();
    else if (argc == 2 && strcmp(argv[1], "origins") == 0)
        origins();
    else if (argc == 2 && strcmp(argv[1], "limits") == 0)
        limits();
    else
        fail("the only arguments there are: limits, origins, runs");
    return 0;
}
