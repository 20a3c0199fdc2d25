// The loader, the machine and the test of soundness in plain C: what the bench measures the Rattle code against. Nothing of it is proved.
// The list of threads is kept in one of two ways, chosen when it is compiled: as a row that is searched and shifted, which is what one
// would write first; or, with -DLINKS, by the same algorithms as the Rattle code. All else is by those algorithms in both.
//
// usage: baseline tablecheck | turnlist | runrounds | repeat   (input and lines as of the Rattle programs; repeat as bench_runs)
// With -DCALLS it is no program but the calls of bench/plain.h, for bench/board.c, bench/deques.c and bench/tables.c.
#include <stdbool.h>
#include <stdint.h>
#include <stdio.h>
#include <string.h>
#include <unistd.h>

enum { THREADS = 1024, ACTIONS = 8192, BYTES = 36868, WORKERS = 16, ORDER = 4096 };
enum { END, WORK, ALLOC, FREE, FORK, JOIN };
enum { UNBORN, READY, HELD, WAITING, ENDED };

typedef struct { uint8_t number; uint16_t place; } Refusal; // number 0: none
typedef struct { Refusal refusal; uint16_t threads, actions; uint64_t peak; uint16_t depth, nested; } Loaded;

static size_t word(const uint8_t *s, size_t i) { return s[i] | (size_t)s[i + 1] << 8; }
static uint8_t code(const uint8_t *l, size_t a) { return l[4 * a]; }
static size_t argument(const uint8_t *l, size_t a) { return l[4 * a + 1] | (size_t)l[4 * a + 2] << 8 | (size_t)l[4 * a + 3] << 16; }
static const uint8_t *bodies(const uint8_t *table, size_t n) { return table + 4 + 4 * n; }
static size_t first_of(const uint8_t *table, size_t t) { return word(table, 4 + 4 * t); }
static size_t count_of(const uint8_t *table, size_t t) { return word(table, 6 + 4 * t); }
static size_t end_of(const uint8_t *table, size_t t) { return first_of(table, t) + count_of(table, t) - 1; }
static Refusal refuse(uint8_t number, size_t place) { return (Refusal){ number, (uint16_t)place }; }
static const Refusal NONE = { 0, 0 };

// ---- the loader

static Refusal head(const uint8_t *table, size_t length) {
    if (length < 4) return refuse(1, 0);
    size_t n = word(table, 0), m = word(table, 2);
    if (n < 1 || THREADS < n || m < 1 || ACTIONS < m) return refuse(2, 0);
    if (length != 4 + 4 * n + 4 * m) return refuse(3, 0);
    return NONE;
}

static Refusal contents(const uint8_t *table, size_t n, size_t m) {
    size_t sum = 0;
    for (size_t t = 0; t < n; t++) {
        if (first_of(table, t) != sum || count_of(table, t) == 0) return refuse(4, t);
        sum += count_of(table, t);
    }
    return sum == m ? NONE : refuse(4, n);
}

static uint8_t form_at(uint8_t k, size_t own, size_t n, size_t x, bool last) {
    bool fits;
    switch (k) {
    case END: return x != 0 ? 6 : last ? 0 : 7;
    case WORK: fits = x == 0; break;
    case ALLOC: case FREE: fits = 1 <= x; break;
    case FORK: case JOIN: fits = own < x && x < n; break;
    default: return 5;
    }
    return !fits ? 6 : last ? 7 : 0;
}

static Refusal first_pass(const uint8_t *table, size_t n, size_t m) {
    const uint8_t *actions = bodies(table, n);
    size_t own = 0, stop = count_of(table, 0);
    for (size_t a = 0; a < m; a++) {
        if (a == stop) stop += count_of(table, ++own);
        uint8_t number = form_at(code(actions, a), own, n, argument(actions, a), a + 1 == stop);
        if (number) return refuse(number, a);
    }
    return NONE;
}

static Refusal nesting(const uint8_t *table, size_t n, size_t m) {
    const uint8_t *actions = bodies(table, n);
    bool forked[THREADS] = { false };
    uint16_t stack[THREADS];
    size_t top = THREADS;
    for (size_t a = 0; a < m; a++) {
        size_t x = argument(actions, a);
        switch (code(actions, a)) {
        case END:
            if (top < THREADS) return refuse(9, a);
            break;
        case FORK:
            if (forked[x]) return refuse(8, a);
            forked[x] = true;
            stack[--top] = (uint16_t)x;
            break;
        case JOIN:
            if (top == THREADS || stack[top] != x) return refuse(9, a);
            top++;
            break;
        }
    }
    for (size_t t = 1; t < n; t++)
        if (!forked[t]) return refuse(11, t);
    return NONE;
}

static Refusal balances(const uint8_t *table, size_t n, size_t m, uint64_t *rises, uint64_t *falls) {
    const uint8_t *actions = bodies(table, n);
    size_t lowest = m;
    for (size_t t = n; t-- > 0;) {
        size_t first = first_of(table, t), stop = first + count_of(table, t), below = stop;
        uint64_t rise = 0, fall = 0;
        for (size_t a = first; a < stop; a++) {
            uint8_t k = code(actions, a);
            size_t x = argument(actions, a);
            rise += (k == ALLOC ? x : 0) + (k == JOIN ? rises[x] : 0);
            fall += (k == FREE ? x : 0) + (k == JOIN ? falls[x] : 0);
            if (rise < fall && below == stop) below = a;
        }
        rises[t] = rise;
        falls[t] = fall;
        if (below < stop) lowest = below;
    }
    return lowest < m ? refuse(10, lowest) : NONE;
}

static uint64_t serial_peak(const uint8_t *table, size_t n, const uint64_t *rises, const uint64_t *falls) {
    const uint8_t *actions = bodies(table, n);
    uint64_t peaks[THREADS];
    for (size_t t = n; t-- > 0;) {
        size_t first = first_of(table, t), stop = first + count_of(table, t);
        uint64_t rise = 0, fall = 0, peak = 0;
        for (size_t a = first; a < stop; a++) {
            uint8_t k = code(actions, a);
            size_t x = argument(actions, a);
            uint64_t here = rise - fall + (k == FORK ? peaks[x] : 0);
            if (peak < here) peak = here;
            rise += (k == ALLOC ? x : 0) + (k == FORK ? rises[x] : 0);
            fall += (k == FREE ? x : 0) + (k == FORK ? falls[x] : 0);
        }
        peaks[t] = peak;
    }
    return peaks[0];
}

static size_t end_level(const uint8_t *table, const uint8_t *actions, size_t t, size_t start, uint16_t *ends) {
    size_t last = start - 1, first = first_of(table, t), stop = first + count_of(table, t);
    for (size_t a = first; a < stop; a++) {
        uint8_t k = code(actions, a);
        size_t x = argument(actions, a);
        if (k == JOIN && last < ends[x]) last = ends[x];
        last++;
        if (k == FORK) ends[x] = (uint16_t)end_level(table, actions, x, last + 1, ends);
    }
    return last;
}

static size_t nested_levels(const uint8_t *table, size_t n, size_t m) {
    const uint8_t *actions = bodies(table, n);
    size_t levels[THREADS], deepest = 1, t = 0;
    for (size_t i = 0; i < THREADS; i++) levels[i] = 1;
    for (size_t a = 0; a < m; a++) {
        uint8_t k = code(actions, a);
        if (k == FORK) {
            size_t below = levels[t] + 1;
            levels[argument(actions, a)] = below;
            if (deepest < below) deepest = below;
        }
        if (k == END) t++;
    }
    return deepest;
}

// The checks, and what check 10 adds up of each thread.
static Refusal check(const uint8_t *table, size_t length, uint64_t *rises, uint64_t *falls) {
    Refusal refusal = head(table, length);
    if (refusal.number) return refusal;
    size_t n = word(table, 0), m = word(table, 2);
    refusal = contents(table, n, m);
    if (!refusal.number) refusal = first_pass(table, n, m);
    if (!refusal.number) refusal = nesting(table, n, m);
    if (!refusal.number) refusal = balances(table, n, m, rises, falls);
    return refusal;
}

static Loaded load(const uint8_t *table, size_t length) {
    uint64_t rises[THREADS], falls[THREADS];
    uint16_t ends[THREADS];
    Loaded answer = { check(table, length, rises, falls), 0, 0, 0, 0, 0 };
    if (answer.refusal.number) return answer;
    size_t n = word(table, 0), m = word(table, 2);
    answer.threads = (uint16_t)n;
    answer.actions = (uint16_t)m;
    answer.peak = serial_peak(table, n, rises, falls);
    answer.depth = (uint16_t)end_level(table, bodies(table, n), 0, 1, ends);
    answer.nested = (uint16_t)nested_levels(table, n, m);
    return answer;
}

// ---- the list of threads, in one of two layouts
//
// `active` is a second list, beside the record, of those listed that do not wait; a row does without. `search` gives the leftmost ready
// thread, THREADS if there is none, and `passed_over` how many stand left of it.

typedef struct { const uint16_t *at; size_t len; } Row; // threads, leftmost first

#ifdef LINKS

// For each thread its neighbours, and the leftmost; THREADS where there is none.
typedef struct { uint16_t left[THREADS], right[THREADS], leftmost; } List;

static void clear(List *l) {
    for (size_t t = 0; t < THREADS; t++) l->left[t] = l->right[t] = THREADS;
    l->leftmost = THREADS;
}

static void list_root(List *l) {
    clear(l);
    l->leftmost = 0;
}

// y is the first to the right of x, or of the left end.
static void set_right(List *l, uint16_t x, uint16_t y) { *(x < THREADS ? &l->right[x] : &l->leftmost) = y; }

static void insert(List *l, uint16_t c, uint16_t t) {
    uint16_t x = l->left[t];
    l->left[c] = x;
    l->right[c] = t;
    l->left[t] = c;
    set_right(l, x, c);
}

static void take_out(List *l, uint16_t t) {
    uint16_t x = l->left[t], y = l->right[t];
    if (y < THREADS) l->left[y] = x;
    set_right(l, x, y);
    l->left[t] = l->right[t] = THREADS;
}

static void append(List *l, uint16_t last, uint16_t t) {
    l->left[t] = last;
    set_right(l, last, t);
}

static void insert_active(List *active, uint16_t c, uint16_t t) { insert(active, c, t); }
static void take_out_active(List *active, uint16_t t) { take_out(active, t); }

static void fill_active(List *active, const List *l, const uint8_t *status) {
    uint16_t last = THREADS;
    clear(active);
    for (uint16_t t = l->leftmost; t < THREADS; t = l->right[t])
        if (status[t] != WAITING) {
            append(active, last, t);
            last = t;
        }
}

static size_t search(const List *l, const List *active, const uint8_t *status) {
    (void)l;
    size_t t = active->leftmost;
    while (t < THREADS && status[t] != READY) t = active->right[t];
    return t;
}

static size_t passed_over(const List *l, const uint8_t *status) {
    size_t t = l->leftmost, count = 0;
    for (; t < THREADS && status[t] != READY; t = l->right[t]) count++;
    return t == THREADS ? 0 : count;
}

// THREADS threads at most: the links may go in a circle.
static Row read_row(const List *l, uint16_t *row) {
    size_t len = 0;
    for (uint16_t t = l->leftmost; t < THREADS && len < THREADS; t = l->right[t]) row[len++] = t;
    return (Row){ row, len };
}

// Whether the links are those of a row, whose threads are all different.
static bool describes(const List *l, Row row) {
    List laid;
    clear(&laid);
    for (size_t i = 0; i < row.len; i++) append(&laid, i ? row.at[i - 1] : THREADS, row.at[i]);
    return !memcmp(l, &laid, sizeof laid);
}

#else

// The threads, leftmost first; the places from `listed` on are 0.
typedef struct { uint16_t list[THREADS], listed; } List;

static void list_root(List *l) { l->listed = 1; }

static size_t place(const List *l, uint16_t t) {
    size_t i = 0;
    while (i < l->listed && l->list[i] != t) i++;
    return i;
}

static void insert(List *l, uint16_t c, uint16_t t) {
    size_t at = place(l, t);
    for (size_t i = l->listed; at < i; i--) l->list[i] = l->list[i - 1];
    l->list[at] = c;
    l->listed++;
}

static void take_out(List *l, uint16_t t) {
    size_t len = l->listed, i = place(l, t);
    for (; i + 1 < len; i++) l->list[i] = l->list[i + 1];
    l->list[i] = 0;
    l->listed--;
}

static void insert_active(List *active, uint16_t c, uint16_t t) { (void)active, (void)c, (void)t; }
static void take_out_active(List *active, uint16_t t) { (void)active, (void)t; }
static void fill_active(List *active, const List *l, const uint8_t *status) { (void)active, (void)l, (void)status; }

static size_t first_ready(const List *l, const uint8_t *status) {
    size_t i = 0, len = l->listed;
    while (i < len && status[l->list[i]] != READY) i++;
    return i;
}

static size_t search(const List *l, const List *active, const uint8_t *status) {
    (void)active;
    size_t i = first_ready(l, status);
    return i == l->listed ? THREADS : l->list[i];
}

static size_t passed_over(const List *l, const uint8_t *status) {
    size_t i = first_ready(l, status);
    return i == l->listed ? 0 : i;
}

static Row read_row(const List *l, uint16_t *row) {
    (void)row;
    return (Row){ l->list, l->listed < THREADS ? l->listed : THREADS };
}

static bool describes(const List *l, Row row) {
    if (row.len != l->listed) return false;
    for (size_t i = row.len; i < THREADS; i++)
        if (l->list[i] != 0) return false;
    return true;
}

#endif

// ---- the record, and beginning

typedef struct { bool holds; uint16_t thread; uint32_t quota; } Worker;
typedef struct {
    uint8_t table[BYTES];
    uint16_t length;
    uint8_t workers;
    uint32_t quota;
    uint16_t next[THREADS];
    uint8_t status[THREADS];
    uint64_t amounts[THREADS];
    List list;
    Worker worker[WORKERS];
    uint16_t busy;
    uint64_t held, highest, turns;
} Run;

static Refusal settings_fault(uint8_t p, uint32_t quota) {
    if (p < 1 || WORKERS < p) return refuse(20, 0);
    if (quota < 1 || 16777215 < quota) return refuse(21, 0);
    return NONE;
}

static bool is_big(const uint8_t *actions, size_t a, uint32_t quota) { return code(actions, a) == ALLOC && quota < argument(actions, a); }
static size_t dummies(const uint8_t *actions, size_t a, uint32_t quota) { return (argument(actions, a) + quota - 1) / quota; }

// 44; threads and actions become those of the filled-out table.
static Refusal fill_fault(const uint8_t *table, uint32_t quota, size_t *threads, size_t *actions) {
    size_t m = *actions;
    const uint8_t *l = bodies(table, *threads);
    for (size_t a = 0; a < m; a++)
        if (is_big(l, a, quota)) {
            *threads += 2 * dummies(l, a, quota) - 1;
            *actions += 7 * dummies(l, a, quota) - 3;
            if (THREADS < *threads || ACTIONS < *actions) return refuse(44, a);
        }
    return NONE;
}

// Along the serial order, the root of each big alloc's tree, and at the root the number of its dummies; then that of every smaller tree.
static void fill_trees(const uint8_t *table, size_t n, uint32_t quota, size_t total, uint16_t *roots, uint16_t *sizes) {
    const uint8_t *actions = bodies(table, n);
    uint16_t stack[THREADS];
    size_t top = 0, a = 0, root = n;
    for (;;) {
        uint8_t k = code(actions, a);
        if (is_big(actions, a, quota)) {
            roots[a] = (uint16_t)root;
            sizes[root] = (uint16_t)dummies(actions, a, quota);
            root += 2 * (size_t)sizes[root] - 1;
        }
        if (k == FORK) stack[top++] = (uint16_t)(a + 1);
        if (k == END && top == 0) break;
        a = k == FORK ? first_of(table, argument(actions, a)) : k == END ? stack[--top] : a + 1;
    }
    for (size_t c = n; c < total; c++)
        if (1 < sizes[c]) {
            size_t half = (sizes[c] + 1U) / 2;
            sizes[c + 1] = (uint16_t)half;
            sizes[c + 2 * half] = (uint16_t)(sizes[c] - half);
        }
}

static uint8_t *put_pair(uint8_t *to, size_t x, size_t y) {
    to[0] = (uint8_t)x, to[1] = (uint8_t)(x >> 8), to[2] = (uint8_t)y, to[3] = (uint8_t)(y >> 8);
    return to + 4;
}

static uint8_t *put_action(uint8_t *to, uint8_t k, size_t x) {
    to[0] = k, to[1] = (uint8_t)x, to[2] = (uint8_t)(x >> 8), to[3] = (uint8_t)(x >> 16);
    return to + 4;
}

static uint8_t *put_tree(uint8_t *to, size_t c, size_t d) {
    if (d <= 1) return put_action(put_action(to, WORK, 0), END, 0);
    size_t other = c + 2 * ((d + 1) / 2);
    to = put_action(put_action(to, FORK, c + 1), FORK, other);
    to = put_action(put_action(to, JOIN, other), JOIN, c + 1);
    return put_action(to, END, 0);
}

// The filled-out table of `threads` threads and `actions` actions; gives its length.
static size_t fill_out(const uint8_t *table, uint32_t quota, size_t threads, size_t actions, uint8_t *out) {
    size_t n = word(table, 0), m = word(table, 2), first = 0;
    const uint8_t *l = bodies(table, n);
    uint16_t roots[ACTIONS], sizes[THREADS];
    fill_trees(table, n, quota, threads, roots, sizes);
    uint8_t *to = put_pair(out, threads, actions);
    for (size_t t = 0; t < threads; t++) {
        size_t count = t < n ? count_of(table, t) : 1 < sizes[t] ? 5 : 2;
        if (t < n)
            for (size_t a = first_of(table, t), stop = a + count; a < stop; a++) count += is_big(l, a, quota) ? 2 : 0;
        to = put_pair(to, first, count);
        first += count;
    }
    for (size_t a = 0; a < m; a++) {
        if (is_big(l, a, quota)) to = put_action(put_action(to, FORK, roots[a]), JOIN, roots[a]);
        to = put_action(to, code(l, a), argument(l, a));
    }
    for (size_t c = n; c < threads; c++) to = put_tree(to, c, sizes[c]);
    return (size_t)(to - out);
}

static Loaded begin(Run *run, const uint8_t *table, size_t length, uint8_t p, uint32_t quota) {
    memset(run, 0, sizeof *run);
    Loaded loaded = load(table, length);
    size_t threads = loaded.threads, actions = loaded.actions;
    if (!loaded.refusal.number) loaded.refusal = settings_fault(p, quota);
    if (!loaded.refusal.number) loaded.refusal = fill_fault(table, quota, &threads, &actions);
    if (loaded.refusal.number) return loaded;
    if (threads == loaded.threads) {
        memcpy(run->table, table, length);
    } else {
        length = fill_out(table, quota, threads, actions, run->table);
        loaded = load(run->table, length);
    }
    run->length = (uint16_t)length;
    run->workers = p;
    run->quota = quota;
    for (size_t t = 0; t < threads; t++) run->next[t] = (uint16_t)first_of(run->table, t);
    run->status[0] = READY;
    list_root(&run->list);
    return loaded;
}

static void fill_forks(const uint8_t *table, size_t n, uint16_t *forks, uint16_t *parents) {
    const uint8_t *actions = bodies(table, n);
    memset(forks, 0, THREADS * sizeof *forks);
    memset(parents, 0, THREADS * sizeof *parents);
    size_t a = 0;
    for (size_t t = 0; t < n; t++)
        for (size_t stop = a + count_of(table, t); a < stop; a++)
            if (code(actions, a) == FORK) {
                size_t c = argument(actions, a);
                forks[c] = (uint16_t)a;
                parents[c] = (uint16_t)t;
            }
}

// ---- soundness

static size_t done_to(const Run *run, size_t t) { return run->next[t] + (size_t)(run->status[t] == ENDED); }

static bool is_unborn(const Run *run, size_t t, const uint16_t *forks, const uint16_t *parents) {
    return 0 < t && done_to(run, parents[t]) <= forks[t];
}

static bool thread_in_order(const Run *run, size_t n, size_t t, const uint16_t *forks, const uint16_t *parents) {
    const uint8_t *actions = bodies(run->table, n);
    size_t first = first_of(run->table, t), stop = done_to(run, t);
    if (is_unborn(run, t, forks, parents)) return stop <= first;
    for (size_t a = first; a < stop; a++)
        if (code(actions, a) == JOIN) {
            size_t c = argument(actions, a);
            if (done_to(run, c) <= end_of(run->table, c)) return false;
        }
    return true;
}

static bool status_follows(const Run *run, size_t t, const uint16_t *forks, const uint16_t *parents) {
    uint8_t s = run->status[t];
    if ((s == UNBORN) != is_unborn(run, t, forks, parents)) return false;
    if (s != ENDED) return s < ENDED;
    return run->next[t] == end_of(run->table, t);
}

static bool done_sound(const Run *run, size_t n, uint16_t *parents) {
    uint16_t forks[THREADS];
    for (size_t t = 0; t < n; t++)
        if (run->next[t] < first_of(run->table, t) || end_of(run->table, t) < run->next[t]) return false;
    fill_forks(run->table, n, forks, parents);
    for (size_t t = 0; t < n; t++)
        if (!thread_in_order(run, n, t, forks, parents)) return false;
    for (size_t t = 0; t < n; t++)
        if (!status_follows(run, t, forks, parents)) return false;
    return true;
}

static bool list_follows(const Run *run, size_t n, Row row) {
    bool marks[THREADS] = { false };
    for (size_t i = 0; i < row.len; i++) {
        if (n <= row.at[i]) return false;
        marks[row.at[i]] = true;
    }
    for (size_t t = 0; t < n; t++)
        if (marks[t] != (run->status[t] != UNBORN && run->status[t] != ENDED)) return false;
    return true;
}

// From action `from` with the number `number` to action `to` of the same thread; children forked between get their numbers.
static size_t advance(const uint8_t *actions, size_t from, size_t to, size_t number, uint16_t *numbers) {
    for (size_t a = from; a < to; a++) {
        number++;
        if (code(actions, a) == FORK) {
            size_t c = argument(actions, a), length = numbers[c];
            numbers[c] = (uint16_t)number;
            number += length;
        }
    }
    return number;
}

static bool in_serial_order(const Run *run, size_t n, Row row) {
    const uint8_t *actions = bodies(run->table, n);
    uint16_t numbers[THREADS];
    for (size_t t = n; t-- > 0;) {
        size_t last = end_of(run->table, t), total = 1;
        for (size_t a = first_of(run->table, t); a < last; a++)
            total += code(actions, a) == FORK ? 1 + (size_t)numbers[argument(actions, a)] : 1;
        numbers[t] = (uint16_t)total;
    }
    numbers[0] = 0;
    for (size_t t = 0; t < n; t++) {
        size_t at = run->next[t];
        size_t number = advance(actions, first_of(run->table, t), at, numbers[t], numbers);
        numbers[t] = (uint16_t)number;
        advance(actions, at, end_of(run->table, t), number, numbers);
    }
    for (size_t i = 0; i + 1 < row.len; i++)
        if (numbers[row.at[i + 1]] <= numbers[row.at[i]]) return false;
    return true;
}

static bool list_right(const Run *run, size_t n) {
    uint16_t places[THREADS];
    Row row = read_row(&run->list, places);
    return list_follows(run, n, row) && in_serial_order(run, n, row) && describes(&run->list, row);
}

static bool waits_at_joins(const Run *run, size_t n) {
    const uint8_t *actions = bodies(run->table, n);
    for (size_t t = 0; t < n; t++)
        if (run->status[t] == WAITING) {
            size_t a = run->next[t];
            if (code(actions, a) != JOIN || run->status[argument(actions, a)] == ENDED) return false;
        }
    return true;
}

static bool workers_right(const Run *run, size_t n) {
    uint8_t counts[THREADS] = { 0 };
    for (size_t w = 0; w < WORKERS; w++) {
        Worker x = run->worker[w];
        if (x.holds && x.thread < THREADS) counts[x.thread]++;
    }
    for (size_t t = 0; t < n; t++)
        if (counts[t] != (run->status[t] == HELD)) return false;
    for (size_t w = 0; w < WORKERS; w++) {
        Worker x = run->worker[w];
        if (x.holds ? run->workers <= w || n <= x.thread || run->quota < x.quota : x.thread != 0 || x.quota != 0) return false;
    }
    return true;
}

static bool held_right(const Run *run, size_t n) {
    const uint8_t *actions = bodies(run->table, n);
    uint64_t allocs = 0, frees = 0;
    for (size_t t = 0; t < n; t++)
        for (size_t a = first_of(run->table, t), stop = done_to(run, t); a < stop; a++) {
            uint8_t k = code(actions, a);
            size_t x = argument(actions, a);
            allocs += k == ALLOC ? x : 0;
            frees += k == FREE ? x : 0;
        }
    return frees <= allocs && run->held == allocs - frees;
}

static bool amounts_right(const Run *run, size_t n) {
    const uint8_t *actions = bodies(run->table, n);
    uint64_t shares[THREADS] = { 0 };
    for (size_t t = n; 0 < t--;) {
        uint64_t sum = 0;
        for (size_t a = first_of(run->table, t), stop = done_to(run, t); a < stop; a++) {
            uint8_t k = code(actions, a);
            size_t x = argument(actions, a);
            if (k == ALLOC) sum += x;
            if (k == FREE) sum -= x;
            if (k == JOIN) sum += shares[x];
        }
        shares[t] = sum;
    }
    for (size_t t = 0; t < n; t++)
        for (size_t a = first_of(run->table, t), stop = done_to(run, t); a < stop; a++)
            if (code(actions, a) == JOIN) shares[argument(actions, a)] = 0;
    for (size_t t = 0; t < THREADS; t++)
        if (run->amounts[t] != shares[t]) return false;
    return true;
}

static bool rest_sound(const Run *run) {
    if (BYTES < run->length || run->turns == UINT64_MAX) return false;
    uint32_t set = 0;
    for (size_t w = 0; w < WORKERS; w++) set |= (uint32_t)run->worker[w].holds << w;
    if (run->busy != set) return false;
    for (size_t i = run->length; i < BYTES; i++)
        if (run->table[i] != 0) return false;
    return true;
}

// Also each thread's parent, which the turns after the test look up.
static bool sound(const Run *run, uint16_t *parents) {
    uint64_t rises[THREADS], falls[THREADS];
    if (!rest_sound(run)) return false;
    if (check(run->table, run->length, rises, falls).number) return false;
    size_t n = word(run->table, 0);
    if (settings_fault(run->workers, run->quota).number) return false;
    if (!done_sound(run, n, parents) || !list_right(run, n) || !waits_at_joins(run, n)) return false;
    if (!workers_right(run, n) || !held_right(run, n) || !amounts_right(run, n) || run->highest < run->held) return false;
    for (size_t t = n; t < THREADS; t++)
        if (run->status[t] != UNBORN || run->next[t] != 0) return false;
    return true;
}

static bool is_blank(const Run *run) {
    const uint8_t *bytes = (const uint8_t *)run; // the record was cleared whole, so its padding is 0
    for (size_t i = 0; i < sizeof *run; i++)
        if (bytes[i] != 0) return false;
    return true;
}

// ---- turns and runs

typedef enum { IDLE, DONE, QUOTA, WAIT } What;
typedef struct { What what; uint16_t thread; uint32_t value; } Reply;

static Reply release(Worker *worker, What what, uint32_t value) {
    Reply reply = { what, worker->thread, value };
    memset(worker, 0, sizeof *worker);
    return reply;
}

// What a run keeps beside its record.
typedef struct { uint16_t parents[THREADS]; List active; } Beside;

static Reply act(Run *run, size_t n, Beside *beside, Worker *worker) {
    uint16_t t = worker->thread, a = run->next[t];
    const uint8_t *actions = bodies(run->table, n);
    uint32_t x = (uint32_t)argument(actions, a);
    switch (code(actions, a)) {
    case END: {
        run->status[t] = ENDED;
        uint16_t u = beside->parents[t];
        if (run->status[u] == WAITING && code(actions, run->next[u]) == JOIN && argument(actions, run->next[u]) == t) {
            run->status[u] = READY;
            insert_active(&beside->active, u, t);
        }
        take_out(&run->list, t);
        take_out_active(&beside->active, t);
        return release(worker, DONE, a);
    }
    case ALLOC: {
        uint32_t drawn = run->quota < x ? 0 : x;
        if (worker->quota < drawn) {
            run->status[t] = READY;
            return release(worker, QUOTA, x);
        }
        worker->quota -= drawn;
        run->amounts[t] += x;
        run->held += x;
        if (run->highest < run->held) run->highest = run->held;
        break;
    }
    case FREE:
        run->amounts[t] -= x;
        run->held -= x;
        break;
    case FORK:
        insert(&run->list, (uint16_t)x, t);
        insert_active(&beside->active, (uint16_t)x, t);
        run->next[t] = (uint16_t)(a + 1);
        run->status[t] = READY;
        run->status[x] = READY;
        return release(worker, DONE, a);
    case JOIN:
        if (run->status[x] != ENDED) {
            run->status[t] = WAITING;
            take_out_active(&beside->active, t);
            return release(worker, WAIT, x);
        }
        run->amounts[t] += run->amounts[x];
        run->amounts[x] = 0;
        break;
    }
    run->next[t] = (uint16_t)(a + 1);
    return (Reply){ DONE, t, a };
}

// Where worker w holds nothing, the thread that it takes, THREADS if there is none; 0 where it holds one.
static size_t found_for(const Run *run, const Beside *beside, size_t w) {
    return run->worker[w].holds ? 0 : search(&run->list, &beside->active, run->status);
}

static Reply step_from(Run *run, size_t n, Beside *beside, size_t w, size_t found) {
    Worker *worker = &run->worker[w];
    bool held = worker->holds;
    if (!held) {
        if (found == THREADS) {
            run->turns++;
            return (Reply){ IDLE, 0, 0 };
        }
        worker->holds = true;
        worker->thread = (uint16_t)found;
        worker->quota = run->quota;
        run->status[found] = HELD;
    }
    Reply reply = act(run, n, beside, worker);
    if (held != worker->holds) run->busy ^= (uint16_t)(1 << w);
    run->turns++;
    return reply;
}

static Reply step(Run *run, size_t n, Beside *beside, size_t w) {
    return step_from(run, n, beside, w, found_for(run, beside, w));
}

// A run's answer: number 0 means finished or spent.
typedef struct { uint8_t number; bool finished; uint64_t turns; } Report;

static void print_turn(const Run *run, size_t n, uint64_t turn, size_t w, Reply reply) {
    static const char *const kinds[] = { "end", "work", "alloc", "free", "fork", "join" };
    printf("%llu %zu ", (unsigned long long)turn, w);
    if (reply.what == IDLE) {
        printf("- - idle ");
    } else {
        size_t a = reply.what == DONE ? reply.value : run->next[reply.thread];
        printf("%u %zu %s ", reply.thread, a, reply.what == QUOTA ? "quota" : reply.what == WAIT ? "wait" : kinds[code(bodies(run->table, n), a)]);
    }
    printf("%llu\n", (unsigned long long)run->held);
}

// At most `limit` turns: of the order, or in rounds where there is none. What stands beside the record is filled in.
static Report drive(Run *run, Beside *beside, const uint8_t *order, size_t limit, bool print) {
    size_t n = word(run->table, 0), p = run->workers, last = count_of(run->table, 0) - 1;
    if (run->status[0] == ENDED) return (Report){ 0, true, 0 };
    for (size_t i = 0; i < limit; i++) {
        size_t w = order ? order[i] : i % p;
        if (run->turns == UINT64_MAX) return (Report){ 32, false, i };
        if (p <= w) return (Report){ 30, false, i };
        Reply reply = step(run, n, beside, w);
        if (print) print_turn(run, n, i + 1, w, reply);
        if (reply.what == DONE && reply.value == last) return (Report){ 0, true, i + 1 };
    }
    return (Report){ 0, false, limit };
}

static Report run_list(Run *run, const uint8_t *order, size_t length, bool print) {
    Beside beside;
    if (is_blank(run)) return (Report){ length ? 30 : 0, false, 0 };
    if (!sound(run, beside.parents)) return (Report){ 32, false, 0 };
    fill_active(&beside.active, &run->list, run->status);
    return drive(run, &beside, order, length, print);
}

static Report run_rounds(Run *run, uint32_t limit) {
    Beside beside;
    if (is_blank(run)) return (Report){ 30, false, 0 };
    if (!sound(run, beside.parents)) return (Report){ 32, false, 0 };
    fill_active(&beside.active, &run->list, run->status);
    return drive(run, &beside, NULL, limit, false);
}

typedef struct { uint8_t number; Reply reply; uint16_t passed; } Turned;

static Turned turn(Run *run, uint8_t w) {
    Beside beside;
    Turned turned = { 0, { IDLE, 0, 0 }, 0 };
    if (!is_blank(run) && !sound(run, beside.parents)) turned.number = 32;
    else if (run->workers <= w) turned.number = 30;
    else if (run->status[0] == ENDED) turned.number = 31;
    else {
        size_t n = word(run->table, 0);
        fill_active(&beside.active, &run->list, run->status);
        if (!run->worker[w].holds) turned.passed = (uint16_t)passed_over(&run->list, run->status);
        turned.reply = step(run, n, &beside, w);
    }
    return turned;
}

// ---- whole tables

// The threads' numbers by the serial order of their forks, and the threads in this order.
static void number_threads(const uint8_t *table, size_t n, uint16_t *names, uint16_t *order) {
    const uint8_t *actions = bodies(table, n);
    uint16_t sizes[THREADS];
    for (size_t t = n; t-- > 0;) {
        size_t first = first_of(table, t), stop = first + count_of(table, t), size = 1;
        for (size_t a = first; a < stop; a++)
            if (code(actions, a) == FORK) size += sizes[argument(actions, a)];
        sizes[t] = (uint16_t)size;
    }
    names[0] = 0;
    for (size_t t = 0; t < n; t++) {
        size_t first = first_of(table, t), stop = first + count_of(table, t), next = names[t] + 1u;
        order[names[t]] = (uint16_t)t;
        for (size_t a = first; a < stop; a++)
            if (code(actions, a) == FORK) {
                size_t x = argument(actions, a);
                names[x] = (uint16_t)next;
                next += sizes[x];
            }
    }
}

// The canonical form of an accepted table; gives its length.
static size_t write_form(const uint8_t *table, uint8_t *out) {
    size_t n = word(table, 0), m = word(table, 2), sum = 0;
    const uint8_t *actions = bodies(table, n);
    uint16_t names[THREADS], order[THREADS];
    number_threads(table, n, names, order);
    uint8_t *to = put_pair(out, n, m);
    for (size_t i = 0; i < n; i++) {
        to = put_pair(to, sum, count_of(table, order[i]));
        sum += count_of(table, order[i]);
    }
    for (size_t i = 0; i < n; i++)
        for (size_t a = first_of(table, order[i]), stop = a + count_of(table, order[i]); a < stop; a++) {
            uint8_t k = code(actions, a);
            size_t x = argument(actions, a);
            to = put_action(to, k, k == FORK || k == JOIN ? names[x] : x);
        }
    return (size_t)(to - out);
}

// The depth, without recursion: each thread's own, the deepest of what it joins included.
static size_t depth_of(const uint8_t *table, size_t n) {
    const uint8_t *actions = bodies(table, n);
    uint16_t depths[THREADS] = { 0 };
    for (size_t t = n; t-- > 0;) {
        size_t first = first_of(table, t), stop = first + count_of(table, t), last = 0;
        for (size_t a = first; a < stop; a++) {
            uint8_t k = code(actions, a);
            size_t x = argument(actions, a);
            if (k == JOIN && last < depths[x]) last = depths[x];
            last++;
            if (k == FORK) depths[x] = (uint16_t)(depths[x] + last);
        }
        depths[t] = (uint16_t)last;
    }
    return depths[0];
}

// Accepted parts as one table of n threads and m actions.
static void write_joined(const uint8_t *tables, const uint32_t *lengths, size_t parts, size_t n, size_t m, uint8_t *out) {
    uint8_t *to = put_pair(put_pair(out, n, m), 0, 2 * parts + 1);
    size_t sum = 2 * parts + 1, root = 1;
    const uint8_t *part = tables;
    for (size_t i = 0; i < parts; part += lengths[i++]) {
        for (size_t t = 0; t < word(part, 0); t++) to = put_pair(to, sum + first_of(part, t), count_of(part, t));
        sum += word(part, 2);
    }
    part = tables;
    for (size_t i = 0; i < parts; part += lengths[i++]) {
        to = put_action(to, FORK, root);
        root += word(part, 0);
    }
    for (size_t i = parts; i-- > 0;) {
        part -= lengths[i];
        root -= word(part, 0);
        to = put_action(to, JOIN, root);
    }
    to = put_action(to, END, 0);
    for (size_t i = 0; i < parts; part += lengths[i++]) {
        const uint8_t *actions = bodies(part, word(part, 0));
        for (size_t a = 0; a < word(part, 2); a++) {
            uint8_t k = code(actions, a);
            size_t x = argument(actions, a);
            to = put_action(to, k, k == FORK || k == JOIN ? root + x : x);
        }
        root += word(part, 0);
    }
}

// ---- the calls of plain.h

#ifdef CALLS

#include "plain.h"

uint32_t plain_join(const uint8_t *tables, size_t length, const uint32_t *lengths, size_t parts, uint8_t *out, uint64_t row[7]) {
    uint64_t rises[THREADS], falls[THREADS], sum = 0, threads = 1, actions = 2 * parts + 1, held = 0, peak = 0, depth = 0, nested = 0;
    memset(row, 0, 7 * sizeof row[0]);
    for (size_t i = 0; i < parts; i++) sum += lengths[i];
    if (parts < 1 || 16 < parts || sum != length) return 47;
    const uint8_t *part = tables;
    for (size_t i = 0; i < parts; part += lengths[i++]) {
        Refusal refusal = check(part, lengths[i], rises, falls);
        if (refusal.number) {
            row[0] = refusal.place;
            row[6] = i;
            return refusal.number;
        }
        size_t n = word(part, 0), m = word(part, 2);
        uint64_t top = held + serial_peak(part, n, rises, falls), deep = 2 * (i + 1) + depth_of(part, n), levels = nested_levels(part, n, m);
        peak = peak < top ? top : peak;
        depth = depth < deep ? deep : depth;
        nested = nested < levels ? levels : nested;
        held += rises[0] - falls[0];
        threads += n;
        actions += m;
    }
    if (THREADS < threads || ACTIONS < actions) return 48;
    write_joined(tables, lengths, parts, threads, actions, out);
    memcpy(row, (uint64_t[7]){ 0, threads, actions, peak, 1 + depth, 1 + nested, 0 }, 7 * sizeof row[0]);
    return 0;
}

uint32_t plain_canonical(const uint8_t *table, size_t length, uint8_t *out, uint64_t row[2]) {
    uint64_t rises[THREADS], falls[THREADS];
    Refusal refusal = check(table, length, rises, falls);
    row[0] = refusal.place;
    row[1] = refusal.number ? 0 : write_form(table, out);
    return refusal.number;
}

uint32_t plain_compare(const uint8_t *first, size_t first_length, const uint8_t *second, size_t second_length, uint8_t *a, uint8_t *b, uint64_t row[3]) {
    uint64_t rises[THREADS], falls[THREADS];
    memset(row, 0, 3 * sizeof row[0]);
    Refusal refusal = check(first, first_length, rises, falls);
    if (!refusal.number) {
        row[2] = 1;
        refusal = check(second, second_length, rises, falls);
    }
    row[0] = refusal.place;
    if (refusal.number) return refusal.number;
    size_t k = write_form(first, a), l = write_form(second, b);
    int order = memcmp(a, b, k < l ? k : l);
    row[1] = order < 0 ? 1 : order > 0 ? 3 : k < l ? 1 : k > l ? 3 : 2;
    row[2] = 0;
    return 0;
}

struct plain_run { Run run; Beside beside; };

uint32_t plain_begin(plain_run *plain, const uint8_t *table, size_t length, uint32_t p, uint32_t quota) {
    uint16_t forks[THREADS];
    Loaded loaded = begin(&plain->run, table, length, p < 17 ? (uint8_t)p : 17, quota);
    if (loaded.refusal.number) return loaded.refusal.number;
    fill_forks(plain->run.table, loaded.threads, forks, plain->beside.parents);
    fill_active(&plain->beside.active, &plain->run.list, plain->run.status);
    return 0;
}

// Counts along the list what a take passes over, as wivakkol_turn does.
uint32_t plain_turn(plain_run *plain, uint32_t w, uint64_t row[5]) {
    Run *run = &plain->run;
    memset(row, 0, 5 * sizeof row[0]);
    if (run->turns == UINT64_MAX) return 32;
    if (run->workers <= w) return 30;
    if (run->status[0] == ENDED) return 31;
    size_t found = found_for(run, &plain->beside, w);
    if (!run->worker[w].holds && found < THREADS) row[4] = passed_over(&run->list, run->status);
    Reply reply = step_from(run, word(run->table, 0), &plain->beside, w, found);
    row[1] = 1 + (uint64_t)reply.what;
    row[2] = reply.thread;
    row[3] = reply.value;
    return 0;
}

uint32_t plain_rounds(plain_run *plain, uint32_t limit, uint64_t row[3]) {
    Report report = drive(&plain->run, &plain->beside, NULL, limit, false);
    row[0] = 0;
    row[1] = report.number ? 0 : report.finished ? 6 : 7;
    row[2] = report.turns;
    return report.number;
}

// A pace, as crates/pace/specs/Pace has it: 16 numbers for each worker, then b, p, the least b kept and one more than the worker of the latest turn.
uint32_t plain_pace_begin(uint32_t *pace, uint32_t p, uint32_t b) {
    if (p < 1 || 16 < p) return 20;
    if (b < 1 || 65535 < b) return 41;
    memset(pace, 0, 260 * sizeof pace[0]);
    pace[256] = b;
    pace[257] = p;
    return 0;
}

static uint32_t asked(const uint32_t *pace, uint32_t w) {
    uint32_t most = 0;
    for (size_t x = 0; x < 16; x++)
        if (most < pace[16 * w + x]) most = pace[16 * w + x];
    return most;
}

static void took(uint32_t *pace, uint32_t w) {
    uint32_t most = asked(pace, w);
    if (pace[258] < most) pace[258] = most;
    pace[259] = w + 1;
    for (size_t x = 0; x < 16; x++)
        if (pace[16 * w + x] != 0 && pace[16 * w + x] != UINT32_MAX) pace[16 * w + x]++;
    for (size_t v = 0; v < 16; v++) pace[16 * v + w] = 1;
    pace[17 * w] = 0;
}

uint32_t plain_paced_turn(plain_run *plain, uint32_t *pace, uint32_t w, uint64_t row[5]) {
    Run *run = &plain->run;
    if (run->turns != UINT64_MAX && w < run->workers && run->status[0] != ENDED && pace[256] < asked(pace, w)) {
        memset(row, 0, 5 * sizeof row[0]);
        return 60;
    }
    uint32_t number = plain_turn(plain, w, row);
    if (number == 0) took(pace, w);
    return number;
}

size_t plain_size(void) { return sizeof(plain_run); }

// DFDeques: the record's list has the lines, deque by deque the owner's thread and then its threads from the top; the second list has the last thread of each line.

static bool is_bottom(const List *bottoms, uint16_t t) { return bottoms->left[t] < THREADS || bottoms->leftmost == t; }

static void go_on_with(Run *run, Worker *worker, uint16_t t) {
    run->status[t] = HELD;
    worker->thread = t;
}

static void leave_line(Run *run, List *bottoms, Worker *worker, uint16_t t) {
    uint16_t below = run->list.right[t];
    bool last = is_bottom(bottoms, t);
    take_out(&run->list, t);
    if (last) {
        take_out(bottoms, t);
        memset(worker, 0, sizeof *worker);
    } else {
        go_on_with(run, worker, below);
    }
}

static void wake(Run *run, List *bottoms, Worker *worker, uint16_t t, uint16_t u) {
    if (is_bottom(bottoms, t)) {
        insert(bottoms, u, t);
        take_out(bottoms, t);
    }
    insert(&run->list, u, t);
    take_out(&run->list, t);
    go_on_with(run, worker, u);
}

static Reply deque_act(Run *run, size_t n, Beside *beside, Worker *worker) {
    uint16_t t = worker->thread, a = run->next[t];
    const uint8_t *actions = bodies(run->table, n);
    uint16_t x = (uint16_t)argument(actions, a);
    switch (code(actions, a)) {
    case END: {
        uint16_t u = beside->parents[t];
        run->status[t] = ENDED;
        if (run->status[u] == WAITING && code(actions, run->next[u]) == JOIN && argument(actions, run->next[u]) == t)
            wake(run, &beside->active, worker, t, u);
        else
            leave_line(run, &beside->active, worker, t);
        return (Reply){ DONE, t, a };
    }
    case FORK:
        run->next[t] = (uint16_t)(a + 1);
        run->status[t] = READY;
        insert(&run->list, x, t);
        go_on_with(run, worker, x);
        return (Reply){ DONE, t, a };
    case JOIN:
        if (run->status[x] != ENDED) {
            run->status[t] = WAITING;
            leave_line(run, &beside->active, worker, t);
            return (Reply){ WAIT, t, x };
        }
        break;
    }
    return act(run, n, beside, worker);
}

// False where there is no deque at place c, or nothing in it to steal.
static bool steal(Run *run, List *bottoms, Worker *worker, uint32_t c) {
    uint16_t b = bottoms->leftmost;
    while (c-- > 0 && b < THREADS) b = bottoms->right[b];
    if (b == THREADS || run->status[b] != READY) return false;
    uint16_t above = run->list.left[b];
    if (above < THREADS && !is_bottom(bottoms, above)) insert(bottoms, above, b);
    worker->holds = true;
    worker->quota = run->quota;
    go_on_with(run, worker, b);
    return true;
}

static Reply deque_step(Run *run, size_t n, Beside *beside, size_t w, uint32_t c) {
    Worker *worker = &run->worker[w];
    bool held = worker->holds;
    run->turns++;
    if (!held && !steal(run, &beside->active, worker, c)) return (Reply){ IDLE, 0, 0 };
    Reply reply = deque_act(run, n, beside, worker);
    if (held != worker->holds) run->busy ^= (uint16_t)(1 << w);
    return reply;
}

static uint32_t deque_fault(const Run *run, uint32_t w, uint32_t c) {
    if (run->turns == UINT64_MAX) return 32;
    if (run->workers <= w) return 30;
    if (run->status[0] == ENDED) return 31;
    return run->workers <= c ? 49 : 0;
}

uint32_t plain_deque_turn(plain_run *plain, uint32_t w, uint32_t c, uint64_t row[5]) {
    Run *run = &plain->run;
    uint32_t number = deque_fault(run, w, c);
    memset(row, 0, 5 * sizeof row[0]);
    if (number) return number;
    Reply reply = deque_step(run, word(run->table, 0), &plain->beside, w, c);
    row[1] = 1 + (uint64_t)reply.what;
    row[2] = reply.thread;
    row[3] = reply.value;
    return 0;
}

uint32_t plain_deque_list(plain_run *plain, const uint8_t *order, size_t length, uint64_t row[3]) {
    Run *run = &plain->run;
    size_t n = word(run->table, 0), i = 0;
    memset(row, 0, 3 * sizeof row[0]);
    if (run->turns == UINT64_MAX) return 32;
    for (; i < length / 2 && run->status[0] != ENDED; i++) {
        uint32_t number = deque_fault(run, order[2 * i], order[2 * i + 1]);
        row[2] = i;
        if (number) return number;
        deque_step(run, n, &plain->beside, order[2 * i], order[2 * i + 1]);
    }
    row[1] = run->status[0] == ENDED ? 6 : 7;
    row[2] = i;
    return 0;
}

#else

// ---- the programs

static uint8_t input[65536];

static size_t read_all(void) {
    size_t n = 0;
    ssize_t got;
    while (n < sizeof input && 0 < (got = read(0, input + n, sizeof input - n))) n += (size_t)got;
    return n;
}

static uint32_t number_at(const uint8_t *s, int bytes) {
    uint32_t x = 0;
    while (bytes-- > 0) x = x << 8 | s[bytes];
    return x;
}

static int refused(uint8_t number, uint16_t place) {
    printf("refused %u %u\n", number, place);
    return 0;
}

static void put_facts(Loaded l) {
    printf("table %u %u serial %llu depth %u", l.threads, l.actions, (unsigned long long)l.peak, l.depth);
}

static int tablecheck(void) {
    Loaded l = load(input, read_all());
    if (l.refusal.number) return refused(l.refusal.number, l.refusal.place);
    put_facts(l);
    printf(" nested %u\n", l.nested);
    return 0;
}

static Run run;

static int turnlist(void) {
    size_t length = read_all();
    if (length < 6) return refused(33, 0);
    size_t turns = word(input, 4);
    if (ORDER < turns || length < 6 + turns) return refused(33, 0);
    Loaded l = begin(&run, input + 6 + turns, length - 6 - turns, input[0], number_at(input + 1, 3));
    if (l.refusal.number) return refused(l.refusal.number, l.refusal.place);
    put_facts(l);
    printf("\n");
    Report report = run_list(&run, input + 6, turns, true);
    if (report.number) return refused(report.number, 0);
    printf("%s %llu peak %llu\n", report.finished ? "done" : "open", (unsigned long long)report.turns, (unsigned long long)run.highest);
    return 0;
}

static void rounds_line(Report report) {
    printf("%s %llu peak %llu held %llu\n", report.finished ? "finished" : "spent", (unsigned long long)report.turns,
           (unsigned long long)run.highest, (unsigned long long)run.held);
}

static int runrounds(void) {
    size_t length = read_all();
    if (length < 8) return refused(33, 0);
    Loaded l = begin(&run, input + 8, length - 8, input[0], number_at(input + 1, 3));
    if (l.refusal.number) return refused(l.refusal.number, l.refusal.place);
    Report report = run_rounds(&run, number_at(input + 4, 4));
    if (report.number) return refused(report.number, 0);
    rounds_line(report);
    return 0;
}

// Does a call again and again: 'l' loading, 'r' a run in rounds of L turns from the beginning, 's' a single turn of worker 0 on the record
// after L turns. What a call is given depends on the total so far, so that none can be left out.
static int repeat(void) {
    size_t length = read_all();
    if (length < 13) return refused(33, 0);
    uint8_t mode = input[0];
    uint32_t count = number_at(input + 1, 4), quota = number_at(input + 6, 3), limit = number_at(input + 9, 4);
    const uint8_t *table = input + 13;
    static Run copy;
    uint64_t total = 0;
    begin(&run, table, length - 13, input[5], quota);
    if (mode == 's') run_rounds(&run, limit);
    for (uint32_t i = 0; i < count; i++) {
        bool never = total == UINT64_MAX;
        if (mode == 'l') {
            Loaded l = load(table, never ? 0 : length - 13);
            total += l.refusal.number ? l.refusal.number : l.depth + l.nested;
        } else {
            copy = run;
            if (mode == 's') {
                Turned t = turn(&copy, never);
                total += t.number ? t.number : 1 + (uint64_t)t.reply.what + t.passed;
            } else {
                Report report = run_rounds(&copy, never ? 0 : limit);
                total += report.number ? report.number : report.turns;
            }
        }
    }
    printf("%c %u %llu\n", mode, count, (unsigned long long)total);
    return 0;
}

int main(int argc, char **argv) {
    const char *name = argc == 2 ? argv[1] : "";
    if (!strcmp(name, "tablecheck")) return tablecheck();
    if (!strcmp(name, "turnlist")) return turnlist();
    if (!strcmp(name, "runrounds")) return runrounds();
    if (!strcmp(name, "repeat")) return repeat();
    fprintf(stderr, "usage: baseline tablecheck | turnlist | runrounds | repeat\n");
    return 2;
}

#endif
