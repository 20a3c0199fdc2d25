/* Whole tables from C: several joined as one, a table's canonical form, two tables compared. Archive libwivakkol_tables.a (`tools/dist.py archive wivakkol_tables`), which a board does without. A call
 * returns 0, or the number of the refusal, and writes every number of its row, the place first; where it refuses, the values are 0 but for the refused part or table, and the buffers lent for
 * tables are as they were. A call takes under 8 KB of stack. Its answers are proved as those of wivakkol.h are (crates/wivakkol_tables/src/ has the promises), and that this header says the same
 * as that source is tested (tests/tables_calls.py). */
#ifndef WIVAKKOL_TABLES_H
#define WIVAKKOL_TABLES_H

#include "wivakkol.h"

#ifdef __cplusplus
extern "C" {
#endif

/* What wivakkol_join returns besides the numbers of wivakkol.h; docs/REFERENCE.md, "Refusals", has both in full. */
/* made from data/refusals.txt: names */
#define WIVAKKOL_REFUSED_PARTS 47  /* no part, above 16, or lengths that do not add up to the bytes lent */
#define WIVAKKOL_REFUSED_JOINED 48 /* the joined table passes 1,024 threads or 8,192 actions */
/* made to here */

#define WIVAKKOL_MOST_PARTS 16

/* The row of wivakkol_join: the place, n, m, S1, D and N as wivakkol_check has them (WIVAKKOL_THREADS and on), and the part that is refused, counted from 0. */
#define WIVAKKOL_JOIN_PART 6
#define WIVAKKOL_JOIN_ROW 7

/* The row of wivakkol_canonical. */
#define WIVAKKOL_FORM_LENGTH 1
#define WIVAKKOL_FORM_ROW 2

/* The row of wivakkol_compare. */
#define WIVAKKOL_SAID 1           /* WIVAKKOL_SAID_BEFORE, _EQUAL or _AFTER */
#define WIVAKKOL_SAID_BEFORE 1
#define WIVAKKOL_SAID_EQUAL 2
#define WIVAKKOL_SAID_AFTER 3
#define WIVAKKOL_COMPARED_TABLE 2 /* the table that is refused, 0 or 1 */
#define WIVAKKOL_COMPARE_ROW 3

/* The calls as they are exported, on each array by itself. What wivakkol.h asks of a table, a row, working memory and an array holds for these too: a buffer that is written overlaps nothing
 * else that the call is given, and has been written before, whatever it holds. */
uint32_t wivakkol_join_on(const uint8_t *tables, size_t length, const uint32_t *lengths, size_t parts, uint8_t out[WIVAKKOL_TABLE_MOST],
                          uint64_t row[WIVAKKOL_JOIN_ROW], uint64_t rises[1024], uint64_t falls[1024], uint64_t peaks[1024], uint16_t depths[1024]);
uint32_t wivakkol_canonical_on(const uint8_t *table, size_t length, uint8_t out[WIVAKKOL_TABLE_MOST], uint64_t row[WIVAKKOL_FORM_ROW],
                               uint64_t rises[1024], uint64_t falls[1024], uint16_t names[1024], uint16_t order[1024]);
uint32_t wivakkol_compare_on(const uint8_t *first, size_t first_length, const uint8_t *second, size_t second_length, uint8_t a[WIVAKKOL_TABLE_MOST],
                             uint8_t b[WIVAKKOL_TABLE_MOST], uint64_t row[WIVAKKOL_COMPARE_ROW], uint64_t rises[1024], uint64_t falls[1024],
                             uint16_t names[1024], uint16_t order[1024]);

/* Up to sixteen tables, back to back, as one: a new thread 0 forks each part's root in the order given, joins them in reverse, and ends; the parts' threads follow part by part. `lengths` points
 * to `parts` numbers and is never NULL, not even where there is none. The joined table stands at the start of `out` and has 4 + 4n + 4m bytes. Returns 0; 47, no part, above 16, or lengths that
 * do not add up to `length`; 1 to 11, a part's own refusal, first part first, its place inside the part; 48, the joined table passes 1,024 threads or 8,192 actions. */
static inline uint32_t wivakkol_join(wivakkol_tables_work *work, const uint8_t *tables, size_t length, const uint32_t *lengths, size_t parts,
                                     uint8_t out[WIVAKKOL_TABLE_MOST], uint64_t row[WIVAKKOL_JOIN_ROW])
{
    return wivakkol_join_on(tables, length, lengths, parts, out, row, work->rises, work->falls, work->peaks, work->depths);
}

/* The table with its threads numbered by the serial order of their forks. Returns 0, or 1 to 11, the table's own refusal. */
static inline uint32_t wivakkol_canonical(wivakkol_tables_work *work, const uint8_t *table, size_t length, uint8_t out[WIVAKKOL_TABLE_MOST],
                                          uint64_t row[WIVAKKOL_FORM_ROW])
{
    return wivakkol_canonical_on(table, length, out, row, work->rises, work->falls, work->names, work->order);
}

/* Two tables by the bytes of their canonical forms, the first difference deciding; equal exactly when one becomes the other by renaming threads. The forms are then in a and b. Returns 0, or 1 to
 * 11, the first refused table's refusal. */
static inline uint32_t wivakkol_compare(wivakkol_tables_work *work, const uint8_t *first, size_t first_length, const uint8_t *second, size_t second_length,
                                        uint8_t a[WIVAKKOL_TABLE_MOST], uint8_t b[WIVAKKOL_TABLE_MOST], uint64_t row[WIVAKKOL_COMPARE_ROW])
{
    return wivakkol_compare_on(first, first_length, second, second_length, a, b, row, work->rises, work->falls, work->names, work->order);
}

#ifdef __cplusplus
}
#endif

#endif
