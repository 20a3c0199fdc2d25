/* A desk's texts from C: a text assembled to a table, a table written out as its text. Archive libwivakkol_desk.a (`tools/dist.py archive wivakkol_desk`), which a board does without. A call returns 0, or
 * the number of the refusal, and writes every number of its row, the place first. A call takes under 8 KB of stack. Its answers are proved as those of wivakkol.h are
 * (crates/wivakkol_desk/src/ has the promises), and that this header says the same as that source is tested (tests/desk_calls.py). What a text may have in it is in docs/REFERENCE.md, "Tables as
 * text". */
#ifndef WIVAKKOL_DESK_H
#define WIVAKKOL_DESK_H

#include "wivakkol.h"

#ifdef __cplusplus
extern "C" {
#endif

/* What wivakkol_assemble returns besides the numbers of wivakkol.h, 61 among them; docs/REFERENCE.md, "Refusals", has all in full. */
/* made from data/refusals.txt: names */
#define WIVAKKOL_REFUSED_TEXT 62 /* the text has more than 262,144 bytes */
#define WIVAKKOL_REFUSED_LINE 63 /* a line is not as it should be: the row says which, and what was expected */
/* made to here */

/* The longest text that is read; the bytes that the text of every table fits. */
#define WIVAKKOL_TEXT_LONGEST 262144
#define WIVAKKOL_TEXT_MOST 266240

/* The row of wivakkol_assemble. The line is counted from 1: with 63 that line, with 4 and 6 to 11 that of the thread or action at the place, else 0. */
#define WIVAKKOL_TEXT_BYTES 1 /* bytes of the table that was written; with 61, bytes that it needs; else 0 */
#define WIVAKKOL_TEXT_LINE 2
#define WIVAKKOL_EXPECTED 3   /* with 63, WIVAKKOL_EXPECTED_KEYWORD and so on; else 0 */
#define WIVAKKOL_EXPECTED_KEYWORD 1 /* thread, alloc, free, fork, join, work or end */
#define WIVAKKOL_EXPECTED_NUMBER 2  /* a number up to 16,777,215 */
#define WIVAKKOL_EXPECTED_END 3     /* the end of the line */
#define WIVAKKOL_EXPECTED_THREAD 4  /* the next thread by its number */
#define WIVAKKOL_EXPECTED_NEXT 4 /* that number; else 0 */
#define WIVAKKOL_UNSEEN 5        /* with 63, bytes in the line that an editor may not show, WIVAKKOL_UNSEEN_RETURN and so on; else 0 */
#define WIVAKKOL_UNSEEN_RETURN 1 /* a carriage return: lines end with a newline alone */
#define WIVAKKOL_UNSEEN_MARK 2   /* a byte order mark: a text begins without one */
#define WIVAKKOL_ASSEMBLE_ROW 6

/* The row of wivakkol_disassemble has the bytes of the text at WIVAKKOL_TEXT_BYTES; with 61, the bytes that `out` must have; else 0. */
#define WIVAKKOL_DISASSEMBLE_ROW 2

/* The calls as they are exported, on each array by itself. What wivakkol.h asks of a table, a row, working memory and an array holds for these too: a buffer that is written overlaps nothing
 * else that the call is given, and has been written before, whatever it holds. `text` points to `length` bytes and `out` to `room`; neither is ever NULL, not even where there is none. */
uint32_t wivakkol_assemble_on(const uint8_t *text, size_t length, uint8_t *out, size_t room, uint64_t row[WIVAKKOL_ASSEMBLE_ROW], uint64_t rises[1024],
                              uint64_t falls[1024], uint64_t peaks[1024], uint16_t depths[1024]);
uint32_t wivakkol_disassemble_on(const uint8_t *table, size_t length, uint8_t *out, size_t room, uint64_t row[WIVAKKOL_DISASSEMBLE_ROW], uint64_t rises[1024],
                                 uint64_t falls[1024], uint64_t peaks[1024], uint16_t depths[1024]);

/* The table of a text, at the start of `out`. Returns 0, an accepted table; 62, the text is too long; 63, a line is not as it should be; 2, n or m is outside its range; 61, the table has more
 * than `room` bytes (36,868, WIVAKKOL_TABLE_MOST, are always enough); 4 and 6 to 11, the table's own refusal, its place as wivakkol_check has it: the table that is refused then stands in `out`.
 * With the other numbers `out` is as it was. */
static inline uint32_t wivakkol_assemble(wivakkol_tables_work *work, const uint8_t *text, size_t length, uint8_t *out, size_t room,
                                         uint64_t row[WIVAKKOL_ASSEMBLE_ROW])
{
    return wivakkol_assemble_on(text, length, out, room, row, work->rises, work->falls, work->peaks, work->depths);
}

/* The text of a table, one action to a line with its number, at the start of `out`; assembled it gives the table again. Returns 0; 1 to 11, the table's own refusal; 61, `room` is below 12n + 31m
 * bytes, which the text of every table of n threads and m actions fits (266,240, WIVAKKOL_TEXT_MOST, are always enough). `out` is as it was where the call refuses. */
static inline uint32_t wivakkol_disassemble(wivakkol_tables_work *work, const uint8_t *table, size_t length, uint8_t *out, size_t room,
                                            uint64_t row[WIVAKKOL_DISASSEMBLE_ROW])
{
    return wivakkol_disassemble_on(table, length, out, room, row, work->rises, work->falls, work->peaks, work->depths);
}

#ifdef __cplusplus
}
#endif

#endif
