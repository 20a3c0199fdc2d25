/* Plain C by the same algorithms as the calls of wivakkol.h and wivakkol_deques.h on a run and those of wivakkol_pace.h and wivakkol_tables.h (bench/baseline.c with -DLINKS and -DCALLS), with their
 * numbers and rows, for bench/board.c, bench/deques.c, bench/pace.c and bench/tables.c. Nothing of it is proved.
 * The run has a copy of its table. It tests nothing that a turn on damaged memory would need: numbers in the run are taken as they are. */
#ifndef PLAIN_H
#define PLAIN_H

#include <stddef.h>
#include <stdint.h>

typedef struct plain_run plain_run;

size_t plain_size(void);
uint32_t plain_begin(plain_run *run, const uint8_t *table, size_t length, uint32_t p, uint32_t quota);
uint32_t plain_turn(plain_run *run, uint32_t w, uint64_t row[5]);
uint32_t plain_rounds(plain_run *run, uint32_t limit, uint64_t row[3]);

/* A run that plain_begin has begun is of the kind of its first turn. */
uint32_t plain_deque_turn(plain_run *run, uint32_t w, uint32_t c, uint64_t row[5]);
uint32_t plain_deque_list(plain_run *run, const uint8_t *order, size_t length, uint64_t row[3]);
/* a pace of 260 numbers, as a wivakkol_pace has them */
uint32_t plain_pace_begin(uint32_t *pace, uint32_t p, uint32_t b);
uint32_t plain_paced_turn(plain_run *run, uint32_t *pace, uint32_t w, uint64_t row[5]);

uint32_t plain_join(const uint8_t *tables, size_t length, const uint32_t *lengths, size_t parts, uint8_t *out, uint64_t row[7]);
uint32_t plain_canonical(const uint8_t *table, size_t length, uint8_t *out, uint64_t row[2]);
uint32_t plain_compare(const uint8_t *first, size_t first_length, const uint8_t *second, size_t second_length, uint8_t *a, uint8_t *b, uint64_t row[3]);

#endif
