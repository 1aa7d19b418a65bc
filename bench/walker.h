/* A plain C reader of one data set, the yardstick for the library's `read` and `judge`. */
#ifndef WALKER_H
#define WALKER_H

#include <stddef.h>
#include <stdint.h>

/* The numbers in a row. */
#define ROW_NUMBERS 7

/* Codes 0 to 8 of document 01; the offset of the header with codes 1 to 6, the row count with code 0. */
typedef struct {
    uint32_t code, offset, rows;
} walk_answer;

/* Checks and counts, then, where `rows` has ROW_NUMBERS for each row, fills them. The second pass makes the checks again. */
walk_answer walk(const uint8_t *data, size_t size, uint32_t *rows, size_t rows_len);

/* The same answers and rows, but the second pass relies on the first and checks nothing. */
walk_answer walk_trusting(const uint8_t *data, size_t size, uint32_t *rows, size_t rows_len);

#endif
