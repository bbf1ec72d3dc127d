/* What one call is given: lists with room for the largest register and its sheet, and of each list
 * how much of it is lent. */
#ifndef LENT_H
#define LENT_H

#include "scrollbobbin.h"

/* A number of a sheet takes two bytes at most where none is over 1,000: the size, the counts, a
 * number for each entry, and the order. One byte is for surplus. */
#define MAX_SHEET (2 * (1 + 3 * SCROLLBOBBIN_MAX_SIZE + SCROLLBOBBIN_MAX_TOTAL) + 1)

struct lent {
    size_t size, column;
    uint16_t col_starts[SCROLLBOBBIN_MAX_SIZE + 1], col_rows[SCROLLBOBBIN_MAX_TOTAL];
    uint16_t row_starts[SCROLLBOBBIN_MAX_SIZE + 1], row_cols[SCROLLBOBBIN_MAX_TOTAL];
    uint16_t order_rows[SCROLLBOBBIN_MAX_SIZE], order_cols[SCROLLBOBBIN_MAX_SIZE];
    uint16_t new_rows[SCROLLBOBBIN_MAX_SIZE], eta[SCROLLBOBBIN_MAX_SIZE];
    uint8_t sheet[MAX_SHEET];
    size_t order_length, new_rows_length, eta_length, sheet_length;
};

#endif
