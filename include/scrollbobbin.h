/*
 * Scrollbobbin: a register of one square sparse pattern, the replacement of one of its columns, and
 * its sheet, by which two offices hold one record.
 *
 * A pattern says where a square matrix has entries, and not which numbers they are: an entry that
 * is present counts as nonzero. The register lists the pattern by columns and again by rows, with
 * an order that pairs rows and columns and in which the pattern is triangular. A call of
 * scrollbobbin_replace judges the pattern that a new column makes, and keeps both listings and the
 * order exact. tests/header/main.c is a short example.
 *
 * The register is no object of this library: it is a size and six lists of 16-bit numbers, which
 * the caller owns and lends at each call. The library keeps nothing from call to call, has no
 * global data, allocates no memory, and tells every fault by its reply. So any number of threads
 * may call it at once, each on lists of its own. A call takes at most 8 KiB of stack.
 *
 * Link with libcabi.a, which is for x86-64 Linux and needs nothing but the C library.
 *
 *
 * The lists of a register of size m, which is 1 to 1,000. Rows and columns are numbered 0 to m - 1.
 *
 *   col_starts   m + 1 places: the first is 0, and none is less than the one before it. The last is
 *                the total, the number of entries: at most 12,000.
 *   col_rows     the rows of column c, strictly rising, from place col_starts[c] on and before
 *                place col_starts[c + 1].
 *   row_starts   m + 1 places, by the rules of col_starts.
 *   row_cols     the columns of row r, strictly rising, from place row_starts[r] on and before
 *                place row_starts[r + 1]. Both listings have the same entries.
 *   order_rows   m places, with each row once.
 *   order_cols   m places, with each column once. Place t pairs row order_rows[t] with column
 *                order_cols[t].
 *
 * The order is sound if each pair is itself an entry, and each entry (row of place s, column of
 * place t) has s at most t. The register is sound if all of this holds.
 *
 *
 * Each list is passed as a pointer and then its length, which counts places of 16 bits, or bytes
 * where the list is a sheet. A list may be longer than the register needs. The places past what the
 * register uses after a call keep what they held before it, also where the register shrinks.
 *
 *   - No pointer may be null, not even that of a list of length 0.
 *   - What a call may write to, which is behind every pointer without const, overlaps with nothing
 *     else that the call is given. So the lists of scrollbobbin_replace are eight distinct lists,
 *     the new rows among them, and its two numbers lie in none of them; and a sheet lies in none of
 *     the lists that it is read into.
 *   - While a call runs, no other thread writes to its lists, or reads what the call may write to.
 *
 * Nothing else is asked of the caller. Whatever the lists hold, a call reads and writes no place
 * outside them, and ends in the one reply that is stated below.
 */
#ifndef SCROLLBOBBIN_H
#define SCROLLBOBBIN_H

#include <stddef.h>
#include <stdint.h>

#ifdef __cplusplus
extern "C" {
#endif

/* The greatest size, and the greatest number of entries. */
#define SCROLLBOBBIN_MAX_SIZE 1000
#define SCROLLBOBBIN_MAX_TOTAL 12000

/*
 * The replies. 1 to 12 are refusals, and a refused call changes no list. Of those that apply the
 * one with the lowest number is given, but for scrollbobbin_read_sheet, which has an order of its
 * own. 100 to 102 are the verdicts of scrollbobbin_replace.
 */
enum scrollbobbin_reply {
    /* The register is sound, the sheet is written, or it is read. */
    SCROLLBOBBIN_SOUND = 0,
    SCROLLBOBBIN_DONE = 0,

    /* The size is 0 or over 1,000. */
    SCROLLBOBBIN_SIZE = 1,
    /* Starts under m + 1 places, an order list or the eta list under m, or an entry list (col_rows,
     * row_cols) shorter than its last start. */
    SCROLLBOBBIN_SHORT_LIST = 2,
    /* In either listing: starts wrong, a number m or more, numbers of a row or column not strictly
     * rising, or a total over 12,000. */
    SCROLLBOBBIN_MALFORMED_LISTING = 3,
    /* The two listings have different entries. */
    SCROLLBOBBIN_LISTINGS_DIFFER = 4,
    /* The order is not sound, or has a number m or more. */
    SCROLLBOBBIN_ORDER_UNSOUND = 5,
    /* The column is m or more. */
    SCROLLBOBBIN_COLUMN_NUMBER = 6,
    /* A new row is m or more, or the new rows are not strictly rising. */
    SCROLLBOBBIN_NEW_COLUMN = 7,
    /* Replacement: the total with the new column in the old one's stead, before any row is cleared,
     * is over 12,000 or over the length of either entry list. Sheet writer: the byte list is too
     * short. */
    SCROLLBOBBIN_NO_ROOM = 8,
    /* The bytes end inside or before a needed number. */
    SCROLLBOBBIN_SHEET_CUT = 9,
    /* A second or third group ends the number and is zero, or a third group has its high bit
     * set. */
    SCROLLBOBBIN_SHEET_NUMBER = 10,
    /* A count over m, a row or column m or more, or a total over 12,000. */
    SCROLLBOBBIN_SHEET_RANGE = 11,
    /* Bytes remain after the last number. */
    SCROLLBOBBIN_SHEET_SURPLUS = 12,

    SCROLLBOBBIN_SINGULAR = 100,
    SCROLLBOBBIN_PERMUTED = 101,
    SCROLLBOBBIN_ELIMINATION = 102
};

/*
 * Whether the six lists hold a sound register of the size: SCROLLBOBBIN_SOUND, or a refusal of 1 to
 * 5. Changes nothing.
 */
size_t scrollbobbin_check(
    size_t size,
    const uint16_t *col_starts, size_t col_starts_length,
    const uint16_t *col_rows, size_t col_rows_length,
    const uint16_t *row_starts, size_t row_starts_length,
    const uint16_t *row_cols, size_t row_cols_length,
    const uint16_t *order_rows, size_t order_rows_length,
    const uint16_t *order_cols, size_t order_cols_length);

/*
 * The rows of one column: they stand in col_rows from place *begin on, and the result is how many
 * they are. Nothing is copied, and no list changes. In a sound register no column is empty.
 *
 * The result and *begin are both 0 if the size is 0 or over 1,000, the column is the size or more,
 * there are fewer than size + 1 starts, the column's start is past the next one, or the next one is
 * past the end of col_rows. Nothing else is checked. *begin is always written.
 */
size_t scrollbobbin_look(
    size_t size,
    const uint16_t *col_starts, size_t col_starts_length,
    const uint16_t *col_rows, size_t col_rows_length,
    size_t column,
    size_t *begin);

/*
 * Replaces one column: the new rows, which may be none, take the place of its rows. The pattern
 * that this makes is called the spiked pattern.
 *
 * Let r be the row paired with the column. From a column one may go to each column that is present
 * in its paired row; the reach of the column is the column itself with all columns so reached, in
 * the old pattern.
 *
 * The result is one of these.
 *
 *   1 to 8                     A refusal. Nothing changes.
 *
 *   SCROLLBOBBIN_SINGULAR      In the spiked pattern one cannot choose an entry of each column with
 *                              no row chosen twice. Nothing changes.
 *
 *   SCROLLBOBBIN_PERMUTED      Some order is sound for the spiked pattern. Both listings hold that
 *                              pattern, and the order lists hold, of all orders that are sound for
 *                              it, the one that is first in dictionary order when each column is
 *                              read as its old place. The eta list does not change.
 *
 *   SCROLLBOBBIN_ELIMINATION   Every other case. Both listings hold the spiked pattern with row r
 *                              cleared and then given the single entry (r, column), as in the
 *                              update of Forrest and Tomlin. In the order this pair goes to the
 *                              last place, and the others keep their order. The eta list begins
 *                              with the rows paired in the old order with the columns of the reach
 *                              but the column itself, in rising row number. *eta_count is how many
 *                              these are; the rest of the eta list keeps what it held. *bump is the
 *                              greatest old place of a new row, less the old place of the column,
 *                              plus 1.
 *
 * *bump and *eta_count are always written, and are 0 in every case but SCROLLBOBBIN_ELIMINATION. A
 * register that was sound is sound after the call.
 */
size_t scrollbobbin_replace(
    size_t size,
    uint16_t *col_starts, size_t col_starts_length,
    uint16_t *col_rows, size_t col_rows_length,
    uint16_t *row_starts, size_t row_starts_length,
    uint16_t *row_cols, size_t row_cols_length,
    uint16_t *order_rows, size_t order_rows_length,
    uint16_t *order_cols, size_t order_cols_length,
    size_t column,
    const uint16_t *new_rows, size_t new_rows_length,
    uint16_t *eta, size_t eta_length,
    size_t *bump,
    size_t *eta_count);

/*
 * The sheet of a register is a list of bytes. Its numbers stand in groups of seven bits, the lowest
 * group first, with the high bit set on every group but the last, in the shortest form and in three
 * groups at most. In order: the size; for each column its count, its first row, and for each
 * further row the gap to the one before less 1 (no first row where the count is 0); then for each
 * place its row and its column. The row listing follows from these and is not in the sheet.
 *
 * A register of size 2 with the columns {0} and {0, 1} and the order 0:0 1:1 has the sheet
 * 02 01 00 02 00 00 00 00 01 01.
 *
 * A sound register has one sheet, no other register has that sheet, and a sheet that is accepted is
 * the one that would be written of what was read.
 */

/*
 * Writes the sheet of a register to the head of the bytes: SCROLLBOBBIN_DONE, with *count the
 * number of bytes, or a refusal of 1 to 5 or 8, with *count 0. The bytes past *count keep what they
 * held, and a refused call changes none. *count is always written. 30,002 bytes are room for every
 * sheet; with fewer, the sheet is measured before it is written.
 */
size_t scrollbobbin_write_sheet(
    size_t size,
    const uint16_t *col_starts, size_t col_starts_length,
    const uint16_t *col_rows, size_t col_rows_length,
    const uint16_t *row_starts, size_t row_starts_length,
    const uint16_t *row_cols, size_t row_cols_length,
    const uint16_t *order_rows, size_t order_rows_length,
    const uint16_t *order_cols, size_t order_cols_length,
    uint8_t *bytes, size_t bytes_length,
    size_t *count);

/*
 * Reads a sheet, which is all of the bytes, into the lists: SCROLLBOBBIN_DONE, with *size the size
 * of the register that they now hold, which is sound; or a refusal, with *size 0. What the lists
 * held before is of no account.
 *
 * The faults are told in reading order: 9 and 10 at a number, then 1 if it is the size and 0 or
 * over 1,000, and 11 elsewhere. A total over 12,000 is found at the count that takes it there,
 * before that column's rows are read. Then 12; then 2, by what the register that was read needs;
 * then 5. A refused call changes no list. *size is always written.
 */
size_t scrollbobbin_read_sheet(
    const uint8_t *bytes, size_t bytes_length,
    uint16_t *col_starts, size_t col_starts_length,
    uint16_t *col_rows, size_t col_rows_length,
    uint16_t *row_starts, size_t row_starts_length,
    uint16_t *row_cols, size_t row_cols_length,
    uint16_t *order_rows, size_t order_rows_length,
    uint16_t *order_cols, size_t order_cols_length,
    size_t *size);

#ifdef __cplusplus
}
#endif

#endif
