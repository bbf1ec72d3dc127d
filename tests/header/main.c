/* The library through its header, as a C program has it: a check, looks, the first replacement of
 * the build paper's example, a refusal, and the paper's sheet written and read. Every list has
 * places to spare, which must keep what they held. */
#include "scrollbobbin.h"

#include <stdio.h>
#include <string.h>

#define SPARE 7777, 7777

/* A list as it is passed: the pointer, and how many places there are. */
#define LENGTH(list) (sizeof (list) / sizeof *(list))
#define LENT(list) (list), LENGTH(list)

static unsigned passed, failed;

static void expect(const char *what, int holds) {
    if (holds) {
        passed++;
    } else {
        failed++;
        printf("failed: %s\n", what);
    }
}

struct lists {
    uint16_t col_starts[6], col_rows[8];
    uint16_t row_starts[6], row_cols[8];
    uint16_t order_rows[5], order_cols[5];
    uint16_t eta[5];
};

/* Size 3, columns 0:{0} 1:{0,1} 2:{1,2}, order t:t. There is room for a sixth entry. */
static const struct lists START = {
    {0, 1, 3, 5, SPARE},
    {0, 0, 1, 1, 2, 7777, SPARE},
    {0, 2, 4, 5, SPARE},
    {0, 1, 1, 2, 2, 7777, SPARE},
    {0, 1, 2, SPARE},
    {0, 1, 2, SPARE},
    {7777, 7777, 7777, SPARE},
};

/* Columns 0:{0,2} 1:{1} 2:{1,2}, order 1:1 2:2 0:0, eta rows 1 2. */
static const struct lists ELIMINATED = {
    {0, 2, 3, 5, SPARE},
    {0, 2, 1, 1, 2, 7777, SPARE},
    {0, 1, 3, 5, SPARE},
    {0, 1, 2, 0, 2, 7777, SPARE},
    {1, 2, 0, SPARE},
    {1, 2, 0, SPARE},
    {1, 2, 7777, SPARE},
};

struct reply {
    size_t result, bump, eta_count;
};

static struct reply replace(struct lists *l, size_t column, const uint16_t *rows, size_t count) {
    struct reply r = {55, 55, 55};
    r.result = scrollbobbin_replace(
        3, LENT(l->col_starts), LENT(l->col_rows), LENT(l->row_starts), LENT(l->row_cols),
        LENT(l->order_rows), LENT(l->order_cols), column, rows, count, LENT(l->eta), &r.bump,
        &r.eta_count);
    return r;
}

static size_t check(size_t size, const struct lists *l) {
    return scrollbobbin_check(
        size, LENT(l->col_starts), LENT(l->col_rows), LENT(l->row_starts), LENT(l->row_cols),
        LENT(l->order_rows), LENT(l->order_cols));
}

static size_t look(const struct lists *l, size_t column, size_t *begin) {
    return scrollbobbin_look(3, LENT(l->col_starts), LENT(l->col_rows), column, begin);
}

static size_t write_sheet(
    size_t size, const struct lists *l, uint8_t *bytes, size_t length, size_t *count) {
    return scrollbobbin_write_sheet(
        size, LENT(l->col_starts), LENT(l->col_rows), LENT(l->row_starts), LENT(l->row_cols),
        LENT(l->order_rows), LENT(l->order_cols), bytes, length, count);
}

static size_t read_sheet(const uint8_t *bytes, size_t length, struct lists *l, size_t *size) {
    return scrollbobbin_read_sheet(
        bytes, length, LENT(l->col_starts), LENT(l->col_rows), LENT(l->row_starts), LENT(l->row_cols),
        LENT(l->order_rows), LENT(l->order_cols), size);
}

#define SAME(list) (memcmp(got->list, wanted->list, sizeof got->list) == 0)

static void expect_lists(const struct lists *got, const struct lists *wanted) {
    expect("the starts of the columns", SAME(col_starts));
    expect("the rows of the columns", SAME(col_rows));
    expect("the starts of the rows", SAME(row_starts));
    expect("the columns of the rows", SAME(row_cols));
    expect("the rows of the order", SAME(order_rows));
    expect("the columns of the order", SAME(order_cols));
    expect("the eta list", SAME(eta));
}

static void expect_reply(struct reply got, size_t result, size_t bump, size_t eta_count) {
    expect("the result of a replacement", got.result == result);
    expect("its bump", got.bump == bump);
    expect("its eta count", got.eta_count == eta_count);
}

/* Size 2, columns 0:{0} 1:{0,1}, order t:t, and its sheet. */
static const struct lists PAIR = {
    {0, 1, 3, 7777, SPARE},
    {0, 0, 1, 7777, 7777, 7777, SPARE},
    {0, 2, 3, 7777, SPARE},
    {0, 1, 1, 7777, 7777, 7777, SPARE},
    {0, 1, 7777, SPARE},
    {0, 1, 7777, SPARE},
    {7777, 7777, 7777, SPARE},
};
static const struct lists EMPTY = {
    {7777, 7777, 7777, 7777, SPARE},
    {7777, 7777, 7777, 7777, 7777, 7777, SPARE},
    {7777, 7777, 7777, 7777, SPARE},
    {7777, 7777, 7777, 7777, 7777, 7777, SPARE},
    {7777, 7777, 7777, SPARE},
    {7777, 7777, 7777, SPARE},
    {7777, 7777, 7777, SPARE},
};
static const uint8_t SHEET[] = {2, 1, 0, 2, 0, 0, 0, 0, 1, 1};

static void expect_sheet(void) {
    struct lists l = EMPTY;
    uint8_t bytes[12], untouched[12];
    size_t count = 55, size = 55;
    memset(untouched, 77, sizeof untouched);
    memcpy(bytes, untouched, sizeof bytes);

    expect("no room for a sheet",
        write_sheet(2, &PAIR, bytes, sizeof SHEET - 1, &count) == SCROLLBOBBIN_NO_ROOM);
    expect("no byte count", count == 0);
    expect("no byte written", memcmp(bytes, untouched, sizeof bytes) == 0);

    expect("a sheet written", write_sheet(2, &PAIR, bytes, sizeof bytes, &count) == SCROLLBOBBIN_DONE);
    expect("its byte count", count == sizeof SHEET);
    expect("its bytes", memcmp(bytes, SHEET, sizeof SHEET) == 0);
    expect("the bytes beyond", memcmp(bytes + 10, untouched + 10, 2) == 0);

    expect("a sheet cut", read_sheet(SHEET, sizeof SHEET - 1, &l, &size) == SCROLLBOBBIN_SHEET_CUT);
    expect("no size", size == 0);
    expect_lists(&l, &EMPTY);

    expect("a sheet read", read_sheet(SHEET, sizeof SHEET, &l, &size) == SCROLLBOBBIN_DONE);
    expect("its size", size == 2);
    expect_lists(&l, &PAIR);
}

int main(void) {
    static const uint16_t rows[] = {0, 2};
    struct lists l = START;
    size_t begin = 55;

    expect("a sound register", check(3, &l) == SCROLLBOBBIN_SOUND);
    expect("a size over the limit", check(SCROLLBOBBIN_MAX_SIZE + 1, &l) == SCROLLBOBBIN_SIZE);

    expect("how many rows column 2 has", look(&l, 2, &begin) == 2);
    expect("where they begin", begin == 3);
    expect("no rows of a column 3", look(&l, 3, &begin) == 0);
    expect("they begin at 0", begin == 0);
    expect_lists(&l, &START);

    expect_reply(replace(&l, 0, rows, LENGTH(rows)), SCROLLBOBBIN_ELIMINATION, 3, 2);
    expect_lists(&l, &ELIMINATED);
    expect("a sound register again", check(3, &l) == SCROLLBOBBIN_SOUND);

    expect_reply(replace(&l, 3, rows, LENGTH(rows)), SCROLLBOBBIN_COLUMN_NUMBER, 0, 0);
    expect_lists(&l, &ELIMINATED);

    expect_sheet();

    printf("%u passed, %u failed\n", passed, failed);
    return failed != 0;
}
