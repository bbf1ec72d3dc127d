/*
 * How a C program keeps a basis: a register of size 3, the four replacements of examples/paper.txt,
 * and the sheet of what came of them, written and read back. It prints examples/replace.out. The
 * functions are those of include/scrollbobbin.h, which tells them in full.
 *
 *     tests/library
 *     cc -I include -o target/replace examples/replace.c target/staticlib/libcabi.a
 *     target/replace
 */
#include "scrollbobbin.h"

#include <stdio.h>
#include <string.h>

/* A pattern of this size has 9 entries at most, so lists of 9 places always have room. No register
 * has more than SCROLLBOBBIN_MAX_TOTAL. */
#define SIZE 3
#define ROOM (SIZE * SIZE)

/* The library keeps nothing: the register is in lists of ours, which we lend at each call. */
struct basis {
    uint16_t col_starts[SIZE + 1], col_rows[ROOM];
    uint16_t row_starts[SIZE + 1], row_cols[ROOM];
    uint16_t order_rows[SIZE], order_cols[SIZE];
};

/* A list as it is passed: the pointer, and how many places there are. */
#define LENT(list) (list), sizeof (list) / sizeof *(list)
#define BASIS(b) \
    LENT((b)->col_starts), LENT((b)->col_rows), LENT((b)->row_starts), LENT((b)->row_cols), \
    LENT((b)->order_rows), LENT((b)->order_cols)

/* Replaces a column and prints what came of it, in the words of the desk. */
static void put(struct basis *basis, size_t column, const uint16_t *new_rows, size_t count) {
    static const char *const verdicts[] = {"SINGULAR", "PERMUTED", "ELIMINATION"};
    uint16_t eta[SIZE];
    size_t bump, eta_count;
    size_t reply = scrollbobbin_replace(
        SIZE, BASIS(basis), column, new_rows, count, LENT(eta), &bump, &eta_count);

    /* A refusal has changed nothing, and the next call goes on from the same register. */
    if (reply < SCROLLBOBBIN_SINGULAR) {
        printf("put %zu REFUSED %zu\n", column, reply);
        return;
    }
    /* After PERMUTED a solver has nothing to compute. After ELIMINATION it clears the row paired
     * with the column by the eta rows, each with a factor of its own. SINGULAR changes nothing. */
    printf("put %zu %s %zu eta", column, verdicts[reply - SCROLLBOBBIN_SINGULAR], bump);
    for (size_t at = 0; at < eta_count; at++) {
        printf(" %u", (unsigned) eta[at]);
    }
    /* Back substitution takes the pairs from the last place to the first. */
    printf("%s order", eta_count == 0 ? " -" : "");
    for (size_t place = 0; place < SIZE; place++) {
        printf(" %u:%u", (unsigned) basis->order_rows[place], (unsigned) basis->order_cols[place]);
    }
    printf("\n");
}

/* Whether two registers are the same. The places past the total are no part of a register. */
static int same(const struct basis *a, const struct basis *b) {
    size_t entries = a->col_starts[SIZE] * sizeof *a->col_rows;
    return memcmp(a->col_starts, b->col_starts, sizeof a->col_starts) == 0
        && memcmp(a->col_rows, b->col_rows, entries) == 0
        && memcmp(a->row_starts, b->row_starts, sizeof a->row_starts) == 0
        && memcmp(a->row_cols, b->row_cols, entries) == 0
        && memcmp(a->order_rows, b->order_rows, sizeof a->order_rows) == 0
        && memcmp(a->order_cols, b->order_cols, sizeof a->order_cols) == 0;
}

/* Writes the register to its sheet, as for another office, and reads that as the office would. */
static int there_and_back(const struct basis *basis) {
    struct basis other;
    uint8_t sheet[64];
    size_t count, size;
    if (scrollbobbin_write_sheet(SIZE, BASIS(basis), LENT(sheet), &count) != SCROLLBOBBIN_DONE) {
        return 0;
    }
    printf("sheet");
    for (size_t at = 0; at < count; at++) {
        printf(" %02x", (unsigned) sheet[at]);
    }
    printf("\n");
    /* What the lists held before does not matter, so `other` has not been set. */
    return scrollbobbin_read_sheet(sheet, count, BASIS(&other), &size) == SCROLLBOBBIN_DONE
        && size == SIZE && same(basis, &other);
}

int main(void) {
    /* The columns {0}, {0, 1} and {1, 2}; by rows {0, 1}, {1, 2} and {2}. Row t is paired with
     * column t. The places past the five entries are for the replacements to come. */
    struct basis basis = {
        {0, 1, 3, 5}, {0, 0, 1, 1, 2},
        {0, 2, 4, 5}, {0, 1, 1, 2, 2},
        {0, 1, 2}, {0, 1, 2},
    };
    put(&basis, 0, (const uint16_t[]) {0, 2}, 2);
    put(&basis, 0, (const uint16_t[]) {1, 2}, 2);
    put(&basis, 2, (const uint16_t[]) {0}, 1);
    put(&basis, 3, (const uint16_t[]) {0}, 1);

    if (!there_and_back(&basis)) {
        printf("the sheet does not hold the register\n");
        return 1;
    }
    printf("the register read back is the same\n");
    return 0;
}
