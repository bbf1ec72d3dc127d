/* The replacement: every verdict on every register, and every refusal. */
#include "cases.h"
#include "damage.h"
#include "measure.h"
#include "registers.h"

#include <string.h>

enum { LAST = SCROLLBOBBIN_MAX_SIZE - 1 };

/* A new column by places: where the old one stands, and the rows of two places or of one. */
struct spike {
    const char *what;
    size_t place, row_place, other_row_place;
    size_t verdict;
    int order_changes;
};

/* In each register place 1 reaches all places but place 0, and places 998 and 999 are linked, so
 * that their rows can be exchanged. No total rises. */
static const struct spike SPIKES[] = {
    {"SINGULAR", 1, 0, 0, SCROLLBOBBIN_SINGULAR, 0},
    {"PERMUTED in the same order", 0, 0, 0, SCROLLBOBBIN_PERMUTED, 0},
    {"PERMUTED in another order", LAST - 1, LAST, LAST, SCROLLBOBBIN_PERMUTED, 1},
    {"ELIMINATION", 1, 1, LAST, SCROLLBOBBIN_ELIMINATION, 1},
};

/* Of the chain alone: every column gives its row to the one before. In the others there is more than
 * one way from place 1 to the last, which shows only once a new order has been tried. */
static const struct spike ALL_MOVE =
    {"PERMUTED along the whole chain", 0, LAST, LAST, SCROLLBOBBIN_PERMUTED, 1};
static const struct spike MANY_WAYS =
    {"ELIMINATION for the last row alone", 1, LAST, LAST, SCROLLBOBBIN_ELIMINATION, 1};

static void put(size_t place, size_t row_place, size_t other_row_place) {
    uint16_t row = now.order_rows[row_place], other = now.order_rows[other_row_place];
    now.column = now.order_cols[place];
    now.new_rows[0] = row < other ? row : other;
    now.new_rows[1] = row < other ? other : row;
    now.new_rows_length = row == other ? 1 : 2;
}

static int same_order(const struct lent *laid) {
    return memcmp(laid->order_rows, now.order_rows, sizeof now.order_rows) == 0
        && memcmp(laid->order_cols, now.order_cols, sizeof now.order_cols) == 0;
}

static void measure_spike(const struct pattern *pattern, const struct spike *spike) {
    static struct lent laid;
    pattern->lay(&laid);
    now = laid;
    put(spike->place, spike->row_place, spike->other_row_place);
    measure(&REPLACE, pattern->name, spike->what, spike->verdict);
    expect(spike->order_changes == !same_order(&laid), "the order was to change, or to stay");
}

static void measure_refused(void) {
    const struct pattern *band = &PATTERNS[BAND];
    band->lay(&now);
    now.eta_length = LAST;
    measure(&REPLACE, band->name, "a short eta list", SCROLLBOBBIN_SHORT_LIST);

    band->lay(&now);
    now.column = now.size;
    measure(&REPLACE, band->name, "no such column", SCROLLBOBBIN_COLUMN_NUMBER);

    band->lay(&now);
    memcpy(now.new_rows, now.order_rows, sizeof now.new_rows);
    now.new_rows[LAST] = 0;
    now.new_rows_length = SCROLLBOBBIN_MAX_SIZE;
    measure(&REPLACE, band->name, "new rows that fall at the end", SCROLLBOBBIN_NEW_COLUMN);

    band->lay(&now);
    put(0, 0, LAST);
    measure(&REPLACE, band->name, "a total of 12,001", SCROLLBOBBIN_NO_ROOM);
}

void measure_replacements(void) {
    for (size_t at = 0; at < PATTERN_COUNT; at++) {
        for (size_t spike = 0; spike < sizeof SPIKES / sizeof *SPIKES; spike++) {
            measure_spike(&PATTERNS[at], &SPIKES[spike]);
        }
    }
    for (size_t at = 0; at < PATTERN_COUNT; at++) {
        measure_spike(&PATTERNS[at], at == CHAIN ? &ALL_MOVE : &MANY_WAYS);
    }
    measure_damaged(&REPLACE);
    measure_refused();
    tell_deepest(&REPLACE);
}
