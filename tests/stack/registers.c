/* Each register is marked in a table by places and then listed by columns and by rows. */
#include "registers.h"

#include <string.h>

enum { SIZE = SCROLLBOBBIN_MAX_SIZE, TOTAL = SCROLLBOBBIN_MAX_TOTAL };

/* Whether there is an entry, by row and column. */
static unsigned char present[SIZE][SIZE];
static size_t total;

static void mark(const struct lent *lent, size_t early, size_t late) {
    unsigned char *entry = &present[lent->order_rows[early]][lent->order_cols[late]];
    total += !*entry;
    *entry = 1;
}

/* An empty pattern in the order t:t, with every list lent in full. */
static void begin(struct lent *lent) {
    memset(present, 0, sizeof present);
    memset(lent, 0, sizeof *lent);
    total = 0;
    lent->size = lent->order_length = lent->eta_length = SIZE;
    lent->sheet_length = MAX_SHEET;
    for (size_t place = 0; place < SIZE; place++) {
        lent->order_rows[place] = lent->order_cols[place] = (uint16_t) place;
    }
}

static void list_both(struct lent *lent) {
    size_t by_column = 0, by_row = 0;
    for (size_t line = 0; line < SIZE; line++) {
        for (size_t other = 0; other < SIZE; other++) {
            if (present[other][line]) {
                lent->col_rows[by_column++] = (uint16_t) other;
            }
            if (present[line][other]) {
                lent->row_cols[by_row++] = (uint16_t) other;
            }
        }
        lent->col_starts[line + 1] = (uint16_t) by_column;
        lent->row_starts[line + 1] = (uint16_t) by_row;
    }
}

static void mark_chain(const struct lent *lent) {
    for (size_t place = 0; place < SIZE; place++) {
        mark(lent, place, place);
        if (place > 0) {
            mark(lent, place - 1, place);
        }
    }
}

static void lay_chain(struct lent *lent) {
    begin(lent);
    mark_chain(lent);
    list_both(lent);
}

/* Each column has the first few rows of the order and then those nearest before it. The first
 * eleven columns have too few before them; the 66 entries that this leaves out go to the last. */
static void mark_band(const struct lent *lent, size_t first) {
    for (size_t late = 0; late < SIZE; late++) {
        size_t wanted = total + (late < SIZE - 66 ? 12 : 13);
        for (size_t early = 0; early < first && early <= late; early++) {
            mark(lent, early, late);
        }
        for (size_t early = late + 1; early-- > 0 && total < wanted;) {
            mark(lent, early, late);
        }
    }
}

static void lay_band(struct lent *lent) {
    begin(lent);
    mark_band(lent, 0);
    list_both(lent);
}

/* A generator of random numbers by Marsaglia (xorshift). */
static size_t below(size_t limit) {
    static uint32_t state = 20170417;
    state ^= state << 13;
    state ^= state >> 17;
    state ^= state << 5;
    return state % limit;
}

static void shuffle(uint16_t *list) {
    for (size_t place = SIZE; place-- > 1;) {
        size_t other = below(place + 1);
        uint16_t number = list[place];
        list[place] = list[other];
        list[other] = number;
    }
}

static void lay_scattered(struct lent *lent) {
    begin(lent);
    shuffle(lent->order_rows);
    shuffle(lent->order_cols);
    mark_chain(lent);
    while (total < TOTAL) {
        size_t late = 1 + below(SIZE - 1);
        mark(lent, below(late), late);
    }
    list_both(lent);
}

static void lay_spread(struct lent *lent) {
    begin(lent);
    for (size_t place = 0; place < 7; place++) {
        uint16_t row = lent->order_rows[128 + 129 * place];
        memmove(lent->order_rows + place + 1, lent->order_rows + place, (row - place) * sizeof row);
        lent->order_rows[place] = row;
    }
    mark_band(lent, 7);
    list_both(lent);
}

const struct pattern PATTERNS[PATTERN_COUNT] = {
    {"chain", lay_chain},
    {"band", lay_band},
    {"scattered", lay_scattered},
    {"spread", lay_spread},
};
