/* The damage, each to a band laid anew. */
#include "damage.h"

#include "measure.h"
#include "registers.h"

enum { LAST = SCROLLBOBBIN_MAX_SIZE - 1 };

/* The fault stands at the far end where it can, so that it is found last. */
static void lay_damaged(size_t refusal) {
    uint16_t *last_entry = &now.row_cols[SCROLLBOBBIN_MAX_TOTAL - 1];
    PATTERNS[BAND].lay(&now);
    switch (refusal) {
    case SCROLLBOBBIN_SIZE:
        now.size = SCROLLBOBBIN_MAX_SIZE + 1;
        break;
    case SCROLLBOBBIN_SHORT_LIST:
        now.order_length = LAST;
        break;
    case SCROLLBOBBIN_MALFORMED_LISTING:
        *last_entry = SCROLLBOBBIN_MAX_SIZE;
        break;
    case SCROLLBOBBIN_LISTINGS_DIFFER:
        *last_entry = 0;
        break;
    case SCROLLBOBBIN_ORDER_UNSOUND:
        now.order_rows[LAST] = LAST - 1;
        break;
    }
}

void measure_damaged(const struct function *function) {
    for (size_t refusal = SCROLLBOBBIN_SIZE; refusal <= SCROLLBOBBIN_ORDER_UNSOUND; refusal++) {
        lay_damaged(refusal);
        measure(function, PATTERNS[BAND].name, "damaged", refusal);
    }
}
