/* The sheet written and read. */
#include "cases.h"
#include "damage.h"
#include "measure.h"
#include "registers.h"

/* The register, its sheet and no byte more. */
static void lay_sheet(const struct pattern *pattern) {
    pattern->lay(&now);
    call_library();
    WRITE_SHEET.work();
    now.sheet_length = number;
}

void measure_writes(void) {
    for (size_t at = 0; at < PATTERN_COUNT; at++) {
        PATTERNS[at].lay(&now);
        measure(&WRITE_SHEET, PATTERNS[at].name, "written", SCROLLBOBBIN_DONE);
        now.sheet_length = number - 1;
        measure(&WRITE_SHEET, PATTERNS[at].name, "a byte too few", SCROLLBOBBIN_NO_ROOM);
    }
    measure_damaged(&WRITE_SHEET);
    tell_deepest(&WRITE_SHEET);
}

/* One byte of the band's sheet, counted from its end, becomes another. */
static void measure_changed(const char *what, size_t from_end, uint8_t byte, size_t wanted) {
    uint8_t *changed = &now.sheet[now.sheet_length - from_end], kept = *changed;
    *changed = byte;
    measure(&READ_SHEET, PATTERNS[BAND].name, what, wanted);
    *changed = kept;
}

/* In the order t:t the last number is 999, which is e7 07, in both lists. */
static void measure_refused(void) {
    lay_sheet(&PATTERNS[BAND]);
    measure_changed("the last row again as 998", 4, 0xe6, SCROLLBOBBIN_ORDER_UNSOUND);
    measure_changed("the last column as 1,000", 2, 0xe8, SCROLLBOBBIN_SHEET_RANGE);
    measure_changed("the last number ends in zero", 1, 0x00, SCROLLBOBBIN_SHEET_NUMBER);
    measure_changed("the last number does not end", 1, 0x87, SCROLLBOBBIN_SHEET_CUT);
    measure_changed("no size", now.sheet_length, 0x00, SCROLLBOBBIN_SIZE);

    now.order_length--;
    measure(&READ_SHEET, PATTERNS[BAND].name, "short lists", SCROLLBOBBIN_SHORT_LIST);
    now.order_length++;
    now.sheet_length++;
    measure(&READ_SHEET, PATTERNS[BAND].name, "a byte too many", SCROLLBOBBIN_SHEET_SURPLUS);
}

void measure_reads(void) {
    for (size_t at = 0; at < PATTERN_COUNT; at++) {
        lay_sheet(&PATTERNS[at]);
        measure(&READ_SHEET, PATTERNS[at].name, "read", SCROLLBOBBIN_DONE);
        now.sheet_length--;
        measure(&READ_SHEET, PATTERNS[at].name, "a byte too few", SCROLLBOBBIN_SHEET_CUT);
    }
    measure_refused();
    tell_deepest(&READ_SHEET);
}
