/* The check and the look. */
#include "cases.h"
#include "damage.h"
#include "measure.h"
#include "registers.h"

void measure_checks(void) {
    for (size_t at = 0; at < PATTERN_COUNT; at++) {
        PATTERNS[at].lay(&now);
        measure(&CHECK, PATTERNS[at].name, "sound", SCROLLBOBBIN_SOUND);
    }
    measure_damaged(&CHECK);
    tell_deepest(&CHECK);
}

void measure_looks(void) {
    for (size_t at = 0; at < PATTERN_COUNT; at++) {
        const char *pattern = PATTERNS[at].name;
        PATTERNS[at].lay(&now);
        now.column = now.size - 1;
        measure(&LOOK, pattern, "the rows of the last column",
            (size_t) (now.col_starts[now.size] - now.col_starts[now.size - 1]));
        now.column = now.size;
        measure(&LOOK, pattern, "no such column", 0);
        now.size = SCROLLBOBBIN_MAX_SIZE + 1;
        measure(&LOOK, pattern, "no such size", 0);
    }
    tell_deepest(&LOOK);
}
