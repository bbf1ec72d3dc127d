/* The deepest stack of each exported function. First the measure itself is tried on functions whose
 * depth is known. */
#include "cases.h"
#include "desk.h"
#include "measure.h"
#include "painted.h"

#include <stdio.h>

/* What may be on the stack besides what is known to be: registers that a compiler keeps there, and
 * places left free so that the stack pointer is a multiple of 16. */
#define SLACK 128

static void measure_idle(const struct function *function) {
    size_t known = call_alone(function);
    size_t depth = idle_depth(function);
    printf("    idle in the shape of %s: %zu bytes, the call alone %zu\n", function->name, depth, known);
    expect(depth >= known, "an argument or the return address is not counted");
    expect(depth < known + SLACK, "more is counted than the call");
}

/* All it writes is one of the paints, which the other has to show. */
static void use_known(void) {
    volatile unsigned char bytes[LIMIT];
    for (size_t place = 0; place < LIMIT; place++) {
        bytes[place] = PAINT_ONE;
    }
    reply = bytes[0];
}

static void call_known(void) {
    COUNT_FROM_HERE();
    use_known();
}

static void measure_known(void) {
    size_t depth = depth_of(call_known);
    printf("    a function with a list of %d bytes: %zu bytes\n", LIMIT, depth);
    expect(depth >= LIMIT, "a byte of the list is not counted");
    expect(depth < LIMIT + SLACK, "more is counted than the list");
}

int main(void) {
    puts("the measure itself");
    measure_known();
    measure_idle(&CHECK);
    measure_idle(&LOOK);
    measure_idle(&REPLACE);
    measure_idle(&WRITE_SHEET);
    measure_idle(&READ_SHEET);

    measure_checks();
    measure_looks();
    measure_replacements();
    measure_writes();
    measure_reads();
    printf("%u passed, %u failed\n", passed, failed);
    return failed != 0;
}
