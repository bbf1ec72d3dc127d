/* The measuring and the counting. */
#include "measure.h"

#include "painted.h"

#include <stdio.h>

unsigned passed, failed;

static size_t deepest;

void expect(int holds, const char *what) {
    if (holds) {
        passed++;
    } else {
        failed++;
        printf("FAILED: %s\n", what);
    }
}

size_t depth_of(void (*work)(void)) {
    static struct lent before;
    size_t one, two;
    before = now;
    one = painted_depth(PAINT_ONE, work);
    now = before;
    two = painted_depth(PAINT_TWO, work);
    return one > two ? one : two;
}

size_t call_alone(const struct function *function) {
    return (function->on_stack + 1) / 2 * 16 + 8;
}

size_t idle_depth(const struct function *function) {
    size_t depth;
    call_idle();
    depth = depth_of(function->work);
    call_library();
    return depth;
}

void measure(const struct function *function, const char *pattern, const char *what, size_t wanted) {
    size_t besides = idle_depth(function) - call_alone(function);
    size_t depth = depth_of(function->work) - besides;
    printf("    %s, %s: reply %zu, %zu bytes\n", pattern, what, reply, depth);
    expect(reply == wanted, "another reply was meant");
    deepest = depth > deepest ? depth : deepest;
}

void tell_deepest(const struct function *function) {
    printf("%s: %zu bytes of stack at most\n", function->name, deepest);
    expect(deepest <= LIMIT, "more than 8,192 bytes of stack");
    deepest = 0;
}
