/* The painted stack, by the contexts of POSIX.1-2001. */
#define _XOPEN_SOURCE 600
#include "painted.h"

#include <string.h>
#include <ucontext.h>

unsigned char *painted_from;

static unsigned char stack[PAINTED_SIZE];

size_t painted_depth(unsigned char paint, void (*work)(void)) {
    static ucontext_t outside, inside;
    size_t lowest = 0;
    memset(stack, paint, sizeof stack);
    getcontext(&inside);
    inside.uc_stack.ss_sp = stack;
    inside.uc_stack.ss_size = sizeof stack;
    inside.uc_link = &outside;
    makecontext(&inside, work, 0);
    swapcontext(&outside, &inside);
    while (lowest < sizeof stack && stack[lowest] == paint) {
        lowest++;
    }
    return (size_t) (painted_from - (stack + lowest));
}
