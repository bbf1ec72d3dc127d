/* One call measured in both paints, what it is meant to reply, and the deepest of each function. */
#ifndef MEASURE_H
#define MEASURE_H

#include "desk.h"

/* What a call of any function may take. */
#define LIMIT 8192

extern unsigned passed, failed;

/* One test, told where it fails. */
void expect(int holds, const char *what);

/* The work on what is lent now, which stands there again as it was for the second paint and as the
 * call left it afterwards. */
size_t depth_of(void (*work)(void));

/* What a call takes before the function itself takes anything: the arguments that are not in
 * registers, in multiples of 16 bytes, and the return address. */
size_t call_alone(const struct function *function);

/* The depth of the idle function in the shape of this one. It is that of the call alone, and what
 * the work has on the stack besides. */
size_t idle_depth(const struct function *function);

/* Measures one call, without what the work has on the stack besides; tells it by the register and
 * what is done; and expects the reply. */
void measure(const struct function *function, const char *pattern, const char *what, size_t wanted);

/* Tells the deepest call of a function since the last was told, and expects it within the limit. */
void tell_deepest(const struct function *function);

#endif
