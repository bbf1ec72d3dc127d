/* The five functions as works for the painted stack: each calls one function on what is lent now.
 * An idle function can stand in for each, to see what the call alone takes. */
#ifndef DESK_H
#define DESK_H

#include "lent.h"

struct function {
    const char *name;
    void (*work)(void);
    /* How many arguments do not fit into the six registers. */
    size_t on_stack;
};

extern const struct function CHECK, LOOK, REPLACE, WRITE_SHEET, READ_SHEET;

/* What the next call is given, what the last one replied, and the first number that it told. */
extern struct lent now;
extern size_t reply, number;

/* From now on the idle function is called, or the library. */
void call_idle(void);
void call_library(void);

#endif
