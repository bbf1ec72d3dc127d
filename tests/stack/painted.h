/* A stack of its own for one call, painted beforehand: the lowest byte that is no longer painted
 * tells how deep the call went. It rests on a stack that grows downwards. */
#ifndef PAINTED_H
#define PAINTED_H

#include <stddef.h>

/* Room for many times what a call may take. */
#define PAINTED_SIZE 262144

/* The two paints. A call that writes a byte of the one has not written the other. */
#define PAINT_ONE 0xA5
#define PAINT_TWO 0x5A

/* Where the counting begins: the frame of the work in which this stands. */
#define COUNT_FROM_HERE() (painted_from = __builtin_frame_address(0))
extern unsigned char *painted_from;

/* Runs the work, which has to count from somewhere, on the stack in one paint, and tells how many
 * bytes below there it went. */
size_t painted_depth(unsigned char paint, void (*work)(void));

#endif
