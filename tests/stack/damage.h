/* Damage to the band, by which every function that checks a register refuses it. */
#ifndef DAMAGE_H
#define DAMAGE_H

#include "desk.h"

/* Measures the function on the band with the fault of each refusal from 1 to 5. */
void measure_damaged(const struct function *function);

#endif
