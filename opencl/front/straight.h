// The helpers of opencl/floats as text in which no number decides where it goes on.
#ifndef CLSIM_FRONT_STRAIGHT_H
#define CLSIM_FRONT_STRAIGHT_H
#include "../arena.h"
#include "floats.h"

// Of each helper whether it has such a text: it has no loop, nor has what it calls.
const bool *find_straight(arena *a);
// Adds that text of a helper that has it: what each call gives is the same.
void add_straight(arena *a, text *to, const helper *h);
// Whether that text calls whole_quotient: it stands in the place of a division.
bool divides_straight(const helper *h);
#endif
