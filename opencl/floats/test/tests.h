// What the tests share: counting, and arguments by chance.
#ifndef TESTS_H
#define TESTS_H

#include "host.h"
#include <stdbool.h>
#include <stdio.h>

// How many comparisons came out otherwise than they should. The first ones are told.
extern unsigned long failures;

// Tells a wrong answer: the operation, up to three arguments, what came and what should have, all as bits.
void tell(const char *operation, const ulong *arguments, ulong came, ulong wanted);

// 64 bits by chance, the same in each run with one seed.
ulong chance(void);
void set_seed(ulong seed);

// The bits of a format with `fraction` bits of fraction in a word of `width` bits, chosen so that corners are frequent:
// zeros, infinities, NaNs, the ends of the exponents, fractions of few bits, exponents near that of `near`.
ulong chosen(int width, int fraction, ulong near);

#endif
