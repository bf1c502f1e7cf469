// Launches whose result depends on the order of their items (CLSIM_ORDERS; docs/use/script.md, "Launches with orders").
#ifndef CLSIM_ORDERED_H
#define CLSIM_ORDERED_H
#include "objects.h"

// Whether a launch of a kernel has the word `orders` from the start: each has, or one of the kernel was ordered before,
// which is told already.
bool begins_with_orders(cl_kernel k);
// Whether a launch of a kernel that is answered so is made once more, with the word.
bool is_made_again(cl_kernel k, const char *reply);
// Notes that the newest launch of a context, one of this kernel, was answered `ordered`. Whether it is to be told: it
// is the first one of the kernel.
bool note_ordered(cl_kernel k);
// Tells which launches of a context were ordered, and lets that go.
void tell_ordered_launches(cl_context c);
#endif
