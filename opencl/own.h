// Programs in Clsim's language: what the driver has to know of them.
#ifndef CLSIM_OWN_H
#define CLSIM_OWN_H
#include "source.h"

// Whether the device takes a text as it is. It forgets it again, and nothing of it is recorded.
bool is_own_program(prepared *p, session *device);
// Lists the kernels of a text that the device takes, with their parameters and their objects in local memory. False,
// and none is listed, where the name of one is longer than those of a script.
bool list_own_kernels(prepared *p);
#endif
