// Faults as JSON in the client's terms (CLSIM_JSON): what `clsim explain` tells, with the places, the names and the
// arguments of the client's source (docs/use/host-programs.md).
#ifndef CLSIM_EXPLAINED_H
#define CLSIM_EXPLAINED_H
#include "json.h"
#include "objects.h"

// A fault, with what is told of it.
typedef struct {
    cl_kernel kernel;
    const launch_sizes *sizes;
    const char *reply;      // the device's line
    json explanation;       // of `clsim explain`; it isn't there where the fault isn't explained
    const char *held_reply; // of a fault that is one by the flags of its buffer: its line in front of its schedule
    bool is_ordered;        // the launch is no fault, but ordered: the line is that without the word `orders`, if known
} told_fault;
// What is said of a launch that is ordered.
#define ORDERED_WORDS "its result depends on the order of its work-items; it goes on with the bytes of one order"

// Writes it to the end of the file that CLSIM_JSON names. Nothing without that setting.
void write_explanation(const told_fault *f);
// Whether a place, or a call of a helper round it, is a part of the turn before, in the client's source, of a loop.
bool is_turn_before(cl_kernel k, json spot, json loop);
#endif
