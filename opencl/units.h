// Compiled sources as bytes: what a program holds of them between its compiling and a link, and its binary.
#ifndef CLSIM_UNITS_H
#define CLSIM_UNITS_H
#include "front/ast.h"

// Adds a source that is compiled, or is in Clsim's language.
void add_unit(text *t, const client_source *source);
// The sources of some bytes; NULL where they aren't whole. They live in the arena.
client_source *read_units(arena *a, const char *bytes, size_t length, unsigned *count);
#endif
