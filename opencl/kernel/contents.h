// The bytes of arguments.
#ifndef CLSIM_KERNEL_CONTENTS_H
#define CLSIM_KERNEL_CONTENTS_H
#include "request.h"

typedef struct {
    unsigned char *at; // NULL: all are zero
    size_t size;
    element type;
} contents;

// What an argument that has bytes comes to. A type that isn't given is `otherwise`; NULL where there is none. At most
// `most` bytes; a buffer's, or a value's: `size` then says how many these have to be, else it is 0. The number `salt`
// belongs to the argument: by it the numbers by chance of two arguments differ.
contents contents_of(arena *a, const given *g, const element *otherwise, size_t size, uint64_t most, uint64_t salt);
#endif
