// Which commands of a context come after which, and what is told where nothing orders two that touch the same bytes.
//
// A command comes after another one by the order of a queue, by a barrier, by its wait list, or since a call has waited
// for the other one before it was enqueued (OpenCL 1.2, 5.9 to 5.11, 5.13, A.1). The commands of a context are kept as
// chains, in each of which one comes after the other: a moment says of each chain how many of its commands are before.
#ifndef CLSIM_ORDER_H
#define CLSIM_ORDER_H
#include <CL/cl.h>
#include <stdbool.h>
#include <stddef.h>

enum { CHAINS = 32 };
typedef struct {
    cl_ulong at[CHAINS];
} moment;

// Lets a moment be behind another one too.
static inline void come_after(moment *m, const moment *other) {
    for (int i = 0; i < CHAINS; i++)
        if (m->at[i] < other->at[i]) m->at[i] = other->at[i];
}

// A rectangle in a buffer or in the client's memory: `count` rows of `width` bytes, `rows` of them in each slice.
typedef struct {
    size_t first, width, rows, count, row, slice; // `row` and `slice` are from one to the next
} rectangle;

// The first byte of a row. They ascend, and rows have no byte in common.
static inline size_t row_at(const rectangle *a, size_t n) {
    return a->first + n / a->rows * a->slice + n % a->rows * a->row;
}
static inline rectangle range_of(size_t first, size_t n) {
    return (rectangle){.first = first, .width = n, .rows = 1, .count = 1};
}
// Whether two rectangles in parts of one buffer that begin somewhere have a byte in common.
bool overlap(size_t begin, const rectangle *a, size_t other_begin, const rectangle *b);

typedef struct buffer_access buffer_access;
struct command;
// Puts a command that begins into a chain, behind all that it comes after.
void take_place(struct command *c);
// Looks at what a command that is done has accessed, and tells where another order could change that.
void note_accesses(struct command *c);
// Looks at what a command that begins accesses, and tells where a mapping makes that undefined (OpenCL 1.2, 5.4.3).
void look_at_mappings(struct command *c);
void free_accesses(buffer_access *list);
// The call that commands of a type come from.
const char *name_of_call(cl_command_type type);
#endif
