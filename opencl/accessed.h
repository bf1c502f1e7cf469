// The numbers that accesses of an explanation move, in the client's types.
#ifndef CLSIM_ACCESSED_H
#define CLSIM_ACCESSED_H
#include "json.h"
#include "objects.h"

// Where in an object of memory a fault lies, as its line has it: at a byte, or at an element, which may be outside.
typedef struct {
    const char *name; // of the buffer or the local object
    size_t length;    // of the name
    bool is_local;
    unsigned long group, byte;
    const char *element; // its number as text, NULL where it is a byte
} memory_place;

// What a step of an explanation loads or stores, in the client's words: `data[1] = 0.1f`. False where it moves no
// number, or the client has no name for its memory.
bool put_accessed(char *room, size_t n, cl_kernel k, json step);
// The client's name of a number in local memory, of so many bytes from one on, by the name that the judged text has for
// the object: `t[1]`. False where that is no number of the client's there.
bool put_local_name(char *room, size_t n, const kernel_form *form, const char *object, uint64_t byte, uint64_t bytes);
// Tells that of the step that is the event of an item. Nothing where the explanation hasn't that.
void tell_accessed(cl_kernel k, json explanation, json item);
#endif
