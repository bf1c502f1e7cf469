// Clang's text dump of a tree (`-ast-dump`), line by line.
#ifndef CLSIM_FRONT_DUMP_H
#define CLSIM_FRONT_DUMP_H
#include "child.h"

typedef enum {
    NODE_LINE,  // a node with its number
    NULL_LINE,  // a part that isn't there
    VALUE_LINE, // a constant's value: `rest`
    OTHER_LINE, // a line without a number, as clang writes below some nodes
    NO_LINE,    // the end of the dump
    BROKEN_LINE // what is no line of a dump, or half of one; the child's time may have run out
} line_kind;

// A place in the text that was dumped; row 0 where clang tells none.
typedef struct {
    unsigned row, column;
} position;

typedef struct {
    line_kind kind;
    unsigned depth;
    const char *word; // clang's word for the kind of node
    size_t length;    // of the word
    uint64_t id;
    uint64_t previous;   // the declaration that it declares again, 0 where there is none
    position begin, end; // its first byte, and that of its last word
    position own;        // the first byte of a declaration's name
    bool is_filler;      // of the elements of an array that no value is given for
    const char *rest;    // what stands behind the places, without spaces in front
} dump_line;

typedef struct {
    child *child;
    arena *arena;
    char *room;
    size_t size, begin, end;
    uint64_t most, total; // bytes that may come, and those that came
    bool is_at_end;
    bool is_in_text; // the last place that was written is in the text that was dumped
    unsigned row;    // and its row
} dump;

void open_dump(dump *d, child *c, arena *a, uint64_t most);
// The next line. Its texts stay until the next one is read.
dump_line next_line(dump *d);
// The value of a decimal number, moved behind it. False where there is none, or it has more than 64 bits.
bool read_number(const char **s, uint64_t *to);
#endif
