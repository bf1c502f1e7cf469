// Makes the tree of the lines of clang's dump.
#ifndef CLSIM_FRONT_NODES_H
#define CLSIM_FRONT_NODES_H
#include "dump.h"
#include "places.h"

// A declaration of this name stands at the end of the text that clang reads: a dump without it isn't whole.
#define LAST_NAME "clsim_end_of_source"

// Reads a dump to its end. NULL where the tree is read, else what is wrong with the dump.
const char *read_nodes(arena *a, dump *d, rows *r, tree *t);
#endif
