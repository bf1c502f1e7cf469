// A small source with what every source has, and the tree that it comes to.
#ifndef CLSIM_FRONT_KNOWN_H
#define CLSIM_FRONT_KNOWN_H
#include "ast.h"

extern const char known_source[];
bool is_known_tree(arena *a, const tree *t);
// A tree as text: a line for each node, indented by its depth. What a type is, and not what clang calls it.
void write_tree(text *to, const tree *t);
#endif
