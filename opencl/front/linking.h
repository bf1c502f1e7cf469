// Several sources as one program.
#ifndef CLSIM_FRONT_LINKING_H
#define CLSIM_FRONT_LINKING_H
#include "translate.h"

// Makes one tree of several, in which each name that one leaves open stands for what another one defines (C99, 6.9).
// What nobody defines stays open. The names in the trees change. False where there is one that two of them define, or
// one that is declared in another way than it is defined: then `wrong` says where.
bool link_trees(arena *a, tree *const *trees, unsigned count, tree *to, refusal *wrong);
#endif
