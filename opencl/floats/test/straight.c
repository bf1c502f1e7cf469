// Writes floats.cl with the texts that have no branches (front/straight.c) where there are such, to be tested like it.
#include "../../front/straight.h"
#include <stdio.h>

int main(void) {
    arena a = {NULL};
    text all = {.arena = &a};
    if (setjmp(a.failed)) return 1;
    const bool *straight = find_straight(&a);
    for (unsigned i = 0; i < helper_count(); i++) {
        if (straight[i]) add_straight(&a, &all, helper_at(i));
        else add(&all, helper_at(i)->text);
    }
    fputs(all.at, stdout);
    free_arena(&a);
    return 0;
}
