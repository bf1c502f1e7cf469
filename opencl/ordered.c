#include "ordered.h"
#include <stdio.h>
#include <stdlib.h>
#include <string.h>

enum { MOST_RANGES = 16 };

// The launches of a kernel that were ordered, by their numbers in the context. The kernel is known by its program's
// number and its own name, whatever objects the client has for it.
struct ordered_kernel {
    struct ordered_kernel *next;
    unsigned program, range_count;
    struct {
        unsigned first, last;
    } ranges[MOST_RANGES];
    unsigned left; // how many have no place there
    char name[];
};

static ordered_kernel *entry_of(cl_kernel k) {
    for (ordered_kernel *o = k->context->ordered; o; o = o->next)
        if (o->program == k->program_number && !strcmp(o->name, k->form->name)) return o;
    return NULL;
}

bool begins_with_orders(cl_kernel k) {
    return session_has_orders(k->context->session) && (orders_wanted() == ORDERS_ALWAYS || entry_of(k));
}

bool is_made_again(cl_kernel k, const char *reply) {
    return session_has_orders(k->context->session) && !strncmp(reply, "fault 2 order ", 14);
}

// The entry of a kernel that has none; NULL where memory is refused.
static ordered_kernel *add_kernel(cl_kernel k) {
    size_t n = strlen(k->form->name) + 1;
    ordered_kernel *o = calloc(1, sizeof *o + n), **end = &k->context->ordered;
    if (!o) return NULL;
    o->program = k->program_number;
    memcpy(o->name, k->form->name, n);
    while (*end) end = &(*end)->next;
    return *end = o;
}

bool note_ordered(cl_kernel k) {
    unsigned number = k->context->launches;
    ordered_kernel *known = entry_of(k), *o = known ? known : add_kernel(k);
    count_ordered();
    if (!o) return true;
    bool goes_on = o->range_count && !o->left && o->ranges[o->range_count - 1].last + 1 == number;
    if (goes_on) o->ranges[o->range_count - 1].last = number;
    else if (o->range_count == MOST_RANGES) o->left++;
    else {
        o->ranges[o->range_count].first = o->ranges[o->range_count].last = number;
        o->range_count++;
    }
    return !known;
}

static void tell_kernel(const ordered_kernel *o) {
    char all[MOST_RANGES * 32 + 64];
    size_t at = 0;
    for (unsigned i = 0; i < o->range_count; i++) {
        unsigned first = o->ranges[i].first, last = o->ranges[i].last;
        at += (size_t)snprintf(all + at, sizeof all - at, "%s%u", i ? ", " : "", first);
        if (last > first) at += (size_t)snprintf(all + at, sizeof all - at, " to %u", last);
    }
    if (o->left) snprintf(all + at, sizeof all - at, " and %u more", o->left);
    tell("ordered launches of a context, of kernel %s: %s", o->name, all);
}

void tell_ordered_launches(cl_context c) {
    while (c->ordered) {
        ordered_kernel *o = c->ordered;
        c->ordered = o->next;
        tell_kernel(o);
        free(o);
    }
}
