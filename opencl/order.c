#include "objects.h"
#include <stdio.h>
#include <stdlib.h>
#include <string.h>

// ---- chains ----

static bool is_behind(const moment *m, cl_context c, unsigned chain) { return c->chains[chain] <= m->at[chain]; }

// The chain that a command goes on with. Where each has a command that it doesn't come after, it is taken to come after
// those of the shortest one: of more than CHAINS that nothing orders some aren't compared.
static unsigned chain_of(cl_context c, const moment *m) {
    unsigned chosen = 0;
    for (unsigned i = 0; i < CHAINS; i++) {
        if (is_behind(m, c, i)) return i;
        if (c->chains[i] < c->chains[chosen]) chosen = i;
    }
    return chosen;
}

void take_place(command *c) {
    cl_context x = c->queue->context;
    c->chain = chain_of(x, &c->after);
    c->after.at[c->chain] = ++x->chains[c->chain];
}

// ---- accesses ----

// That a command accessed bytes of a buffer.
struct buffer_access {
    buffer_access *next;
    unsigned chain;
    cl_ulong place; // of the command in its chain
    unsigned char accesses;
    rectangle bytes; // of the buffer
    unsigned command;
    cl_command_type type;
    int argument; // of a launch
    char kernel[64];
};

// How many are kept of a buffer, how many pairs of commands are told of a process.
enum { MOST_ACCESSES = 64, MOST_TOLD = 16 };

bool overlap(size_t begin, const rectangle *a, size_t other_begin, const rectangle *b) {
    for (size_t i = 0, j = 0; i < a->count && j < b->count;) { // each row is looked at once, since rows ascend
        size_t x = begin + row_at(a, i), y = other_begin + row_at(b, j);
        if (x + a->width <= y) i++;
        else if (y + b->width <= x) j++;
        else return true;
    }
    return false;
}

void free_accesses(buffer_access *list) {
    while (list) {
        buffer_access *next = list->next;
        free(list);
        list = next;
    }
}

const char *name_of_call(cl_command_type type) {
    switch (type) {
    case CL_COMMAND_NDRANGE_KERNEL: return "clEnqueueNDRangeKernel";
    case CL_COMMAND_TASK: return "clEnqueueTask";
    case CL_COMMAND_READ_BUFFER: return "clEnqueueReadBuffer";
    case CL_COMMAND_WRITE_BUFFER: return "clEnqueueWriteBuffer";
    case CL_COMMAND_COPY_BUFFER: return "clEnqueueCopyBuffer";
    case CL_COMMAND_FILL_BUFFER: return "clEnqueueFillBuffer";
    case CL_COMMAND_READ_BUFFER_RECT: return "clEnqueueReadBufferRect";
    case CL_COMMAND_WRITE_BUFFER_RECT: return "clEnqueueWriteBufferRect";
    case CL_COMMAND_COPY_BUFFER_RECT: return "clEnqueueCopyBufferRect";
    case CL_COMMAND_MAP_BUFFER: return "clEnqueueMapBuffer";
    case CL_COMMAND_UNMAP_MEM_OBJECT: return "clEnqueueUnmapMemObject";
    case CL_COMMAND_MIGRATE_MEM_OBJECTS: return "clEnqueueMigrateMemObjects";
    case CL_COMMAND_BARRIER: return "a barrier";
    default: return "a marker";
    }
}

// ---- what is told ----

// What an access is: `command 3, clEnqueueTask of kernel f, stores to it by argument 0`.
static void put_access(char *room, size_t n, const buffer_access *a) {
    const char *does = a->accesses == LOADS    ? "loads from it"
                       : a->accesses == STORES ? "stores to it"
                                               : "loads from it and stores to it";
    size_t last = row_at(&a->bytes, a->bytes.count - 1) + a->bytes.width - 1;
    if (a->argument >= 0)
        snprintf(room, n, "command %u, %s of kernel %s, %s by argument %d", a->command, name_of_call(a->type),
                 a->kernel, does, a->argument);
    else
        snprintf(room, n, "command %u, %s, %s at bytes %zu to %zu", a->command, name_of_call(a->type), does,
                 a->bytes.first, last);
}

static void tell_unordered(cl_mem m, const buffer_access *before, const buffer_access *behind) {
    static unsigned told;
    char text[256];
    if (told == MOST_TOLD) tell("unordered: further commands that another order could change aren't told");
    if (told++ >= MOST_TOLD) return;
    tell("unordered command %u and command %u of a context: buffer b%u", before->command, behind->command, m->number);
    put_access(text, sizeof text, before);
    tell("  %s", text);
    put_access(text, sizeof text, behind);
    tell("  %s", text);
    tell("  why: no event, barrier or queue orders the two, and no call waited for the first in front of the second");
    tell("  why: what these bytes are, or what is found in them, depends on which comes first");
}

// ---- what is compared ----

// Whether whatever conflicts with an access that comes before another one conflicts with that one too.
static bool is_covered(const buffer_access *before, const buffer_access *by) {
    bool is_range = before->bytes.count == 1 && by->bytes.count == 1;
    return is_range && (by->accesses & STORES || !(before->accesses & STORES)) &&
           by->bytes.first <= before->bytes.first &&
           before->bytes.first + before->bytes.width <= by->bytes.first + by->bytes.width;
}

static bool conflicts(const buffer_access *a, const buffer_access *b) {
    return (a->accesses | b->accesses) & STORES && overlap(0, &a->bytes, 0, &b->bytes);
}

// Compares an access with those that were made of its buffer, and puts it in front of them. Those go that no command to
// come can conflict with otherwise than with this one, or that all to come are behind of.
static void compare(command *c, cl_mem m, buffer_access *made, bool *is_told) {
    cl_context x = m->context;
    unsigned count = 1;
    for (buffer_access **link = &m->accesses; *link;) {
        buffer_access *a = *link;
        bool is_before = a->place <= c->after.at[a->chain];
        if (!*is_told && !is_before && conflicts(a, made)) {
            tell_unordered(m, a, made);
            *is_told = true;
        }
        bool is_seen = !x->waiting && a->place <= x->seen.at[a->chain];
        if (a->command != made->command && (is_seen || (is_before && is_covered(a, made)) || count >= MOST_ACCESSES)) {
            *link = a->next;
            free(a);
        } else {
            link = &a->next;
            count++;
        }
    }
    made->next = m->accesses;
    m->accesses = made;
}

// One access. Where memory is refused, it isn't compared.
static void note(command *c, cl_mem m, const buffer_access *access, bool *is_told) {
    buffer_access *a = malloc(sizeof *a);
    if (!a) return;
    *a = *access;
    compare(c, whole_of(m), a, is_told);
}

typedef void visitor(command *c, cl_mem m, const buffer_access *access, bool *is_told);

static void visit(command *c, cl_mem m, const rectangle *bytes, unsigned accesses, int argument, visitor *to,
                  bool *is_told) {
    if (!accesses) return;
    buffer_access a = {.chain = c->chain,
                       .place = c->after.at[c->chain],
                       .accesses = (unsigned char)accesses,
                       .bytes = *bytes,
                       .command = c->number,
                       .type = c->type,
                       .argument = argument};
    a.bytes.first += m->origin;
    if (c->kernel) snprintf(a.kernel, sizeof a.kernel, "%s", c->kernel->form->name);
    to(c, m, &a, is_told);
}

// All accesses of a command.
static void visit_all(command *c, visitor *to) {
    bool is_told = false;
    cl_kernel k = c->kernel;
    if (c->memory) visit(c, c->memory, &c->bytes, c->accesses, -1, to, &is_told);
    if (c->target) visit(c, c->target, &c->other, STORES, -1, to, &is_told);
    for (unsigned i = 0; k && i < k->form->count; i++) {
        cl_mem m = k->arguments[i].memory;
        rectangle all = range_of(0, m ? m->size : 0);
        if (m) visit(c, m, &all, possible_accesses(k->form, i) & (LOADS | STORES), (int)i, to, &is_told);
    }
}

void note_accesses(command *c) { visit_all(c, note); }

// ---- buffers that are mapped ----

// A mapping of an object by which an access is undefined: nothing accesses what is mapped for writing, and nothing
// stores to what is mapped for reading, whatever region is mapped (OpenCL 1.2, 5.4.3).
static const mapping *mapping_against(cl_mem m, unsigned accesses) {
    for (const mapping *p = m->mappings; p; p = p->next)
        if (p->is_there && (p->flags & MAPPED_FOR_WRITING || (p->flags & CL_MAP_READ && accesses & STORES))) return p;
    return NULL;
}

static void tell_mapped(cl_mem m, cl_mem mapped, const mapping *p, const buffer_access *a) {
    static unsigned told;
    char text[256];
    const char *why = p->flags & MAPPED_FOR_WRITING ? "writing" : "reading";
    size_t first = mapped->origin + p->offset;
    if (told == MOST_TOLD) tell("mapped: further commands on what is mapped aren't told");
    if (told++ >= MOST_TOLD) return;
    tell("mapped buffer b%u: command %u is made while command %u has mapped it", whole_of(m)->number, a->command,
         p->command);
    tell("  command %u, clEnqueueMapBuffer, maps bytes %zu to %zu for %s", p->command, first, first + p->size - 1, why);
    put_access(text, sizeof text, a);
    tell("  %s", text);
    tell("  why: until it is unmapped, what such a command finds or leaves is undefined (OpenCL 1.2, 5.4.3)");
}

// One access of an object, against mappings of it, of its buffer, and of its parts.
static void look(command *c, cl_mem m, const buffer_access *access, bool *is_told) {
    (void)c;
    cl_mem mapped = m;
    const mapping *p = mapping_against(m, access->accesses);
    if (!p && m->parent) p = mapping_against(mapped = m->parent, access->accesses);
    for (cl_mem part = m->parts; !p && part; part = part->next) p = mapping_against(mapped = part, access->accesses);
    if (!p || *is_told) return;
    tell_mapped(m, mapped, p, access);
    *is_told = true;
}

void look_at_mappings(command *c) {
    if (c->type != CL_COMMAND_MAP_BUFFER && c->type != CL_COMMAND_UNMAP_MEM_OBJECT) visit_all(c, look);
}
