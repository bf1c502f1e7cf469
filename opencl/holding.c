// Launches whose kernel is written once more, for its arguments. In the place of the kernel goes one that does the
// same:
//
// - A launch is held to CL_MEM_READ_ONLY and CL_MEM_WRITE_ONLY (OpenCL 1.2, table 5.3) where its kernel has an access
//   that they forbid: each such access is a fault then, so that the device judges whether one of them is made.
// - Sub-buffers that have bytes in common, or a buffer and a part of it, are one memory where something is stored: all
//   of them are the one buffer, of which an index reaches its part alone. Others are buffers of their own, into which
//   the launch's bytes are copied, and back.
// - An argument that is NULL is the null pointer.
#include "widening.h"
#include <stdlib.h>
#include <string.h>

// A kernel of a program in which accesses are held back.
struct held {
    struct held *next;
    const kernel_form *of;
    unsigned char *accesses; // that are held back, a set for each argument
    bool is_launched;        // else it isn't needed, or can't be made
    bool goes_past;          // an access that flags forbid was told, and is made (CLSIM_FLAGS)
    prepared source;
    unsigned number; // of its program
};

// ---- what is held back ----

enum { IS_NEEDED = IS_PART | IS_NULL };

static unsigned char forbidden_by(cl_mem_flags flags) {
    return flags & CL_MEM_READ_ONLY ? STORES : flags & CL_MEM_WRITE_ONLY ? LOADS : 0;
}

unsigned char possible_accesses(const kernel_form *form, unsigned argument) {
    const type *of = form->parameters[argument].type->of;
    if (form->accesses) return form->accesses[argument];
    return of->is_const || of->space == CONSTANT_SPACE ? LOADS : LOADS | STORES;
}

// Whether two arguments are different memory objects with bytes in common, of which something may be stored.
static bool share_bytes(cl_kernel k, unsigned i, unsigned j) {
    cl_mem a = k->arguments[i].memory, b = k->arguments[j].memory;
    if (!a || !b || a == b || whole_of(a) != whole_of(b)) return false;
    bool overlap = a->origin < b->origin + b->size && b->origin < a->origin + a->size;
    return overlap && (possible_accesses(k->form, i) | possible_accesses(k->form, j)) & STORES;
}

// Puts together what is to be known of each argument, with or without the flags of buffers. False where there is
// nothing.
static bool choose_accesses(cl_kernel k, bool by_flags, unsigned char *to) {
    bool any = false;
    for (unsigned i = 0; i < k->form->count; i++) {
        cl_mem m = k->arguments[i].memory;
        to[i] = m && by_flags ? forbidden_by(m->flags) & possible_accesses(k->form, i) : 0;
        if (k->arguments[i].is_null) to[i] = IS_NULL;
        for (unsigned j = 0; m && m->parent && j < k->form->count; j++)
            if (share_bytes(k, i, j)) to[i] |= IS_PART;
        any = any || to[i];
    }
    return any;
}

static bool has_any(const unsigned char *held, const kernel_form *form) {
    for (unsigned i = 0; i < form->count; i++)
        if (held[i] & (form->accesses[i] | IS_NEEDED)) return true;
    return false;
}

// Whether the kernel itself can't be launched.
static bool is_needed(const struct held *h) {
    for (unsigned i = 0; i < h->of->count; i++)
        if (h->accesses[i] & IS_NEEDED) return true;
    return false;
}

// ---- forms ----

// Makes the form of a kernel, once for each set of accesses.
static cl_int make_form(cl_kernel k, struct held *h) {
    preparation made = prepare_held(&k->program->form, k->form, h->accesses, &h->source);
    if (made == NO_MEMORY) return CL_OUT_OF_HOST_MEMORY;
    const kernel_form *form = h->source.kernels;
    if (made == PREPARED && !has_any(h->accesses, form)) return CL_SUCCESS; // it has no such access after all
    unsigned number = made == PREPARED ? ++k->context->names : 0;
    cl_int fault = number ? send_text(k->context, &h->source, form->begin, form->length, form->lines, number)
                          : CL_BUILD_PROGRAM_FAILURE;
    h->is_launched = !fault;
    if (!fault) h->number = number;
    if (fault == CL_BUILD_PROGRAM_FAILURE && !is_needed(h))
        tell("kernel %s: whether it is held to CL_MEM_READ_ONLY and CL_MEM_WRITE_ONLY isn't judged: %s", k->form->name,
             number ? "what is written for that is too large" : "clang is needed for that");
    return fault == CL_BUILD_PROGRAM_FAILURE ? CL_SUCCESS : fault;
}

static void drop_form(cl_context c, struct held *h) {
    if (h->number) session_askf(c->session, "release p%u\n", h->number);
    leave_source(&h->source);
    free(h->accesses);
    free(h);
}

void drop_held_forms(cl_program p) {
    while (p->held) {
        struct held *h = p->held;
        p->held = h->next;
        drop_form(p->context, h);
    }
}

// The form for a set of accesses, which it takes.
static cl_int form_for(cl_kernel k, unsigned char *accesses, struct held **to) {
    cl_program p = k->program;
    for (struct held *h = p->held; h; h = h->next)
        if (h->of == k->form && !memcmp(h->accesses, accesses, k->form->count)) {
            free(accesses);
            *to = h;
            return CL_SUCCESS;
        }
    struct held *h = calloc(1, sizeof *h);
    if (!h) {
        free(accesses);
        return CL_OUT_OF_HOST_MEMORY;
    }
    h->of = k->form;
    h->accesses = accesses;
    cl_int fault = make_form(k, h);
    if (fault) {
        drop_form(k->context, h);
        return fault;
    }
    h->next = p->held;
    p->held = *to = h;
    return CL_SUCCESS;
}

// ---- kernels ----

void drop_held_kernel(cl_kernel k) {
    cl_kernel held = k->held;
    if (!held) return;
    session_askf(k->context->session, "release k%u\n", held->number);
    drop_printing(held);
    for (unsigned i = 0; i < held->form->count; i++) free(held->arguments[i].command);
    free(held->arguments);
    free(held);
    k->held = NULL;
}

static cl_int make_kernel(cl_kernel k, struct held *h) {
    cl_kernel held = calloc(1, sizeof *held);
    argument *arguments = calloc(k->form->count + 1, sizeof *arguments);
    cl_int fault = held && arguments ? CL_SUCCESS : CL_OUT_OF_HOST_MEMORY;
    if (!fault) {
        *held = (struct _cl_kernel){.context = k->context,
                                    .program = k->program,
                                    .number = ++k->context->names,
                                    .program_number = h->number,
                                    .form = h->source.kernels,
                                    .source = &h->source,
                                    .held_back = h->accesses,
                                    .arguments = arguments};
        fault = ask_kernel(held);
    }
    if (fault) {
        free(held);
        free(arguments);
        return fault;
    }
    k->held = held;
    return CL_SUCCESS;
}

// Gives it the argument that the kernel was given, where it hasn't that one yet.
static cl_int pass_argument(cl_kernel k, cl_uint i) {
    cl_kernel held = k->held;
    argument *to = &held->arguments[i];
    const argument *given = &k->arguments[i];
    size_t n = given->value ? k->form->parameters[i].type->size : given->local;
    char *command = commands_of(held, i, n, given->value, given->memory);
    if (!command) return CL_OUT_OF_HOST_MEMORY;
    to->memory = given->memory;
    to->local = given->local;
    if (to->command && !strcmp(to->command, command)) {
        free(command);
        return CL_SUCCESS;
    }
    const char *reply = *command ? ask_commands(held, command) : "ok";
    free(to->command);
    to->command = is_ok(reply) ? command : NULL;
    if (!is_ok(reply)) free(command);
    return error_of(reply);
}

// The form for the arguments of a kernel, NULL where that is its own.
static cl_int choose_form(cl_kernel k, bool by_flags, struct held **to) {
    unsigned char *accesses = calloc(k->form->count + 1, 1);
    *to = NULL;
    if (!accesses) return CL_OUT_OF_HOST_MEMORY;
    if (choose_accesses(k, by_flags, accesses)) return form_for(k, accesses, to);
    free(accesses);
    return CL_SUCCESS;
}

void go_past_flags(cl_kernel launched) {
    for (struct held *h = launched->program->held; h; h = h->next)
        if (&h->source == launched->source) h->goes_past = true;
}

cl_int launched_kernel(cl_kernel k, cl_kernel *to) {
    struct held *h;
    *to = k;
    cl_int fault = choose_form(k, true, &h);
    if (!fault && h && h->goes_past) fault = choose_form(k, false, &h);
    if (fault || !h) return fault;
    if (!h->is_launched && is_needed(h)) {
        refuse(k->context,
               "kernel %s can't be written for its arguments, of which one is NULL or a sub-buffer that has "
               "bytes in common with another one%s",
               k->form->name,
               k->form->function ? ""
                                 : "; clang is "
                                   "needed for that");
        return CL_INVALID_OPERATION;
    }
    if (!h->is_launched) return CL_SUCCESS;
    if (k->held && k->held->source != &h->source) drop_held_kernel(k);
    if (!k->held) fault = make_kernel(k, h);
    for (cl_uint i = 0; !fault && i < k->form->count; i++) fault = pass_argument(k, i);
    if (!fault) *to = k->held;
    return fault;
}

// ---- sub-buffers ----

// Whether a sub-buffer may be stored to in a launch.
static bool may_change(cl_kernel k, cl_mem m) {
    for (unsigned i = 0; i < k->form->count; i++)
        if (k->arguments[i].memory == m && possible_accesses(k->form, i) & STORES) return true;
    return false;
}

cl_int copy_parts(cl_kernel k, cl_kernel launched, bool is_back) {
    for (unsigned i = 0; i < k->form->count; i++) {
        cl_mem m = k->arguments[i].memory;
        bool is_copied = m && m->parent && given_number(launched, i, m) == m->number;
        for (unsigned j = 0; is_copied && j < i; j++) is_copied = k->arguments[j].memory != m;
        if (!is_copied || (is_back && !may_change(k, m))) continue;
        unsigned whole = m->parent->number;
        cl_int fault = is_back ? ask_copy(k->context, m->number, 0, whole, m->origin, m->size)
                               : ask_copy(k->context, whole, m->origin, m->number, 0, m->size);
        if (fault) return fault;
    }
    return CL_SUCCESS;
}
