// Atomic functions (OpenCL 1.2, 6.12.11), by their names of 1.1 and of the extensions too.
#include "front.h"
#include <string.h>

bool is_atomic(const char *name, const char **operation) {
    static const char *const operations[] = {"add", "sub", "min", "max",  "and",    "or",
                                             "xor", "inc", "dec", "xchg", "cmpxchg"};
    if (!strncmp(name, "atomic_", 7)) name += 7;
    else if (!strncmp(name, "atom_", 5)) name += 5;
    else return false;
    for (size_t i = 0; i < sizeof operations / sizeof *operations; i++)
        if (!strcmp(name, operations[i])) {
            *operation = operations[i];
            return true;
        }
    return false;
}

typedef struct {
    const node *node;
    const char *operation, *result; // the variable for the old number, NULL where it isn't used
    bool is_declared;
    integer_type type;
    linear offset;
    operand *given; // the pointer and the numbers
    unsigned count;
} atomic;

// The call on one object, as an expression.
static const char *atomic_text(translator *t, object *o, const atomic *a) {
    const place *at = &a->node->place;
    if (o->space == IN_PRIVATE) refuse_at(t, at, "Clsim has no atomic functions on private memory");
    if (o->space == IN_CONSTANT) refuse_at(t, at, "constant memory can't be stored to");
    if (o->space == NOWHERE) return format(t, "%s%s[-1]", mark_here(t, at), null_name(t));
    linear offset = aligned(t, a->offset, 4);
    learn(t, &o->types, 1u << a->type);
    learn(t, &o->atomic_types, 1u << a->type);
    learn_fact(t, &o->is_stored);
    bool is_local = o->space == IN_LOCAL;
    const char *name = is_local ? o->judged : view_of(t, o, a->type);
    bool has_order = !strcmp(a->operation, "min") || !strcmp(a->operation, "max");
    if (is_local && has_order && o->array_element != a->type && width_of(o->array_element) == 4)
        refuse_at(t, at, "Clsim has no atomic_%s on local memory that is both int and uint", a->operation);
    text all = {.arena = &t->pass};
    o->accesses |= LOADS | STORES;
    const char *index = o->held & (LOADS | STORES) ? HELD_ELEMENT : index_in(t, o, offset, 4).text;
    addf(&all, "%satomic_%s(&%s[%s]", mark_here(t, at), a->operation, name, index);
    for (unsigned i = 1; i < a->count; i++) addf(&all, ",%s", forced(t, a->given[i].value.integer).text);
    add(&all, ")");
    return all.at;
}

static void call_on(translator *t, object *o, void *with) {
    const atomic *a = with;
    const char *text = atomic_text(t, o, a);
    const char *type = a->is_declared ? "" : name_of(a->type);
    if (a->result) emit(t, "%s%s%s=%s;", type, *type ? " " : "", a->result, text);
    else if (o->space == NOWHERE) emit(t, "uchar %s=%s;", temporary_name(t), text);
    else emit(t, "%s;", text);
}

value atomic_value(translator *t, const node *n, const char *operation, bool is_used) {
    const type *number = n->part_count > 1 ? n->parts[1]->type->of : NULL;
    bool of_float = number && number->kind == FLOATING_TYPE && !strcmp(operation, "xchg");
    if (!number || (number->kind != INTEGER_TYPE && !of_float) || number->width != 4)
        refuse_at(t, &n->place, "Clsim has atomic functions of int and uint, and atomic_xchg of float, only");
    atomic a = {.node = n, .operation = operation, .type = core_type(number), .count = n->part_count - 1};
    a.given = take(&t->pass, a.count * sizeof *a.given);
    for (unsigned i = 0; i < a.count; i++) a.given[i] = (operand){.node = n->parts[1 + i]};
    evaluate(t, a.given, a.count);
    t->at = &n->place;
    for (unsigned i = 0; i < a.count; i++) a.given[i].value = kept_value(t, a.given[i].value);
    pointer p = a.given[0].value.pointer;
    a.offset = p.offset;
    if (!p.count) return integer_value(unknown(t, a.type));
    if (is_used) a.result = temporary_name(t);
    a.is_declared = is_used && p.count > 1;
    if (a.is_declared) emit(t, "%s %s;", name_of(a.type), a.result);
    for_chosen(t, p.selector, p.objects, p.count, call_on, &a);
    return is_used ? integer_value(variable(a.result, a.type, true)) : (value){.kind = NO_VALUE};
}
