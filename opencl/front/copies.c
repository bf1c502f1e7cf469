// async_work_group_copy and its like (OpenCL 1.2, 6.12.10). Element e is copied by the work-item that follows the one
// with the linear local id e, each in a loop over its elements: one that touches its own element too early shows a
// race. wait_group_events is a barrier with both fences. All work-items of a group have to make the same calls with
// the same arguments: each keeps a hash of its calls, and in front of the barrier its least and its greatest value in
// the group are found, which differ where the calls do.
#include "front.h"

#define FIRST_ITEM "get_local_id(0)+get_local_id(1)+get_local_id(2)==0"
#define GROUP_SIZE "get_local_size(0)*get_local_size(1)*get_local_size(2)"
#define LINEAR_ID "get_local_id(0)+get_local_size(0)*(get_local_id(1)+get_local_size(1)*get_local_id(2))"

// ---- the hash ----

static void add_to_hash(translator *t, const integer *values, unsigned count) {
    text hash = {.arena = &t->pass};
    addf(&hash, "clsim_h*31+%u", ++t->hash_count);
    for (unsigned i = 0; i < count; i++) {
        text more = {.arena = &t->pass};
        integer v = forced(t, kept(t, values[i]));
        addf(&more, "(%s)*31+(int)%s", hash.at, bracketed(t, &v, 90));
        hash = more;
    }
    t->uses_copies = true;
    emit(t, "clsim_h=%s;", hash.at);
}

static list in_front(translator *t, const char *const *lines, unsigned count, const place *at) {
    list all = {NULL, NULL};
    for (unsigned i = 0; i < count; i++) append_list(&all, one_text(t, lines[i], at));
    return all;
}

// What a kernel with such copies begins with. Three pairs of numbers are used in turn: what is read behind a barrier is
// set again behind the next one only.
list begin_of_copies(translator *t, const place *at) {
    static const char *const declarations[] = {"__local int clsim_lo[3];", "__local int clsim_hi[3];",
                                               "uchar clsim_async[1];", "int clsim_k=0;", "int clsim_h=0;"};
    static const char *const values[] = {"clsim_lo[0]=2147483647;",  "clsim_lo[1]=2147483647;",
                                         "clsim_lo[2]=2147483647;",  "clsim_hi[0]=-2147483647;",
                                         "clsim_hi[1]=-2147483647;", "clsim_hi[2]=-2147483647;"};
    list all = in_front(t, declarations, sizeof declarations / sizeof *declarations, at);
    list set = in_front(t, values, sizeof values / sizeof *values, at);
    statement *s = new_branch(t, FIRST_ITEM, set, (list){NULL, NULL}, at);
    append_list(&all, (list){s, s});
    append_list(&all, one_text(t, "barrier(CLK_LOCAL_MEM_FENCE);", at));
    return all;
}

void wait_for_copies(translator *t, const node *n) {
    static const char *const next[] = {"clsim_lo[(clsim_k+1)%3]=2147483647;", "clsim_hi[(clsim_k+1)%3]=-2147483647;"};
    const place *at = &n->place;
    operand given[2];
    if (n->part_count != 3) refuse_at(t, at, "too few or too many arguments");
    for (unsigned i = 0; i < 2; i++) given[i] = (operand){.node = n->parts[1 + i]};
    evaluate(t, given, 2);
    t->at = at;
    add_to_hash(t, &given[0].value.integer, 1);
    emit(t, "atomic_min(&clsim_lo[clsim_k],clsim_h);");
    emit(t, "atomic_max(&clsim_hi[clsim_k],clsim_h);");
    emit(t, "%sbarrier(CLK_LOCAL_MEM_FENCE | CLK_GLOBAL_MEM_FENCE);", mark_here(t, at));
    count_barrier(t);
    list differs = one_text(t, format(t, "%sclsim_async[-1]=1;", mark_here(t, at)), at);
    append(t, new_branch(t, "clsim_lo[clsim_k]!=clsim_hi[clsim_k]", differs, (list){NULL, NULL}, at));
    emit(t, "clsim_k=(clsim_k+1)%%3;");
    append(t, new_branch(t, FIRST_ITEM, in_front(t, next, 2, at), (list){NULL, NULL}, at));
    add_note(t, "async_work_group_copy: element e is copied by the work-item behind that with the local id e; "
                "wait_group_events is a barrier with both fences");
}

// ---- the copy ----

static pointer element_pointer(translator *t, pointer p, integer index, uint64_t size) {
    p.offset = plus_scaled(t, p.offset, index, (int64_t)size);
    return p;
}

// All of a pointer that the work-items have to agree on.
static unsigned add_pointer_numbers(translator *t, integer *to, const pointer *p) {
    to[0] = in_units(t, p->offset, 1);
    if (p->selector) to[1] = *p->selector;
    return p->selector ? 2 : 1;
}

// The stride is that of the side in global memory.
value copy_value(translator *t, const node *n, bool is_strided) {
    const place *at = &n->place;
    operand given[5];
    unsigned count = is_strided ? 5 : 4, hashed = 0;
    if (n->part_count != count + 1) refuse_at(t, at, "too few or too many arguments");
    for (unsigned i = 0; i < count; i++) given[i] = (operand){.node = n->parts[1 + i]};
    evaluate(t, given, count);
    t->at = at;
    const type *element = n->parts[1]->type->of;
    uint64_t size = size_of_type(t, element, at);
    bool to_local = element->space == LOCAL_SPACE;
    pointer to = kept_pointer(t, given[0].value.pointer), from = kept_pointer(t, given[1].value.pointer);
    integer number = kept(t, cast_to(t, given[2].value.integer, ULONG)), values[6];
    integer stride = is_strided ? kept(t, cast_to(t, given[3].value.integer, ULONG)) : number;
    values[hashed++] = number;
    if (is_strided) values[hashed++] = stride;
    hashed += add_pointer_numbers(t, &values[hashed], &to);
    hashed += add_pointer_numbers(t, &values[hashed], &from);
    add_to_hash(t, values, hashed);
    const char *name = temporary_name(t);
    emit(t, "ulong %s=(" LINEAR_ID "+" GROUP_SIZE "-1ul)%%(" GROUP_SIZE ");", name);
    list before = begin_list(t);
    integer index = variable(name, ULONG, false);
    integer far = is_strided ? kept(t, binary(t, MULTIPLY, index, stride, ULONG)) : index;
    to = element_pointer(t, to, to_local ? index : far, size);
    from = element_pointer(t, from, to_local ? far : index, size);
    put(t, whole(to, element), get(t, whole(from, element), at), at);
    list body = end_list(t, before);
    statement *loop = new_loop(t, format(t, "for(;%s<%s;%s+=" GROUP_SIZE ")", name, number.text, name), body, "", at);
    loop->loop = ++t->loop_count;
    append(t, loop);
    return integer_value(literal(t, 0, INT));
}
