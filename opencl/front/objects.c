// The objects of a kernel, and what is learnt of them.
#include "front.h"
#include <string.h>

// ---- finding ----

object *find_object(translator *t, unsigned call, unsigned number, object_role role) {
    unsigned bucket = (call * 2654435761u + number * 40503u + role) % BUCKETS;
    for (object *o = t->objects[bucket]; o; o = o->next)
        if (o->call == call && o->number == number && o->role == role) return o;
    object *o = take(&t->kernel, sizeof *o);
    *o = (object){.next = t->objects[bucket], .call = call, .number = number, .role = role};
    t->objects[bucket] = o;
    *t->last_object = o;
    t->last_object = &o->next_of_kernel;
    return o;
}

object *declared_object(translator *t, const node *declaration) {
    object *o = find_object(t, t->call ? t->call->number : 0, declaration->number, ITSELF);
    return o->pass == t->pass_number ? o : NULL;
}

void begin_kernel_of_objects(translator *t) {
    memset(t->objects, 0, sizeof t->objects);
    memset(t->calls, 0, sizeof t->calls);
    t->first_object = NULL;
    t->last_object = &t->first_object;
    t->call_count = 0;
    t->pass_number = 0;
}

// ---- what is learnt ----

void learn(translator *t, unsigned *set, unsigned bits) {
    if ((*set | bits) == *set) return;
    *set |= bits;
    t->is_changed = true;
}

void learn_fact(translator *t, bool *fact) {
    if (*fact) return;
    *fact = true;
    t->is_changed = true;
}

// The index of the first leaf that isn't in front of a place.
static unsigned leaf_index(const object *o, uint64_t offset, unsigned width) {
    unsigned low = 0, high = o->leaf_count;
    while (low < high) {
        unsigned middle = (low + high) / 2;
        const leaf *l = &o->leaves[middle];
        if (l->offset < offset || (l->offset == offset && l->width < width)) low = middle + 1;
        else high = middle;
    }
    return low;
}

leaf *find_leaf(const object *o, uint64_t offset, unsigned width) {
    unsigned i = leaf_index(o, offset, width);
    bool found = i < o->leaf_count && o->leaves[i].offset == offset && o->leaves[i].width == width;
    return found ? &o->leaves[i] : NULL;
}

leaf *learn_leaf(translator *t, object *o, uint64_t offset, unsigned width, unsigned types) {
    leaf *l = find_leaf(o, offset, width);
    if (!l) {
        unsigned i = leaf_index(o, offset, width);
        o->leaves = grown(&t->kernel, o->leaves, o->leaf_count, &o->leaf_room, sizeof *o->leaves);
        l = &o->leaves[i];
        memmove(l + 1, l, (o->leaf_count++ - i) * sizeof *l);
        *l = (leaf){.offset = offset, .width = width};
        t->is_changed = true;
    }
    learn(t, &l->types, types);
    return l;
}

pointer_leaf *find_pointer(const object *o, uint64_t offset) {
    for (unsigned i = 0; i < o->pointer_count; i++)
        if (o->pointers[i].offset == offset) return &o->pointers[i];
    return NULL;
}

pointer_leaf *learn_pointer(translator *t, object *o, uint64_t offset) {
    pointer_leaf *p = find_pointer(o, offset);
    if (p) return p;
    o->pointers = grown(&t->kernel, o->pointers, o->pointer_count, &o->pointer_room, sizeof *o->pointers);
    p = &o->pointers[o->pointer_count++];
    *p = (pointer_leaf){.offset = offset};
    t->is_changed = true;
    return p;
}

// ---- passes ----

static bool is_of_bits(const leaf *l) { return l->offset >= FIRST_BIT_LEAF; }
static uint64_t first_bit(const leaf *l) { return is_of_bits(l) ? l->offset - FIRST_BIT_LEAF : 8 * l->offset; }
static uint64_t end_bit(const leaf *l) { return first_bit(l) + (is_of_bits(l) ? 1 : 8) * (uint64_t)l->width; }
static bool overlap(const leaf *a, const leaf *b) { return first_bit(a) < end_bit(b) && first_bit(b) < end_bit(a); }

bool is_read_at(const object *o, uint64_t first, uint64_t end) {
    if (o->is_read_anywhere) return true;
    const uint64_t widest = 64, from = first > widest ? first - widest : 0;
    const uint64_t begins[] = {from / 8, FIRST_BIT_LEAF + from};
    for (int of_bits = 0; of_bits < 2; of_bits++)
        for (unsigned i = leaf_index(o, begins[of_bits], 0); i < o->leaf_count; i++) {
            const leaf *l = &o->leaves[i];
            if (is_of_bits(l) != of_bits || first_bit(l) >= end) break;
            if (l->was_read && end_bit(l) > first) return true;
        }
    return false;
}

// Whether a bit-field is accessed as a part of a number, too.
static bool overlaps_numbers(const object *o, const leaf *bits) {
    for (unsigned i = 0; i < o->leaf_count && !is_of_bits(&o->leaves[i]); i++)
        if (overlap(&o->leaves[i], bits)) return true;
    return false;
}

// Whether an object's variables don't do: it is accessed at places that aren't constant, or that overlap.
static bool needs_array(const object *o) {
    if (o->types) return true;
    for (unsigned i = 1; i < o->leaf_count; i++) {
        const leaf *l = &o->leaves[i];
        if (is_of_bits(l - 1) == is_of_bits(l) && overlap(l - 1, l)) return true;
    }
    for (unsigned i = o->leaf_count; i-- > 0 && is_of_bits(&o->leaves[i]);)
        if (overlaps_numbers(o, &o->leaves[i])) return true;
    return false;
}

static void begin_pass_of_pointer(pointer_leaf *p) {
    p->count_before = p->count;
    p->unit_before = p->unit;
    p->was_known = true;
    p->name = p->selector = NULL;
}

void begin_pass_of_objects(translator *t) {
    for (object *o = t->first_object; o; o = o->next_of_kernel) {
        o->is_array = needs_array(o);
        o->types_before = o->types;
        o->was_stored = o->is_stored;
        for (unsigned i = 0; i < o->leaf_count; i++) {
            leaf *l = &o->leaves[i];
            l->types_before = l->types;
            l->was_read = l->is_read;
            l->was_known = true;
            l->name = NULL;
        }
        o->indexed_before = o->indexes_pointers;
        begin_pass_of_pointer(&o->any_pointer);
        for (unsigned i = 0; i < o->pointer_count; i++) begin_pass_of_pointer(&o->pointers[i]);
    }
}

// ---- declaring ----

object *new_object(translator *t, object *o, object_space space, const type *type, const char *name) {
    o->pass = t->pass_number;
    o->space = space;
    o->type = type;
    o->name = name && *name ? name : "v";
    o->has_size = false;
    o->size = 0;
    o->judged = NULL;
    o->element = element_of(type);
    o->is_fixed = o->is_const = false;
    o->accesses = o->held = 0;
    o->part_origin = o->part_size = o->outside = NULL;
    memset(o->views, 0, sizeof o->views);
    o->alias = NULL;
    o->bytes = NULL;
    return o;
}

// One of a set of types: the only one, or else the unsigned one of their width.
static integer_type one_type(unsigned types, unsigned width) {
    for (integer_type i = CHAR; i <= ULONG; i++)
        if (types == 1u << i) return i;
    return integer_of(width, false);
}

integer_type array_element_of(translator *t, const object *o, unsigned types) {
    unsigned width = 8;
    if (!types) return o->element;
    for (integer_type i = CHAR; i <= ULONG; i++)
        if (types & 1u << i && width_of(i) < width) width = width_of(i);
    if (!o->atomic_types || !(types & (types - 1))) return one_type(types, width);
    if (width < 4 || o->atomic_types & (o->atomic_types - 1))
        refuse_at(t, t->at, "Clsim has no atomic functions on local memory that is also accessed in another width");
    return one_type(o->atomic_types, 4);
}

static const char *name_for(translator *t, const object *o, uint64_t offset, bool is_alone) {
    const char *judged = o->name, *shown = o->name;
    if (!is_alone) {
        judged = part_name(t, o->name, o->type, offset, false);
        shown = part_name(t, o->name, o->type, offset, true);
    }
    judged = fresh_name(t, judged);
    show_name(t, judged, shown);
    return judged;
}

static void name_leaves(translator *t, object *o) {
    bool is_alone = o->leaf_count <= 1 && (o->type->kind == INTEGER_TYPE || o->type->kind == POINTER_TYPE);
    for (unsigned i = 0; i < o->leaf_count; i++) {
        leaf *l = &o->leaves[i];
        if (!l->was_known) continue;
        l->variable = one_type(l->types_before, l->width);
        l->name = name_for(t, o, l->offset, is_alone);
    }
}

static void name_selector(translator *t, pointer_leaf *p) {
    if (p->count_before < 2) return;
    p->selector = fresh_name(t, format(t, "%s_b", p->name));
    show_name(t, p->selector, NULL);
}

static void name_pointers(translator *t, object *o) {
    if (o->indexed_before) {
        o->any_pointer.name = name_for(t, o, 0, true);
        name_selector(t, &o->any_pointer);
    }
    for (unsigned i = 0; i < o->pointer_count && !o->indexed_before; i++) {
        pointer_leaf *p = &o->pointers[i];
        if (!p->was_known) continue;
        p->name = name_for(t, o, p->offset, o->type->kind == POINTER_TYPE);
        name_selector(t, p);
    }
}

static void name_array(translator *t, object *o) {
    unsigned types = o->types_before;
    for (unsigned i = 0; i < o->leaf_count; i++)
        if (!is_of_bits(&o->leaves[i])) types |= o->leaves[i].types_before;
    integer_type element = array_element_of(t, o, types);
    for (unsigned i = 0; i < o->leaf_count && !is_of_bits(&o->leaves[i]); i++)
        while (o->leaves[i].offset % width_of(element)) element = integer_of(width_of(element) / 2, false);
    while (o->size % width_of(element)) element = integer_of(width_of(element) / 2, false);
    o->array_element = element;
    o->judged = fresh_name(t, o->name);
    show_name(t, o->judged, o->name);
}

object *new_variable(translator *t, object *o, const type *type, const char *name, const place *at) {
    new_object(t, o, IN_PRIVATE, type, name);
    o->size = size_of_type(t, type, at);
    o->has_size = true;
    if (o->is_array) name_array(t, o);
    else name_leaves(t, o);
    name_pointers(t, o);
    return o;
}

static void write_pointer(translator *t, const pointer_leaf *p, const char *length) {
    if (p->name) emit(t, "long %s%s;", p->name, length);
    if (p->selector) emit(t, "int %s%s;", p->selector, length);
}

void write_declarations(translator *t, object *o, const char *given) {
    unsigned long long count = o->is_array ? o->size / width_of(o->array_element) : 0;
    if (o->is_array) emit(t, "%s %s[%llu];", name_of(o->array_element), o->judged, count);
    for (unsigned i = 0; i < o->leaf_count; i++)
        if (o->leaves[i].name) emit(t, "%s %s%s;", name_of(o->leaves[i].variable), o->leaves[i].name, given);
    for (unsigned i = 0; i < o->pointer_count; i++) write_pointer(t, &o->pointers[i], "");
    write_pointer(t, &o->any_pointer, format(t, "[%llu]", (unsigned long long)(o->size / 8)));
}

object *declare(translator *t, object *o, const type *type, const char *name, const place *at) {
    new_variable(t, o, type, name, at);
    write_declarations(t, o, "");
    return o;
}

pointer pointer_to(translator *t, object *o) {
    object **objects = take(&t->pass, sizeof *objects);
    *objects = o;
    return (pointer){.objects = objects, .count = 1};
}
