// Pointers in variables: each is a `long` with its offset, in the greatest unit that divides all offsets that it is
// given, and, where it may point into several objects, an `int` that says which.
#include "front.h"

// ---- where a pointer is kept ----

// What is known of a pointer in private memory, and the variables, or elements of arrays, that hold it.
typedef struct {
    pointer_leaf *leaf;
    const char *offset, *selector;
    bool is_element;
} pointer_home;

// Where a pointer lies. One whose place isn't constant is an element of the arrays of its object, and then all
// pointers in that object are.
static pointer_home home_of(translator *t, pointer at, const place *place) {
    if (at.count != 1 || at.objects[0]->space != IN_PRIVATE)
        refuse_at(t, place, "Clsim has no pointers that are kept in memory that isn't private");
    object *o = at.objects[0];
    bool is_indexed = !is_inside(o, at.offset, 8) || at.offset.constant % 8;
    if (is_indexed) learn_fact(t, &o->indexes_pointers);
    pointer_home h = {.leaf = &o->any_pointer, .is_element = true};
    if (!o->indexed_before && !is_indexed) {
        h.leaf = learn_pointer(t, o, (uint64_t)at.offset.constant);
        return (pointer_home){h.leaf, h.leaf->name, h.leaf->selector, false};
    }
    if (!h.leaf->name) return h;
    integer index = kept(t, in_units(t, aligned(t, at.offset, 8), 8));
    h.offset = format(t, "%s%s[%s]", mark_here(t, place), h.leaf->name, index.text);
    if (h.leaf->selector) h.selector = format(t, "%s%s[%s]", mark_here(t, place), h.leaf->selector, index.text);
    return h;
}

static integer part_of_home(const pointer_home *h, const char *text, integer_type type) {
    integer v = variable(text, type, false);
    v.has_effect = h->is_element;
    v.depth = h->is_element ? 4 : 1;
    return v;
}

static void learn_base(translator *t, pointer_leaf *p, object *o) {
    for (unsigned i = 0; i < p->count; i++)
        if (p->bases[i] == o) return;
    p->bases = grown(&t->kernel, p->bases, p->count, &p->room, sizeof(object *));
    p->bases[p->count++] = o;
    t->is_changed = true;
}

// The index of an object among those that were known before this pass; their count where it isn't.
static unsigned base_index(const pointer_leaf *p, const object *o) {
    unsigned i = 0;
    while (i < p->count_before && p->bases[i] != o) i++;
    return i;
}

// Which of a variable's objects a pointer's own selector comes to. False where one of them isn't known yet.
static bool selector_of(translator *t, const pointer_leaf *home, const pointer *p, integer *selector) {
    for (unsigned i = p->count; i-- > 0;) {
        unsigned index = base_index(home, p->objects[i]);
        if (index == home->count_before) return false;
        integer number = literal(t, index, INT);
        *selector = i + 1 == p->count
                        ? number
                        : choice(t, binary(t, EQUAL, *p->selector, literal(t, i, INT), INT), number, *selector, INT);
    }
    return true;
}

void store_pointer(translator *t, pointer to, pointer p, const place *at) {
    pointer_home h = home_of(t, to, at);
    integer selector;
    uint64_t unit = greatest_common_divisor(h.leaf->unit, common_factor(p.offset));
    for (unsigned i = 0; i < p.count; i++) learn_base(t, h.leaf, p.objects[i]);
    if (unit != h.leaf->unit) t->is_changed = true;
    h.leaf->unit = unit;
    unit = h.leaf->unit_before ? h.leaf->unit_before : 1;
    if (!h.offset || !p.count || common_factor(p.offset) % unit) {
        t->is_incomplete = true;
        return;
    }
    if (h.selector) {
        p = kept_pointer(t, p);
        if (selector_of(t, h.leaf, &p, &selector)) emit(t, "%s=%s;", h.selector, selector.text);
        else t->is_incomplete = true;
    }
    emit(t, "%s=%s;", h.offset, assigned(t, in_units(t, p.offset, unit), LONG));
}

// Objects of an earlier pass that aren't declared yet in this one are left out: then nothing is known.
static bool are_declared(const translator *t, const pointer_leaf *home) {
    for (unsigned i = 0; i < home->count_before; i++)
        if (home->bases[i]->pass != t->pass_number) return false;
    return true;
}

pointer load_pointer(translator *t, pointer from, const place *at) {
    pointer none = {.count = 0};
    if (!from.count) return none;
    const object *o = from.objects[0];
    if (from.count == 1 && o->alias && is_constant(from.offset) && !from.offset.constant) return o->alias->pointer;
    pointer_home h = home_of(t, from, at);
    learn_fact(t, &h.leaf->is_read);
    if (!h.offset || !are_declared(t, h.leaf)) {
        t->is_incomplete = true;
        return none;
    }
    int64_t unit = (int64_t)h.leaf->unit_before;
    integer offset = part_of_home(&h, h.offset, LONG);
    pointer p = {.count = h.leaf->count_before, .offset = constant_offset(0)};
    if (unit) p.offset = plus_scaled(t, p.offset, offset, unit);
    else if (!h.selector) kept(t, offset); // it is always 0, but reading it may be the fault unset
    if (!p.count && t->is_settled) return pointer_to(t, t->null); // it is never given a value
    if (!p.count) {
        t->is_incomplete = true;
        return none;
    }
    p.objects = h.leaf->bases;
    if (h.selector) {
        integer *selector = take(&t->pass, sizeof *selector);
        *selector = part_of_home(&h, h.selector, INT);
        p.selector = selector;
    }
    return p;
}

bool is_dead_pointer(pointer at) {
    const object *o = at.count == 1 ? at.objects[0] : NULL;
    if (!o || o->space != IN_PRIVATE) return false;
    if (o->indexes_pointers || !is_constant(at.offset)) return !o->any_pointer.is_read;
    const pointer_leaf *p = find_pointer(o, (uint64_t)at.offset.constant);
    return !p || !p->is_read;
}

// ---- questions ----

integer is_not_null(translator *t, pointer p) {
    unsigned nulls = 0, index = 0;
    if (!p.count) return unknown(t, INT);
    for (unsigned i = 0; i < p.count; i++)
        if (p.objects[i]->space == NOWHERE) {
            index = i;
            nulls++;
        }
    if (!nulls || nulls == p.count) return literal(t, !nulls, INT);
    return binary(t, NOT_EQUAL, *p.selector, literal(t, index, INT), INT);
}

static bool is_null(const pointer *p) { return p->count == 1 && p->objects[0]->space == NOWHERE; }

// The offset as a long in a unit that divides both pointers' offsets.
static integer offset_of(translator *t, const pointer *p, uint64_t unit) {
    return cast_to(t, in_units(t, p->offset, unit), LONG);
}

static uint64_t common_unit(const pointer *a, const pointer *b) {
    uint64_t unit = greatest_common_divisor(common_factor(a->offset), common_factor(b->offset));
    return unit ? unit : 1;
}

static bool is_one_object(const pointer *a, const pointer *b) {
    return a->count == 1 && b->count == 1 && a->objects[0] == b->objects[0];
}

integer compare_pointers(translator *t, operation op, pointer a, pointer b, const place *at) {
    bool asks_equal = op == EQUAL || op == NOT_EQUAL;
    if (!a.count || !b.count) return unknown(t, INT);
    if (asks_equal && (is_null(&a) || is_null(&b))) {
        integer other = is_not_null(t, is_null(&a) ? b : a);
        return op == NOT_EQUAL ? is_not_zero(t, other) : unary(t, LOGICAL_NOT, other, INT);
    }
    if (!is_one_object(&a, &b)) refuse_at(t, at, "Clsim has no comparison of pointers into two objects");
    uint64_t unit = common_unit(&a, &b);
    return binary(t, op, offset_of(t, &a, unit), offset_of(t, &b, unit), LONG);
}

integer difference(translator *t, pointer a, pointer b, uint64_t size, const place *at) {
    if (!a.count || !b.count) return unknown(t, LONG);
    if (!is_one_object(&a, &b)) refuse_at(t, at, "Clsim has no difference of pointers into two objects");
    uint64_t unit = common_unit(&a, &b);
    integer d = binary(t, SUBTRACT, offset_of(t, &a, unit), offset_of(t, &b, unit), LONG);
    if (unit % size == 0) return binary(t, MULTIPLY, d, literal(t, unit / size, LONG), LONG);
    d = binary(t, MULTIPLY, d, literal(t, unit, LONG), LONG);
    return binary(t, DIVIDE, d, literal(t, size, LONG), LONG);
}

// Of two pointers into one object the chosen one, without a variable for it.
pointer choose_pointer(translator *t, integer condition, pointer a, pointer b, bool *done) {
    *done = is_one_object(&a, &b);
    if (!*done) return a;
    uint64_t unit = common_unit(&a, &b);
    integer offset = choice(t, condition, offset_of(t, &a, unit), offset_of(t, &b, unit), LONG);
    a.offset = plus_scaled(t, constant_offset(0), kept(t, offset), (int64_t)unit);
    return a;
}
