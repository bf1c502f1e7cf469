// Accesses: what is loaded from an object at an offset, and stored there.
#include "front.h"
#include <string.h>

// ---- offsets ----

linear constant_offset(int64_t constant) { return (linear){.constant = constant}; }

linear plus(linear l, int64_t constant) {
    l.constant = (int64_t)((uint64_t)l.constant + (uint64_t)constant);
    return l;
}

linear plus_scaled(translator *t, linear l, integer v, int64_t scale) {
    if (v.is_literal) return plus(l, (int64_t)(v.value * (uint64_t)scale));
    term *terms = take(&t->pass, (l.count + 1) * sizeof *terms);
    if (l.count) memcpy(terms, l.terms, l.count * sizeof *terms);
    terms[l.count] = (term){scale, v};
    return (linear){l.constant, terms, l.count + 1};
}

uint64_t greatest_common_divisor(uint64_t a, uint64_t b) {
    while (b) {
        uint64_t rest = a % b;
        a = b;
        b = rest;
    }
    return a;
}

static uint64_t magnitude(int64_t n) { return n < 0 ? 0 - (uint64_t)n : (uint64_t)n; }

uint64_t common_factor(linear l) {
    uint64_t factor = magnitude(l.constant);
    for (unsigned i = 0; i < l.count; i++) factor = greatest_common_divisor(factor, magnitude(l.terms[i].scale));
    return factor;
}

bool is_constant(linear l) { return !l.count; }

pointer shifted(pointer p, int64_t bytes) {
    p.offset = plus(p.offset, bytes);
    return p;
}

// An integer as an index, which the language takes as a whole number in 64 wrapped bits: a conversion to 64 bits, or
// one that keeps the value, is left out.
static integer as_index(translator *t, integer v) {
    if (v.pending == NO_INTEGER || v.is_literal) return v;
    bool wraps_alike = width_of(v.pending) == 8;
    bool keeps = width_of(v.pending) > width_of(v.type) && (!is_signed(v.type) || is_signed(v.pending));
    if (!wraps_alike && !keeps) return forced(t, v);
    v.pending = NO_INTEGER;
    return v;
}

// A product of a scale and a factor, as a long.
static integer scaled(translator *t, term m, int64_t unit) {
    int64_t scale = m.scale / unit;
    integer v = cast_to(t, m.factor, LONG);
    if (scale == -1) return unary(t, MINUS, v, LONG);
    return scale == 1 ? v : binary(t, MULTIPLY, v, literal(t, (uint64_t)scale, LONG), LONG);
}

integer in_units(translator *t, linear l, uint64_t width) {
    int64_t unit = (int64_t)width, constant = l.constant / unit;
    if (!l.count) return literal(t, (uint64_t)constant, constant == (int32_t)constant ? INT : LONG);
    if (l.count == 1 && l.terms->scale == unit && !constant) return as_index(t, l.terms->factor);
    integer sum = scaled(t, l.terms[0], unit);
    for (unsigned i = 1; i < l.count; i++) sum = binary(t, ADD, sum, scaled(t, l.terms[i], unit), LONG);
    bool minus = constant < 0 && constant != INT64_MIN;
    if (constant)
        sum = binary(t, minus ? SUBTRACT : ADD, sum,
                     literal(t, minus ? 0 - (uint64_t)constant : (uint64_t)constant, LONG), LONG);
    return as_index(t, sum);
}

linear aligned(translator *t, linear l, uint64_t align) {
    unsigned shift = 0;
    if (common_factor(l) % align == 0) return l;
    if (!l.count) return constant_offset(-(int64_t)align); // misaligned for certain
    while (1u << shift < align) shift++;
    integer bytes = cast_to(t, kept(t, in_units(t, l, 1)), LONG);
    integer rest = binary(t, BIT_AND, bytes, literal(t, align - 1, LONG), LONG);
    integer index = choice(t, is_not_zero(t, rest), literal(t, ~UINT64_C(0), LONG),
                           binary(t, SHIFT_RIGHT, bytes, literal(t, shift, INT), LONG), LONG);
    return plus_scaled(t, constant_offset(0), kept(t, index), (int64_t)align);
}

bool is_inside(const object *o, linear l, unsigned width) {
    return !l.count && l.constant >= 0 && (!o->has_size || (uint64_t)l.constant + width <= o->size);
}

// ---- what an access is written on ----

const char *null_name(translator *t) {
    if (t->open) leave_functions(t);
    t->uses_null = true;
    return "clsim_null";
}

// The first view of a buffer has its name: that of its own type, if it is accessed by it.
static integer_type first_view(const object *o) {
    if (!o->types_before || o->types_before & 1u << o->element) return o->element;
    integer_type first = CHAR;
    while (!(o->types_before & 1u << first)) first++;
    return first;
}

const char *view_of(translator *t, object *o, integer_type type) {
    if (o->views[type]) return o->views[type];
    bool is_first = type == first_view(o);
    const char *name = is_first ? o->judged : fresh_name(t, format(t, "%s_%s", o->judged, name_of(type)));
    if (!is_first) show_name(t, name, o->name);
    return o->views[type] = name;
}

// Where the pieces of an access are: `width` bytes each, `count` of them.
typedef struct {
    linear at;
    unsigned width, count;
} pieces;

// An access of a type at an offset of which no more is known than `align`.
static pieces pieces_of(translator *t, linear l, unsigned width, unsigned align) {
    if (align < width && common_factor(l) % width) return (pieces){aligned(t, l, align), align, width / align};
    return (pieces){aligned(t, l, width), width, 1};
}

// An offset all of whose parts are in variables, for several accesses.
static linear kept_offset(translator *t, linear l) { return kept_pointer(t, (pointer){.offset = l}).offset; }

static integer_type type_of_piece(const pieces *p, integer_type type) {
    return p->width == width_of(type) ? type : integer_of(p->width, false);
}

// An array that is accessed, and the type of its elements.
typedef struct {
    const char *name;
    integer_type element;
} accessed_array;

// Learns that an object is accessed by a type where its place isn't constant.
static accessed_array array_for(translator *t, object *o, integer_type type) {
    learn(t, &o->types, 1u << type);
    if (o->space == IN_PRIVATE) return (accessed_array){o->judged, o->array_element};
    if (o->space == IN_LOCAL) return (accessed_array){o->judged, o->array_element};
    return (accessed_array){view_of(t, o, type), type};
}

integer index_in(translator *t, const object *o, linear at, unsigned width) {
    integer index = in_units(t, at, width);
    unsigned shift = 0;
    if (!(o->held & IS_PART)) return index;
    while (1u << shift < width) shift++;
    index = kept(t, cast_to(t, index, ULONG));
    integer units = literal(t, shift, INT), size = variable(o->part_size, ULONG, true);
    integer count = binary(t, SHIFT_RIGHT, size, units, ULONG);
    integer first = binary(t, SHIFT_RIGHT, variable(o->part_origin, ULONG, true), units, ULONG);
    integer sum = cast_to(t, binary(t, ADD, index, first, ULONG), LONG);
    integer test = binary(t, LESS, exactly(t, index, ULONG), count, ULONG);
    return kept(t, choice(t, test, sum, variable(o->outside, LONG, true), LONG));
}

static integer element_at(translator *t, const object *o, accessed_array array, linear at, const place *place) {
    integer index = index_in(t, o, at, width_of(array.element));
    integer v = variable(format(t, "%s%s[%s]", mark_here(t, place), array.name, index.text), array.element, false);
    v.depth = (unsigned char)(index.depth + 2);
    v.has_effect = true;
    return v;
}

// In place of an access that is held back: one of no element. Of its index nothing is evaluated, since it is a fault
// anyway.
static const char *held_access(translator *t, const accessed_array *array, const place *at) {
    return format(t, "%s%s[" HELD_ELEMENT "]", mark_here(t, at), array->name);
}

static bool is_held(object *o, unsigned accesses) {
    o->accesses |= accesses;
    return o->held & accesses;
}

// ---- loading ----

// A wider number with one more piece of it, from the lowest byte on.
static integer with_piece(translator *t, const integer *so_far, integer piece, unsigned byte, unsigned width) {
    integer_type wide = width == 8 ? ULONG : UINT;
    piece = exactly(t, piece, unsigned_of(piece.type));
    piece = binary(t, SHIFT_LEFT, cast_to(t, piece, wide), literal(t, 8 * byte, INT), wide);
    return so_far ? binary(t, BIT_OR, *so_far, piece, wide) : piece;
}

// The accesses are done in order of address: operands are evaluated from left to right.
static integer load_pieces(translator *t, object *o, pieces p, integer_type type, const place *at) {
    accessed_array array = array_for(t, o, type_of_piece(&p, type));
    unsigned element = width_of(array.element), step = element < p.width ? element : p.width;
    unsigned count = p.count * p.width / step;
    integer whole = {.text = NULL};
    if (!array.name || p.width < element) return unknown(t, type);
    if (is_held(o, LOADS)) {
        integer v = variable(held_access(t, &array, at), array.element, false);
        v.has_effect = true;
        return cast_to(t, v, type);
    }
    if (count > 1) p.at = kept_offset(t, p.at);
    for (unsigned i = 0; i < count; i++) {
        integer piece = element_at(t, o, array, plus(p.at, (int64_t)i * step), at);
        if (count == 1) return cast_to(t, piece, type);
        whole = with_piece(t, i ? &whole : NULL, piece, i * step, width_of(type));
    }
    return cast_to(t, whole, type);
}

static integer load_from_table(translator *t, const object *o, uint64_t offset, integer_type type) {
    uint64_t value = 0;
    memcpy(&value, o->bytes + offset, width_of(type));
    return literal(t, value, type);
}

// Of a private object at a constant place.
static integer load_leaf(translator *t, object *o, uint64_t offset, integer_type type) {
    leaf *l = learn_leaf(t, o, offset, width_of(type), 1u << type);
    learn_fact(t, &l->is_read);
    return l->name ? cast_to(t, variable(l->name, l->variable, o->is_fixed), type) : unknown(t, type);
}

static integer load_from(translator *t, object *o, linear l, integer_type type, unsigned align, const place *at) {
    unsigned width = width_of(type);
    if (o->space == NOWHERE) {
        integer v = variable(format(t, "%s%s[-1]", mark_here(t, at), null_name(t)), UCHAR, false);
        v.has_effect = true;
        return cast_to(t, v, type);
    }
    bool is_leaf = is_inside(o, l, width);
    if (o->bytes && is_leaf && (align < width || l.constant % width == 0))
        return load_from_table(t, o, (uint64_t)l.constant, type);
    if (o->space != IN_PRIVATE) return load_pieces(t, o, pieces_of(t, l, width, align), type, at);
    if (is_leaf && o->alias && o->alias->kind == INTEGER_VALUE && !l.constant && width == o->size)
        return cast_to(t, o->alias->integer, type);
    if (is_leaf && !o->is_array) return load_leaf(t, o, (uint64_t)l.constant, type);
    learn_fact(t, is_leaf ? &learn_leaf(t, o, (uint64_t)l.constant, width, 1u << type)->is_read : &o->is_read_anywhere);
    return load_pieces(t, o, pieces_of(t, l, width, align), type, at);
}

typedef struct {
    linear offset;
    integer_type type;
    unsigned align;
    const place *at;
    const char *result; // the variable that is loaded into
    integer stored;     // what is stored
} one_access;

void for_chosen(translator *t, const integer *selector, object *const *objects, unsigned count, on_object *do_it,
                void *with) {
    list chosen = {NULL, NULL};
    for (unsigned i = count; i-- > 0;) {
        list before = begin_list(t);
        do_it(t, objects[i], with);
        list one = end_list(t, before);
        if (i + 1 == count) {
            chosen = one;
            continue;
        }
        integer test = binary(t, EQUAL, *selector, literal(t, i, INT), INT);
        statement *s = new_branch(t, test.text, one, chosen, t->at);
        chosen = (list){s, s};
    }
    append_list(&t->out, chosen);
}

static void load_one(translator *t, object *o, void *with) {
    one_access *a = with;
    integer v = load_from(t, o, a->offset, a->type, a->align, a->at);
    emit(t, "%s=%s;", a->result, v.text);
}

static unsigned known_align(unsigned align, integer_type type) {
    return align && align < width_of(type) ? align : width_of(type);
}

integer load(translator *t, pointer p, integer_type type, unsigned align, const place *at) {
    align = known_align(align, type);
    if (!p.count) return unknown(t, type);
    if (p.count == 1) return load_from(t, p.objects[0], p.offset, type, align, at);
    p = kept_pointer(t, p);
    one_access a = {.offset = p.offset, .type = type, .align = align, .at = at, .result = temporary_name(t)};
    emit(t, "%s %s;", name_of(type), a.result);
    for_chosen(t, p.selector, p.objects, p.count, load_one, &a);
    return variable(a.result, type, true);
}

// ---- storing ----

static void store_pieces(translator *t, object *o, pieces p, integer_type type, integer v, const place *at) {
    accessed_array array = array_for(t, o, type_of_piece(&p, type));
    unsigned element = width_of(array.element), step = element < p.width ? element : p.width;
    unsigned count = p.count * p.width / step;
    integer_type whole = unsigned_of(promoted(type));
    if (!array.name || p.width < element) {
        t->is_incomplete = true;
        return;
    }
    v = cast_to(t, v, type);
    if (is_held(o, STORES)) {
        emit(t, "%s=%s;", held_access(t, &array, at), assigned(t, cast_to(t, v, array.element), array.element));
        return;
    }
    if (count > 1) p.at = kept_offset(t, p.at);
    if (count > 1) v = kept(t, v);
    for (unsigned i = 0; i < count; i++) {
        integer index = index_in(t, o, plus(p.at, (int64_t)i * step), element), piece = v;
        if (count > 1) piece = binary(t, SHIFT_RIGHT, cast_to(t, v, whole), literal(t, 8 * i * step, INT), whole);
        emit(t, "%s%s[%s]=%s;", mark_here(t, at), array.name, index.text, assigned(t, piece, array.element));
    }
}

static void store_leaf(translator *t, object *o, uint64_t offset, integer_type type, integer v, const place *at) {
    leaf *l = learn_leaf(t, o, offset, width_of(type), 1u << type);
    v = cast_to(t, v, type);
    if (l->name) emit(t, "%s%s=%s;", mark_here(t, at), l->name, assigned(t, v, l->variable));
    else t->is_incomplete = true;
}

static void store_to(translator *t, object *o, linear l, integer_type type, integer v, unsigned align,
                     const place *at) {
    unsigned width = width_of(type);
    if (o->space == NOWHERE) {
        emit(t, "%s%s[-1]=%s;", mark_here(t, at), null_name(t), assigned(t, v, UCHAR));
        return;
    }
    if (o->space == IN_CONSTANT) refuse_at(t, at, "constant memory can't be stored to");
    if (o->space == IN_PRIVATE && is_inside(o, l, width)) {
        if (!o->is_array) {
            store_leaf(t, o, (uint64_t)l.constant, type, v, at);
            return;
        }
        learn_leaf(t, o, (uint64_t)l.constant, width, 1u << type);
    }
    learn_fact(t, &o->is_stored);
    v = cast_to(t, v, type);
    store_pieces(t, o, pieces_of(t, l, width, align), type, v, at);
}

static void store_one(translator *t, object *o, void *with) {
    one_access *a = with;
    store_to(t, o, a->offset, a->type, a->stored, a->align, a->at);
}

void store(translator *t, pointer p, integer_type type, integer v, unsigned align, const place *at) {
    align = known_align(align, type);
    if (!p.count) {
        t->is_incomplete = true;
        return;
    }
    if (p.count == 1) {
        store_to(t, p.objects[0], p.offset, type, v, align, at);
        return;
    }
    p = kept_pointer(t, p);
    one_access a = {.offset = p.offset, .type = type, .align = align, .at = at, .stored = kept(t, v)};
    for_chosen(t, p.selector, p.objects, p.count, store_one, &a);
}
