// Bit-fields of unsigned types. An access of one is one of its row: bit-fields that follow each other are one memory
// location (C11, 3.14), so that a store to one of them loads the others. In private memory, where all accesses are at
// constant places and none is of another kind, each bit-field is a variable of its own instead.
#include "front.h"

unsigned numbers_of_row(const bit_row *row) { return (unsigned)(row->size / row->width); }
integer_type type_of_row(const bit_row *row) { return integer_of(row->width, false); }

// ---- bits of numbers ----

static uint64_t ones(unsigned count) { return ~UINT64_C(0) >> (64 - count); }

// The type in which a field, and the numbers of its row, are worked on.
static integer_type wide_type(const field *f) {
    return f->row->width == 8 || width_of(core_type(f->type)) == 8 ? ULONG : UINT;
}

// How many bits a number of the row stands above the field's first one.
static int64_t distance(const field *f, unsigned index) {
    return (int64_t)(8 * f->row->width * index) - (int64_t)f->bit;
}

// Whether a number of the row has bits of the field.
static bool has_part(const field *f, unsigned index) {
    int64_t at = distance(f, index);
    return at < (int64_t)f->bits && at + 8 * (int64_t)f->row->width > 0;
}

// To the left, or to the right where the count is negative.
static integer shifted_bits(translator *t, integer v, int64_t count, integer_type type) {
    operation op = count < 0 ? SHIFT_RIGHT : SHIFT_LEFT;
    return binary(t, op, cast_to(t, v, type), literal(t, (uint64_t)(count < 0 ? -count : count), INT), type);
}

integer lowest_bits(translator *t, integer v, const field *f) {
    integer_type type = core_type(f->type), wide = promoted(type);
    if (f->bits == 8 * width_of(type)) return cast_to(t, v, type);
    return cast_to(t, binary(t, BIT_AND, cast_to(t, v, wide), literal(t, ones(f->bits), wide), wide), type);
}

// A field of the numbers of its row.
static integer field_of(translator *t, const integer *numbers, const field *f) {
    integer_type wide = wide_type(f);
    integer all = literal(t, 0, wide);
    for (unsigned i = numbers_of_row(f->row); i-- > 0;)
        if (has_part(f, i)) all = binary(t, BIT_OR, shifted_bits(t, numbers[i], distance(f, i), wide), all, wide);
    return cast_to(t, binary(t, BIT_AND, all, literal(t, ones(f->bits), wide), wide), core_type(f->type));
}

// A number of the row with the field's bits in it. The value has no other bits.
static integer with_field(translator *t, integer number, const field *f, unsigned index, integer v) {
    integer_type wide = wide_type(f);
    int64_t at = distance(f, index);
    uint64_t hole = at < 0 ? ones(f->bits) << -at : ones(f->bits) >> at;
    integer others = binary(t, BIT_AND, cast_to(t, number, wide), literal(t, ~hole, wide), wide);
    integer both = binary(t, BIT_OR, shifted_bits(t, v, -at, wide), others, wide);
    return cast_to(t, both, type_of_row(f->row));
}

// ---- as variables ----

static bool are_variables(const object *o, linear at, const bit_row *row) {
    return o->space == IN_PRIVATE && !o->is_array && is_inside(o, at, (unsigned)row->size);
}

static uint64_t leaf_offset(linear at, const field *f) { return FIRST_BIT_LEAF + 8 * (uint64_t)at.constant + f->bit; }

static leaf *leaf_of(translator *t, object *o, linear at, const field *f) {
    return learn_leaf(t, o, leaf_offset(at, f), f->bits, 1u << core_type(f->type));
}

static bool is_read_later(const object *o, linear at, const field *f) {
    uint64_t first = 8 * (uint64_t)at.constant + f->bit;
    return is_read_at(o, first, first + f->bits);
}

static integer load_variable(translator *t, object *o, linear at, const field *f) {
    leaf *l = leaf_of(t, o, at, f);
    learn_fact(t, &l->is_read);
    return l->name ? variable(l->name, l->variable, o->is_fixed) : unknown(t, core_type(f->type));
}

static void store_variable(translator *t, object *o, linear at, const field *f, integer v, const place *place) {
    leaf *l = leaf_of(t, o, at, f);
    if (l->name) emit(t, "%s%s=%s;", mark_here(t, place), l->name, assigned(t, v, l->variable));
    else t->is_incomplete = true;
}

// ---- a row of one object ----

static pointer pointer_at(translator *t, object *o, linear at) {
    pointer p = pointer_to(t, o);
    p.offset = at;
    return p;
}

static const integer *load_row_of(translator *t, object *o, linear at, const bit_row *row, unsigned align,
                                  const place *place) {
    unsigned count = numbers_of_row(row);
    integer *numbers = take(&t->pass, count * sizeof *numbers);
    if (!are_variables(o, at, row)) {
        for (unsigned i = 0; i < count; i++) {
            pointer p = shifted(pointer_at(t, o, at), (int64_t)(i * row->width));
            numbers[i] = kept(t, load(t, p, type_of_row(row), align, place));
        }
        return numbers;
    }
    for (unsigned i = 0; i < count; i++) numbers[i] = literal(t, 0, type_of_row(row));
    for (unsigned i = 0; i < row->count; i++) {
        const field *f = &row->fields[i];
        integer v = *f->name ? load_variable(t, o, at, f) : literal(t, 0, core_type(f->type));
        for (unsigned n = 0; n < count; n++)
            if (has_part(f, n)) numbers[n] = with_field(t, numbers[n], f, n, v);
    }
    for (unsigned i = 0; i < count; i++) numbers[i] = kept(t, numbers[i]);
    return numbers;
}

static void store_row_of(translator *t, object *o, linear at, const bit_row *row, const integer *numbers,
                         unsigned align, const place *place) {
    if (are_variables(o, at, row)) {
        for (unsigned i = 0; i < row->count; i++)
            if (is_read_later(o, at, &row->fields[i]))
                store_variable(t, o, at, &row->fields[i], field_of(t, numbers, &row->fields[i]), place);
        return;
    }
    for (unsigned i = 0; i < numbers_of_row(row); i++)
        store(t, shifted(pointer_at(t, o, at), (int64_t)(i * row->width)), type_of_row(row), numbers[i], align, place);
}

static integer load_bits_of(translator *t, object *o, linear at, const field *f, unsigned align, const place *place) {
    if (are_variables(o, at, f->row)) return load_variable(t, o, at, f);
    return field_of(t, load_row_of(t, o, at, f->row, align, place), f);
}

static void store_bits_of(translator *t, object *o, linear at, const field *f, integer v, unsigned align,
                          const place *place) {
    v = lowest_bits(t, v, f);
    if (are_variables(o, at, f->row)) {
        store_variable(t, o, at, f, v, place);
        return;
    }
    v = kept(t, v);
    const integer *numbers = load_row_of(t, o, at, f->row, align, place);
    for (unsigned i = 0; i < numbers_of_row(f->row); i++) {
        pointer p = shifted(pointer_at(t, o, at), (int64_t)(i * f->row->width));
        if (has_part(f, i)) store(t, p, type_of_row(f->row), with_field(t, numbers[i], f, i, v), align, place);
    }
}

// ---- of one object, or of several, one of which is chosen ----

// An access of a row, or of one field of it.
typedef struct {
    const bit_row *row;
    const field *field; // NULL for the whole row
    unsigned align;
    const place *place;
    linear at;
    const char **results;  // the variables that are loaded into
    const integer *stored; // the field, or the numbers of the row
} bits_access;

static unsigned count_of(const bits_access *a) { return a->field ? 1 : numbers_of_row(a->row); }

static const integer *load_from(translator *t, object *o, const bits_access *a) {
    if (!a->field) return load_row_of(t, o, a->at, a->row, a->align, a->place);
    integer *v = take(&t->pass, sizeof *v);
    *v = load_bits_of(t, o, a->at, a->field, a->align, a->place);
    return v;
}

static void load_one(translator *t, object *o, void *with) {
    const bits_access *a = with;
    const integer *loaded = load_from(t, o, a);
    integer_type type = a->field ? core_type(a->field->type) : type_of_row(a->row);
    for (unsigned i = 0; i < count_of(a); i++) emit(t, "%s=%s;", a->results[i], assigned(t, loaded[i], type));
}

static void store_one(translator *t, object *o, void *with) {
    const bits_access *a = with;
    if (a->field) store_bits_of(t, o, a->at, a->field, *a->stored, a->align, a->place);
    else store_row_of(t, o, a->at, a->row, a->stored, a->align, a->place);
}

static const integer *load_access(translator *t, pointer p, bits_access *a) {
    unsigned count = count_of(a);
    integer_type type = a->field ? core_type(a->field->type) : type_of_row(a->row);
    integer *loaded = take(&t->pass, count * sizeof *loaded);
    p = kept_pointer(t, p);
    a->at = p.offset;
    a->results = take(&t->pass, count * sizeof *a->results);
    if (p.count == 1) return load_from(t, p.objects[0], a);
    for (unsigned i = 0; i < count; i++) {
        if (p.count) a->results[i] = temporary_name(t);
        loaded[i] = p.count ? variable(a->results[i], type, true) : unknown(t, type);
        if (p.count) emit(t, "%s %s;", name_of(type), a->results[i]);
    }
    if (p.count) for_chosen(t, p.selector, p.objects, p.count, load_one, a);
    return loaded;
}

static void store_access(translator *t, pointer p, bits_access *a) {
    integer *stored = take(&t->pass, count_of(a) * sizeof *stored);
    if (!p.count) {
        t->is_incomplete = true;
        return;
    }
    p = kept_pointer(t, p);
    for (unsigned i = 0; i < count_of(a); i++) stored[i] = p.count > 1 ? kept(t, a->stored[i]) : a->stored[i];
    a->stored = stored;
    a->at = p.offset;
    if (p.count == 1) store_one(t, p.objects[0], a);
    else for_chosen(t, p.selector, p.objects, p.count, store_one, a);
}

integer load_bits(translator *t, pointer row, const field *f, unsigned align, const place *at) {
    return *load_access(t, row, &(bits_access){.row = f->row, .field = f, .align = align, .place = at});
}

void store_bits(translator *t, pointer row, const field *f, integer v, unsigned align, const place *at) {
    store_access(t, row, &(bits_access){.row = f->row, .field = f, .align = align, .place = at, .stored = &v});
}

const integer *load_row(translator *t, pointer at, const bit_row *row, unsigned align, const place *place) {
    return load_access(t, at, &(bits_access){.row = row, .align = align, .place = place});
}

void store_row(translator *t, pointer at, const bit_row *row, const integer *numbers, unsigned align,
               const place *place) {
    store_access(t, at, &(bits_access){.row = row, .align = align, .place = place, .stored = numbers});
}

// ---- copies ----

static bool is_of_variables(const pointer *p, const bit_row *row) {
    return p->count == 1 && are_variables(p->objects[0], p->offset, row);
}

// Of variables those fields are copied that are read later.
void copy_row(translator *t, pointer to, pointer from, const bit_row *row, unsigned to_align, unsigned from_align,
              const place *at) {
    if (!is_of_variables(&to, row) || !is_of_variables(&from, row)) {
        store_row(t, to, row, load_row(t, from, row, from_align, at), to_align, at);
        return;
    }
    for (unsigned i = 0; i < row->count; i++) {
        const field *f = &row->fields[i];
        if (is_read_later(to.objects[0], to.offset, f))
            store_variable(t, to.objects[0], to.offset, f, load_variable(t, from.objects[0], from.offset, f), at);
    }
}

void put_zero_row(translator *t, pointer at, const bit_row *row, unsigned align, const place *place) {
    unsigned count = numbers_of_row(row);
    integer *zeros = take(&t->pass, count * sizeof *zeros);
    for (unsigned i = 0; i < count; i++) zeros[i] = literal(t, 0, type_of_row(row));
    store_row(t, at, row, zeros, align, place);
}
