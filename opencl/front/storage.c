// Values of every type where they lie: what is loaded there, stored, copied and initialized.
#include "front.h"

storage whole(pointer p, const type *type) { return (storage){.at = p, .type = type}; }

// The type of the numbers of a storage: of a vector that of its components.
static const type *number_type(const storage *s) { return s->type->kind == VECTOR_TYPE ? s->type->of : s->type; }

// Whether all of it is in variables, so that reading it is no access.
static bool is_in_variables(const pointer *p) {
    for (unsigned i = 0; i < p->count; i++)
        if (p->objects[i]->space != IN_PRIVATE || p->objects[i]->is_array) return false;
    return true;
}

// A vector in memory has the alignment of the whole (OpenCL 1.2, 6.1.5).
pointer aligned_vector(translator *t, const storage *s) {
    uint64_t align = s->type->size;
    pointer p = s->at;
    if (s->align && s->align < align) align = s->align;
    if (common_factor(p.offset) % align) p.offset = aligned(t, p.offset, align);
    return p;
}

// A pointer whose offset is worked out once for all numbers of a vector: in a variable, in units of such a number.
static pointer with_base(translator *t, pointer p, uint64_t size, unsigned count) {
    linear moving = {0, p.offset.terms, p.offset.count};
    bool is_simple = !moving.count || (moving.count == 1 && moving.terms->scale == (int64_t)size);
    if (count == 1 || is_simple || common_factor(moving) % size) return p;
    integer base = kept(t, cast_to(t, in_units(t, moving, size), LONG));
    p.offset = plus_scaled(t, constant_offset(p.offset.constant), base, (int64_t)size);
    return p;
}

// ---- loading ----

static value get_components(translator *t, const storage *s, pointer p, const place *at) {
    const type *number = number_type(s);
    unsigned count = s->components ? s->component_count : (unsigned)s->type->length;
    integer *components = take(&t->pass, count * sizeof *components);
    bool is_alone = s->components && s->type->kind != VECTOR_TYPE, in_variables = is_in_variables(&p);
    if (count > 1) p = kept_pointer(t, p);
    p = with_base(t, p, number->size, count);
    for (unsigned i = 0; i < count; i++) {
        unsigned index = s->components ? s->components[i] : i;
        components[i] = load(t, shifted(p, (int64_t)(index * number->size)), core_type(number), s->align, at);
        if (!in_variables && !is_alone) components[i] = kept(t, components[i]);
    }
    return is_alone ? integer_value(components[0]) : vector_value(components, count);
}

value get(translator *t, storage s, const place *at) {
    if (s.bits) return integer_value(load_bits(t, s.at, s.bits, s.align, at));
    if (s.components) return get_components(t, &s, s.at, at);
    switch (s.type->kind) {
    case INTEGER_TYPE:
    case FLOATING_TYPE: return integer_value(load(t, s.at, core_type(s.type), s.align, at));
    case VECTOR_TYPE: return get_components(t, &s, aligned_vector(t, &s), at);
    case POINTER_TYPE: return pointer_value(load_pointer(t, s.at, at));
    case RECORD_TYPE: return record_value(s);
    case EVENT_TYPE: return integer_value(literal(t, 0, INT));
    default: refuse_at(t, at, "Clsim has no value of the type %s", s.type->name);
    }
}

// ---- copies of records ----

// Whether a number of a private record is never read, by no member of a union either, so that no copy of it has to be
// made.
static bool is_dead(const pointer *to, uint64_t offset, unsigned width) {
    const object *o = to->count == 1 ? to->objects[0] : NULL;
    if (!o || o->space != IN_PRIVATE || !is_constant(to->offset)) return false;
    uint64_t first = 8 * ((uint64_t)to->offset.constant + offset);
    return !is_read_at(o, first, first + 8 * width);
}

static bool is_private(const pointer *p) {
    for (unsigned i = 0; i < p->count; i++)
        if (p->objects[i]->space != IN_PRIVATE) return false;
    return true;
}

static unsigned least_align(unsigned a, unsigned b) { return b && b < a ? b : a; }

// Copies the numbers of a record in the order of their addresses. What lies between them isn't touched.
static void copy_record(translator *t, storage to, storage from, const place *at) {
    unsigned count;
    number_place *numbers = numbers_in(t, to.type, at, &count);
    to = kept_storage(t, to);
    from = kept_storage(t, from);
    for (unsigned i = 0; i < count; i++) {
        const number_place *n = &numbers[i];
        pointer target = shifted(to.at, (int64_t)n->offset), source = shifted(from.at, (int64_t)n->offset);
        if (n->type->kind == EVENT_TYPE) continue;
        if (n->row) {
            copy_row(t, target, source, n->row, least_align(n->align, to.align), least_align(n->align, from.align), at);
            continue;
        }
        if (n->type->kind == POINTER_TYPE) {
            if (!is_dead_pointer(target)) store_pointer(t, target, load_pointer(t, source, at), at);
            continue;
        }
        bool dead = is_dead(&to.at, n->offset, n->type->width);
        if (dead && is_private(&from.at)) continue;
        integer v = load(t, source, core_type(n->type), least_align(n->align, from.align), at);
        if (dead) kept(t, v);
        else store(t, target, core_type(n->type), v, least_align(n->align, to.align), at);
    }
}

// ---- storing ----

static void put_components(translator *t, storage s, pointer p, value v, const place *at) {
    const type *number = number_type(&s);
    unsigned count = s.components ? s.component_count : (unsigned)s.type->length;
    if (v.kind == VECTOR_VALUE && count > 1) {
        v = kept_value(t, v);
        p = kept_pointer(t, p);
    }
    p = with_base(t, p, number->size, count);
    for (unsigned i = 0; i < count; i++) {
        unsigned index = s.components ? s.components[i] : i;
        integer one = v.kind == VECTOR_VALUE ? v.components[i] : v.integer;
        store(t, shifted(p, (int64_t)(index * number->size)), core_type(number), one, s.align, at);
    }
}

value held_value(translator *t, value v, const storage *s) {
    return s->bits ? integer_value(lowest_bits(t, v.integer, s->bits)) : v;
}

void put(translator *t, storage s, value v, const place *at) {
    if (s.bits) {
        store_bits(t, s.at, s.bits, v.integer, s.align, at);
        return;
    }
    if (s.components) {
        put_components(t, s, s.at, v, at);
        return;
    }
    switch (s.type->kind) {
    case INTEGER_TYPE:
    case FLOATING_TYPE: store(t, s.at, core_type(s.type), v.integer, s.align, at); break;
    case VECTOR_TYPE: put_components(t, s, aligned_vector(t, &s), v, at); break;
    case POINTER_TYPE: store_pointer(t, s.at, v.pointer, at); break;
    case RECORD_TYPE: copy_record(t, s, v.storage, at); break;
    case EVENT_TYPE: break;
    default: refuse_at(t, at, "Clsim has no store of the type %s", s.type->name);
    }
}

// ---- initial values ----

static unsigned member_align(const field *f, unsigned known) {
    unsigned align = (unsigned)f->align, wanted = (unsigned)f->type->align;
    if (known && known < align) align = known;
    return align < wanted ? align : 0;
}

storage member_of(const storage *s, const field *f) {
    unsigned known = s->align ? s->align : s->type->align < 8 ? (unsigned)s->type->align : 0;
    storage member = whole(shifted(s->at, (int64_t)f->offset), f->type);
    member.align = f->row ? known : member_align(f, known);
    member.bits = f->row ? f : NULL;
    return member;
}

static void put_zeros(translator *t, const storage *s, const place *at) {
    unsigned count;
    number_place *numbers = numbers_in(t, s->type, at, &count);
    for (unsigned i = 0; i < count; i++) {
        const number_place *n = &numbers[i];
        pointer one = shifted(s->at, (int64_t)n->offset);
        unsigned align = least_align(n->align, s->align);
        if (n->row) put_zero_row(t, one, n->row, align, at);
        else if (n->type->kind == POINTER_TYPE) store_pointer(t, one, pointer_to(t, t->null), at);
        else if (n->type->kind != EVENT_TYPE)
            store(t, one, core_type(n->type), literal(t, 0, core_type(n->type)), align, at);
    }
}

static void initialize_text(translator *t, pointer p, const type *type, const node *n, const place *at) {
    for (uint64_t i = 0; i < type->length; i++) {
        uint64_t byte = i < n->byte_count ? (unsigned char)n->bytes[i] : 0;
        store(t, shifted(p, (int64_t)i), core_type(type->of), literal(t, byte, core_type(type->of)), 0, at);
    }
}

static void initialize_part(translator *t, const storage *s, const node *n, const place *at);

static void initialize_elements(translator *t, const storage *s, const node *n, const place *at) {
    const type *of = s->type->of;
    if (n->part_count == 1 && n->parts[0]->kind == STRING_LITERAL && of->kind == INTEGER_TYPE) {
        initialize_text(t, s->at, s->type, n->parts[0], at);
        return;
    }
    for (uint64_t i = 0; i < s->type->length; i++) {
        storage one = whole(shifted(s->at, (int64_t)(i * of->size)), of);
        one.align = s->align;
        if (i < n->part_count) initialize_part(t, &one, n->parts[i], at);
        else put_zeros(t, &one, at);
    }
}

// A bit-field's row holds zeros before. (To one without a name nothing is given.)
static void initialize_fields(translator *t, const storage *s, const node *n, const place *at) {
    const record *r = s->type->record;
    const field *first = n->field ? n->field : r->fields;
    unsigned count = r->is_union ? 1 : r->field_count, given = 0;
    for (unsigned i = 0; i < count && r->field_count; i++) {
        const field *f = r->is_union ? first : &r->fields[i];
        storage one = member_of(s, f);
        if (f->row && f == f->row->fields) put_zero_row(t, one.at, f->row, one.align, at);
        if (f->is_bit_field && !*f->name) continue;
        if (given < n->part_count) initialize_part(t, &one, n->parts[given], at);
        else if (!f->row) put_zeros(t, &one, at);
        given++;
    }
}

static void initialize_part(translator *t, const storage *s, const node *n, const place *at) {
    go_deeper(t, at);
    if (n->kind == INITIALIZER_LIST && s->type->kind == ARRAY_TYPE) initialize_elements(t, s, n, at);
    else if (n->kind == INITIALIZER_LIST && s->type->kind == RECORD_TYPE) initialize_fields(t, s, n, at);
    else if (n->kind == IMPLICIT_VALUE && !s->bits) put_zeros(t, s, at);
    else if (n->kind == STRING_LITERAL && s->type->kind == ARRAY_TYPE) initialize_text(t, s->at, s->type, n, at);
    else put(t, *s, evaluate_value(t, n), at);
    t->depth--;
}

void initialize(translator *t, pointer p, const type *type, const node *n, const place *at) {
    storage s = whole(p, type);
    initialize_part(t, &s, n, at);
}
