// Types as memory has them: their sizes, and the numbers in them.
#include "front.h"
#include <string.h>

// A floating-point number is the integer of its bits.
integer_type core_type(const type *t) { return integer_of(t->width, t->kind == INTEGER_TYPE && t->is_signed); }

bool is_floating(const type *t) {
    return t->kind == FLOATING_TYPE || (t->kind == VECTOR_TYPE && t->of->kind == FLOATING_TYPE);
}

static void judge_record(translator *t, const record *r, const place *at) {
    if (!r->is_complete) refuse_at(t, at, "the type %s is incomplete", r->name);
    if (r->unknown_attribute) refuse_at(t, at, "Clsim doesn't know the attribute %s", r->unknown_attribute);
    for (unsigned i = 0; i < r->field_count; i++)
        if (r->fields[i].row && *r->fields[i].name && r->fields[i].type->is_signed)
            refuse_at(t, &r->fields[i].place, "Clsim has bit-fields of unsigned types only");
}

uint64_t size_of_type(translator *t, const type *type, const place *at) {
    switch (type->kind) {
    case RECORD_TYPE: judge_record(t, type->record, at); return type->size;
    case ARRAY_TYPE:
    case VECTOR_TYPE: size_of_type(t, type->of, at); return type->size;
    case INTEGER_TYPE:
    case FLOATING_TYPE:
    case EVENT_TYPE:
    case POINTER_TYPE: return type->size;
    default: refuse_at(t, at, "Clsim has no %s", type->name);
    }
}

integer_type element_of(const type *t) {
    while (t->kind == ARRAY_TYPE || t->kind == VECTOR_TYPE || (t->kind == RECORD_TYPE && t->record->field_count))
        t = t->kind == RECORD_TYPE ? t->record->fields[0].type : t->of;
    if (t->kind == INTEGER_TYPE || t->kind == FLOATING_TYPE) return core_type(t);
    return t->kind == POINTER_TYPE || t->kind == EVENT_TYPE ? ULONG : UCHAR;
}

// ---- the numbers in a type ----

typedef struct {
    translator *t;
    const place *at;
    number_place *numbers;
    unsigned count, room;
} numbers;

static unsigned smaller(uint64_t a, uint64_t b) { return (unsigned)(a < b ? a : b); }

static void add_number(numbers *n, const type *type, uint64_t offset, unsigned align, const bit_row *row) {
    if (n->count == MAX_NUMBERS) refuse_at(n->t, n->at, "an object of more than %d numbers", MAX_NUMBERS);
    n->numbers = grown(&n->t->pass, n->numbers, n->count, &n->room, sizeof *n->numbers);
    n->numbers[n->count++] = (number_place){offset, type, align, row};
}

static void add_numbers(numbers *n, const type *type, uint64_t offset, unsigned align);

// A row of bit-fields is there once, by the first of them.
static void add_field(numbers *n, const field *f, uint64_t offset, unsigned align) {
    if (f->row && f == f->row->fields) add_number(n, f->type, offset + f->offset, align, f->row);
    if (!f->is_bit_field) add_numbers(n, f->type, offset + f->offset, smaller(align, f->align));
}

// ---- of a union ----

// Marks the bytes of the numbers in a member.
static void mark_bytes(const numbers *n, const field *f, unsigned char *marks) {
    numbers own = {.t = n->t, .at = n->at};
    add_field(&own, f, 0, 1);
    for (unsigned i = 0; i < own.count; i++) {
        const number_place *p = &own.numbers[i];
        memset(marks + p->offset, 1, p->row ? p->row->size : p->type->size);
    }
}

// The first member that has all bytes of the others; NULL where none has. `all` gets the bytes of all of them.
static const field *whole_member(const numbers *n, const record *r, unsigned char *all) {
    unsigned char *own = take(&n->t->pass, r->size + 1);
    for (unsigned i = 0; i < r->field_count; i++) mark_bytes(n, &r->fields[i], all);
    for (unsigned i = 0; i < r->field_count; i++) {
        memset(own, 0, r->size);
        mark_bytes(n, &r->fields[i], own);
        if (!memcmp(own, all, r->size)) return &r->fields[i];
    }
    return NULL;
}

// By the numbers of a member, or byte by byte.
static void add_union(numbers *n, const record *r, uint64_t offset, unsigned align) {
    static const type byte = {.kind = INTEGER_TYPE, .width = 1, .size = 1, .align = 1, .name = "uchar"};
    unsigned char *all = take(&n->t->pass, r->size + 1);
    const field *whole = r->field_count == 1 ? r->fields : whole_member(n, r, all);
    if (whole) add_field(n, whole, offset, align);
    else
        for (uint64_t i = 0; i < r->size; i++)
            if (all[i]) add_number(n, &byte, offset + i, 1, NULL);
}

static void add_fields(numbers *n, const record *r, uint64_t offset, unsigned align) {
    judge_record(n->t, r, n->at);
    if (r->is_union) add_union(n, r, offset, align);
    for (unsigned i = 0; !r->is_union && i < r->field_count; i++) add_field(n, &r->fields[i], offset, align);
}

// Types are nested as deep as clang lets them be, which bounds this.
static void add_numbers(numbers *n, const type *type, uint64_t offset, unsigned align) {
    switch (type->kind) {
    case INTEGER_TYPE:
    case FLOATING_TYPE:
    case POINTER_TYPE:
    case EVENT_TYPE: add_number(n, type, offset, smaller(align, type->align), NULL); break;
    case VECTOR_TYPE:
        for (uint64_t i = 0; i < type->length; i++)
            add_number(n, type->of, offset + i * type->of->size, smaller(align, type->of->align), NULL);
        break;
    case ARRAY_TYPE:
        for (uint64_t i = 0; i < type->length; i++)
            add_numbers(n, type->of, offset + i * type->of->size, smaller(align, type->of->align));
        break;
    case RECORD_TYPE: add_fields(n, type->record, offset, align); break;
    default: size_of_type(n->t, type, n->at);
    }
}

number_place *numbers_in(translator *t, const type *type, const place *at, unsigned *count) {
    numbers n = {.t = t, .at = at};
    size_of_type(t, type, at);
    add_numbers(&n, type, 0, (unsigned)type->align);
    *count = n.count;
    return n.numbers;
}

// ---- names of parts ----

static uint64_t first_bit(const field *f) { return 8 * f->offset + (f->row ? f->bit : 0); }
static uint64_t bit_count(const field *f) { return f->is_bit_field ? f->bits : 8 * f->type->size; }

static const field *field_at(const record *r, uint64_t bit) {
    for (unsigned i = 0; i < r->field_count; i++) {
        const field *f = &r->fields[i];
        if (first_bit(f) <= bit && bit - first_bit(f) < bit_count(f)) return f;
    }
    return NULL;
}

// The component of a vector, as `v.x`, or `v.s7` of one that has more than four.
static const char *component_name(translator *t, const char *name, const type *type, uint64_t index) {
    if (type->length <= 4) return format(t, "%s.%c", name, "xyzw"[index % 4]);
    return format(t, "%s.s%c", name, "0123456789abcdef"[index % 16]);
}

const char *part_name(translator *t, const char *name, const type *type, uint64_t offset, bool as_in_source) {
    uint64_t bit = offset < FIRST_BIT_LEAF ? 8 * offset : offset - FIRST_BIT_LEAF;
    while (type->kind == RECORD_TYPE || type->kind == ARRAY_TYPE || type->kind == VECTOR_TYPE) {
        if (type->kind == RECORD_TYPE) {
            const field *f = field_at(type->record, bit);
            if (!f) return as_in_source ? name : format(t, "%s_%u", name, (unsigned)(bit / 8));
            if (*f->name || !as_in_source)
                name = format(t, "%s%c%s", name, as_in_source ? '.' : '_', *f->name ? f->name : "u");
            bit -= first_bit(f);
            type = f->type;
            continue;
        }
        uint64_t size = type->of->size ? 8 * type->of->size : 8, index = bit / size;
        if (!as_in_source) name = format(t, "%s_%u", name, (unsigned)index);
        else if (type->kind == VECTOR_TYPE) name = component_name(t, name, type, index);
        else name = format(t, "%s[%u]", name, (unsigned)index);
        bit %= size;
        type = type->of;
    }
    return name;
}
