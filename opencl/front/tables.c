// Constant memory that the source fills itself: its bytes are worked out here, and it is a parameter behind those of
// the client.
#include "front.h"
#include <string.h>

// ---- bytes ----

typedef struct {
    unsigned char *bytes;
    uint64_t size;
} memory;

static void fill(translator *t, memory m, uint64_t offset, const type *type, const node *n);

static void fill_number(translator *t, memory m, uint64_t offset, const type *type, integer v, const node *n) {
    if (!v.is_literal) refuse_at(t, &n->place, "Clsim has no initial value of constant memory that isn't known here");
    uint64_t bits = type->is_bool ? v.value != 0 : v.value;
    if (offset + type->width <= m.size) memcpy(m.bytes + offset, &bits, type->width);
}

static void fill_elements(translator *t, memory m, uint64_t offset, const type *type, const node *n) {
    if (n->part_count == 1 && n->parts[0]->kind == STRING_LITERAL && type->of->kind == INTEGER_TYPE)
        fill(t, m, offset, type, n->parts[0]);
    else
        for (unsigned i = 0; i < n->part_count; i++) fill(t, m, offset + i * type->of->size, type->of, n->parts[i]);
}

static void fill_bits(translator *t, memory m, uint64_t offset, const field *f, const node *n) {
    integer v = evaluate_value(t, n).integer;
    if (!v.is_literal) refuse_at(t, &n->place, "Clsim has no initial value of constant memory that isn't known here");
    uint64_t bits = f->type->is_bool ? v.value != 0 : v.value, first = 8 * offset + f->bit;
    for (uint64_t bit = first; bit < first + f->bits && bit / 8 < m.size; bit++)
        m.bytes[bit / 8] |= (unsigned char)((bits >> (bit - first) & 1) << bit % 8);
}

static void fill_field(translator *t, memory m, uint64_t offset, const field *f, const node *n) {
    if (f->row) fill_bits(t, m, offset + f->offset, f, n);
    else fill(t, m, offset + f->offset, f->type, n);
}

// (to a bit-field without a name nothing is given)
static void fill_fields(translator *t, memory m, uint64_t offset, const record *r, const node *n) {
    if (r->is_union && r->field_count) {
        if (n->part_count) fill_field(t, m, offset, n->field ? n->field : r->fields, n->parts[0]);
        return;
    }
    for (unsigned i = 0, given = 0; given < n->part_count && i < r->field_count; i++) {
        const field *f = &r->fields[i];
        if (!f->is_bit_field || *f->name) fill_field(t, m, offset, f, n->parts[given++]);
    }
}

static void fill_value(translator *t, memory m, uint64_t offset, const type *type, const node *n) {
    bool is_number = type->kind == INTEGER_TYPE || type->kind == FLOATING_TYPE;
    if (!is_number && type->kind != VECTOR_TYPE)
        refuse_at(t, &n->place, "Clsim has no initial value of the type %s", type->name);
    value v = evaluate_value(t, n);
    if (is_number) fill_number(t, m, offset, type, v.integer, n);
    else
        for (unsigned i = 0; i < v.count; i++)
            fill_number(t, m, offset + i * type->of->size, type->of, v.components[i], n);
}

static void fill(translator *t, memory m, uint64_t offset, const type *type, const node *n) {
    bool is_step = n->kind == COMPOUND_LITERAL ||
                   (n->kind == CAST_EXPRESSION && type->kind != INTEGER_TYPE && type->kind != FLOATING_TYPE &&
                    (n->cast == NO_OP || n->cast == LVALUE_TO_RVALUE));
    go_deeper(t, &n->place);
    if (is_step) fill(t, m, offset, type, n->parts[0]);
    else if (n->kind == INITIALIZER_LIST && type->kind == ARRAY_TYPE) fill_elements(t, m, offset, type, n);
    else if (n->kind == INITIALIZER_LIST && type->kind == RECORD_TYPE) fill_fields(t, m, offset, type->record, n);
    else if (n->kind == STRING_LITERAL && type->kind == ARRAY_TYPE) {
        uint64_t length = n->byte_count < type->length ? n->byte_count : type->length;
        if (offset + length <= m.size) memcpy(m.bytes + offset, n->bytes, length);
    } else if (n->kind != IMPLICIT_VALUE) fill_value(t, m, offset, type, n);
    t->depth--;
}

// ---- tables ----

// The number of a node's table, which is made where there is none yet.
static unsigned table_number(translator *t, const node *n, const char *name, const node *initial) {
    judged_source *to = t->to;
    unsigned *number = &to->table_numbers[n->number];
    if (*number) return *number - 1;
    memory m = {.size = size_of_type(t, n->type, &n->place)};
    m.bytes = take(t->result, m.size + 1);
    fill(t, m, 0, n->type, initial);
    to->tables = grown(t->result, to->tables, to->table_count, &to->table_room, sizeof *to->tables);
    to->tables[to->table_count] =
        (constant_table){copy_text(t->result, name, strlen(name)), m.bytes, m.size, width_of(element_of(n->type))};
    *number = ++to->table_count;
    return *number - 1;
}

static object *table_object(translator *t, const node *n, const char *name, const node *initial) {
    object *o = find_object(t, 0, n->number, ITSELF);
    if (o->pass == t->pass_number) return o;
    unsigned number = table_number(t, n, name, initial);
    new_object(t, o, IN_CONSTANT, n->type, name);
    o->size = t->to->tables[number].size;
    o->has_size = true;
    o->bytes = t->to->tables[number].bytes;
    o->table = number;
    o->judged = fresh_name(t, name);
    show_name(t, o->judged, name);
    t->hidden = grown(&t->pass, t->hidden, t->hidden_count, &t->hidden_room, sizeof(object *));
    t->hidden[t->hidden_count++] = o;
    return o;
}

object *table_of(translator *t, const node *declaration) {
    if (declaration->type->space != CONSTANT_SPACE)
        refuse_at(t, &declaration->place, "a variable outside of functions stands in constant memory");
    judge_attributes(t, declaration);
    if (!declaration->part_count) refuse_at(t, &declaration->place, "Clsim has no constant memory without a value");
    return table_object(t, declaration, declaration->name, declaration->parts[0]);
}

object *text_table(translator *t, const node *n) { return table_object(t, n, "text", n); }
