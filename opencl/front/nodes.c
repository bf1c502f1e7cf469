#define _GNU_SOURCE
#include "nodes.h"
#include "builder.h"
#include <stdarg.h>
#include <stdio.h>
#include <string.h>

// ---- lists ----

static slot *slot_of(const id_map *m, uint64_t id) {
    size_t i = (size_t)((id * 0x9e3779b97f4a7c15u) >> 20) & (m->room - 1);
    while (m->slots[i].what && m->slots[i].id != id) i = (i + 1) & (m->room - 1);
    return &m->slots[i];
}

static void make_larger(arena *a, id_map *m) {
    id_map more = {NULL, m->room ? m->room * 2 : 256, m->used};
    more.slots = take(a, more.room * sizeof *more.slots);
    for (size_t i = 0; i < m->room; i++)
        if (m->slots[i].what) *slot_of(&more, m->slots[i].id) = m->slots[i];
    *m = more;
}

void put_id(arena *a, id_map *m, uint64_t id, void *what) {
    if (m->used * 2 >= m->room) make_larger(a, m);
    slot *s = slot_of(m, id);
    m->used += !s->what;
    *s = (slot){id, what};
}

void *get_id(const id_map *m, uint64_t id) { return m->room ? slot_of(m, id)->what : NULL; }

// A list with room for one more.
static void *grown(arena *a, void *list, unsigned count, unsigned *room, size_t size) {
    if (count < *room) return list;
    unsigned more = *room ? *room * 2 : 64;
    char *made = take(a, more * size);
    if (count) memcpy(made, list, count * size);
    *room = more;
    return made;
}

static void add_part(builder *b, node *n) {
    b->parts = grown(b->arena, b->parts, b->part_count, &b->part_room, sizeof *b->parts);
    b->parts[b->part_count++] = n;
}

void stop_at(builder *b, const char *format, ...) {
    char room[256];
    va_list values;
    va_start(values, format);
    vsnprintf(room, sizeof room, format, values);
    va_end(values);
    b->wrong = copy_text(b->arena, room, strlen(room));
    longjmp(b->stop, 1);
}

// A node takes some 300 bytes with its place among others. The largest tree that was met has 480,000.
enum { MOST_NODES = 4000000 };

node *make_node(builder *b, node_kind kind, position at) {
    if (b->tree->node_count >= MOST_NODES) stop_at(b, "it has more than %d nodes", MOST_NODES);
    node *n = take(b->arena, sizeof *n);
    n->kind = kind;
    n->number = ++b->tree->node_count;
    n->place = client_place(b->rows, at.row, at.column);
    return n;
}

// ---- open nodes ----

static frame *top(builder *b) { return &b->frames[b->frame_count - 1]; }

static frame *push(builder *b, const rule *r, const dump_line *line, node *n) {
    b->frames = grown(b->arena, b->frames, b->frame_count, &b->frame_room, sizeof *b->frames);
    frame *f = &b->frames[b->frame_count++];
    *f = (frame){.shape = r->shape,
                 .depth = line->depth,
                 .rule = r,
                 .node = n,
                 .first_part = b->part_count,
                 .id = line->id,
                 .own = line->own,
                 .first_field = b->field_count};
    return f;
}

static const char *copy_word(builder *b, const char *s, size_t n) { return copy_text(b->arena, s, n); }

static bool is_one_of(const char *const *words, const char *s, size_t n) {
    for (; *words; words++)
        if (strlen(*words) == n && !memcmp(*words, s, n)) return true;
    return false;
}

// A part of what stands in front of a declaration's type.
typedef struct {
    const char *at;
    size_t length;
} part;

// Takes the last word off a text. Empty where there is none.
static part last_word(const char *begin, const char **end) {
    while (*end > begin && (*end)[-1] == ' ') --*end;
    const char *word = *end;
    while (word > begin && word[-1] != ' ') word--;
    part last = {word, (size_t)(*end - word)};
    *end = word;
    return last;
}

// Whether a word of clang's is the name of what is declared there, and not one that clang may add of itself: then it
// stands in the source.
static bool is_name(builder *b, position own, part p) {
    static const char *const keywords[] = {"struct", "union", "enum", NULL};
    static const char *const added[] = {"implicit",   "used",   "referenced", "invalid", "constexpr",
                                        "definition", "hidden", "imported",   "nodebug", NULL};
    if (!p.length || is_one_of(keywords, p.at, p.length)) return false;
    if (!is_one_of(added, p.at, p.length)) return true;
    const word *at = word_at(b->rows, own.row, own.column);
    return at && at->length == p.length && !memcmp(at->at, p.at, p.length);
}

// The name of a declaration: the last word in front of its type and of `definition`. Empty where it has none. Moves to
// the type.
static const char *read_name(builder *b, position own, const char **s, bool *is_complete) {
    const char *begin = *s, *end = begin + strcspn(begin, "'");
    *s = end;
    part last = last_word(begin, &end);
    part before = last_word(begin, &end);
    *is_complete = last.length == strlen("definition") && !memcmp(last.at, "definition", last.length) &&
                   (is_name(b, own, before) || !is_name(b, own, last));
    part name = *is_complete ? before : last;
    return is_name(b, own, name) ? copy_word(b, name.at, name.length) : "";
}

// ---- expressions and statements ----

// Steps over what clang says of an expression behind its type.
static const char *read_value_kind(node *n, const char *s) {
    static const char *const others[] = {"xvalue",          "bitfield",        "vectorcomponent",
                                         "matrixcomponent", "contains-errors", NULL};
    n->is_lvalue = is_at(s, "lvalue");
    if (n->is_lvalue) s = behind_spaces(s + strlen("lvalue"));
    for (const char *const *other = others; *other; other++)
        if (is_at(s, *other)) s = behind_spaces(s + strlen(*other));
    return s;
}

static void open_expression(builder *b, const rule *r, const dump_line *line) {
    const char *s = line->rest;
    node *n = make_node(b, r->kind, line->begin);
    n->type = need_type(b, &s);
    if (!n->place.line && top(b)->node) n->place = top(b)->node->place; // zeros that nobody wrote
    s = read_value_kind(n, s);
    if (r->details) r->details(b, n, line, s);
    push(b, r, line, n);
}

static void open_statement(builder *b, const rule *r, const dump_line *line) {
    node *n = make_node(b, r->kind, line->begin);
    if (r->details) r->details(b, n, line, line->rest);
    push(b, r, line, n);
}

static void add_unknown(builder *b, const rule *r, const dump_line *line) {
    const char *s = line->rest;
    node *n = make_node(b, r->kind, line->begin);
    n->name = copy_word(b, line->word, line->length);
    if (r->kind >= INTEGER_LITERAL) n->type = need_type(b, &s);
    b->skipped = line->depth;
    add_part(b, n);
}

// `__extension__` leaves no node.
static bool is_wrapper(const rule *r, const dump_line *line) {
    return r->shape == WRAPPER_SHAPE || (r->kind == UNARY_EXPRESSION && strstr(line->rest, "prefix '__extension__'"));
}

static bool is_expression(const node *n) { return n && n->kind >= INTEGER_LITERAL; }
static bool is_declaration(const node *n) { return n && n->kind <= UNKNOWN_DECLARATION; }

// Which parts of a statement are expressions, a bit for each.
static unsigned expression_parts(const node *n) {
    switch (n->kind) {
    case IF_STATEMENT:
    case WHILE_STATEMENT:
    case SWITCH_STATEMENT:
    case RETURN_STATEMENT: return 1;
    case CASE_STATEMENT: return n->part_count == 3 ? 1 | 2 : 1;
    case DO_STATEMENT: return 2;
    case FOR_STATEMENT: return 2 | 4;
    default: return 0;
    }
}

static bool is_part(const node *n, unsigned i) {
    const node *part = n->parts[i];
    bool may_lack = n->kind == FOR_STATEMENT && i < 3;
    if (n->kind == STATEMENT_EXPRESSION) return part && part->kind == COMPOUND_STATEMENT;
    if (!part) return may_lack;
    if (is_expression(n) || n->kind == VARIABLE_DECLARATION) return is_expression(part);
    if (n->kind == DECLARATION_STATEMENT) return is_declaration(part);
    return i < 32 && expression_parts(n) >> i & 1 ? is_expression(part) : !is_declaration(part);
}

static void take_parts(builder *b, const frame *f) {
    node *n = f->node;
    n->part_count = b->part_count - f->first_part;
    n->parts = take(b->arena, (n->part_count + 1) * sizeof *n->parts);
    if (n->part_count) memcpy(n->parts, b->parts + f->first_part, n->part_count * sizeof *n->parts);
    b->part_count = f->first_part;
    if (n->part_count < f->rule->least || n->part_count > f->rule->most)
        stop_at(b, "%s with %u parts", f->rule->word, n->part_count);
}

static void check_parts(builder *b, const frame *f) {
    for (unsigned i = 0; i < f->node->part_count; i++)
        if (!is_part(f->node, i)) stop_at(b, "%s with a part that can't stand there", f->rule->word);
}

// A `for` has a place for a condition that declares a variable, which C hasn't.
static void close_loop(builder *b, node *n) {
    if (n->parts[1]) stop_at(b, "ForStmt with a part that can't stand there");
    memmove(n->parts + 1, n->parts + 2, 3 * sizeof *n->parts);
    n->part_count = 4;
}

static void close_size(builder *b, node *n) {
    if (!n->argument && n->part_count) n->argument = n->parts[0]->type;
    if (!n->argument) stop_at(b, "UnaryExprOrTypeTraitExpr of nothing");
    n->part_count = 0;
}

// `a ?: b` has a first, and its own condition and value have it again as what was worked out.
static void close_short_choice(node *n) {
    node *common = n->parts[0];
    memmove(n->parts, n->parts + 1, 3 * sizeof *n->parts);
    n->parts[3] = common;
}

static void close_node(builder *b, const frame *f) {
    node *n = f->node;
    take_parts(b, f);
    if (n->kind == FOR_STATEMENT) close_loop(b, n);
    check_parts(b, f);
    if (n->kind == CONDITIONAL_EXPRESSION && n->part_count == 4) close_short_choice(n);
    if (n->kind == COMMON_VALUE) n->part_count = 0;
    if (n->kind == SIZE_EXPRESSION) close_size(b, n);
    if (n->kind == COMPONENT_EXPRESSION) n->is_arrow = n->parts[0]->type->kind == POINTER_TYPE;
    if (n->kind == UNKNOWN_STATEMENT) n->part_count = 0;
    add_part(b, n);
}

static void close_wrapper(builder *b, const frame *f) {
    if (b->part_count != f->first_part + 1 || !b->parts[f->first_part])
        stop_at(b, "%s with not one part", f->rule->word);
    node *part = b->parts[f->first_part];
    if (f->unknown_attribute) {
        node *unknown = take(b->arena, sizeof *unknown);
        *unknown = (node){
            .kind = UNKNOWN_STATEMENT, .name = f->unknown_attribute, .place = part->place, .number = part->number};
        b->parts[f->first_part] = unknown;
    }
}

// ---- functions and variables ----

static declared *declared_by(builder *b, const dump_line *line) {
    declared *d = line->previous ? get_id(&b->declarations, line->previous) : NULL;
    if (!d) d = take(b->arena, sizeof *d);
    put_id(b->arena, &b->declarations, line->id, d);
    return d;
}

static bool has_word(const char *s, const char *word) {
    for (; *s; s = behind_spaces(s + strcspn(s, " ")))
        if (is_at(s, word)) return true;
    return false;
}

static void open_object(builder *b, const rule *r, const dump_line *line) {
    const char *s = line->rest;
    node *n = make_node(b, r->kind, line->own);
    bool is_complete;
    n->name = read_name(b, line->own, &s, &is_complete);
    n->type = need_type(b, &s);
    n->is_static = has_word(s, "static");
    n->is_extern = has_word(s, "extern");
    n->is_inline = has_word(s, "inline");
    put_id(b->arena, &b->nodes, line->id, n);
    frame *f = push(b, r, line, n);
    f->last_attribute = (attribute **)&n->attributes;
    if (r->kind != PARAMETER_DECLARATION) declared_by(b, line);
    if (r->shape == FUNCTION_SHAPE && line->depth == 1) enter_scope(b->types, ++b->function_count);
}

static void choose(builder *b, const frame *f, bool is_definition) {
    declared *d = get_id(&b->declarations, f->id);
    if (d && (is_definition || !d->chosen)) d->chosen = f->node;
}

static uint64_t name_id(const char *name) {
    uint64_t h = 1469598103934665603u;
    for (; *name; name++) h = (h ^ (unsigned char)*name) * 1099511628211u;
    return h;
}

// Finds where the jumps of a function go. A name that isn't one label's alone leaves a jump that isn't known.
static void find_targets(builder *b) {
    id_map by_name = {0};
    for (reference *l = b->labels; l; l = l->next) {
        uint64_t id = name_id(l->node->name);
        reference *other = get_id(&by_name, id);
        put_id(b->arena, &by_name, id, l);
        l->is_twice = other;
    }
    for (reference *j = b->jumps; j; j = j->next) {
        const reference *l = get_id(&by_name, name_id(j->node->name));
        bool is_clear = l && !l->is_twice && !strcmp(l->node->name, j->node->name);
        j->node->target = is_clear ? l->node : NULL;
        if (is_clear) continue;
        j->node->kind = UNKNOWN_STATEMENT;
        j->node->name = "GotoStmt";
    }
    b->jumps = b->labels = NULL;
}

static void close_function(builder *b, const frame *f) {
    node *n = f->node;
    take_parts(b, f);
    if (n->part_count && n->parts[n->part_count - 1]->kind == COMPOUND_STATEMENT) n->body = n->parts[--n->part_count];
    for (unsigned i = 0; i < n->part_count; i++)
        if (n->parts[i]->kind != PARAMETER_DECLARATION) stop_at(b, "FunctionDecl with a part that can't stand there");
    choose(b, f, n->body);
    if (f->depth == 1) {
        find_targets(b);
        enter_scope(b->types, 0);
    }
    add_part(b, n);
}

static void close_variable(builder *b, const frame *f) {
    take_parts(b, f);
    check_parts(b, f);
    choose(b, f, f->node->part_count);
    add_part(b, f->node);
}

// ---- types that are declared ----

// A declaration that leaves nothing but its place, where declarations stand.
static void add_idle(builder *b, const frame *f) {
    shape in = top(b)->shape;
    if ((in != UNIT_SHAPE && in != STATEMENT_SHAPE) || is_in_front(b->rows, f->own.row)) return;
    node *n = make_node(b, IDLE_DECLARATION, f->own);
    n->name = f->name ? f->name : "";
    add_part(b, n);
}

static void open_record(builder *b, const rule *r, const dump_line *line) {
    frame *f = push(b, r, line, NULL);
    const char *s = line->rest;
    while (*s && !is_at(s, "struct") && !is_at(s, "union")) s = behind_spaces(s + strcspn(s, " "));
    if (!*s) stop_at(b, "a record that is no struct: %.100s", line->rest);
    bool is_union = is_at(s, "union");
    f->name = read_name(b, line->own, &s, &f->is_complete);
    const type *before = line->previous ? get_id(&b->tags, line->previous) : NULL;
    f->record = before ? (record *)before->record
                       : declare_record(b->types, f->name, is_union, line->own.row, line->own.column);
    if (!f->record) stop_at(b, "a record that was none before");
    f->record->place = client_place(b->rows, line->own.row, line->own.column);
    put_id(b->arena, &b->tags, line->id, before ? (void *)before : (void *)type_of_record(b->types, f->record));
}

static void close_record(builder *b, frame *f) {
    unsigned count = b->field_count - f->first_field;
    field_form *forms = take(b->arena, (count + 1) * sizeof *forms);
    for (unsigned i = 0; i < count; i++) forms[i] = b->fields[f->first_field + i].form;
    f->form.fields = forms;
    f->form.count = count;
    f->form.unknown_attribute = f->unknown_attribute;
    if (f->is_complete) lay_out(b->types, f->record, &f->form);
    for (unsigned i = 0; f->is_complete && i < count; i++)
        put_id(b->arena, &b->fields_by_id, b->fields[f->first_field + i].id, &f->record->fields[i]);
    b->field_count = f->first_field;
    add_idle(b, f);
}

static void open_field(builder *b, const rule *r, const dump_line *line) {
    const char *s = line->rest;
    bool is_complete;
    if (top(b)->shape != RECORD_SHAPE) stop_at(b, "a member of no record");
    frame *f = push(b, r, line, NULL);
    const char *name = read_name(b, line->own, &s, &is_complete);
    f->field.field = (field){
        .name = name, .type = need_type(b, &s), .place = client_place(b->rows, line->own.row, line->own.column)};
}

// What the width of a bit-field comes to, which clang tells below it.
static void take_width(builder *b, const dump_line *line) {
    frame *of = top(b) - 1;
    const char *s = line->rest;
    if (of->shape != FIELD_SHAPE || strncmp(s, "Int ", 4)) return;
    s += 4;
    of->has_value = read_number(&s, &of->value) && !*s;
}

// (an expression below a member is the width of a bit-field)
static void close_field(builder *b, frame *f) {
    f->field.field.is_bit_field = b->part_count > f->first_part;
    b->part_count = f->first_part;
    frame *of = top(b);
    if (f->unknown_attribute) of->unknown_attribute = f->unknown_attribute;
    if (f->field.field.is_bit_field && (!f->has_value || f->value > 64)) of->unknown_attribute = "bit-field";
    f->field.field.bits = (unsigned)f->value;
    b->fields = grown(b->arena, b->fields, b->field_count, &b->field_room, sizeof *b->fields);
    b->fields[b->field_count++] = (known_field){f->field, f->id};
}

static void open_enumeration(builder *b, const rule *r, const dump_line *line) {
    frame *f = push(b, r, line, NULL);
    const char *s = line->rest;
    bool is_complete;
    f->name = read_name(b, line->own, &s, &is_complete);
    f->values = (enumeration_form){.name = f->name, .row = line->own.row, .column = line->own.column};
}

static void close_enumeration(builder *b, frame *f) {
    f->values.unknown_attribute = f->unknown_attribute;
    const type *own = declare_enumeration(b->types, &f->values);
    put_id(b->arena, &b->tags, f->id, (void *)own);
    add_idle(b, f);
}

static void open_enumerator(builder *b, const rule *r, const dump_line *line) {
    const char *s = line->rest;
    bool is_complete;
    if (top(b)->shape != ENUMERATION_SHAPE) stop_at(b, "a constant of no enumeration");
    node *n = make_node(b, r->kind, line->own);
    n->name = read_name(b, line->own, &s, &is_complete);
    n->type = need_type(b, &s);
    put_id(b->arena, &b->nodes, line->id, n);
    push(b, r, line, n);
    b->skipped = line->depth;
}

static void close_enumerator(builder *b, frame *f) {
    frame *of = top(b);
    if (f->has_parts && !f->has_value) stop_at(b, "a constant without its value: %s", f->node->name);
    uint64_t value = f->has_value ? f->value : of->next;
    bool is_negative = f->has_value ? f->is_negative : of->is_next_negative;
    if (is_negative && (int64_t)value < of->values.least) of->values.least = (int64_t)value;
    if (!is_negative && value > of->values.greatest) of->values.greatest = value;
    of->next = value + 1;
    of->is_next_negative = is_negative && of->next;
    f->node->value = cut_to(value, f->node->type);
}

static void open_type_name(builder *b, const rule *r, const dump_line *line) {
    const char *s = line->rest;
    bool is_complete;
    frame *f = push(b, r, line, NULL);
    f->name = read_name(b, line->own, &s, &is_complete);
    f->text = copy_word(b, s, strlen(s));
    f->direct_depth = line->depth;
}

// The lines below a typedef are of its type. Clang may call an unnamed record by the typedef's name: it is known there
// by its number.
static void follow_type(builder *b, const dump_line *line) {
    static const char *const same[] = {"ElaboratedType", "RecordType", "EnumType", NULL};
    frame *f = top(b);
    if (line->depth != f->direct_depth + 1 || line->kind != NODE_LINE) return;
    const type *tag = get_id(&b->tags, line->id);
    bool is_tag = (line->length == 6 && !memcmp(line->word, "Record", 6)) ||
                  (line->length == 4 && !memcmp(line->word, "Enum", 4));
    if (is_tag && tag) f->type = tag;
    for (const char *const *word = same; *word; word++)
        if (strlen(*word) == line->length && !memcmp(*word, line->word, line->length)) f->direct_depth = line->depth;
}

static void close_type_name(builder *b, const frame *f) {
    const char *s = f->text;
    const type *of = f->type ? f->type : need_type(b, &s);
    declare_type_name(b->types, f->name, of, f->form.aligned, f->unknown_attribute);
    if (f->depth == 1 && !strcmp(f->name, LAST_NAME)) b->has_end = true;
    else add_idle(b, f);
}

// ---- attributes ----

static void open_attribute(builder *b, const rule *r, const dump_line *line) {
    frame *f = push(b, r, line, NULL);
    f->attribute = read_attribute(b, line);
    b->skipped = line->depth;
}

static bool is_named(const attribute *a, const char *name) { return !strcmp(a->name, name); }

// Whether an attribute is one of a typedef whose type clang tells with what it means.
static bool is_in_type(const frame *of, const attribute *a) {
    return of->shape == TYPE_NAME_SHAPE && is_named(a, "ModeAttr");
}

// What an attribute means for a layout.
static void apply_to_layout(frame *of, const attribute *a) {
    bool is_record = of->shape == RECORD_SHAPE, is_field = of->shape == FIELD_SHAPE;
    const char *number = a->text;
    uint64_t bits = 0, aligned = a->numbers[0];
    if (is_named(a, "PackedAttr") && is_record) of->form.is_packed = true;
    else if (is_named(a, "PackedAttr") && is_field) of->field.is_packed = true;
    else if (is_named(a, "MaxFieldAlignmentAttr") && is_record && read_number(&number, &bits) && bits >= 8)
        of->form.most_align = bits / 8;
    else if (a->kind == ALIGN_ATTRIBUTE && aligned) {
        uint64_t *to = is_field ? &of->field.aligned : &of->form.aligned;
        if (*to < aligned) *to = aligned;
    } else if (a->kind != IDLE_ATTRIBUTE && !is_named(a, "MayAliasAttr") && !is_in_type(of, a))
        of->unknown_attribute = a->name;
}

static void close_attribute(builder *b, frame *f) {
    attribute *a = f->attribute;
    frame *of = top(b);
    if (a->kind == ALIGN_ATTRIBUTE && f->has_value && !f->is_negative) a->numbers[0] = f->value;
    if (of->last_attribute) {
        *of->last_attribute = a;
        of->last_attribute = &a->next;
    } else if (of->shape == WRAPPER_SHAPE) {
        if (a->kind != IDLE_ATTRIBUTE) of->unknown_attribute = a->name;
    } else apply_to_layout(of, a);
}

// ---- lines ----

static void close_frame(builder *b) {
    frame f = *top(b);
    b->frame_count--;
    switch (f.shape) {
    case EXPRESSION_SHAPE:
    case STATEMENT_SHAPE: close_node(b, &f); break;
    case WRAPPER_SHAPE: close_wrapper(b, &f); break;
    case FUNCTION_SHAPE: close_function(b, &f); break;
    case VARIABLE_SHAPE: close_variable(b, &f); break;
    case RECORD_SHAPE: close_record(b, &f); break;
    case FIELD_SHAPE: close_field(b, &f); break;
    case ENUMERATION_SHAPE: close_enumeration(b, &f); break;
    case ENUMERATOR_SHAPE: close_enumerator(b, &f); break;
    case TYPE_NAME_SHAPE: close_type_name(b, &f); break;
    case ATTRIBUTE_SHAPE: close_attribute(b, &f); break;
    default: break;
    }
}

static void open_node(builder *b, const rule *r, const dump_line *line) {
    if (is_wrapper(r, line)) {
        push(b, r, line, NULL)->shape = WRAPPER_SHAPE;
        return;
    }
    switch (r->shape) {
    case EXPRESSION_SHAPE: open_expression(b, r, line); break;
    case STATEMENT_SHAPE: open_statement(b, r, line); break;
    case FUNCTION_SHAPE:
    case VARIABLE_SHAPE: open_object(b, r, line); break;
    case RECORD_SHAPE: open_record(b, r, line); break;
    case FIELD_SHAPE: open_field(b, r, line); break;
    case ENUMERATION_SHAPE: open_enumeration(b, r, line); break;
    case ENUMERATOR_SHAPE: open_enumerator(b, r, line); break;
    case TYPE_NAME_SHAPE: open_type_name(b, r, line); break;
    case ATTRIBUTE_SHAPE: open_attribute(b, r, line); break;
    case UNKNOWN_SHAPE: add_unknown(b, r, line); break;
    case IDLE_SHAPE: add_idle(b, &(frame){.own = line->own}); // fall through
    default: b->skipped = line->depth; break;
    }
}

// A line that is left out with what is below its node may tell a constant.
static void peek(builder *b, const dump_line *line) {
    frame *f = top(b);
    bool is_constant = f->shape == ATTRIBUTE_SHAPE || f->shape == ENUMERATOR_SHAPE;
    if (!is_constant || line->depth <= f->depth || f->has_value) return;
    const char *s = line->rest;
    f->has_parts = f->has_parts || (line->kind == NODE_LINE && line->begin.row);
    if (line->kind != VALUE_LINE || strncmp(s, "Int ", 4)) return;
    f->is_negative = s[4] == '-';
    s += 4 + f->is_negative;
    f->has_value = read_number(&s, &f->value) && !*s;
    if (f->is_negative) f->value = 0 - f->value;
}

// Whether a declaration of program scope is clang's own and stands for no type.
static bool is_left_out(const builder *b, const rule *r, const dump_line *line) {
    bool is_type = r->shape == RECORD_SHAPE || r->shape == ENUMERATION_SHAPE || r->shape == TYPE_NAME_SHAPE;
    return line->depth == 1 && !is_type && is_in_front(b->rows, line->own.row);
}

static void read_node(builder *b, const dump_line *line) {
    while (b->frame_count > 1 && top(b)->depth >= line->depth) close_frame(b);
    const rule *r = line->kind == NODE_LINE ? rule_of(line->word, line->length) : NULL;
    frame *f = top(b);
    if (f->shape == TYPE_NAME_SHAPE && !(r && r->shape == ATTRIBUTE_SHAPE)) {
        follow_type(b, line);
        return;
    }
    if (line->depth != f->depth + 1) stop_at(b, "a line that can't be read: %.100s", line->rest);
    if (line->kind == NULL_LINE && f->node && f->node->kind == FOR_STATEMENT) add_part(b, NULL);
    else if (line->kind == VALUE_LINE && f->shape == WRAPPER_SHAPE) take_width(b, line);
    else if (!r) stop_at(b, "a line that can't be read: %.100s", line->rest);
    else if (line->is_filler || is_left_out(b, r, line)) b->skipped = line->depth;
    else open_node(b, r, line);
}

static void read_unit(builder *b) {
    static const rule unit = {"TranslationUnitDecl", UNIT_SHAPE, UNKNOWN_DECLARATION, 0, ANY_NUMBER, NULL};
    dump_line line = next_line(b->dump);
    bool is_unit = line.kind == NODE_LINE && !line.depth && line.length == strlen(unit.word) &&
                   !memcmp(line.word, unit.word, line.length);
    if (!is_unit) stop_at(b, "it doesn't begin as a tree");
    push(b, &unit, &line, NULL);
    unsigned last_depth = 0;
    for (b->skipped = UINT32_MAX; (line = next_line(b->dump)).kind != NO_LINE; last_depth = line.depth) {
        if (line.kind == BROKEN_LINE) stop_at(b, "a line that can't be read, or half of one");
        if (line.depth > last_depth + 1) stop_at(b, "a line that is indented too far");
        if (line.depth > b->skipped) {
            peek(b, &line);
            continue;
        }
        b->skipped = UINT32_MAX;
        read_node(b, &line);
    }
    while (b->frame_count > 1) close_frame(b);
    if (!b->has_end) stop_at(b, "it ends too early");
}

// ---- the whole ----

// Whether a declaration is one of what another source may define.
static bool is_open(const node *d) {
    return d && ((d->kind == FUNCTION_DECLARATION && !d->body && !d->is_static) ||
                 (d->kind == VARIABLE_DECLARATION && !d->part_count && d->is_extern));
}

static void choose_declarations(builder *b) {
    tree *t = b->tree;
    for (reference *r = b->names; r; r = r->next) {
        if (r->to->chosen) r->node->declaration = r->to->chosen;
        t->open_count += is_open(r->node->declaration);
    }
    t->open = take(b->arena, (t->open_count + 1) * sizeof *t->open);
    unsigned n = 0;
    for (reference *r = b->names; r; r = r->next)
        if (is_open(r->node->declaration)) t->open[n++] = r->node;
}

static void list_declarations(builder *b, tree *t) {
    t->declarations = take(b->arena, (b->part_count + 1) * sizeof *t->declarations);
    for (unsigned i = 0; i < b->part_count; i++)
        if (is_declaration(b->parts[i])) t->declarations[t->declaration_count++] = b->parts[i];
        else stop_at(b, "a declaration that is none");
}

const char *read_nodes(arena *a, dump *d, rows *r, tree *t) {
    builder *b = take(a, sizeof *b);
    *b = (builder){.arena = a, .dump = d, .rows = r, .tree = t, .types = make_types(a)};
    if (setjmp(b->stop)) return b->wrong;
    read_unit(b);
    choose_declarations(b);
    list_declarations(b, t);
    settle_types(b->types);
    t->node_count++;
    return NULL;
}
