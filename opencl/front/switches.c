// `switch`. Few cases none of which falls through are a chain of `if`. Otherwise a variable holds the number of the
// section that is entered, and the sections follow each other: each is done where that number isn't above its own.
#include "front.h"
#include <string.h>

// The values of a label: those from one to another.
typedef struct {
    uint64_t first, last;
} span;

// The statements between two groups of labels.
typedef struct {
    span *values;
    unsigned value_count, value_room;
    bool is_default;
    const node **statements;
    unsigned statement_count, statement_room;
    list list;
    bool always_leaves; // its end isn't reached
} section;

typedef struct {
    translator *t;
    const node *node;
    integer value;
    section *sections;
    unsigned count, room;
    label label;
} sections;

enum {
    MAX_CHAIN = 6,  // of sections in a chain
    MOST_TESTS = 16 // in one condition
};

// ---- reading ----

static section *new_section(sections *s) {
    s->sections = grown(&s->t->pass, s->sections, s->count, &s->room, sizeof *s->sections);
    s->sections[s->count] = (section){.values = NULL};
    return &s->sections[s->count++];
}

// A value of a label, in the type of what is switched by.
static uint64_t label_value(const sections *s, const node *label, unsigned part) {
    integer v = evaluate_value(s->t, label->parts[part]).integer;
    if (!v.is_literal) refuse_at(s->t, &label->place, "Clsim has no case whose value isn't known here");
    return converted(v.value, type_of(&s->value));
}

static void add_label(sections *s, section *to, const node *label) {
    translator *t = s->t;
    if (label->kind == DEFAULT_STATEMENT) {
        to->is_default = true;
        return;
    }
    to->values = grown(&t->pass, to->values, to->value_count, &to->value_room, sizeof *to->values);
    to->values[to->value_count++] =
        (span){label_value(s, label, 0), label_value(s, label, label->part_count == 3 ? 1 : 0)};
}

// A declaration in front of all cases.
static void declare_in_front(sections *s, const node *n) {
    translator *t = s->t;
    if (n->kind != DECLARATION_STATEMENT) return; // never reached
    for (unsigned i = 0; i < n->part_count; i++)
        if (n->parts[i]->part_count) refuse_at(t, &n->parts[i]->place, "Clsim has no value in front of the first case");
    translate_statement(t, n, false);
}

// Whether a block holds a label of its switch, not inside of another statement.
static bool has_label(const node *n) {
    bool has = n->kind == CASE_STATEMENT || n->kind == DEFAULT_STATEMENT;
    for (unsigned i = 0; !has && n->kind == COMPOUND_STATEMENT && i < n->part_count; i++) has = has_label(n->parts[i]);
    return has;
}

// The statements of a block with labels are those of the sections.
static void add_statement(sections *s, const node *n) {
    section *last = s->count ? &s->sections[s->count - 1] : NULL;
    if (n->kind == COMPOUND_STATEMENT && has_label(n)) {
        go_deeper(s->t, &n->place);
        for (unsigned i = 0; i < n->part_count; i++) add_statement(s, n->parts[i]);
        s->t->depth--;
        return;
    }
    while (n->kind == CASE_STATEMENT || n->kind == DEFAULT_STATEMENT) {
        if (!last || last->statement_count) last = new_section(s);
        add_label(s, last, n);
        n = n->parts[n->part_count - 1];
    }
    if (n->kind == COMPOUND_STATEMENT && has_label(n)) {
        add_statement(s, n);
        return;
    }
    if (!last) {
        declare_in_front(s, n);
        return;
    }
    if (n->kind == NULL_STATEMENT) return;
    last->statements =
        grown(&s->t->pass, last->statements, last->statement_count, &last->statement_room, sizeof *last->statements);
    last->statements[last->statement_count++] = n;
}

// ---- the sections ----

// Whether the end of a list is never reached.
static bool always_leaves(list l) {
    const statement *s = l.last;
    while (s && s->kind == BRANCH && s->second.last) {
        if (!always_leaves(s->first)) return false;
        s = s->second.last;
    }
    if (!s) return false;
    if (s->kind == LEAVING) return true;
    return s->kind == TEXT && (!strcmp(s->text, "continue;") || !strcmp(s->text, "return;"));
}

// The variables of a section are known to those behind it.
static void declare_variables(sections *s) {
    for (unsigned i = 0; i + 1 < s->count; i++)
        for (unsigned j = 0; j < s->sections[i].statement_count; j++) {
            const node *n = s->sections[i].statements[j];
            for (unsigned k = 0; n->kind == DECLARATION_STATEMENT && k < n->part_count; k++)
                if (n->parts[k]->kind == VARIABLE_DECLARATION) declare_in_front_of(s->t, n->parts[k]);
        }
}

static void translate_sections(sections *s) {
    translator *t = s->t;
    enter_breakable(t, &s->label);
    for (unsigned i = 0; i < s->count; i++) {
        section *one = &s->sections[i];
        list before = begin_list(t);
        for (unsigned j = 0; j < one->statement_count; j++) translate_statement(t, one->statements[j], false);
        one->list = end_list(t, before);
        one->always_leaves = always_leaves(one->list);
        take_out_leaving(t, &one->list, &s->label);
    }
    t->break_count--;
}

static bool falls_through(const sections *s) {
    for (unsigned i = 0; i + 1 < s->count; i++)
        if (!s->sections[i].always_leaves) return true;
    return false;
}

// Whether the value is one of a label's.
static const char *test_of_label(const sections *s, const span *values) {
    translator *t = s->t;
    integer_type type = type_of(&s->value);
    integer first = literal(t, values->first, type), last = literal(t, values->last, type);
    if (values->first == values->last) return binary(t, EQUAL, s->value, first, type).text;
    integer from = binary(t, GREATER_OR_EQUAL, s->value, first, type);
    return format(t, "%s&&%s", from.text, binary(t, LESS_OR_EQUAL, s->value, last, type).text);
}

// Whether the value is one of some of a section's.
static const char *test_of(const sections *s, const section *one, unsigned first, unsigned end) {
    const char *all = NULL;
    for (unsigned i = first; i < end; i++) {
        const char *test = test_of_label(s, &one->values[i]);
        all = all ? format(s->t, "%s||%s", all, test) : test;
    }
    return all;
}

static bool is_in(const sections *s, const span *values) {
    uint64_t v = s->value.value;
    if (!is_signed(type_of(&s->value))) return values->first <= v && v <= values->last;
    return (int64_t)values->first <= (int64_t)v && (int64_t)v <= (int64_t)values->last;
}

static unsigned default_section(const sections *s) {
    for (unsigned i = 0; i < s->count; i++)
        if (s->sections[i].is_default) return i;
    return s->count;
}

static void write_chain(sections *s) {
    translator *t = s->t;
    unsigned otherwise = default_section(s);
    list all = {NULL, NULL};
    if (otherwise < s->count) all = s->sections[otherwise].list;
    for (unsigned i = s->count; i-- > 0;) {
        const section *one = &s->sections[i];
        if (i == otherwise) continue;
        statement *b = new_branch(t, test_of(s, one, 0, one->value_count), one->list, all, &s->node->place);
        all = (list){b, b};
    }
    append_list(&t->out, all);
}

// Sets the number of a section where the value is one of its own.
static void number_section(sections *s, const char *number, unsigned which) {
    translator *t = s->t;
    const section *one = &s->sections[which];
    const place *at = &s->node->place;
    for (unsigned i = 0; i < one->value_count; i += MOST_TESTS) {
        unsigned end = i + MOST_TESTS < one->value_count ? i + MOST_TESTS : one->value_count;
        list set = one_text(t, format(t, "%s=%u;", number, which), at);
        append(t, new_branch(t, test_of(s, one, i, end), set, (list){NULL, NULL}, at));
    }
}

static void write_numbered(sections *s, const char *number, bool falls) {
    translator *t = s->t;
    const place *at = &s->node->place;
    unsigned otherwise = default_section(s);
    emit(t, "int %s=%u;", number, otherwise);
    for (unsigned i = 0; i < s->count; i++)
        if (i != otherwise) number_section(s, number, i);
    if (falls || s->label.is_tested) s->label.leave = format(t, "%s=%u;", number, s->count);
    for (unsigned i = 0; i < s->count; i++) {
        const char *enter = format(t, "%s%s%u", number, falls ? "<=" : "==", i);
        append(t, new_branch(t, enter, s->sections[i].list, (list){NULL, NULL}, at));
    }
}

// The only section that a known value enters. False where it would fall through.
static bool write_known(sections *s, const char *number, bool falls) {
    translator *t = s->t;
    unsigned entered = default_section(s);
    for (unsigned i = 0; i < s->count; i++)
        for (unsigned j = 0; j < s->sections[i].value_count; j++)
            if (is_in(s, &s->sections[i].values[j])) entered = i;
    if (entered == s->count) return true;
    if (falls) return false;
    if (s->label.is_tested) {
        emit(t, "int %s=%u;", number, entered);
        s->label.leave = format(t, "%s=%u;", number, s->count);
    }
    append_list(&t->out, s->sections[entered].list);
    return true;
}

void translate_switch(translator *t, const node *n) {
    sections *s = take(&t->pass, sizeof *s);
    const node *body = n->parts[1];
    *s = (sections){.t = t, .node = n};
    integer v = evaluate_value(t, n->parts[0]).integer;
    t->at = &n->place;
    s->value = kept(t, v);
    if (body->kind != COMPOUND_STATEMENT) add_statement(s, body);
    else
        for (unsigned i = 0; i < body->part_count; i++) add_statement(s, body->parts[i]);
    const char *number = temporary_name(t);
    declare_variables(s);
    s->label.is_left = format(t, "%s==%u", number, s->count);
    s->label.is_not_left = format(t, "%s!=%u", number, s->count);
    translate_sections(s);
    t->at = &n->place;
    bool falls = falls_through(s);
    if (s->value.is_literal && write_known(s, number, falls)) return;
    bool is_short = s->count <= MAX_CHAIN;
    for (unsigned i = 0; is_short && i < s->count; i++) is_short = s->sections[i].value_count <= MOST_TESTS;
    if (!falls && is_short && !s->label.is_tested) write_chain(s);
    else write_numbered(s, number, falls);
}
