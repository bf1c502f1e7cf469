// Statements.
#include "front.h"
#include <string.h>

// ---- lists ----

static list statement_list_of(translator *t, const node *n) {
    list before = begin_list(t);
    if (n) translate_statement(t, n, false);
    return end_list(t, before);
}

void enter_breakable(translator *t, label *l) {
    t->breaks = grown(&t->pass, t->breaks, t->break_count, &t->break_room, sizeof(label *));
    t->breaks[t->break_count++] = l;
}

static statement *break_unless(translator *t, integer test, const place *at) {
    const char *fails = format(t, "!%s", bracketed(t, &test, 90));
    return new_branch(t, fails, one_text(t, "break;", at), (list){NULL, NULL}, at);
}

static void translate_branch(translator *t, const node *n) {
    const node *otherwise = n->part_count > 2 ? n->parts[2] : NULL;
    integer test = condition(t, n->parts[0]);
    if (test.is_literal) {
        const node *taken = test.value ? n->parts[1] : otherwise;
        if (taken) translate_statement(t, taken, false);
        return;
    }
    list first = statement_list_of(t, n->parts[1]), second = statement_list_of(t, otherwise);
    t->at = &n->place;
    if (first.first || second.first) append(t, new_branch(t, test.text, first, second, &n->place));
    else if (test.has_effect) kept(t, test);
}

// ---- loops ----

// A loop's condition with the statements that it needs. Without a condition it is 1.
typedef struct {
    integer test;
    list before;
} loop_test;

// A condition whose right side needs statements is left in front of these, so that what they work out stands beside the
// loop's body, which may use it too.
static integer both_conditions(translator *t, integer left, list behind, integer right, const place *at) {
    if (left.is_literal || behind.first) {
        if (!left.is_literal) append(t, break_unless(t, left, at));
        append_list(&t->out, behind);
        return right;
    }
    if (right.is_literal && right.value) return is_not_zero(t, left);
    return joined_conditions(t, LOGICAL_AND, left, right);
}

static integer loop_condition(translator *t, const node *n, const place *at) {
    bool is_and = n->kind == BINARY_EXPRESSION && n->operation == LOGICAL_AND && n->type->kind != VECTOR_TYPE;
    if (!is_and) return condition(t, n);
    go_deeper(t, &n->place);
    integer test = loop_condition(t, n->parts[0], at);
    if (!test.is_literal || test.value) {
        list before = begin_list(t);
        integer right = loop_condition(t, n->parts[1], at);
        test = both_conditions(t, test, end_list(t, before), right, at);
    }
    t->depth--;
    return test;
}

static loop_test test_of(translator *t, const node *n, const place *at) {
    list before = begin_list(t);
    integer test = n ? loop_condition(t, n, at) : literal(t, 1, INT);
    return (loop_test){test, end_list(t, before)};
}

static bool is_always(const loop_test *c) { return c->test.is_literal && c->test.value; }
static bool is_never(const loop_test *c) { return c->test.is_literal && !c->test.value && !c->before.first; }

// The statements of the condition, and a `break` where it fails.
static list with_break(translator *t, const loop_test *c, const place *at) {
    list l = c->before;
    statement *s = is_always(c) ? NULL : break_unless(t, c->test, at);
    if (s) append_list(&l, (list){s, s});
    return l;
}

static void append_loop(translator *t, unsigned number, const char *head, list body, const char *end, const place *at) {
    statement *s = new_loop(t, head, body, end, at);
    s->loop = number;
    append(t, s);
}

static void translate_while(translator *t, const node *n, unsigned number) {
    loop_test c = test_of(t, n->parts[0], &n->place);
    list body = statement_list_of(t, n->parts[1]);
    if (is_never(&c)) return;
    if (!c.before.first) {
        append_loop(t, number, format(t, "while(%s)", c.test.text), body, "", &n->place);
        return;
    }
    list all = with_break(t, &c, &n->place);
    set_turn_before(t, all, number);
    append_list(&all, body);
    append_loop(t, number, "while(1)", all, "", &n->place);
}

// A part that is done in front of each turn but the first one, behind a flag.
static list behind_flag(translator *t, const char *flag, list part, const place *at) {
    statement *s = new_branch(t, flag, part, (list){NULL, NULL}, at);
    list all = {s, s};
    append_list(&all, one_text(t, format(t, "%s=1;", flag), at));
    return all;
}

static const char *new_flag(translator *t) {
    const char *flag = temporary_name(t);
    emit(t, "int %s=0;", flag);
    return flag;
}

static void translate_do(translator *t, const node *n, unsigned number) {
    list body = statement_list_of(t, n->parts[0]);
    loop_test c = test_of(t, n->parts[1], &n->place);
    t->at = &n->place;
    if (!c.before.first) {
        append_loop(t, number, "do", body, format(t, "while(%s);", c.test.text), &n->place);
        return;
    }
    list all = behind_flag(t, new_flag(t), with_break(t, &c, &n->place), &n->place);
    set_turn_before(t, all, number);
    append_list(&all, body);
    append_loop(t, number, "while(1)", all, "", &n->place);
}

// Whether a loop's body goes on to its next turn by `continue`.
static bool has_continue(const node *n) {
    bool has = n->kind == CONTINUE_STATEMENT;
    bool is_loop = n->kind == FOR_STATEMENT || n->kind == WHILE_STATEMENT || n->kind == DO_STATEMENT;
    for (unsigned i = 0; !has && !is_loop && i < n->part_count; i++) has = n->parts[i] && has_continue(n->parts[i]);
    return has;
}

// A step that can stand between the brackets of a `for`: one statement that declares nothing. Its text without the
// semicolon, or NULL.
static const char *simple_step(translator *t, list step) {
    if (!step.first) return "";
    if (step.first != step.last || step.first->kind != TEXT) return NULL;
    const char *text = step.first->text;
    for (integer_type i = CHAR; i <= ULONG; i++) {
        size_t n = strlen(name_of(i));
        if (!strncmp(text, name_of(i), n) && text[n] == ' ') return NULL;
    }
    char *part = copy_text(&t->pass, text, strlen(text));
    part[strlen(part) - 1] = 0;
    return part;
}

// The parts of a `for` behind its first one.
typedef struct {
    loop_test test;
    list step, body;
    unsigned number;
    bool has_continue;
} for_parts;

// A step that needs statements stands behind the body, or, where that may go on to the next turn before its end, in
// front of the test.
static void append_for(translator *t, for_parts *p, const place *at) {
    const char *step = simple_step(t, p->step);
    list head = with_break(t, &p->test, at);
    bool has_test = p->test.before.first != NULL;
    const char *test = is_always(&p->test) ? "" : p->test.test.text;
    if (is_never(&p->test)) return;
    if (step && !has_test) {
        append_loop(t, p->number, format(t, "for(;%s;%s)", test, step), p->body, "", at);
        return;
    }
    list all = {NULL, NULL};
    if (!step && p->has_continue) {
        all = behind_flag(t, new_flag(t), p->step, at);
        append_list(&all, head);
        set_turn_before(t, all, p->number);
        append_list(&all, p->body);
        append_loop(t, p->number, "while(1)", all, "", at);
        return;
    }
    if (has_test) all = head;
    set_turn_before(t, all, p->number);
    append_list(&all, p->body);
    if (!step) append_list(&all, p->step);
    const char *condition = has_test || is_always(&p->test) ? "1" : test;
    const char *whole = step ? format(t, "for(;;%s)", step) : format(t, "while(%s)", condition);
    append_loop(t, p->number, whole, all, "", at);
}

static void translate_for(translator *t, const node *n, unsigned number) {
    for_parts p = {.number = number, .has_continue = has_continue(n->parts[3])};
    if (n->parts[0]) translate_statement(t, n->parts[0], false);
    t->at = &n->place;
    p.test = test_of(t, n->parts[1], &n->place);
    list outside = begin_list(t);
    if (n->parts[2]) evaluate_effects(t, n->parts[2]);
    p.step = end_list(t, outside);
    p.body = statement_list_of(t, n->parts[3]);
    t->at = &n->place;
    append_for(t, &p, &n->place);
}

static void translate_loop(translator *t, const node *n) {
    unsigned number = ++t->loop_count;
    enter_breakable(t, NULL);
    if (n->kind == WHILE_STATEMENT) translate_while(t, n, number);
    else if (n->kind == DO_STATEMENT) translate_do(t, n, number);
    else translate_for(t, n, number);
    t->break_count--;
}

// ---- leaving ----

static void leave(translator *t, label *l, const place *at) {
    statement *s = new_statement(t, LEAVING, NULL, at);
    s->label = l;
    append(t, s);
}

static void translate_return(translator *t, const node *n) {
    function_frame *f = t->frame;
    const node *given = n->part_count ? n->parts[0] : NULL;
    if (f->is_kernel) {
        if (given) refuse_at(t, &n->place, "a kernel returns no value");
        emit(t, "return;");
        return;
    }
    if (f->stays) {
        if (!given) refuse_at(t, &n->place, "a function with a result returns none");
        value v = given_value(t, evaluate_value(t, given), f->type);
        t->at = &n->place;
        emit(t, "return %s;", assigned(t, v.integer, core_type(f->type)));
        return;
    }
    if (given && f->type->kind == VOID_TYPE) evaluate_effects(t, given);
    else if (given) {
        value v = evaluate_value(t, given);
        t->at = &n->place;
        put(t, whole(pointer_to(t, f->result), f->type), v, &n->place);
    }
    leave(t, f->label, &n->place);
}

static void translate_break(translator *t, const node *n) {
    label *l = t->break_count ? t->breaks[t->break_count - 1] : NULL;
    if (l) leave(t, l, &n->place);
    else emit(t, "break;");
}

// ---- the whole ----

// ---- goto ----

// Whether a part holds a jump to a label.
static bool has_jump(const node *n, const node *target) {
    bool has = n->kind == GOTO_STATEMENT && n->target == target;
    for (unsigned i = 0; !has && i < n->part_count; i++) has = n->parts[i] && has_jump(n->parts[i], target);
    return has;
}

// The first statement of a range of a block that holds a jump to a label; its end where there is none.
static unsigned first_jump(const node *block, unsigned first, unsigned end, const node *target) {
    while (first < end && !has_jump(block->parts[first], target)) first++;
    return first;
}

// The last label of a range of a block that is jumped to from in front of it; its end where there is none.
static unsigned last_label(const node *block, unsigned first, unsigned end) {
    for (unsigned i = end; i-- > first;) {
        const node *n = block->parts[i];
        if (n->kind == LABEL_STATEMENT && first_jump(block, first, i, n) < i) return i;
    }
    return end;
}

// Where what has to be left for a label begins: at the first jump to it, or at one to a label in front of it that has
// begun there already.
static unsigned begin_of_jumps(const node *block, unsigned first, unsigned label) {
    unsigned begin = first_jump(block, first, label, block->parts[label]);
    for (unsigned i = label; i-- > first;) {
        const node *n = block->parts[i];
        unsigned other = n->kind == LABEL_STATEMENT ? first_jump(block, first, i, n) : i;
        if (other < begin && begin < i) begin = other;
    }
    return begin;
}

static void declare_of(translator *t, const node *block, unsigned first, unsigned end) {
    for (unsigned i = first; i < end; i++) {
        const node *n = block->parts[i];
        for (unsigned j = 0; n->kind == DECLARATION_STATEMENT && j < n->part_count; j++)
            if (n->parts[j]->kind == VARIABLE_DECLARATION) declare_in_front_of(t, n->parts[j]);
    }
}

// What stands between the first jump to a label and that: it is left by the jump, as a call is by `return`. Its
// variables are known behind the label.
static void translate_jumped(translator *t, const node *block, unsigned first, unsigned end) {
    const char *flag = temporary_name(t);
    jump *j = take(&t->pass, sizeof *j);
    *j = (jump){.up = t->jumps, .target = block->parts[end], .call = t->call};
    j->label = (label){.is_left = flag, .is_not_left = format(t, "!%s", flag)};
    declare_of(t, block, first, end);
    list before = begin_list(t);
    t->jumps = j;
    translate_range(t, block, first, end, false);
    t->jumps = j->up;
    list l = end_list(t, before);
    take_out_leaving(t, &l, &j->label);
    t->at = &block->parts[end]->place;
    if (j->label.is_tested) {
        emit(t, "int %s=0;", flag);
        j->label.leave = format(t, "%s=1;", flag);
    }
    append_list(&t->out, l);
}

// The last label is gone to first: what stands in front of it may hold others.
void translate_range(translator *t, const node *block, unsigned first, unsigned end, bool is_outermost) {
    unsigned label = last_label(block, first, end), begin = end;
    go_deeper(t, &block->place);
    if (label < end) begin = begin_of_jumps(block, first, label);
    if (label < end && begin > first) translate_range(t, block, first, begin, is_outermost);
    if (label < end) translate_jumped(t, block, begin, label);
    for (unsigned i = label < end ? label : first; i < end; i++)
        if (block->parts[i]) translate_statement(t, block->parts[i], is_outermost);
    t->depth--;
}

static void translate_goto(translator *t, const node *n) {
    jump *j = t->jumps;
    while (j && (j->target != n->target || j->call != t->call)) j = j->up;
    if (!j) refuse_at(t, &n->place, "Clsim has no goto backwards, or into a block");
    leave(t, &j->label, &n->place);
}

static void translate_declarations(translator *t, const node *n, bool is_outermost) {
    for (unsigned i = 0; i < n->part_count; i++) {
        const node *d = n->parts[i];
        if (d->kind == VARIABLE_DECLARATION) declare_variable(t, d, is_outermost);
        else if (d->kind != IDLE_DECLARATION && d->kind != FUNCTION_DECLARATION)
            refuse_at(t, &d->place, "Clsim has no such declaration (%s)", d->name ? d->name : "");
    }
}

static void statement_of(translator *t, const node *n, bool is_outermost) {
    switch (n->kind) {
    case COMPOUND_STATEMENT: translate_range(t, n, 0, n->part_count, is_outermost); break;
    case DECLARATION_STATEMENT: translate_declarations(t, n, is_outermost); break;
    case NULL_STATEMENT: break;
    case IF_STATEMENT: translate_branch(t, n); break;
    case WHILE_STATEMENT:
    case DO_STATEMENT:
    case FOR_STATEMENT: translate_loop(t, n); break;
    case SWITCH_STATEMENT: translate_switch(t, n); break;
    case BREAK_STATEMENT: translate_break(t, n); break;
    case CONTINUE_STATEMENT: emit(t, "continue;"); break;
    case RETURN_STATEMENT: translate_return(t, n); break;
    case LABEL_STATEMENT: translate_statement(t, n->parts[0], false); break;
    case GOTO_STATEMENT: translate_goto(t, n); break;
    case CASE_STATEMENT:
    case DEFAULT_STATEMENT: refuse_at(t, &n->place, "Clsim has no case inside of another statement");
    case UNKNOWN_STATEMENT: refuse_at(t, &n->place, "Clsim has no such statement (%s)", n->name ? n->name : "");
    default: evaluate_effects(t, n);
    }
}

void translate_statement(translator *t, const node *n, bool is_outermost) {
    go_deeper(t, &n->place);
    t->at = &n->place;
    statement_of(t, n, is_outermost);
    t->depth--;
}

// `({ .. })`: what its last expression gives.
value statement_value(translator *t, const node *n, bool is_used) {
    const node *all = n->parts[0];
    value v = {.kind = NO_VALUE};
    for (unsigned i = 0; i < all->part_count; i++) {
        const node *part = all->parts[i];
        bool is_last = i + 1 == all->part_count && is_used && n->type->kind != VOID_TYPE;
        if (!is_last) translate_statement(t, part, false);
        else v = evaluate_value(t, part);
    }
    return kept_value(t, v);
}
