// Calls of the source's own functions: each is translated in place, but where its function stays one (functions.c).
#include "front.h"

// The call of a function at a place in another one. It is the same one in each pass.
static call *find_call(translator *t, const node *function, const node *site) {
    unsigned up = t->call ? t->call->number : 0, bucket = (up * 2654435761u + site->number) % BUCKETS;
    for (call *c = t->calls[bucket]; c; c = c->next)
        if (c->up == t->call && c->site == site) return c;
    call *c = take(&t->kernel, sizeof *c);
    call_site *told = take(t->result, sizeof *told);
    *told = (call_site){calls_here(t), &site->place};
    *c = (call){.up = t->call,
                .next = t->calls[bucket],
                .number = ++t->call_count,
                .function = function,
                .site = site,
                .told = told};
    t->calls[bucket] = c;
    return c;
}

call *new_call(translator *t, const node *function) {
    call *c = take(&t->kernel, sizeof *c);
    *c = (call){.number = ++t->call_count, .function = function, .site = function};
    return c;
}

static bool is_recursive(const translator *t, const node *function) {
    if (function == t->kernel_function || is_open_function(t, function)) return true;
    for (const call *c = t->call; c; c = c->up)
        if (c->function == function) return true;
    return false;
}

// How many returns a function has.
static unsigned count_returns(translator *t, const node *body) {
    unsigned count = 0, room = 0, returns = 0;
    const node **stack = NULL;
    if (t->return_count[body->number]) return t->return_count[body->number] - 1;
    stack = grown(&t->pass, stack, count, &room, sizeof *stack);
    stack[count++] = body;
    while (count) {
        const node *n = stack[--count];
        returns += n->kind == RETURN_STATEMENT;
        for (unsigned i = 0; i < n->part_count; i++) {
            if (!n->parts[i]) continue;
            stack = grown(&t->pass, stack, count, &room, sizeof *stack);
            stack[count++] = n->parts[i];
        }
    }
    t->return_count[body->number] = returns + 1;
    return returns;
}

// ---- parameters ----

// A parameter that is never assigned: the argument stands for it.
static void bind_parameter(translator *t, object *o, const node *p, value v) {
    const type *type = p->type;
    new_object(t, o, IN_PRIVATE, type, p->name);
    o->size = type->size;
    o->has_size = true;
    if (type->kind == POINTER_TYPE) {
        set_alias(t, o, kept_value(t, v));
        return;
    }
    integer_type core = core_type(type);
    integer i = given_value(t, v, type).integer;
    bool is_simple = i.is_fixed && (i.is_literal || i.pending == NO_INTEGER) && i.depth <= 4;
    if (!is_simple) {
        const char *name = fresh_name(t, o->name);
        show_name(t, name, o->name);
        emit(t, "%s %s=%s;", name_of(core), name, i.text);
        i = variable(name, core, true);
    }
    set_alias(t, o, integer_value(i));
}

void give_argument(translator *t, unsigned number, const node *p, value v, const place *at) {
    object *o = find_object(t, number, p->number, ITSELF);
    bool is_bound = p->type->kind == POINTER_TYPE || p->type->kind == INTEGER_TYPE || p->type->kind == FLOATING_TYPE;
    if (is_bound && !t->is_modified[p->number]) bind_parameter(t, o, p, v);
    else declare_given(t, o, p->type, p->name, given_value(t, v, p->type), at);
}

// ---- bodies ----

// A body with one return, at its end: what that returns is the value of the call.
static const node *only_return(translator *t, const node *function) {
    const node *body = function->body;
    const node *last = body->part_count ? body->parts[body->part_count - 1] : NULL;
    bool is_one = last && last->kind == RETURN_STATEMENT && last->part_count && count_returns(t, body) == 1;
    return is_one ? last : NULL;
}

static value simple_body(translator *t, const node *function, const node *last, const type *result, bool is_used) {
    const node *body = function->body;
    value v = {.kind = NO_VALUE};
    translate_range(t, body, 0, body->part_count - 1, false);
    t->at = &last->place;
    if (!is_used) evaluate_effects(t, last->parts[0]);
    else v = given_value(t, evaluate_value(t, last->parts[0]), result);
    return v;
}

// The variables of its result are declared in front of the body, which is left by a flag.
static void body_with_returns(translator *t, const node *function, object *result) {
    label *l = t->frame->label;
    list before = begin_list(t);
    const place *at = t->at;
    translate_statement(t, function->body, false);
    list body = end_list(t, before);
    t->at = at;
    const char *flag = temporary_name(t);
    *l = (label){.is_left = flag, .is_not_left = format(t, "!%s", flag)};
    take_out_leaving(t, &body, l);
    if (result) write_declarations(t, result, "");
    if (l->is_tested) {
        emit(t, "int %s=0;", flag);
        l->leave = format(t, "%s=1;", flag);
    }
    append_list(&t->out, body);
}

static integer fixed_if_variable(integer v) {
    v.is_fixed = v.is_fixed || (v.precedence == 100 && !v.has_effect);
    return v;
}

// A variable that holds a result is assigned nowhere else.
static value fixed_result(translator *t, value v) {
    integer *components = take(&t->pass, (v.kind == VECTOR_VALUE ? v.count : 1) * sizeof *components);
    if (v.kind == INTEGER_VALUE) v.integer = fixed_if_variable(v.integer);
    if (v.kind != VECTOR_VALUE) return v;
    for (unsigned i = 0; i < v.count; i++) components[i] = fixed_if_variable(v.components[i]);
    v.components = components;
    return v;
}

static value translate_call(translator *t, const node *n, const node *function, bool is_used) {
    function_frame frame = {.type = n->type}, *frame_before = t->frame;
    call *call_before = t->call;
    unsigned breaks_before = t->break_count;
    const node *last = only_return(t, function);
    bool is_simple = last && (n->type->kind == INTEGER_TYPE || n->type->kind == VECTOR_TYPE ||
                              n->type->kind == POINTER_TYPE || n->type->kind == FLOATING_TYPE);
    value v = {.kind = NO_VALUE};
    t->call = find_call(t, function, n);
    unsigned number = t->call->number;
    t->frame = &frame;
    enter_breakable(t, NULL);
    if (is_simple) v = simple_body(t, function, last, n->type, is_used);
    else {
        frame.label = take(&t->pass, sizeof *frame.label);
        if (n->type->kind != VOID_TYPE)
            frame.result =
                new_variable(t, find_object(t, number, n->number, RESULT_OF), n->type, function->name, &n->place);
        body_with_returns(t, function, frame.result);
    }
    t->call = call_before;
    t->frame = frame_before;
    t->break_count = breaks_before;
    t->at = &n->place;
    if (is_simple || !frame.result || !is_used) return v;
    return fixed_result(t, get(t, whole(pointer_to(t, frame.result), n->type), &n->place));
}

static value inline_call(translator *t, const node *n, const node *function, bool is_used) {
    unsigned count = function->part_count;
    operand *arguments = take(&t->pass, (count + 1) * sizeof *arguments);
    if (is_recursive(t, function)) refuse_at(t, &n->place, "a function calls itself");
    if (n->part_count - 1 != count) refuse_at(t, &n->place, "too few or too many arguments");
    for (unsigned i = 0; i < count; i++) arguments[i] = (operand){.node = n->parts[1 + i]};
    evaluate(t, arguments, count);
    t->at = &n->place;
    const call *c = find_call(t, function, n);
    if (stays_function(t, n, c, arguments, is_used)) return call_function(t, n, function, arguments);
    unsigned number = c->number;
    for (unsigned i = 0; i < count; i++) give_argument(t, number, function->parts[i], arguments[i].value, &n->place);
    return translate_call(t, n, function, is_used);
}

value call_value(translator *t, const node *n, bool is_used) {
    const node *called = n->parts[0];
    while (called->kind == CAST_EXPRESSION) called = called->parts[0];
    const node *function = called->kind == NAME_EXPRESSION ? called->declaration : NULL;
    if (!function || function->kind != FUNCTION_DECLARATION)
        refuse_at(t, &n->place, "Clsim has no calls over pointers");
    if (!function->body) return builtin_value(t, n, function->name, is_used);
    judge_attributes(t, function);
    go_deeper(t, &n->place);
    value v = inline_call(t, n, function, is_used);
    t->depth--;
    return v;
}
