// Functions of the source that stay functions: numbers alone go into them and come out, nothing in them belongs to a
// kernel (a barrier, printf, constant memory), and they are called at two places at least. All others are translated in
// place (calls.c), as is a call with a number that is known: what it decides is left out there.
#include "front.h"
#include <string.h>

enum { FEWEST_NODES = 40 }; // a smaller body is no longer than its call

static bool is_number(const type *t) { return t->kind == INTEGER_TYPE || t->kind == FLOATING_TYPE; }

// ---- what a function needs ----

static bool belongs_to_kernel(const char *name) {
    static const char *const names[] = {"barrier",
                                        "work_group_barrier",
                                        "printf",
                                        "async_work_group_copy",
                                        "async_work_group_strided_copy",
                                        "wait_group_events",
                                        NULL};
    const char *const *n = names;
    while (*n && strcmp(*n, name)) n++;
    return *n;
}

static own_function *find_function(translator *t, const node *function) {
    for (own_function *f = t->functions; f; f = f->next)
        if (f->function == function) return f;
    own_function *f = take(&t->kernel, sizeof *f);
    *f = (own_function){.next = t->functions, .function = function};
    t->functions = f;
    return f;
}

static bool is_apart(translator *t, own_function *f, unsigned depth);

// Whether a part of a body can stand in a function of its own.
static bool is_part_apart(translator *t, const node *n, unsigned depth) {
    bool names = n->kind == NAME_EXPRESSION && n->declaration && n->declaration->kind == VARIABLE_DECLARATION;
    if (names && n->declaration->type->space != PRIVATE_SPACE) return false;
    if (n->kind == VARIABLE_DECLARATION && (n->type->space != PRIVATE_SPACE || n->is_static)) return false;
    if (n->kind == STRING_LITERAL) return false;
    const node *called = n->kind == NAME_EXPRESSION ? n->declaration : NULL;
    if (!called || called->kind != FUNCTION_DECLARATION) return true;
    return called->body ? is_apart(t, find_function(t, called), depth + 1) : !belongs_to_kernel(called->name);
}

// Whether a function reaches nothing that belongs to a kernel. (One that is being judged is taken for such a one: that
// calls itself.)
static bool is_apart(translator *t, own_function *f, unsigned depth) {
    unsigned count = 0, room = 0;
    const node **stack = NULL;
    if (f->is_judged || depth > MAX_DEPTH) return f->is_judged && f->is_apart;
    f->is_judged = f->is_apart = true;
    stack = grown(&t->kernel, stack, count, &room, sizeof *stack);
    stack[count++] = f->function->body;
    while (count && f->is_apart) {
        const node *n = stack[--count];
        f->node_count++;
        f->is_apart = is_part_apart(t, n, depth);
        for (unsigned i = 0; i < n->part_count; i++) {
            if (!n->parts[i]) continue;
            stack = grown(&t->kernel, stack, count, &room, sizeof *stack);
            stack[count++] = n->parts[i];
        }
    }
    return f->is_apart;
}

static bool can_stay(translator *t, own_function *f) {
    const node *function = f->function;
    if (f->cannot_stay || !is_number(f->result)) return false;
    for (unsigned i = 0; i < function->part_count; i++)
        if (!is_number(function->parts[i]->type)) return false;
    return is_apart(t, f, 0) && f->node_count >= FEWEST_NODES;
}

void leave_functions(translator *t) {
    for (own_function *f = t->open; f; f = f->up) f->cannot_stay = true;
    longjmp(t->again, 1);
}

bool is_open_function(const translator *t, const node *function) {
    const own_function *f = t->open;
    while (f && f->function != function) f = f->up;
    return f;
}

// ---- writing ----

static bool always_returns(list l) {
    for (const statement *s = l.first; s; s = s->next) {
        if (s->kind == TEXT && !strncmp(s->text, "return ", 7)) return true;
        if (s->kind == BRANCH && s->second.first && always_returns(s->first) && always_returns(s->second)) return true;
    }
    return false;
}

// Its own name, where the language takes that, and no other one has it. (Variables of helpers end with `_`.)
static const char *own_name(translator *t, const char *name) {
    static const char bytes[] = "abcdefghijklmnopqrstuvwxyzABCDEFGHIJKLMNOPQRSTUVWXYZ_0123456789";
    size_t length = strspn(name, bytes);
    bool is_plain = length && !name[length] && length <= MOST_NAME && strncmp(name, "__", 2) && name[length - 1] != '_';
    for (const own_function *f = t->written; f; f = f->written) is_plain = is_plain && strcmp(f->name, name);
    for (const own_function *f = t->open; f; f = f->up) is_plain = is_plain && (!f->name || strcmp(f->name, name));
    return is_plain && !is_reserved_name(name) ? name : fresh_name(t, name);
}

static const char *parameters_text(translator *t, const own_function *f) {
    text all = {.arena = &t->pass};
    add(&all, "");
    for (unsigned i = 0; i < f->function->part_count; i++) {
        const node *p = f->function->parts[i];
        integer_type core = core_type(p->type);
        const char *name = fresh_name(t, p->name && *p->name ? p->name : "v");
        show_name(t, name, p->name);
        addf(&all, "%s%s %s", i ? "," : "", name_of(core), name);
        give_argument(t, f->own->number, p, integer_value(variable(name, core, true)), &p->place);
    }
    return all.at;
}

// The end of a body that doesn't return is a value that nobody has set.
static void end_body(translator *t, own_function *f) {
    const node *function = f->function;
    if (always_returns(f->body)) return;
    const char *name = fresh_name(t, function->name);
    show_name(t, name, function->name);
    const char *declared = format(t, "%s %s;", name_of(core_type(f->result)), name);
    append_list(&f->body, one_text(t, declared, &function->place));
    append_list(&f->body, one_text(t, format(t, "return %s;", name), &function->place));
}

static void write_function(translator *t, own_function *f) {
    const node *function = f->function;
    function_frame frame = {.type = f->result, .stays = true}, *frame_before = t->frame;
    call *call_before = t->call;
    jump *jumps_before = t->jumps;
    const value *common_before = t->common;
    unsigned breaks_before = t->break_count;
    list before = begin_list(t);
    f->pass = t->pass_number;
    f->name = NULL;
    f->up = t->open;
    t->open = f;
    t->call = f->own;
    t->frame = &frame;
    t->jumps = NULL;
    t->common = NULL;
    enter_breakable(t, NULL);
    f->name = own_name(t, function->name);
    f->head = format(t, "%s %s(%s){\n", name_of(core_type(f->result)), f->name, parameters_text(t, f));
    translate_range(t, function->body, 0, function->body->part_count, false);
    f->body = end_list(t, before);
    end_body(t, f);
    t->open = f->up;
    t->call = call_before;
    t->frame = frame_before;
    t->jumps = jumps_before;
    t->common = common_before;
    t->break_count = breaks_before;
    f->written = NULL;
    *t->last_written = f;
    t->last_written = &f->written;
}

void write_functions(translator *t, text *to) {
    for (const own_function *f = t->written; f; f = f->written) {
        add_place(t, (judged_place){.offset = to->length, .at = &f->function->place});
        add(to, f->head);
        write_list(t, to, shortened(t, f->body));
        add(to, "}\n");
    }
}

void begin_functions(translator *t) {
    t->open = t->written = NULL;
    t->last_written = &t->written;
}

// ---- calls ----

static bool has_known_number(const operand *arguments, unsigned count) {
    for (unsigned i = 0; i < count; i++)
        if (arguments[i].value.kind != INTEGER_VALUE || arguments[i].value.integer.is_literal) return true;
    return false;
}

bool stays_function(translator *t, const node *n, const call *c, const operand *arguments, bool is_used) {
    const node *function = c->function;
    own_function *f = find_function(t, function);
    f->result = n->type;
    if (!is_used || has_known_number(arguments, function->part_count) || !can_stay(t, f)) return false;
    if (!f->first) f->first = c;
    if (f->first != c && !f->stays) {
        f->stays = t->is_changed = t->is_regrouped = true;
        f->own = new_call(t, function);
    }
    return f->stays;
}

value call_function(translator *t, const node *n, const node *function, const operand *arguments) {
    own_function *f = find_function(t, function);
    integer_type core = core_type(f->result);
    text given = {.arena = &t->pass};
    add(&given, "");
    if (f->pass != t->pass_number) write_function(t, f);
    t->at = &n->place;
    for (unsigned i = 0; i < function->part_count; i++) {
        const type *type = function->parts[i]->type;
        integer v = given_value(t, arguments[i].value, type).integer;
        addf(&given, "%s%s", i ? "," : "", assigned(t, v, core_type(type)));
    }
    const char *name = temporary_name(t);
    emit(t, "%s %s=%s(%s);", name_of(core), name, f->name, given.at);
    t->out.last->result = name;
    return integer_value(variable(name, core, true));
}
