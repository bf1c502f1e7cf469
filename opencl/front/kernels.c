// A kernel: its parameters, its passes, its text.
#include "floats.h"
#include "front.h"
#include <inttypes.h>
#include <string.h>

// A parameter that is written: of a pointer its object, of a value its name, type and place.
typedef struct {
    unsigned argument;
    object *object;
    const char *name;
    integer_type type;
    uint64_t offset;
} written_parameter;

typedef struct {
    written_parameter *at;
    unsigned count, room;
} written_parameters;

static void add_written(translator *t, written_parameters *all, written_parameter p) {
    all->at = grown(&t->pass, all->at, all->count, &all->room, sizeof *all->at);
    all->at[all->count++] = p;
}

// ---- pointers ----

static object_space space_of(const type *pointed) {
    switch (pointed->space) {
    case GLOBAL_SPACE: return IN_GLOBAL;
    case CONSTANT_SPACE: return IN_CONSTANT;
    case LOCAL_SPACE: return IN_LOCAL;
    default: return IN_PRIVATE;
    }
}

static void take_pointer(translator *t, written_parameters *all, unsigned argument, const node *p) {
    const type *pointed = p->type->of;
    object_space space = space_of(pointed);
    object *o = find_object(t, 0, p->number, POINTED_TO_BY), *self = find_object(t, 0, p->number, ITSELF);
    if (space == IN_PRIVATE) refuse_at(t, &p->place, "a kernel has no pointers to private memory as parameters");
    if (pointed->kind != VOID_TYPE) size_of_type(t, pointed, &p->place);
    new_object(t, o, space, pointed, p->name);
    o->held = t->held ? t->held[argument] : 0;
    if (o->held & IS_PART) {
        o->part_origin = fresh_name(t, format(t, "%s_origin", o->name));
        o->part_size = fresh_name(t, format(t, "%s_size", o->name));
        o->outside = format(t, "%" PRId64, OUTSIDE_ELEMENT + argument);
    }
    if (space == IN_LOCAL) add_local(t, o);
    else {
        o->judged = fresh_name(t, o->name);
        show_name(t, o->judged, o->name);
    }
    if (!(o->held & IS_NULL)) add_written(t, all, (written_parameter){.argument = argument, .object = o});
    value v = pointer_value(pointer_to(t, o->held & IS_NULL ? t->null : o));
    if (t->is_modified[p->number]) {
        declare(t, self, p->type, p->name, &p->place);
        store_pointer(t, pointer_to(t, self), v.pointer, &p->place);
    } else {
        new_object(t, self, IN_PRIVATE, p->type, p->name);
        self->size = p->type->size;
        self->has_size = true;
        set_alias(t, self, v);
    }
}

// ---- values ----

// Whether the variables of a parameter are just the numbers in it, so that they are parameters themselves.
static bool is_numbers(const object *o, const number_place *numbers, unsigned count) {
    unsigned named = 0;
    if (o->is_array) return false;
    for (unsigned i = 0; i < o->leaf_count; i++) named += o->leaves[i].name != NULL;
    for (unsigned i = 0; i < count; i++) {
        if (numbers[i].row) continue;
        const leaf *l = find_leaf(o, numbers[i].offset, numbers[i].type->width);
        named -= l && l->name;
    }
    return !named && !o->pointer_count;
}

static const char *number_name(translator *t, const object *o, const number_place *n, bool is_alone) {
    const char *judged = is_alone ? o->name : part_name(t, o->name, o->type, n->offset, false);
    judged = fresh_name(t, judged);
    show_name(t, judged, is_alone ? o->name : part_name(t, o->name, o->type, n->offset, true));
    return judged;
}

// A row of bit-fields has a parameter for each of its numbers.
static void take_row(translator *t, written_parameters *all, unsigned argument, object *o, const number_place *n) {
    unsigned count = numbers_of_row(n->row);
    integer *numbers = take(&t->pass, count * sizeof *numbers);
    for (unsigned i = 0; i < count; i++) {
        written_parameter w = {.argument = argument, .offset = n->offset + i * n->row->width};
        w.type = type_of_row(n->row);
        w.name = fresh_name(t, format(t, "%s_bits", o->name));
        show_name(t, w.name, NULL);
        add_written(t, all, w);
        numbers[i] = variable(w.name, w.type, true);
    }
    store_row(t, shifted(pointer_to(t, o), (int64_t)n->offset), n->row, numbers, n->align, &t->kernel_function->place);
}

// A struct or a vector has a parameter for each number in it.
static void take_value(translator *t, written_parameters *all, unsigned argument, const node *p) {
    unsigned count;
    const type *type = p->type;
    object *o = find_object(t, 0, p->number, ITSELF);
    bool is_taken = type->kind == INTEGER_TYPE || type->kind == FLOATING_TYPE || type->kind == VECTOR_TYPE ||
                    type->kind == RECORD_TYPE;
    if (!is_taken) refuse_at(t, &p->place, "Clsim has no parameter of the type %s", type->name);
    number_place *numbers = numbers_in(t, type, &p->place, &count);
    new_variable(t, o, type, p->name, &p->place);
    o->is_fixed = !t->is_modified[p->number] && (type->kind == INTEGER_TYPE || type->kind == FLOATING_TYPE);
    bool direct = is_numbers(o, numbers, count);
    if (!direct) write_declarations(t, o, "");
    for (unsigned i = 0; i < count; i++) {
        const number_place *n = &numbers[i];
        if (n->row) {
            take_row(t, all, argument, o, n);
            continue;
        }
        if (n->type->kind != INTEGER_TYPE && n->type->kind != FLOATING_TYPE)
            refuse_at(t, &p->place, "Clsim has no parameter of the type %s", n->type->name);
        const leaf *l = direct ? find_leaf(o, n->offset, n->type->width) : NULL;
        written_parameter w = {.argument = argument, .offset = n->offset, .type = core_type(n->type)};
        if (l && l->name) w.type = l->variable;
        w.name = l && l->name ? l->name : number_name(t, o, n, count == 1);
        add_written(t, all, w);
        if (!direct)
            store(t, shifted(pointer_to(t, o), (int64_t)n->offset), w.type, variable(w.name, w.type, true), n->align,
                  &p->place);
    }
}

// ---- the head ----

static judged_parameter *add_parameter(translator *t, judged_kernel *k, unsigned *room, text *to) {
    k->parameters = grown(t->result, k->parameters, k->parameter_count, room, sizeof *k->parameters);
    if (k->parameter_count) add(to, ",");
    return &k->parameters[k->parameter_count++];
}

static void write_pointer(translator *t, judged_kernel *k, unsigned *room, text *to, const object *o,
                          judged_parameter p, const char *name) {
    static const char *const spaces[] = {
        [IN_GLOBAL] = "__global", [IN_CONSTANT] = "__constant", [IN_LOCAL] = "__local"};
    bool is_const = o->space == IN_GLOBAL && !o->was_stored;
    *add_parameter(t, k, room, to) = p;
    addf(to, "%s %s%s *%s", spaces[o->space], is_const ? "const " : "", name_of(p.type), name);
}

// Which part of its buffer an argument is.
static void write_part(translator *t, judged_kernel *k, unsigned *room, text *to, const object *o, unsigned argument) {
    judged_parameter p = {.kind = ORIGIN_PARAMETER, .type = ULONG, .argument = argument};
    if (!(o->held & IS_PART)) return;
    *add_parameter(t, k, room, to) = p;
    addf(to, "ulong %s", o->part_origin);
    p.kind = SIZE_PARAMETER;
    *add_parameter(t, k, room, to) = p;
    addf(to, "ulong %s", o->part_size);
}

// One for each type that a buffer is accessed by, the one with its own name first.
static void write_views(translator *t, judged_kernel *k, unsigned *room, text *to, const object *o,
                        judged_parameter p) {
    bool has_views = false;
    for (int turn = 0; turn < 2; turn++)
        for (p.type = CHAR; p.type <= ULONG; p.type++) {
            const char *name = o->views[p.type];
            if (!name || (name == o->judged) != !turn) continue;
            write_pointer(t, k, room, to, o, p, name);
            has_views = true;
        }
    p.type = o->element;
    if (!has_views && p.kind == BUFFER_PARAMETER) write_pointer(t, k, room, to, o, p, o->judged);
}

static void write_head(translator *t, judged_kernel *k, const written_parameters *all, text *to) {
    unsigned room = 0;
    add_place(t, (judged_place){.offset = to->length, .at = &k->function->place});
    addf(to, "__kernel void %s(", k->name);
    for (unsigned i = 0; i < all->count; i++) {
        const written_parameter *w = &all->at[i];
        judged_parameter p = {.argument = w->argument, .offset = w->offset, .type = w->type};
        p.kind = !w->object ? VALUE_PARAMETER : w->object->space == IN_LOCAL ? LOCAL_PARAMETER : BUFFER_PARAMETER;
        if (p.kind == LOCAL_PARAMETER) p.type = w->object->array_element;
        if (p.kind == VALUE_PARAMETER) {
            *add_parameter(t, k, &room, to) = p;
            addf(to, "%s %s", name_of(w->type), w->name);
        } else if (p.kind == LOCAL_PARAMETER) write_pointer(t, k, &room, to, w->object, p, w->object->judged);
        else {
            write_views(t, k, &room, to, w->object, p);
            write_part(t, k, &room, to, w->object, w->argument);
        }
    }
    for (unsigned i = 0; i < t->hidden_count; i++) {
        judged_parameter p = {.kind = TABLE_PARAMETER, .argument = t->hidden[i]->table};
        write_views(t, k, &room, to, t->hidden[i], p);
    }
    if (t->prints) {
        *add_parameter(t, k, &room, to) = (judged_parameter){.kind = PRINT_PARAMETER, .type = UINT};
        add(to, "__global uint *clsim_print");
        *add_parameter(t, k, &room, to) = (judged_parameter){.kind = ROOM_PARAMETER, .type = ULONG};
        add(to, "ulong clsim_print_words");
    }
    add(to, "){\n");
}

// ---- what is told of a kernel ----

static const char *kept_text(translator *t, const char *s) { return s ? copy_text(t->result, s, strlen(s)) : NULL; }

static void keep_names(translator *t, judged_kernel *k) {
    k->names = take(t->result, (t->shown_count + 1) * sizeof *k->names);
    for (unsigned i = 0; i < t->shown_count; i++)
        k->names[k->name_count++] = (shown_name){kept_text(t, t->shown[i].judged), kept_text(t, t->shown[i].shown)};
}

static void keep_locals(translator *t, judged_kernel *k) {
    k->locals = take(t->result, (t->local_count + 1) * sizeof *k->locals);
    for (unsigned i = 0; i < t->local_count; i++) {
        const object *o = t->locals[i];
        local_object *l = &k->locals[k->local_count++];
        *l = (local_object){.judged = kept_text(t, o->judged),
                            .shown = kept_text(t, o->name),
                            .type = o->type,
                            .element = o->array_element,
                            .is_parameter = o->role == POINTED_TO_BY};
        for (unsigned p = 0; l->is_parameter && p < k->function->part_count; p++)
            if (k->function->parts[p]->number == o->number) l->argument = p;
    }
}

static void keep_accesses(translator *t, judged_kernel *k, const written_parameters *all) {
    k->accesses = take(t->result, k->function->part_count + 1);
    for (unsigned i = 0; i < all->count; i++)
        if (all->at[i].object) k->accesses[all->at[i].argument] |= all->at[i].object->accesses;
}

// ---- passes ----

// The words of the language, and the driver's own names.
static const char reserved[] =
    "__kernel kernel __global global __local local __constant constant const void char uchar short ushort int uint "
    "long ulong size_t if else while do for break continue return float double half bool unsigned signed struct union "
    "enum typedef switch case default goto sizeof static extern inline volatile restrict register auto __private "
    "private get_work_dim get_global_id get_local_id get_group_id get_global_offset get_global_size get_local_size "
    "get_num_groups min max abs clz popcount rotate barrier atomic_add atomic_sub atomic_min atomic_max atomic_and "
    "atomic_or atomic_xor atomic_inc atomic_dec atomic_xchg atomic_cmpxchg CLK_LOCAL_MEM_FENCE CLK_GLOBAL_MEM_FENCE "
    "clsim_lo clsim_hi clsim_async clsim_k clsim_h clsim_null clsim_kernel clsim_print clsim_print_words "
    "clsim_print_at clsim_print_end clsim_barriers";

static void take_reserved_names(translator *t) {
    for (const char *at = reserved; *at;) {
        size_t n = strcspn(at, " ");
        take_name(t, copy_text(&t->pass, at, n));
        at += n + strspn(at + n, " ");
    }
    for (unsigned i = 0; i < t->tree->declaration_count; i++) {
        const node *d = t->tree->declarations[i];
        if (d->kind == FUNCTION_DECLARATION && d->name && !is_taken(t, d->name)) take_name(t, d->name);
    }
}

bool is_reserved_name(const char *name) {
    size_t length = strlen(name);
    if (helper_named(name) != NO_HELPER) return true;
    for (const char *at = reserved; *at;) {
        size_t n = strcspn(at, " ");
        if (n == length && !memcmp(at, name, n)) return true;
        at += n + strspn(at + n, " ");
    }
    return false;
}

// A kernel's name in the judged text: its own, where a script takes that, and no variable of a helper has it: these end
// with `_`.
static const char *judged_name(const translator *t, const char *name) {
    size_t length = strlen(name);
    bool is_of_helper = length && name[length - 1] == '_' && uses_helpers(t);
    return length > MOST_NAME || is_of_helper || is_reserved_name(name) ? "clsim_kernel" : name;
}

static void begin_pass(translator *t, const node *function) {
    free_arena(&t->pass);
    memset(t->names, 0, sizeof t->names);
    t->out = (list){NULL, NULL};
    t->at = &function->place;
    t->loop_count = t->temporary_count = t->depth = t->hash_count = 0;
    t->marks = NULL;
    t->mark_count = t->mark_room = 0;
    t->uses_null = t->uses_copies = false;
    t->call = NULL;
    t->kernel_function = function;
    t->breaks = NULL;
    t->break_count = t->break_room = 0;
    t->jumps = NULL;
    t->common = NULL;
    t->printed = NULL;
    t->printed_count = t->printed_room = 0;
    t->hidden = NULL;
    t->hidden_count = t->hidden_room = 0;
    t->shown = NULL;
    t->shown_count = t->shown_room = 0;
    t->locals = NULL;
    t->local_count = t->local_room = 0;
    t->is_changed = t->is_incomplete = t->is_regrouped = false;
    begin_functions(t);
    t->pass_number++;
    begin_pass_of_objects(t);
    take_reserved_names(t);
    begin_helpers(t);
}

static void begin_null(translator *t) {
    static const type nothing = {.kind = VOID_TYPE, .name = "void"};
    t->null = new_object(t, find_object(t, 0, 0, ITSELF), NOWHERE, &nothing, "null");
}

static void translate_body(translator *t, const node *function, written_parameters *all) {
    function_frame *frame = take(&t->pass, sizeof *frame);
    *frame = (function_frame){.is_kernel = true};
    t->frame = frame;
    begin_null(t);
    for (unsigned i = 0; i < function->part_count; i++) {
        const node *p = function->parts[i];
        t->at = &p->place;
        if (p->type->kind == POINTER_TYPE) take_pointer(t, all, i, p);
        else take_value(t, all, i, p);
    }
    translate_statement(t, function->body, true);
}

// One pass. False where it is left, since a function can't stay one.
static bool run_pass(translator *t, const node *function, written_parameters *all) {
    *all = (written_parameters){NULL, 0, 0};
    begin_pass(t, function);
    if (setjmp(t->again)) {
        t->open = NULL;
        return false;
    }
    judge_attributes(t, function);
    translate_body(t, function, all);
    return true;
}

// Passes until one learns nothing. A pointer that hasn't got an object by then is never given one.
static void run_passes(translator *t, const node *function, written_parameters *all) {
    static const char lost[] = "Clsim can't follow the pointers of this kernel";
    for (bool is_whole = false, is_more = false; !is_whole || t->is_changed || is_more;) {
        is_more = false;
        if (t->pass_number == t->free_passes + MAX_PASSES) refuse_at(t, &function->place, lost);
        is_whole = run_pass(t, function, all);
        t->free_passes += !is_whole || t->is_regrouped;
        if (!is_whole || t->is_changed || !t->is_incomplete || t->is_settled) continue;
        t->is_settled = is_more = true;
    }
    if (t->is_incomplete) refuse_at(t, &function->place, lost);
}

void translate_kernel(translator *t, const node *function, judged_kernel *k, text *to) {
    written_parameters all;
    const place *at = &function->place;
    *k = (judged_kernel){.function = function};
    begin_kernel_of_objects(t);
    t->prints = false;
    t->is_settled = false;
    t->functions = NULL;
    t->free_passes = 0;
    run_passes(t, function, &all);
    k->begin = to->length;
    k->name = judged_name(t, function->name);
    add_place(t, (judged_place){.offset = to->length, .at = at});
    write_helpers(t, to);
    write_functions(t, to);
    write_head(t, k, &all, to);
    list begin = t->uses_null ? one_text(t, "uchar clsim_null[1];", at) : (list){NULL, NULL};
    if (t->prints) append_list(&begin, begin_of_printing(t, at));
    if (t->uses_copies) append_list(&begin, begin_of_copies(t, at));
    append_list(&begin, shortened(t, t->out));
    write_list(t, to, begin);
    add(to, "}\n");
    k->length = to->length - k->begin;
    keep_names(t, k);
    keep_locals(t, k);
    keep_accesses(t, k, &all);
    k->printed = take(t->result, (t->printed_count + 1) * sizeof *k->printed);
    k->printed_count = t->printed_count;
    if (t->printed_count) memcpy(k->printed, t->printed, t->printed_count * sizeof *k->printed);
}
