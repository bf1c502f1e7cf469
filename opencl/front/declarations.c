// Variables of functions.
#include "../session.h"
#include "front.h"

static object *variable_object(translator *t, const node *n) {
    return find_object(t, t->call ? t->call->number : 0, n->number, ITSELF);
}

void add_local(translator *t, object *o) {
    o->judged = fresh_name(t, o->name);
    o->array_element = array_element_of(t, o, o->types_before);
    show_name(t, o->judged, o->name);
    t->locals = grown(&t->pass, t->locals, t->local_count, &t->local_room, sizeof(object *));
    t->locals[t->local_count++] = o;
}

static void declare_local(translator *t, const node *n, bool is_outermost) {
    object *o = variable_object(t, n);
    if (o->pass == t->pass_number) return; // in front of what may be left by goto
    if (t->call || !is_outermost)
        refuse_at(t, &n->place, "local memory is declared in the outermost block of a kernel");
    if (n->part_count) refuse_at(t, &n->place, "a variable in local memory has no initial value");
    new_object(t, o, IN_LOCAL, n->type, n->name);
    o->size = size_of_type(t, n->type, &n->place);
    o->has_size = true;
    add_local(t, o);
    unsigned long long count = o->size / width_of(o->array_element);
    emit(t, "__local %s %s[%llu];", name_of(o->array_element), o->judged, count);
}

void set_alias(translator *t, object *o, value v) {
    value *alias = take(&t->pass, sizeof *alias);
    *alias = v;
    o->alias = alias;
}

value given_value(translator *t, value v, const type *type) {
    if (type->is_bool && v.kind == INTEGER_VALUE && v.integer.is_literal)
        return integer_value(literal(t, v.integer.value != 0, UCHAR));
    return converted_value(t, v, type);
}

// A variable that is never assigned: its value stands for it.
static void declare_constant(translator *t, object *o, const node *n) {
    const type *type = n->type;
    value v = evaluate_value(t, n->parts[0]);
    t->at = &n->place;
    new_object(t, o, IN_PRIVATE, type, n->name);
    o->size = type->size;
    o->has_size = true;
    if (type->kind == POINTER_TYPE) {
        set_alias(t, o, kept_value(t, v));
        return;
    }
    integer_type core = core_type(type);
    v = given_value(t, v, type);
    if (!v.integer.is_literal) {
        const char *name = fresh_name(t, n->name);
        show_name(t, name, n->name);
        emit(t, "%s %s=%s;", name_of(core), name, v.integer.text);
        v = integer_value(variable(name, core, true));
    }
    set_alias(t, o, v);
}

// Declares the variables of an object with what they are given. False where that takes more than a declaration each.
static bool declare_with(translator *t, object *o, const value *v, const type *type) {
    const struct type *number = type->kind == VECTOR_TYPE ? type->of : type;
    unsigned count = type->kind == VECTOR_TYPE ? (unsigned)type->length : 1;
    if (o->is_array || (v->kind != INTEGER_VALUE && v->kind != VECTOR_VALUE)) return false;
    for (unsigned i = 0; i < count; i++) {
        leaf *l = find_leaf(o, i * number->size, (unsigned)number->size);
        if (!l || !l->name) return false;
    }
    for (unsigned i = 0; i < count; i++) {
        const leaf *l = find_leaf(o, i * number->size, (unsigned)number->size);
        integer one = v->kind == VECTOR_VALUE ? v->components[i] : v->integer;
        emit(t, "%s %s=%s;", name_of(l->variable), l->name,
             assigned(t, cast_to(t, one, core_type(number)), l->variable));
    }
    return true;
}

void declare_given(translator *t, object *o, const type *type, const char *name, value v, const place *at) {
    bool is_number = type->kind == INTEGER_TYPE || type->kind == FLOATING_TYPE;
    if (!is_number) v = kept_value(t, v);
    new_variable(t, o, type, name, at);
    if (is_number) learn_leaf(t, o, 0, (unsigned)type->size, 1u << core_type(type));
    if ((is_number || type->kind == VECTOR_TYPE) && declare_with(t, o, &v, type)) return;
    write_declarations(t, o, "");
    put(t, whole(pointer_to(t, o), type), v, at);
}

static bool is_braces(const node *n) {
    return n->kind == INITIALIZER_LIST || n->kind == STRING_LITERAL || n->kind == IMPLICIT_VALUE;
}

static bool is_whole(const type *t) { return t->kind == ARRAY_TYPE || t->kind == RECORD_TYPE; }

static bool is_one(const type *t) {
    return t->kind == POINTER_TYPE || t->kind == INTEGER_TYPE || t->kind == FLOATING_TYPE;
}

// A variable that is declared already, in front of the switch that it stands in.
static void give_initial(translator *t, object *o, const node *n) {
    pointer to = pointer_to(t, o);
    if (n->part_count && is_whole(n->type) && is_braces(n->parts[0]))
        initialize(t, to, n->type, n->parts[0], &n->place);
    else if (n->part_count) {
        value v = given_value(t, evaluate_value(t, n->parts[0]), n->type);
        t->at = &n->place;
        put(t, whole(to, n->type), v, &n->place);
    }
}

// Declares a variable that nothing is given, or not yet.
static void declare_empty(translator *t, object *o, const node *n) {
    bool is_zero = !n->part_count && zeroes_unset();
    if (is_zero) add_note(t, "CLSIM_UNSET: variables that are declared without a value are 0");
    new_variable(t, o, n->type, n->name, &n->place);
    write_declarations(t, o, is_zero ? "=0" : "");
}

void declare_in_front_of(translator *t, const node *n) {
    if (n->type->space == LOCAL_SPACE) declare_local(t, n, true);
    if (n->type->space != PRIVATE_SPACE || n->is_static || variable_object(t, n)->pass == t->pass_number) return;
    t->is_modified[n->number] = true;
    declare_empty(t, variable_object(t, n), n);
}

static void declare_private(translator *t, object *o, const node *n) {
    const type *type = n->type;
    const node *initial = n->part_count ? n->parts[0] : NULL;
    bool is_constant = initial && !t->is_modified[n->number];
    if (o->pass == t->pass_number) give_initial(t, o, n);
    else if (is_constant && is_one(type)) declare_constant(t, o, n);
    else if (!initial || (is_whole(type) && is_braces(initial))) {
        declare_empty(t, o, n);
        if (initial) initialize(t, pointer_to(t, o), type, initial, &n->place);
    } else {
        value v = given_value(t, evaluate_value(t, initial), type);
        t->at = &n->place;
        declare_given(t, o, type, n->name, v, &n->place);
    }
}

void declare_variable(translator *t, const node *n, bool is_outermost) {
    judge_attributes(t, n);
    if (n->type->space == CONSTANT_SPACE) return; // a table, where it is used
    if (n->is_static) refuse_at(t, &n->place, "Clsim has no static variables in functions");
    if (n->type->space == LOCAL_SPACE) declare_local(t, n, is_outermost);
    else declare_private(t, variable_object(t, n), n);
}
