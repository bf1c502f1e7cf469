// Operators: arithmetic, comparisons, assignments, and those that evaluate only a part of their operands.
#include "front.h"

static const type *number_of(const type *t) { return t->kind == VECTOR_TYPE ? t->of : t; }

static void need_formats(translator *t, const node *n) {
    for (unsigned i = 0; i < n->part_count; i++) need_format(t, n->parts[i]->type, &n->place);
    need_format(t, n->type, &n->place);
}

// An operator on numbers or vectors, in the type of the left operand.
static value arithmetic(translator *t, operation op, value a, value b, const type *type) {
    if (type->kind == VECTOR_TYPE) return vector_operation(t, op, a, b, type, type);
    if (is_floating(type)) return integer_value(float_operator(t, op, a.integer, b.integer, type->width));
    return integer_value(binary(t, op, a.integer, b.integer, core_type(type)));
}

static uint64_t pointed_size(translator *t, const type *pointer, const place *at) {
    return pointer->of->kind == VOID_TYPE ? 1 : size_of_type(t, pointer->of, at);
}

static pointer moved(translator *t, pointer p, integer by, bool back, uint64_t size) {
    p.offset = plus_scaled(t, p.offset, by, back ? -(int64_t)size : (int64_t)size);
    return p;
}

// ---- assignments ----

// What is given to a bool is compared with 0; clang writes that, but for literals that it takes as they are.
static value as_bool(translator *t, value v, const type *type) {
    if (type->is_bool && v.kind == INTEGER_VALUE && v.integer.is_literal)
        v.integer = literal(t, v.integer.value != 0, UCHAR);
    return v;
}

value assignment(translator *t, const node *n, bool is_used) {
    const node *target = n->parts[0];
    operand parts[] = {{.node = target, .kind = AS_STORAGE}, {.node = n->parts[1]}};
    evaluate(t, parts, 2);
    t->at = &n->place;
    value v = as_bool(t, parts[1].value, target->type);
    if (is_used) v = kept_value(t, held_value(t, v, &parts[0].value.storage));
    put(t, parts[0].value.storage, v, &target->place);
    return is_used ? converted_value(t, v, target->type) : (value){.kind = NO_VALUE};
}

static value move_pointer(translator *t, const node *n, bool is_used) {
    operand parts[] = {{.node = n->parts[0], .kind = AS_TARGET}, {.node = n->parts[1]}};
    evaluate(t, parts, 2);
    t->at = &n->place;
    uint64_t size = pointed_size(t, n->parts[0]->type, &n->place);
    value v = pointer_value(moved(t, parts[0].value.pointer, parts[1].value.integer, n->operation == SUBTRACT, size));
    if (is_used) v = kept_value(t, v);
    put(t, parts[0].storage, v, &n->place);
    return v;
}

// The old value is read before the right side is evaluated.
value compound_assignment(translator *t, const node *n, bool is_used) {
    const node *target = n->parts[0];
    if (target->type->kind == POINTER_TYPE) return move_pointer(t, n, is_used);
    need_formats(t, n);
    operand parts[] = {{.node = target, .kind = AS_TARGET}, {.node = n->parts[1]}};
    evaluate(t, parts, 2);
    t->at = &n->place;
    value old = converted_numbers(t, parts[0].value, target->type, n->computed, BY_DEFAULT);
    value v = arithmetic(t, n->operation, old, parts[1].value, n->computed);
    if (target->type->is_bool) v.integer = number_is_not_zero(t, v.integer, n->computed);
    else v = converted_numbers(t, v, n->computed, target->type, BY_DEFAULT);
    v = converted_value(t, v, target->type);
    if (is_used) v = kept_value(t, held_value(t, v, &parts[0].storage));
    put(t, parts[0].storage, v, &target->place);
    return v;
}

static value stepped(translator *t, const node *n, value old) {
    const type *type = n->parts[0]->type;
    bool back = n->operation == DECREMENT;
    if (type->kind == POINTER_TYPE) {
        int64_t size = (int64_t)pointed_size(t, type, &n->place);
        return pointer_value(shifted(old.pointer, back ? -size : size));
    }
    integer_type wide = promoted(core_type(number_of(type)));
    bool of_float = is_floating(type);
    value one = integer_value(of_float ? float_literal(t, number_of(type)->width, true) : literal(t, 1, wide));
    if (of_float) return arithmetic(t, back ? SUBTRACT : ADD, old, one, type);
    if (type->kind == VECTOR_TYPE) return vector_operation(t, back ? SUBTRACT : ADD, old, one, type, type);
    integer v = binary(t, back ? SUBTRACT : ADD, old.integer, one.integer, wide);
    if (type->is_bool) v = is_not_zero(t, v);
    return integer_value(cast_to(t, v, core_type(type)));
}

value step(translator *t, const node *n, bool is_used) {
    const node *target = n->parts[0];
    need_format(t, target->type, &n->place);
    operand part = {.node = target, .kind = AS_TARGET};
    evaluate(t, &part, 1);
    t->at = &n->place;
    value old = part.value;
    if (is_used && n->is_postfix) old = kept_value(t, old);
    value v = stepped(t, n, old);
    if (is_used && !n->is_postfix) v = kept_value(t, held_value(t, v, &part.storage));
    put(t, part.storage, v, &target->place);
    return n->is_postfix ? old : v;
}

// ---- one operand ----

// `!`, `-` and the like of one component.
static integer unary_component(translator *t, operation op, integer v, const type *number, const type *result) {
    integer_type wide = promoted(type_of(&v));
    if (op == LOGICAL_NOT) {
        integer is_zero = is_floating(number) ? unary(t, LOGICAL_NOT, is_not_zero_float(t, v, number->width), INT)
                                              : binary(t, EQUAL, v, literal(t, 0, type_of(&v)), type_of(&v));
        return cast_to(t, unary(t, MINUS, is_zero, INT), core_type(result));
    }
    if (is_floating(number)) return op == PLUS ? v : float_operator(t, op, v, v, number->width);
    return cast_to(t, unary(t, op, cast_to(t, v, wide), wide), core_type(result));
}

static value unary_value(translator *t, const node *n) {
    const type *type = n->parts[0]->type;
    need_formats(t, n);
    if (n->operation == UNKNOWN_OPERATION)
        refuse_at(t, &n->place, "Clsim has no such operator (%s)", n->name ? n->name : "");
    value v = evaluate_value(t, n->parts[0]);
    bool negates = n->operation == LOGICAL_NOT;
    t->at = &n->place;
    if (v.kind == POINTER_VALUE) return integer_value(unary(t, LOGICAL_NOT, is_not_null(t, v.pointer), INT));
    if (v.kind == INTEGER_VALUE && negates) {
        if (is_floating(type)) v.integer = is_not_zero_float(t, v.integer, type->width);
        return integer_value(unary(t, LOGICAL_NOT, v.integer, INT));
    }
    if (v.kind == INTEGER_VALUE && is_floating(type))
        return integer_value(unary_component(t, n->operation, v.integer, type, n->type));
    if (v.kind == INTEGER_VALUE) return integer_value(unary(t, n->operation, v.integer, core_type(n->type)));
    integer *components = take(&t->pass, v.count * sizeof *components);
    if (is_floating(type)) v = kept_value(t, v);
    for (unsigned i = 0; i < v.count; i++)
        components[i] = unary_component(t, n->operation, v.components[i], type->of, n->type->of);
    return vector_value(components, v.count);
}

// ---- two operands ----

// What stands behind an operator that is evaluated only where the value in front asks for it.
static value logical(translator *t, const node *n) {
    bool is_and = n->operation == LOGICAL_AND;
    integer left = condition(t, n->parts[0]);
    if (left.is_literal) {
        if (!left.value == is_and) return integer_value(literal(t, !is_and, INT));
        return integer_value(is_not_zero(t, condition(t, n->parts[1])));
    }
    list before = begin_list(t);
    integer right = condition(t, n->parts[1]);
    list behind = end_list(t, before);
    if (!behind.first && right.is_literal && !right.value != is_and) return integer_value(is_not_zero(t, left));
    if (!behind.first) return integer_value(joined_conditions(t, n->operation, left, right));
    const char *result = temporary_name(t);
    integer test = variable(result, INT, true);
    emit(t, "int %s=%s;", result, is_not_zero(t, left).text);
    before = begin_list(t);
    append_list(&t->out, behind);
    emit(t, "%s=%s;", result, is_not_zero(t, right).text);
    behind = end_list(t, before);
    const char *asks = is_and ? result : format(t, "!%s", result);
    append(t, new_branch(t, asks, behind, (list){NULL, NULL}, t->at));
    return integer_value(test);
}

static value pointer_operation(translator *t, const node *n, value a, value b) {
    bool back = n->operation == SUBTRACT, turned = a.kind == INTEGER_VALUE;
    if (a.kind == POINTER_VALUE && b.kind == POINTER_VALUE) {
        if (!back) return integer_value(compare_pointers(t, n->operation, a.pointer, b.pointer, &n->place));
        uint64_t size = pointed_size(t, n->parts[0]->type, &n->place);
        if (!size) refuse_at(t, &n->place, "Clsim has no difference of pointers to what has no size");
        return integer_value(difference(t, a.pointer, b.pointer, size, &n->place));
    }
    uint64_t size = pointed_size(t, n->type, &n->place);
    return pointer_value(moved(t, turned ? b.pointer : a.pointer, turned ? a.integer : b.integer, back, size));
}

value operation_value(translator *t, const node *n) {
    if (n->kind == UNARY_EXPRESSION) return unary_value(t, n);
    operation op = n->operation;
    bool is_logical = op == LOGICAL_AND || op == LOGICAL_OR;
    if (op == UNKNOWN_OPERATION) refuse_at(t, &n->place, "Clsim has no such operator (%s)", n->name ? n->name : "");
    if (is_logical && n->type->kind != VECTOR_TYPE) return logical(t, n);
    operand parts[] = {{.node = n->parts[0]}, {.node = n->parts[1]}};
    evaluate(t, parts, 2);
    value a = parts[0].value, b = parts[1].value;
    if (a.kind == POINTER_VALUE || b.kind == POINTER_VALUE) return pointer_operation(t, n, a, b);
    need_formats(t, n);
    t->at = &n->place;
    const type *left = n->parts[0]->type, *right = n->parts[1]->type;
    bool is_number = left->kind == INTEGER_TYPE || left->kind == FLOATING_TYPE || left->kind == VECTOR_TYPE;
    if (!is_number) refuse_at(t, &n->place, "Clsim has no operator on the type %s", left->name);
    if (n->type->kind == VECTOR_TYPE)
        return vector_operation(t, op, a, b, n->type, left->kind == VECTOR_TYPE ? left : right);
    return arithmetic(t, op, a, b, left);
}

// ---- choices ----

// With a vector as its condition both values are evaluated, and the sign of each component chooses (6.3.i).
static value choice_of_components(translator *t, const node *n) {
    unsigned count = (unsigned)n->type->length;
    operand parts[] = {{.node = n->parts[0]}, {.node = n->parts[1]}, {.node = n->parts[2]}};
    integer *components = take(&t->pass, count * sizeof *components);
    evaluate(t, parts, 3);
    value test = kept_value(t, parts[0].value), a = kept_value(t, parts[1].value), b = kept_value(t, parts[2].value);
    if (a.kind == INTEGER_VALUE) a = splat(t, a.integer, count);
    if (b.kind == INTEGER_VALUE) b = splat(t, b.integer, count);
    for (unsigned i = 0; i < count; i++) {
        integer_type type = signed_of(type_of(&test.components[i]));
        integer is_set = binary(t, LESS, cast_to(t, test.components[i], type), literal(t, 0, type), type);
        components[i] = choice(t, is_set, a.components[i], b.components[i], core_type(n->type->of));
    }
    return vector_value(components, count);
}

static list stored_list(translator *t, list so_far, storage to, value v, const place *at) {
    list before = begin_list(t);
    put(t, to, v, at);
    list more = end_list(t, before);
    append_list(&so_far, more);
    return so_far;
}

// A choice whose values need statements, or that is no integer: into a variable.
static value choice_in_variable(translator *t, const node *n, integer test, const value *a, const value *b,
                                const list *lists) {
    object *o = find_object(t, t->call ? t->call->number : 0, n->number, RESULT_OF);
    declare(t, o, n->type, "choice", &n->place);
    storage to = whole(pointer_to(t, o), n->type);
    list first = stored_list(t, lists[0], to, *a, &n->place);
    list second = stored_list(t, lists[1], to, *b, &n->place);
    append(t, new_branch(t, test.text, first, second, &n->place));
    return get(t, to, &n->place);
}

static value choice_of_two(translator *t, const node *n) {
    if (n->parts[0]->type->kind == VECTOR_TYPE) return choice_of_components(t, n);
    integer test = condition(t, n->parts[0]);
    if (test.is_literal) return evaluate_value(t, n->parts[test.value ? 1 : 2]);
    list lists[2];
    value values[2];
    for (int i = 0; i < 2; i++) {
        list before = begin_list(t);
        values[i] = evaluate_value(t, n->parts[1 + i]);
        lists[i] = end_list(t, before);
    }
    bool is_simple = !lists[0].first && !lists[1].first;
    if (n->type->kind == VOID_TYPE) {
        if (!is_simple) append(t, new_branch(t, test.text, lists[0], lists[1], &n->place));
        return (value){.kind = NO_VALUE};
    }
    if (is_simple && values[0].kind == INTEGER_VALUE && n->type->kind != EVENT_TYPE)
        return integer_value(choice(t, test, values[0].integer, values[1].integer, core_type(n->type)));
    if (is_simple && n->type->kind == POINTER_TYPE) {
        bool done;
        test = kept(t, test);
        pointer p = choose_pointer(t, test, values[0].pointer, values[1].pointer, &done);
        if (done) return pointer_value(p);
    }
    return choice_in_variable(t, n, test, &values[0], &values[1], lists);
}

// What `a ?: b` has in common is worked out once, in front of both values.
value conditional(translator *t, const node *n) {
    if (n->part_count < 4) return choice_of_two(t, n);
    const value *outer = t->common;
    value *common = take(&t->pass, sizeof *common);
    *common = kept_value(t, evaluate_value(t, n->parts[3]));
    t->common = common;
    value v = choice_of_two(t, n);
    t->common = outer;
    return v;
}
