// Expressions: their values, where they lie, and what they do.
#include "../session.h"
#include "front.h"
#include <inttypes.h>
#include <string.h>

// ---- where an expression lies ----

static storage name_storage(translator *t, const node *n) {
    const node *d = n->declaration;
    object *o = NULL;
    if (d && d->kind == VARIABLE_DECLARATION && d->type->space == CONSTANT_SPACE) o = table_of(t, d);
    else if (d && (d->kind == VARIABLE_DECLARATION || d->kind == PARAMETER_DECLARATION)) {
        o = declared_object(t, d);
        if (!o && d->kind == VARIABLE_DECLARATION) o = table_of(t, d);
    }
    if (!o) refuse_at(t, &n->place, "the name %s stands for nothing that Clsim has", n->name ? n->name : "");
    return whole(pointer_to(t, o), n->type);
}

static const node *without_casts(const node *n) {
    while (n->kind == CAST_EXPRESSION && (n->cast == NO_OP || n->cast == LVALUE_TO_RVALUE)) n = n->parts[0];
    return n;
}

// The length of an array that is a row or a member: an index outside of it is outside of the whole object. 0 for any
// other.
static uint64_t row_length(const node *array) {
    array = without_casts(array);
    if (array->kind != CAST_EXPRESSION || array->cast != ARRAY_TO_POINTER_DECAY) return 0;
    const node *inner = without_casts(array->parts[0]);
    return inner->kind == MEMBER_EXPRESSION || inner->kind == SUBSCRIPT_EXPRESSION ? inner->type->length : 0;
}

// The same of 32 bits, by statements that take a work-item less.
static integer short_index_in_row(translator *t, integer index, uint64_t limit, int64_t far) {
    const char *word = temporary_name(t), *result = temporary_name(t);
    emit(t, "uint %s=%s;", word, assigned(t, index, UINT));
    emit(t, "long %s=%s;", result, word);
    list outside = one_text(t, format(t, "%s=%" PRId64 "l;", result, far), t->at);
    append(t, new_branch(t, format(t, "%s>=%" PRIu64 "u", word, limit), outside, (list){NULL, NULL}, t->at));
    return variable(result, LONG, true);
}

// An index, or one far in front of every object where it leaves its row. The address of the element behind the last
// one may be taken (C99 6.5.3.2).
static integer index_in_row(translator *t, integer index, uint64_t length, bool is_address) {
    uint64_t far = (uint64_t) - (INT64_C(1) << 40);
    uint64_t limit = length + is_address;
    if (index.is_literal) return index.value < limit ? index : literal(t, far, LONG);
    bool is_short = width_of(type_of(&index)) <= 4 && limit <= greatest(INT);
    if (is_short && !widens()) return short_index_in_row(t, index, limit, (int64_t)far);
    index = cast_to(t, kept(t, index), LONG);
    integer test = binary(t, LESS, exactly(t, index, ULONG), literal(t, limit, ULONG), ULONG);
    return kept(t, choice(t, test, index, literal(t, far, LONG), LONG));
}

// The component of a vector by its number, as clang has it.
static storage component_storage(translator *t, const node *n) {
    operand parts[] = {{.node = n->parts[0], .kind = AS_STORAGE}, {.node = n->parts[1]}};
    evaluate(t, parts, 2);
    storage s = parts[0].value.storage;
    pointer p = aligned_vector(t, &s);
    p.offset = plus_scaled(t, p.offset, parts[1].value.integer, (int64_t)s.type->of->size);
    return whole(p, n->type);
}

// The array whose elements a pointer counts, where it is that of an array; NULL else. What is known of the array's
// address is known of theirs then.
static const node *array_of(const node *pointer) {
    pointer = without_casts(pointer);
    bool is_array = pointer->kind == CAST_EXPRESSION && pointer->cast == ARRAY_TO_POINTER_DECAY;
    return is_array ? pointer->parts[0] : NULL;
}

static storage element_storage(translator *t, const node *n, bool is_address) {
    if (n->parts[0]->type->kind == VECTOR_TYPE) return component_storage(t, n);
    bool turned = n->parts[1]->type->kind == POINTER_TYPE;
    const node *array = array_of(n->parts[turned]);
    operand parts[] = {{.node = n->parts[0]}, {.node = n->parts[1]}};
    if (array) parts[turned] = (operand){.node = array, .kind = AS_STORAGE};
    evaluate(t, parts, 2);
    const value *base = &parts[turned].value;
    storage s = whole(array ? base->storage.at : base->pointer, n->type);
    integer index = parts[!turned].value.integer;
    uint64_t length = row_length(n->parts[turned]);
    if (length) index = index_in_row(t, index, length, is_address);
    s.at.offset = plus_scaled(t, s.at.offset, index, (int64_t)size_of_type(t, n->type, &n->place));
    s.align = array ? base->storage.align : 0;
    return s;
}

static storage pointed_storage(translator *t, const node *n) {
    const node *array = array_of(n->parts[0]);
    if (!array) return whole(evaluate_value(t, n->parts[0]).pointer, n->type);
    storage s = evaluate_storage(t, array);
    s.type = n->type;
    return s;
}

static storage member_storage(translator *t, const node *n) {
    const node *from = n->parts[0];
    storage s;
    if (n->is_arrow) s = whole(evaluate_value(t, from).pointer, from->type->of);
    else if (from->is_lvalue) s = evaluate_storage(t, from);
    else s = evaluate_value(t, from).storage;
    if (!n->field) refuse_at(t, &n->place, "Clsim has no such member");
    size_of_type(t, s.type, &n->place); // its layout is known
    storage member = member_of(&s, n->field);
    member.type = n->type;
    return member;
}

static storage components_storage(translator *t, const node *n) {
    const node *from = n->parts[0];
    storage s = n->is_arrow ? whole(evaluate_value(t, from).pointer, from->type->of) : evaluate_storage(t, from);
    unsigned count, length = s.components ? s.component_count : (unsigned)s.type->length;
    unsigned char *chosen = take(&t->pass, 32);
    const unsigned char *components = components_of(t, n->name, length, &n->place, &count);
    for (unsigned i = 0; i < count; i++) chosen[i] = s.components ? s.components[components[i]] : components[i];
    if (!s.components) s.at = aligned_vector(t, &s);
    s.components = chosen;
    s.component_count = count;
    s.type = n->type;
    return s;
}

// A value that isn't in memory, in a variable of its own.
static storage variable_storage(translator *t, const node *n, const char *name) {
    value v = evaluate_value(t, n);
    if (v.kind == RECORD_VALUE) return v.storage;
    object *o = declare(t, find_object(t, t->call ? t->call->number : 0, n->number, ITSELF), n->type, name, &n->place);
    storage s = whole(pointer_to(t, o), n->type);
    put(t, s, v, &n->place);
    return s;
}

static storage literal_storage(translator *t, const node *n) {
    object *o =
        declare(t, find_object(t, t->call ? t->call->number : 0, n->number, ITSELF), n->type, "literal", &n->place);
    initialize(t, pointer_to(t, o), n->type, n->parts[0], &n->place);
    return whole(pointer_to(t, o), n->type);
}

static storage storage_of(translator *t, const node *n, bool is_address) {
    switch (n->kind) {
    case NAME_EXPRESSION: return name_storage(t, n);
    case SUBSCRIPT_EXPRESSION: return element_storage(t, n, is_address);
    case MEMBER_EXPRESSION: return member_storage(t, n);
    case COMPONENT_EXPRESSION:
        if (n->is_arrow || n->parts[0]->is_lvalue) return components_storage(t, n);
        break;
    case COMPOUND_LITERAL: return literal_storage(t, n);
    case STRING_LITERAL: return whole(pointer_to(t, text_table(t, n)), n->type);
    case UNARY_EXPRESSION:
        if (n->operation == POINTED_TO) return pointed_storage(t, n);
        break;
    case CAST_EXPRESSION:
        if (n->is_lvalue && (n->cast == NO_OP || n->cast == LVALUE_BIT_CAST)) {
            storage s = evaluate_storage(t, n->parts[0]);
            if (s.components) refuse_at(t, &n->place, "Clsim has no such cast");
            s.type = n->type;
            return s;
        }
        break;
    case BINARY_EXPRESSION:
        if (n->operation == COMMA && n->is_lvalue) {
            evaluate_effects(t, n->parts[0]);
            return evaluate_storage(t, n->parts[1]);
        }
        break;
    default: break;
    }
    if (n->is_lvalue) refuse_at(t, &n->place, "Clsim has no such place to store to or to load from");
    return variable_storage(t, n, "value");
}

storage evaluate_storage(translator *t, const node *n) {
    go_deeper(t, &n->place);
    storage s = storage_of(t, n, false);
    t->depth--;
    return s;
}

static pointer address(translator *t, const node *n) {
    const node *of = n->parts[0];
    go_deeper(t, &n->place);
    storage s = storage_of(t, of, true);
    t->depth--;
    if (!s.components) return s.at;
    if (s.component_count != 1) refuse_at(t, &n->place, "Clsim has no address of several components");
    return shifted(s.at, (int64_t)(s.components[0] * s.type->size));
}

// ---- casts ----

// A value where it is read: of something that isn't in memory it is that.
static value read_value(translator *t, const node *n, const node *from) {
    bool is_number = from->type->kind == VECTOR_TYPE || from->type->kind == INTEGER_TYPE;
    if (from->kind == COMPOUND_LITERAL && is_number) return evaluate_value(t, from);
    if (!from->is_lvalue) return evaluate_value(t, from);
    (void)n;
    return get(t, evaluate_storage(t, from), &from->place);
}

static value integral_cast(translator *t, const node *n) {
    value v = evaluate_value(t, n->parts[0]);
    const type *to = n->type->kind == VECTOR_TYPE ? n->type->of : n->type;
    if (to->kind != INTEGER_TYPE) refuse_at(t, &n->place, "Clsim has no cast to %s", n->type->name);
    return converted_value(t, v, n->type);
}

static value bit_cast(translator *t, const node *n) {
    value v = evaluate_value(t, n->parts[0]);
    if (n->type->kind == POINTER_TYPE && v.kind == POINTER_VALUE) return v;
    return as_type(t, v, n->type, &n->place);
}

// Between formats, or between whole numbers and floating-point ones.
static value floating_cast(translator *t, const node *n) {
    const type *from = n->parts[0]->type;
    need_format(t, from, &n->place);
    need_format(t, n->type, &n->place);
    value v = evaluate_value(t, n->parts[0]);
    t->at = &n->place;
    return converted_numbers(t, v, from, n->type, BY_DEFAULT);
}

static value cast_of_integer(translator *t, const node *n) {
    integer v = evaluate_value(t, n->parts[0]).integer;
    if (n->cast == INTEGRAL_TO_BOOLEAN) return integer_value(cast_to(t, is_not_zero(t, v), UCHAR));
    return integer_value(cast_to(t, unary(t, MINUS, cast_to(t, v, INT), INT), core_type(n->type)));
}

// An address as a number is known where it is one by the null pointer, as in `(size_t)&((T *)0)->x`.
static value address_as_number(translator *t, const node *n) {
    pointer p = evaluate_value(t, n->parts[0]).pointer;
    bool is_null = p.count == 1 && p.objects[0] == t->null && is_constant(p.offset);
    if (p.count && !is_null) refuse_at(t, &n->place, "Clsim has no addresses as numbers");
    integer_type type = core_type(n->type);
    return integer_value(is_null ? literal(t, (uint64_t)p.offset.constant, type) : unknown(t, type));
}

static value cast_value(translator *t, const node *n) {
    const node *from = n->parts[0];
    switch (n->cast) {
    case LVALUE_TO_RVALUE: return read_value(t, n, from);
    case NO_OP: return read_value(t, n, from);
    case INTEGRAL_CAST: return integral_cast(t, n);
    case INTEGRAL_TO_BOOLEAN:
    case BOOLEAN_TO_SIGNED_INTEGRAL: return cast_of_integer(t, n);
    case POINTER_TO_BOOLEAN: return integer_value(cast_to(t, is_not_null(t, evaluate_value(t, from).pointer), UCHAR));
    case ARRAY_TO_POINTER_DECAY: return pointer_value(evaluate_storage(t, from).at);
    case NULL_TO_POINTER: return pointer_value(pointer_to(t, t->null));
    case BIT_CAST:
    case ADDRESS_SPACE_CONVERSION: return bit_cast(t, n);
    case VECTOR_SPLAT: {
        integer v = evaluate_value(t, from).integer;
        return splat(t, cast_to(t, v, core_type(n->type->of)), (unsigned)n->type->length);
    }
    case TO_VOID: evaluate_effects(t, from); return (value){.kind = NO_VALUE};
    case ZERO_TO_OPAQUE_TYPE: return integer_value(literal(t, 0, INT));
    case INTEGRAL_TO_FLOATING:
    case FLOATING_CAST:
    case FLOATING_TO_INTEGRAL:
    case FLOATING_TO_BOOLEAN: return floating_cast(t, n);
    case POINTER_TO_INTEGRAL: return address_as_number(t, n);
    case INTEGRAL_TO_POINTER: refuse_at(t, &n->place, "Clsim has no numbers as addresses");
    default: refuse_at(t, &n->place, "Clsim has no such cast (%s)", n->name ? n->name : "");
    }
}

value converted_value(translator *t, value v, const type *type) {
    if (v.kind == INTEGER_VALUE && (type->kind == INTEGER_TYPE || type->kind == FLOATING_TYPE))
        v.integer = cast_to(t, v.integer, core_type(type));
    if (v.kind != VECTOR_VALUE) return v;
    integer *components = take(&t->pass, v.count * sizeof *components);
    for (unsigned i = 0; i < v.count; i++) components[i] = cast_to(t, v.components[i], core_type(type->of));
    return vector_value(components, v.count);
}

// ---- values ----

static value implicit_value(translator *t, const node *n) {
    switch (n->type->kind) {
    case INTEGER_TYPE:
    case FLOATING_TYPE: return integer_value(literal(t, 0, core_type(n->type)));
    case VECTOR_TYPE: return splat(t, literal(t, 0, core_type(n->type->of)), (unsigned)n->type->length);
    case POINTER_TYPE: return pointer_value(pointer_to(t, t->null));
    case EVENT_TYPE: return integer_value(literal(t, 0, INT));
    default: refuse_at(t, &n->place, "Clsim has no value of the type %s", n->type->name);
    }
}

static value size_value(translator *t, const node *n) {
    const type *of = n->argument;
    uint64_t size = of->kind == VOID_TYPE ? 1 : size_of_type(t, of, &n->place);
    if (!strcmp(n->name, "sizeof")) return integer_value(literal(t, size, ULONG));
    if (!strcmp(n->name, "alignof") || !strcmp(n->name, "__alignof"))
        return integer_value(literal(t, of->align, ULONG));
    if (strcmp(n->name, "vec_step")) refuse_at(t, &n->place, "Clsim has no %s", n->name);
    uint64_t step = of->kind != VECTOR_TYPE ? 1 : of->length == 3 ? 4 : of->length;
    return integer_value(literal(t, step, ULONG));
}

static value initializer_value(translator *t, const node *n) {
    if (n->type->kind == VECTOR_TYPE) return vector_literal(t, n);
    if (n->type->kind == INTEGER_TYPE || n->type->kind == FLOATING_TYPE || n->type->kind == POINTER_TYPE)
        return n->part_count ? evaluate_value(t, n->parts[0]) : implicit_value(t, n);
    object *o =
        declare(t, find_object(t, t->call ? t->call->number : 0, n->number, ITSELF), n->type, "value", &n->place);
    initialize(t, pointer_to(t, o), n->type, n, &n->place);
    return record_value(whole(pointer_to(t, o), n->type));
}

// Components of a vector that isn't in memory.
static value components_of_value(translator *t, const node *n) {
    const node *from = n->parts[0];
    if (n->is_arrow || from->is_lvalue) return get(t, evaluate_storage(t, n), &n->place);
    value v = kept_value(t, evaluate_value(t, from));
    unsigned count;
    const unsigned char *components = components_of(t, n->name, v.count, &n->place, &count);
    if (n->type->kind != VECTOR_TYPE) return integer_value(v.components[components[0]]);
    integer *chosen = take(&t->pass, count * sizeof *chosen);
    for (unsigned i = 0; i < count; i++) chosen[i] = v.components[components[i]];
    return vector_value(chosen, count);
}

static value name_value(translator *t, const node *n) {
    if (n->declaration && n->declaration->kind == ENUM_CONSTANT_DECLARATION)
        return integer_value(literal(t, n->declaration->value, core_type(n->type)));
    return get(t, evaluate_storage(t, n), &n->place);
}

static value exact_value(translator *t, const node *n, const char *what) {
    if (!n->is_exact) refuse_at(t, &n->place, "Clsim doesn't know %s", what);
    return integer_value(literal(t, n->value, core_type(n->type)));
}

static value value_of(translator *t, const node *n) {
    switch (n->kind) {
    case INTEGER_LITERAL: return integer_value(literal(t, n->value, core_type(n->type)));
    case FLOATING_LITERAL: return exact_value(t, n, "the bits of this number");
    case OFFSET_EXPRESSION: return exact_value(t, n, "this offset");
    case NAME_EXPRESSION: return name_value(t, n);
    case SUBSCRIPT_EXPRESSION:
    case MEMBER_EXPRESSION:
    case STRING_LITERAL: return get(t, evaluate_storage(t, n), &n->place);
    case COMPONENT_EXPRESSION: return components_of_value(t, n);
    case UNARY_EXPRESSION:
        if (n->operation == ADDRESS_OF) return pointer_value(address(t, n));
        if (n->operation == POINTED_TO) return get(t, evaluate_storage(t, n), &n->place);
        if (n->operation == INCREMENT || n->operation == DECREMENT) return step(t, n, true);
        return operation_value(t, n);
    case BINARY_EXPRESSION:
        if (n->operation == ASSIGN) return assignment(t, n, true);
        if (n->operation != COMMA) return operation_value(t, n);
        evaluate_effects(t, n->parts[0]);
        return evaluate_value(t, n->parts[1]);
    case COMPOUND_ASSIGNMENT: return compound_assignment(t, n, true);
    case CONDITIONAL_EXPRESSION: return conditional(t, n);
    case CALL_EXPRESSION: return call_value(t, n, true);
    case CAST_EXPRESSION: return cast_value(t, n);
    case INITIALIZER_LIST: return initializer_value(t, n);
    case IMPLICIT_VALUE: return implicit_value(t, n);
    case COMPOUND_LITERAL:
        if (n->type->kind == VECTOR_TYPE || n->type->kind == INTEGER_TYPE) return evaluate_value(t, n->parts[0]);
        return get(t, evaluate_storage(t, n), &n->place);
    case SIZE_EXPRESSION: return size_value(t, n);
    case AS_TYPE_EXPRESSION: return as_type(t, read_value(t, n, n->parts[0]), n->type, &n->place);
    case STATEMENT_EXPRESSION: return statement_value(t, n, true);
    case COMMON_VALUE:
        if (t->common) return *t->common;
        // fallthrough
    default: refuse_at(t, &n->place, "Clsim has no such expression (%s)", n->name ? n->name : "");
    }
}

value evaluate_value(translator *t, const node *n) {
    go_deeper(t, &n->place);
    value v = value_of(t, n);
    t->depth--;
    return v;
}

// ---- effects ----

static void keep_effects(translator *t, value v) {
    if (v.kind == INTEGER_VALUE && v.integer.has_effect) kept(t, v.integer);
    for (unsigned i = 0; v.kind == VECTOR_VALUE && i < v.count; i++)
        if (v.components[i].has_effect) kept(t, v.components[i]);
}

static void conditional_effects(translator *t, const node *n) {
    const place *at = t->at;
    integer test = condition(t, n->parts[0]);
    if (test.is_literal) {
        evaluate_effects(t, n->parts[test.value ? 1 : 2]);
        return;
    }
    list before = begin_list(t);
    evaluate_effects(t, n->parts[1]);
    list first = end_list(t, before);
    before = begin_list(t);
    evaluate_effects(t, n->parts[2]);
    list second = end_list(t, before);
    if (first.first || second.first) append(t, new_branch(t, test.text, first, second, at));
    else if (test.has_effect) kept(t, test);
}

static void effects_of(translator *t, const node *n) {
    switch (n->kind) {
    case BINARY_EXPRESSION:
        if (n->operation == COMMA) {
            evaluate_effects(t, n->parts[0]);
            evaluate_effects(t, n->parts[1]);
            return;
        }
        if (n->operation == ASSIGN) {
            assignment(t, n, false);
            return;
        }
        break;
    case COMPOUND_ASSIGNMENT: compound_assignment(t, n, false); return;
    case UNARY_EXPRESSION:
        if (n->operation == INCREMENT || n->operation == DECREMENT) {
            step(t, n, false);
            return;
        }
        break;
    case CALL_EXPRESSION: call_value(t, n, false); return;
    case CONDITIONAL_EXPRESSION:
        if (n->parts[0]->type->kind == VECTOR_TYPE || n->part_count == 4) break;
        conditional_effects(t, n);
        return;
    case CAST_EXPRESSION:
        if (n->cast != TO_VOID) break;
        evaluate_effects(t, n->parts[0]);
        return;
    case STATEMENT_EXPRESSION: statement_value(t, n, false); return;
    default: break;
    }
    if (n->is_lvalue) evaluate_storage(t, n);
    else keep_effects(t, evaluate_value(t, n));
}

void evaluate_effects(translator *t, const node *n) {
    go_deeper(t, &n->place);
    effects_of(t, n);
    t->depth--;
}

integer condition(translator *t, const node *n) {
    const place *at = t->at;
    need_format(t, n->type, &n->place);
    value v = evaluate_value(t, n);
    t->at = at;
    integer test = v.kind == POINTER_VALUE ? is_not_null(t, v.pointer) : v.integer;
    if (is_floating(n->type)) test = is_not_zero_float(t, test, n->type->width);
    return is_narrowing(&test) ? forced(t, test) : test;
}
