// Vectors: one integer for each component.
#include "front.h"
#include <string.h>

// ---- components ----

// The index of a component by a letter or a digit, 16 where it is none.
static unsigned component_index(char c, bool by_number) {
    static const char digits[] = "0123456789abcdef", letters[] = "xyzw", colours[] = "rgba";
    const char *at;
    if (by_number) at = strchr(digits, c >= 'A' && c <= 'F' ? c - 'A' + 'a' : c);
    else {
        at = strchr(letters, c);
        if (at && *at) return (unsigned)(at - letters);
        at = strchr(colours, c);
        if (at && *at) return (unsigned)(at - colours);
        return 16;
    }
    return at && *at ? (unsigned)(at - digits) : 16;
}

// OpenCL 1.2, 6.1.7. A vector of three counts as one of four for `.lo` and its like; its fourth component is undefined.
const unsigned char *components_of(translator *t, const char *name, unsigned length, const place *at, unsigned *count) {
    unsigned all = length == 3 ? 4 : length, first = 0, step = 1, n = 0;
    unsigned char *components = take(&t->pass, 32);
    bool is_half = true;
    if (!strcmp(name, "lo") || !strcmp(name, "hi")) first = *name == 'h' ? all / 2 : 0;
    else if (!strcmp(name, "even") || !strcmp(name, "odd")) {
        first = *name == 'o';
        step = 2;
    } else is_half = false;
    if (is_half)
        for (; n < all / 2; n++) components[n] = (unsigned char)(first + n * step);
    bool by_number = (*name == 's' || *name == 'S') && name[1];
    for (const char *c = name + by_number; !is_half && *c && n < 16; c++)
        components[n++] = (unsigned char)component_index(*c, by_number);
    for (unsigned i = 0; i < n; i++)
        if (components[i] >= length) refuse_at(t, at, "Clsim has no component .%s of this vector", name);
    *count = n;
    return components;
}

value splat(translator *t, integer v, unsigned count) {
    integer *components = take(&t->pass, count * sizeof *components);
    v = kept(t, v);
    for (unsigned i = 0; i < count; i++) components[i] = v;
    return vector_value(components, count);
}

// ---- operators ----

static bool compares(operation op) { return op >= LESS && op <= NOT_EQUAL; }

// What an operator gives of two floating-point components.
static integer float_components(translator *t, operation op, integer a, integer b, unsigned width,
                                integer_type result) {
    if (op == LOGICAL_AND || op == LOGICAL_OR) {
        a = is_not_zero_float(t, a, width);
        b = is_not_zero_float(t, b, width);
        a = binary(t, op == LOGICAL_AND ? BIT_AND : BIT_OR, a, b, INT);
        return cast_to(t, unary(t, MINUS, a, INT), result);
    }
    integer v = float_operator(t, op, a, b, width);
    return compares(op) ? cast_to(t, unary(t, MINUS, v, INT), result) : v;
}

// What an operator gives of two components of a type.
static integer component_operation(translator *t, operation op, integer a, integer b, integer_type type,
                                   integer_type result) {
    if (op == SHIFT_LEFT || op == SHIFT_RIGHT) return cast_to(t, binary(t, op, cast_to(t, a, type), b, type), result);
    a = cast_to(t, a, type);
    b = cast_to(t, b, type);
    if (op == LOGICAL_AND || op == LOGICAL_OR) {
        a = is_not_zero(t, a);
        b = is_not_zero(t, b);
        a = binary(t, op == LOGICAL_AND ? BIT_AND : BIT_OR, a, b, INT);
        return cast_to(t, unary(t, MINUS, a, INT), result);
    }
    integer v = binary(t, op, a, b, type);
    return cast_to(t, compares(op) ? unary(t, MINUS, v, INT) : v, result);
}

// Comparisons and logical operators give 0 or -1 (6.3.d to 6.3.g), both operands are evaluated.
value vector_operation(translator *t, operation op, value a, value b, const type *result, const type *operands) {
    const struct type *number = operands->kind == VECTOR_TYPE ? operands->of : operands;
    integer_type type = core_type(number);
    unsigned count = (unsigned)result->length;
    integer *components = take(&t->pass, count * sizeof *components);
    bool is_kept = op == LOGICAL_AND || op == LOGICAL_OR || is_floating(number);
    if (a.kind == INTEGER_VALUE) a = splat(t, a.integer, count);
    if (b.kind == INTEGER_VALUE) b = splat(t, b.integer, count);
    if (is_kept) {
        a = kept_value(t, a);
        b = kept_value(t, b);
    }
    for (unsigned i = 0; i < count; i++)
        components[i] =
            is_floating(number)
                ? float_components(t, op, a.components[i], b.components[i], number->width, core_type(result->of))
                : component_operation(t, op, a.components[i], b.components[i], type, core_type(result->of));
    return vector_value(components, count);
}

// ---- other readings of the same bits ----

static integer part_of(translator *t, integer v, unsigned byte, integer_type type) {
    integer_type bits = unsigned_of(type_of(&v));
    return cast_to(t, binary(t, SHIFT_RIGHT, cast_to(t, v, bits), literal(t, 8 * byte, INT), promoted(bits)), type);
}

static integer joined(translator *t, const integer *parts, unsigned count, integer_type type) {
    integer_type wide = width_of(type) == 8 ? ULONG : UINT;
    unsigned width = width_of(type) / count;
    integer whole = {.text = NULL};
    for (unsigned i = 0; i < count; i++) {
        integer v = cast_to(t, exactly(t, parts[i], unsigned_of(type_of(&parts[i]))), wide);
        v = binary(t, SHIFT_LEFT, v, literal(t, 8 * i * width, INT), wide);
        whole = i ? binary(t, BIT_OR, whole, v, wide) : v;
    }
    return cast_to(t, whole, type);
}

// OpenCL 1.2, 6.2.4.2. Of a vector of four that is read as one of three, the last component is left out.
value as_type(translator *t, value v, const type *type, const place *at) {
    const struct type *number = type->kind == VECTOR_TYPE ? type->of : type;
    unsigned count = type->kind == VECTOR_TYPE ? (unsigned)type->length : 1, n = 0;
    if ((v.kind != INTEGER_VALUE && v.kind != VECTOR_VALUE) ||
        (number->kind != INTEGER_TYPE && number->kind != FLOATING_TYPE))
        refuse_at(t, at, "Clsim has no such value as the type %s", type->name);
    v = kept_value(t, v);
    const integer *from = v.kind == INTEGER_VALUE ? &v.integer : v.components;
    unsigned from_count = v.kind == INTEGER_VALUE ? 1 : v.count;
    unsigned from_width = width_of(type_of(from)), width = number->width;
    integer *to = take(&t->pass, count * sizeof *to);
    for (; n < count; n++) {
        unsigned first = n * width / from_width, each = width > from_width ? width / from_width : 1;
        if (first + each > from_count) break;
        if (width == from_width) to[n] = cast_to(t, from[first], core_type(number));
        else if (width < from_width) to[n] = part_of(t, from[first], n * width % from_width, core_type(number));
        else to[n] = joined(t, &from[first], each, core_type(number));
    }
    bool is_padding = n == 3 && count == 4; // the last one of a vector of three is undefined
    if (is_padding) to[n++] = literal(t, 0, core_type(number));
    if (n < count) refuse_at(t, at, "Clsim has no such value as the type %s", type->name);
    return type->kind == VECTOR_TYPE ? vector_value(to, count) : integer_value(to[0]);
}

// ---- literals ----

// `(int4)(a, v.xy, 1)`: the components of all parts (6.1.6).
value vector_literal(translator *t, const node *n) {
    unsigned length = (unsigned)n->type->length, count = 0;
    operand *parts = take(&t->pass, (n->part_count + 1) * sizeof *parts);
    integer *components = take(&t->pass, length * sizeof *components);
    integer_type type = core_type(n->type->of);
    for (unsigned i = 0; i < n->part_count; i++) parts[i] = (operand){.node = n->parts[i]};
    evaluate(t, parts, n->part_count);
    for (unsigned i = 0; i < n->part_count; i++) {
        const value *v = &parts[i].value;
        const integer *from = v->kind == VECTOR_VALUE ? v->components : &v->integer;
        unsigned many = v->kind == VECTOR_VALUE ? v->count : 1;
        for (unsigned j = 0; j < many && count < length; j++) components[count++] = cast_to(t, from[j], type);
    }
    while (count < length) components[count++] = literal(t, 0, type);
    return vector_value(components, length);
}
