// Operators and conversions of floating-point numbers: calls of the helpers of opencl/floats, in whole numbers. A
// float is the uint of its bits, a double the ulong.
#include "floats.h"
#include "../session.h"
#include "front.h"
#include "straight.h"
#include <string.h>

// ---- calls of helpers ----

// Notes that a kernel's text has a helper, and those that it calls. These stand in front of it, which bounds this.
static void use_helper(translator *t, unsigned number) {
    if (t->helpers[number]) return;
    t->helpers[number] = true;
    if (widens() && divides_straight(helper_at(number))) use_helper(t, (unsigned)helper_named("whole_quotient"));
    for (const char *at = helper_at(number)->calls; *at;) {
        size_t n = strcspn(at, " ");
        int called = helper_named(copy_text(&t->pass, at, n));
        if (called != NO_HELPER) use_helper(t, (unsigned)called);
        at += n + strspn(at + n, " ");
    }
}

static bool are_known(translator *t, const integer *arguments, const integer_type *types, unsigned count,
                      uint64_t *known) {
    for (unsigned i = 0; i < count; i++) {
        if (!arguments[i].is_literal) return false;
        known[i] = literal(t, arguments[i].value, types[i]).value;
    }
    return true;
}

// The language takes a call as the whole right side of a declaration, so each has a variable of its own.
static integer call_helper(translator *t, const char *name, const integer *arguments) {
    int number = helper_named(name);
    if (number == NO_HELPER) refuse_at(t, t->at, "Clsim has no %s", name);
    const helper *h = helper_at((unsigned)number);
    integer_type types[MOST_PARAMETERS];
    uint64_t known[MOST_PARAMETERS], result;
    unsigned count = parameters_of(h, types);
    if (are_known(t, arguments, types, count, known) && known_result((unsigned)number, known, &result))
        return literal(t, result, h->result);
    text call = {.arena = &t->pass};
    for (unsigned i = 0; i < count; i++) addf(&call, "%s%s", i ? "," : "", exactly(t, arguments[i], types[i]).text);
    const char *variable_name = temporary_name(t);
    use_helper(t, (unsigned)number);
    emit(t, "%s %s=%s(%s);", name_of(h->result), variable_name, name, call.at);
    t->out.last->result = variable_name;
    t->out.last->is_pure = !has_loop((unsigned)number);
    return variable(variable_name, h->result, true);
}

// For `clsim widen` those without branches: with them the numbers of a kernel decide nothing that they don't in itself.
void write_helpers(translator *t, text *to) {
    const bool *straight = widens() ? find_straight(&t->pass) : NULL;
    for (unsigned i = 0; i < helper_count(); i++) {
        if (!t->helpers[i]) continue;
        if (straight && straight[i]) add_straight(&t->pass, to, helper_at(i));
        else add(to, helper_at(i)->text);
    }
}

void begin_helpers(translator *t) {
    t->helpers = take(&t->pass, helper_count() * sizeof *t->helpers);
    for (unsigned i = 0; i < helper_count(); i++) take_name(t, helper_at(i)->name);
}

bool uses_helpers(const translator *t) {
    for (unsigned i = 0; i < helper_count(); i++)
        if (t->helpers[i]) return true;
    return false;
}

// ---- the rows of floats/names.h ----

typedef enum { RESULT_FORMAT, RESULT_TRUTH, RESULT_NOT, RESULT_INT } result_kind;

struct float_operation {
    const char *name, *helper, *arguments;
    result_kind result;
    const char *stored_helper, *stored_arguments; // of what is stored through the last operand, or NULL
    result_kind stored;
};

static const float_operation operations[] = {
#define OPERATION(NAME, HELPER, RESULT, ARGUMENTS) {NAME, #HELPER, ARGUMENTS, RESULT_##RESULT, NULL, NULL, 0},
#define STORING(NAME, HELPER, ARGUMENTS, STORED, RESULT, STORED_ARGUMENTS) \
    {NAME, #HELPER, ARGUMENTS, RESULT_FORMAT, #STORED, STORED_ARGUMENTS, RESULT_##RESULT},
#include "../floats/names.h"
};

const float_operation *float_operation_named(const char *name) {
    for (size_t i = 0; i < sizeof operations / sizeof *operations; i++)
        if (!strcmp(operations[i].name, name)) return &operations[i];
    return NULL;
}

bool stores_result(const float_operation *f) { return f->stored_helper; }

unsigned operand_count(const float_operation *f) {
    unsigned count = 1;
    for (const char *c = f->arguments; *c; c++) {
        if (*c == 'b' || *c == 'B' || *c == 'i') count = count < 2 ? 2 : count;
        if (*c == 'c') count = 3;
    }
    return count;
}

static integer with_other_sign(translator *t, integer v, unsigned width) {
    integer_type bits = integer_of(width, false);
    return binary(t, BIT_XOR, v, literal(t, UINT64_C(1) << (8 * width - 1), bits), bits);
}

static integer helper_result(translator *t, unsigned width, const char *helper, const char *letters, result_kind result,
                             const integer *operands) {
    integer arguments[MOST_PARAMETERS], first = operands[0];
    unsigned count = 0;
    if (*letters == 'b' && first.has_effect) first = kept(t, first); // it is evaluated first
    for (const char *c = letters; *c && count < MOST_PARAMETERS; c++) {
        bool is_digit = *c >= '0' && *c <= '9';
        if (is_digit) arguments[count++] = literal(t, (uint64_t)(*c - '0'), INT);
        else if (*c == 'B') arguments[count++] = with_other_sign(t, operands[1], width);
        else arguments[count++] = *c == 'a' ? first : operands[*c == 'i' ? 1 : *c - 'a'];
    }
    integer v = call_helper(t, format(t, "%s_%s", width == 4 ? "float" : "double", helper), arguments);
    return result == RESULT_NOT ? unary(t, LOGICAL_NOT, v, INT) : v;
}

integer float_result(translator *t, const float_operation *f, unsigned width, const integer *operands) {
    return helper_result(t, width, f->helper, f->arguments, f->result, operands);
}

integer stored_float_result(translator *t, const float_operation *f, unsigned width, const integer *operands) {
    return helper_result(t, width, f->stored_helper, f->stored_arguments, f->stored, operands);
}

// ---- operators ----

static const char *operator_name(operation op) {
    switch (op) {
    case ADD: return "+";
    case SUBTRACT: return "-";
    case MULTIPLY: return "*";
    case DIVIDE: return "/";
    case MINUS: return "unary -";
    case EQUAL: return "==";
    case NOT_EQUAL: return "!=";
    case LESS: return "<";
    case GREATER: return ">";
    case LESS_OR_EQUAL: return "<=";
    case GREATER_OR_EQUAL: return ">=";
    default: return "";
    }
}

void need_format(translator *t, const type *type, const place *at) {
    const struct type *number = type->kind == VECTOR_TYPE ? type->of : type;
    if (is_floating(number) && number->width != 4 && number->width != 8)
        refuse_at(t, at, "Clsim has no numbers of the type %s but in memory", number->name);
}

// Whether a number of a format is 2^n, for an n other than 0 that the helper mul_power takes.
static bool is_power(integer v, unsigned width, int *n) {
    unsigned fraction = width == 4 ? 23 : 52;
    int bias = width == 4 ? 127 : 1023, most = width == 4 ? 63 : 511;
    if (!v.is_literal || v.value & ((UINT64_C(1) << fraction) - 1)) return false;
    *n = (int)(v.value >> fraction) - bias;
    return *n && *n >= -most && *n <= most;
}

// A number by 2^n: its exponent alone changes.
static integer by_power(translator *t, integer v, int n, unsigned width) {
    integer both[] = {v, literal(t, (uint64_t)n << (width == 4 ? 23 : 52), integer_of(width, false))};
    return call_helper(t, format(t, "%s_mul_power", width == 4 ? "float" : "double"), both);
}

// Whether two values are the same one, which is worked out without an effect.
static bool are_same(integer a, integer b) {
    return !a.is_literal && !a.has_effect && a.type == b.type && a.pending == b.pending && !strcmp(a.text, b.text);
}

integer float_operator(translator *t, operation op, integer a, integer b, unsigned width) {
    const float_operation *f = float_operation_named(operator_name(op));
    integer both[] = {a, b};
    int n;
    bool is_format = width == 4 || width == 8, is_product = op == MULTIPLY;
    if (is_format && is_product && !b.is_literal && is_power(a, width, &n)) return by_power(t, b, n, width);
    if (is_format && is_product && !a.is_literal && is_power(b, width, &n)) return by_power(t, a, n, width);
    if (is_format && op == DIVIDE && !a.is_literal && is_power(b, width, &n)) return by_power(t, a, -n, width);
    if (is_format && is_product && are_same(a, b))
        return call_helper(t, width == 4 ? "float_square" : "double_square", &a);
    if (!f || (width != 4 && width != 8)) refuse_at(t, t->at, "Clsim has no such operator of floating-point numbers");
    return float_result(t, f, width, both);
}

integer is_not_zero_float(translator *t, integer v, unsigned width) {
    integer_type bits = integer_of(width, false), wide = promoted(bits);
    integer all_but_sign = literal(t, greatest(signed_of(bits)), wide);
    return binary(t, NOT_EQUAL, binary(t, BIT_AND, v, all_but_sign, wide), literal(t, 0, wide), wide);
}

integer number_is_not_zero(translator *t, integer v, const type *type) {
    return is_floating(type) ? is_not_zero_float(t, v, type->width) : is_not_zero(t, v);
}

integer float_literal(translator *t, unsigned width, bool is_one) {
    uint64_t one = width == 4 ? UINT64_C(0x3f800000) : UINT64_C(0x3ff0000000000000);
    return literal(t, is_one ? one : 0, integer_of(width, false));
}

// ---- conversions ----

static const char *format_name(unsigned width) { return width == 2 ? "half" : width == 4 ? "float" : "double"; }

static integer between_formats(translator *t, integer v, unsigned from, unsigned to, rounding mode) {
    integer both[] = {literal(t, mode == BY_DEFAULT ? TO_NEAREST : mode, INT), v};
    if (from == to) return v;
    const char *name = format(t, "%s_from_%s", format_name(to), format_name(from));
    if (from == 2 && to == 8) return between_formats(t, between_formats(t, v, 2, 4, mode), 4, 8, mode);
    return from < to ? call_helper(t, name, &v) : call_helper(t, name, both);
}

static integer from_whole(translator *t, integer v, const type *from, unsigned to, rounding mode) {
    bool has_sign = from->is_signed, is_nearest = mode == BY_DEFAULT || mode == TO_NEAREST;
    if (from->width <= 4 && is_nearest) {
        v = cast_to(t, v, has_sign ? INT : UINT);
        return call_helper(t, format(t, "%s_from_%s", format_name(to), has_sign ? "int" : "uint"), &v);
    }
    integer both[] = {literal(t, is_nearest ? TO_NEAREST : mode, INT), cast_to(t, v, has_sign ? LONG : ULONG)};
    return call_helper(t, format(t, "%s_from_%s", format_name(to), has_sign ? "long" : "ulong"), both);
}

// What the type can't hold becomes the nearest that it can, and what is no number 0.
static integer to_whole(translator *t, integer v, unsigned from, integer_type to, rounding mode) {
    bool is_to_zero = mode == BY_DEFAULT || mode == TO_ZERO;
    if (is_to_zero && (to == INT || to == UINT))
        return call_helper(t, format(t, "%s_to_%s", format_name(from), name_of(to)), &v);
    integer three[] = {literal(t, is_to_zero ? TO_ZERO : mode, INT), v, literal(t, greatest(to), ULONG)};
    const char *name = format(t, "%s_to_%s", format_name(from), is_signed(to) ? "signed" : "unsigned");
    return cast_to(t, call_helper(t, name, three), to);
}

integer converted_number(translator *t, integer v, const type *from, const type *to, rounding mode) {
    bool of_float = from->kind == FLOATING_TYPE, to_float = to->kind == FLOATING_TYPE;
    if (of_float && to_float) return between_formats(t, v, from->width, to->width, mode);
    if (to_float) return from_whole(t, v, from, to->width, mode);
    if (!of_float) return cast_to(t, v, core_type(to));
    if (to->is_bool) return cast_to(t, is_not_zero_float(t, v, from->width), UCHAR);
    return to_whole(t, v, from->width, core_type(to), mode);
}

value converted_numbers(translator *t, value v, const type *from, const type *to, rounding mode) {
    const type *number = from->kind == VECTOR_TYPE ? from->of : from, *result = to->kind == VECTOR_TYPE ? to->of : to;
    if (v.kind == INTEGER_VALUE) return integer_value(converted_number(t, v.integer, number, result, mode));
    if (v.kind != VECTOR_VALUE) return v;
    integer *components = take(&t->pass, v.count * sizeof *components);
    if (is_floating(number) || is_floating(result)) v = kept_value(t, v);
    for (unsigned i = 0; i < v.count; i++) components[i] = converted_number(t, v.components[i], number, result, mode);
    return vector_value(components, v.count);
}
