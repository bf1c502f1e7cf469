// OpenCL C's built-in functions on floating-point numbers (OpenCL 1.2, 6.12.2 to 6.12.7) over the helpers of
// opencl/floats, component by component. Each argument is evaluated once.
#include "front.h"
#include <string.h>

enum { MOST_OPERANDS = 4 };

static const type *number_of(const type *t) { return t->kind == VECTOR_TYPE ? t->of : t; }

static integer component(const value *v, unsigned i) { return v->kind == VECTOR_VALUE ? v->components[i] : v->integer; }

// Evaluates the arguments of a call, and keeps them.
static void evaluate_kept(translator *t, const node *n, operand *to, unsigned wanted) {
    if (n->part_count - 1 != wanted) refuse_at(t, &n->place, "too few or too many arguments");
    for (unsigned i = 0; i < wanted; i++) {
        need_format(t, n->parts[1 + i]->type, &n->place);
        to[i] = (operand){.node = n->parts[1 + i]};
    }
    evaluate(t, to, wanted);
    t->at = &n->place;
    for (unsigned i = 0; i < wanted; i++) to[i].value = kept_value(t, to[i].value);
}

static value of_components(const integer *components, unsigned count, const type *type) {
    return type->kind == VECTOR_TYPE ? vector_value(components, count) : integer_value(components[0]);
}

// ---- the functions of floats/names.h ----

// A truth of a vector's component is 0 or -1 (6.12.6).
static integer as_result(translator *t, integer v, const type *result, bool is_negated) {
    if (is_negated) v = unary(t, MINUS, v, INT);
    return cast_to(t, v, core_type(result));
}

static value row_value(translator *t, const node *n, const float_operation *f, bool is_truth) {
    operand given[MOST_OPERANDS];
    unsigned count = operand_count(f), all = count + stores_result(f);
    evaluate_kept(t, n, given, all);
    const type *result = n->type, *number = number_of(given[0].node->type);
    unsigned length = result->kind == VECTOR_TYPE ? (unsigned)result->length : 1;
    integer each[3], *first = take(&t->pass, length * sizeof *first), *second = take(&t->pass, length * sizeof *second);
    for (unsigned i = 0; i < length; i++) {
        for (unsigned j = 0; j < count; j++) each[j] = component(&given[j].value, i);
        first[i] = float_result(t, f, number->width, each);
        first[i] = as_result(t, first[i], number_of(result), is_truth && length > 1);
        if (stores_result(f)) second[i] = stored_float_result(t, f, number->width, each);
    }
    if (stores_result(f)) {
        const type *to = given[count].node->type->of;
        put(t, whole(given[count].value.pointer, to), of_components(second, length, to), &n->place);
    }
    return of_components(first, length, result);
}

// ---- geometric functions (6.12.5): sums, products and roots, from the first component on ----

static integer sum_of_products(translator *t, const value *a, const value *b, unsigned width) {
    unsigned count = a->kind == VECTOR_VALUE ? a->count : 1;
    integer sum = float_operator(t, MULTIPLY, component(a, 0), component(b, 0), width);
    for (unsigned i = 1; i < count; i++)
        sum = float_operator(t, ADD, sum, float_operator(t, MULTIPLY, component(a, i), component(b, i), width), width);
    return sum;
}

static integer root(translator *t, integer v, unsigned width) {
    return float_result(t, float_operation_named("sqrt"), width, &v);
}

// Of one component the length is its absolute value.
static integer length_of(translator *t, const value *v, unsigned width) {
    if (v->kind == VECTOR_VALUE) return root(t, sum_of_products(t, v, v, width), width);
    return float_result(t, float_operation_named("fabs"), width, &v->integer);
}

static value differences(translator *t, const value *a, const value *b, unsigned width) {
    if (a->kind == INTEGER_VALUE) return integer_value(float_operator(t, SUBTRACT, a->integer, b->integer, width));
    integer *components = take(&t->pass, a->count * sizeof *components);
    for (unsigned i = 0; i < a->count; i++)
        components[i] = float_operator(t, SUBTRACT, a->components[i], b->components[i], width);
    return vector_value(components, a->count);
}

// Each component by the length; a vector of zeros stays (7.5.1).
static value normalized(translator *t, const value *v, unsigned width) {
    integer length = length_of(t, v, width);
    integer divisor = kept(t, choice(t, is_not_zero_float(t, length, width), length, float_literal(t, width, true),
                                     integer_of(width, false)));
    unsigned count = v->kind == VECTOR_VALUE ? v->count : 1;
    integer *components = take(&t->pass, count * sizeof *components);
    for (unsigned i = 0; i < count; i++) components[i] = float_operator(t, DIVIDE, component(v, i), divisor, width);
    return v->kind == VECTOR_VALUE ? vector_value(components, count) : integer_value(components[0]);
}

static value cross_product(translator *t, const value *a, const value *b, unsigned width) {
    integer *components = take(&t->pass, 4 * sizeof *components);
    for (unsigned i = 0; i < 3; i++) {
        unsigned j = (i + 1) % 3, k = (i + 2) % 3;
        integer one = float_operator(t, MULTIPLY, a->components[j], b->components[k], width);
        integer other = float_operator(t, MULTIPLY, a->components[k], b->components[j], width);
        components[i] = float_operator(t, SUBTRACT, one, other, width);
    }
    components[3] = float_literal(t, width, false);
    return vector_value(components, a->count);
}

static bool geometric_value(translator *t, const node *n, const char *name, value *result) {
    static const char *const names[] = {"dot", "distance", "cross", "length", "normalize"};
    unsigned which = 0;
    operand given[2];
    if (!strncmp(name, "fast_", 5)) name += 5;
    while (which < 5 && strcmp(name, names[which])) which++;
    if (which == 5) return false;
    evaluate_kept(t, n, given, which < 3 ? 2 : 1);
    const value *a = &given[0].value, *b = &given[1].value;
    unsigned width = number_of(given[0].node->type)->width;
    if (which == 0) *result = integer_value(sum_of_products(t, a, b, width));
    else if (which == 1) {
        value between = differences(t, a, b, width);
        *result = integer_value(length_of(t, &between, width));
    } else if (which == 2) *result = cross_product(t, a, b, width);
    else if (which == 3) *result = integer_value(length_of(t, a, width));
    else *result = normalized(t, a, width);
    return true;
}

// ---- numbers without operands ----

static bool constant_value(translator *t, const node *n, const char *name, value *result) {
    static const char *const infinities[] = {"__builtin_inff", "__builtin_inf", "__builtin_huge_valf",
                                             "__builtin_huge_val"};
    unsigned width = n->type->width;
    for (unsigned i = 0; i < 4; i++) {
        if (strcmp(name, infinities[i])) continue;
        uint64_t bits = width == 4 ? UINT64_C(0x7f800000) : UINT64_C(0x7ff0000000000000);
        *result = integer_value(literal(t, bits, core_type(n->type)));
        return true;
    }
    return false;
}

// The one quiet NaN, whatever is asked to be in it.
static value nan_value(translator *t, const node *n) {
    const type *number = number_of(n->type);
    uint64_t bits = number->width == 4 ? UINT64_C(0x7fc00000) : UINT64_C(0x7ff8000000000000);
    integer one = literal(t, bits, core_type(number));
    for (unsigned i = 1; i < n->part_count; i++) evaluate_effects(t, n->parts[i]);
    return n->type->kind == VECTOR_TYPE ? splat(t, one, (unsigned)n->type->length) : integer_value(one);
}

// ---- vload_half, vstore_half and their like (6.12.7) ----

typedef struct {
    bool loads, is_aligned;
    unsigned count;
    rounding mode;
} half_access;

static rounding mode_named(const char *name, bool *is_known) {
    static const char *const modes[] = {"_rte", "_rtz", "_rtp", "_rtn", ""};
    for (int i = 0; i < 5; i++)
        if (!strcmp(name, modes[i])) return (rounding)i;
    *is_known = false;
    return BY_DEFAULT;
}

static bool is_half_access(const char *name, half_access *h) {
    bool is_known = true;
    h->loads = !strncmp(name, "vload", 5);
    if (!h->loads && strncmp(name, "vstore", 6)) return false;
    name += h->loads ? 5 : 6;
    h->is_aligned = *name == 'a';
    name += h->is_aligned;
    if (strncmp(name, "_half", 5)) return false;
    name += 5;
    h->count = 0;
    while (*name >= '0' && *name <= '9') h->count = h->count * 10 + (unsigned)(*name++ - '0');
    if (!h->count) h->count = 1;
    h->mode = mode_named(name, &is_known);
    return is_known;
}

static value half_value(translator *t, const node *n, half_access h) {
    static const type half = {
        .kind = FLOATING_TYPE, .width = 2, .size = 2, .align = 2, .is_signed = true, .name = "half"};
    operand given[3];
    unsigned at_pointer = h.loads ? 1 : 2, step = h.is_aligned && h.count == 3 ? 4 : h.count;
    evaluate_kept(t, n, given, at_pointer + 1);
    pointer p = given[at_pointer].value.pointer;
    p.offset = plus_scaled(t, p.offset, given[at_pointer - 1].value.integer, 2 * (int64_t)step);
    if (h.is_aligned && common_factor(p.offset) % (2 * step)) p.offset = aligned(t, p.offset, 2 * step);
    p = kept_pointer(t, p);
    integer *components = take(&t->pass, h.count * sizeof *components);
    const type *number = number_of(h.loads ? n->type : given[0].node->type);
    for (unsigned i = 0; i < h.count; i++) {
        pointer one = shifted(p, 2 * (int64_t)i);
        if (h.loads) components[i] = converted_number(t, load(t, one, USHORT, 0, &n->place), &half, number, BY_DEFAULT);
        else
            store(t, one, USHORT, converted_number(t, component(&given[0].value, i), number, &half, h.mode), 0,
                  &n->place);
    }
    return h.loads ? of_components(components, h.count, n->type) : (value){.kind = NO_VALUE};
}

// ---- convert_T ----

static bool is_conversion(const char *name, rounding *mode) {
    bool is_known = true;
    if (strncmp(name, "convert_", 8)) return false;
    name += 8;
    name += strcspn(name, "0123456789_");
    name += strspn(name, "0123456789");
    if (!strncmp(name, "_sat", 4)) name += 4;
    *mode = mode_named(name, &is_known);
    return is_known;
}

static value conversion_value(translator *t, const node *n, rounding mode) {
    operand given[1];
    evaluate_kept(t, n, given, 1);
    need_format(t, n->type, &n->place);
    return converted_numbers(t, given[0].value, n->parts[1]->type, n->type, mode);
}

// ---- all of them ----

static bool is_of_floats(const node *n) {
    for (unsigned i = 1; i < n->part_count; i++)
        if (is_floating(n->parts[i]->type)) return true;
    return false;
}

bool float_function_value(translator *t, const node *n, const char *name, value *result) {
    half_access half;
    rounding mode;
    bool of_floats = is_of_floats(n);
    if (is_half_access(name, &half)) {
        *result = half_value(t, n, half);
        return true;
    }
    if (constant_value(t, n, name, result)) return true;
    if (!strcmp(name, "nan")) {
        *result = nan_value(t, n);
        return true;
    }
    if ((of_floats || is_floating(n->type)) && is_conversion(name, &mode)) {
        *result = conversion_value(t, n, mode);
        return true;
    }
    if (!of_floats) return false;
    if (geometric_value(t, n, name, result)) return true;
    const float_operation *f = float_operation_named(name);
    if (!f || !(*name >= 'a' && *name <= 'z') || strchr(name, ' ')) return false;
    bool is_truth = !strncmp(name, "is", 2) || !strcmp(name, "signbit");
    *result = row_value(t, n, f, is_truth);
    return true;
}
