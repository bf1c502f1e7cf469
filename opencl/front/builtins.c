// OpenCL C's built-in functions on whole numbers (OpenCL 1.2, 6.12.1, 6.12.3, 6.12.7, 6.12.8, 6.12.12) over those of
// Clsim's language. Each argument is evaluated once.
#include "front.h"
#include <string.h>

// The arguments of a function of integers, all but the last ones of one type.
typedef struct {
    translator *t;
    integer_type type;
    const integer *arguments;
    bool of_vectors; // they are components
} arguments;

typedef integer integer_function(arguments a);

#define X a.arguments[0]
#define Y a.arguments[1]
#define Z a.arguments[2]

static integer number(arguments a, uint64_t value, integer_type type) { return literal(a.t, value, type); }
static integer in(arguments a, operation op, integer x, integer y, integer_type type) {
    return binary(a.t, op, x, y, type);
}
static integer exact(arguments a, integer x) { return exactly(a.t, x, a.type); }

// A function of the language whose arguments are of the type of its own.
static integer called(arguments a, const char *name, integer x, integer y, integer_type type) {
    integer both[] = {exactly(a.t, x, type), exactly(a.t, y, type)};
    return call_of(a.t, name, both, 2, type);
}
static integer called_with_one(arguments a, const char *name, integer x, integer_type type, integer_type result) {
    integer one = exactly(a.t, x, type);
    return call_of(a.t, name, &one, 1, result);
}

// ---- those that the language has ----

static integer minimum(arguments a) { return called(a, "min", X, Y, a.type); }
static integer maximum(arguments a) { return called(a, "max", X, Y, a.type); }
static integer clamped(arguments a) { return called(a, "min", called(a, "max", X, Y, a.type), Z, a.type); }
static integer absolute(arguments a) { return called_with_one(a, "abs", X, a.type, unsigned_of(a.type)); }
static integer leading_zeros(arguments a) { return called_with_one(a, "clz", X, a.type, a.type); }
static integer one_bits(arguments a) { return called_with_one(a, "popcount", X, a.type, a.type); }
static integer rotated(arguments a) { return called(a, "rotate", X, Y, a.type); }

// The one bits of ~x & (x - 1).
static integer trailing_zeros(arguments a) {
    integer_type type = unsigned_of(a.type), wide = promoted(type);
    integer x = cast_to(a.t, X, type), below = in(a, SUBTRACT, x, number(a, 1, wide), wide);
    integer bits = in(a, BIT_AND, unary(a.t, COMPLEMENT, cast_to(a.t, x, wide), wide), below, wide);
    return called_with_one(a, "popcount", bits, type, type);
}

// ---- sums and products ----

static integer product(arguments a) { return in(a, MULTIPLY, X, Y, promoted(a.type)); }
static integer product_and_sum(arguments a) {
    return in(a, ADD, in(a, MULTIPLY, X, Y, promoted(a.type)), Z, promoted(a.type));
}

// (x & y) + ((x ^ y) >> 1), and the same rounded up.
static integer half_sum(arguments a) {
    integer_type wide = promoted(a.type);
    integer half = in(a, SHIFT_RIGHT, in(a, BIT_XOR, X, Y, wide), number(a, 1, INT), wide);
    return in(a, ADD, in(a, BIT_AND, X, Y, wide), half, wide);
}
static integer half_sum_up(arguments a) {
    integer_type wide = promoted(a.type);
    integer half = in(a, SHIFT_RIGHT, in(a, BIT_XOR, X, Y, wide), number(a, 1, INT), wide);
    return in(a, SUBTRACT, in(a, BIT_OR, X, Y, wide), half, wide);
}

// The high half of a product of 64 bits, by four products of 32.
static integer high_product_of_longs(arguments a) {
    translator *t = a.t;
    integer mask = number(a, 0xffffffff, ULONG), half = number(a, 32, INT);
    integer x = kept(t, cast_to(t, X, ULONG)), y = kept(t, cast_to(t, Y, ULONG));
    integer x_low = kept(t, in(a, BIT_AND, x, mask, ULONG)), x_high = kept(t, in(a, SHIFT_RIGHT, x, half, ULONG));
    integer y_low = kept(t, in(a, BIT_AND, y, mask, ULONG)), y_high = kept(t, in(a, SHIFT_RIGHT, y, half, ULONG));
    integer low = in(a, SHIFT_RIGHT, in(a, MULTIPLY, x_low, y_low, ULONG), half, ULONG);
    integer first = kept(t, in(a, ADD, in(a, MULTIPLY, x_high, y_low, ULONG), low, ULONG));
    integer second =
        kept(t, in(a, ADD, in(a, MULTIPLY, x_low, y_high, ULONG), in(a, BIT_AND, first, mask, ULONG), ULONG));
    integer high = in(a, ADD, in(a, MULTIPLY, x_high, y_high, ULONG), in(a, SHIFT_RIGHT, first, half, ULONG), ULONG);
    high = in(a, ADD, high, in(a, SHIFT_RIGHT, second, half, ULONG), ULONG);
    if (!is_signed(a.type)) return high;
    integer zero = number(a, 0, ULONG), none = number(a, 0, LONG);
    high = in(a, SUBTRACT, high, choice(t, in(a, LESS, X, none, LONG), y, zero, ULONG), ULONG);
    high = in(a, SUBTRACT, high, choice(t, in(a, LESS, Y, none, LONG), x, zero, ULONG), ULONG);
    return cast_to(t, high, LONG);
}

static integer high_product(arguments a) {
    unsigned width = width_of(a.type);
    if (width == 8) return high_product_of_longs(a);
    integer_type wide = integer_of(width < 4 ? 4 : 8, is_signed(a.type));
    integer p = in(a, MULTIPLY, cast_to(a.t, X, wide), cast_to(a.t, Y, wide), wide);
    return cast_to(a.t, in(a, SHIFT_RIGHT, p, number(a, 8 * width, INT), wide), a.type);
}

static integer high_product_and_sum(arguments a) {
    integer_type wide = promoted(a.type);
    return in(a, ADD, cast_to(a.t, high_product(a), wide), Z, wide);
}

// ---- those that keep to the range of their type ----

// A number of a wider type, in the range of the arguments' type.
static integer in_range(arguments a, integer v, integer_type wide) {
    v = called(a, "max", v, number(a, least(a.type), wide), wide);
    return called(a, "min", v, number(a, greatest(a.type), wide), wide);
}

static integer saturated_unsigned(arguments a, operation op) {
    if (op == SUBTRACT)
        return choice(a.t, in(a, LESS, X, Y, a.type), number(a, 0, a.type), in(a, SUBTRACT, X, Y, a.type), a.type);
    integer sum = kept(a.t, in(a, ADD, X, Y, a.type));
    return choice(a.t, in(a, LESS, sum, X, a.type), number(a, greatest(a.type), a.type), sum, a.type);
}

// In 64 bits the signs tell whether the sum or the difference left the range.
static integer saturated_longs(arguments a, operation op) {
    integer sum = kept(a.t, in(a, op, X, Y, LONG)), zero = number(a, 0, LONG);
    integer other = op == ADD ? in(a, BIT_XOR, Y, sum, LONG) : in(a, BIT_XOR, X, Y, LONG);
    integer left = in(a, BIT_AND, in(a, BIT_XOR, X, sum, LONG), other, LONG);
    integer limit =
        choice(a.t, in(a, LESS, X, zero, LONG), number(a, least(LONG), LONG), number(a, greatest(LONG), LONG), LONG);
    return choice(a.t, in(a, LESS, left, zero, LONG), limit, sum, LONG);
}

static integer saturated(arguments a, operation op) {
    if (a.type == UINT || a.type == ULONG) return saturated_unsigned(a, op);
    if (a.type == LONG) return saturated_longs(a, op);
    integer_type wide = a.type == INT ? LONG : INT;
    return in_range(a, kept(a.t, in(a, op, cast_to(a.t, X, wide), cast_to(a.t, Y, wide), wide)), wide);
}
static integer saturated_sum(arguments a) { return saturated(a, ADD); }
static integer saturated_difference(arguments a) { return saturated(a, SUBTRACT); }

// In 128 bits: the high and the low half.
static integer saturated_product_of_longs(arguments a) {
    translator *t = a.t;
    integer high = kept(t, cast_to(t, high_product_of_longs(a), ULONG));
    integer low = kept(t, in(a, MULTIPLY, cast_to(t, X, ULONG), cast_to(t, Y, ULONG), ULONG));
    integer sum = kept(t, in(a, ADD, low, cast_to(t, Z, ULONG), ULONG));
    integer carry = cast_to(t, in(a, LESS, sum, low, ULONG), ULONG), sign = number(a, 63, INT);
    integer limit = number(a, greatest(a.type), a.type);
    if (!is_signed(a.type)) {
        integer above = in(a, NOT_EQUAL, in(a, BIT_OR, high, carry, ULONG), number(a, 0, ULONG), ULONG);
        return choice(t, above, limit, sum, a.type);
    }
    high = in(a, ADD, high, cast_to(t, in(a, SHIFT_RIGHT, Z, sign, LONG), ULONG), ULONG);
    high = kept(t, cast_to(t, in(a, ADD, high, carry, ULONG), LONG));
    sum = cast_to(t, sum, LONG);
    integer fits = in(a, EQUAL, high, in(a, SHIFT_RIGHT, sum, sign, LONG), LONG);
    integer below = in(a, LESS, high, number(a, 0, LONG), LONG);
    return choice(t, fits, sum, choice(t, below, number(a, least(LONG), LONG), limit, LONG), LONG);
}

static integer saturated_product_and_sum(arguments a) {
    if (width_of(a.type) == 8) return saturated_product_of_longs(a);
    integer_type wide = a.type == UINT ? ULONG : LONG;
    integer p = in(a, MULTIPLY, cast_to(a.t, X, wide), cast_to(a.t, Y, wide), wide);
    p = kept(a.t, in(a, ADD, p, cast_to(a.t, Z, wide), wide));
    if (wide == ULONG) return called(a, "min", p, number(a, greatest(UINT), ULONG), ULONG);
    return in_range(a, p, wide);
}

// ---- others ----

static integer absolute_difference(arguments a) {
    integer_type type = unsigned_of(a.type), wide = promoted(type);
    integer x = cast_to(a.t, X, wide), y = cast_to(a.t, Y, wide);
    return choice(a.t, in(a, GREATER, X, Y, a.type), in(a, SUBTRACT, x, y, wide), in(a, SUBTRACT, y, x, wide), wide);
}

static integer upsampled(arguments a) {
    unsigned width = width_of(a.type);
    integer_type wide = promoted(integer_of(2 * width, false));
    integer low = exactly(a.t, Y, unsigned_of(type_of(&Y)));
    integer high = cast_to(a.t, exactly(a.t, X, unsigned_of(a.type)), wide);
    high = in(a, SHIFT_LEFT, high, number(a, 8 * width, INT), wide);
    return in(a, BIT_OR, high, cast_to(a.t, low, wide), wide);
}

static integer selected_bits(arguments a) {
    integer_type wide = promoted(a.type);
    integer z = cast_to(a.t, exact(a, Z), wide);
    integer x = in(a, BIT_AND, cast_to(a.t, X, wide), unary(a.t, COMPLEMENT, z, wide), wide);
    return in(a, BIT_OR, x, in(a, BIT_AND, cast_to(a.t, Y, wide), z, wide), wide);
}

// By the highest bit of each component, or by a whole integer (6.12.6).
static integer selected(arguments a) {
    integer_type type = a.of_vectors ? signed_of(type_of(&Z)) : type_of(&Z);
    integer test = in(a, a.of_vectors ? LESS : NOT_EQUAL, cast_to(a.t, Z, type), number(a, 0, type), type);
    return choice(a.t, test, Y, X, a.type);
}

static const struct {
    const char *name;
    integer_function *function;
    unsigned count;
} functions[] = {{"min", minimum, 2},
                 {"max", maximum, 2},
                 {"clamp", clamped, 3},
                 {"abs", absolute, 1},
                 {"clz", leading_zeros, 1},
                 {"popcount", one_bits, 1},
                 {"ctz", trailing_zeros, 1},
                 {"rotate", rotated, 2},
                 {"mul24", product, 2},
                 {"mad24", product_and_sum, 3},
                 {"hadd", half_sum, 2},
                 {"rhadd", half_sum_up, 2},
                 {"mul_hi", high_product, 2},
                 {"mad_hi", high_product_and_sum, 3},
                 {"add_sat", saturated_sum, 2},
                 {"sub_sat", saturated_difference, 2},
                 {"mad_sat", saturated_product_and_sum, 3},
                 {"abs_diff", absolute_difference, 2},
                 {"upsample", upsampled, 2},
                 {"bitselect", selected_bits, 3},
                 {"select", selected, 3}};

// ---- arguments of calls ----

static void evaluate_arguments(translator *t, const node *n, operand *to, unsigned count, unsigned wanted) {
    if (count != wanted) refuse_at(t, &n->place, "too few or too many arguments");
    for (unsigned i = 0; i < count; i++) to[i] = (operand){.node = n->parts[1 + i]};
    evaluate(t, to, count);
    t->at = &n->place;
}

static integer component(const value *v, unsigned i) { return v->kind == VECTOR_VALUE ? v->components[i] : v->integer; }

// bitselect and select are the only ones of these that floating-point numbers have too, by their bits.
static void refuse_floats(translator *t, const node *n, const char *name) {
    if (!strcmp(name, "bitselect") || !strcmp(name, "select")) return;
    for (unsigned i = 1; i < n->part_count; i++)
        if (is_floating(n->parts[i]->type)) refuse_at(t, &n->place, "Clsim has no %s of floating-point numbers", name);
}

static value numeric_value(translator *t, const node *n, unsigned which) {
    unsigned count = functions[which].count, length = n->type->kind == VECTOR_TYPE ? (unsigned)n->type->length : 1;
    operand given[3];
    integer each[3], *results = take(&t->pass, length * sizeof *results);
    const type *result = n->type->kind == VECTOR_TYPE ? n->type->of : n->type;
    refuse_floats(t, n, functions[which].name);
    evaluate_arguments(t, n, given, n->part_count - 1, count);
    for (unsigned i = 0; i < count; i++) {
        if (given[i].value.kind != INTEGER_VALUE && given[i].value.kind != VECTOR_VALUE)
            refuse_at(t, &n->place, "Clsim has %s of whole numbers only", functions[which].name);
        given[i].value = kept_value(t, given[i].value);
    }
    for (unsigned i = 0; i < length; i++) {
        for (unsigned j = 0; j < count; j++) each[j] = component(&given[j].value, i);
        arguments a = {t, type_of(&each[0]), each, length > 1};
        results[i] = cast_to(t, functions[which].function(a), core_type(result));
        if (length > 1) results[i] = kept(t, results[i]);
    }
    return length > 1 ? vector_value(results, length) : integer_value(results[0]);
}

// Whether the highest bit is set in any, or in all, of the components (6.12.6).
static value bits_value(translator *t, const node *n, bool of_all) {
    value v = evaluate_value(t, n->parts[1]);
    unsigned count = v.kind == VECTOR_VALUE ? v.count : 1;
    integer result = literal(t, 0, INT);
    for (unsigned i = 0; i < count; i++) {
        integer c = component(&v, i);
        integer_type type = signed_of(type_of(&c));
        c = binary(t, LESS, cast_to(t, c, type), literal(t, 0, type), type);
        result = i ? binary(t, of_all ? BIT_AND : BIT_OR, result, c, INT) : c;
    }
    return integer_value(result);
}

// ---- conversions: `convert_T`, `_sat`, and a rounding mode, which whole numbers don't need ----

// A type's name at the begin of a word. NO_INTEGER where there is none; then `*end` isn't set.
static integer_type named_type(const char *word, const char **end) {
    for (integer_type i = CHAR; i <= ULONG; i++) {
        size_t n = strlen(name_of(i));
        if (strncmp(word, name_of(i), n)) continue;
        *end = word + n;
        return i;
    }
    return NO_INTEGER;
}

static bool is_conversion(const char *name, bool *saturates) {
    static const char *const modes[] = {"", "_rte", "_rtz", "_rtp", "_rtn"};
    const char *end;
    if (strncmp(name, "convert_", 8) || named_type(name + 8, &end) == NO_INTEGER) return false;
    end += strspn(end, "0123456789");
    *saturates = !strncmp(end, "_sat", 4);
    if (*saturates) end += 4;
    for (size_t i = 0; i < sizeof modes / sizeof *modes; i++)
        if (!strcmp(end, modes[i])) return true;
    return false;
}

static bool is_less(uint64_t a, integer_type of_a, uint64_t b, integer_type of_b) {
    bool a_below = is_signed(of_a) && (int64_t)a < 0, b_below = is_signed(of_b) && (int64_t)b < 0;
    if (a_below != b_below) return a_below;
    return a < b;
}

static integer saturated_conversion(translator *t, integer v, integer_type to) {
    integer_type from = type_of(&v), wide = promoted(from);
    integer result = cast_to(t, v, to);
    if (is_less(greatest(to), to, greatest(from), from)) {
        integer above = binary(t, GREATER, v, literal(t, greatest(to), wide), wide);
        result = choice(t, above, literal(t, greatest(to), to), result, to);
    }
    if (is_less(least(from), from, least(to), to)) {
        integer below = binary(t, LESS, v, literal(t, least(to), wide), wide);
        result = choice(t, below, literal(t, least(to), to), result, to);
    }
    return result;
}

static value conversion_value(translator *t, const node *n, bool saturates) {
    operand given[1];
    evaluate_arguments(t, n, given, n->part_count - 1, 1);
    value v = given[0].value;
    if (!saturates) return converted_value(t, v, n->type);
    v = kept_value(t, v);
    integer_type to = core_type(n->type->kind == VECTOR_TYPE ? n->type->of : n->type);
    if (v.kind == INTEGER_VALUE) return integer_value(saturated_conversion(t, v.integer, to));
    integer *components = take(&t->pass, v.count * sizeof *components);
    for (unsigned i = 0; i < v.count; i++) components[i] = saturated_conversion(t, v.components[i], to);
    return vector_value(components, v.count);
}

// ---- vloadN, vstoreN (6.12.7): aligned as one component ----

static bool is_vector_access(const char *name, bool *loads, unsigned *count) {
    static const struct {
        const char *digits;
        unsigned count;
    } counts[] = {{"2", 2}, {"3", 3}, {"4", 4}, {"8", 8}, {"16", 16}};
    *loads = !strncmp(name, "vload", 5);
    if (!*loads && strncmp(name, "vstore", 6)) return false;
    for (size_t i = 0; i < sizeof counts / sizeof *counts; i++) {
        *count = counts[i].count;
        if (!strcmp(name + (*loads ? 5 : 6), counts[i].digits)) return true;
    }
    return false;
}

static value vector_access(translator *t, const node *n, bool loads, unsigned count) {
    operand given[3];
    unsigned at_pointer = loads ? 1 : 2;
    evaluate_arguments(t, n, given, n->part_count - 1, at_pointer + 1);
    const type *number = n->parts[1 + at_pointer]->type->of;
    integer_type type = core_type(number);
    pointer p = given[at_pointer].value.pointer;
    p.offset = plus_scaled(t, p.offset, given[at_pointer - 1].value.integer, (int64_t)(count * number->size));
    p = kept_pointer(t, p);
    if (!loads) {
        value v = kept_value(t, given[0].value);
        for (unsigned i = 0; i < count; i++)
            store(t, shifted(p, (int64_t)(i * number->size)), type, v.components[i], 0, &n->place);
        return (value){.kind = NO_VALUE};
    }
    integer *components = take(&t->pass, count * sizeof *components);
    for (unsigned i = 0; i < count; i++)
        components[i] = kept(t, load(t, shifted(p, (int64_t)(i * number->size)), type, 0, &n->place));
    return vector_value(components, count);
}

// ---- shuffle, shuffle2 (6.12.12): only the low bits of the mask count ----

static integer shuffled(translator *t, const integer *pool, unsigned count, integer mask, integer_type type) {
    if (mask.is_literal) return pool[mask.value % count];
    integer_type wide = promoted(type_of(&mask));
    integer index = kept(t, binary(t, BIT_AND, mask, literal(t, count - 1, wide), wide)), v = pool[count - 1];
    for (unsigned i = count - 1; i-- > 0;)
        v = choice(t, binary(t, EQUAL, index, literal(t, i, wide), wide), pool[i], v, type);
    return v;
}

static value shuffle_value(translator *t, const node *n, bool of_two) {
    operand given[3];
    evaluate_arguments(t, n, given, n->part_count - 1, of_two ? 3 : 2);
    unsigned each = given[0].value.count, count = of_two ? 2 * each : each;
    integer *pool = take(&t->pass, count * sizeof *pool), *components = take(&t->pass, 16 * sizeof *components);
    for (unsigned i = 0; i < 2u + of_two; i++) given[i].value = kept_value(t, given[i].value);
    for (unsigned i = 0; i < count; i++) pool[i] = given[i / each].value.components[i % each];
    const value *mask = &given[1 + of_two].value;
    for (unsigned i = 0; i < mask->count; i++)
        components[i] = shuffled(t, pool, count, mask->components[i], core_type(n->type->of));
    return vector_value(components, mask->count);
}

// ---- work-items, barriers, fences, printf ----

static bool is_of(const char *name, const char *const *names, size_t count) {
    for (size_t i = 0; i < count; i++)
        if (!strcmp(name, names[i])) return true;
    return false;
}
#define IS_OF(name, list) is_of(name, list, sizeof(list) / sizeof *(list))

static value work_item_value(translator *t, const node *n, const char *name) {
    if (n->part_count != 2) refuse_at(t, &n->place, "too few or too many arguments");
    integer v = exactly(t, evaluate_value(t, n->parts[1]).integer, UINT);
    const char *text = v.is_literal ? literal(t, v.value, INT).text : v.text;
    integer result = variable(format(t, "%s(%s)", name, text), ULONG, v.is_fixed);
    result.depth = (unsigned char)(v.depth + 1);
    result.has_effect = v.has_effect;
    return integer_value(result);
}

static value barrier_value(translator *t, const node *n) {
    operand given[1];
    evaluate_arguments(t, n, given, n->part_count - 1, 1);
    integer v = given[0].value.integer;
    if (!v.is_literal || v.value < 1 || v.value > 3)
        refuse_at(t, &n->place, "a barrier takes CLK_LOCAL_MEM_FENCE, CLK_GLOBAL_MEM_FENCE or both");
    static const char *const fences[] = {"CLK_LOCAL_MEM_FENCE", "CLK_GLOBAL_MEM_FENCE",
                                         "CLK_LOCAL_MEM_FENCE | CLK_GLOBAL_MEM_FENCE"};
    emit(t, "%sbarrier(%s);", mark_here(t, &n->place), fences[v.value - 1]);
    count_barrier(t);
    return (value){.kind = NO_VALUE};
}

// A call that is left out: what its arguments load is still loaded.
static value left_out(translator *t, const node *n, const char *note) {
    for (unsigned i = 1; i < n->part_count; i++) evaluate_effects(t, n->parts[i]);
    add_note(t, note);
    return n->type->kind == VOID_TYPE ? (value){.kind = NO_VALUE} : integer_value(literal(t, 0, INT));
}

value builtin_value(translator *t, const node *n, const char *name, bool is_used) {
    static const char *const work_items[] = {"get_global_id",   "get_local_id",   "get_group_id",  "get_global_offset",
                                             "get_global_size", "get_local_size", "get_num_groups"};
    static const char *const fences[] = {"mem_fence", "read_mem_fence", "write_mem_fence"};
    const char *operation;
    bool flag;
    unsigned count;
    value v;
    if (IS_OF(name, work_items)) return work_item_value(t, n, name);
    if (!strcmp(name, "get_work_dim")) return integer_value(variable("get_work_dim()", UINT, true));
    if (!strcmp(name, "barrier")) return barrier_value(t, n);
    if (IS_OF(name, fences)) return left_out(t, n, "fences order nothing between work-items, and are left out");
    if (!strcmp(name, "prefetch")) return left_out(t, n, "prefetch changes nothing, and is left out");
    if (!strcmp(name, "printf"))
        return printf_value(t, n, is_used, &v) ? v : left_out(t, n, "a printf writes nothing whose format isn't known, "
                                                                    "or isn't that of its arguments");
    if (is_atomic(name, &operation)) return atomic_value(t, n, operation, is_used);
    if (is_vector_access(name, &flag, &count)) return vector_access(t, n, flag, count);
    if (float_function_value(t, n, name, &v)) return v;
    if (is_conversion(name, &flag)) return conversion_value(t, n, flag);
    if (!strcmp(name, "async_work_group_copy")) return copy_value(t, n, false);
    if (!strcmp(name, "async_work_group_strided_copy")) return copy_value(t, n, true);
    if (!strcmp(name, "wait_group_events")) {
        wait_for_copies(t, n);
        return (value){.kind = NO_VALUE};
    }
    if (!strcmp(name, "shuffle") || !strcmp(name, "shuffle2")) return shuffle_value(t, n, name[7] == '2');
    if (!strcmp(name, "any") || !strcmp(name, "all")) return bits_value(t, n, name[1] == 'l');
    for (unsigned i = 0; i < sizeof functions / sizeof *functions; i++)
        if (!strcmp(name, functions[i].name)) return numeric_value(t, n, i);
    refuse_at(t, &n->place, "Clsim has no function %s", name);
}
