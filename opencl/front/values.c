// Integers as expressions of Clsim's language. clang writes every conversion of C as a node of its own; here one is
// pending until its value is used, and left out where the language does the same itself.
#include "../session.h"
#include "front.h"
#include <inttypes.h>
#include <string.h>

enum { UNARY = 90, PRIMARY = 100, CHOICE = 30 };

// How an operator of two operands binds and is written.
static const struct {
    unsigned char precedence;
    const char *text;
    bool is_comparison;
} operators[] = {[ADD] = {75, "+", false},           [SUBTRACT] = {75, "-", false},
                 [MULTIPLY] = {80, "*", false},      [DIVIDE] = {80, "/", false},
                 [REMAINDER] = {80, "%", false},     [SHIFT_LEFT] = {70, "<<", false},
                 [SHIFT_RIGHT] = {70, ">>", false},  [BIT_AND] = {55, "&", false},
                 [BIT_OR] = {45, "|", false},        [BIT_XOR] = {50, "^", false},
                 [LESS] = {65, "<", true},           [GREATER] = {65, ">", true},
                 [LESS_OR_EQUAL] = {65, "<=", true}, [GREATER_OR_EQUAL] = {65, ">=", true},
                 [EQUAL] = {60, "==", true},         [NOT_EQUAL] = {60, "!=", true},
                 [LOGICAL_AND] = {40, "&&", false},  [LOGICAL_OR] = {35, "||", false}};

// ---- literals and variables ----

static const char *literal_text(translator *t, uint64_t value, integer_type type) {
    int64_t n = (int64_t)value;
    switch (type) {
    case UINT: return format(t, "%" PRIu64 "u", value);
    case LONG: return n == INT64_MIN ? "(-9223372036854775807l-1l)" : format(t, "%" PRId64 "l", n);
    case ULONG: return format(t, "%" PRIu64 "ul", value);
    default: return n == INT32_MIN ? "(-2147483647-1)" : format(t, "%" PRId64, n);
    }
}

integer literal(translator *t, uint64_t value, integer_type type) {
    value = converted(value, type);
    integer v = {.text = literal_text(t, value, type),
                 .type = promoted(type),
                 .pending = type < INT ? type : NO_INTEGER,
                 .precedence = PRIMARY,
                 .depth = 2,
                 .is_fixed = true,
                 .is_literal = true,
                 .value = value};
    if (*v.text == '-') v.precedence = UNARY;
    return v;
}

integer variable(const char *name, integer_type type, bool is_fixed) {
    return (integer){
        .text = name, .type = type, .pending = NO_INTEGER, .precedence = PRIMARY, .depth = 1, .is_fixed = is_fixed};
}

integer unknown(translator *t, integer_type type) {
    integer v = literal(t, 0, type);
    t->is_incomplete = true;
    v.is_literal = false;
    return v;
}

// A text that is nested too deep is put into a variable.
static integer limited(translator *t, integer v) {
    if (v.depth <= MAX_TEXT_DEPTH) return v;
    v.is_fixed = false;
    return kept(t, v);
}

// ---- conversions ----

integer_type type_of(const integer *v) { return v->pending == NO_INTEGER ? v->type : v->pending; }

bool is_narrowing(const integer *v) { return v->pending != NO_INTEGER && width_of(v->pending) < width_of(v->type); }

// Whether a conversion has to be written in front of an operator, whatever its other operand is.
static bool must_be_written(const integer *v) {
    return is_narrowing(v) || (v->pending != NO_INTEGER && v->pending < INT && !v->is_literal && v->pending != v->type);
}

const char *bracketed(translator *t, const integer *v, unsigned precedence) {
    return v->precedence >= precedence ? v->text : format(t, "(%s)", v->text);
}

integer forced(translator *t, integer v) {
    if (v.pending == NO_INTEGER) return v;
    if (v.depth > MAX_TEXT_DEPTH) return limited(t, v);
    v.text = format(t, "(%s)%s", name_of(v.pending), bracketed(t, &v, UNARY));
    v.type = v.pending;
    v.pending = NO_INTEGER;
    v.precedence = UNARY;
    v.depth = (unsigned char)(v.depth + 2);
    return v;
}

integer cast_to(translator *t, integer v, integer_type type) {
    if (v.is_literal) return literal(t, v.value, type);
    if (type_of(&v) == type) return v;
    if (v.pending != NO_INTEGER && width_of(v.pending) < width_of(type)) v = forced(t, v);
    v.pending = v.type == type ? NO_INTEGER : type;
    return v;
}

integer exactly(translator *t, integer v, integer_type type) { return forced(t, cast_to(t, v, type)); }

const char *assigned(translator *t, integer v, integer_type type) { return cast_to(t, v, type).text; }

// ---- keeping values ----

integer kept(translator *t, integer v) {
    if (v.is_fixed) return v;
    const char *name = temporary_name(t);
    integer_type type = type_of(&v);
    emit(t, "%s %s=%s;", name_of(type), name, v.text);
    if (v.depth == 1 && v.pending == NO_INTEGER && !v.has_effect) {
        t->out.last->copy = name;
        t->out.last->copied = v.text;
    }
    return variable(name, type, true);
}

pointer kept_pointer(translator *t, pointer p) {
    term *terms = take(&t->pass, p.offset.count * sizeof *terms + 1);
    if (p.selector) {
        integer *selector = take(&t->pass, sizeof *selector);
        *selector = kept(t, *p.selector);
        p.selector = selector;
    }
    for (unsigned i = 0; i < p.offset.count; i++)
        terms[i] = (term){p.offset.terms[i].scale, kept(t, p.offset.terms[i].factor)};
    p.offset.terms = terms;
    return p;
}

storage kept_storage(translator *t, storage s) {
    s.at = kept_pointer(t, s.at);
    return s;
}

value kept_value(translator *t, value v) {
    switch (v.kind) {
    case NO_VALUE: break;
    case INTEGER_VALUE: v.integer = kept(t, v.integer); break;
    case VECTOR_VALUE: {
        integer *components = take(&t->pass, v.count * sizeof *components);
        for (unsigned i = 0; i < v.count; i++) components[i] = kept(t, v.components[i]);
        v.components = components;
        break;
    }
    case POINTER_VALUE: v.pointer = kept_pointer(t, v.pointer); break;
    case RECORD_VALUE:
    case STORAGE_VALUE: v.storage = kept_storage(t, v.storage); break;
    }
    return v;
}

static bool is_fixed_pointer(const pointer *p) {
    bool fixed = !p->selector || p->selector->is_fixed;
    for (unsigned i = 0; fixed && i < p->offset.count; i++) fixed = p->offset.terms[i].factor.is_fixed;
    return fixed;
}

static bool is_fixed_value(const value *v) {
    bool fixed = true;
    switch (v->kind) {
    case NO_VALUE: return true;
    case INTEGER_VALUE: return v->integer.is_fixed;
    case VECTOR_VALUE:
        for (unsigned i = 0; fixed && i < v->count; i++) fixed = v->components[i].is_fixed;
        return fixed;
    case POINTER_VALUE: return is_fixed_pointer(&v->pointer);
    default: return is_fixed_pointer(&v->storage.at);
    }
}

value integer_value(integer v) { return (value){.kind = INTEGER_VALUE, .integer = v}; }
value vector_value(const integer *components, unsigned count) {
    return (value){.kind = VECTOR_VALUE, .count = count, .components = components};
}
value pointer_value(pointer p) { return (value){.kind = POINTER_VALUE, .pointer = p}; }
value record_value(storage s) { return (value){.kind = RECORD_VALUE, .storage = s}; }

// ---- order ----

static void evaluate_one(translator *t, operand *o) {
    if (o->kind == AS_VALUE) {
        o->value = evaluate_value(t, o->node);
        return;
    }
    storage s = evaluate_storage(t, o->node);
    if (o->kind == AS_STORAGE) {
        o->value = (value){.kind = STORAGE_VALUE, .storage = s};
        return;
    }
    o->storage = kept_storage(t, s);
    o->value = get(t, o->storage, &o->node->place);
}

static bool is_named_in(list l, const char *name) {
    for (const statement *s = l.first; s; s = s->next)
        if ((s->text && has_name(s->text, name)) || (s->end && has_name(s->end, name)) || is_named_in(s->first, name) ||
            is_named_in(s->second, name))
            return true;
    return false;
}

// Whether a value is a variable that statements don't have, so that they can't change it.
static bool is_left_alone(const value *v, list behind) {
    if (v->kind != INTEGER_VALUE || v->integer.has_effect || v->integer.depth > 1) return false;
    return !is_named_in(behind, v->integer.text);
}

// What was evaluated in front of an operand that needs statements is kept in variables in front of these.
void evaluate(translator *t, operand *operands, unsigned count) {
    for (unsigned i = 0; i < count; i++) {
        statement *last = t->out.last;
        evaluate_one(t, &operands[i]);
        if (t->out.last == last) continue;
        list behind = cut_behind(t, last);
        for (unsigned j = 0; j < i; j++)
            if (!is_fixed_value(&operands[j].value) && !is_left_alone(&operands[j].value, behind))
                operands[j].value = kept_value(t, operands[j].value);
        append_list(&t->out, behind);
    }
}

// ---- operators ----

// What an operator gives for two literals; false where it would fault.
static bool fold(operation op, uint64_t a, uint64_t b, integer_type type, uint64_t *result) {
    bool is_signed_type = is_signed(type);
    int64_t x = (int64_t)a, y = (int64_t)b;
    unsigned bits = 8 * width_of(type);
    switch (op) {
    case ADD: *result = a + b; return true;
    case SUBTRACT: *result = a - b; return true;
    case MULTIPLY: *result = a * b; return true;
    case DIVIDE:
    case REMAINDER:
        if (!b || (is_signed_type && y == -1 && a == least(type))) return false;
        if (is_signed_type) *result = (uint64_t)(op == DIVIDE ? x / y : x % y);
        else *result = op == DIVIDE ? a / b : a % b;
        return true;
    case SHIFT_LEFT: *result = a << b % bits; return true;
    case SHIFT_RIGHT: *result = is_signed_type ? (uint64_t)(x >> b % bits) : a >> b % bits; return true;
    case BIT_AND: *result = a & b; return true;
    case BIT_OR: *result = a | b; return true;
    case BIT_XOR: *result = a ^ b; return true;
    case LESS: *result = is_signed_type ? x < y : a < b; return true;
    case GREATER: *result = is_signed_type ? x > y : a > b; return true;
    case LESS_OR_EQUAL: *result = is_signed_type ? x <= y : a <= b; return true;
    case GREATER_OR_EQUAL: *result = is_signed_type ? x >= y : a >= b; return true;
    case EQUAL: *result = a == b; return true;
    case NOT_EQUAL: *result = a != b; return true;
    default: return false;
    }
}

static bool is_minus(const char *text) { return *text == '-'; }

// The text of an operator, both of whose operands are as they have to be.
static integer operator_text(translator *t, operation op, integer a, integer b, integer_type type,
                             integer_type result) {
    unsigned precedence = operators[op].precedence, depth = (a.depth > b.depth ? a.depth : b.depth) + 2u;
    bool divides = op == DIVIDE || op == REMAINDER;
    bool may_fault = divides && !(b.is_literal && b.value && b.value != ~UINT64_C(0));
    const char *left = bracketed(t, &a, precedence), *right = bracketed(t, &b, precedence + 1);
    integer v = {
        .text = format(t, "%s%s%s%s", left, operators[op].text, op == SUBTRACT && is_minus(right) ? " " : "", right),
        .type = result,
        .pending = result == type || operators[op].is_comparison ? NO_INTEGER : type,
        .precedence = (unsigned char)precedence,
        .depth = (unsigned char)depth,
        .is_fixed = a.is_fixed && b.is_fixed && !may_fault,
        .has_effect = a.has_effect || b.has_effect || may_fault};
    return limited(t, v);
}

// A shift takes its count modulo the width of its left operand, which may be narrower than what the language shifts
// (a component of a vector, OpenCL 1.2, 6.3.j).
static integer shift(translator *t, operation op, integer a, integer b, integer_type type) {
    uint64_t mask = 8 * width_of(type) - 1, folded;
    a = cast_to(t, a, type);
    if (a.is_literal && b.is_literal && fold(op, a.value, b.value & mask, type, &folded))
        return literal(t, folded, type);
    if (b.is_literal) b = literal(t, b.value & mask, INT);
    if (b.is_literal && !b.value) return a;
    if (promoted(a.type) != type || (a.pending != NO_INTEGER && a.pending < INT)) a = forced(t, a);
    if (promoted(a.type) != type && !b.is_literal)
        b = binary(t, BIT_AND, b, literal(t, mask, promoted(type_of(&b))), promoted(type_of(&b)));
    if (is_narrowing(&b)) b = forced(t, b);
    return operator_text(t, op, a, b, type, promoted(a.type));
}

// An operator one of whose literals changes nothing. False where there is none.
static bool is_trivial(operation op, const integer *a, const integer *b, integer *result) {
    bool zero = b->is_literal && !b->value, one = b->is_literal && b->value == 1;
    if ((zero && (op == ADD || op == SUBTRACT || op == BIT_OR || op == BIT_XOR)) || (one && op == MULTIPLY))
        *result = *a;
    else if (op == ADD && a->is_literal && !a->value) *result = *b;
    else return false;
    return true;
}

// Writes what the language's own conversions don't do to the operands of an operator in a type.
static void convert_operands(translator *t, integer *a, integer *b, integer_type type) {
    integer_type wanted = promoted(type);
    if (must_be_written(a)) *a = forced(t, *a);
    if (must_be_written(b)) *b = forced(t, *b);
    if (common(a->type, b->type) != wanted) *a = forced(t, *a);
    if (common(a->type, b->type) != wanted) *b = forced(t, *b);
}

// A literal of 64 bits beside an operand of that very type may be an int, which a work-item puts into a register in less.
static integer short_literal(translator *t, integer v, const integer *other, integer_type type) {
    bool is_long = v.is_literal && !other->is_literal && width_of(type) == 8 && v.type == type && other->type == type;
    return is_long && v.value <= greatest(INT) ? literal(t, v.value, INT) : v;
}

integer binary(translator *t, operation op, integer a, integer b, integer_type type) {
    bool compares = operators[op].is_comparison;
    uint64_t folded;
    integer same;
    if (op == SHIFT_LEFT || op == SHIFT_RIGHT) return shift(t, op, a, b, type);
    a = cast_to(t, a, type);
    b = cast_to(t, b, type);
    if (a.is_literal && b.is_literal && fold(op, a.value, b.value, type, &folded))
        return literal(t, folded, compares ? INT : type);
    if (is_trivial(op, &a, &b, &same)) return same;
    convert_operands(t, &a, &b, type);
    a = short_literal(t, a, &b, type);
    b = short_literal(t, b, &a, type);
    return operator_text(t, op, a, b, type, compares ? INT : promoted(type));
}

integer unary(translator *t, operation op, integer a, integer_type type) {
    if (op != LOGICAL_NOT) a = cast_to(t, a, type);
    if (op == PLUS) return a;
    if (a.is_literal && op == LOGICAL_NOT) return literal(t, !a.value, INT);
    if (a.is_literal) return literal(t, op == MINUS ? 0 - a.value : ~a.value, type);
    if (is_narrowing(&a)) a = forced(t, a);
    if (op != LOGICAL_NOT && a.pending != NO_INTEGER && promoted(a.type) != type) a = forced(t, a);
    const char *operand = bracketed(t, &a, UNARY);
    integer_type result = op == LOGICAL_NOT ? INT : promoted(a.type);
    integer v = {.text = format(t, "%s%s%s",
                                op == MINUS        ? "-"
                                : op == COMPLEMENT ? "~"
                                                   : "!",
                                op == MINUS && is_minus(operand) ? " " : "", operand),
                 .type = result,
                 .pending = op == LOGICAL_NOT || result == type ? NO_INTEGER : type,
                 .precedence = UNARY,
                 .depth = (unsigned char)(a.depth + 1),
                 .is_fixed = a.is_fixed,
                 .has_effect = a.has_effect};
    return limited(t, v);
}

// A choice without a branch, for `clsim widen`, of values that may both be worked out: b, with the bits changed in which
// a differs, or with none.
static integer masked_choice(translator *t, integer condition, integer a, integer b, integer_type type) {
    integer_type wide = promoted(type);
    integer mask = cast_to(t, unary(t, MINUS, is_not_zero(t, condition), INT), wide);
    b = kept(t, cast_to(t, b, type));
    integer other = binary(t, BIT_AND, binary(t, BIT_XOR, a, b, wide), mask, wide);
    return cast_to(t, binary(t, BIT_XOR, b, other, wide), type);
}

integer choice(translator *t, integer condition, integer a, integer b, integer_type type) {
    integer_type wanted = promoted(type);
    if (condition.is_literal) return cast_to(t, condition.value ? a : b, type);
    if (widens() && !a.has_effect && !b.has_effect) return masked_choice(t, condition, a, b, type);
    a = cast_to(t, a, type);
    b = cast_to(t, b, type);
    if (is_narrowing(&a)) a = forced(t, a);
    if (is_narrowing(&b)) b = forced(t, b);
    if (common(a.type, b.type) != wanted) a = forced(t, a);
    if (common(a.type, b.type) != wanted) b = forced(t, b);
    if (is_narrowing(&condition)) condition = forced(t, condition);
    unsigned depth = condition.depth;
    if (a.depth > depth) depth = a.depth;
    if (b.depth > depth) depth = b.depth;
    integer v = {.text = format(t, "%s?%s:%s", bracketed(t, &condition, CHOICE + 1), bracketed(t, &a, CHOICE),
                                bracketed(t, &b, CHOICE)),
                 .type = common(a.type, b.type),
                 .pending = wanted == type ? NO_INTEGER : type,
                 .precedence = CHOICE,
                 .depth = (unsigned char)(depth + 2),
                 .is_fixed = condition.is_fixed && a.is_fixed && b.is_fixed,
                 .has_effect = condition.has_effect || a.has_effect || b.has_effect};
    return limited(t, v);
}

integer call_of(translator *t, const char *name, const integer *arguments, unsigned count, integer_type result) {
    text all = {.arena = &t->pass};
    integer v = {.type = result, .pending = NO_INTEGER, .precedence = PRIMARY, .depth = 1, .is_fixed = true};
    addf(&all, "%s(", name);
    for (unsigned i = 0; i < count; i++) {
        integer a = forced(t, arguments[i]);
        addf(&all, "%s%s", i ? "," : "", a.text);
        v.is_fixed = v.is_fixed && a.is_fixed;
        v.has_effect = v.has_effect || a.has_effect;
        if (a.depth > v.depth) v.depth = a.depth;
    }
    add(&all, ")");
    v.text = all.at;
    v.depth = (unsigned char)(v.depth + 1);
    return limited(t, v);
}

integer joined_conditions(translator *t, operation op, integer a, integer b) {
    if (widens() && !b.has_effect)
        return binary(t, op == LOGICAL_AND ? BIT_AND : BIT_OR, is_not_zero(t, a), is_not_zero(t, b), INT);
    integer v = operator_text(t, op, a, b, INT, INT);
    v.pending = NO_INTEGER;
    return v;
}

integer is_not_zero(translator *t, integer v) {
    return binary(t, NOT_EQUAL, v, literal(t, 0, type_of(&v)), type_of(&v));
}
