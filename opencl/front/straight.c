// Helpers without branches. `clsim widen` tells for which bytes a verdict holds by what decides: a test, `?:`, `&&`, a
// division that may fail. So here both parts of each `if` are done, and what a part sets counts where its mask is -1,
// not where it is 0. The masks of parts in one another are joined. A `return` in a part ends nothing: the first one
// whose mask is -1 gives the result. What happens in a part that isn't taken has no meaning, and no fault: helpers
// access nothing, shifts take their counts modulo the width, and whole_quotient is defined for a divisor 0.
#include "straight.h"
#include <stdarg.h>
#include <stdio.h>
#include <stdlib.h>
#include <string.h>

enum { MOST_VARIABLES = 64, MOST_DEPTH = 16 };

typedef struct {
    const char *at;
    size_t length;
} token;

typedef struct {
    token name;
    integer_type type;
    unsigned depth; // how many parts of tests it is declared in
} own_variable;

typedef struct {
    arena *arena;
    text *to;
    const char *at; // what is read
    integer_type result;
    bool returns_early;
    own_variable variables[MOST_VARIABLES];
    unsigned count;
    const char *masks[MOST_DEPTH + 1]; // of the parts that are open; the first one stands for none
    unsigned depth, made;              // made: variables that are added
} straightening;

// An expression.
typedef struct {
    const char *text;
    integer_type type;
    bool is_truth; // it is 0 or 1
    bool is_literal, is_call;
} piece;

static const char *format_into(arena *a, const char *format, ...) __attribute__((format(printf, 2, 3)));
static const char *format_into(arena *a, const char *format, ...) {
    va_list values;
    va_start(values, format);
    int n = vsnprintf(NULL, 0, format, values);
    va_end(values);
    char *room = take(a, (size_t)n + 1);
    va_start(values, format);
    vsnprintf(room, (size_t)n + 1, format, values);
    va_end(values);
    return room;
}
#define FORMAT(...) format_into(s->arena, __VA_ARGS__)

// ---- words ----

static bool is_word_byte(char c) {
    return (c >= 'a' && c <= 'z') || (c >= 'A' && c <= 'Z') || (c >= '0' && c <= '9') || c == '_';
}

static token next(const straightening *s) {
    static const char *const longer[] = {"<<=", ">>=", "&&", "||", "==", "!=", "<=", ">=", "<<", ">>",
                                         "+=",  "-=",  "*=", "/=", "%=", "&=", "|=", "^="};
    token t = {s->at + strspn(s->at, " \n"), 0};
    while (is_word_byte(t.at[t.length])) t.length++;
    for (size_t i = 0; !t.length && i < sizeof longer / sizeof *longer; i++)
        if (!strncmp(t.at, longer[i], strlen(longer[i]))) t.length = strlen(longer[i]);
    t.length += !t.length && *t.at;
    return t;
}

static bool is(token t, const char *word) { return t.length == strlen(word) && !memcmp(t.at, word, t.length); }

static token taken(straightening *s) {
    token t = next(s);
    s->at = t.at + t.length;
    return t;
}

static bool takes_word(straightening *s, const char *word) {
    token t = next(s);
    if (!is(t, word)) return false;
    s->at = t.at + t.length;
    return true;
}

static integer_type type_of_word(token t) {
    for (integer_type i = CHAR; i <= ULONG; i++)
        if (is(t, name_of(i))) return i;
    return NO_INTEGER;
}

static const own_variable *variable_named(const straightening *s, token name) {
    for (unsigned i = s->count; i-- > 0;) {
        const own_variable *v = &s->variables[i];
        if (v->name.length == name.length && !memcmp(v->name.at, name.at, name.length)) return v;
    }
    return NULL;
}

static void note_variable(straightening *s, token name, integer_type type) {
    if (s->count < MOST_VARIABLES) s->variables[s->count++] = (own_variable){name, type, s->depth};
}

// A variable of its own for a value: its name.
static const char *made_variable(straightening *s, integer_type type, const char *value) {
    const char *name = FORMAT("V%u_", ++s->made);
    addf(s->to, "%s %s=%s;\n", name_of(type), name, value);
    return name;
}

// ---- expressions ----

static piece expression(straightening *s);

static unsigned precedence_of(token t) {
    static const struct {
        const char *word;
        unsigned precedence;
    } rows[] = {{"||", 1}, {"&&", 2}, {"|", 3}, {"^", 4}, {"&", 5},  {"==", 6}, {"!=", 6}, {"<", 7}, {">", 7},
                {"<=", 7}, {">=", 7}, {"<<", 8}, {">>", 8}, {"+", 9}, {"-", 9}, {"*", 10}, {"/", 10}, {"%", 10}};
    for (size_t i = 0; i < sizeof rows / sizeof *rows; i++)
        if (is(t, rows[i].word)) return rows[i].precedence;
    return 0;
}

static piece literal_piece(straightening *s, token t) {
    char *end;
    strtoull(t.at, &end, 0);
    bool is_unsigned = *end == 'u', is_long = end[is_unsigned] == 'l';
    integer_type type = is_long ? is_unsigned ? ULONG : LONG : is_unsigned ? UINT : INT;
    return (piece){FORMAT("%.*s", (int)t.length, t.at), type, false, true, false};
}

// A call of a helper, or of min, max, clz or abs, behind its bracket.
static piece call_piece(straightening *s, token name) {
    text all = {.arena = s->arena};
    int number = helper_named(FORMAT("%.*s", (int)name.length, name.at));
    integer_type type = INT;
    addf(&all, "%.*s(", (int)name.length, name.at);
    for (bool is_first = true; !takes_word(s, ")"); is_first = false) {
        if (!is_first) takes_word(s, ",");
        piece one = expression(s);
        if (is_first) type = one.type;
        addf(&all, "%s%s", is_first ? "" : ",", one.text);
    }
    add(&all, ")");
    if (number != NO_HELPER) type = helper_at((unsigned)number)->result;
    else if (is(name, "abs")) type = unsigned_of(type);
    return (piece){all.at, type, false, false, number != NO_HELPER};
}

static piece unary_piece(straightening *s) {
    token t = taken(s);
    if (is(t, "(")) {
        integer_type type = type_of_word(next(s));
        if (type != NO_INTEGER) {
            taken(s);
            takes_word(s, ")");
            return (piece){FORMAT("(%s)%s", name_of(type), unary_piece(s).text), type, false, false, false};
        }
        piece inner = expression(s);
        takes_word(s, ")");
        inner.text = FORMAT("(%s)", inner.text);
        return inner;
    }
    if (is(t, "-") || is(t, "~") || is(t, "!")) {
        piece inner = unary_piece(s);
        bool is_not = *t.at == '!';
        return (piece){FORMAT("%c%s%s", *t.at, *inner.text == *t.at ? " " : "", inner.text),
                       is_not ? INT : promoted(inner.type), is_not, false, false};
    }
    if (*t.at >= '0' && *t.at <= '9') return literal_piece(s, t);
    if (takes_word(s, "(")) return call_piece(s, t);
    const own_variable *v = variable_named(s, t);
    return (piece){FORMAT("%.*s", (int)t.length, t.at), v ? v->type : INT, false, false, false};
}

static const char *truth_of(straightening *s, piece p) { return FORMAT(p.is_truth ? "(%s)" : "((%s)!=0)", p.text); }

static piece joined(straightening *s, token op, piece a, piece b) {
    unsigned precedence = precedence_of(op);
    if (precedence <= 2)
        return (piece){FORMAT("(%s%c%s)", truth_of(s, a), *op.at, truth_of(s, b)), INT, true, false, false};
    if (is(op, "/") && !b.is_literal) {
        const char *call = FORMAT("whole_quotient(%s,%s)", a.text, b.text);
        return (piece){made_variable(s, ULONG, call), ULONG, false, false, false};
    }
    bool compares = precedence == 6 || precedence == 7;
    integer_type type = compares ? INT : precedence == 8 ? promoted(a.type) : common(a.type, b.type);
    const char *between = *op.at == '-' && *b.text == '-' ? " " : "";
    return (piece){FORMAT("%s%.*s%s%s", a.text, (int)op.length, op.at, between, b.text), type, compares, false, false};
}

static piece binary_piece(straightening *s, unsigned least) {
    piece left = unary_piece(s);
    for (unsigned precedence; (precedence = precedence_of(next(s))) >= least && precedence;) {
        token op = taken(s);
        left = joined(s, op, left, binary_piece(s, precedence + 1));
    }
    return left;
}

// `c ? a : b` is b with the bits in which a differs from it, where c is 1.
static piece expression(straightening *s) {
    piece c = binary_piece(s, 1);
    if (!takes_word(s, "?")) return c;
    piece a = expression(s);
    takes_word(s, ":");
    piece b = expression(s);
    integer_type type = common(a.type, b.type);
    const char *mask = FORMAT("(%s)-%s", name_of(type), truth_of(s, c));
    bool is_zero = b.is_literal && !strtoull(b.text, NULL, 0);
    const char *chosen = is_zero ? FORMAT("((%s)&%s)", a.text, mask)
                                 : FORMAT("((%s)^(((%s)^(%s))&%s))", b.text, a.text, b.text, mask);
    return (piece){chosen, type, false, false, false};
}

// ---- statements ----

static void statement(straightening *s);

// The value of an expression as one that may stand in another one: a call gets a variable.
static const char *whole_value(straightening *s, piece p) {
    return p.is_call ? made_variable(s, p.type, p.text) : p.text;
}

static void put_declaration(straightening *s, integer_type type) {
    token name = taken(s);
    takes_word(s, "=");
    piece v = expression(s);
    note_variable(s, name, type);
    addf(s->to, "%s %.*s=%s;\n", name_of(type), (int)name.length, name.at, v.text);
}

// An operator that leaves its left operand with the operand 0 takes one that the mask makes 0.
static void put_masked(straightening *s, const own_variable *v, token op, piece value) {
    const char *name = FORMAT("%.*s", (int)v->name.length, v->name.at), *type = name_of(v->type);
    const char *mask = s->masks[s->depth], *of = whole_value(s, value);
    if (is(op, "+=") || is(op, "-=") || is(op, "|=") || is(op, "^=") || is(op, "<<=") || is(op, ">>=")) {
        addf(s->to, "%s%.*s(%s)(%s)&(%s)%s;\n", name, (int)op.length, op.at, type, of, type, mask);
        return;
    }
    if (is(op, "&=")) {
        addf(s->to, "%s&=(%s)(%s)|(%s)~%s;\n", name, type, of, type, mask);
        return;
    }
    if (op.length > 1) of = FORMAT("%s%.*s(%s)", name, (int)op.length - 1, op.at, of);
    addf(s->to, "%s^=(%s^(%s)(%s))&(%s)%s;\n", name, name, type, of, type, mask);
}

static void put_assignment(straightening *s, token name) {
    token op = taken(s);
    piece value = expression(s);
    const own_variable *v = variable_named(s, name);
    if (v && v->depth < s->depth) put_masked(s, v, op, value);
    else addf(s->to, "%.*s%.*s%s;\n", (int)name.length, name.at, (int)op.length, op.at, value.text);
}

static void put_return(straightening *s) {
    piece value = expression(s);
    const char *type = name_of(s->result), *of = whole_value(s, value), *mask = s->masks[s->depth];
    if (!s->returns_early) addf(s->to, "return %s;\n", of);
    else if (!s->depth) addf(s->to, "return RESULT_|((%s)(%s)&(%s)GOES_ON_);\n", type, of, type);
    else {
        addf(s->to, "RESULT_|=(%s)(%s)&(%s)(GOES_ON_&%s);\n", type, of, type, mask);
        addf(s->to, "GOES_ON_&=~%s;\n", mask);
    }
}

// A part of a test, where its mask is -1.
static void put_part_of_test(straightening *s, const char *mask) {
    s->masks[++s->depth] = mask;
    add(s->to, "{\n");
    unsigned count = s->count;
    statement(s);
    s->count = count;
    add(s->to, "}\n");
    s->depth--;
}

static void put_test(straightening *s) {
    takes_word(s, "(");
    piece condition = expression(s);
    takes_word(s, ")");
    const char *outer = s->masks[s->depth], *truth = truth_of(s, condition);
    const char *mask = made_variable(s, INT, s->depth ? FORMAT("%s&-%s", outer, truth) : FORMAT("-%s", truth));
    put_part_of_test(s, mask);
    if (!takes_word(s, "else")) return;
    put_part_of_test(s, made_variable(s, INT, s->depth ? FORMAT("%s&~%s", outer, mask) : FORMAT("~%s", mask)));
}

static void put_block(straightening *s) {
    unsigned count = s->count;
    add(s->to, "{\n");
    while (!takes_word(s, "}")) statement(s);
    add(s->to, "}\n");
    s->count = count;
}

static void statement(straightening *s) {
    token first = taken(s);
    integer_type type = type_of_word(first);
    if (is(first, "{")) put_block(s);
    else if (is(first, "if")) put_test(s);
    else {
        if (is(first, "return")) put_return(s);
        else if (type != NO_INTEGER) put_declaration(s, type);
        else put_assignment(s, first);
        takes_word(s, ";");
    }
}

// ---- helpers ----

static bool has_word(const char *text, const char *word) {
    size_t n = strlen(word);
    for (const char *at = text; (at = strstr(at, word)); at += n)
        if ((at == text || !is_word_byte(at[-1])) && !is_word_byte(at[n])) return true;
    return false;
}

static unsigned returns_in(const char *text) {
    unsigned count = 0;
    for (const char *at = text; (at = strstr(at, "return ")); at++) count++;
    return count;
}

const bool *find_straight(arena *a) {
    bool *are = take(a, helper_count() * sizeof *are);
    for (unsigned i = 0; i < helper_count(); i++) {
        const helper *h = helper_at(i);
        are[i] = !has_word(h->text, "for") && !has_word(h->text, "while");
        for (const char *at = h->calls; *at;) {
            size_t n = strcspn(at, " ");
            int called = helper_named(copy_text(a, at, n));
            are[i] = are[i] && (called == NO_HELPER || are[called]);
            at += n + strspn(at + n, " ");
        }
    }
    return are;
}

bool divides_straight(const helper *h) { return strchr(h->text, '/') != NULL; }

void add_straight(arena *a, text *to, const helper *h) {
    straightening *s = take(a, sizeof *s);
    *s = (straightening){.arena = a, .to = to, .at = h->text, .result = h->result};
    s->returns_early = returns_in(h->text) > 1;
    taken(s);
    addf(to, "%s %s(", name_of(h->result), h->name);
    taken(s);
    takes_word(s, "(");
    for (bool is_first = true; !takes_word(s, ")"); is_first = false) {
        if (!is_first) takes_word(s, ",");
        integer_type type = type_of_word(taken(s));
        token name = taken(s);
        note_variable(s, name, type);
        addf(to, "%s%s %.*s", is_first ? "" : ",", name_of(type), (int)name.length, name.at);
    }
    add(to, "){\n");
    takes_word(s, "{");
    if (s->returns_early) addf(to, "%s RESULT_=0;\nint GOES_ON_=-1;\n", name_of(h->result));
    bool is_returned = false;
    while (!takes_word(s, "}")) {
        is_returned = is(next(s), "return");
        statement(s);
    }
    add(to, is_returned ? "}\n" : "return RESULT_;\n}\n");
}
