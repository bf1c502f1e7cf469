#define _GNU_SOURCE
#include "types.h"
#include <limits.h>
#include <stdio.h>
#include <string.h>

// A type with what only this file knows of it.
typedef struct own_type {
    type type; // the first member, so that a pointer to it is one to the whole
    struct own_type *next;
    uint64_t fixed_align; // that a typedef gives it, else 0
} own_type;

// What a name means: of a typedef, or of a struct, a union or an enumeration.
typedef struct meaning {
    struct meaning *next;
    const char *name; // NULL where it is known by its place alone
    bool is_tag;
    unsigned function; // where it was declared, 0 at program scope
    unsigned row, column;
    const type *type;
} meaning;

typedef struct known_text {
    struct known_text *next;
    const char *text;
    size_t length;
    const type *type;
} known_text;

enum { BUCKETS = 1024, MOST_NESTING = 64 };

struct types {
    arena *arena;
    own_type *all, **last; // in the order in which they were made: parts come first
    meaning *meanings[BUCKETS];
    known_text *texts[BUCKETS];
    unsigned function;
    bool has_local_names; // of that function
};

types *make_types(arena *a) {
    types *t = take(a, sizeof *t);
    t->arena = a;
    t->last = &t->all;
    return t;
}

static unsigned bucket_of(const char *s, size_t n) {
    uint64_t h = 1469598103934665603u;
    for (size_t i = 0; i < n; i++) h = (h ^ (unsigned char)s[i]) * 1099511628211u;
    return (unsigned)((h ^ h >> 32) % BUCKETS);
}

// ---- making types ----

static uint64_t fixed_align_of(const type *t) { return ((const own_type *)t)->fixed_align; }

// Sizes of what is made of other types. (A record may have become complete since the type of an element was made.)
static void settle(type *t) {
    if (t->kind == ARRAY_TYPE) settle((type *)t->of);
    if (t->kind == RECORD_TYPE && t->record) {
        bool is_laid_out = t->record->is_complete && !t->record->unknown_attribute;
        t->size = is_laid_out ? t->record->size : 0;
        t->align = is_laid_out ? t->record->align : 0;
    } else if (t->kind == ARRAY_TYPE) {
        bool fits = !__builtin_mul_overflow(t->of->size, t->length, &t->size);
        if (!fits) t->size = 0;
        t->align = t->of->align;
    }
    if (fixed_align_of(t)) t->align = fixed_align_of(t);
}

static type *make_type(types *t, type form) {
    own_type *made = take(t->arena, sizeof *made);
    made->type = form;
    *t->last = made;
    t->last = &made->next;
    settle(&made->type);
    return &made->type;
}

static type *copy_type(types *t, const type *of) {
    type *made = make_type(t, *of);
    ((own_type *)made)->fixed_align = fixed_align_of(of);
    settle(made);
    return made;
}

void settle_types(types *t) {
    for (own_type *o = t->all; o; o = o->next) settle(&o->type);
}

static type *make_number(types *t, type_kind kind, unsigned width, bool is_signed, const char *name) {
    return make_type(
        t, (type){.kind = kind, .width = width, .is_signed = is_signed, .size = width, .align = width, .name = name});
}

static char *name_with(types *t, const char *name, const char *behind) {
    text joined = {.arena = t->arena};
    addf(&joined, "%s%s", name ? name : "", behind);
    return joined.at;
}

static type *make_pointer(types *t, const type *of) {
    enum { POINTER_SIZE = 8 };
    return make_type(t, (type){.kind = POINTER_TYPE,
                               .of = of,
                               .size = POINTER_SIZE,
                               .align = POINTER_SIZE,
                               .name = name_with(t, of->name, " *")});
}

static type *make_array(types *t, const type *of, uint64_t length) {
    char behind[32];
    snprintf(behind, sizeof behind, "[%llu]", (unsigned long long)length);
    return make_type(t, (type){.kind = ARRAY_TYPE,
                               .of = of,
                               .length = length,
                               .space = of->space,
                               .is_const = of->is_const,
                               .is_volatile = of->is_volatile,
                               .name = name_with(t, of->name, behind)});
}

// A vector of 3 has the size of one of 4 (OpenCL 1.2, 6.1.5).
static type *make_vector(types *t, const type *of, uint64_t length) {
    bool is_number = of->kind == INTEGER_TYPE || of->kind == FLOATING_TYPE;
    bool is_known = length == 2 || length == 3 || length == 4 || length == 8 || length == 16;
    if (!is_number || !is_known) return NULL;
    char behind[32];
    snprintf(behind, sizeof behind, "%u", (unsigned)length);
    uint64_t size = of->width * (length == 3 ? 4 : length);
    return make_type(t, (type){.kind = VECTOR_TYPE,
                               .of = of,
                               .length = length,
                               .size = size,
                               .align = size,
                               .name = name_with(t, of->name, behind)});
}

static type *make_other(types *t, const char *name) { return make_type(t, (type){.kind = OTHER_TYPE, .name = name}); }

// ---- names ----

// Whether two types are the same but for their names. Types nest no deeper than their texts.
static bool is_same_type(const type *a, const type *b) {
    for (; a != b; a = a->of, b = b->of) {
        if (a->kind != b->kind || a->width != b->width || a->is_signed != b->is_signed || a->is_bool != b->is_bool ||
            a->is_const != b->is_const || a->is_volatile != b->is_volatile || a->is_restrict != b->is_restrict ||
            a->space != b->space || a->length != b->length || a->record != b->record ||
            fixed_align_of(a) != fixed_align_of(b))
            return false;
        if (a->kind == OTHER_TYPE || a->kind == FUNCTION_TYPE) return !strcmp(a->name, b->name);
        if (!a->of || !b->of) return a->of == b->of;
    }
    return true;
}

static void forget_texts(types *t) { memset(t->texts, 0, sizeof t->texts); }

static void add_meaning(types *t, meaning m) {
    unsigned bucket = bucket_of(m.name ? m.name : "", m.name ? strlen(m.name) : 0);
    for (const meaning *other = t->meanings[bucket]; other; other = other->next)
        if (other->name && m.name && !strcmp(other->name, m.name)) forget_texts(t);
    meaning *made = take(t->arena, sizeof *made);
    *made = m;
    made->next = t->meanings[bucket];
    made->function = t->function;
    t->has_local_names = t->has_local_names || t->function;
    t->meanings[bucket] = made;
}

// What a name means here. A name that is declared in another function can't be meant. NULL where there is no such name,
// or where it may mean several types.
static const type *meaning_of(types *t, const char *name, size_t length, bool is_tag) {
    const type *found = NULL;
    for (const meaning *m = t->meanings[bucket_of(name, length)]; m; m = m->next) {
        bool is_named = m->name && strlen(m->name) == length && !memcmp(m->name, name, length);
        if (!is_named || m->is_tag != is_tag || (m->function && m->function != t->function)) continue;
        if (found && !is_same_type(found, m->type)) return NULL;
        found = m->type;
    }
    return found;
}

static const type *type_at_place(types *t, unsigned row, unsigned column) {
    for (const meaning *m = t->meanings[bucket_of("", 0)]; m; m = m->next)
        if (!m->name && m->row == row && m->column == column) return m->type;
    return NULL;
}

void enter_scope(types *t, unsigned function) {
    if (t->has_local_names) forget_texts(t);
    t->has_local_names = false;
    t->function = function;
}

static const char *name_or_null(const char *name) { return name && *name ? name : NULL; }

record *declare_record(types *t, const char *name, bool is_union, unsigned row, unsigned column) {
    record *r = take(t->arena, sizeof *r);
    *r = (record){.name = name ? name : "", .is_union = is_union};
    const type *own = make_type(t, (type){.kind = RECORD_TYPE, .record = r, .name = r->name});
    add_meaning(t, (meaning){.name = name_or_null(name), .is_tag = true, .row = row, .column = column, .type = own});
    return r;
}

const type *type_of_record(types *t, record *of) {
    return make_type(t, (type){.kind = RECORD_TYPE, .record = of, .name = of->name});
}

const type *declare_enumeration(types *t, const enumeration_form *form) {
    const char *name = name_or_null(form->name);
    bool is_signed = form->least < 0;
    bool is_long = form->greatest > (is_signed ? INT32_MAX : UINT32_MAX) || form->least < INT32_MIN;
    const type *own = make_number(t, INTEGER_TYPE, is_long ? 8 : 4, is_signed, name ? name : "enum");
    if (form->unknown_attribute) own = make_other(t, form->unknown_attribute);
    add_meaning(t, (meaning){.name = name, .is_tag = true, .row = form->row, .column = form->column, .type = own});
    return own;
}

void declare_type_name(types *t, const char *name, const type *of, uint64_t align, const char *unknown_attribute) {
    type *own = unknown_attribute ? make_other(t, unknown_attribute) : copy_type(t, of);
    if (align) ((own_type *)own)->fixed_align = align;
    settle(own);
    if (!unknown_attribute) own->name = name;
    add_meaning(t, (meaning){.name = name, .type = own});
}

// ---- reading a text ----

typedef struct {
    types *types;
    char *at, *end;
    unsigned nesting;
} reading;

typedef struct {
    bool is_const, is_volatile, is_restrict, is_generic, has_space;
    address_space space;
} qualifiers;

static bool is_name_byte(char c) {
    return c == '_' || (c >= '0' && c <= '9') || (c >= 'a' && c <= 'z') || (c >= 'A' && c <= 'Z') || c == '$' ||
           (c & 0x80);
}

static void skip_spaces(reading *r) {
    while (r->at < r->end && *r->at == ' ') r->at++;
}

static size_t word_length(const reading *r) {
    size_t n = 0;
    while (r->at + n < r->end && is_name_byte(r->at[n])) n++;
    return n;
}

static bool is_word(const char *s, size_t n, const char *word) { return strlen(word) == n && !memcmp(s, word, n); }

static bool add_qualifier(qualifiers *q, const char *s, size_t n) {
    static const char *const spaces[] = {"__private", "__global", "__constant", "__local"};
    for (int i = 0; i < 4; i++)
        if (is_word(s, n, spaces[i])) {
            q->space = (address_space)i;
            q->has_space = true;
            return true;
        }
    bool *flag = is_word(s, n, "const")                                     ? &q->is_const
                 : is_word(s, n, "volatile")                                ? &q->is_volatile
                 : is_word(s, n, "restrict") || is_word(s, n, "__restrict") ? &q->is_restrict
                 : is_word(s, n, "__generic")                               ? &q->is_generic
                                                                            : NULL;
    if (flag) *flag = true;
    return flag;
}

static void read_qualifiers(reading *r, qualifiers *q) {
    for (skip_spaces(r); r->at < r->end; skip_spaces(r)) {
        size_t n = word_length(r);
        if (!n || !add_qualifier(q, r->at, n)) return;
        r->at += n;
    }
}

// A type with qualifiers; those of an array are of its elements. What points to any space at once can't be told.
static const type *qualified(types *t, const type *of, const qualifiers *q) {
    if (q->is_generic) return make_other(t, name_with(t, "__generic ", of->name ? of->name : ""));
    if (!q->is_const && !q->is_volatile && !q->is_restrict && !q->has_space) return of;
    type *made = copy_type(t, of);
    if (of->kind == ARRAY_TYPE) made->of = qualified(t, of->of, q);
    made->is_const |= q->is_const;
    made->is_volatile |= q->is_volatile;
    made->is_restrict |= q->is_restrict;
    if (q->has_space) made->space = q->space;
    return made;
}

// The closing bracket of the one at `at`. NULL where there is none.
static char *closing(char *at, const char *end) {
    unsigned open = 0;
    for (; at < end; at++) {
        open += *at == '(' || *at == '[';
        open -= *at == ')' || *at == ']';
        if (!open) return at;
    }
    return NULL;
}

// Takes the mark of a vector out of a text, where it isn't between brackets, and gives its length: 0 where there is
// none. It belongs to the type in front of all stars and brackets.
static uint64_t take_vector_mark(reading *r) {
    static const char mark[] = "__attribute__((ext_vector_type(";
    size_t n = sizeof mark - 1;
    for (char *s = r->at; s < r->end; s++) {
        if (*s == '(' || *s == '[') {
            s = closing(s, r->end);
            if (!s) return 0;
        } else if ((size_t)(r->end - s) > n && !memcmp(s, mark, n)) {
            uint64_t length = 0;
            char *behind = closing(s + strlen("__attribute__"), r->end);
            for (char *digit = s + n; *digit >= '0' && *digit <= '9' && length < 100; digit++)
                length = length * 10 + (unsigned)(*digit - '0');
            if (!behind) return 0;
            memset(s, ' ', (size_t)(behind + 1 - s));
            return length;
        }
    }
    return 0;
}

// ---- the words in front of stars and brackets ----

typedef struct {
    unsigned longs, ints; // how often `long` and `int` were met
    bool is_unsigned, is_signed, is_short, is_char;
    bool is_any;
} integer_words;

static bool add_integer_word(integer_words *w, const char *s, size_t n) {
    bool *flag = is_word(s, n, "unsigned") ? &w->is_unsigned
                 : is_word(s, n, "signed") ? &w->is_signed
                 : is_word(s, n, "short")  ? &w->is_short
                 : is_word(s, n, "char")   ? &w->is_char
                                           : NULL;
    unsigned *count = is_word(s, n, "long") ? &w->longs : is_word(s, n, "int") ? &w->ints : NULL;
    if (flag) *flag = true;
    if (count) ++*count;
    w->is_any = w->is_any || flag || count;
    return flag || count;
}

// Clang prints each in one way only. (`long long` is 8 bytes too.)
static const type *integer_of(types *t, const integer_words *w) {
    static const char *const names[][2] = {{"uchar", "char"}, {"ushort", "short"}, {"uint", "int"}, {"ulong", "long"}};
    bool is_clear = w->is_char + w->is_short + (w->longs > 0) <= 1 && w->longs <= 2 && w->ints <= 1;
    if (!is_clear || (w->is_char && w->ints)) return NULL;
    int step = w->is_char ? 0 : w->is_short ? 1 : w->longs ? 3 : 2;
    return make_number(t, INTEGER_TYPE, 1u << step, !w->is_unsigned, names[step][!w->is_unsigned]);
}

static const type *word_type(types *t, const char *s, size_t n) {
    enum { EVENT_SIZE = 8 };
    if (is_word(s, n, "void")) return make_type(t, (type){.kind = VOID_TYPE, .name = "void"});
    if (is_word(s, n, "half")) return make_number(t, FLOATING_TYPE, 2, true, "half");
    if (is_word(s, n, "float")) return make_number(t, FLOATING_TYPE, 4, true, "float");
    if (is_word(s, n, "double")) return make_number(t, FLOATING_TYPE, 8, true, "double");
    if (is_word(s, n, "bool") || is_word(s, n, "_Bool")) {
        type *made = make_number(t, INTEGER_TYPE, 1, false, "bool");
        made->is_bool = true;
        return made;
    }
    if (is_word(s, n, "event_t"))
        return make_type(t, (type){.kind = EVENT_TYPE, .size = EVENT_SIZE, .align = EVENT_SIZE, .name = "event_t"});
    return NULL;
}

// `(unnamed struct at <stdin>:4:25)` and its like: the record is known by its place.
static const type *unnamed_type(reading *r) {
    char *end = closing(r->at, r->end);
    static const char mark[] = " at <stdin>:";
    char *at = end ? memmem(r->at, (size_t)(end - r->at), mark, sizeof mark - 1) : NULL;
    unsigned row, column;
    int used = 0;
    if (!at || sscanf(at, " at <stdin>:%u:%u%n", &row, &column, &used) != 2 || at + used != end) return NULL;
    r->at = end + 1;
    return type_at_place(r->types, row, column);
}

// What stands behind `struct`, `union` or `enum`. A struct without a name may be called by that of its typedef.
static const type *tagged_type(reading *r) {
    skip_spaces(r);
    if (r->at < r->end && *r->at == '(') return unnamed_type(r);
    size_t n = word_length(r);
    const char *name = r->at;
    r->at += n;
    if (r->end - r->at > 2 && !memcmp(r->at, "::", 2)) { // declared in another struct: only its own name counts
        r->at += 2;
        if (r->at < r->end && *r->at == '(') return unnamed_type(r);
        name = r->at;
        n = word_length(r);
        r->at += n;
    }
    const type *found = meaning_of(r->types, name, n, true);
    return found ? found : meaning_of(r->types, name, n, false);
}

static const type *named_type(types *t, const char *s, size_t n) {
    const type *found = word_type(t, s, n);
    return found ? found : meaning_of(t, s, n, false);
}

static bool is_tag_word(const char *s, size_t n) {
    return is_word(s, n, "struct") || is_word(s, n, "union") || is_word(s, n, "enum");
}

// Reads words and qualifiers up to a star, a bracket or the end. NULL where they name no type that is known.
static const type *read_words(reading *r, qualifiers *q) {
    integer_words integer = {0};
    const type *found = NULL;
    unsigned named = 0;
    for (read_qualifiers(r, q); r->at < r->end && is_name_byte(*r->at); read_qualifiers(r, q)) {
        size_t n = word_length(r);
        const char *s = r->at;
        r->at += n;
        if (add_integer_word(&integer, s, n)) continue;
        named++;
        found = is_tag_word(s, n) ? tagged_type(r) : named_type(r->types, s, n);
        if (r->end - r->at > 2 && !memcmp(r->at, "::(", 3)) { // an unnamed one in what has that name
            r->at += 2;
            found = unnamed_type(r);
        }
    }
    if (integer.is_any) return named ? NULL : integer_of(r->types, &integer);
    return named == 1 ? found : NULL;
}

// ---- stars and brackets ----

static const type *read_declarator(reading *r, const type *base);

// `[3][4]`, from the first bracket on: the last one is the innermost array. They are read from the end.
static const type *read_lengths(reading *r, const type *base) {
    char *end = r->end;
    while (end > r->at && end[-1] == ' ') end--;
    while (base && end > r->at) {
        char *digit = end - 1;
        uint64_t length = 0, unit = 1;
        if (*digit != ']') return NULL;
        while (digit > r->at && digit[-1] >= '0' && digit[-1] <= '9' && unit < 1000000000000000000u) {
            length += unit * (unsigned)(*--digit - '0');
            unit *= 10;
        }
        if (digit == r->at || digit[-1] != '[') return NULL;
        base = make_array(r->types, base, length);
        end = digit - 1;
    }
    r->at = r->end;
    return base;
}

// What stands behind the stars: lengths, or the parameters of a function, which nobody asks for.
static const type *read_suffix(reading *r, const type *base) {
    skip_spaces(r);
    if (r->at == r->end) return base;
    if (*r->at == '[') return read_lengths(r, base);
    char *end = *r->at == '(' ? closing(r->at, r->end) : NULL;
    if (!end) return NULL;
    r->at = end + 1;
    skip_spaces(r);
    if (r->at < r->end) return NULL;
    return make_type(r->types,
                     (type){.kind = FUNCTION_TYPE, .of = base, .name = name_with(r->types, base->name, " ()")});
}

// `(__private *__private)[3]`: what stands in front of the star there is of what it points to.
static const type *read_nested(reading *r, const type *base) {
    char *end = closing(r->at, r->end);
    if (!end) return NULL;
    reading inner = {r->types, r->at + 1, end, r->nesting + 1}, outer = {r->types, end + 1, r->end, r->nesting + 1};
    qualifiers q = {0};
    read_qualifiers(&inner, &q);
    if (inner.at == inner.end || *inner.at != '*') { // the parameters of a function
        return read_suffix(r, base);
    }
    const type *of = read_suffix(&outer, base);
    if (!of) return NULL;
    r->at = r->end;
    return read_declarator(&inner, qualified(r->types, of, &q));
}

static const type *read_declarator(reading *r, const type *base) {
    if (r->nesting > MOST_NESTING) return NULL;
    for (skip_spaces(r); r->at < r->end && *r->at == '*'; skip_spaces(r)) {
        qualifiers q = {0};
        r->at++;
        read_qualifiers(r, &q);
        base = qualified(r->types, make_pointer(r->types, base), &q);
    }
    return r->at < r->end && *r->at == '(' ? read_nested(r, base) : read_suffix(r, base);
}

// The type that a text means, NULL where it can't be told.
static const type *read_text(types *t, const char *s, size_t n) {
    char *copy = copy_text(t->arena, s, n);
    reading r = {t, copy, copy + n, 0};
    qualifiers q = {0};
    uint64_t length = take_vector_mark(&r);
    const type *base = read_words(&r, &q);
    if (base && length) base = make_vector(t, base, length);
    if (!base) return NULL;
    return read_declarator(&r, qualified(t, base, &q));
}

static const type *read_again(types *t, const char *written, size_t written_length, const char *plain,
                              size_t plain_length) {
    const char *name = copy_text(t->arena, written, written_length);
    const type *found = read_text(t, written, written_length);
    if (!found && plain) found = read_text(t, plain, plain_length);
    if (!found) return make_other(t, name);
    type *own = copy_type(t, found);
    if (own->kind != OTHER_TYPE) own->name = name; // (that of any other one says what isn't known)
    return own;
}

const type *type_of_text(types *t, const char *written, size_t written_length, const char *plain, size_t plain_length) {
    // (both texts stand in one line, the plain one behind the other)
    size_t length = plain ? (size_t)(plain + plain_length - written) : written_length;
    unsigned bucket = bucket_of(written, length);
    for (const known_text *k = t->texts[bucket]; k; k = k->next)
        if (k->length == length && !memcmp(k->text, written, length)) return k->type;
    known_text *made = take(t->arena, sizeof *made);
    *made = (known_text){t->texts[bucket], copy_text(t->arena, written, length), length,
                         read_again(t, written, written_length, plain, plain_length)};
    t->texts[bucket] = made;
    return made->type;
}

// ---- layouts ----

static uint64_t rounded_up(uint64_t n, uint64_t unit) { return unit ? (n + unit - 1) / unit * unit : n; }

// The alignment of a field: that of its type, 1 where it is packed, no less than `aligned` asks for, no more than
// `#pragma pack` allows.
static uint64_t align_of_field(const record_form *form, const field_form *f) {
    uint64_t align = form->is_packed || f->is_packed ? 1 : f->field.type->align;
    if (align < f->aligned) align = f->aligned;
    if (form->most_align && align > form->most_align) align = form->most_align;
    return align ? align : 1;
}

static bool has_layout(const type *t) {
    return t->kind == ARRAY_TYPE    ? t->align > 0
           : t->kind == RECORD_TYPE ? t->record->is_complete && !t->record->unknown_attribute
                                    : t->size > 0;
}

// Where the members that are laid out so far end: behind so many bytes, the last one of which has free bits.
typedef struct {
    uint64_t bytes;
    unsigned free;
} layout_end;

static layout_end place_field(const record_form *form, const field_form *given, field *f, layout_end end) {
    f->align = align_of_field(form, given);
    f->offset = rounded_up(end.bytes, f->align);
    return (layout_end){f->offset + f->type->size, 0};
}

// What a bit-field is aligned to, in bits: 1 where it is packed. One of no bits aligns what follows it, packed or not.
static uint64_t align_of_bits(const record_form *form, const field_form *f) {
    bool is_packed = f->field.bits && (form->is_packed || f->is_packed);
    uint64_t own = f->field.type->align > f->aligned ? f->field.type->align : f->aligned;
    uint64_t align = is_packed ? f->aligned : own, most = f->field.bits ? form->most_align : 0;
    if (most && (is_packed || align > most)) align = own < most ? own : most;
    return align ? 8 * align : 1;
}

// A bit-field begins behind the one in front of it, unless it would leave the unit of its type there (System V ABI,
// "Bit-Fields", with what `packed`, `aligned` and `#pragma pack` do to it in clang and gcc). One without a name leaves
// the alignment of the record.
static layout_end place_bits(const record_form *form, const field_form *given, field *f, layout_end end) {
    uint64_t align = align_of_bits(form, given), bit = 8 * end.bytes - end.free, aligned = 8 * given->aligned;
    bool leaves_unit = !form->most_align && bit % align + f->bits > 8 * f->type->size;
    bool is_aligned = aligned && (!form->most_align || given->aligned <= form->most_align);
    if (!f->bits || leaves_unit) bit = rounded_up(bit, align);
    else if (is_aligned) bit = rounded_up(bit, aligned);
    f->align = *f->name && align >= 8 ? align / 8 : 1;
    f->bit = bit;
    f->offset = bit / 8;
    uint64_t last = bit + f->bits, bytes = rounded_up(last, 8) / 8;
    return (layout_end){bytes, (unsigned)(8 * bytes - last)};
}

// The bit-fields of a record from one to another as a row.
static void make_row(types *t, record *r, unsigned first, unsigned end) {
    bit_row *row = take(t->arena, sizeof *row);
    const field *last = &r->fields[end - 1];
    uint64_t begin = r->fields[first].offset, behind = rounded_up(last->bit + last->bits, 8) / 8;
    *row = (bit_row){&r->fields[first], end - first, begin, behind - begin, 8};
    while (row->offset % row->width || row->size % row->width || r->align % row->width) row->width /= 2;
    for (unsigned i = first; i < end; i++) {
        field *f = &r->fields[i];
        f->offset = begin;
        f->bit -= 8 * begin;
        f->row = row;
    }
}

static bool has_bits(const field *f) { return f->is_bit_field && f->bits; }

static void make_rows(types *t, record *r) {
    for (unsigned i = 0, end; i < r->field_count; i = end) {
        end = i + 1;
        if (!has_bits(&r->fields[i])) continue;
        while (!r->is_union && end < r->field_count && has_bits(&r->fields[end])) end++;
        make_row(t, r, i, end);
    }
}

void lay_out(types *t, record *r, const record_form *form) {
    r->fields = take(t->arena, (form->count + 1) * sizeof *r->fields);
    r->field_count = form->count;
    r->unknown_attribute = form->unknown_attribute;
    r->align = 1;
    layout_end end = {0, 0};
    uint64_t greatest = 0;
    for (unsigned i = 0; i < form->count; i++) {
        field *f = &r->fields[i];
        *f = form->fields[i].field;
        settle((type *)f->type);
        if (!has_layout(f->type) && !r->unknown_attribute) r->unknown_attribute = f->type->name;
        if (r->is_union) end = (layout_end){0, 0};
        end = (f->is_bit_field ? place_bits : place_field)(form, &form->fields[i], f, end);
        if (end.bytes > greatest) greatest = end.bytes;
        if (r->align < f->align) r->align = f->align;
    }
    if (r->align < form->aligned) r->align = form->aligned;
    r->size = rounded_up(greatest, r->align);
    make_rows(t, r);
    r->is_complete = true;
}
