// printf (OpenCL 1.2, 6.12.13). Each work-item has a part of one buffer of words, which the driver reads behind a clean
// launch: a call writes its number, how many barriers the work-item has passed, and its arguments, bit by bit. The
// driver makes text of them. The first word of a part is 1 where a call's words found no room in it.
#include "front.h"
#include <string.h>

#define ITEM \
    "(get_global_id(0)-get_global_offset(0)+get_global_size(0)*(get_global_id(1)-get_global_offset(1)+" \
    "get_global_size(1)*(get_global_id(2)-get_global_offset(2))))"

list begin_of_printing(translator *t, const place *at) {
    static const char *const lines[] = {"ulong clsim_print_at=" ITEM "*clsim_print_words+1ul;",
                                        "ulong clsim_print_end=clsim_print_at-1ul+clsim_print_words;",
                                        "uint clsim_barriers=0u;"};
    list all = {NULL, NULL};
    for (unsigned i = 0; i < sizeof lines / sizeof *lines; i++) append_list(&all, one_text(t, lines[i], at));
    return all;
}

void count_barrier(translator *t) {
    if (t->prints) emit(t, "clsim_barriers+=1u;");
}

// ---- what a call prints ----

static const node *without_casts(const node *n) {
    while (n->kind == CAST_EXPRESSION) n = n->parts[0];
    return n;
}

// The text that an expression is; NULL where that isn't known here.
static const node *text_of(const node *n) {
    n = without_casts(n);
    const node *d = n->kind == NAME_EXPRESSION ? n->declaration : NULL;
    if (d && d->kind == VARIABLE_DECLARATION && d->type->space == CONSTANT_SPACE && d->part_count)
        n = without_casts(d->parts[0]);
    if (n->kind == INITIALIZER_LIST && n->part_count == 1) n = without_casts(n->parts[0]);
    return n->kind == STRING_LITERAL ? n : NULL;
}

static bool is_text(const node *n) {
    n = without_casts(n);
    return n->kind == CONDITIONAL_EXPRESSION && n->part_count == 3 ? text_of(n->parts[1]) && text_of(n->parts[2])
                                                                   : text_of(n) != NULL;
}

// An argument without the promotion to double that C asks for: all its bits are in the float.
static const node *unpromoted(const node *n) {
    bool is_promoted = n->kind == CAST_EXPRESSION && n->cast == FLOATING_CAST && n->type->kind == FLOATING_TYPE;
    return is_promoted && n->parts[0]->type->kind == FLOATING_TYPE && n->parts[0]->type->width == 4 ? n->parts[0] : n;
}

// An argument by its type. False where nothing prints it.
static bool read_argument(const node *n, printed_argument *a) {
    const type *type = n->type, *number = type->kind == VECTOR_TYPE ? type->of : type;
    *a = (printed_argument){.width = number->width, .count = 1, .is_signed = number->is_signed};
    if (type->kind == VECTOR_TYPE) a->count = (unsigned)type->length;
    if (number->kind == FLOATING_TYPE) a->kind = PRINTED_FLOAT;
    else if (number->kind == INTEGER_TYPE) a->kind = PRINTED_WHOLE;
    else if (is_text(n)) a->kind = PRINTED_TEXT;
    else return false;
    return a->kind != PRINTED_FLOAT || a->width == 4 || a->width == 8;
}

// The arguments of a call, each by its conversion. False where a conversion isn't one of its argument. (An argument
// behind the last conversion is evaluated, and printed nowhere.)
static bool read_call(translator *t, const node *n, printed_call *c) {
    const node *text = n->part_count > 1 ? text_of(n->parts[1]) : NULL;
    format_part part;
    format_part_kind kind;
    if (!text) return false;
    *c = (printed_call){.format = copy_text(t->result, (const char *)text->bytes, text->byte_count)};
    c->length = strlen(c->format);
    c->arguments = take(t->result, n->part_count * sizeof *c->arguments);
    c->texts = take(t->result, 2 * n->part_count * sizeof *c->texts);
    for (const char *at = c->format; (kind = next_part(&at, c->format + c->length, &part)) != END_OF_FORMAT;) {
        printed_argument *a = &c->arguments[c->argument_count];
        if (kind == PLAIN_PART) continue;
        if (kind == UNKNOWN_PART || c->argument_count + 2 >= n->part_count) return false;
        if (!read_argument(unpromoted(n->parts[2 + c->argument_count++]), a) || !takes(&part, a)) return false;
    }
    return true;
}

// ---- the words ----

typedef struct {
    text stores;
    unsigned count;
} words;

static void add_word(words *w, const char *value) {
    addf(&w->stores, "clsim_print[clsim_print_at+%uul]=%s;", w->count++, value);
}

static void add_number(translator *t, words *w, integer v, unsigned width) {
    add_word(w, exactly(t, v, UINT).text);
    if (width < 8) return;
    integer upper = binary(t, SHIFT_RIGHT, cast_to(t, v, ULONG), literal(t, 32, INT), ULONG);
    add_word(w, exactly(t, upper, UINT).text);
}

static integer text_number(translator *t, printed_call *c, const node *n) {
    const node *text = text_of(n);
    c->texts[c->text_count] = copy_text(t->result, (const char *)text->bytes, text->byte_count);
    return literal(t, c->text_count++, UINT);
}

static value argument_value(translator *t, printed_call *c, const node *n, const printed_argument *a) {
    if (a->kind != PRINTED_TEXT) return kept_value(t, evaluate_value(t, unpromoted(n)));
    n = without_casts(n);
    if (n->kind != CONDITIONAL_EXPRESSION) return integer_value(text_number(t, c, n));
    integer test = kept(t, condition(t, n->parts[0])), first = text_number(t, c, n->parts[1]);
    return integer_value(kept(t, choice(t, test, first, text_number(t, c, n->parts[2]), UINT)));
}

static unsigned add_call(translator *t, printed_call c) {
    learn_fact(t, &t->prints);
    t->printed = grown(&t->pass, t->printed, t->printed_count, &t->printed_room, sizeof *t->printed);
    t->printed[t->printed_count] = c;
    return ++t->printed_count;
}

bool printf_value(translator *t, const node *n, bool is_used, value *result) {
    printed_call c;
    words w = {.stores = {.arena = &t->pass}};
    if (!read_call(t, n, &c)) return false;
    value *given = take(&t->pass, n->part_count * sizeof *given);
    for (unsigned i = 0; i < c.argument_count; i++) given[i] = argument_value(t, &c, n->parts[2 + i], &c.arguments[i]);
    for (unsigned i = 2 + c.argument_count; i < n->part_count; i++) evaluate_effects(t, n->parts[i]);
    t->at = &n->place;
    add_word(&w, literal(t, add_call(t, c), UINT).text);
    add_word(&w, "clsim_barriers");
    for (unsigned i = 0; i < c.argument_count; i++)
        for (unsigned j = 0; j < (given[i].kind == VECTOR_VALUE ? given[i].count : 1); j++)
            add_number(t, &w, given[i].kind == VECTOR_VALUE ? given[i].components[j] : given[i].integer,
                       c.arguments[i].kind == PRINTED_TEXT ? 4 : c.arguments[i].width);
    const char *fits = temporary_name(t);
    emit(t, "int %s=clsim_print_end-clsim_print_at>=%uul;", fits, w.count);
    addf(&w.stores, "clsim_print_at+=%uul;", w.count);
    list first = one_text(t, w.stores.at, &n->place);
    list second = one_text(t, "clsim_print[clsim_print_end-clsim_print_words]=1u;", &n->place);
    append(t, new_branch(t, fits, first, second, &n->place));
    *result = integer_value(literal(t, 0, INT));
    if (is_used)
        *result = integer_value(choice(t, variable(fits, INT, true), literal(t, 0, INT), literal(t, -1, INT), INT));
    return true;
}
