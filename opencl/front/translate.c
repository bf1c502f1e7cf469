// The whole of a translation: its memory, its end, its messages.
#include "front.h"
#include <stdio.h>
#include <stdlib.h>
#include <string.h>

const char *format_values(translator *t, const char *format, va_list values) {
    char room[256];
    va_list again;
    va_copy(again, values);
    int n = vsnprintf(room, sizeof room, format, values);
    if (n < 0) longjmp(t->pass.failed, 1);
    char *s = take(&t->pass, (size_t)n + 1);
    if (n < (int)sizeof room) memcpy(s, room, (size_t)n);
    else vsnprintf(s, (size_t)n + 1, format, again);
    va_end(again);
    return s;
}

const char *format(translator *t, const char *format, ...) {
    va_list values;
    va_start(values, format);
    const char *s = format_values(t, format, values);
    va_end(values);
    return s;
}

void refuse_at(translator *t, const place *at, const char *format, ...) {
    va_list values;
    if (t->open) leave_functions(t);
    va_start(values, format);
    const char *message = format_values(t, format, values);
    va_end(values);
    t->wrong = (refusal){*at, copy_text(t->result, message, strlen(message))};
    longjmp(t->stop, 1);
}

void judge_attributes(translator *t, const node *n) {
    bool is_function = n->kind == FUNCTION_DECLARATION;
    for (const attribute *a = n->attributes; a; a = a->next)
        if (a->kind == UNKNOWN_ATTRIBUTE)
            refuse_at(t, a->place.line ? &a->place : &n->place, "Clsim doesn't know the attribute %s", a->name);
    for (unsigned i = 0; is_function && i < n->part_count; i++) judge_attributes(t, n->parts[i]);
}

void add_note(translator *t, const char *text) {
    note **end = &t->notes;
    for (; *end; end = &(*end)->next)
        if (!strcmp((*end)->text, text)) return;
    *end = take(t->result, sizeof **end);
    (*end)->text = copy_text(t->result, text, strlen(text));
}

void *grown(arena *a, void *list, unsigned count, unsigned *room, size_t size) {
    if (count < *room) return list;
    unsigned wanted = count < 4 ? 8 : 2 * count;
    void *more = take(a, wanted * size);
    if (count) memcpy(more, list, count * size);
    *room = wanted;
    return more;
}

void go_deeper(translator *t, const place *at) {
    if (++t->depth > MAX_DEPTH) refuse_at(t, at, "this is nested more than %d deep, calls counted", MAX_DEPTH);
}

// ---- what is known of the whole tree ----

typedef struct {
    const node *node;
    bool is_read; // it stands where its value is read
} visit;

// Finds the declarations that are used otherwise than to read their values.
static void find_modified(translator *t) {
    unsigned count = 0, room = 0;
    visit *stack = NULL;
    for (unsigned i = t->tree->declaration_count; i-- > 0;) {
        stack = grown(&t->kernel, stack, count, &room, sizeof *stack);
        stack[count++] = (visit){t->tree->declarations[i], false};
    }
    while (count) {
        visit v = stack[--count];
        const node *n = v.node;
        if (n->kind == NAME_EXPRESSION && n->declaration && !v.is_read) t->is_modified[n->declaration->number] = true;
        bool reads = n->kind == CAST_EXPRESSION && n->cast == LVALUE_TO_RVALUE;
        for (unsigned i = 0; i <= n->part_count; i++) {
            const node *part = i < n->part_count ? n->parts[i] : n->kind == FUNCTION_DECLARATION ? n->body : NULL;
            if (!part) continue;
            stack = grown(&t->kernel, stack, count, &room, sizeof *stack);
            stack[count++] = (visit){part, reads};
        }
    }
}

// ---- the whole ----

static void write_notes(translator *t) {
    text all = {.arena = t->result};
    add(&all, "");
    for (const note *n = t->notes; n; n = n->next) addf(&all, "%s\n", n->text);
    t->to->notes = all.at;
}

static void translate_all(translator *t) {
    judged_source *to = t->to;
    text whole = {.arena = t->result};
    unsigned kernels = 0;
    find_modified(t);
    to->kernels = take(t->result, (t->tree->declaration_count + 1) * sizeof *to->kernels);
    for (unsigned i = 0; i < t->tree->declaration_count; i++) {
        const node *n = t->tree->declarations[i];
        bool is_kernel = false;
        for (const attribute *a = n->attributes; a; a = a->next) is_kernel = is_kernel || a->kind == KERNEL_ATTRIBUTE;
        if (n->kind != FUNCTION_DECLARATION || !n->body || !is_kernel || (t->only && n != t->only)) continue;
        translate_kernel(t, n, &to->kernels[kernels++], &whole);
        free_arena(&t->kernel);
    }
    to->kernel_count = kernels;
    to->text = whole.at ? whole.at : copy_text(t->result, "", 0);
    to->length = whole.length;
    write_notes(t);
}

// Where memory is refused, or something is, the parts of the arena that are the translator's own go.
static bool run(translator *t) {
    if (setjmp(t->stop)) return false;
    translate_all(t);
    return true;
}

static void end(translator *t) {
    free_arena(&t->kernel);
    free_arena(&t->pass);
}

// Translates with what `to` has of tables already. Where memory is refused, nothing of the translator's own stays.
static bool translate_with(arena *a, const translator *begin, refusal *wrong) {
    translator *t = take(a, sizeof *t);
    *t = *begin;
    t->result = a;
    t->is_modified = take(a, t->tree->node_count * sizeof *t->is_modified + 1);
    t->return_count = take(a, t->tree->node_count * sizeof *t->return_count + 1);
    jmp_buf *outer = take(a, sizeof *outer);
    memcpy(outer, &a->failed, sizeof *outer);
    if (setjmp(a->failed)) {
        end(t);
        memcpy(&a->failed, outer, sizeof *outer);
        longjmp(a->failed, 1);
    }
    memcpy(&t->kernel.failed, &a->failed, sizeof a->failed);
    memcpy(&t->pass.failed, &a->failed, sizeof a->failed);
    bool done = run(t);
    if (!done) *wrong = t->wrong;
    end(t);
    memcpy(&a->failed, outer, sizeof *outer);
    return done;
}

bool translate(arena *a, const tree *tree, judged_source *to, refusal *wrong) {
    translator *begin = take(a, sizeof *begin);
    *begin = (translator){.tree = tree, .to = to};
    *to = (judged_source){.table_numbers = take(a, tree->node_count * sizeof *to->table_numbers + 1)};
    return translate_with(a, begin, wrong);
}

bool translate_held(arena *a, const tree *tree, const node *kernel, const unsigned char *held, judged_source *to,
                    refusal *wrong) {
    translator *begin = take(a, sizeof *begin);
    *begin = (translator){.tree = tree, .to = to, .only = kernel, .held = held};
    *to = (judged_source){.tables = to->tables,
                          .table_count = to->table_count,
                          .table_numbers = to->table_numbers,
                          .table_room = to->table_room};
    if (!to->table_numbers) to->table_numbers = take(a, tree->node_count * sizeof *to->table_numbers + 1);
    return translate_with(a, begin, wrong);
}
