// Lists of statements of the judged text.
#include "front.h"
#include <stdlib.h>
#include <string.h>

statement *new_statement(translator *t, statement_kind kind, const char *text, const place *at) {
    statement *s = take(&t->pass, sizeof *s);
    *s = (statement){.kind = kind, .text = text, .at = at, .calls = calls_here(t)};
    return s;
}

void append_list(list *to, list more) {
    if (!more.first) return;
    if (to->last) to->last->next = more.first;
    else to->first = more.first;
    to->last = more.last;
}

void append(translator *t, statement *s) { append_list(&t->out, (list){s, s}); }

void emit(translator *t, const char *format, ...) {
    va_list values;
    va_start(values, format);
    const char *text = format_values(t, format, values);
    va_end(values);
    append(t, new_statement(t, TEXT, text, t->at));
}

list one_text(translator *t, const char *text, const place *at) {
    statement *s = new_statement(t, TEXT, text, at);
    return (list){s, s};
}

statement *new_branch(translator *t, const char *condition, list first, list second, const place *at) {
    statement *s = new_statement(t, BRANCH, condition, at);
    s->first = first;
    s->second = second;
    return s;
}

statement *new_loop(translator *t, const char *head, list body, const char *end, const place *at) {
    statement *s = new_statement(t, LOOP, head, at);
    s->first = body;
    s->end = end;
    return s;
}

list begin_list(translator *t) {
    list before = t->out;
    t->out = (list){NULL, NULL};
    return before;
}

list end_list(translator *t, list before) {
    list written = t->out;
    t->out = before;
    return written;
}

list cut_behind(translator *t, statement *last) {
    list behind = {last ? last->next : t->out.first, t->out.last};
    if (!behind.first) return (list){NULL, NULL};
    if (last) last->next = NULL;
    else t->out.first = NULL;
    t->out.last = last;
    return behind;
}

// ---- turns ----

static const turn_before *with_loop(translator *t, const turn_before *more, unsigned loop) {
    for (const turn_before *b = more; b; b = b->more)
        if (b->loop == loop) return more;
    turn_before *b = take(t->result, sizeof *b);
    *b = (turn_before){more, loop};
    return b;
}

// The accesses in a text.
static void set_marks_before(translator *t, const char *s, unsigned loop) {
    while (s && (s = strchr(s, '\1'))) {
        mark *m = &t->marks[strtoul(s + 1, NULL, 10)];
        m->before = with_loop(t, m->before, loop);
        s++;
    }
}

// Statements are nested at most as deep as those of the source, calls counted, which is bounded.
void set_turn_before(translator *t, list l, unsigned loop) {
    for (statement *s = l.first; s; s = s->next) {
        s->before = with_loop(t, s->before, loop);
        set_marks_before(t, s->text, loop);
        set_marks_before(t, s->end, loop);
        set_turn_before(t, s->first, loop);
        set_turn_before(t, s->second, loop);
    }
}
