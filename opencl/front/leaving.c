// Leaving: `return` in a function that is translated in place, and `break` of a switch, written without jumps. Behind
// an `if` that always leaves, the rest stands in its `else`. Behind one that may leave, the rest stands in an `if` of
// its own. A loop is left by `break`, and behind it the rest is done where the label isn't left.
#include "front.h"

typedef enum { NEVER, SOMETIMES, ALWAYS } how_often;

// What stands behind a statement, and how often that leaves.
typedef struct {
    list rest;
    how_often leaves;
} tail;

static how_often take_out(translator *t, list *l, label *label, bool in_loop);

static void prepend(tail *behind, statement *s) {
    list whole = {s, s};
    s->next = NULL;
    append_list(&whole, behind->rest);
    behind->rest = whole;
}

static how_often or_later(how_often later) { return later == ALWAYS ? ALWAYS : SOMETIMES; }

// A statement that leaves here: what stands behind it is never done.
static void leave_here(tail *behind, statement *s) {
    s->kind = FLAG;
    s->next = NULL;
    *behind = (tail){{s, s}, ALWAYS};
}

// The rest is done only where the label isn't left.
static void guard(translator *t, tail *behind, label *label, const place *at) {
    if (!behind->rest.first) return;
    label->is_tested = true;
    statement *s = new_branch(t, label->is_not_left, behind->rest, (list){NULL, NULL}, at);
    behind->rest = (list){s, s};
}

static void take_out_of_branch(translator *t, tail *behind, statement *s, label *label, bool in_loop) {
    how_often first = take_out(t, &s->first, label, in_loop), second = take_out(t, &s->second, label, in_loop);
    if (first == NEVER && second == NEVER) {
        prepend(behind, s);
        return;
    }
    how_often later = or_later(behind->leaves);
    if (first == ALWAYS && second == ALWAYS) {
        behind->rest = (list){NULL, NULL};
        later = ALWAYS;
    } else if (!in_loop && first == ALWAYS && second == NEVER) {
        append_list(&s->second, behind->rest);
        behind->rest = (list){NULL, NULL};
    } else if (!in_loop && second == ALWAYS && first == NEVER) {
        append_list(&s->first, behind->rest);
        behind->rest = (list){NULL, NULL};
    } else if (!in_loop) guard(t, behind, label, s->at);
    behind->leaves = later;
    prepend(behind, s);
}

static void take_out_of_loop(translator *t, tail *behind, statement *s, label *label, bool in_loop) {
    if (take_out(t, &s->first, label, true) == NEVER) {
        prepend(behind, s);
        return;
    }
    label->is_tested = true;
    if (in_loop)
        prepend(behind, new_branch(t, label->is_left, one_text(t, "break;", s->at), (list){NULL, NULL}, s->at));
    else guard(t, behind, label, s->at);
    behind->leaves = or_later(behind->leaves);
    prepend(behind, s);
}

// The statements of a list, the last one first, each with what stands behind it.
static how_often take_out(translator *t, list *l, label *label, bool in_loop) {
    unsigned count = 0;
    for (statement *s = l->first; s; s = s->next) count++;
    statement **all = take(&t->pass, (count + 1) * sizeof *all);
    count = 0;
    for (statement *s = l->first; s; s = s->next) all[count++] = s;
    tail behind = {{NULL, NULL}, NEVER};
    while (count-- > 0) {
        statement *s = all[count];
        if (s->kind == BRANCH) take_out_of_branch(t, &behind, s, label, in_loop);
        else if (s->kind == LOOP) take_out_of_loop(t, &behind, s, label, in_loop);
        else if (s->kind == LEAVING && s->label == label) {
            leave_here(&behind, s);
            if (in_loop) append_list(&behind.rest, one_text(t, "break;", s->at));
        } else prepend(&behind, s);
    }
    *l = behind.rest;
    return behind.leaves;
}

void take_out_leaving(translator *t, list *l, label *label) { take_out(t, l, label, false); }
