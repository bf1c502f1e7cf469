#include "widening.h"
#include "json.h"
#include <stdio.h>
#include <stdlib.h>
#include <string.h>

enum { MOST_LAUNCHES = 64 };

// A source by which a launch was made. The program may go in front of the context.
struct kept_source {
    struct kept_source *next; // of the context
    const prepared *at;
    prepared own; // where the program is gone
};

// A launch. Its kernel and its arguments may be others then.
struct noted_launch {
    struct noted_launch *next;
    unsigned number; // in the context
    const kept_source *source;
    const kernel_form *form;
    const char *verdict;
    unsigned *buffers; // the number of the buffer that each argument was, 0 for none
};

// ---- notes ----

// What is told of a launch by its reply.
static const char *verdict_of(const char *reply) {
    return !strcmp(reply, "clean") ? "clean" : !strcmp(reply, "ordered") ? "ordered" : "the same fault";
}

static kept_source *source_of(cl_kernel k) {
    cl_context c = k->context;
    prepared *p = k->source;
    if (p->kept) return p->kept;
    kept_source *s = calloc(1, sizeof *s);
    if (!s) return NULL;
    s->at = p;
    s->next = c->sources;
    c->sources = s;
    return p->kept = s;
}

void note_launch(cl_kernel k, const char *reply) {
    cl_context c = k->context;
    const kernel_form *form = k->form;
    if (!widens()) return;
    noted_launch *l = calloc(1, sizeof *l);
    unsigned *buffers = calloc(form->count + 1, sizeof *buffers);
    const kept_source *s = l && buffers ? source_of(k) : NULL;
    if (!s) {
        free(l);
        free(buffers);
        c->lost_launches = true;
        return;
    }
    for (unsigned i = 0; i < form->count; i++)
        if (k->arguments[i].memory) buffers[i] = given_number(k, i, k->arguments[i].memory);
    *l = (noted_launch){NULL, c->launches, s, form, verdict_of(reply), buffers};
    *c->noted_end = l;
    c->noted_end = &l->next;
}

void leave_source(prepared *p) {
    kept_source *s = p->kept;
    if (!s) {
        free_prepared(p);
        return;
    }
    s->own = *p;
    s->at = &s->own;
    memset(p, 0, sizeof *p);
}

static void let_notes_go(cl_context c) {
    while (c->noted) {
        noted_launch *l = c->noted;
        c->noted = l->next;
        free(l->buffers);
        free(l);
    }
    while (c->sources) {
        kept_source *s = c->sources;
        c->sources = s->next;
        if (s->at == &s->own) free_prepared(&s->own);
        free(s);
    }
}

// ---- what is told ----

static bool number_of(json of, const char *name, unsigned long *n) { return json_number(json_member(of, name), n); }

// Tells the client's arguments that a buffer of the script was, each with words in front and behind.
static void tell_buffer(const noted_launch *l, json name, const char *before, const char *behind) {
    char word[32];
    if (!json_word(name, word, sizeof word) || *word != 'b') return;
    unsigned long number = strtoul(word + 1, NULL, 10);
    for (unsigned i = 0; i < l->form->count; i++)
        if (l->buffers[i] == number)
            tell("  %s buffer %s, argument %u, %s%s", before, word, i, l->form->parameters[i].name, behind);
}

// The client's argument that a number of the judged kernel belongs to; false for none.
static bool find_argument(const noted_launch *l, json index, unsigned *argument) {
    unsigned long i;
    if (!json_number(index, &i) || i >= l->form->judged_count) return false;
    const judged_parameter *q = &l->form->judged[i];
    *argument = q->argument;
    return q->kind == VALUE_PARAMETER;
}

static void tell_argument(const noted_launch *l, json index, const char *before, const char *behind) {
    unsigned i;
    if (find_argument(l, index, &i)) tell("  %s argument %u, %s%s", before, i, l->form->parameters[i].name, behind);
}

// What a source of the reply decides: `: a branch at source:3:5`.
static void put_decision(const noted_launch *l, json d, char *room, size_t n) {
    char why[32], place[512];
    unsigned long offset;
    *room = 0;
    if (!json_word(json_member(d, "why"), why, sizeof why)) return;
    bool is_placed = number_of(json_member(d, "spot"), "offset", &offset) &&
                     place_of(l->source->at, l->form, offset, place, sizeof place);
    bool is_an = strchr("aeio", *why) != NULL; // (`a uniform store`)
    snprintf(room, n, ": it decides %s %s%s%s", is_an ? "an" : "a", why, is_placed ? " at " : "",
             is_placed ? place : "");
}

static void tell_launch(const noted_launch *l, json launch) {
    json holds = json_member(launch, "holds_for"), deciding = json_member(launch, "deciding");
    json buffers = json_member(holds, "buffers"), arguments = json_member(holds, "arguments");
    char behind[640];
    tell("widened launch %u of its context, kernel %s: %s", l->number, l->form->name, l->verdict);
    for (json b = json_first(buffers); b.at; b = json_next(buffers, b))
        tell_buffer(l, json_member(b, "name"), "for all bytes of", "");
    for (json a = json_first(arguments); a.at; a = json_next(arguments, a))
        tell_argument(l, json_member(a, "index"), "for all numbers of", "");
    for (json d = json_first(deciding); d.at; d = json_next(deciding, d)) {
        char source[16] = "";
        json_word(json_member(d, "source"), source, sizeof source);
        put_decision(l, d, behind, sizeof behind);
        if (!strcmp(source, "buffer")) tell_buffer(l, json_member(d, "name"), "not for", behind);
        else tell_argument(l, json_member(d, "index"), "not for", behind);
    }
}

static void tell_script(json script) {
    char words[4096];
    if (setting("CLSIM_SCRIPT") && json_string(json_member(script, "text"), words, sizeof words))
        tell("widened script: %s", words);
}

// Tells the launches in their order, as both sides have them.
static void tell_launches(cl_context c, json whole) {
    json launches = json_member(whole, "launches"), at = json_first(launches);
    unsigned told = 0, left = 0;
    for (const noted_launch *l = c->noted; l && at.at; l = l->next, at = json_next(launches, at)) {
        if (told < MOST_LAUNCHES) tell_launch(l, at);
        left += told == MOST_LAUNCHES;
        told += told < MOST_LAUNCHES;
    }
    if (left) tell("widened: %u further launches aren't told", left);
    tell_script(json_member(whole, "script"));
}

void tell_widened(cl_context c) {
    unsigned long version;
    char *text = c->noted && !c->lost_launches ? widen_session(c->session) : NULL;
    json whole = json_text(text ? text : "", text ? strlen(text) : 0);
    if (number_of(whole, "version", &version) && version == 1) tell_launches(c, whole);
    else if (c->noted) tell("for which bytes the launches of a context hold isn't known: clsim widen doesn't tell");
    free(text);
    let_notes_go(c);
}
