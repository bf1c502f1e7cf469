// The text of a kernel, with the places of its statements and accesses.
#include "front.h"
#include <stdlib.h>
#include <string.h>

void add_place(translator *t, judged_place p) {
    judged_source *to = t->to;
    judged_place *last = to->place_count ? &to->places[to->place_count - 1] : NULL;
    if (last && last->offset == p.offset) {
        p.loop = p.loop ? p.loop : last->loop;
        *last = p;
        return;
    }
    to->places = grown(t->result, to->places, (unsigned)to->place_count, &t->place_room, sizeof *to->places);
    to->places[to->place_count++] = p;
}

// Adds a text without the marks in it.
static void add_unmarked(translator *t, text *to, const char *s) {
    for (;;) {
        size_t n = strcspn(s, "\1");
        char *end;
        add_bytes(to, s, n);
        if (!s[n]) return;
        const mark *m = &t->marks[strtoul(s + n + 1, &end, 10)];
        add_place(t, (judged_place){to->length, m->at, m->calls, 0, m->before});
        s = end + 1;
    }
}

static void write_body(translator *t, text *to, const char *head, list l) {
    add(to, head);
    write_list(t, to, l);
    add(to, "}");
}

// Statements are nested at most as deep as those of the source, calls counted, which is bounded.
void write_list(translator *t, text *to, list l) {
    for (const statement *s = l.first; s; s = s->next) {
        const char *text = s->kind == FLAG ? s->label->leave : s->text;
        if (!text) continue;
        add_place(t, (judged_place){to->length, s->at, s->calls, s->loop, s->before});
        if (s->kind == BRANCH) add(to, "if(");
        add_unmarked(t, to, text);
        if (s->kind == BRANCH) add(to, ")");
        if (s->kind == BRANCH || s->kind == LOOP) write_body(t, to, "{\n", s->first);
        if (s->kind == BRANCH && s->second.first) write_body(t, to, "else{\n", s->second);
        if (s->kind == LOOP && *s->end) {
            add_place(t, (judged_place){to->length, s->at, s->calls, 0, s->before});
            add_unmarked(t, to, s->end);
        }
        add(to, "\n");
    }
}
