// Names of the judged text: each is another one in its kernel. And marks, which stand in texts in front of accesses and
// name their places; the writer takes them out.
#include "front.h"
#include <string.h>

static unsigned bucket_of(const char *text, size_t length) {
    unsigned hash = 5381;
    for (size_t i = 0; i < length; i++) hash = hash * 33 + (unsigned char)text[i];
    return hash % BUCKETS;
}

static name *find_word(const translator *t, const char *text, size_t length) {
    name *n = t->names[bucket_of(text, length)];
    while (n && (strncmp(n->text, text, length) || n->text[length])) n = n->next;
    return n;
}

static name *find_name(const translator *t, const char *text) { return find_word(t, text, strlen(text)); }

bool is_taken(const translator *t, const char *text) { return find_name(t, text) != NULL; }

void take_name(translator *t, const char *text) {
    name *n = take(&t->pass, sizeof *n);
    unsigned bucket = bucket_of(text, strlen(text));
    *n = (name){.next = t->names[bucket], .text = text, .last = 1};
    t->names[bucket] = n;
}

static bool is_name_byte(char c) {
    return c == '_' || (c >= '0' && c <= '9') || (c >= 'a' && c <= 'z') || (c >= 'A' && c <= 'Z');
}

const char *fresh_name(translator *t, const char *like) {
    bool is_reserved = !strncmp(like, "__", 2) || !*like;
    const char *base = format(t, "%s%s", is_reserved ? "v" : "", like);
    char *bytes = copy_text(&t->pass, base, strlen(base));
    for (char *c = bytes; *c; c++)
        if (!is_name_byte(*c)) *c = '_';
    name *n = find_name(t, bytes);
    const char *text = bytes;
    while (is_taken(t, text)) text = format(t, "%s_%u", bytes, ++n->last);
    take_name(t, text);
    return text;
}

const char *temporary_name(translator *t) {
    const char *text;
    do text = format(t, "t%u", ++t->temporary_count);
    while (is_taken(t, text));
    take_name(t, text);
    return text;
}

void count_names(translator *t, const char *text) {
    for (size_t n; *text; text += n + !n) {
        for (n = 0; is_name_byte(text[n]);) n++;
        name *found = n ? find_word(t, text, n) : NULL;
        if (found) found->uses++;
    }
}

void forget_counts(translator *t) {
    for (unsigned i = 0; i < BUCKETS; i++)
        for (name *n = t->names[i]; n; n = n->next) n->uses = n->may_be_unset = 0;
}

void note_unset_name(translator *t, const char *text, size_t length) {
    name *found = find_word(t, text, length);
    if (found) found->may_be_unset = true;
}

bool has_unset_name(const translator *t, const char *text) {
    for (size_t n; *text; text += n + !n) {
        for (n = 0; is_name_byte(text[n]);) n++;
        const name *found = n ? find_word(t, text, n) : NULL;
        if (found && found->may_be_unset) return true;
    }
    return false;
}

bool has_name(const char *text, const char *name) {
    size_t n = strlen(name);
    for (const char *at = text; (at = strstr(at, name)); at += n)
        if ((at == text || !is_name_byte(at[-1])) && !is_name_byte(at[n])) return true;
    return false;
}

unsigned uses_of(const translator *t, const char *text) {
    const name *n = find_name(t, text);
    return n ? n->uses : 0;
}

void show_name(translator *t, const char *judged, const char *shown) {
    t->shown = grown(&t->pass, t->shown, t->shown_count, &t->shown_room, sizeof *t->shown);
    t->shown[t->shown_count++] = (shown_name){judged, shown};
}

const call_site *calls_here(const translator *t) { return t->call ? t->call->told : NULL; }

const char *mark_here(translator *t, const place *at) {
    t->marks = grown(&t->pass, t->marks, t->mark_count, &t->mark_room, sizeof *t->marks);
    t->marks[t->mark_count] = (mark){at, calls_here(t), NULL};
    return format(t, "\1%u\2", t->mark_count++);
}
