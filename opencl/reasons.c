// Why a fault is one. A reason that names a place or an object of the script is worded here, in the client's terms. Of
// each other one the sentence of the explanation is told, which has neither.
#include "reasons.h"
#include "accessed.h"
#include "session.h"
#include <stdio.h>
#include <string.h>

// What a reason is told of: a client's source, the kernel that was launched, and the memory of the fault.
typedef struct {
    const prepared *source;
    const kernel_form *kernel;
    json memory;
} client_form;

// ---- words ----

static const char *plural(unsigned long n) { return n == 1 ? "" : "s"; }

// Adds text in one line.
static void add_line(text *t, const char *words) {
    for (; *words; words++) add_bytes(t, (unsigned char)*words < ' ' ? " " : words, 1);
}

// What a string of an explanation stands for. NULL where it is none.
static char *take_string(arena *a, json string) {
    size_t room = (size_t)(string.end - string.at) + 1;
    char *words = take(a, room);
    return json_string(string, words, room) ? words : NULL;
}

// Adds where a place of an explanation is in the client's form, behind a word. Nothing where that isn't known.
static void add_place(text *t, const client_form *form, const char *word, json place) {
    char room[512];
    unsigned long offset;
    if (json_number(json_member(place, "offset"), &offset) &&
        place_of(form->source, form->kernel, offset, room, sizeof room))
        addf(t, "%s at %s", word, room);
}

static bool number_of(json object, const char *name, unsigned long *n) {
    return json_number(json_member(object, name), n);
}

static bool is_word(json v, const char *word) {
    char room[32];
    return json_word(v, room, sizeof room) && !strcmp(room, word);
}

// ---- kinds of reasons. Each adds its sentence, or answers false where a member is missing ----

static bool add_barrier(text *t, const client_form *form, json reason) {
    unsigned long group;
    bool is_local = is_word(json_member(reason, "memory"), "local");
    if (!number_of(reason, "group", &group)) return false;
    addf(t, "group %lu passes a barrier between the two accesses", group);
    add_place(t, form, ",", json_member(reason, "barrier"));
    addf(t, ", but it does not fence %s memory: CLK_%s_MEM_FENCE is missing", is_local ? "local" : "global",
         is_local ? "LOCAL" : "GLOBAL");
    return true;
}

static bool add_elements(text *t, const client_form *form, json reason) {
    unsigned long bytes, elements, width;
    const char *name = take_string(t->arena, json_member(reason, "name"));
    if (!name || !number_of(reason, "bytes", &bytes) || !number_of(reason, "elements", &elements) ||
        !number_of(reason, "width", &width))
        return false;
    const char *shown = form->source->is_own ? name : shown_as(form->kernel, name, strlen(name));
    add_line(t, shown ? shown : name);
    addf(t, " has %lu byte%s, which %s %lu element%s of %lu byte%s, numbered from 0", bytes, plural(bytes),
         elements == 1 ? "is" : "are", elements, plural(elements), width, plural(width));
    return true;
}

typedef struct {
    unsigned long byte, bytes, item;
    json place;
} stored_bytes;

static bool read_stored(json v, stored_bytes *s) {
    s->place = json_member(v, "place");
    return number_of(v, "byte", &s->byte) && number_of(v, "bytes", &s->bytes) && s->bytes &&
           number_of(v, "item", &s->item);
}

// Adds who has set some bytes, behind what is said of them.
static void add_setter(text *t, const client_form *form, const stored_bytes *s) {
    addf(t, ", by work-item %lu", s->item);
    add_place(t, form, ",", s->place);
}

static void add_stored(text *t, const client_form *form, const stored_bytes *s) {
    addf(t, "%lu", s->byte);
    if (s->bytes > 1) addf(t, " to %lu", s->byte + (s->bytes - 1));
    add_setter(t, form, s);
}

// The client's name of a number in the local memory of the fault.
static bool put_name(char *room, size_t n, const client_form *form, unsigned long byte, unsigned long bytes) {
    char object[256];
    return is_word(json_member(form->memory, "kind"), "local") &&
           json_string(json_member(form->memory, "name"), object, sizeof object) &&
           put_local_name(room, n, form->kernel, object, byte, bytes);
}

// The same by the client's names, where the number that isn't set and those that are have some.
static bool add_nearest_names(text *t, const client_form *form, const stored_bytes *sides, unsigned count) {
    char names[2][256], unset[256];
    unsigned long byte;
    if (!number_of(form->memory, "byte", &byte)) return false;
    unsigned long width = sides[0].bytes, begin = byte - byte % width;
    for (unsigned i = 0; i < count; i++)
        if (!put_name(names[i], sizeof names[i], form, sides[i].byte, sides[i].bytes)) return false;
    if (!put_name(unset, sizeof unset, form, begin, width)) return false;
    add(t, count == 1 ? "the nearest that was set is " : "the nearest that were set are ");
    for (unsigned i = 0; i < count; i++) {
        addf(t, "%s%s", i ? ", and " : "", names[i]);
        add_setter(t, form, &sides[i]);
    }
    addf(t, "; if another work-item sets %s later, a barrier between the two is missing", unset);
    return true;
}

static bool add_nearest(text *t, const client_form *form, json reason) {
    stored_bytes sides[2];
    unsigned n = 0;
    n += read_stored(json_member(reason, "below"), &sides[n]);
    n += read_stored(json_member(reason, "above"), &sides[n]);
    if (!n) return false;
    if (add_nearest_names(t, form, sides, n)) return true;
    add(t,
        n == 1 && sides[0].bytes == 1 ? "the nearest byte that was set is " : "the nearest bytes that were set are ");
    add_stored(t, form, &sides[0]);
    if (n == 2) {
        add(t, ", and ");
        add_stored(t, form, &sides[1]);
    }
    add(t, "; if another work-item sets this byte later, a barrier between the two is missing");
    return true;
}

// What stands in front of an entry of a list in a sentence, of which so many are left with it.
static const char *before_entry(bool is_first, unsigned long left) {
    return is_first ? ": " : left == 1 ? " and " : ", ";
}

static void add_loop(text *t, const client_form *form, json loop) {
    unsigned long turns = 0;
    json counted = json_member(loop, "counted");
    number_of(loop, "turns", &turns);
    addf(t, "%s%lu of the loop", is_word(counted, "seen") ? "at least " : "", turns);
    add_place(t, form, "", loop);
    if (is_word(counted, "since_entered")) add(t, " since it was entered");
}

// Adds the loops that the turns of a budget went to. `unseen` is how many turns aren't among theirs.
static void add_loops(text *t, const client_form *form, json reason, unsigned long unseen) {
    json loops = json_member(reason, "loops"), others = json_member(reason, "other_loops");
    unsigned long count = 0, turns = 0, left = unseen ? 1 : 0;
    bool is_first = true, has_others = number_of(others, "loops", &count) && number_of(others, "turns", &turns);
    left += has_others;
    for (json l = json_first(loops); l.at; l = json_next(loops, l)) left++;
    for (json l = json_first(loops); l.at; l = json_next(loops, l)) {
        add(t, before_entry(is_first, left--));
        add_loop(t, form, l);
        is_first = false;
    }
    if (has_others) {
        add(t, before_entry(is_first, left));
        addf(t, "%s%lu of %lu other loop%s", unseen ? "at least " : "", turns, count, plural(count));
        is_first = false;
    }
    if (unseen)
        addf(t, "%s%lu of loops that it had left, which no access or barrier shows", before_entry(is_first, 1), unseen);
}

static bool add_budget(text *t, const client_form *form, json reason) {
    unsigned long ticks, accesses, barriers, turns, unseen;
    if (!number_of(reason, "ticks", &ticks) || !number_of(reason, "accesses", &accesses) ||
        !number_of(reason, "barriers", &barriers) || !number_of(reason, "turns", &turns) ||
        !number_of(reason, "unseen", &unseen))
        return false;
    addf(t, "the budget of %lu tick%s went to %lu access%s, %lu barrier%s and %lu turn%s of loops", ticks,
         plural(ticks), accesses, accesses == 1 ? "" : "es", barriers, plural(barriers), turns, plural(turns));
    add_loops(t, form, reason, unseen);
    add(t, "; a loop without end uses up any budget");
    return true;
}

static const struct {
    const char *kind;
    bool (*add)(text *t, const client_form *form, json reason);
} worded[] = {
    {"unfenced_barrier", add_barrier},
    {"elements", add_elements},
    {"nearest_stores", add_nearest},
    {"budget", add_budget},
};

// Adds the sentence of an explanation.
static bool add_sentence(text *t, json reason) {
    const char *words = take_string(t->arena, json_member(reason, "text"));
    if (words) add_line(t, words);
    return words;
}

bool add_reason(text *t, const prepared *source, const kernel_form *kernel, json explanation, json reason) {
    client_form form = {source, kernel, json_member(explanation, "memory")};
    json kind = json_member(reason, "kind");
    for (size_t i = 0; i < sizeof worded / sizeof *worded; i++)
        if (is_word(kind, worded[i].kind)) return worded[i].add(t, &form, reason);
    return add_sentence(t, reason);
}

// Tells one reason. Where memory is refused, it is left out.
static void tell_reason(const prepared *source, const kernel_form *kernel, json explanation, json reason) {
    arena a = {0};
    text told = {.arena = &a};
    if (setjmp(a.failed)) {
        free_arena(&a);
        return;
    }
    if (add_reason(&told, source, kernel, explanation, reason) && told.length) tell("  why: %s", told.at);
    free_arena(&a);
}

void tell_reasons(const prepared *source, const kernel_form *kernel, json explanation) {
    json list = json_member(explanation, "why");
    for (json r = json_first(list); r.at; r = json_next(list, r)) tell_reason(source, kernel, explanation, r);
}
