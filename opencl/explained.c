// Faults as JSON in the client's terms. An explanation is written once more member by member: what names the judged
// text names the client's then, and what has no place there is null, or left out of its list.
#include "explained.h"
#include "accessed.h"
#include "reasons.h"
#include <errno.h>
#include <inttypes.h>
#include <stdio.h>
#include <string.h>

// (an explanation of version 2 is written as one; a fault without one as the version that the scripts beside read)
enum { VERSION = 3, MOST_TEXTS = 64, MOST_MARKED = 48, ORDER_FAULT = 2 };

// What is being written.
typedef struct {
    text *to;
    arena *arena;
    cl_kernel kernel;
    const told_fault *fault;
    const char *texts[MOST_TEXTS]; // the names of the client's texts in which places are
    unsigned text_count;
} writer;

static bool write_value(writer *w, json v);

// ---- strings ----

// How many bytes a character of UTF-8 has (RFC 3629); 0 where there is none.
static size_t character_length(const char *at, size_t n) {
    const unsigned char *s = (const unsigned char *)at;
    size_t length = *s < 0x80                 ? 1
                    : *s >= 0xc2 && *s < 0xe0 ? 2
                    : (*s & 0xf0) == 0xe0     ? 3
                    : *s >= 0xf0 && *s < 0xf5 ? 4
                                              : 0;
    if (!length || length > n) return 0;
    for (size_t i = 1; i < length; i++)
        if ((s[i] & 0xc0) != 0x80) return 0;
    unsigned second = length > 2 ? s[1] : 0x80;
    bool is_long = (*s == 0xe0 && second < 0xa0) || (*s == 0xf0 && second < 0x90);
    bool is_none = (*s == 0xed && second >= 0xa0) || (*s == 0xf4 && second >= 0x90);
    return is_long || is_none ? 0 : length;
}

// Each byte that is no part of a character is `?`.
static void write_bytes(writer *w, const char *at, size_t n) {
    add(w->to, "\"");
    for (size_t i = 0, length; i < n; i += length) {
        length = character_length(at + i, n - i);
        unsigned char first = (unsigned char)at[i];
        if (!length) add(w->to, "?");
        else if (first == '"' || first == '\\') addf(w->to, "\\%c", first);
        else if (first < ' ') addf(w->to, "\\u%04x", first);
        else add_bytes(w->to, at + i, length);
        length += !length;
    }
    add(w->to, "\"");
}

static void write_string(writer *w, const char *s) { write_bytes(w, s, strlen(s)); }

static void write_raw(writer *w, json v) { add_bytes(w->to, v.at, (size_t)(v.end - v.at)); }

// Begins a member; the first one of an object by `{`.
static void begin_member(writer *w, const char *before, const char *name) { addf(w->to, "%s\"%s\":", before, name); }

static bool is_named(json name, const char *word) {
    size_t n = strlen(word);
    return (size_t)(name.end - name.at) == n + 2 && !memcmp(name.at + 1, word, n);
}

// ---- places ----

static bool find_site(const writer *w, json v, place *at) {
    unsigned long offset;
    return json_number(json_member(v, "offset"), &offset) && site_of(w->kernel->source, w->kernel->form, offset, at) &&
           at->line && at->column;
}

// Notes a text that a place is in, where the client has given it.
static void note_text(writer *w, const char *name) {
    for (unsigned i = 0; i < w->text_count; i++)
        if (!strcmp(w->texts[i], name)) return;
    if (w->text_count < MOST_TEXTS && text_of(w->kernel->source, name)) w->texts[w->text_count++] = name;
}

// How many bytes of a line are marked at a column: a word, or one.
static size_t marked_length(const char *line, unsigned column) {
    static const char word[] = "abcdefghijklmnopqrstuvwxyzABCDEFGHIJKLMNOPQRSTUVWXYZ_0123456789";
    size_t n = column <= strlen(line) ? strspn(line + column - 1, word) : 0;
    return n > MOST_MARKED ? MOST_MARKED : n ? n : 1;
}

// Where a line begins in the text that it is in; its column where that is a file.
static size_t offset_of(const writer *w, const place *at) {
    const char *text = text_of(w->kernel->source, at->file), *line = text;
    for (unsigned i = 1; line && i < at->line; i++) {
        line = strchr(line, '\n');
        line += line != NULL;
    }
    return (line ? (size_t)(line - text) : 0) + at->column - 1;
}

// A place begins with where it is, and ends without its bracket.
static void begin_place(writer *w, const place *at) {
    note_text(w, at->file);
    begin_member(w, "{", "file");
    write_string(w, at->file);
    addf(w->to, ",\"offset\":%zu,\"line\":%u,\"script_line\":%u,\"column\":%u", offset_of(w, at), at->line, at->line,
         at->column);
}

// The calls of the source round a byte that are judged in their places, the outermost first.
static void write_calls_in_place(writer *w, const call_site *c, bool *is_first) {
    if (!c) return;
    write_calls_in_place(w, c->up, is_first);
    const char *line = line_of(w->kernel->source, w->arena, c->at);
    if (!line) return;
    add(w->to, *is_first ? "" : ",");
    *is_first = false;
    begin_place(w, c->at);
    begin_member(w, ",", "text");
    write_string(w, line);
    add(w->to, "}");
}

static void write_calls_round(writer *w, json v, bool *is_first) {
    unsigned long offset;
    if (json_number(json_member(v, "offset"), &offset) && offset < w->kernel->form->length)
        write_calls_in_place(w, calls_round(w->kernel->source, w->kernel->form->begin + offset), is_first);
}

// The elements of a list that are in the client's source.
static void write_list_of(writer *w, json list, json spot, bool are_calls);

bool is_turn_before(cl_kernel k, json spot, json loop) {
    const prepared *source = k->source;
    json calls = json_member(spot, "calls");
    unsigned long begin, at;
    size_t start = k->form->begin;
    if (!json_number(json_member(loop, "offset"), &begin)) return false;
    if (json_number(json_member(spot, "offset"), &at) && is_of_turn_before(source, start + at, start + begin))
        return true;
    for (json c = json_first(calls); c.at; c = json_next(calls, c))
        if (json_number(json_member(c, "offset"), &at) && is_of_turn_before(source, start + at, start + begin))
            return true;
    return false;
}

static void write_turn(writer *w, json spot, json loop, json turn) {
    unsigned long n;
    if (!json_number(turn, &n)) write_raw(w, turn);
    else addf(w->to, "%lu", n - (n && spot.at && is_turn_before(w->kernel, spot, loop)));
}

// What a place has besides where it is. Of a step there is a part of its line, of all others the whole one.
static void write_member_of_place(writer *w, json v, json spot, json name, json member, const char *line,
                                  unsigned column) {
    size_t length = marked_length(line, column);
    bool is_step = json_member(v, "length").at && !json_member(v, "calls").at;
    if (is_named(name, "offset") || is_named(name, "line") || is_named(name, "column") || is_named(name, "script_line"))
        return;
    add(w->to, ",");
    write_raw(w, name);
    add(w->to, ":");
    if (is_named(name, "length")) addf(w->to, "%zu", length);
    else if (is_named(name, "text") && is_step && column <= strlen(line))
        write_bytes(w, line + column - 1, strnlen(line + column - 1, length));
    else if (is_named(name, "text")) write_string(w, line);
    else if (is_named(name, "calls")) write_list_of(w, member, v, true);
    else if (is_named(name, "loops")) write_list_of(w, member, v, false);
    else if (is_named(name, "turn")) write_turn(w, spot, v, member);
    else write_raw(w, member);
}

// A place; false where it isn't in the client's source, and then nothing is written.
static bool write_place(writer *w, json v, json spot) {
    place at;
    json name;
    const char *line = find_site(w, v, &at) ? line_of(w->kernel->source, w->arena, &at) : NULL;
    if (!line) return false;
    begin_place(w, &at);
    for (json m = json_first_member(v, &name); m.at; m = json_next_member(v, m, &name))
        write_member_of_place(w, v, spot, name, m, line, at.column);
    add(w->to, "}");
    return true;
}

static void write_list_of(writer *w, json list, json spot, bool are_calls) {
    bool is_first = true;
    add(w->to, "[");
    for (json e = json_first(list); e.at; e = json_next(list, e)) {
        size_t before = w->to->length;
        if (are_calls) write_calls_round(w, e, &is_first);
        size_t behind = w->to->length;
        add(w->to, is_first ? "" : ",");
        bool is_written = write_place(w, e, spot);
        if (!is_written) w->to->length = behind;
        is_first = is_first && !is_written && before == behind;
    }
    if (are_calls) write_calls_round(w, spot, &is_first);
    add(w->to, "]");
}

// ---- the launch, the memory, the reasons ----

// Where the kernel begins in the client's source.
static place place_of_kernel(const writer *w) {
    const node *function = w->kernel->form->function;
    place at = {"source", 1, 1};
    if (function) at = function->place;
    return at;
}

static void write_sizes(writer *w, const char *name, const size_t *sizes) {
    char room[80];
    sizes_text(room, sizeof room, w->fault->sizes->dimensions, sizes);
    begin_member(w, ",", name);
    addf(w->to, "[%s]", room);
}

// The launch is told at the line in which its kernel begins.
static void write_launch(writer *w) {
    const launch_sizes *s = w->fault->sizes;
    place at = place_of_kernel(w);
    const char *line = line_of(w->kernel->source, w->arena, &at), *name = w->kernel->form->name;
    json budget = json_member(json_member(w->fault->explanation, "launch"), "budget");
    note_text(w, at.file);
    addf(w->to, "{\"command\":%u,\"script_line\":%u", w->kernel->context->launches, at.line);
    begin_member(w, ",", "text");
    write_string(w, line ? line : "");
    begin_member(w, ",", "kernel");
    write_string(w, name);
    begin_member(w, ",", "function");
    write_string(w, name);
    begin_member(w, ",", "program");
    write_string(w, at.file);
    write_sizes(w, "global_size", s->global);
    write_sizes(w, "local_size", s->local);
    write_sizes(w, "offset", s->offset);
    addf(w->to, ",\"uniform\":%s,\"orders\":%s", s->uniform ? "true" : "false", s->orders ? "true" : "false");
    begin_member(w, ",", "budget");
    if (budget.at) write_raw(w, budget);
    else add(w->to, "null");
    add(w->to, "}");
}

// The fault's number, its name, and its line without the schedule.
static void write_fault(writer *w) {
    const char *reply = w->fault->reply, *held = w->fault->held_reply, *schedule = strstr(reply, " schedule ");
    unsigned number = 0;
    char name[32] = "";
    sscanf(reply, "fault %u %31s", &number, name);
    addf(w->to, "{\"number\":%u", number || !w->fault->is_ordered ? number : ORDER_FAULT);
    begin_member(w, ",", "name");
    write_string(w, held ? "flags" : w->fault->is_ordered ? "ordered" : name);
    begin_member(w, ",", "line");
    int n = schedule ? (int)(schedule - reply) : (int)strlen(reply);
    text line = {.arena = w->arena};
    addf(&line, "%s%.*s", w->fault->is_ordered && number ? "ordered: " : "", n, reply);
    write_string(w, held ? held : line.at);
    add(w->to, "}");
}

// The client's name of an object of the judged text.
static const char *client_name(const writer *w, const char *name) {
    const kernel_form *form = w->kernel->form;
    for (unsigned i = 0; i < form->local_count; i++)
        if (!strcmp(form->locals[i].judged, name)) return form->locals[i].shown;
    const char *shown = w->kernel->source->is_own ? name : shown_as(form, name, strlen(name));
    return shown ? shown : name;
}

// A parameter of the judged kernel as the client's argument that it belongs to; false where that is written already, or
// it belongs to none.
static bool write_parameter(writer *w, json p, json byte, const char *before, bool *is_written) {
    const kernel_form *form = w->kernel->form;
    unsigned long index, at;
    if (!json_number(json_member(p, "index"), &index) || index >= form->judged_count) return false;
    const judged_parameter *q = &form->judged[index];
    bool is_clients = q->kind == BUFFER_PARAMETER || q->kind == LOCAL_PARAMETER || q->kind == VALUE_PARAMETER;
    if (!is_clients || is_written[q->argument]) return false;
    is_written[q->argument] = true;
    const parameter *given = &form->parameters[q->argument];
    const type *of = given->type && given->type->kind == POINTER_TYPE ? given->type->of : NULL;
    addf(w->to, "%s{\"index\":%u", before, q->argument);
    begin_member(w, ",", "name");
    write_string(w, given->name);
    begin_member(w, ",", "type");
    write_string(w, given->type_name);
    begin_member(w, ",", "element");
    if (of && of->size && json_number(byte, &at)) addf(w->to, "%lu}", (unsigned long)(at / of->size));
    else add(w->to, "null}");
    return true;
}

static void write_memory(writer *w, json memory) {
    json name, byte = json_member(memory, "byte"), all = json_member(memory, "parameters");
    bool *is_written = take(w->arena, w->kernel->form->count + 1);
    const char *before = "{";
    char word[128];
    for (json m = json_first_member(memory, &name); m.at; m = json_next_member(memory, m, &name), before = ",") {
        add(w->to, before);
        write_raw(w, name);
        add(w->to, ":");
        if (is_named(name, "name") && json_word(m, word, sizeof word)) write_string(w, client_name(w, word));
        else if (is_named(name, "parameters")) {
            bool is_first = true;
            add(w->to, "[");
            for (json p = json_first(all); p.at; p = json_next(all, p))
                is_first = !write_parameter(w, p, byte, is_first ? "" : ",", is_written) && is_first;
            add(w->to, "]");
        } else write_raw(w, m);
    }
    add(w->to, "}");
}

// A reason has its sentence as the driver tells it.
static void write_reason(writer *w, json reason) {
    json name;
    text words = {.arena = w->arena};
    const char *before = "{";
    bool has_words =
        add_reason(&words, w->kernel->source, w->kernel->form, w->fault->explanation, reason) && words.length;
    for (json m = json_first_member(reason, &name); m.at; m = json_next_member(reason, m, &name), before = ",") {
        add(w->to, before);
        write_raw(w, name);
        add(w->to, ":");
        if (is_named(name, "text") && has_words) write_string(w, words.at);
        else if (!write_value(w, m)) add(w->to, "null");
    }
    add(w->to, "}");
}

static void write_reasons(writer *w, json list) {
    bool is_first = true;
    add(w->to, "[");
    for (json r = json_first(list); r.at && !w->fault->held_reply; r = json_next(list, r)) {
        add(w->to, is_first ? "" : ",");
        write_reason(w, r);
        is_first = false;
    }
    if (w->fault->is_ordered)
        addf(w->to, "%s{\"kind\":\"ordered\",\"text\":\"%s\"}", is_first ? "" : ",", ORDERED_WORDS);
    if (w->fault->held_reply)
        add(w->to, "{\"kind\":\"flags\",\"text\":\"such an access of a buffer with this flag is undefined (OpenCL 1.2, "
                   "table 5.3)\"}");
    add(w->to, "]");
}

// ---- values ----

static void write_object(writer *w, json v) {
    json name;
    const char *before = "{";
    for (json m = json_first_member(v, &name); m.at; m = json_next_member(v, m, &name), before = ",") {
        add(w->to, before);
        write_raw(w, name);
        add(w->to, ":");
        if (!write_value(w, m)) add(w->to, "null");
    }
    add(w->to, *before == '{' ? "{}" : "}");
}

// The memory of a step: local memory by the client's name.
static void write_memory_of_step(writer *w, json memory) {
    char words[256], *name;
    text told = {.arena = w->arena};
    bool is_local = json_string(memory, words, sizeof words) && !strncmp(words, "local ", 6);
    if (!is_local || !(name = strchr(words + 6, ' '))) {
        write_raw(w, memory);
        return;
    }
    addf(&told, "%.*s%s", (int)(name + 1 - words), words, client_name(w, name + 1));
    write_string(w, told.at);
}

// A step, with what it moves in the client's words.
static void write_step(writer *w, json step) {
    json name;
    char words[512];
    const char *before = "{";
    for (json m = json_first_member(step, &name); m.at; m = json_next_member(step, m, &name), before = ",") {
        add(w->to, before);
        write_raw(w, name);
        add(w->to, ":");
        if (is_named(name, "memory")) write_memory_of_step(w, m);
        else if (!write_value(w, m)) add(w->to, "null");
    }
    if (put_accessed(words, sizeof words, w->kernel, step)) {
        begin_member(w, before, "text");
        write_string(w, words);
    }
    add(w->to, "}");
}

static void write_steps(writer *w) {
    json steps = json_member(w->fault->explanation, "steps");
    bool is_first = true;
    begin_member(w, ",", "steps");
    add(w->to, "[");
    for (json s = json_first(steps); s.at; s = json_next(steps, s)) {
        add(w->to, is_first ? "" : ",");
        write_step(w, s);
        is_first = false;
    }
    add(w->to, "]");
}

static void write_list(writer *w, json v) {
    bool is_first = true;
    add(w->to, "[");
    for (json e = json_first(v); e.at; e = json_next(v, e)) {
        size_t before = w->to->length;
        add(w->to, is_first ? "" : ",");
        if (write_value(w, e)) is_first = false;
        else w->to->length = before;
    }
    add(w->to, "]");
}

// A value of an explanation. False where it is a place that isn't in the client's source.
static bool write_value(writer *w, json v) {
    bool is_place = json_member(v, "offset").at && json_member(v, "line").at;
    if (is_place) return write_place(w, v, (json){NULL, NULL});
    if (*v.at == '{') write_object(w, v);
    else if (*v.at == '[') write_list(w, v);
    else write_raw(w, v);
    return true;
}

// ---- the whole ----

// A member that is written as it is, or, where there is no explanation, what stands for it then.
static void write_rest(writer *w, const char *name, const char *otherwise) {
    json v = json_member(w->fault->explanation, name);
    begin_member(w, ",", name);
    if (!v.at) add(w->to, otherwise);
    else if (!write_value(w, v)) add(w->to, "null");
}

static void write_schedule(writer *w) {
    const char *schedule = strstr(w->fault->reply, " schedule ");
    json v = json_member(w->fault->explanation, "schedule");
    begin_member(w, ",", "schedule");
    if (v.at) {
        write_raw(w, v);
        return;
    }
    begin_member(w, "{", "short");
    write_string(w, schedule ? schedule + strlen(" schedule ") : "-");
    add(w->to, ",\"events\":0}");
}

static void write_sources(writer *w) {
    begin_member(w, ",", "sources");
    add(w->to, "[");
    for (unsigned i = 0; i < w->text_count; i++) {
        begin_member(w, i ? ",{" : "{", "name");
        write_string(w, w->texts[i]);
        begin_member(w, ",", "text");
        write_string(w, text_of(w->kernel->source, w->texts[i]));
        add(w->to, "}");
    }
    add(w->to, "]");
}

static void write_whole(writer *w) {
    json memory = json_member(w->fault->explanation, "memory");
    unsigned long version = VERSION;
    json_number(json_member(w->fault->explanation, "version"), &version);
    addf(w->to, "{\"version\":%lu", version);
    begin_member(w, ",", "script");
    write_string(w, place_of_kernel(w).file);
    begin_member(w, ",", "launch");
    write_launch(w);
    begin_member(w, ",", "fault");
    write_fault(w);
    begin_member(w, ",", "memory");
    if (memory.at && *memory.at == '{') write_memory(w, memory);
    else add(w->to, "null");
    write_rest(w, "items", "[]");
    begin_member(w, ",", "why");
    write_reasons(w, json_member(w->fault->explanation, "why"));
    write_schedule(w);
    write_steps(w);
    if (version == 2) write_rest(w, "steps_left", "0");
    write_sources(w);
    add(w->to, "}\n");
}

static void append_to(const char *path, const text *t) {
    static bool is_told;
    FILE *file = fopen(path, "abe");
    bool done = file && fwrite(t->at, 1, t->length, file) == t->length;
    int fault = errno;
    if (file && fclose(file)) done = false;
    if (!done && !is_told) tell("cannot write %s: %s", path, strerror(fault));
    is_told = is_told || !done;
}

void write_explanation(const told_fault *f) {
    const char *path = setting("CLSIM_JSON");
    arena a = {0};
    text all = {.arena = &a};
    writer w = {.to = &all, .arena = &a, .kernel = f->kernel, .fault = f};
    if (!path) return;
    if (!setjmp(a.failed)) {
        write_whole(&w);
        append_to(path, &all);
    }
    free_arena(&a);
}
