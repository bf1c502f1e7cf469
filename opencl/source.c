#include "source.h"
#include "front/linking.h"
#include "own.h"
#include <stdio.h>
#include <stdlib.h>
#include <string.h>

// ---- places and messages ----

static const char *start_of_line(const char *text, unsigned line) {
    for (; line > 1; line--) {
        text = strchr(text, '\n');
        if (!text) return NULL;
        text++;
    }
    return text;
}

// A line of an included file.
static char *file_line(arena *a, const char *path, unsigned line) {
    FILE *file = fopen(path, "re");
    char room[512];
    if (!file) return NULL;
    bool found = true;
    for (unsigned i = 0; found && i < line; i++) found = fgets(room, sizeof room, file) != NULL;
    fclose(file);
    return found ? copy_text(a, room, strcspn(room, "\n")) : NULL;
}

// The very one by its name, or another one of that name.
const char *text_of(const prepared *p, const char *name) {
    const char *found = NULL;
    for (unsigned i = 0; i < p->text_count; i++) {
        if (p->texts[i].name == name) return p->texts[i].text;
        if (!found && !strcmp(p->texts[i].name, name)) found = p->texts[i].text;
    }
    return found;
}

const char *line_of(const prepared *p, arena *a, const place *at) {
    const char *whole = text_of(p, at->file);
    if (!whole) return file_line(a, at->file, at->line);
    const char *line = start_of_line(whole, at->line);
    return line ? copy_text(a, line, strcspn(line, "\r\n")) : NULL;
}

// A message in clang's form, with the line and a caret under the place.
static void add_message(prepared *p, text *log, const place *at, const char *message) {
    const char *line = at->line ? line_of(p, &p->arena, at) : NULL;
    addf(log, "%s:%u:%u: error: %s\n", at->file, at->line, at->column, message);
    if (!line) return;
    addf(log, "%s\n", line);
    for (size_t i = 0; i + 1 < at->column && line[i]; i++) add(log, line[i] == '\t' ? "\t" : " ");
    add(log, "^\n");
}

// What begins at an offset of the judged text, or in front of it.
static const judged_place *place_at(const prepared *p, size_t offset) {
    size_t low = 0, high = p->place_count;
    while (low < high) {
        size_t middle = (low + high) / 2;
        if (p->places[middle].offset <= offset) low = middle + 1;
        else high = middle;
    }
    return low ? &p->places[low - 1] : NULL;
}

// Where an offset of a text that is judged as it is stands.
static place own_place(const prepared *p, size_t offset) {
    place at = {"source", 1, 1};
    for (size_t i = 0; i < offset && i < p->length; i++) {
        at.column++;
        if (p->text[i] != '\n') continue;
        at.line++;
        at.column = 1;
    }
    return at;
}

static bool find_place(const prepared *p, size_t offset, place *at) {
    const judged_place *found = p->is_own ? NULL : place_at(p, offset);
    if (p->is_own) *at = own_place(p, offset);
    else if (found) *at = *found->at;
    return p->is_own || found;
}

bool is_of_turn_before(const prepared *p, size_t offset, size_t loop) {
    const judged_place *at = place_at(p, offset), *begin = place_at(p, loop);
    const turn_before *t = at && begin && begin->loop ? at->before : NULL;
    while (t && t->loop != begin->loop) t = t->more;
    return t != NULL;
}

bool site_of(const prepared *p, const kernel_form *k, size_t offset, place *at) {
    return offset < k->length && find_place(p, k->begin + offset, at);
}

bool place_of(const prepared *p, const kernel_form *k, size_t offset, char *room, size_t n) {
    place at;
    if (!site_of(p, k, offset, &at)) return false;
    put_place(room, n, &at);
    return true;
}

bool line_at(const prepared *p, const kernel_form *k, size_t offset, unsigned *row, unsigned *column, char *room,
             size_t n) {
    arena a = {0};
    place at;
    if (!site_of(p, k, offset, &at) || !at.line) return false;
    if (setjmp(a.failed)) {
        free_arena(&a);
        return false;
    }
    const char *line = line_of(p, &a, &at);
    bool fits = line && at.column && strlen(line) < n;
    if (fits) memcpy(room, line, strlen(line) + 1);
    *row = at.line;
    *column = at.column;
    free_arena(&a);
    return fits;
}

void put_place(char *room, size_t n, const place *at) { snprintf(room, n, "%s:%u:%u", at->file, at->line, at->column); }

const call_site *calls_round(const prepared *p, size_t offset) {
    const judged_place *at = p->is_own ? NULL : place_at(p, offset);
    return at ? at->calls : NULL;
}

const char *shown_as(const kernel_form *k, const char *name, size_t length) {
    for (unsigned i = 0; i < k->name_count; i++) {
        const char *judged = k->names[i].judged;
        if (strlen(judged) == length && !strncmp(judged, name, length)) return k->names[i].shown;
    }
    return name;
}

// (a byte of bit-fields is none's own)
static const field *field_at(const record *r, uint64_t offset) {
    for (unsigned i = 0; i < r->field_count; i++)
        if (!r->fields[i].is_bit_field && r->fields[i].offset <= offset && offset - r->fields[i].offset < r->fields[i].type->size)
            return &r->fields[i];
    return NULL;
}

void put_part(char *room, size_t n, const type *type, uint64_t offset) {
    *room = 0;
    for (size_t at = 0; at < n;) {
        if (type->kind == RECORD_TYPE) {
            const field *f = field_at(type->record, offset);
            if (!f) return;
            if (*f->name) at += (size_t)snprintf(room + at, n - at, ".%s", f->name);
            offset -= f->offset;
            type = f->type;
            continue;
        }
        bool is_vector = type->kind == VECTOR_TYPE;
        if ((type->kind != ARRAY_TYPE && !is_vector) || !type->of->size) return;
        unsigned long long index = offset / type->of->size;
        if (is_vector && type->length <= 4) at += (size_t)snprintf(room + at, n - at, ".%c", "xyzw"[index % 4]);
        else at += (size_t)snprintf(room + at, n - at, is_vector ? ".s%llx" : "[%llu]", index);
        offset %= type->of->size;
        type = type->of;
    }
}

const type *number_at(const type *type, uint64_t offset) {
    while (type->kind == RECORD_TYPE || type->kind == ARRAY_TYPE || type->kind == VECTOR_TYPE) {
        if (type->kind == RECORD_TYPE) {
            const field *f = field_at(type->record, offset);
            if (!f) return NULL;
            offset -= f->offset;
            type = f->type;
        } else {
            if (!type->of->size) return NULL;
            offset %= type->of->size;
            type = type->of;
        }
    }
    return (type->kind == INTEGER_TYPE || type->kind == FLOATING_TYPE) && !offset ? type : NULL;
}

// ---- what a refusal means ----

static const char *meaning(arena *a, const char *name) {
    const device_limits *limits = limits_of_device();
    text words = {.arena = a};
    if (!strcmp(name, "TooDeep")) addf(&words, "this is nested more than %zu deep", limits->nesting);
    else if (!strcmp(name, "TooLong")) addf(&words, "the source has more than %zu bytes", limits->source_bytes);
    else if (!strcmp(name, "TooManyLoops")) addf(&words, "loops are nested more than %zu deep", limits->loops);
    else if (!strcmp(name, "TooLarge")) return "an array is too large, or the kernel has too many parts";
    return words.length ? words.at : name;
}

const char *build_log(prepared *p, size_t begin, const char *reply) {
    text log = {.arena = &p->arena};
    char name[64] = "";
    unsigned long offset = 0;
    place at;
    if (setjmp(p->arena.failed)) return NULL;
    bool known = sscanf(reply, "refused 10 BuildFailed %*s %*u %63s at %lu", name, &offset) == 2;
    offset += begin;
    if (known && find_place(p, offset, &at)) add_message(p, &log, &at, meaning(&p->arena, name));
    if (known && offset <= p->length) {
        size_t line = offset;
        while (line && p->text[line - 1] != '\n') line--;
        addf(&log, "as it is judged:\n%.*s\n%*s^\n", (int)strcspn(p->text + line, "\n"), p->text + line,
             (int)(offset - line), "");
    }
    addf(&log, "%s\n", reply);
    return p->log = log.at;
}

// ---- kernels ----

// A name of clang's without the address spaces and qualifiers in front of it.
static const char *behind_qualifiers(const char *name) {
    static const char *const words[] = {"const ",      "volatile ", "__private ", "__global ",
                                        "__constant ", "__local ",  NULL};
    for (const char *const *w = words; *w;) {
        size_t n = strlen(*w);
        if (strncmp(name, *w, n)) w++;
        else {
            name += n;
            w = words;
        }
    }
    return name;
}

static const char *floating_name(unsigned width) { return width == 2 ? "half" : width == 4 ? "float" : "double"; }

// A type as a client declares it: without address spaces and qualifiers, with OpenCL's own words for unsigned types
// (OpenCL 1.2, table 5.21).
static const char *told_type(arena *a, const type *t) {
    text name = {.arena = a};
    const type *of = t->kind == POINTER_TYPE ? t->of : t;
    const type *number = of->kind == VECTOR_TYPE ? of->of : of;
    bool is_integer = number->kind == INTEGER_TYPE && !number->is_bool, is_floating = number->kind == FLOATING_TYPE;
    add(&name, is_integer    ? name_of(integer_of(number->width, number->is_signed))
               : is_floating ? floating_name(number->width)
                             : behind_qualifiers(number->name));
    if (of->kind == VECTOR_TYPE) addf(&name, "%u", (unsigned)of->length);
    if (t->kind == POINTER_TYPE) add(&name, "*");
    return name.at;
}

// An attribute as it is declared (OpenCL 1.2, table 5.20). (To clang the word `kernel` is one.)
static void add_attribute(text *words, const attribute *t) {
    if (t->declared && t->kind != KERNEL_ATTRIBUTE) addf(words, "%s%s", words->length ? " " : "", t->declared);
}

static unsigned lines_in(const char *text, size_t length) {
    unsigned n = 0;
    for (size_t i = 0; i < length; i++) n += text[i] == '\n';
    return n;
}

static void list_kernel(arena *a, const prepared *p, kernel_form *k, const judged_kernel *judged) {
    const node *f = judged->function;
    text words = {.arena = a};
    add(&words, "");
    *k = (kernel_form){.name = f->name,
                       .judged_name = judged->name,
                       .parameters = take(a, (f->part_count + 1) * sizeof(parameter)),
                       .count = f->part_count,
                       .judged = judged->parameters,
                       .judged_count = judged->parameter_count,
                       .names = judged->names,
                       .name_count = judged->name_count,
                       .locals = judged->locals,
                       .local_count = judged->local_count,
                       .begin = judged->begin,
                       .length = judged->length,
                       .function = f,
                       .accesses = judged->accesses,
                       .printed = judged->printed,
                       .printed_count = judged->printed_count,
                       .lines = lines_in(p->text + judged->begin, judged->length)};
    for (unsigned i = 0; i < f->part_count; i++) {
        const node *q = f->parts[i];
        k->parameters[i] = (parameter){q->name ? q->name : "", q->type, told_type(a, q->type)};
    }
    for (const attribute *t = f->attributes; t; t = t->next) {
        add_attribute(&words, t);
        for (int d = 0; t->kind == REQUIRED_SIZE_ATTRIBUTE && d < 3; d++) k->group[d] = t->numbers[d];
    }
    k->attributes = words.at;
}

// ---- the whole ----

static void keep_judged(arena *a, prepared *p, const judged_source *judged) {
    p->text = judged->text;
    p->length = judged->length;
    p->places = judged->places;
    p->place_count = judged->place_count;
    p->tables = judged->tables;
    p->table_count = judged->table_count;
    p->table_numbers = judged->table_numbers;
    p->table_room = judged->table_room;
    p->kernel_count = judged->kernel_count;
    p->kernels = take(a, (p->kernel_count + 1) * sizeof *p->kernels);
    for (unsigned i = 0; i < p->kernel_count; i++) list_kernel(a, p, &p->kernels[i], &judged->kernels[i]);
    if (*judged->notes) p->log = judged->notes;
}

// What is refused, as the log.
static bool log_refusal(prepared *p, const refusal *wrong) {
    text log = {.arena = &p->arena};
    add_message(p, &log, &wrong->at, wrong->message);
    p->log = log.at;
    return false;
}

// The one tree of several sources; NULL where there is none, and the log says why.
static const tree *read_trees(prepared *p, client_source *sources, unsigned count) {
    arena *a = &p->arena;
    tree **trees = take(a, count * sizeof *trees), *whole = take(a, sizeof *whole);
    refusal wrong;
    for (unsigned i = 0; i < count; i++) {
        trees[i] = take(a, sizeof **trees);
        if (read_compiled(a, &sources[i], i ? trees[i - 1]->node_count - 1 : 0, trees[i])) continue;
        p->log = trees[i]->log;
        return NULL;
    }
    if (link_trees(a, trees, count, whole, &wrong)) return whole;
    log_refusal(p, &wrong);
    return NULL;
}

static bool translate_sources(prepared *p, client_source *sources, unsigned count) {
    arena *a = &p->arena;
    judged_source *judged = take(a, sizeof *judged);
    refusal wrong;
    const tree *t = read_trees(p, sources, count);
    if (!t) return false;
    if (!translate(a, t, judged, &wrong)) return log_refusal(p, &wrong);
    if (!judged->kernel_count) { // a program is a function at least
        judged->text = copy_text(a, "void clsim_nothing() {\n}\n", 25);
        judged->length = strlen(judged->text);
    }
    keep_judged(a, p, judged);
    p->tree = t;
    return true;
}

// Options with macros may change each word of a source.
static bool has_macros(const char *options) { return options && strstr(options, "-D"); }

// Whether the source is judged as it is: it is a program in Clsim's language. CLSIM_REWRITE=0 takes every source for
// one, 1 none.
static bool is_judged_as_it_is(prepared *p, const client_source *source, session *device) {
    const char *rewriting = setting("CLSIM_REWRITE");
    text whole = {.arena = &p->arena};
    if (has_macros(source->options) || (rewriting && !strcmp(rewriting, "1"))) return false;
    add(&whole, source->source.text);
    if (!whole.length || whole.at[whole.length - 1] != '\n') add(&whole, "\n");
    p->text = whole.at;
    p->length = whole.length;
    p->is_own = rewriting && !strcmp(rewriting, "0");
    p->lines = lines_in(p->text, p->length);
    if (!p->is_own) p->is_own = is_own_program(p, device);
    return p->is_own;
}

// Keeps the client's texts for places. Where there are several sources they are numbered from 1 on.
static void keep_texts(prepared *p, client_source *sources, unsigned count) {
    unsigned n = 0;
    for (unsigned i = 0; i < count; i++) n += 1 + sources[i].header_count;
    named_text *texts = take(&p->arena, n * sizeof *texts);
    p->texts = texts;
    for (unsigned i = 0; i < count; i++) {
        text name = {.arena = &p->arena};
        addf(&name, "source%u", i + 1);
        sources[i].source.name = count > 1 ? name.at : "source";
        texts[p->text_count++] = sources[i].source;
        for (unsigned k = 0; k < sources[i].header_count; k++) texts[p->text_count++] = sources[i].headers[k];
    }
}

preparation prepare_linked(prepared *p, client_source *sources, unsigned count, session *device) {
    if (setjmp(p->arena.failed)) {
        free_prepared(p);
        return NO_MEMORY;
    }
    keep_texts(p, sources, count);
    bool may_be_own = count == 1 && !sources->preprocessed;
    p->is_own = may_be_own && is_judged_as_it_is(p, sources, device) && list_own_kernels(p);
    if (!p->is_own && !translate_sources(p, sources, count)) return NOT_PREPARED;
    p->lines = lines_in(p->text, p->length);
    return PREPARED;
}

preparation prepare_source(prepared *p, const char *source, const char *options, session *device) {
    client_source *s = NULL;
    memset(p, 0, sizeof *p);
    if (setjmp(p->arena.failed)) {
        free_prepared(p);
        return NO_MEMORY;
    }
    s = take(&p->arena, sizeof *s);
    *s = (client_source){.source = {"source", copy_text(&p->arena, source, strlen(source))}, .options = options};
    return prepare_linked(p, s, 1, device);
}

preparation prepare_compiled(prepared *p, client_source *source, session *device) {
    if (setjmp(p->arena.failed)) {
        free_prepared(p);
        return NO_MEMORY;
    }
    keep_texts(p, source, 1);
    p->is_own = is_judged_as_it_is(p, source, device) && list_own_kernels(p);
    if (!p->is_own) p->log = compile_source(&p->arena, source);
    return p->log ? NOT_PREPARED : PREPARED;
}

// The tree of a source that is judged as it is, for what asks for more of it. NULL where clang doesn't read it.
static const tree *tree_of_own(prepared *p) {
    client_source *s = take(&p->arena, sizeof *s);
    tree *t = take(&p->arena, sizeof *t);
    *s = (client_source){.source = p->texts[0]};
    return read_compiled(&p->arena, s, 0, t) ? t : NULL;
}

static const node *kernel_named(const tree *t, const char *name) {
    for (unsigned i = 0; i < t->declaration_count; i++) {
        const node *n = t->declarations[i];
        if (n->kind == FUNCTION_DECLARATION && n->body && !strcmp(n->name, name)) return n;
    }
    return NULL;
}

preparation prepare_held(prepared *p, const kernel_form *k, const unsigned char *held, prepared *to) {
    refusal wrong;
    if (setjmp(p->arena.failed)) return NO_MEMORY;
    if (!p->tree) p->tree = tree_of_own(p);
    const node *function = !p->tree ? NULL : k->function ? k->function : kernel_named(p->tree, k->name);
    if (!function) return NOT_PREPARED;
    judged_source *judged = take(&p->arena, sizeof *judged);
    *judged = (judged_source){.tables = p->tables,
                              .table_count = p->table_count,
                              .table_numbers = p->table_numbers,
                              .table_room = p->table_room};
    bool is_done = translate_held(&p->arena, p->tree, function, held, judged, &wrong);
    if (!is_done || judged->kernel_count != 1 || judged->table_count != p->table_count) return NOT_PREPARED;
    *to = (prepared){.texts = p->texts, .text_count = p->text_count, .tree = p->tree};
    keep_judged(&p->arena, to, judged);
    return PREPARED;
}

void free_prepared(prepared *p) {
    free_arena(&p->arena);
    memset(p, 0, sizeof *p);
}
