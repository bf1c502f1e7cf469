// What is told of the number that an access moves. (The explanation has it as one without a sign.)
#include "accessed.h"
#include "formats.h"
#include <inttypes.h>
#include <math.h>
#include <stdio.h>
#include <stdlib.h>
#include <string.h>

// ---- numbers ----

// The number of a width that is nearest to what a text says.
static double read_floating(const char *text, unsigned width) {
    if (width == 2) return floating_of(half_of(strtod(text, NULL)), width);
    return width == 4 ? (double)strtof(text, NULL) : strtod(text, NULL);
}

// The fewest digits that are read back as the same number.
static void put_floating(char *room, size_t n, double value, unsigned width) {
    locale_t before = begin_c_locale();
    for (int digits = 1; digits <= 17; digits++) {
        snprintf(room, n, "%.*g", digits, value);
        if (read_floating(room, width) == value) break;
    }
    end_c_locale(before);
    bool is_whole = strspn(room, "-0123456789") == strlen(room);
    size_t length = strlen(room);
    snprintf(room + length, n - length, "%s%s", is_whole ? ".0" : "", width == 2 ? "h" : width == 4 ? "f" : "");
}

// A number of a type as OpenCL C has it: `-2`, `0.1h`, `0.1f`, `0.1`.
static void put_value(char *room, size_t n, const type *type, uint64_t bits) {
    bool is_floating = type->kind == FLOATING_TYPE;
    double value = is_floating ? floating_of(bits, type->width) : 0;
    if (is_floating && isfinite(value)) put_floating(room, n, value, type->width);
    else if (is_floating && isinf(value)) snprintf(room, n, value < 0 ? "-INFINITY" : "INFINITY");
    else if (is_floating) snprintf(room, n, "NAN");
    else if (type->kind == INTEGER_TYPE && type->is_signed)
        snprintf(room, n, "%" PRId64, (int64_t)converted(bits, integer_of(type->width, true)));
    else if (type->kind == INTEGER_TYPE) snprintf(room, n, "%" PRIu64, bits);
    else snprintf(room, n, "0x%0*" PRIx64, 2 * (int)type->width, bits);
}

// ---- names ----

// Where a byte of the object lies in the client's source.
typedef struct {
    char name[256];
    const type *number; // the number that begins there, NULL for none
} named_place;

static void name_element(named_place *to, const char *name, const type *element, uint64_t byte, bool is_element) {
    char part[160];
    uint64_t width = element->size ? element->size : 1, offset = is_element ? byte % width : byte;
    put_part(part, sizeof part, element, offset);
    if (is_element) snprintf(to->name, sizeof to->name, "%s[%" PRIu64 "]%s", name, byte / width, part);
    else snprintf(to->name, sizeof to->name, "%s%s", name, part);
    to->number = number_at(element, offset);
}

// By the first argument that is the buffer and has the byte.
static bool name_in_buffer(cl_kernel k, const memory_place *m, uint64_t byte, named_place *to) {
    unsigned number = *m->name == 'b' ? (unsigned)strtoul(m->name + 1, NULL, 10) : 0;
    for (unsigned i = 0; i < k->form->count; i++) {
        cl_mem b = k->arguments[i].memory;
        if (!b || given_number(k, i, b) != number) continue;
        uint64_t begin = number == b->number ? 0 : b->origin;
        if (byte < begin || byte - begin >= b->size) continue;
        name_element(to, k->form->parameters[i].name, k->form->parameters[i].type->of, byte - begin, true);
        return true;
    }
    return false;
}

static bool name_in_local(const kernel_form *form, const memory_place *m, uint64_t byte, named_place *to) {
    for (unsigned i = 0; i < form->local_count; i++) {
        const local_object *l = &form->locals[i];
        if (strlen(l->judged) != m->length || strncmp(l->judged, m->name, m->length)) continue;
        name_element(to, l->shown, l->type, byte, l->is_parameter);
        return true;
    }
    return false;
}

bool put_local_name(char *room, size_t n, const kernel_form *form, const char *object, uint64_t byte, uint64_t bytes) {
    const memory_place m = {.is_local = true, .name = object, .length = strlen(object)};
    named_place at;
    if (!name_in_local(form, &m, byte, &at) || !at.number || at.number->width != bytes) return false;
    snprintf(room, n, "%s", at.name);
    return true;
}

// ---- accesses ----

// The step that is the event of an item: by its number, or, in version 2, by its place in the list.
static json step_of(json explanation, json item) {
    unsigned long wanted, number, place = 0;
    json steps = json_member(explanation, "steps"), none = {NULL, NULL};
    if (!json_number(json_member(item, "event"), &wanted)) return none;
    for (json s = json_first(steps); s.at; s = json_next(steps, s)) {
        place++;
        if (!json_number(json_member(s, "event"), &number)) number = place;
        if (number == wanted) return s;
    }
    return none;
}

// The object of a step: `buffer b1`, or `local 0 t` with the number of its group. Its name stays in `room`.
static bool read_object(json memory, char *room, size_t n, memory_place *m) {
    char *end = room;
    if (!json_string(memory, room, n)) return false;
    *m = (memory_place){.is_local = !strncmp(room, "local ", 6)};
    if (m->is_local) m->group = strtoul(room + 6, &end, 10);
    m->name = m->is_local ? end + (*end == ' ') : room + 7;
    m->length = strlen(room) > 7 ? strlen(m->name) : 0;
    return m->length && (m->is_local || !strncmp(room, "buffer ", 7));
}

// A number that an explanation has as text.
static bool text_number(json v, uint64_t *n) {
    char room[32], *end;
    if (!json_word(v, room, sizeof room) || !*room) return false;
    *n = strtoull(room, &end, 10);
    return !*end;
}

bool put_accessed(char *room, size_t n, cl_kernel k, json step) {
    unsigned long byte, bytes;
    uint64_t value, left;
    char does[32], object[256], found[64], later[64];
    memory_place m;
    named_place at;
    if (!json_number(json_member(step, "byte"), &byte) || !json_number(json_member(step, "bytes"), &bytes) ||
        !text_number(json_member(step, "value"), &value) || !json_word(json_member(step, "does"), does, sizeof does) ||
        !read_object(json_member(step, "memory"), object, sizeof object, &m) ||
        !(m.is_local ? name_in_local(k->form, &m, byte, &at) : name_in_buffer(k, &m, byte, &at)))
        return false;
    const type plain = {.kind = INTEGER_TYPE, .width = (unsigned)bytes};
    const type *of = at.number && at.number->width == bytes ? at.number : &plain;
    put_value(found, sizeof found, of, value);
    if (text_number(json_member(step, "left"), &left)) {
        put_value(later, sizeof later, of, left);
        snprintf(room, n, "%s was %s, now %s", at.name, found, later);
    } else snprintf(room, n, "%s %s %s", at.name, strcmp(does, "store") ? "is" : "=", found);
    return true;
}

void tell_accessed(cl_kernel k, json explanation, json item) {
    char words[512];
    unsigned long number, of_step;
    json step = step_of(explanation, item);
    bool is_items = json_number(json_member(item, "item"), &number) &&
                    json_number(json_member(step, "item"), &of_step) && number == of_step;
    if (is_items && put_accessed(words, sizeof words, k, step)) tell("    %s", words);
}
