// The kernels of a program in Clsim's language (docs/use/language.md). The device has taken it, so that its grammar
// holds: only what tells its parameters and its local arrays is looked at.
#include "own.h"
#include <stdlib.h>
#include <string.h>

typedef struct {
    arena *arena;
    const char *at; // behind the word
    char word[64];  // a name, a number or one symbol; empty at the end; a longer one is cut
    const char *begin;
} words;

static bool is_name_byte(char c) {
    return c == '_' || (c >= '0' && c <= '9') || (c >= 'a' && c <= 'z') || (c >= 'A' && c <= 'Z');
}

static const char *behind_blanks(const char *at) {
    for (;;) {
        at += strspn(at, " \t\r\n");
        if (!strncmp(at, "//", 2)) at += strcspn(at, "\n");
        else if (!strncmp(at, "/*", 2)) {
            const char *end = strstr(at + 2, "*/");
            at = end ? end + 2 : at + strlen(at);
        } else return at;
    }
}

static void next_word(words *w) {
    const char *at = behind_blanks(w->at);
    size_t n = 0, kept;
    while (is_name_byte(at[n])) n++;
    if (!n && *at) n = 1;
    kept = n < sizeof w->word - 1 ? n : sizeof w->word - 1;
    memcpy(w->word, at, kept);
    w->word[kept] = 0;
    w->begin = at;
    w->at = at + n;
}

static bool is_word(const words *w, const char *word) { return !strcmp(w->word, word); }

// The word as a text of its own, however long it is.
static const char *kept_word(const words *w) { return copy_text(w->arena, w->begin, (size_t)(w->at - w->begin)); }

static type *integer_named(arena *a, const char *word) {
    type *t = take(a, sizeof *t);
    if (!strcmp(word, "size_t")) word = name_of(ULONG);
    for (integer_type i = CHAR; i <= ULONG; i++)
        if (!strcmp(word, name_of(i)))
            *t = (type){.kind = INTEGER_TYPE,
                        .width = width_of(i),
                        .is_signed = is_signed(i),
                        .size = width_of(i),
                        .align = width_of(i),
                        .name = name_of(i)};
    return t;
}

// The address space that a word names, without its underscores; PRIVATE_SPACE for any other.
static address_space space_named(const char *word) {
    if (!strncmp(word, "__", 2)) word += 2;
    if (!strcmp(word, "global")) return GLOBAL_SPACE;
    if (!strcmp(word, "local")) return LOCAL_SPACE;
    return !strcmp(word, "constant") ? CONSTANT_SPACE : PRIVATE_SPACE;
}

// A parameter: [space] [const] type [*] name. Ends at what follows it.
static parameter read_parameter(words *w) {
    address_space space = space_named(w->word);
    bool is_const = false;
    if (space != PRIVATE_SPACE) next_word(w);
    if (is_word(w, "const")) {
        is_const = true;
        next_word(w);
    }
    type *number = integer_named(w->arena, w->word), *pointer = take(w->arena, sizeof *pointer);
    text name = {.arena = w->arena};
    next_word(w);
    addf(&name, "%s%s", number->name ? number->name : "", space == PRIVATE_SPACE ? "" : "*");
    if (space != PRIVATE_SPACE) {
        number->space = space;
        number->is_const = is_const;
        *pointer = (type){.kind = POINTER_TYPE, .of = number, .size = 8, .align = 8, .name = name.at};
        next_word(w); // the star
    }
    parameter p = {kept_word(w), space == PRIVATE_SPACE ? number : pointer, name.at};
    next_word(w);
    return p;
}

static unsigned commas_in(const char *at) {
    unsigned n = 0;
    for (; *at && *at != ')'; at++) n += *at == ',';
    return n;
}

static void read_parameters(words *w, kernel_form *k) {
    unsigned room = commas_in(w->at) + 1;
    k->parameters = take(w->arena, room * sizeof *k->parameters);
    k->judged = take(w->arena, room * sizeof *k->judged);
    k->locals = take(w->arena, room * sizeof *k->locals);
    next_word(w);
    while (!is_word(w, ")") && *w->word && k->count < room) {
        parameter p = read_parameter(w);
        bool is_pointer = p.type->kind == POINTER_TYPE;
        const type *number = is_pointer ? p.type->of : p.type;
        bool is_local = is_pointer && number->space == LOCAL_SPACE;
        integer_type core = integer_of(number->width, number->is_signed);
        k->judged[k->judged_count++] = (judged_parameter){.kind = is_local     ? LOCAL_PARAMETER
                                                                  : is_pointer ? BUFFER_PARAMETER
                                                                               : VALUE_PARAMETER,
                                                          .type = core,
                                                          .argument = k->count};
        if (is_local) k->locals[k->local_count++] = (local_object){p.name, p.name, number, core, true, k->count};
        k->parameters[k->count++] = p;
        if (is_word(w, ",")) next_word(w);
    }
}

// A local array in the body of a kernel: `__local type name[length];`. A pointer to local memory is none.
static void read_local(words *w, kernel_form *k, unsigned *room) {
    next_word(w);
    if (is_word(w, "const")) return;
    type *number = integer_named(w->arena, w->word), *array = take(w->arena, sizeof *array);
    next_word(w);
    if (!number->name || is_word(w, "*")) return;
    const char *name = kept_word(w);
    next_word(w); // the bracket
    next_word(w);
    uint64_t length = strtoull(w->word, NULL, 0);
    number->space = LOCAL_SPACE;
    *array = (type){.kind = ARRAY_TYPE,
                    .space = LOCAL_SPACE,
                    .of = number,
                    .length = length,
                    .size = length * number->size,
                    .align = number->align,
                    .name = name};
    if (k->local_count == *room) {
        local_object *more = take(w->arena, 2 * (*room + 4) * sizeof *more);
        memcpy(more, k->locals, k->local_count * sizeof *more);
        k->locals = more;
        *room = 2 * (*room + 4);
    }
    k->locals[k->local_count++] =
        (local_object){name, name, array, integer_of(number->width, number->is_signed), false, 0};
}

// The block behind a function's parameters. Of a kernel its local arrays are listed.
static void read_block(words *w, kernel_form *k) {
    unsigned depth = 0, room = k ? k->local_count : 0;
    while (*w->word) {
        if (is_word(w, "{")) depth++;
        else if (is_word(w, "}") && !--depth) return;
        else if (k && (is_word(w, "__local") || is_word(w, "local"))) read_local(w, k, &room);
        next_word(w);
    }
}

bool is_own_program(prepared *p, session *device) {
    text command = {.arena = &p->arena};
    if (p->lines > MAX_LINES) return false;
    addf(&command, "program p0 %u\n", p->lines);
    add_bytes(&command, p->text, p->length);
    session_record(device, false);
    const char *reply = session_ask(device, command.at, command.length);
    bool takes = reply && !strcmp(reply, "ok");
    if (takes) session_askf(device, "release p0\n");
    session_record(device, true);
    return takes;
}

// A kernel behind its first word, up to its block. Its name may be longer than those of a script.
static void read_kernel(words *w, kernel_form *k, const prepared *p) {
    next_word(w); // void
    next_word(w);
    const char *name = kept_word(w);
    *k = (kernel_form){.name = name, .judged_name = name, .length = p->length, .lines = p->lines, .attributes = ""};
    next_word(w); // the bracket
    read_parameters(w, k);
}

static bool have_names_of_scripts(const prepared *p) {
    for (unsigned i = 0; i < p->kernel_count; i++)
        if (strlen(p->kernels[i].name) > MOST_NAME) return false;
    return true;
}

bool list_own_kernels(prepared *p) {
    words w = {.arena = &p->arena, .at = p->text};
    unsigned room = 0;
    for (next_word(&w); *w.word; next_word(&w)) room += is_word(&w, "__kernel") || is_word(&w, "kernel");
    p->kernels = take(&p->arena, (room + 1) * sizeof *p->kernels);
    w = (words){.arena = &p->arena, .at = p->text};
    for (next_word(&w); *w.word; next_word(&w)) {
        kernel_form *k = NULL;
        if ((is_word(&w, "__kernel") || is_word(&w, "kernel")) && p->kernel_count < room) {
            k = &p->kernels[p->kernel_count++];
            read_kernel(&w, k, p);
        }
        while (*w.word && !is_word(&w, "{")) next_word(&w);
        read_block(&w, k);
    }
    bool is_listed = have_names_of_scripts(p);
    if (!is_listed) p->kernel_count = 0;
    return is_listed;
}
