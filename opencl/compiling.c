// Programs that are compiled and linked apart (OpenCL 1.2, 5.6.3).
#include "objects.h"
#include "units.h"
#include <stdio.h>
#include <stdlib.h>
#include <string.h>

// ---- binaries ----

// What a binary begins with, by its type. That of a program that is built as a whole is its source.
static const char of_source[] = "CLSIM-SOURCE 1\n";
static const struct {
    cl_program_binary_type type;
    const char *head;
} of_units[] = {{CL_PROGRAM_BINARY_TYPE_COMPILED_OBJECT, "CLSIM-UNITS 1 object\n"},
                {CL_PROGRAM_BINARY_TYPE_LIBRARY, "CLSIM-UNITS 1 library\n"},
                {CL_PROGRAM_BINARY_TYPE_EXECUTABLE, "CLSIM-UNITS 1 executable\n"}};

const char *binary_head(cl_program p) {
    if (!p->units) return p->type == CL_PROGRAM_BINARY_TYPE_EXECUTABLE ? of_source : NULL;
    for (size_t i = 0; i < sizeof of_units / sizeof *of_units; i++)
        if (of_units[i].type == p->type) return of_units[i].head;
    return NULL;
}

// Whether some bytes begin with a head; then it is taken off.
static bool take_head(binary_parts *b, const char *head) {
    size_t n = strlen(head);
    if (b->length < n || memcmp(b->at, head, n)) return false;
    b->at += n;
    b->length -= n;
    return true;
}

static bool are_units(const char *at, size_t length) {
    arena a = {0};
    unsigned count;
    if (setjmp(a.failed)) {
        free_arena(&a);
        return false;
    }
    bool are_whole = read_units(&a, at, length, &count);
    free_arena(&a);
    return are_whole;
}

bool take_binary(const unsigned char *at, size_t length, binary_parts *to) {
    *to = (binary_parts){(const char *)at, length, CL_PROGRAM_BINARY_TYPE_EXECUTABLE, false};
    if (take_head(to, of_source)) return true;
    to->has_units = true;
    for (size_t i = 0; i < sizeof of_units / sizeof *of_units; i++) {
        to->type = of_units[i].type;
        if (take_head(to, of_units[i].head)) return are_units(to->at, to->length);
    }
    return false;
}

preparation prepare_units(cl_program p) {
    prepared *form = &p->form;
    unsigned count;
    if (setjmp(form->arena.failed)) {
        free_prepared(form);
        return NO_MEMORY;
    }
    client_source *sources = read_units(&form->arena, p->units, p->units_length, &count);
    return prepare_linked(form, sources, count, p->context->session);
}

// ---- compiling ----

static bool is_from_source(cl_program p) { return !p->from_binary && !p->is_linked; }

// Judges what a compile is given besides its program.
static cl_int judge_headers(cl_context c, cl_uint n, const cl_program *headers, const char **names) {
    if ((!n) != (!headers) || (!n) != (!names)) return CL_INVALID_VALUE;
    for (cl_uint i = 0; i < n; i++) {
        if (!is_a(headers[i], PROGRAM) || headers[i]->context != c || !is_from_source(headers[i]))
            return CL_INVALID_PROGRAM;
        if (!names[i]) return CL_INVALID_VALUE;
    }
    return CL_SUCCESS;
}

// The source of a program with its headers, in the arena of its form.
static client_source *source_with(cl_program p, cl_uint n, const cl_program *headers, const char **names) {
    arena *a = &p->form.arena;
    client_source *s = take(a, sizeof *s);
    named_text *all = take(a, (n + 1) * sizeof *all);
    for (cl_uint i = 0; i < n; i++)
        all[i] = (named_text){copy_text(a, names[i], strlen(names[i])),
                              copy_text(a, headers[i]->source, headers[i]->length)};
    *s = (client_source){.source = {"source", copy_text(a, p->source, p->length)},
                         .options = p->options,
                         .headers = all,
                         .header_count = n};
    return s;
}

// Keeps what was compiled, as bytes. What it was made of goes.
static bool keep_unit(cl_program p, const client_source *source) {
    if (setjmp(p->form.arena.failed)) {
        free_prepared(&p->form);
        return false;
    }
    text unit = {.arena = &p->form.arena};
    add_unit(&unit, source);
    p->units = malloc(unit.length);
    if (p->units) memcpy(p->units, unit.at, unit.length);
    p->units_length = unit.length;
    free_prepared(&p->form);
    return p->units != NULL;
}

// Which text has a byte 0, behind which it would be left out; NULL for none.
static const char *cut_text(cl_program p, cl_uint n, const cl_program *headers, const char **names) {
    if (strlen(p->source) != p->length) return "source";
    for (cl_uint i = 0; i < n; i++)
        if (strlen(headers[i]->source) != headers[i]->length) return names[i];
    return NULL;
}

static cl_int compile_with(cl_program p, cl_uint n, const cl_program *headers, const char **names) {
    prepared *form = &p->form;
    if (setjmp(form->arena.failed)) {
        free_prepared(form);
        return CL_OUT_OF_HOST_MEMORY;
    }
    const char *cut = cut_text(p, n, headers, names);
    if (cut) {
        text log = {.arena = &form->arena};
        addf(&log, "%s: error: a byte 0 stands in it\n", cut);
        form->log = log.at;
        return CL_COMPILE_PROGRAM_FAILURE;
    }
    client_source *source = source_with(p, n, headers, names);
    preparation made = prepare_compiled(form, source, p->context->session);
    if (made != PREPARED) return made == NO_MEMORY ? CL_OUT_OF_HOST_MEMORY : CL_COMPILE_PROGRAM_FAILURE;
    if (!keep_unit(p, source)) return CL_OUT_OF_HOST_MEMORY;
    p->type = CL_PROGRAM_BINARY_TYPE_COMPILED_OBJECT;
    p->status = CL_BUILD_SUCCESS;
    return CL_SUCCESS;
}

static cl_int compile(cl_program p, const char *options, cl_uint n, const cl_program *headers, const char **names) {
    if (p->uses || !is_from_source(p)) return CL_INVALID_OPERATION;
    release_built(p);
    p->status = CL_BUILD_ERROR;
    p->options = strdup(options ? options : "");
    if (!p->options) return CL_OUT_OF_HOST_MEMORY;
    cl_int wrong = judge_options(p->context, options, COMPILER_OPTION, CL_INVALID_COMPILER_OPTIONS, &p->form);
    return wrong ? wrong : compile_with(p, n, headers, names);
}

CL_API_ENTRY cl_int CL_API_CALL clCompileProgram(cl_program p, cl_uint n, const cl_device_id *devices,
                                                 const char *options, cl_uint header_count, const cl_program *headers,
                                                 const char **names, void(CL_CALLBACK *notify)(cl_program, void *),
                                                 void *user) {
    cl_int fault;
    {
        LOCKED;
        if (!is_a(p, PROGRAM)) return CL_INVALID_PROGRAM;
        if (!notify && user) return CL_INVALID_VALUE;
        fault = judge_devices(n, devices);
        if (!fault) fault = judge_headers(p->context, header_count, headers, names);
        if (fault) return fault;
        fault = compile(p, options, header_count, headers, names);
    }
    if (notify) notify(p, user); // without the lock
    return fault;
}

// ---- linking ----

static bool is_compiled(cl_program p) {
    return p->type == CL_PROGRAM_BINARY_TYPE_COMPILED_OBJECT || p->type == CL_PROGRAM_BINARY_TYPE_LIBRARY;
}

// Judges the programs of a link: all are compiled, or none is (5.6.3); how many are goes into `compiled`.
static cl_int judge_inputs(cl_context c, cl_uint n, const cl_program *programs, cl_uint *compiled) {
    *compiled = 0;
    if (!n || !programs) return CL_INVALID_VALUE;
    for (cl_uint i = 0; i < n; i++) {
        if (!is_a(programs[i], PROGRAM) || programs[i]->context != c) return CL_INVALID_PROGRAM;
        *compiled += is_compiled(programs[i]);
    }
    if (!*compiled || *compiled == n) return CL_SUCCESS;
    refuse(c, "clLinkProgram: %u of %u programs are compiled ones or libraries", *compiled, n);
    return CL_INVALID_OPERATION;
}

// What options of a linker ask for. (5.6.5.1: the one is for a library alone.)
static cl_int judge_linking(cl_context c, const char *options, bool *is_library) {
    arena a = {0};
    cl_int fault = judge_options(c, options, LINKER_OPTION, CL_INVALID_LINKER_OPTIONS, NULL);
    if (fault) return fault;
    if (setjmp(a.failed)) {
        free_arena(&a);
        return CL_OUT_OF_HOST_MEMORY;
    }
    *is_library = has_option(&a, options, "-create-library");
    bool is_right = *is_library || !has_option(&a, options, "-enable-link-options");
    free_arena(&a);
    if (is_right) return CL_SUCCESS;
    refuse(c, "clLinkProgram: -enable-link-options is for libraries (-create-library)");
    return CL_INVALID_LINKER_OPTIONS;
}

// A program with the units of others.
static cl_program joined(cl_context c, const char *options, cl_uint n, const cl_program *programs) {
    cl_program p = new_program(c, calloc(1, 1), 0);
    size_t length = 0;
    if (!p) return NULL;
    p->is_linked = true;
    for (cl_uint i = 0; i < n; i++) length += programs[i]->units_length;
    p->options = strdup(options ? options : "");
    p->units = malloc(length + 1);
    if (!p->options || !p->units) {
        p->references = 0;
        drop_program(p);
        return NULL;
    }
    for (cl_uint i = 0; i < n; i++) {
        memcpy(p->units + p->units_length, programs[i]->units, programs[i]->units_length);
        p->units_length += programs[i]->units_length;
    }
    return p;
}

static cl_int make_executable(cl_program p) {
    preparation done = prepare_units(p);
    if (done == NO_MEMORY) return CL_OUT_OF_HOST_MEMORY;
    cl_int fault = done == PREPARED ? build_prepared(p) : CL_LINK_PROGRAM_FAILURE;
    return fault == CL_BUILD_PROGRAM_FAILURE ? CL_LINK_PROGRAM_FAILURE : fault;
}

// Links programs that are compiled. NULL where the link can't begin.
static cl_program link_compiled(cl_context c, const char *options, bool is_library, cl_uint n,
                                const cl_program *programs, cl_int *errcode) {
    cl_program p = joined(c, options, n, programs);
    if (!p) return fail(errcode, CL_OUT_OF_HOST_MEMORY);
    cl_int fault = is_library ? CL_SUCCESS : make_executable(p);
    if (fault && fault != CL_LINK_PROGRAM_FAILURE) {
        p->references = 0;
        drop_program(p);
        return fail(errcode, fault);
    }
    p->status = fault ? CL_BUILD_ERROR : CL_BUILD_SUCCESS;
    p->type = fault        ? CL_PROGRAM_BINARY_TYPE_NONE
              : is_library ? CL_PROGRAM_BINARY_TYPE_LIBRARY
                           : CL_PROGRAM_BINARY_TYPE_EXECUTABLE;
    if (errcode) *errcode = fault;
    return p;
}

// Where none of the programs is compiled, no executable is made (5.6.3).
static cl_program link_nothing(cl_context c, const char *options, cl_int *errcode) {
    cl_program p = joined(c, options, 0, NULL);
    if (!p) return fail(errcode, CL_OUT_OF_HOST_MEMORY);
    free(p->units);
    p->units = NULL;
    refuse(c, "clLinkProgram: none of the programs is compiled, so that no executable is made");
    done(errcode);
    return p;
}

CL_API_ENTRY cl_program CL_API_CALL clLinkProgram(cl_context c, cl_uint n, const cl_device_id *devices,
                                                  const char *options, cl_uint count, const cl_program *programs,
                                                  void(CL_CALLBACK *notify)(cl_program, void *), void *user,
                                                  cl_int *errcode) {
    cl_program p;
    {
        LOCKED;
        cl_uint compiled;
        bool is_library;
        if (!is_a(c, CONTEXT)) return fail(errcode, CL_INVALID_CONTEXT);
        cl_int fault = !notify && user ? CL_INVALID_VALUE : judge_devices(n, devices);
        if (!fault) fault = judge_linking(c, options, &is_library);
        if (!fault) fault = judge_inputs(c, count, programs, &compiled);
        if (fault) return fail(errcode, fault);
        p = compiled ? link_compiled(c, options, is_library, count, programs, errcode)
                     : link_nothing(c, options, errcode);
    }
    if (p && notify) notify(p, user); // without the lock
    return p;
}
