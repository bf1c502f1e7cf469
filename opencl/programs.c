#include "widening.h"
#include <inttypes.h>
#include <stdio.h>
#include <stdlib.h>
#include <string.h>

// ---- programs ----

void drop_program(cl_program p);

void release_built(cl_program p) {
    session *s = p->context->session;
    drop_held_forms(p);
    for (unsigned i = 0; i < p->count; i++) session_askf(s, "release p%u\n", p->numbers[i]);
    for (unsigned i = 0; p->tables && i < p->form.table_count; i++) session_askf(s, "release b%u\n", p->tables[i]);
    free(p->tables);
    free(p->numbers);
    leave_source(&p->form);
    free(p->options);
    p->numbers = NULL;
    p->count = 0;
    p->tables = NULL;
    p->options = NULL;
    p->status = CL_BUILD_NONE;
    if (p->from_binary) return; // what was compiled elsewhere stays
    free(p->units);
    p->units = NULL;
    p->type = CL_PROGRAM_BINARY_TYPE_NONE;
}

void drop_program(cl_program p) {
    if (p->references || p->uses) return;
    cl_context c = p->context;
    p->from_binary = false; // what it was made from goes too
    release_built(p);
    free(p->source);
    free_object(p);
    leave_context(c);
}
COUNTED(cl_program, Program, PROGRAM, CL_INVALID_PROGRAM, drop_program)

cl_program new_program(cl_context c, char *source, size_t length) {
    cl_program p = source ? make_object(sizeof *p, PROGRAM) : NULL;
    if (!p) {
        free(source);
        return NULL;
    }
    p->context = c;
    p->source = source;
    p->length = length;
    p->status = CL_BUILD_NONE;
    c->uses++;
    return p;
}
CL_API_ENTRY cl_program CL_API_CALL clCreateProgramWithSource(cl_context c, cl_uint n, const char **texts,
                                                              const size_t *lengths, cl_int *errcode) {
    LOCKED;
    if (!is_a(c, CONTEXT)) return fail(errcode, CL_INVALID_CONTEXT);
    if (!n || !texts) return fail(errcode, CL_INVALID_VALUE);
    size_t all = 0, at = 0;
    for (cl_uint i = 0; i < n; i++) {
        if (!texts[i]) return fail(errcode, CL_INVALID_VALUE);
        all += lengths && lengths[i] ? lengths[i] : strlen(texts[i]);
    }
    char *source = calloc(1, all + 1);
    if (!source) return fail(errcode, CL_OUT_OF_HOST_MEMORY);
    for (cl_uint i = 0; i < n; i++) {
        size_t m = lengths && lengths[i] ? lengths[i] : strlen(texts[i]);
        memcpy(source + at, texts[i], m);
        // a client may count a byte 0 at the end of a string along: it is as a space
        for (size_t k = at + m; k > at && !source[k - 1]; k--) source[k - 1] = ' ';
        at += m;
    }
    cl_program p = new_program(c, source, all);
    if (!p) return fail(errcode, CL_OUT_OF_HOST_MEMORY);
    done(errcode);
    return p;
}
// Judges the binary for each device of a list, with a state for each (OpenCL 1.2, 5.6.1). The first one counts.
static cl_int judge_binaries(cl_uint n, const cl_device_id *devices, const size_t *lengths,
                             const unsigned char **binaries, cl_int *states, binary_parts *first) {
    cl_int fault = CL_SUCCESS;
    if (!n || !devices || !lengths || !binaries) return CL_INVALID_VALUE;
    for (cl_uint i = 0; i < n; i++)
        if (devices[i] != &the_device) return CL_INVALID_DEVICE;
    for (cl_uint i = n; i-- > 0;) {
        bool empty = !lengths[i] || !binaries[i];
        cl_int state = empty                                         ? CL_INVALID_VALUE
                       : take_binary(binaries[i], lengths[i], first) ? CL_SUCCESS
                                                                     : CL_INVALID_BINARY;
        if (states) states[i] = state;
        if (state && (!fault || fault == CL_INVALID_BINARY)) fault = state;
    }
    return fault;
}
// A binary is the source, or what was compiled of it, with a head, so that caches of binaries work. Of a device that is
// named twice, the first one counts.
CL_API_ENTRY cl_program CL_API_CALL clCreateProgramWithBinary(cl_context c, cl_uint n, const cl_device_id *devices,
                                                              const size_t *lengths, const unsigned char **binaries,
                                                              cl_int *states, cl_int *errcode) {
    LOCKED;
    if (!is_a(c, CONTEXT)) return fail(errcode, CL_INVALID_CONTEXT);
    binary_parts parts;
    cl_int fault = judge_binaries(n, devices, lengths, binaries, states, &parts);
    if (fault) return fail(errcode, fault);
    char *kept = calloc(1, parts.length + 1), *source = parts.has_units ? calloc(1, 1) : kept;
    if (kept) memcpy(kept, parts.at, parts.length);
    cl_program p = kept ? new_program(c, source, parts.has_units ? 0 : parts.length) : NULL;
    if (!p) {
        if (parts.has_units) free(kept);
        return fail(errcode, CL_OUT_OF_HOST_MEMORY);
    }
    p->from_binary = true;
    p->type = parts.type;
    p->units = parts.has_units ? kept : NULL;
    p->units_length = parts.has_units ? parts.length : 0;
    done(errcode);
    return p;
}
CL_API_ENTRY cl_program CL_API_CALL clCreateProgramWithBuiltInKernels(cl_context c, cl_uint n, const cl_device_id *d,
                                                                      const char *names, cl_int *errcode) {
    (void)c;
    (void)n;
    (void)d;
    (void)names;
    return fail(errcode, CL_INVALID_VALUE);
}

// Makes the buffers of a program's tables. Where one is refused, the others are released with the program.
static cl_int make_tables(cl_program p) {
    cl_context c = p->context;
    const prepared *form = &p->form;
    p->tables = calloc(form->table_count + 1, sizeof *p->tables);
    if (!p->tables) return CL_OUT_OF_HOST_MEMORY;
    for (unsigned i = 0; i < form->table_count; i++) {
        unsigned number = ++c->names;
        cl_int fault = error_of(session_askf(c->session, "buffer b%u %zu\n", number, form->tables[i].size));
        bool made = !fault;
        if (made) fault = error_of(ask_write(c, number, 0, form->tables[i].bytes, form->tables[i].size));
        if (fault) {
            refuse(c, "no buffer for the table %s", form->tables[i].name);
            if (made) session_askf(c->session, "release b%u\n", number);
            for (unsigned k = 0; k < i; k++) session_askf(c->session, "release b%u\n", p->tables[k]);
            free(p->tables);
            p->tables = NULL;
            return fault;
        }
        p->tables[i] = number;
    }
    return CL_SUCCESS;
}

cl_int send_text(cl_context c, prepared *source, size_t begin, size_t length, unsigned lines, unsigned number) {
    char *command = malloc(length + 64);
    if (!command) return CL_OUT_OF_HOST_MEMORY;
    size_t at = (size_t)snprintf(command, 64, "program p%u %u\n", number, lines);
    memcpy(command + at, source->text + begin, length);
    // more lines than a script can say, which by the profile are more bytes than a source can have
    const char *reply = lines <= MAX_LINES ? session_ask(c->session, command, at + length)
                        : limits_of_device()->source_bytes <= MAX_LINES
                            ? "refused 10 BuildFailed syntax 5 TooLong at 65536"
                            : "refused 10 BuildFailed: a program has more than 65536 lines";
    free(command);
    cl_int fault = is_ok(reply) ? CL_SUCCESS : error_of(reply);
    if (fault == CL_BUILD_PROGRAM_FAILURE) build_log(source, begin, reply);
    return fault;
}

// Sends a part of the judged text as a program.
static cl_int send_program(cl_program p, size_t begin, size_t length, unsigned lines) {
    unsigned number = ++p->context->names;
    cl_int fault = send_text(p->context, &p->form, begin, length, lines, number);
    if (!fault) p->numbers[p->count++] = number;
    return fault;
}

// Each kernel goes as a program of its own, so that many or long ones are within the limits of the device. What is
// judged as it is goes as one.
cl_int build_prepared(cl_program p) {
    const prepared *form = &p->form;
    bool is_one = form->is_own || !form->kernel_count;
    cl_int fault = CL_SUCCESS;
    p->numbers = calloc(form->kernel_count + 1, sizeof *p->numbers);
    if (!p->numbers) return CL_OUT_OF_HOST_MEMORY;
    if (is_one) fault = send_program(p, 0, form->length, form->lines);
    for (unsigned i = 0; !is_one && !fault && i < form->kernel_count; i++)
        fault = send_program(p, form->kernels[i].begin, form->kernels[i].length, form->kernels[i].lines);
    return fault ? fault : make_tables(p);
}

// The number of the program that a kernel was sent in.
static unsigned program_number(cl_program p, const kernel_form *k) {
    return p->numbers[p->form.is_own ? 0 : k - p->form.kernels];
}

cl_int judge_options(cl_context c, const char *options, option_kind kind, cl_int fault, prepared *form) {
    prepared none = {0}, *into = form ? form : &none;
    text log = {.arena = &into->arena};
    if (setjmp(into->arena.failed)) {
        free_prepared(into);
        return CL_OUT_OF_HOST_MEMORY;
    }
    const char *unknown = unknown_option(&into->arena, options, kind);
    if (unknown) {
        addf(&log, "options: error: OpenCL 1.2 has no option %s\n", unknown);
        into->log = log.at;
        refuse(c, "OpenCL 1.2 has no option %s", unknown);
    }
    if (!unknown || !form) free_prepared(into);
    return unknown ? fault : CL_SUCCESS;
}

// Makes the source of a program, or what was compiled of it, ready for the device.
static preparation prepare(cl_program p, const char *options) {
    if (p->units) return prepare_units(p);
    if (strlen(p->source) == p->length) return prepare_source(&p->form, p->source, options, p->context->session);
    p->form.log = "source: error: a byte 0 stands in the source\n"; // what stands behind it would be left out
    return NOT_PREPARED;
}

static cl_int build(cl_program p, const char *options) {
    if (p->uses || p->is_linked) return CL_INVALID_OPERATION;
    release_built(p);
    p->status = CL_BUILD_ERROR;
    p->options = strdup(options ? options : "");
    cl_int wrong = judge_options(p->context, options, COMPILER_OPTION, CL_INVALID_BUILD_OPTIONS, &p->form);
    if (!p->options || wrong) return p->options ? wrong : CL_OUT_OF_HOST_MEMORY;
    preparation done = prepare(p, options);
    if (done == NO_MEMORY) return CL_OUT_OF_HOST_MEMORY;
    cl_int fault = done == PREPARED ? build_prepared(p) : CL_BUILD_PROGRAM_FAILURE;
    if (fault) return fault;
    p->status = CL_BUILD_SUCCESS;
    p->type = CL_PROGRAM_BINARY_TYPE_EXECUTABLE;
    return CL_SUCCESS;
}

cl_int judge_devices(cl_uint n, const cl_device_id *devices) {
    if ((!n) != (!devices)) return CL_INVALID_VALUE;
    for (cl_uint i = 0; i < n; i++)
        if (devices[i] != &the_device) return CL_INVALID_DEVICE;
    return CL_SUCCESS;
}

CL_API_ENTRY cl_int CL_API_CALL clBuildProgram(cl_program p, cl_uint n, const cl_device_id *devices,
                                               const char *options, void(CL_CALLBACK *notify)(cl_program, void *),
                                               void *user) {
    cl_int fault;
    {
        LOCKED;
        if (!is_a(p, PROGRAM)) return CL_INVALID_PROGRAM;
        if (!notify && user) return CL_INVALID_VALUE;
        fault = judge_devices(n, devices);
        if (fault) return fault;
        fault = build(p, options);
    }
    if (notify) notify(p, user); // without the lock
    return fault;
}
CL_API_ENTRY cl_int CL_API_CALL clUnloadCompiler(void) { return CL_SUCCESS; }
CL_API_ENTRY cl_int CL_API_CALL clUnloadPlatformCompiler(cl_platform_id p) {
    return p == &the_platform ? CL_SUCCESS : CL_INVALID_PLATFORM;
}

// Whether its kernels are there. (A program from a binary is of a type before it is built.)
static bool is_executable(cl_program p) {
    return p->status == CL_BUILD_SUCCESS && p->type == CL_PROGRAM_BINARY_TYPE_EXECUTABLE;
}

CL_API_ENTRY cl_int CL_API_CALL clGetProgramInfo(cl_program p, cl_program_info name, size_t room, void *to,
                                                 size_t *size) {
    LOCKED;
    if (!is_a(p, PROGRAM)) return CL_INVALID_PROGRAM;
    const char *head = binary_head(p);
    size_t head_length = head ? strlen(head) : 0, length = p->units ? p->units_length : p->length;
    switch (name) {
    case CL_PROGRAM_REFERENCE_COUNT: GIVE(cl_uint, p->references);
    case CL_PROGRAM_CONTEXT: GIVE(cl_context, p->context);
    case CL_PROGRAM_NUM_DEVICES: GIVE(cl_uint, 1);
    case CL_PROGRAM_DEVICES: GIVE(cl_device_id, &the_device);
    case CL_PROGRAM_SOURCE: return give_text(p->source, room, to, size);
    case CL_PROGRAM_BINARY_SIZES: GIVE(size_t, head ? head_length + length : 0);
    case CL_PROGRAM_BINARIES:
        if (size) *size = sizeof(unsigned char *);
        if (!to) return CL_SUCCESS;
        if (room < sizeof(unsigned char *)) return CL_INVALID_VALUE;
        if (*(unsigned char **)to && head) {
            memcpy(*(unsigned char **)to, head, head_length);
            memcpy(*(unsigned char **)to + head_length, p->units ? p->units : p->source, length);
        }
        return CL_SUCCESS;
    case CL_PROGRAM_NUM_KERNELS:
        if (!is_executable(p)) return CL_INVALID_PROGRAM_EXECUTABLE;
        GIVE(size_t, p->form.kernel_count);
    case CL_PROGRAM_KERNEL_NAMES: {
        if (!is_executable(p)) return CL_INVALID_PROGRAM_EXECUTABLE;
        arena a = {0};
        text names = {.arena = &a};
        if (setjmp(a.failed)) {
            free_arena(&a);
            return CL_OUT_OF_HOST_MEMORY;
        }
        add(&names, "");
        for (unsigned i = 0; i < p->form.kernel_count; i++) addf(&names, "%s%s", i ? ";" : "", p->form.kernels[i].name);
        cl_int given = give_text(names.at, room, to, size);
        free_arena(&a);
        return given;
    }
    default: return CL_INVALID_VALUE;
    }
}
CL_API_ENTRY cl_int CL_API_CALL clGetProgramBuildInfo(cl_program p, cl_device_id d, cl_program_build_info name,
                                                      size_t room, void *to, size_t *size) {
    LOCKED;
    if (!is_a(p, PROGRAM)) return CL_INVALID_PROGRAM;
    if (d != &the_device) return CL_INVALID_DEVICE;
    switch (name) {
    case CL_PROGRAM_BUILD_STATUS: GIVE(cl_build_status, p->status);
    case CL_PROGRAM_BUILD_OPTIONS: return give_text(p->options, room, to, size);
    case CL_PROGRAM_BUILD_LOG: return give_text(p->form.log, room, to, size);
    case CL_PROGRAM_BINARY_TYPE: GIVE(cl_program_binary_type, p->type);
    default: return CL_INVALID_VALUE;
    }
}

// ---- kernels ----

void drop_kernel(cl_kernel k) {
    if (k->references || k->uses) return;
    cl_context c = k->context;
    cl_program p = k->program;
    drop_held_kernel(k);
    session_askf(c->session, "release k%u\n", k->number);
    drop_printing(k);
    for (unsigned i = 0; i < k->form->count; i++) {
        free(k->arguments[i].command);
        free(k->arguments[i].value);
        if (k->arguments[i].memory) {
            k->arguments[i].memory->uses--;
            drop_memory(k->arguments[i].memory);
        }
    }
    free(k->arguments);
    free_object(k);
    p->uses--;
    drop_program(p);
    leave_context(c);
}
COUNTED(cl_kernel, Kernel, KERNEL, CL_INVALID_KERNEL, drop_kernel)

cl_int ask_kernel(cl_kernel k) {
    session *s = k->context->session;
    const kernel_form *form = k->form;
    cl_int fault = error_of(session_askf(s, "kernel k%u p%u %s\n", k->number, k->program_number, form->judged_name));
    bool made = !fault;
    for (unsigned i = 0; !fault && i < form->judged_count; i++)
        if (form->judged[i].kind == TABLE_PARAMETER)
            fault = error_of(
                session_askf(s, "arg k%u %u buffer b%u\n", k->number, i, k->program->tables[form->judged[i].argument]));
    if (fault && made) session_askf(s, "release k%u\n", k->number);
    return fault;
}

static cl_kernel new_kernel(cl_program p, const kernel_form *form, cl_int *errcode) {
    cl_kernel k = make_object(sizeof *k, KERNEL);
    argument *arguments = calloc(form->count + 1, sizeof *arguments);
    cl_int fault = k && arguments ? CL_SUCCESS : CL_OUT_OF_HOST_MEMORY;
    if (!fault) {
        k->context = p->context;
        k->program = p;
        k->form = form;
        k->source = &p->form;
        k->arguments = arguments;
        k->number = ++p->context->names;
        k->program_number = program_number(p, form);
        fault = ask_kernel(k);
    }
    if (fault) {
        free(arguments);
        if (k) free_object(k);
        return fail(errcode, fault);
    }
    p->uses++;
    p->context->uses++;
    done(errcode);
    return k;
}
CL_API_ENTRY cl_kernel CL_API_CALL clCreateKernel(cl_program p, const char *name, cl_int *errcode) {
    LOCKED;
    if (!is_a(p, PROGRAM)) return fail(errcode, CL_INVALID_PROGRAM);
    if (!is_executable(p)) return fail(errcode, CL_INVALID_PROGRAM_EXECUTABLE);
    if (!name) return fail(errcode, CL_INVALID_VALUE);
    for (unsigned i = 0; i < p->form.kernel_count; i++)
        if (!strcmp(p->form.kernels[i].name, name)) return new_kernel(p, &p->form.kernels[i], errcode);
    return fail(errcode, CL_INVALID_KERNEL_NAME);
}
CL_API_ENTRY cl_int CL_API_CALL clCreateKernelsInProgram(cl_program p, cl_uint room, cl_kernel *to, cl_uint *count) {
    LOCKED;
    if (!is_a(p, PROGRAM)) return CL_INVALID_PROGRAM;
    if (!is_executable(p)) return CL_INVALID_PROGRAM_EXECUTABLE;
    if (to && room < p->form.kernel_count) return CL_INVALID_VALUE;
    for (unsigned i = 0; to && i < p->form.kernel_count; i++) {
        cl_int fault;
        to[i] = new_kernel(p, &p->form.kernels[i], &fault);
        if (to[i]) continue;
        while (i-- > 0) { // all of them, or none
            to[i]->references = 0;
            drop_kernel(to[i]);
        }
        return fault;
    }
    if (count) *count = p->form.kernel_count;
    return CL_SUCCESS;
}

// ---- arguments ----

static bool is_pointer(const parameter *q) { return q->type->kind == POINTER_TYPE; }
static bool is_local(const parameter *q) { return is_pointer(q) && q->type->of->space == LOCAL_SPACE; }

// A number out of a value's bytes as a script has it, with the sign of its type.
static void add_value(text *commands, cl_kernel k, unsigned index, const judged_parameter *q, const void *value) {
    uint64_t bits = 0;
    memcpy(&bits, (const char *)value + q->offset, width_of(q->type));
    bits = converted(bits, q->type);
    if (is_signed(q->type)) addf(commands, "arg k%u %u value %" PRId64 "\n", k->number, index, (int64_t)bits);
    else addf(commands, "arg k%u %u value %" PRIu64 "\n", k->number, index, bits);
}

unsigned given_number(cl_kernel k, cl_uint argument, cl_mem m) {
    bool is_part = k->held_back && k->held_back[argument] & IS_PART;
    return is_part ? whole_of(m)->number : m->number;
}

// The commands that give an argument to all parameters that belong to it.
static void add_commands(text *commands, cl_kernel k, cl_uint argument, size_t n, const void *value, cl_mem m) {
    add(commands, "");
    for (unsigned i = 0; i < k->form->judged_count; i++) {
        const judged_parameter *q = &k->form->judged[i];
        if (q->kind == TABLE_PARAMETER || q->kind >= PRINT_PARAMETER || q->argument != argument) continue;
        if (q->kind == VALUE_PARAMETER) add_value(commands, k, i, q, value);
        else if (q->kind == ORIGIN_PARAMETER) addf(commands, "arg k%u %u value %zu\n", k->number, i, m->origin);
        else if (q->kind == SIZE_PARAMETER) addf(commands, "arg k%u %u value %zu\n", k->number, i, m->size);
        else if (m) addf(commands, "arg k%u %u buffer b%u\n", k->number, i, given_number(k, argument, m));
        else addf(commands, "arg k%u %u local %zu\n", k->number, i, n);
    }
}

const char *ask_commands(cl_kernel k, const char *commands) {
    const char *reply = NULL;
    for (const char *at = commands; *at;) {
        size_t n = strcspn(at, "\n") + 1;
        reply = session_ask(k->context->session, at, n);
        if (!is_ok(reply)) return reply;
        at += n;
    }
    return reply;
}

// What is wrong with an argument, by the parameter that it is for.
static cl_int judge_argument(cl_kernel k, cl_uint index, size_t n, const void *value, cl_mem *m) {
    const parameter *q = &k->form->parameters[index];
    *m = NULL;
    if (is_local(q)) return value ? CL_INVALID_ARG_VALUE : n ? CL_SUCCESS : CL_INVALID_ARG_SIZE;
    if (!is_pointer(q)) return n != q->type->size ? CL_INVALID_ARG_SIZE : value ? CL_SUCCESS : CL_INVALID_ARG_VALUE;
    if (n != sizeof(cl_mem)) return CL_INVALID_ARG_SIZE;
    *m = value ? *(const cl_mem *)value : NULL;
    if (!*m) return CL_SUCCESS; // NULL (OpenCL 1.2, 5.7.2)
    if (!is_a(*m, MEMORY) || (*m)->context != k->context) return CL_INVALID_MEM_OBJECT;
    return (*m)->parent ? number_part(*m) : CL_SUCCESS;
}

// Lets the buffer of an argument go. (The device releases none that an argument of a kernel names.)
static void drop_argument_memory(cl_kernel k, argument *a) {
    cl_mem m = a->memory;
    if (!m) return;
    drop_held_kernel(k);
    a->memory = NULL;
    m->uses--;
    drop_memory(m);
}

// Makes the device's kernel anew, with all arguments but one.
static cl_int forget_argument(cl_kernel k, cl_uint index) {
    session_askf(k->context->session, "release k%u\n", k->number);
    cl_int fault = ask_kernel(k);
    for (unsigned i = 0; !fault && i < k->form->count; i++)
        if (i != index && k->arguments[i].command && *k->arguments[i].command)
            fault = error_of(ask_commands(k, k->arguments[i].command));
    return fault;
}

// A buffer argument that is NULL: the device gets a kernel that is written for that.
static cl_int give_null(cl_kernel k, cl_uint index) {
    argument *a = &k->arguments[index];
    char *nothing = calloc(1, 1);
    if (!nothing) return CL_OUT_OF_HOST_MEMORY;
    cl_int fault = a->memory ? forget_argument(k, index) : CL_SUCCESS;
    if (fault) {
        free(nothing);
        return fault;
    }
    drop_argument_memory(k, a);
    free(a->command);
    *a = (argument){.command = nothing, .is_null = true};
    return CL_SUCCESS;
}

// Gives an argument by its commands, which it takes, as it does its value. Where one is refused, the argument is as
// before.
static cl_int give_commands(cl_kernel k, cl_uint index, char *kept, void *value, cl_mem m, size_t local) {
    const parameter *q = &k->form->parameters[index];
    argument *a = &k->arguments[index];
    const char *reply = ask_commands(k, kept);
    if (*kept && !is_ok(reply)) {
        free(kept);
        free(value);
        const device_limits *limits = limits_of_device();
        refuse(k->context, "argument %u (%s) of %s: %s (limits: %s, %zu bytes of local memory)", index, q->name,
               k->form->name, reply ? reply : "no reply", limits->name, limits->local_bytes);
        cl_int fault = error_of(reply);
        if (a->command) ask_commands(k, a->command);
        return fault == CL_INVALID_ARG_VALUE && is_local(q) ? CL_INVALID_ARG_SIZE : fault;
    }
    if (m) m->uses++;
    drop_argument_memory(k, a);
    free(a->command);
    free(a->value);
    a->command = kept;
    a->value = value;
    a->memory = m;
    a->local = local;
    a->is_null = false;
    return CL_SUCCESS;
}

char *commands_of(cl_kernel k, cl_uint index, size_t n, const void *value, cl_mem m) {
    arena a = {0};
    text commands = {.arena = &a};
    if (setjmp(a.failed)) {
        free_arena(&a);
        return NULL;
    }
    add_commands(&commands, k, index, n, value, m);
    char *kept = strdup(commands.at);
    free_arena(&a);
    return kept;
}

// Gives a copy the argument that its kernel has.
static cl_int copy_argument(cl_kernel copy, cl_uint i, const argument *a) {
    if (a->is_null) return give_null(copy, i);
    size_t n = a->value ? copy->form->parameters[i].type->size : a->local;
    char *commands = commands_of(copy, i, n, a->value, a->memory);
    void *value = a->value && commands ? malloc(n + 1) : NULL;
    if (!commands || (a->value && !value)) {
        free(commands);
        return CL_OUT_OF_HOST_MEMORY;
    }
    if (value) memcpy(value, a->value, n);
    return give_commands(copy, i, commands, value, a->memory, a->local);
}

cl_int copy_kernel(cl_kernel k, cl_kernel *to) {
    cl_int fault;
    cl_kernel copy = new_kernel(k->program, k->form, &fault);
    for (cl_uint i = 0; !fault && i < k->form->count; i++) fault = copy_argument(copy, i, &k->arguments[i]);
    if (copy && fault) {
        copy->references = 0;
        drop_kernel(copy);
        return fault;
    }
    *to = copy;
    return fault;
}

CL_API_ENTRY cl_int CL_API_CALL clSetKernelArg(cl_kernel k, cl_uint index, size_t n, const void *value) {
    LOCKED;
    cl_mem m;
    if (!is_a(k, KERNEL)) return CL_INVALID_KERNEL;
    if (index >= k->form->count) return CL_INVALID_ARG_INDEX;
    cl_int fault = judge_argument(k, index, n, value, &m);
    if (fault) return fault;
    const parameter *q = &k->form->parameters[index];
    if (is_pointer(q) && !is_local(q) && !m) return give_null(k, index);
    const char *before = k->arguments[index].command;
    char *commands = commands_of(k, index, n, value, m);
    bool is_value = !is_pointer(q);
    void *kept = is_value && commands ? malloc(n + 1) : NULL;
    if (!commands || (is_value && !kept)) {
        free(commands);
        return CL_OUT_OF_HOST_MEMORY;
    }
    if (kept) memcpy(kept, value, n);
    if (!before || strcmp(before, commands)) return give_commands(k, index, commands, kept, m, is_local(q) ? n : 0);
    free(commands);                  // the same argument again
    free(k->arguments[index].value); // (of which bytes may differ that no parameter is)
    k->arguments[index].value = kept;
    return CL_SUCCESS;
}

cl_ulong local_bytes(cl_kernel k, const local_object *l) {
    return l->is_parameter ? k->arguments[l->argument].local : l->type->size;
}
// All local memory of a kernel: what it declares, and what its arguments were given.
static cl_ulong all_local_bytes(cl_kernel k) {
    cl_ulong n = 0;
    for (unsigned i = 0; i < k->form->local_count; i++) n += local_bytes(k, &k->form->locals[i]);
    return n;
}
CL_API_ENTRY cl_int CL_API_CALL clGetKernelInfo(cl_kernel k, cl_kernel_info name, size_t room, void *to, size_t *size) {
    LOCKED;
    if (!is_a(k, KERNEL)) return CL_INVALID_KERNEL;
    const kernel_form *form = k->form;
    switch (name) {
    case CL_KERNEL_FUNCTION_NAME: return give_text(form->name, room, to, size);
    case CL_KERNEL_NUM_ARGS: GIVE(cl_uint, form->count);
    case CL_KERNEL_REFERENCE_COUNT: GIVE(cl_uint, k->references);
    case CL_KERNEL_CONTEXT: GIVE(cl_context, k->context);
    case CL_KERNEL_PROGRAM: GIVE(cl_program, k->program);
    case CL_KERNEL_ATTRIBUTES: return give_text(form->attributes, room, to, size);
    default: return CL_INVALID_VALUE;
    }
}
// What qualifies a pointer and what it points to (OpenCL 1.2, table 5.21). Of a value nothing is told.
static cl_kernel_arg_type_qualifier qualifiers_of(const parameter *p) {
    cl_kernel_arg_type_qualifier q = CL_KERNEL_ARG_TYPE_NONE;
    if (!is_pointer(p)) return q;
    if (p->type->of->is_const || p->type->of->space == CONSTANT_SPACE) q |= CL_KERNEL_ARG_TYPE_CONST;
    if (p->type->of->is_volatile) q |= CL_KERNEL_ARG_TYPE_VOLATILE;
    if (p->type->is_restrict) q |= CL_KERNEL_ARG_TYPE_RESTRICT;
    return q;
}
CL_API_ENTRY cl_int CL_API_CALL clGetKernelArgInfo(cl_kernel k, cl_uint index, cl_kernel_arg_info name, size_t room,
                                                   void *to, size_t *size) {
    LOCKED;
    if (!is_a(k, KERNEL)) return CL_INVALID_KERNEL;
    const kernel_form *form = k->form;
    if (index >= form->count) return CL_INVALID_ARG_INDEX;
    const parameter *q = &form->parameters[index];
    static const cl_kernel_arg_address_qualifier spaces[] = {
        CL_KERNEL_ARG_ADDRESS_PRIVATE, CL_KERNEL_ARG_ADDRESS_GLOBAL, CL_KERNEL_ARG_ADDRESS_CONSTANT,
        CL_KERNEL_ARG_ADDRESS_LOCAL};
    switch (name) {
    case CL_KERNEL_ARG_ADDRESS_QUALIFIER:
        GIVE(cl_kernel_arg_address_qualifier, spaces[is_pointer(q) ? q->type->of->space : PRIVATE_SPACE]);
    case CL_KERNEL_ARG_ACCESS_QUALIFIER: GIVE(cl_kernel_arg_access_qualifier, CL_KERNEL_ARG_ACCESS_NONE);
    case CL_KERNEL_ARG_TYPE_NAME: return give_text(q->type_name, room, to, size);
    case CL_KERNEL_ARG_TYPE_QUALIFIER: GIVE(cl_kernel_arg_type_qualifier, qualifiers_of(q));
    case CL_KERNEL_ARG_NAME: return give_text(q->name, room, to, size);
    default: return CL_INVALID_VALUE;
    }
}
CL_API_ENTRY cl_int CL_API_CALL clGetKernelWorkGroupInfo(cl_kernel k, cl_device_id d, cl_kernel_work_group_info name,
                                                         size_t room, void *to, size_t *size) {
    LOCKED;
    if (!is_a(k, KERNEL)) return CL_INVALID_KERNEL;
    if (d && d != &the_device) return CL_INVALID_DEVICE;
    switch (name) {
    case CL_KERNEL_WORK_GROUP_SIZE: GIVE(size_t, limits_of_device()->group);
    case CL_KERNEL_COMPILE_WORK_GROUP_SIZE: return give(k->form->group, sizeof k->form->group, room, to, size);
    case CL_KERNEL_LOCAL_MEM_SIZE: GIVE(cl_ulong, all_local_bytes(k));
    case CL_KERNEL_PRIVATE_MEM_SIZE: GIVE(cl_ulong, 0);
    case CL_KERNEL_PREFERRED_WORK_GROUP_SIZE_MULTIPLE: GIVE(size_t, 1);
    default: return CL_INVALID_VALUE;
    }
}
