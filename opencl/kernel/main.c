// clsim-kernel: judges one launch of a kernel as it stands in its file, without a host program.
// It is a host program itself: it calls the functions of the driver that it is linked with, and sets the driver's
// variables by its options.
#define _GNU_SOURCE
#include "contents.h"
#include "listing.h"
#include "settings.h"
#include "telling.h"
#include <errno.h>
#include <inttypes.h>
#include <stdio.h>
#include <stdlib.h>
#include <string.h>
#include <unistd.h>

typedef struct {
    arena *arena;
    request request;
    cl_device_id device;
    cl_context context;
    cl_command_queue queue;
    cl_program program;
    char **names; // of its kernels
    size_t name_count;
    bool has_kernel;
    kernel_form kernel;
    cl_mem *buffers;     // one for each parameter, NULL where it has none
    contents *contents;  // likewise
    const given **given; // likewise
} run;

// ---- calls ----

_Noreturn static void stop_call(const char *call, cl_int fault) {
    tell_errors();
    if (fault == CL_OUT_OF_HOST_MEMORY) stop("out of memory");
    stop("%s answers %d", call, fault);
}

static void open_device(run *r) {
    cl_platform_id platform;
    cl_int fault = clGetPlatformIDs(1, &platform, NULL);
    if (!fault) fault = clGetDeviceIDs(platform, CL_DEVICE_TYPE_ALL, 1, &r->device, NULL);
    if (!fault) r->context = clCreateContext(NULL, 1, &r->device, NULL, NULL, &fault);
    if (fault == CL_DEVICE_NOT_AVAILABLE) {
        tell_errors();
        stop("there is no device: `clsim` has to be beside this command or on the path, or CLSIM_SERVE names it");
    }
    if (fault) stop_call("clCreateContext", fault);
    r->queue = clCreateCommandQueue(r->context, r->device, 0, &fault);
    if (fault) stop_call("clCreateCommandQueue", fault);
}

static const char *build_log(run *r) {
    size_t n;
    if (clGetProgramBuildInfo(r->program, r->device, CL_PROGRAM_BUILD_LOG, 0, NULL, &n)) return "";
    char *log = take(r->arena, n + 1);
    clGetProgramBuildInfo(r->program, r->device, CL_PROGRAM_BUILD_LOG, n, log, NULL);
    return log;
}

static void build(run *r, const char *source, size_t length) {
    cl_int fault;
    if (!length) stop("%s is empty", r->request.file);
    r->program = clCreateProgramWithSource(r->context, 1, &source, &length, &fault);
    if (fault) stop_call("clCreateProgramWithSource", fault);
    fault = clBuildProgram(r->program, 1, &r->device, r->request.options.at, NULL, NULL);
    const char *log = build_log(r);
    if (fault == CL_BUILD_PROGRAM_FAILURE || fault == CL_INVALID_BUILD_OPTIONS) {
        tell_log(log, "");
        stop("%s doesn't build", r->request.file);
    }
    if (fault) stop_call("clBuildProgram", fault);
    tell_log(log, "clsim-kernel: note: "); // (what was left out)
}

// ---- which argument is whose ----

// Shows all kernels of the program, or the one that is asked for.
static void show_kernels(run *r) {
    if (r->has_kernel) show_kernel(r->arena, &r->kernel);
    for (size_t i = 0; !r->has_kernel && i < r->name_count; i++) {
        kernel_form k = open_kernel(r->arena, r->program, r->device, r->names[i]);
        show_kernel(r->arena, &k);
        clReleaseKernel(k.kernel);
    }
}

static void find_kernel(run *r) {
    const char *name = r->request.kernel;
    r->names = kernel_names(r->arena, r->program, &r->name_count);
    if (!r->name_count) stop("%s has no kernel", r->request.file);
    for (size_t i = 0; name && i < r->name_count; i++) r->has_kernel |= !strcmp(r->names[i], name);
    if (r->has_kernel) r->kernel = open_kernel(r->arena, r->program, r->device, name);
    if (r->has_kernel || !name) return;
    show_kernels(r);
    stop("%s has no kernel %s", r->request.file, name);
}

// The parameter of a name, or of a number. As many as there are where it is none.
static cl_uint parameter_named(const kernel_form *k, const char *name) {
    uint64_t number;
    for (cl_uint i = 0; i < k->count; i++)
        if (!strcmp(k->parameters[i].name, name)) return i;
    return read_count(name, strlen(name), &number) && number < k->count ? (cl_uint)number : k->count;
}

static void match_arguments(run *r) {
    const kernel_form *k = &r->kernel;
    for (size_t i = 0; i < r->request.argument_count; i++) {
        const given *g = &r->request.arguments[i];
        cl_uint index = parameter_named(k, g->name);
        if (index == k->count) {
            show_kernels(r);
            stop("%s: the kernel %s has no parameter %s", g->from, k->name, g->name);
        }
        if (r->given[index]) stop("%s: this argument was given already: %s", g->from, r->given[index]->from);
        r->given[index] = g;
    }
}

static void match_dumps(run *r) {
    for (size_t i = 0; i < r->request.dump_count; i++) {
        const char *name = r->request.dumps[i].name;
        cl_uint index = parameter_named(&r->kernel, name);
        if (index == r->kernel.count) stop("--dump %s: the kernel %s has no such parameter", name, r->kernel.name);
        const parameter_form *p = &r->kernel.parameters[index];
        if (!p->is_pointer || p->space == CL_KERNEL_ARG_ADDRESS_LOCAL)
            stop("--dump %s: only a buffer is left behind a launch, and this is %s", name, declared(r->arena, p));
        if (r->given[index] && r->given[index]->is_null) stop("--dump %s: no buffer is given for it", name);
    }
}

// Lists what there is and says what is missing, where something is.
static void want_all(run *r) {
    text missing = {.arena = r->arena};
    if (!r->has_kernel) add(&missing, ", KERNEL");
    if (!r->request.dimensions) add(&missing, ", --global SIZES");
    for (cl_uint i = 0; i < r->kernel.count; i++)
        if (!r->given[i])
            addf(&missing, ", %s %s", r->request.simulation ? "argument" : "--arg",
                 r->request.simulation ? declared(r->arena, &r->kernel.parameters[i])
                                       : form_of(r->arena, &r->kernel.parameters[i]));
    if (!missing.length) return;
    show_kernels(r);
    if (r->request.simulation) stop("missing in %s: %s", r->request.simulation, missing.at + 2);
    stop("missing: %s", missing.at + 2);
}

// ---- arguments ----

static cl_ulong device_size(run *r, cl_device_info name) {
    cl_ulong most;
    cl_int fault = clGetDeviceInfo(r->device, name, sizeof most, &most, NULL);
    if (fault) stop_call("clGetDeviceInfo", fault);
    return most;
}

static void give(run *r, cl_uint index, size_t n, const void *value) {
    const given *g = r->given[index];
    const parameter_form *p = &r->kernel.parameters[index];
    cl_int fault = clSetKernelArg(r->kernel.kernel, index, n, value);
    if (!fault) return;
    tell_errors();
    if (fault == CL_INVALID_ARG_SIZE) stop("%s: %zu bytes aren't the size of %s", g->from, n, declared(r->arena, p));
    stop("%s: the driver refuses it for %s (error %d)", g->from, declared(r->arena, p), fault);
}

static void give_local(run *r, cl_uint index) {
    const given *g = r->given[index];
    const parameter_form *p = &r->kernel.parameters[index];
    bool has_bytes = g->is_local || (g->is_of_file && !g->has_type && g->content == NO_CONTENT && !g->is_null);
    if (!has_bytes)
        stop("%s: %s is in local memory, whose bytes are given: %s", g->from, declared(r->arena, p),
             g->is_of_file ? "<size=BYTES>" : form_of(r->arena, p));
    cl_ulong most = device_size(r, CL_DEVICE_LOCAL_MEM_SIZE);
    if (g->bytes > most)
        stop("%s: %" PRIu64 " bytes are more than the local memory of a group: %" PRIu64, g->from, g->bytes, most);
    give(r, index, g->bytes, NULL);
}

static void give_value(run *r, cl_uint index) {
    const given *g = r->given[index];
    const parameter_form *p = &r->kernel.parameters[index];
    size_t size = p->has_element ? element_size(&p->element) : 0;
    if (g->is_local || g->is_null || (g->is_of_file && g->content == NO_CONTENT))
        stop("%s: %s is a value: %s", g->from, declared(r->arena, p),
             g->is_of_file ? "its number stands behind the >" : form_of(r->arena, p));
    contents c = contents_of(r->arena, g, p->has_element ? &p->element : NULL, size, 65536, index);
    give(r, index, c.size, c.at ? (void *)c.at : take(r->arena, c.size));
}

static void give_buffer(run *r, cl_uint index) {
    const given *g = r->given[index];
    const parameter_form *p = &r->kernel.parameters[index];
    cl_int fault;
    cl_mem none = NULL;
    if (g->is_null) {
        give(r, index, sizeof none, &none);
        return;
    }
    if (g->is_local || (g->content == LIST_CONTENT && !g->has_type && !g->has_count && !g->is_of_file))
        stop("%s: %s is a pointer to a buffer: %s", g->from, declared(r->arena, p), form_of(r->arena, p));
    contents c = contents_of(r->arena, g, p->has_element ? &p->element : NULL, 0,
                             device_size(r, CL_DEVICE_MAX_MEM_ALLOC_SIZE), index);
    r->contents[index] = c;
    r->buffers[index] = clCreateBuffer(r->context, CL_MEM_READ_WRITE, c.size, NULL, &fault);
    if (!fault && c.at)
        fault = clEnqueueWriteBuffer(r->queue, r->buffers[index], CL_TRUE, 0, c.size, c.at, 0, NULL, NULL);
    if (fault) {
        tell_errors();
        stop("%s: a buffer of %zu bytes can't be made: %s", g->from, c.size,
             fault == CL_OUT_OF_HOST_MEMORY ? "out of memory" : "the device refuses it");
    }
    give(r, index, sizeof r->buffers[index], &r->buffers[index]);
}

static void give_arguments(run *r) {
    for (cl_uint i = 0; i < r->kernel.count; i++) {
        const parameter_form *p = &r->kernel.parameters[i];
        (!p->is_pointer ? give_value : p->space == CL_KERNEL_ARG_ADDRESS_LOCAL ? give_local : give_buffer)(r, i);
    }
}

// ---- the launch ----

static void check_sizes(run *r) {
    request *q = &r->request;
    const size_t *wanted = r->kernel.group;
    bool is_required = wanted[0];
    for (unsigned d = 0; d < q->dimensions; d++) {
        if (is_required && !q->has_local) q->local[d] = wanted[d];
        if ((is_required || q->has_local) && q->global[d] % q->local[d])
            stop("the local size %zu doesn't divide the global size %zu", q->local[d], q->global[d]);
    }
    for (unsigned d = 0; is_required && d < 3; d++)
        if (wanted[d] != (d < q->dimensions ? q->local[d] : 1))
            stop("the kernel %s asks for groups of %zu,%zu,%zu (reqd_work_group_size)", r->kernel.name, wanted[0],
                 wanted[1], wanted[2]);
    q->has_local |= is_required;
}

// What a size that the device refuses is told as.
static const char *meaning_of(cl_int fault) {
    switch (fault) {
    case CL_INVALID_WORK_GROUP_SIZE:
    case CL_INVALID_WORK_ITEM_SIZE: return "a group has more work-items than the device allows";
    case CL_INVALID_GLOBAL_WORK_SIZE: return "the launch has more work-items than the device allows";
    case CL_INVALID_GLOBAL_OFFSET: return "a global id is more than 64 bits hold";
    case CL_OUT_OF_RESOURCES: return "the device refuses it";
    case CL_OUT_OF_HOST_MEMORY: return "out of memory";
    case CL_DEVICE_NOT_AVAILABLE: return "the device has ended";
    default: return "it can't be launched";
    }
}

// Launches the kernel, and tells the verdict. Whether it has a fault.
static bool launch(run *r) {
    const request *q = &r->request;
    check_sizes(r);
    tell_errors();
    cl_int fault = clEnqueueNDRangeKernel(r->queue, r->kernel.kernel, q->dimensions, q->offset, q->global,
                                          q->has_local ? q->local : NULL, 0, NULL, NULL);
    verdict told = tell_verdict();
    if (fault == CL_INVALID_OPERATION && told == FAULT_VERDICT) return true;
    if (fault == CL_INVALID_OPERATION) stop("the launch answers %d, and it isn't known why", fault);
    if (fault) stop("%s (error %d)", meaning_of(fault), fault);
    if (told != ORDERED_VERDICT) puts("clean");
    return false;
}

// ---- what it leaves ----

enum { NUMBERS_OF_ROW = 8 };

static void show_contents(const given *g, const contents *c) {
    size_t lanes = c->type.lanes, of_row = lanes < NUMBERS_OF_ROW ? NUMBERS_OF_ROW / lanes : 1;
    size_t elements = c->size / element_size(&c->type);
    char number[64];
    for (size_t i = 0; i < elements; i++) {
        if (i % of_row == 0) printf("%s%s[%zu]:", i ? "\n" : "", g->label, i);
        for (size_t lane = 0; lane < lanes; lane++) {
            const unsigned char *at = c->at + number_offset(&c->type, i * lanes + lane);
            put_number(number, sizeof number, &c->type, g->is_hex, at);
            printf(" %s%s%s", lanes > 1 && !lane ? "(" : "", number, lanes > 1 && lane + 1 == lanes ? ")" : "");
        }
    }
    putchar('\n');
}

static void write_contents(const wanted_dump *d, const contents *c) {
    FILE *file = fopen(d->path, "wbe");
    bool is_written = file && fwrite(c->at, 1, c->size, file) == c->size;
    if (file && fclose(file)) is_written = false;
    if (!is_written) stop("--dump %s: cannot write %s: %s", d->name, d->path, strerror(errno));
}

static void dump(run *r, const wanted_dump *d) {
    cl_uint index = parameter_named(&r->kernel, d->name);
    contents *c = &r->contents[index];
    given g = *r->given[index];
    if (!c->at) c->at = take(r->arena, c->size);
    cl_int fault = clEnqueueReadBuffer(r->queue, r->buffers[index], CL_TRUE, 0, c->size, c->at, 0, NULL, NULL);
    if (fault) stop_call("clEnqueueReadBuffer", fault);
    if (!g.label) g.label = r->kernel.parameters[index].name;
    if (d->path) write_contents(d, c);
    else show_contents(&g, c);
}

// ---- the whole ----

static void close_all(run *r) {
    clReleaseKernel(r->kernel.kernel);
    for (cl_uint i = 0; i < r->kernel.count; i++)
        if (r->buffers[i]) clReleaseMemObject(r->buffers[i]);
    clReleaseProgram(r->program);
    clReleaseCommandQueue(r->queue);
    clReleaseContext(r->context);
}

static int judge(run *r, int count, char **words) {
    size_t length;
    request *q = &r->request;
    q->arena = r->arena;
    read_command(q, count, words);
    set_driver(r->arena, q->script, q->has_orders);
    const char *source = read_file(r->arena, q->file, NULL, &length);
    keep_lines(q->file);
    open_device(r);
    build(r, source, length);
    find_kernel(r);
    size_t parameters = r->kernel.count;
    r->given = take(r->arena, (parameters + 1) * sizeof *r->given);
    r->buffers = take(r->arena, (parameters + 1) * sizeof *r->buffers);
    r->contents = take(r->arena, (parameters + 1) * sizeof *r->contents);
    if (r->has_kernel) match_arguments(r);
    if (r->has_kernel) match_dumps(r);
    want_all(r);
    give_arguments(r);
    bool has_fault = launch(r);
    for (size_t i = 0; i < q->dump_count; i++) dump(r, &q->dumps[i]);
    close_all(r);
    tell_errors();
    if (is_script_lost()) stop("%s isn't whole", q->script);
    keep_script();
    if (fflush(stdout) || ferror(stdout)) stop("cannot write: %s", strerror(errno));
    return has_fault;
}

int main(int count, char **words) {
    static arena all;
    static run r;
    if (setjmp(all.failed)) stop("out of memory");
    r.arena = &all;
    int status = judge(&r, count, words);
    free_arena(&all);
    return status;
}
