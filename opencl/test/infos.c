// What calls answer by OpenCL 1.2, each value worked out by hand from its tables. Status 0: all of it.
#include "host.h"
#include <stdint.h>

#define WANT(CONDITION) \
    do { \
        if (!(CONDITION)) { \
            fprintf(stderr, "line %d: not so: %s\n", __LINE__, #CONDITION); \
            exit(4); \
        } \
    } while (0)

static host h;

static cl_kernel kernel_of(cl_program p, const char *name) {
    cl_int fault;
    cl_kernel k = clCreateKernel(p, name, &fault);
    OK(fault);
    return k;
}

static cl_mem buffer_with(cl_mem_flags flags) {
    cl_int fault;
    cl_mem m = clCreateBuffer(h.context, flags, 64, NULL, &fault);
    OK(fault);
    return m;
}

// Table 5.22: what a kernel declares in local memory, and what its arguments were given.
static void local_memory(void) {
    static const char source[] = "__kernel void f(__global int *a, __local short *s, __local uchar *t) {\n"
                                 "    __local int grid[3][4];\n"
                                 "    __local ulong one;\n"
                                 "    grid[0][0] = 1; one = 2; s[0] = 3; t[0] = 4;\n"
                                 "    a[0] = grid[0][0] + (int)one + s[0] + t[0];\n"
                                 "}\n"
                                 "__kernel void none(__global int *a) { a[0] = 1; }\n";
    cl_program p = build_program(&h, source, "");
    cl_kernel k = kernel_of(p, "f"), none = kernel_of(p, "none");
    cl_ulong n = 7;
    OK(clGetKernelWorkGroupInfo(none, h.device, CL_KERNEL_LOCAL_MEM_SIZE, sizeof n, &n, NULL));
    WANT(n == 0);
    OK(clGetKernelWorkGroupInfo(k, h.device, CL_KERNEL_LOCAL_MEM_SIZE, sizeof n, &n, NULL));
    WANT(n == 3 * 4 * 4 + 8);
    OK(clSetKernelArg(k, 1, 20, NULL));
    OK(clSetKernelArg(k, 2, 5, NULL));
    OK(clGetKernelWorkGroupInfo(k, NULL, CL_KERNEL_LOCAL_MEM_SIZE, sizeof n, &n, NULL));
    WANT(n == 3 * 4 * 4 + 8 + 20 + 5);
    OK(clSetKernelArg(k, 1, 2, NULL));
    OK(clGetKernelWorkGroupInfo(k, h.device, CL_KERNEL_LOCAL_MEM_SIZE, sizeof n, &n, NULL));
    WANT(n == 3 * 4 * 4 + 8 + 2 + 5);
    OK(clReleaseKernel(k));
    OK(clReleaseKernel(none));
    OK(clReleaseProgram(p));
}

// Table 5.21: `const` and `volatile` of what is pointed to, `restrict` of the pointer, and nothing of a value.
static void qualifiers(void) {
    static const char source[] =
        "typedef volatile int changing;\n"
        "typedef __global int *restrict alone;\n"
        "typedef __global int *plain;\n"
        "__kernel void f(__global int *a0, __global const int *a1, __global int const *restrict a2,\n"
        "                volatile __global uint *a3, __global int *const a4, __global int *volatile a5,\n"
        "                __constant int *a6, __global const volatile int *restrict a7, __local int volatile *a8,\n"
        "                const int a9, volatile int a10, __global changing *a11, alone a12, plain const a13,\n"
        "                volatile plain a14, __global const int a15[], __constant int *restrict a16) {\n"
        "    a0[0] = 1;\n"
        "}\n";
    enum { C = CL_KERNEL_ARG_TYPE_CONST, V = CL_KERNEL_ARG_TYPE_VOLATILE, R = CL_KERNEL_ARG_TYPE_RESTRICT };
    static const cl_kernel_arg_type_qualifier wanted[] = {0, C, C | R, V, 0, 0, C, C | V | R, V,
                                                          0, 0, V,     R, 0, 0, C, C | R};
    cl_program p = build_program(&h, source, "");
    cl_kernel k = kernel_of(p, "f");
    for (cl_uint i = 0; i < sizeof wanted / sizeof *wanted; i++) {
        cl_kernel_arg_type_qualifier got = 99;
        OK(clGetKernelArgInfo(k, i, CL_KERNEL_ARG_TYPE_QUALIFIER, sizeof got, &got, NULL));
        if (got != wanted[i])
            fprintf(stderr, "argument %u: %u in place of %u\n", i, (unsigned)got, (unsigned)wanted[i]);
        WANT(got == wanted[i]);
    }
    OK(clReleaseKernel(k));
    OK(clReleaseProgram(p));
}

// What a kernel answers for its attributes.
static void want_attributes(cl_program p, const char *name, const char *wanted) {
    cl_kernel k = kernel_of(p, name);
    char got[256] = "?";
    size_t n = 0;
    OK(clGetKernelInfo(k, CL_KERNEL_ATTRIBUTES, sizeof got, got, &n));
    if (strcmp(got, wanted)) fprintf(stderr, "%s: '%s' in place of '%s'\n", name, got, wanted);
    WANT(!strcmp(got, wanted) && n == strlen(wanted) + 1);
    OK(clReleaseKernel(k));
}

// Table 5.20: attributes as they are declared inside of __attribute__((..)), without white space round them and without
// line feeds, and with a space between them.
static void attributes(void) {
    static const char source[] =
        "#define SIZE 8\n"
        "__kernel void none(__global int *a) { a[0] = 1; }\n"
        "__kernel __attribute__((reqd_work_group_size(4, 2,1))) void one(__global int *a) { a[0] = 1; }\n"
        "__attribute__(( work_group_size_hint(SIZE,1,1) )) __attribute__((vec_type_hint(unsigned int)))\n"
        "kernel void two(__global int *a) { a[0] = 1; }\n"
        "__kernel void __attribute__((vec_type_hint(int), reqd_work_group_size(2,\n1,1))) list(__global int *a)\n"
        "{ a[0] = 1; }\n"
        "__kernel void in_front(__global int *a) __attribute__((work_group_size_hint(16, 1, 1)));\n"
        "__kernel __attribute__((vec_type_hint(unsigned\nint))) void in_front(__global int *a) { a[0] = 1; }\n"
        "__attribute__((reqd_work_group_size(1,1,1))) __kernel void twice(__global int *a);\n"
        "__attribute__((reqd_work_group_size(1,1,1))) __kernel void twice(__global int *a) { a[0] = 1; }\n";
    cl_program p = build_program(&h, source, "");
    want_attributes(p, "none", "");
    want_attributes(p, "one", "reqd_work_group_size(4, 2,1)");
    want_attributes(p, "two", "work_group_size_hint(8,1,1) vec_type_hint(unsigned int)");
    want_attributes(p, "list", "vec_type_hint(int) reqd_work_group_size(2,1,1)");
    want_attributes(p, "in_front", "work_group_size_hint(16, 1, 1) vec_type_hint(unsigned int)");
    want_attributes(p, "twice", "reqd_work_group_size(1,1,1)");
    OK(clReleaseProgram(p));
}

// What a launch in two dimensions answers.
static cl_int launch(cl_kernel k, const size_t *global, const size_t *local) {
    return clEnqueueNDRangeKernel(h.queue, k, 2, NULL, global, local, 0, NULL, NULL);
}

// The size of a group that a kernel asks for (table 5.22), and launches with it and with others (5.8).
static void group_sizes(void) {
    static const char source[] = "__kernel __attribute__((reqd_work_group_size(4, 2, 1))) void f(__global int *a) {\n"
                                 "    a[get_global_id(1) * 8 + get_global_id(0)] = 1;\n"
                                 "}\n"
                                 "__kernel void any(__global int *a) { a[0] = 1; }\n";
    static const size_t global[] = {8, 2}, right[] = {4, 2}, turned[] = {2, 2}, lower[] = {4, 1};
    cl_program p = build_program(&h, source, "");
    cl_kernel k = kernel_of(p, "f"), any = kernel_of(p, "any");
    cl_mem m = buffer_with(CL_MEM_READ_WRITE);
    size_t got[3] = {9, 9, 9};
    OK(clSetKernelArg(k, 0, sizeof m, &m));
    OK(clGetKernelWorkGroupInfo(k, h.device, CL_KERNEL_COMPILE_WORK_GROUP_SIZE, sizeof got, got, NULL));
    WANT(got[0] == 4 && got[1] == 2 && got[2] == 1);
    OK(clGetKernelWorkGroupInfo(any, h.device, CL_KERNEL_COMPILE_WORK_GROUP_SIZE, sizeof got, got, NULL));
    WANT(got[0] == 0 && got[1] == 0 && got[2] == 0);
    OK(launch(k, global, right));
    WANT(launch(k, global, turned) == CL_INVALID_WORK_GROUP_SIZE);
    WANT(launch(k, global, lower) == CL_INVALID_WORK_GROUP_SIZE);
    WANT(launch(k, global, NULL) == CL_INVALID_WORK_GROUP_SIZE);
    WANT(clEnqueueTask(h.queue, k, 0, NULL, NULL) == CL_INVALID_WORK_GROUP_SIZE);
    OK(clReleaseMemObject(m));
    OK(clReleaseKernel(k));
    OK(clReleaseKernel(any));
    OK(clReleaseProgram(p));
}

// Events: the type of a task's (table 5.18), and no times of a command that failed (5.12).
static void events(void) {
    cl_program p = build_program(&h, "__kernel void f(__global int *a, int i) { a[i] = 1; }", "");
    cl_kernel k = kernel_of(p, "f");
    cl_mem m = buffer_with(CL_MEM_READ_WRITE);
    cl_int fault, at = 0;
    cl_command_queue q = clCreateCommandQueue(h.context, h.device, CL_QUEUE_PROFILING_ENABLE, &fault);
    OK(fault);
    cl_event e;
    cl_command_type type;
    cl_ulong time;
    OK(clSetKernelArg(k, 0, sizeof m, &m));
    OK(clSetKernelArg(k, 1, sizeof at, &at));
    OK(clEnqueueTask(q, k, 0, NULL, &e));
    OK(clGetEventInfo(e, CL_EVENT_COMMAND_TYPE, sizeof type, &type, NULL));
    WANT(type == CL_COMMAND_TASK);
    OK(clGetEventProfilingInfo(e, CL_PROFILING_COMMAND_END, sizeof time, &time, NULL));
    OK(clReleaseEvent(e));
    at = 16; // behind the end
    OK(clSetKernelArg(k, 1, sizeof at, &at));
    OK(clEnqueueTask(q, k, 0, NULL, &e)); // by CLSIM_ON_FAULT=go
    WANT(clGetEventProfilingInfo(e, CL_PROFILING_COMMAND_END, sizeof time, &time, NULL) ==
         CL_PROFILING_INFO_NOT_AVAILABLE);
    WANT(clWaitForEvents(1, &e) == CL_EXEC_STATUS_ERROR_FOR_EVENTS_IN_WAIT_LIST);
    OK(clReleaseEvent(e));
    OK(clReleaseCommandQueue(q));
    OK(clReleaseMemObject(m));
    OK(clReleaseKernel(k));
    OK(clReleaseProgram(p));
}

// Events of two contexts aren't waited for in one call (5.9).
static void two_contexts(void) {
    host other = open_host();
    cl_int fault;
    cl_event list[2] = {clCreateUserEvent(h.context, &fault), clCreateUserEvent(other.context, &fault)};
    for (int i = 0; i < 2; i++) OK(clSetUserEventStatus(list[i], CL_COMPLETE));
    WANT(clWaitForEvents(2, list) == CL_INVALID_CONTEXT);
    OK(clWaitForEvents(1, &list[1]));
    for (int i = 0; i < 2; i++) OK(clReleaseEvent(list[i]));
    close_host(&other);
}

static cl_int rectangle(cl_mem m, int writes) {
    static const size_t zero[3], region[] = {4, 1, 1};
    unsigned char bytes[4] = {0};
    return writes ? clEnqueueWriteBufferRect(h.queue, m, CL_TRUE, zero, zero, region, 0, 0, 0, 0, bytes, 0, NULL, NULL)
                  : clEnqueueReadBufferRect(h.queue, m, CL_TRUE, zero, zero, region, 0, 0, 0, 0, bytes, 0, NULL, NULL);
}
static cl_int map(cl_mem m, cl_map_flags flags) {
    cl_int fault;
    void *at = clEnqueueMapBuffer(h.queue, m, CL_TRUE, flags, 0, 4, 0, NULL, NULL, &fault);
    if (at) OK(clEnqueueUnmapMemObject(h.queue, m, at, 0, NULL, NULL));
    WANT(!at == (fault != CL_SUCCESS));
    return fault;
}

// What the host may do with a buffer by its flags (5.2.2, 5.2.3), and flags that aren't known.
static void host_access(void) {
    static const struct {
        cl_mem_flags flags;
        cl_int read, write;
    } of[] = {{CL_MEM_READ_WRITE, CL_SUCCESS, CL_SUCCESS},
              {CL_MEM_HOST_READ_ONLY, CL_SUCCESS, CL_INVALID_OPERATION},
              {CL_MEM_HOST_WRITE_ONLY, CL_INVALID_OPERATION, CL_SUCCESS},
              {CL_MEM_HOST_NO_ACCESS, CL_INVALID_OPERATION, CL_INVALID_OPERATION}};
    for (size_t i = 0; i < sizeof of / sizeof *of; i++) {
        cl_mem m = buffer_with(of[i].flags);
        WANT(rectangle(m, 0) == of[i].read && rectangle(m, 1) == of[i].write);
        WANT(map(m, CL_MAP_READ) == of[i].read && map(m, CL_MAP_WRITE) == of[i].write);
        WANT(map(m, CL_MAP_WRITE_INVALIDATE_REGION) == of[i].write);
        WANT(map(m, CL_MAP_READ | CL_MAP_WRITE) == (i ? CL_INVALID_OPERATION : CL_SUCCESS));
        OK(clReleaseMemObject(m));
    }
    cl_mem m = buffer_with(CL_MEM_READ_WRITE);
    WANT(map(m, CL_MAP_READ | CL_MAP_WRITE_INVALIDATE_REGION) == CL_INVALID_VALUE && map(m, 8) == CL_INVALID_VALUE);
    OK(clEnqueueMigrateMemObjects(h.queue, 1, &m, CL_MIGRATE_MEM_OBJECT_HOST, 0, NULL, NULL));
    WANT(clEnqueueMigrateMemObjects(h.queue, 1, &m, 4, 0, NULL, NULL) == CL_INVALID_VALUE);
    OK(clReleaseMemObject(m));
}

// The flags are those that the buffer was made with (table 5.12); in place of 0 the default is used (5.2.1).
static void flags(void) {
    static const cl_mem_flags of[] = {CL_MEM_READ_WRITE,
                                      CL_MEM_READ_ONLY,
                                      CL_MEM_ALLOC_HOST_PTR,
                                      CL_MEM_HOST_READ_ONLY,
                                      CL_MEM_WRITE_ONLY | CL_MEM_ALLOC_HOST_PTR | CL_MEM_HOST_NO_ACCESS,
                                      CL_MEM_COPY_HOST_PTR,
                                      CL_MEM_COPY_HOST_PTR | CL_MEM_ALLOC_HOST_PTR,
                                      CL_MEM_USE_HOST_PTR,
                                      0};
    unsigned char bytes[64] = {0};
    for (size_t i = 0; i < sizeof of / sizeof *of; i++) {
        cl_int fault;
        cl_mem_flags got = 99, wanted = of[i] ? of[i] : CL_MEM_READ_WRITE;
        void *host = of[i] & (CL_MEM_COPY_HOST_PTR | CL_MEM_USE_HOST_PTR) ? bytes : NULL;
        cl_mem m = clCreateBuffer(h.context, of[i], sizeof bytes, host, &fault);
        OK(fault);
        OK(clGetMemObjectInfo(m, CL_MEM_FLAGS, sizeof got, &got, NULL));
        if (got != wanted) fprintf(stderr, "flags %u in place of %u\n", (unsigned)got, (unsigned)wanted);
        WANT(got == wanted);
        OK(clReleaseMemObject(m));
    }
}

// A property that isn't known (4.4), and a binary without a byte (5.6.1).
static void made_of_nothing(void) {
    cl_context_properties properties[] = {CL_CONTEXT_INTEROP_USER_SYNC, CL_TRUE, 0}, wrong[] = {12345, 1, 0};
    cl_int fault = CL_SUCCESS, state = CL_SUCCESS;
    const unsigned char *binary = (const unsigned char *)"";
    size_t none = 0;
    cl_context c = clCreateContext(properties, 1, &h.device, NULL, NULL, &fault);
    OK(fault);
    OK(clReleaseContext(c));
    WANT(!clCreateContext(wrong, 1, &h.device, NULL, NULL, &fault) && fault == CL_INVALID_PROPERTY);
    cl_context_properties twice[] = {CL_CONTEXT_INTEROP_USER_SYNC, 1, CL_CONTEXT_INTEROP_USER_SYNC, 1, 0};
    WANT(!clCreateContext(twice, 1, &h.device, NULL, NULL, &fault) && fault == CL_INVALID_PROPERTY);
    WANT(!clCreateProgramWithBinary(h.context, 1, &h.device, &none, &binary, &state, &fault));
    WANT(fault == CL_INVALID_VALUE && state == CL_INVALID_VALUE);
}

// The device names each property that a queue can have (table 4.3), and no other is taken (5.1).
static void queues(void) {
    static const cl_command_queue_properties of[] = {
        0, CL_QUEUE_OUT_OF_ORDER_EXEC_MODE_ENABLE, CL_QUEUE_PROFILING_ENABLE,
        CL_QUEUE_OUT_OF_ORDER_EXEC_MODE_ENABLE | CL_QUEUE_PROFILING_ENABLE};
    cl_command_queue_properties got = 99;
    cl_int fault;
    OK(clGetDeviceInfo(h.device, CL_DEVICE_QUEUE_PROPERTIES, sizeof got, &got, NULL));
    WANT(got == of[3]);
    for (int i = 0; i < 4; i++) {
        cl_command_queue q = clCreateCommandQueue(h.context, h.device, of[i], &fault);
        OK(fault);
        OK(clGetCommandQueueInfo(q, CL_QUEUE_PROPERTIES, sizeof got, &got, NULL));
        WANT(got == of[i]);
        OK(clReleaseCommandQueue(q));
    }
    WANT(!clCreateCommandQueue(h.context, h.device, 4, &fault) && fault == CL_INVALID_VALUE);
}

// What a program answers for its binary: the bytes that are wanted, and no more.
static void want_binary(cl_program p, const char *wanted, size_t length) {
    size_t n = 99;
    unsigned char got[256], *at = got;
    memset(got, '?', sizeof got);
    OK(clGetProgramInfo(p, CL_PROGRAM_BINARY_SIZES, sizeof n, &n, NULL));
    WANT(n == length);
    OK(clGetProgramInfo(p, CL_PROGRAM_BINARIES, sizeof at, &at, NULL));
    WANT(!memcmp(got, wanted, length) && got[length] == '?');
}

// Tables 5.13, 5.14: the binary of a program from a source is there once it is built, that of a program from a binary
// always.
static void binaries(void) {
    static const char source[] = "kernel void f(global int *a) { a[0] = 1; }",
                      whole[] = "CLSIM-SOURCE 1\nkernel void f(global int *a) { a[0] = 1; }",
                      wrong[] = "CLSIM-SOURCE 1\nkernel\0void";
    const unsigned char *binary = (const unsigned char *)whole, *bad = (const unsigned char *)wrong;
    size_t length = sizeof whole - 1, bad_length = sizeof wrong - 1;
    const char *text = source;
    cl_int fault, state;
    cl_program_binary_type type = 99;
    cl_program p = clCreateProgramWithSource(h.context, 1, &text, NULL, &fault);
    OK(fault);
    want_binary(p, "", 0);
    OK(clBuildProgram(p, 0, NULL, "", NULL, NULL));
    want_binary(p, whole, length);
    OK(clReleaseProgram(p));
    p = clCreateProgramWithBinary(h.context, 1, &h.device, &length, &binary, &state, &fault);
    OK(fault);
    want_binary(p, whole, length);
    OK(clGetProgramBuildInfo(p, h.device, CL_PROGRAM_BINARY_TYPE, sizeof type, &type, NULL));
    WANT(state == CL_SUCCESS && type == CL_PROGRAM_BINARY_TYPE_EXECUTABLE);
    OK(clBuildProgram(p, 0, NULL, "", NULL, NULL));
    want_binary(p, whole, length);
    OK(clReleaseProgram(p));
    p = clCreateProgramWithBinary(h.context, 1, &h.device, &bad_length, &bad, NULL, &fault);
    OK(fault);
    WANT(clBuildProgram(p, 0, NULL, "", NULL, NULL) == CL_BUILD_PROGRAM_FAILURE);
    want_binary(p, wrong, bad_length);
    OK(clReleaseProgram(p));
}

// Lists of binaries (5.6.1): a state for each, another device is told, and a device may stand in the list twice.
static void lists_of_binaries(void) {
    static const char whole[] = "CLSIM-SOURCE 1\nkernel void f(global int *a) { a[0] = 1; }";
    const unsigned char *good = (const unsigned char *)whole, *other = (const unsigned char *)"other";
    const unsigned char *both[] = {good, good}, *one[] = {good, other}, *none[] = {good, NULL};
    cl_device_id twice[] = {h.device, h.device}, unknown[] = {h.device, NULL};
    size_t lengths[] = {sizeof whole - 1, sizeof whole - 1}, short_one[] = {sizeof whole - 1, 5};
    cl_int fault, states[2];
    cl_program p = clCreateProgramWithBinary(h.context, 2, twice, lengths, both, states, &fault);
    OK(fault);
    WANT(states[0] == CL_SUCCESS && states[1] == CL_SUCCESS);
    want_binary(p, whole, lengths[0]);
    OK(clReleaseProgram(p));
    WANT(!clCreateProgramWithBinary(h.context, 2, twice, short_one, one, states, &fault));
    WANT(fault == CL_INVALID_BINARY && states[0] == CL_SUCCESS && states[1] == CL_INVALID_BINARY);
    WANT(!clCreateProgramWithBinary(h.context, 2, twice, lengths, none, states, &fault));
    WANT(fault == CL_INVALID_VALUE && states[0] == CL_SUCCESS && states[1] == CL_INVALID_VALUE);
    WANT(!clCreateProgramWithBinary(h.context, 2, unknown, lengths, both, NULL, &fault) && fault == CL_INVALID_DEVICE);
    WANT(!clCreateProgramWithBinary(h.context, 0, twice, lengths, both, NULL, &fault) && fault == CL_INVALID_VALUE);
}

// What a build by options answers. Compiling by the same options answers the like.
static cl_int built_by(const char *options) {
    const char *source = "kernel void f(global int *a) { a[0] = 1; }";
    cl_int fault, compiled;
    cl_program p = clCreateProgramWithSource(h.context, 1, &source, NULL, &fault);
    OK(fault);
    fault = clBuildProgram(p, 0, NULL, options, NULL, NULL);
    compiled = clCompileProgram(p, 0, NULL, options, 0, NULL, NULL, NULL, NULL);
    WANT(compiled == (fault ? CL_INVALID_COMPILER_OPTIONS : CL_SUCCESS));
    OK(clReleaseProgram(p));
    return fault;
}

static cl_int linked_by(const char *options) {
    const char *source = "kernel void f(global int *a) { a[0] = 1; }";
    cl_int fault, linked;
    cl_program p = clCreateProgramWithSource(h.context, 1, &source, NULL, &fault);
    OK(fault);
    OK(clCompileProgram(p, 0, NULL, NULL, 0, NULL, NULL, NULL, NULL));
    cl_program whole = clLinkProgram(h.context, 0, NULL, options, 1, &p, NULL, NULL, &linked);
    WANT(!whole == !!linked);
    if (whole) OK(clReleaseProgram(whole));
    OK(clReleaseProgram(p));
    return linked;
}

// The log of a build by an option that isn't known names it, and the program can be built again.
static void log_of_options(void) {
    const char *source = "kernel void f(global int *a) { a[0] = 1; }";
    char got[256] = "";
    cl_int fault;
    cl_build_status status = 99;
    cl_program p = clCreateProgramWithSource(h.context, 1, &source, NULL, &fault);
    OK(fault);
    WANT(clBuildProgram(p, 0, NULL, "-w -frob -grab", NULL, NULL) == CL_INVALID_BUILD_OPTIONS);
    OK(clGetProgramBuildInfo(p, h.device, CL_PROGRAM_BUILD_LOG, sizeof got, got, NULL));
    WANT(!strcmp(got, "options: error: OpenCL 1.2 has no option -frob\n"));
    OK(clGetProgramBuildInfo(p, h.device, CL_PROGRAM_BUILD_OPTIONS, sizeof got, got, NULL));
    WANT(!strcmp(got, "-w -frob -grab"));
    OK(clGetProgramBuildInfo(p, h.device, CL_PROGRAM_BUILD_STATUS, sizeof status, &status, NULL));
    WANT(status == CL_BUILD_ERROR);
    WANT(clBuildProgram(p, 0, NULL, "-D", NULL, NULL) == CL_INVALID_BUILD_OPTIONS);
    OK(clGetProgramBuildInfo(p, h.device, CL_PROGRAM_BUILD_LOG, sizeof got, got, NULL));
    WANT(!strcmp(got, "options: error: OpenCL 1.2 has no option -D without a value\n"));
    OK(clBuildProgram(p, 0, NULL, "-w", NULL, NULL));
    OK(clReleaseProgram(p));
}

// Options that a compiler has, and texts that have one that it hasn't.
static const char *const right_options[] = {NULL,
                                            "",
                                            "  ",
                                            "-DA",
                                            "-D A",
                                            "-DA=1",
                                            "-D A=1",
                                            "-D 'A=1 + 2' -DB=\"3 4\"",
                                            "-I/no/folder",
                                            "-I /no/folder",
                                            "-I \"/no folder/a\" -I'/no folder/b'",
                                            "-cl-single-precision-constant",
                                            "-cl-denorms-are-zero",
                                            "-cl-fp32-correctly-rounded-divide-sqrt",
                                            "-cl-opt-disable",
                                            "-cl-mad-enable",
                                            "-cl-no-signed-zeros",
                                            "-cl-unsafe-math-optimizations",
                                            "-cl-finite-math-only",
                                            "-cl-fast-relaxed-math",
                                            "-w",
                                            "-g -O3",
                                            "-Werror",
                                            "-cl-std=CL1.1",
                                            "-cl-std=CL1.2",
                                            "-cl-std=CL2.0",
                                            "-cl-kernel-arg-info",
                                            "\t-cl-std=CL1.2  -w -D A -cl-mad-enable\n"};
static const char *const wrong_options[] = {
    "-frob", "frob",  "-cl-frob", "-cl-std", "-cl-std=",        "-cl-std=CL3.0",  "-cl-std=CL1.23",
    "-D",    "-w -I", "-Wall",    "-UA",     "-create-library", "-DA=1 -frob -w", "-cl-mad-enable=1"};

// The options of a compiler (5.6.4) and of a linker (5.6.5), and no others (5.6.2, 5.6.3). CL2.0 is for the
// constructors of the C++ bindings (CL/opencl.hpp), which pass it of themselves.
static void options_of_builds(void) {
    for (size_t i = 0; i < sizeof right_options / sizeof *right_options; i++) {
        cl_int fault = built_by(right_options[i]);
        if (fault) fprintf(stderr, "%s: error %d\n", right_options[i] ? right_options[i] : "no options", fault);
        WANT(!fault);
    }
    for (size_t i = 0; i < sizeof wrong_options / sizeof *wrong_options; i++) {
        cl_int fault = built_by(wrong_options[i]);
        if (fault != CL_INVALID_BUILD_OPTIONS) fprintf(stderr, "%s: error %d\n", wrong_options[i], fault);
        WANT(fault == CL_INVALID_BUILD_OPTIONS);
    }
    log_of_options();
    WANT(linked_by(NULL) == CL_SUCCESS);
    WANT(linked_by("-create-library -enable-link-options") == CL_SUCCESS);
    WANT(linked_by("-cl-denorms-are-zero -cl-no-signed-zeroes -cl-unsafe-math-optimizations -cl-finite-math-only "
                   "-cl-fast-relaxed-math") == CL_SUCCESS);
    WANT(linked_by("-cl-mad-enable") == CL_INVALID_LINKER_OPTIONS && linked_by("-DA") == CL_INVALID_LINKER_OPTIONS);
}

// The device is a GPU, and found by each type but that of custom ones (tables 4.2, 4.3).
static void device_types(void) {
    static const cl_device_type types[] = {CL_DEVICE_TYPE_CPU, CL_DEVICE_TYPE_GPU, CL_DEVICE_TYPE_ACCELERATOR,
                                           CL_DEVICE_TYPE_DEFAULT, CL_DEVICE_TYPE_ALL};
    cl_device_type type = 0;
    OK(clGetDeviceInfo(h.device, CL_DEVICE_TYPE, sizeof type, &type, NULL));
    WANT(type == CL_DEVICE_TYPE_GPU);
    for (size_t i = 0; i < sizeof types / sizeof *types; i++) {
        cl_device_id found = NULL;
        OK(clGetDeviceIDs(NULL, types[i], 1, &found, NULL));
        WANT(found == h.device);
    }
    WANT(clGetDeviceIDs(NULL, CL_DEVICE_TYPE_CUSTOM, 1, &(cl_device_id){NULL}, NULL) == CL_DEVICE_NOT_FOUND);
    WANT(clGetDeviceIDs(NULL, 0, 1, &(cl_device_id){NULL}, NULL) == CL_INVALID_DEVICE_TYPE);
}

// What the device hasn't: parts of a device (4.3), samplers (5.5.1), built-in kernels (5.6.1) and functions of the host
// as commands (5.9). Each call answers its error, and hands out nothing.
static void refused_calls(void) {
    static const cl_device_partition_property halves[] = {CL_DEVICE_PARTITION_EQUALLY, 1, 0};
    cl_int fault = CL_SUCCESS;
    cl_device_id parts[2];
    WANT(clCreateSubDevices(h.device, halves, 2, parts, NULL) == CL_INVALID_VALUE);
    WANT(clCreateSubDevices(NULL, halves, 2, parts, NULL) == CL_INVALID_DEVICE);
    WANT(!clCreateSampler(h.context, CL_FALSE, CL_ADDRESS_NONE, CL_FILTER_NEAREST, &fault) &&
         fault == CL_INVALID_OPERATION);
    WANT(!clCreateSampler(NULL, CL_FALSE, CL_ADDRESS_NONE, CL_FILTER_NEAREST, &fault) && fault == CL_INVALID_CONTEXT);
    WANT(!clCreateProgramWithBuiltInKernels(h.context, 1, &h.device, "sum", &fault) && fault == CL_INVALID_VALUE);
    WANT(clEnqueueNativeKernel(h.queue, NULL, NULL, 0, 0, NULL, NULL, 0, NULL, NULL) == CL_INVALID_OPERATION);
    WANT(clEnqueueNativeKernel(NULL, NULL, NULL, 0, 0, NULL, NULL, 0, NULL, NULL) == CL_INVALID_COMMAND_QUEUE);
}

int main(int count, char **words) {
    static const struct {
        const char *name;
        void (*call)(void);
    } all[] = {{"local", local_memory},
               {"qualifiers", qualifiers},
               {"events", events},
               {"contexts", two_contexts},
               {"access", host_access},
               {"nothing", made_of_nothing},
               {"attributes", attributes},
               {"groups", group_sizes},
               {"queues", queues},
               {"flags", flags},
               {"binaries", binaries},
               {"lists", lists_of_binaries},
               {"options", options_of_builds},
               {"types", device_types},
               {"refused", refused_calls}};
    h = open_host();
    for (size_t i = 0; i < sizeof all / sizeof *all; i++)
        if (count < 2 || !strcmp(words[1], all[i].name)) all[i].call();
    close_host(&h);
    puts("infos are right");
    return 0;
}
