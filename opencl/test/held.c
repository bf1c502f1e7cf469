// held [own|many|past]: buffers that kernels may only read or only write (OpenCL 1.2, table 5.3). Status 0: each launch
// answers what it should; what is told is compared by `run`.
#include "host.h"
#include <stdint.h>

#define WANT(CONDITION) \
    do { \
        if (!(CONDITION)) { \
            fprintf(stderr, "line %d: not so: %s\n", __LINE__, #CONDITION); \
            exit(4); \
        } \
    } while (0)

enum { N = 8 };

static host h;

static cl_mem buffer_with(cl_mem_flags flags, int32_t first) {
    cl_int fault;
    int32_t numbers[N];
    for (int i = 0; i < N; i++) numbers[i] = first + i;
    cl_mem m = clCreateBuffer(h.context, flags | CL_MEM_COPY_HOST_PTR, sizeof numbers, numbers, &fault);
    OK(fault);
    return m;
}

static void want_numbers(cl_mem m, int32_t first, int32_t step) {
    int32_t numbers[N];
    OK(clEnqueueReadBuffer(h.queue, m, CL_TRUE, 0, sizeof numbers, numbers, 0, NULL, NULL));
    for (int i = 0; i < N; i++) WANT(numbers[i] == first + i * step);
}

static cl_int launch(cl_kernel k, cl_mem from, cl_mem to, cl_int n) {
    size_t global = N;
    fprintf(stderr, "--\n");
    OK(clSetKernelArg(k, 0, sizeof from, &from));
    OK(clSetKernelArg(k, 1, sizeof to, &to));
    OK(clSetKernelArg(k, 2, sizeof n, &n));
    return clEnqueueNDRangeKernel(h.queue, k, 1, NULL, &global, NULL, 0, NULL, NULL);
}

// Each work-item stores its number of the one into the other; the last but n into the first one too, and loads of the
// second one.
static const char clang_source[] = "#define AT get_global_id(0)\n"
                                   "kernel void f(global int *from, global int *to, int n) {\n"
                                   "    to[AT] = from[AT] * n;\n"
                                   "    if (n == 3 && AT == 5) from[AT] = 1;\n"
                                   "    if (n == 4 && AT == 6) atomic_inc(&from[AT]);\n"
                                   "    if (n == 5 && AT == 7) to[AT] += 1;\n"
                                   "    if (n == 6) atomic_add(to + AT, 1);\n"
                                   "}\n",
                  own_source[] = "__kernel void f(__global int *from, __global int *to, int n)\n"
                                 "{\n"
                                 "    to[get_global_id(0)] = from[get_global_id(0)] * n;\n"
                                 "    if (n == 3 && get_global_id(0) == 5) from[get_global_id(0)] = 1;\n"
                                 "    if (n == 4 && get_global_id(0) == 6) atomic_inc(&from[get_global_id(0)]);\n"
                                 "    if (n == 5 && get_global_id(0) == 7) to[get_global_id(0)] += 1;\n"
                                 "    if (n == 6) atomic_add(&to[get_global_id(0)], 1);\n"
                                 "}\n";

static void hold(const char *source) {
    cl_int fault;
    cl_program p = build_program(&h, source, "");
    cl_kernel k = clCreateKernel(p, "f", &fault);
    OK(fault);
    cl_mem from = buffer_with(CL_MEM_READ_ONLY, 1), to = buffer_with(CL_MEM_WRITE_ONLY, 0);
    cl_mem free_from = buffer_with(CL_MEM_READ_WRITE, 1), free_to = buffer_with(CL_MEM_READ_WRITE, 0);
    OK(launch(k, from, to, 2)); // none of the accesses is made
    want_numbers(to, 2, 2);
    for (cl_int n = 3; n <= 6; n++) {
        WANT(launch(k, from, to, n) == CL_INVALID_OPERATION);
        want_numbers(to, 2, 2); // a fault changes nothing
        want_numbers(from, 1, 1);
    }
    WANT(launch(k, free_from, to, 5) == CL_INVALID_OPERATION);
    OK(launch(k, from, free_to, 5));
    OK(launch(k, free_from, to, 4)); // (of another launch than the one before, with other flags)
    OK(launch(k, from, to, 1));
    want_numbers(to, 1, 1);
    cl_mem all[] = {from, to, free_from, free_to};
    OK(clReleaseKernel(k));
    OK(clReleaseProgram(p));
    for (int i = 0; i < 4; i++) OK(clReleaseMemObject(all[i]));
}

// Accesses that flags forbid are made: the first one is told, for each set of flags.
static void go_past(const char *source) {
    cl_int fault;
    cl_program p = build_program(&h, source, "");
    cl_kernel k = clCreateKernel(p, "f", &fault);
    OK(fault);
    cl_mem from = buffer_with(CL_MEM_READ_ONLY, 1), to = buffer_with(CL_MEM_WRITE_ONLY, 0);
    cl_mem free_from = buffer_with(CL_MEM_READ_WRITE, 1), end = buffer_with(CL_MEM_READ_WRITE, 0);
    OK(launch(k, from, to, 2));
    want_numbers(to, 2, 2);
    int32_t got[N];
    for (cl_int n = 3; n <= 6; n++) {
        OK(launch(k, from, to, n));
        OK(clEnqueueReadBuffer(h.queue, to, CL_TRUE, 0, sizeof got, got, 0, NULL, NULL));
        // from[5] is 1 behind the launch by 3, and from[6] 8 behind the one by 4
        for (int i = 0; i < N; i++)
            WANT(got[i] == (i == 5 && n > 3 ? 1 : i == 6 && n > 4 ? 8 : i + 1) * n + (n == 6 || (n == 5 && i == 7)));
    }
    OK(clEnqueueReadBuffer(h.queue, from, CL_TRUE, 0, sizeof got, got, 0, NULL, NULL));
    for (int i = 0; i < N; i++) WANT(got[i] == (i == 5 ? 1 : i == 6 ? 8 : i + 1));
    OK(launch(k, free_from, to, 5)); // by other flags
    OK(launch(k, free_from, to, 6));
    OK(launch(k, free_from, end, 6));
    want_numbers(end, 7, 6);
    cl_mem all[] = {from, to, free_from, end};
    OK(clReleaseKernel(k));
    OK(clReleaseProgram(p));
    for (int i = 0; i < 4; i++) OK(clReleaseMemObject(all[i]));
}

// A kernel with a table, a struct by value, local memory and two types of elements.
static void hold_all(void) {
    static const char source[] = "typedef struct { short a; int b[2]; } S;\n"
                                 "constant int t[2] = {10, 20};\n"
                                 "kernel void g(global uchar4 *v, S s, local int *l, global int *r) {\n"
                                 "    int i = get_global_id(0);\n"
                                 "    l[get_local_id(0)] = t[i & 1] + s.b[1] + s.a;\n"
                                 "    barrier(CLK_LOCAL_MEM_FENCE);\n"
                                 "    r[i] = l[get_local_id(0) ^ 1];\n"
                                 "    if (r[i] == s.b[0]) v[i].y = ((global ushort *)v)[0];\n"
                                 "}\n";
    struct {
        int16_t a;
        int32_t b[2];
    } s = {1, {-1, 5}};
    cl_int fault;
    size_t global = N;
    cl_program p = build_program(&h, source, "");
    cl_kernel k = clCreateKernel(p, "g", &fault);
    OK(fault);
    cl_mem v = buffer_with(CL_MEM_READ_ONLY, 0), r = buffer_with(CL_MEM_READ_WRITE, 0);
    OK(clSetKernelArg(k, 0, sizeof v, &v));
    OK(clSetKernelArg(k, 1, sizeof s, &s));
    OK(clSetKernelArg(k, 2, 32, NULL));
    OK(clSetKernelArg(k, 3, sizeof r, &r));
    fprintf(stderr, "--\n");
    OK(clEnqueueNDRangeKernel(h.queue, k, 1, NULL, &global, &global, 0, NULL, NULL));
    s.b[0] = 26;
    OK(clSetKernelArg(k, 1, sizeof s, &s));
    fprintf(stderr, "--\n");
    WANT(clEnqueueNDRangeKernel(h.queue, k, 1, NULL, &global, &global, 0, NULL, NULL) == CL_INVALID_OPERATION);
    OK(clReleaseKernel(k));
    OK(clReleaseProgram(p));
    OK(clReleaseMemObject(v));
    OK(clReleaseMemObject(r));
}

// Without clang nothing is held back; that is told once for a kernel and its flags.
static void hold_nothing(void) {
    cl_int fault;
    cl_program p = build_program(&h, own_source, "");
    cl_kernel k = clCreateKernel(p, "f", &fault);
    OK(fault);
    cl_mem from = buffer_with(CL_MEM_READ_ONLY, 1), to = buffer_with(CL_MEM_WRITE_ONLY, 0);
    for (cl_int n = 2; n <= 6; n++) OK(launch(k, from, to, n));
    OK(clReleaseKernel(k));
    OK(clReleaseProgram(p));
    OK(clReleaseMemObject(from));
    OK(clReleaseMemObject(to));
}

// More buffers than a device may have at a time, each released behind the launches that it was for: held to its flags,
// as a part that shares bytes, and in front of NULL.
static void hold_many(void) {
    enum { MANY = 70 };
    static const char source[] = "kernel void f(global int *from, global int *to, int n) {\n"
                                 "    int i = get_global_id(0);\n"
                                 "    if (n < 0) from[i] = to[i];\n"
                                 "    if (n < 0) to[i] = from[i];\n"
                                 "}\n";
    static const cl_buffer_region region = {128, 64};
    cl_int fault;
    cl_program p = build_program(&h, source, "");
    cl_kernel k = clCreateKernel(p, "f", &fault);
    OK(fault);
    cl_mem to = buffer_with(CL_MEM_READ_WRITE, 0);
    for (int i = 0; i < MANY; i++) {
        cl_mem from = buffer_with(CL_MEM_READ_ONLY, 1), none = NULL;
        OK(launch(k, from, to, i));
        OK(launch(k, to, from, i));
        OK(launch(k, from, none, i));
        OK(clReleaseMemObject(from));
        from = clCreateBuffer(h.context, 0, 256, NULL, &fault);
        OK(fault);
        cl_mem part = clCreateSubBuffer(from, 0, CL_BUFFER_CREATE_TYPE_REGION, &region, &fault);
        OK(fault);
        OK(launch(k, part, to, i));
        OK(launch(k, part, from, i));
        OK(clReleaseMemObject(from));
        OK(launch(k, to, to, i));
        OK(clReleaseMemObject(part));
    }
    OK(clReleaseKernel(k));
    OK(clReleaseProgram(p));
    OK(clReleaseMemObject(to));
}

int main(int count, char **words) {
    h = open_host();
    if (count > 1 && !strcmp(words[1], "own")) hold_nothing();
    else if (count > 1 && !strcmp(words[1], "many")) hold_many();
    else if (count > 1 && !strcmp(words[1], "past")) go_past(clang_source);
    else {
        hold(clang_source);
        hold(own_source);
        hold_all();
    }
    close_host(&h);
    puts("flags are held to");
    return 0;
}
