// A host program that calls once more what answers that memory is refused. With one request of its own refused, each
// call does its work the second time, as if for the first. Status 0: all data are right.
#include "host.h"
#include <signal.h>
#include <stdbool.h>
#include <stdint.h>

enum { N = 16 };

static bool is_want(cl_int fault) { return fault == CL_OUT_OF_HOST_MEMORY || fault == CL_MAP_FAILURE; }

#define AGAIN(CALL) \
    do { \
        cl_int first_ = (CALL); \
        if (is_want(first_)) first_ = (CALL); \
        if (first_) fail_with(#CALL, __LINE__, first_); \
    } while (0)
#define MAKE(X, CALL) \
    do { \
        cl_int made_; \
        cl_int *fault = &made_; \
        (X) = (CALL); \
        if (!(X) && is_want(made_)) (X) = (CALL); \
        if (!(X) || made_) fail_with(#CALL, __LINE__, made_); \
    } while (0)

static const char source[] = "#define TIMES 3\n"
                             "__constant int table[2] = {5, 7};\n"
                             "__kernel void f(__global int *a, int n) {\n"
                             "    a[get_global_id(0)] *= TIMES * n + table[n];\n"
                             "}\n"
                             "__kernel void race(__global int *a) { a[get_global_id(0)] = a[get_global_id(0) / 2]; }\n";

static cl_mem buffer_by_map(cl_context c, cl_command_queue q) {
    cl_mem m;
    int32_t *p;
    MAKE(m, clCreateBuffer(c, CL_MEM_READ_WRITE, N * sizeof *p, NULL, fault));
    MAKE(p, clEnqueueMapBuffer(q, m, CL_TRUE, CL_MAP_WRITE, 0, N * sizeof *p, 0, NULL, NULL, fault));
    for (int i = 0; i < N; i++) p[i] = i;
    AGAIN(clEnqueueUnmapMemObject(q, m, p, 0, NULL, NULL));
    return m;
}

static cl_program built(cl_context c) {
    cl_program p;
    const char *text = source;
    MAKE(p, clCreateProgramWithSource(c, 1, &text, NULL, fault));
    AGAIN(clBuildProgram(p, 0, NULL, "", NULL, NULL));
    return p;
}

// A program in Clsim's language, compiled and linked apart.
static cl_program linked(cl_context c) {
    static const char *own =
        "__kernel void g(__global int *a)\n{\n    a[get_global_id(0)] = a[get_global_id(0)] + 1;\n}\n";
    cl_program p, whole;
    MAKE(p, clCreateProgramWithSource(c, 1, &own, NULL, fault));
    AGAIN(clCompileProgram(p, 0, NULL, "", 0, NULL, NULL, NULL, NULL));
    MAKE(whole, clLinkProgram(c, 0, NULL, "", 1, &p, NULL, NULL, fault));
    OK(clReleaseProgram(p));
    return whole;
}

static void launch(cl_command_queue q, cl_kernel k, cl_int wanted) {
    size_t global = N - 1, local = N - 1;
    cl_event event = NULL;
    cl_int fault = clEnqueueNDRangeKernel(q, k, 1, NULL, &global, &local, 0, NULL, &event);
    if (is_want(fault)) fault = clEnqueueNDRangeKernel(q, k, 1, NULL, &global, &local, 0, NULL, &event);
    if (fault != wanted || !event != !!wanted) fail_with("clEnqueueNDRangeKernel", __LINE__, fault);
    if (event) OK(clReleaseEvent(event));
}

static void compare(cl_command_queue q, cl_mem m, int factor) {
    int32_t got[N];
    AGAIN(clEnqueueReadBuffer(q, m, CL_TRUE, 0, sizeof got, got, 0, NULL, NULL));
    for (int i = 0; i < N; i++)
        if (got[i] != (i < N - 1 ? i * factor : i)) exit(4);
}

// A reply that is longer than what a session has room for at first.
static void read_much(cl_context c, cl_command_queue q) {
    static unsigned char bytes[1 << 17], got[sizeof bytes];
    cl_mem m;
    for (size_t i = 0; i < sizeof bytes; i++) bytes[i] = (unsigned char)(i % 251);
    MAKE(m, clCreateBuffer(c, CL_MEM_COPY_HOST_PTR, sizeof bytes, bytes, fault));
    AGAIN(clEnqueueReadBuffer(q, m, CL_TRUE, 0, sizeof got, got, 0, NULL, NULL));
    if (memcmp(got, bytes, sizeof got)) exit(5);
    OK(clReleaseMemObject(m));
}

// A launch on a part of a buffer, and one that stores into a buffer that may only be read.
static void launch_parts(host *h, cl_program p) {
    static int32_t numbers[2 * N + N];
    cl_buffer_region region = {128, N * sizeof *numbers};
    cl_program other = linked(h->context);
    cl_mem m, part, fixed;
    cl_kernel kernels[2];
    cl_int n = 1;
    MAKE(m, clCreateBuffer(h->context, CL_MEM_COPY_HOST_PTR, sizeof numbers, numbers, fault));
    MAKE(part, clCreateSubBuffer(m, 0, CL_BUFFER_CREATE_TYPE_REGION, &region, fault));
    MAKE(fixed, clCreateBuffer(h->context, CL_MEM_COPY_HOST_PTR | CL_MEM_READ_ONLY, sizeof numbers, numbers, fault));
    MAKE(kernels[0], clCreateKernel(other, "g", fault));
    MAKE(kernels[1], clCreateKernel(p, "f", fault));
    AGAIN(clSetKernelArg(kernels[0], 0, sizeof part, &part));
    launch(h->queue, kernels[0], CL_SUCCESS);
    AGAIN(clEnqueueReadBuffer(h->queue, m, CL_TRUE, 128, 4, &n, 0, NULL, NULL));
    if (n != 1) exit(6);
    AGAIN(clSetKernelArg(kernels[1], 0, sizeof fixed, &fixed));
    AGAIN(clSetKernelArg(kernels[1], 1, sizeof n, &n));
    launch(h->queue, kernels[1], CL_INVALID_OPERATION);
    for (int i = 0; i < 2; i++) OK(clReleaseKernel(kernels[i]));
    cl_mem all[] = {m, part, fixed};
    for (int i = 0; i < 3; i++) OK(clReleaseMemObject(all[i]));
    OK(clReleaseProgram(other));
}

int main(void) {
    host h;
    cl_platform_id platform;
    cl_int n = 1;
    unsetenv("LD_PRELOAD");   // the device has all the memory that it asks for
    signal(SIGCHLD, SIG_IGN); // and this process has no status of a child
    OK(clGetPlatformIDs(1, &platform, NULL));
    OK(clGetDeviceIDs(platform, CL_DEVICE_TYPE_ALL, 1, &h.device, NULL));
    cl_context_properties properties[] = {CL_CONTEXT_PLATFORM, (cl_context_properties)platform, 0};
    MAKE(h.context, clCreateContext(properties, 1, &h.device, NULL, NULL, fault));
    MAKE(h.queue, clCreateCommandQueue(h.context, h.device, 0, fault));
    cl_mem m = buffer_by_map(h.context, h.queue);
    cl_program p = built(h.context);
    cl_kernel kernels[2];
    AGAIN(clCreateKernelsInProgram(p, 2, kernels, NULL));
    AGAIN(clSetKernelArg(kernels[0], 0, sizeof m, &m));
    AGAIN(clSetKernelArg(kernels[0], 1, sizeof n, &n));
    AGAIN(clSetKernelArg(kernels[1], 0, sizeof m, &m));
    launch(h.queue, kernels[0], CL_SUCCESS);
    compare(h.queue, m, 10);
    launch(h.queue, kernels[1], CL_INVALID_OPERATION);
    compare(h.queue, m, 10);
    read_much(h.context, h.queue);
    launch_parts(&h, p);
    for (int i = 0; i < 2; i++) OK(clReleaseKernel(kernels[i]));
    OK(clReleaseProgram(p));
    OK(clReleaseMemObject(m));
    close_host(&h);
    puts("right");
    return 0;
}
