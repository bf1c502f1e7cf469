// What reads and writes of a buffer cost a host program, through the driver in opencl/ and `clsim serve`.
//
//     make -C ../../opencl
//     cc -O2 -std=gnu11 -Wall -Wextra -Werror -o driver_rate driver_rate.c -L../../opencl -l:libclsim_opencl.so
//     CLSIM_SERVE='PROGRAM serve' LD_LIBRARY_PATH=../../opencl ./driver_rate
#define CL_TARGET_OPENCL_VERSION 120
#define CL_USE_DEPRECATED_OPENCL_1_1_APIS
#include <CL/cl.h>
#include <stdio.h>
#include <stdlib.h>
#include <string.h>
#include <time.h>

enum { MIB = 1 << 20, TIMES = 100 };

typedef struct {
    cl_command_queue queue;
    cl_mem memory;
    unsigned char *data;
} client;

static double micros(void) {
    struct timespec t;
    if (clock_gettime(CLOCK_MONOTONIC, &t)) exit(2);
    return (double)t.tv_sec * 1e6 + (double)t.tv_nsec / 1e3;
}

static int by_size(const void *a, const void *b) {
    double x = *(const double *)a, y = *(const double *)b;
    return (x > y) - (x < y);
}

static void check(cl_int error, const char *what) {
    if (!error) return;
    fprintf(stderr, "driver_rate: %s: %d\n", what, error);
    exit(2);
}

static cl_int write_bytes(const client *c, size_t n) {
    return clEnqueueWriteBuffer(c->queue, c->memory, CL_TRUE, 0, n, c->data, 0, NULL, NULL);
}

static cl_int read_bytes(const client *c, size_t n) {
    return clEnqueueReadBuffer(c->queue, c->memory, CL_TRUE, 0, n, c->data, 0, NULL, NULL);
}

// Does the same many times and prints a row.
static void measure(const client *c, const char *name, cl_int (*call)(const client *, size_t), size_t n) {
    double times[TIMES];
    check(call(c, n), name);
    for (int i = 0; i < TIMES; i++) {
        double begun = micros();
        check(call(c, n), name);
        times[i] = micros() - begun;
    }
    qsort(times, TIMES, sizeof *times, by_size);
    printf("%-18s %8.1f %8.1f\n", name, times[0], times[TIMES / 2]);
}

int main(void) {
    cl_platform_id platform;
    cl_device_id device;
    cl_int error;
    client c;
    check(clGetPlatformIDs(1, &platform, NULL), "clGetPlatformIDs");
    check(clGetDeviceIDs(platform, CL_DEVICE_TYPE_ALL, 1, &device, NULL), "clGetDeviceIDs");
    cl_context context = clCreateContext(NULL, 1, &device, NULL, NULL, &error);
    check(error, "clCreateContext");
    c.queue = clCreateCommandQueue(context, device, 0, &error);
    check(error, "clCreateCommandQueue");
    c.memory = clCreateBuffer(context, CL_MEM_READ_WRITE, MIB, NULL, &error);
    check(error, "clCreateBuffer");
    c.data = malloc(MIB);
    if (!c.data) return 2;
    for (int i = 0; i < MIB; i++) c.data[i] = (unsigned char)rand();
    printf("%-18s %8s %8s   microseconds\n", "", "least", "median");
    measure(&c, "write of 4 bytes", write_bytes, 4);
    measure(&c, "read of 4 bytes", read_bytes, 4);
    measure(&c, "write of 1 MiB", write_bytes, MIB);
    measure(&c, "read of 1 MiB", read_bytes, MIB);
    clReleaseMemObject(c.memory);
    clReleaseCommandQueue(c.queue);
    clReleaseContext(context);
    free(c.data);
    return 0;
}
