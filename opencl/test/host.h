// What the host programs of the tests share. A call that fails ends the process with status 3 and a line that names it.
#ifndef CLSIM_TEST_HOST_H
#define CLSIM_TEST_HOST_H
#define CL_TARGET_OPENCL_VERSION 120
#include <CL/cl.h>
#include <stdio.h>
#include <stdlib.h>
#include <string.h>

#define OK(CALL) \
    do { \
        cl_int fault_ = (CALL); \
        if (fault_) fail_with(#CALL, __LINE__, fault_); \
    } while (0)

static void fail_with(const char *call, int line, cl_int fault) {
    fprintf(stderr, "line %d: %.60s: error %d\n", line, call, fault);
    exit(3);
}

typedef struct {
    cl_device_id device;
    cl_context context;
    cl_command_queue queue;
} host;

// The first device of the platform whose name has $TEST_PLATFORM in it, else of the first platform.
static inline host open_host(void) {
    cl_platform_id platforms[16], chosen;
    cl_uint count = 0;
    cl_int fault;
    host h;
    OK(clGetPlatformIDs(16, platforms, &count));
    chosen = platforms[0];
    const char *wanted = getenv("TEST_PLATFORM");
    for (cl_uint i = 0; wanted && i < count; i++) {
        char name[256];
        OK(clGetPlatformInfo(platforms[i], CL_PLATFORM_NAME, sizeof name, name, NULL));
        if (strstr(name, wanted)) chosen = platforms[i];
    }
    OK(clGetDeviceIDs(chosen, CL_DEVICE_TYPE_ALL, 1, &h.device, NULL));
    h.context = clCreateContext(NULL, 1, &h.device, NULL, NULL, &fault);
    OK(fault);
    h.queue = clCreateCommandQueue(h.context, h.device, 0, &fault);
    OK(fault);
    return h;
}

static inline void close_host(host *h) {
    OK(clReleaseCommandQueue(h->queue));
    OK(clReleaseContext(h->context));
}

static inline cl_program build_program(host *h, const char *source, const char *options) {
    cl_int fault;
    cl_program p = clCreateProgramWithSource(h->context, 1, &source, NULL, &fault);
    OK(fault);
    fault = clBuildProgram(p, 0, NULL, options, NULL, NULL);
    if (fault) {
        static char log[65536];
        clGetProgramBuildInfo(p, h->device, CL_PROGRAM_BUILD_LOG, sizeof log, log, NULL);
        fprintf(stderr, "%s", log);
        fail_with("clBuildProgram", __LINE__, fault);
    }
    return p;
}
#endif
