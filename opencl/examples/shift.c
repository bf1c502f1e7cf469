// Shifts a row of numbers by one place on the first OpenCL device. On Clsim the launch is refused: it races.
//
//     cc -o shift shift.c -lOpenCL && ./shift
#define CL_TARGET_OPENCL_VERSION 120
#include <CL/cl.h>
#include <stdio.h>

static const char *source = "#define NEXT(i) (((i) + 1) % get_global_size(0))\n"
                            "__kernel void shift(__global int *data)\n"
                            "{\n"
                            "    const int i = get_global_id(0);\n"
                            "    data[i] = data[NEXT(i)];\n"
                            "}\n";

int main(void) {
    enum { N = 8 };
    cl_int numbers[N], fault;
    cl_platform_id platform;
    cl_device_id device;
    for (int i = 0; i < N; i++) numbers[i] = i;
    if (clGetPlatformIDs(1, &platform, NULL) || clGetDeviceIDs(platform, CL_DEVICE_TYPE_ALL, 1, &device, NULL))
        return 2;
    cl_context context = clCreateContext(NULL, 1, &device, NULL, NULL, &fault);
    if (fault) return 2;
    cl_command_queue queue = clCreateCommandQueue(context, device, 0, &fault);
    cl_mem buffer = clCreateBuffer(context, CL_MEM_COPY_HOST_PTR, sizeof numbers, numbers, &fault);
    cl_program program = clCreateProgramWithSource(context, 1, &source, NULL, &fault);
    if (clBuildProgram(program, 1, &device, "", NULL, NULL)) return 2;
    cl_kernel kernel = clCreateKernel(program, "shift", &fault);
    clSetKernelArg(kernel, 0, sizeof buffer, &buffer);
    size_t global = N, local = 4;
    fault = clEnqueueNDRangeKernel(queue, kernel, 1, NULL, &global, &local, 0, NULL, NULL);
    if (fault) printf("the launch answers %d\n", fault);
    clEnqueueReadBuffer(queue, buffer, CL_TRUE, 0, sizeof numbers, numbers, 0, NULL, NULL);
    for (int i = 0; i < N; i++) printf("%d%c", numbers[i], i + 1 < N ? ' ' : '\n');
    clReleaseKernel(kernel);
    clReleaseProgram(program);
    clReleaseMemObject(buffer);
    clReleaseCommandQueue(queue);
    clReleaseContext(context);
    return fault ? 1 : 0;
}
