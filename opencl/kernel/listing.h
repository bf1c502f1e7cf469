// The kernels of a built program, and what they take.
#ifndef CLSIM_KERNEL_LISTING_H
#define CLSIM_KERNEL_LISTING_H
#include "../arena.h"
#include "numbers.h"
#define CL_TARGET_OPENCL_VERSION 120
#include <CL/cl.h>

typedef struct {
    const char *name; // its number where the source gives it none
    const char *type; // as clGetKernelArgInfo tells it: of a pointer with a star
    cl_kernel_arg_address_qualifier space;
    cl_kernel_arg_type_qualifier qualifiers;
    bool is_pointer;  // to global, constant or local memory
    bool has_element; // of its type numbers can be given
    element element;  // of a pointer what it points to
} parameter_form;

typedef struct {
    cl_kernel kernel;
    const char *name, *attributes;
    parameter_form *parameters;
    cl_uint count;
    size_t group[3]; // reqd_work_group_size, or zeros
    cl_ulong local_bytes;
} kernel_form;

// The names of a program's kernels. Where a call fails, the command ends; so it does below.
char **kernel_names(arena *a, cl_program program, size_t *count);
// Makes a kernel of a name that is one of them, and reads its form.
kernel_form open_kernel(arena *a, cl_program program, cl_device_id device, const char *name);
// Shows a kernel with its parameters, and how an argument for each is given.
void show_kernel(arena *a, const kernel_form *k);
// How an argument of a parameter is given: `a=int[COUNT]`.
const char *form_of(arena *a, const parameter_form *p);
// What the parameter is, as the source declares it.
const char *declared(arena *a, const parameter_form *p);
#endif
