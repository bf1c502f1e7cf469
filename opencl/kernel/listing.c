#define _GNU_SOURCE
#include "listing.h"
#include "telling.h"
#include <stdio.h>
#include <string.h>

static void want(cl_int fault, const char *call) {
    if (fault == CL_SUCCESS) return;
    tell_errors();
    if (fault == CL_OUT_OF_HOST_MEMORY) stop("out of memory");
    stop("%s answers %d", call, fault);
}

// ---- what calls tell ----

static const char *argument_text(arena *a, cl_kernel k, cl_uint index, cl_kernel_arg_info what) {
    size_t n;
    want(clGetKernelArgInfo(k, index, what, 0, NULL, &n), "clGetKernelArgInfo");
    char *told = take(a, n + 1);
    want(clGetKernelArgInfo(k, index, what, n, told, NULL), "clGetKernelArgInfo");
    return told;
}

static const char *kernel_text(arena *a, cl_kernel k, cl_kernel_info what) {
    size_t n;
    want(clGetKernelInfo(k, what, 0, NULL, &n), "clGetKernelInfo");
    char *told = take(a, n + 1);
    want(clGetKernelInfo(k, what, n, told, NULL), "clGetKernelInfo");
    return told;
}

static parameter_form read_parameter(arena *a, cl_kernel k, cl_uint index) {
    parameter_form p = {.name = argument_text(a, k, index, CL_KERNEL_ARG_NAME),
                        .type = argument_text(a, k, index, CL_KERNEL_ARG_TYPE_NAME)};
    text number = {.arena = a};
    want(clGetKernelArgInfo(k, index, CL_KERNEL_ARG_ADDRESS_QUALIFIER, sizeof p.space, &p.space, NULL),
         "clGetKernelArgInfo");
    want(clGetKernelArgInfo(k, index, CL_KERNEL_ARG_TYPE_QUALIFIER, sizeof p.qualifiers, &p.qualifiers, NULL),
         "clGetKernelArgInfo");
    p.is_pointer = p.space != CL_KERNEL_ARG_ADDRESS_PRIVATE;
    p.has_element = element_named(p.type, strcspn(p.type, "*"), &p.element);
    if (*p.name) return p;
    addf(&number, "%u", index);
    p.name = number.at;
    return p;
}

kernel_form open_kernel(arena *a, cl_program program, cl_device_id device, const char *name) {
    cl_int fault;
    cl_kernel kernel = clCreateKernel(program, name, &fault);
    want(fault, "clCreateKernel");
    kernel_form k = {.kernel = kernel, .name = name, .attributes = kernel_text(a, kernel, CL_KERNEL_ATTRIBUTES)};
    want(clGetKernelInfo(kernel, CL_KERNEL_NUM_ARGS, sizeof k.count, &k.count, NULL), "clGetKernelInfo");
    want(clGetKernelWorkGroupInfo(kernel, device, CL_KERNEL_COMPILE_WORK_GROUP_SIZE, sizeof k.group, k.group, NULL),
         "clGetKernelWorkGroupInfo");
    want(clGetKernelWorkGroupInfo(kernel, device, CL_KERNEL_LOCAL_MEM_SIZE, sizeof k.local_bytes, &k.local_bytes, NULL),
         "clGetKernelWorkGroupInfo");
    k.parameters = take(a, (k.count + 1) * sizeof *k.parameters);
    for (cl_uint i = 0; i < k.count; i++) k.parameters[i] = read_parameter(a, kernel, i);
    return k;
}

char **kernel_names(arena *a, cl_program program, size_t *count) {
    size_t n;
    want(clGetProgramInfo(program, CL_PROGRAM_KERNEL_NAMES, 0, NULL, &n), "clGetProgramInfo");
    char *told = take(a, n + 1), **names = take(a, (n / 2 + 1) * sizeof *names), *rest = NULL;
    want(clGetProgramInfo(program, CL_PROGRAM_KERNEL_NAMES, n, told, NULL), "clGetProgramInfo");
    *count = 0;
    for (char *name = strtok_r(told, ";", &rest); name; name = strtok_r(NULL, ";", &rest)) names[(*count)++] = name;
    return names;
}

// ---- texts ----

const char *declared(arena *a, const parameter_form *p) {
    static const char *const spaces[] = {"__global ", "__local ", "__constant ", ""};
    text all = {.arena = a};
    size_t n = strcspn(p->type, "*");
    bool is_const = p->qualifiers & CL_KERNEL_ARG_TYPE_CONST && p->space != CL_KERNEL_ARG_ADDRESS_CONSTANT;
    addf(&all, "%s%s%s%.*s", spaces[p->space - CL_KERNEL_ARG_ADDRESS_GLOBAL], is_const ? "const " : "",
         p->qualifiers & CL_KERNEL_ARG_TYPE_VOLATILE ? "volatile " : "", (int)n, p->type);
    if (p->is_pointer) addf(&all, " *%s", p->qualifiers & CL_KERNEL_ARG_TYPE_RESTRICT ? "restrict " : "");
    else add(&all, " ");
    add(&all, p->name);
    return all.at;
}

const char *form_of(arena *a, const parameter_form *p) {
    text all = {.arena = a};
    char name[32] = "uchar";
    if (p->has_element) put_element_name(name, sizeof name, &p->element);
    addf(&all, "%s=", p->name);
    if (p->space == CL_KERNEL_ARG_ADDRESS_LOCAL) add(&all, "local:BYTES");
    else if (p->is_pointer) addf(&all, "%s[%s]", name, p->has_element ? "COUNT" : "BYTES");
    else if (!p->has_element) add(&all, "uchar:BYTE,BYTE..");
    else
        for (unsigned i = 0; i < p->element.lanes; i++) addf(&all, "%sNUMBER", i ? "," : "");
    return all.at;
}

void show_kernel(arena *a, const kernel_form *k) {
    size_t width = 0;
    int digits = k->count > 100 ? 3 : k->count > 10 ? 2 : 1;
    for (cl_uint i = 0; i < k->count; i++) {
        size_t n = strlen(declared(a, &k->parameters[i]));
        if (n > width) width = n;
    }
    printf("kernel %s\n", k->name);
    if (*k->attributes) printf("  %s\n", k->attributes);
    if (k->local_bytes) printf("  %llu bytes of local memory of its own\n", (unsigned long long)k->local_bytes);
    for (cl_uint i = 0; i < k->count; i++)
        printf("  %-*u  %-*s  --arg %s\n", digits, i, (int)width, declared(a, &k->parameters[i]),
               form_of(a, &k->parameters[i]));
}
