#include "objects.h"
#include <string.h>

// ---- images and samplers: none ----
CL_API_ENTRY cl_mem CL_API_CALL clCreateImage(cl_context c, cl_mem_flags f, const cl_image_format *i,
                                              const cl_image_desc *d, void *h, cl_int *errcode) {
    (void)f;
    (void)i;
    (void)d;
    (void)h;
    LOCKED;
    if (!is_a(c, CONTEXT)) return fail(errcode, CL_INVALID_CONTEXT);
    refuse(c, "an image is refused");
    return fail(errcode, CL_INVALID_OPERATION);
}
CL_API_ENTRY cl_mem CL_API_CALL clCreateImage2D(cl_context c, cl_mem_flags f, const cl_image_format *i, size_t w,
                                                size_t h, size_t p, void *at, cl_int *errcode) {
    (void)w;
    (void)h;
    (void)p;
    return clCreateImage(c, f, i, NULL, at, errcode);
}
CL_API_ENTRY cl_mem CL_API_CALL clCreateImage3D(cl_context c, cl_mem_flags f, const cl_image_format *i, size_t w,
                                                size_t h, size_t d, size_t p, size_t s, void *at, cl_int *errcode) {
    (void)w;
    (void)h;
    (void)d;
    (void)p;
    (void)s;
    return clCreateImage(c, f, i, NULL, at, errcode);
}
CL_API_ENTRY cl_int CL_API_CALL clGetSupportedImageFormats(cl_context c, cl_mem_flags f, cl_mem_object_type t,
                                                           cl_uint n, cl_image_format *to, cl_uint *count) {
    (void)f;
    (void)t;
    (void)n;
    (void)to;
    LOCKED;
    if (!is_a(c, CONTEXT)) return CL_INVALID_CONTEXT;
    if (count) *count = 0;
    return CL_SUCCESS;
}
CL_API_ENTRY cl_int CL_API_CALL clGetImageInfo(cl_mem m, cl_image_info n, size_t r, void *t, size_t *s) {
    (void)m;
    (void)n;
    (void)r;
    (void)t;
    (void)s;
    return CL_INVALID_MEM_OBJECT;
}
CL_API_ENTRY cl_sampler CL_API_CALL clCreateSampler(cl_context c, cl_bool n, cl_addressing_mode a, cl_filter_mode f,
                                                    cl_int *errcode) {
    (void)n;
    (void)a;
    (void)f;
    LOCKED;
    return fail(errcode, is_a(c, CONTEXT) ? CL_INVALID_OPERATION : CL_INVALID_CONTEXT);
}
