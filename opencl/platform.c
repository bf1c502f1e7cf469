#include "objects.h"
#include <pthread.h>
#include <stdio.h>
#include <stdlib.h>

// The one platform with its one device.

struct _cl_platform_id the_platform = {&dispatch_table};
struct _cl_device_id the_device = {&dispatch_table};

// By which of them a client asks for a device, it finds this one. It says that it is a GPU: clients compare with one
// type, and libraries choose kernels without floating point for those.
#define DEVICE_TYPES (CL_DEVICE_TYPE_CPU | CL_DEVICE_TYPE_GPU | CL_DEVICE_TYPE_ACCELERATOR | CL_DEVICE_TYPE_DEFAULT)
#define EXTENSIONS \
    "cl_khr_byte_addressable_store cl_khr_global_int32_base_atomics cl_khr_global_int32_extended_atomics " \
    "cl_khr_local_int32_base_atomics cl_khr_local_int32_extended_atomics cl_khr_fp64"

// Each operation rounds once, to the nearest, as IEEE 754 says, with subnormal numbers, infinities and NaNs.
#define BOTH_CONFIGS (CL_FP_DENORM | CL_FP_INF_NAN | CL_FP_ROUND_TO_NEAREST | CL_FP_FMA)
// (of double a device has to tell the other directions too, table 4.3; only conversions and stores ask for them)
#define SINGLE_CONFIG (BOTH_CONFIGS | CL_FP_CORRECTLY_ROUNDED_DIVIDE_SQRT)
#define DOUBLE_CONFIG (BOTH_CONFIGS | CL_FP_ROUND_TO_ZERO | CL_FP_ROUND_TO_INF)

// Notes in the file that CLSIM_ASKED names that a client asked for the device, so that `clsim-exec` can tell where none
// did.
static void note_asked(void) {
    const char *path = getenv("CLSIM_ASKED");
    FILE *file = path && *path ? fopen(path, "a") : NULL;
    if (!file) return;
    fputs("asked\n", file);
    fclose(file);
}
static pthread_once_t asked = PTHREAD_ONCE_INIT;

CL_API_ENTRY cl_int CL_API_CALL clIcdGetPlatformIDsKHR(cl_uint room, cl_platform_id *to, cl_uint *count) {
    if ((!to && !count) || (to && !room)) return CL_INVALID_VALUE;
    if (to) *to = &the_platform;
    if (count) *count = 1;
    return CL_SUCCESS;
}
CL_API_ENTRY cl_int CL_API_CALL clGetPlatformIDs(cl_uint room, cl_platform_id *to, cl_uint *count) {
    return clIcdGetPlatformIDsKHR(room, to, count);
}

CL_API_ENTRY cl_int CL_API_CALL clGetPlatformInfo(cl_platform_id p, cl_platform_info name, size_t room, void *to,
                                                  size_t *size) {
    if (p && p != &the_platform) return CL_INVALID_PLATFORM;
    switch (name) {
    case CL_PLATFORM_PROFILE: return give_text("FULL_PROFILE", room, to, size);
    case CL_PLATFORM_VERSION: return give_text("OpenCL 1.2 Clsim", room, to, size);
    case CL_PLATFORM_NAME: return give_text("Clsim", room, to, size);
    case CL_PLATFORM_VENDOR: return give_text("Clsim", room, to, size);
    case CL_PLATFORM_EXTENSIONS: return give_text("cl_khr_icd", room, to, size);
    case CL_PLATFORM_ICD_SUFFIX_KHR: return give_text("CLSIM", room, to, size);
    default: return CL_INVALID_VALUE;
    }
}

CL_API_ENTRY cl_int CL_API_CALL clGetDeviceIDs(cl_platform_id p, cl_device_type type, cl_uint room, cl_device_id *to,
                                               cl_uint *count) {
    if (p && p != &the_platform) return CL_INVALID_PLATFORM;
    if ((!to && !count) || (to && !room)) return CL_INVALID_VALUE;
    pthread_once(&asked, note_asked);
    if (!(type & DEVICE_TYPES)) return type & CL_DEVICE_TYPE_CUSTOM ? CL_DEVICE_NOT_FOUND : CL_INVALID_DEVICE_TYPE;
    if (to) *to = &the_device;
    if (count) *count = 1;
    return CL_SUCCESS;
}

// The bytes of a kernel's parameters: the least that a device may tell (table 4.3).
enum { PARAMETER_BYTES = 1024 };

CL_API_ENTRY cl_int CL_API_CALL clGetDeviceInfo(cl_device_id d, cl_device_info name, size_t room, void *to,
                                                size_t *size) {
    const device_limits *limits = limits_of_device();
    if (d != &the_device) return CL_INVALID_DEVICE;
    switch (name) {
    case CL_DEVICE_TYPE: GIVE(cl_device_type, CL_DEVICE_TYPE_GPU);
    case CL_DEVICE_VENDOR_ID: GIVE(cl_uint, 0);
    case CL_DEVICE_MAX_COMPUTE_UNITS: GIVE(cl_uint, 1);
    case CL_DEVICE_MAX_WORK_ITEM_DIMENSIONS: GIVE(cl_uint, 3);
    case CL_DEVICE_MAX_WORK_GROUP_SIZE: GIVE(size_t, limits->group);
    case CL_DEVICE_MAX_WORK_ITEM_SIZES: {
        size_t sizes[3] = {limits->group, limits->group, limits->group};
        return give(sizes, sizeof sizes, room, to, size);
    }
    case CL_DEVICE_PREFERRED_VECTOR_WIDTH_CHAR:
    case CL_DEVICE_PREFERRED_VECTOR_WIDTH_SHORT:
    case CL_DEVICE_PREFERRED_VECTOR_WIDTH_INT:
    case CL_DEVICE_PREFERRED_VECTOR_WIDTH_LONG:
    case CL_DEVICE_NATIVE_VECTOR_WIDTH_CHAR:
    case CL_DEVICE_NATIVE_VECTOR_WIDTH_SHORT:
    case CL_DEVICE_NATIVE_VECTOR_WIDTH_INT:
    case CL_DEVICE_NATIVE_VECTOR_WIDTH_LONG:
    case CL_DEVICE_PREFERRED_VECTOR_WIDTH_FLOAT:
    case CL_DEVICE_PREFERRED_VECTOR_WIDTH_DOUBLE:
    case CL_DEVICE_NATIVE_VECTOR_WIDTH_FLOAT:
    case CL_DEVICE_NATIVE_VECTOR_WIDTH_DOUBLE: GIVE(cl_uint, 1);
    case CL_DEVICE_PREFERRED_VECTOR_WIDTH_HALF:
    case CL_DEVICE_NATIVE_VECTOR_WIDTH_HALF: GIVE(cl_uint, 0);
    case CL_DEVICE_MAX_CLOCK_FREQUENCY: GIVE(cl_uint, 1);
    case CL_DEVICE_ADDRESS_BITS: GIVE(cl_uint, 64);
    case CL_DEVICE_MAX_MEM_ALLOC_SIZE: GIVE(cl_ulong, limits->bytes);
    case CL_DEVICE_IMAGE_SUPPORT: GIVE(cl_bool, CL_FALSE);
    case CL_DEVICE_MAX_READ_IMAGE_ARGS:
    case CL_DEVICE_MAX_WRITE_IMAGE_ARGS:
    case CL_DEVICE_MAX_SAMPLERS: GIVE(cl_uint, 0);
    case CL_DEVICE_IMAGE2D_MAX_WIDTH:
    case CL_DEVICE_IMAGE2D_MAX_HEIGHT:
    case CL_DEVICE_IMAGE3D_MAX_WIDTH:
    case CL_DEVICE_IMAGE3D_MAX_HEIGHT:
    case CL_DEVICE_IMAGE3D_MAX_DEPTH:
    case CL_DEVICE_IMAGE_MAX_BUFFER_SIZE:
    case CL_DEVICE_IMAGE_MAX_ARRAY_SIZE: GIVE(size_t, 0);
    case CL_DEVICE_MAX_PARAMETER_SIZE: GIVE(size_t, PARAMETER_BYTES);
    case CL_DEVICE_MEM_BASE_ADDR_ALIGN: GIVE(cl_uint, 8 * BASE_ALIGN);
    case CL_DEVICE_MIN_DATA_TYPE_ALIGN_SIZE: GIVE(cl_uint, BASE_ALIGN);
    case CL_DEVICE_SINGLE_FP_CONFIG: GIVE(cl_device_fp_config, SINGLE_CONFIG);
    case CL_DEVICE_DOUBLE_FP_CONFIG: GIVE(cl_device_fp_config, DOUBLE_CONFIG);
    case CL_DEVICE_GLOBAL_MEM_CACHE_TYPE: GIVE(cl_device_mem_cache_type, CL_NONE);
    case CL_DEVICE_GLOBAL_MEM_CACHELINE_SIZE: GIVE(cl_uint, 0);
    case CL_DEVICE_GLOBAL_MEM_CACHE_SIZE: GIVE(cl_ulong, 0);
    case CL_DEVICE_GLOBAL_MEM_SIZE: GIVE(cl_ulong, limits->global_bytes);
    case CL_DEVICE_MAX_CONSTANT_BUFFER_SIZE: GIVE(cl_ulong, limits->bytes);
    case CL_DEVICE_MAX_CONSTANT_ARGS: {
        size_t pointers = PARAMETER_BYTES / sizeof(cl_mem);
        GIVE(cl_uint, (cl_uint)(limits->buffers < pointers ? limits->buffers : pointers));
    }
    case CL_DEVICE_LOCAL_MEM_TYPE: GIVE(cl_device_local_mem_type, CL_LOCAL);
    case CL_DEVICE_LOCAL_MEM_SIZE: GIVE(cl_ulong, limits->local_bytes);
    case CL_DEVICE_ERROR_CORRECTION_SUPPORT: GIVE(cl_bool, CL_FALSE);
    case CL_DEVICE_HOST_UNIFIED_MEMORY: GIVE(cl_bool, CL_FALSE);
    case CL_DEVICE_PROFILING_TIMER_RESOLUTION: GIVE(size_t, 1);
    case CL_DEVICE_ENDIAN_LITTLE: GIVE(cl_bool, CL_TRUE);
    case CL_DEVICE_AVAILABLE:
    case CL_DEVICE_COMPILER_AVAILABLE:
    case CL_DEVICE_LINKER_AVAILABLE: GIVE(cl_bool, CL_TRUE);
    case CL_DEVICE_EXECUTION_CAPABILITIES: GIVE(cl_device_exec_capabilities, CL_EXEC_KERNEL);
    case CL_DEVICE_QUEUE_PROPERTIES:
        GIVE(cl_command_queue_properties, CL_QUEUE_PROFILING_ENABLE | CL_QUEUE_OUT_OF_ORDER_EXEC_MODE_ENABLE);
    case CL_DEVICE_BUILT_IN_KERNELS: return give_text("", room, to, size);
    case CL_DEVICE_PLATFORM: GIVE(cl_platform_id, &the_platform);
    case CL_DEVICE_NAME: return give_text("Clsim", room, to, size);
    case CL_DEVICE_VENDOR: return give_text("Clsim", room, to, size);
    case CL_DRIVER_VERSION: return give_text("1", room, to, size);
    case CL_DEVICE_PROFILE: return give_text("FULL_PROFILE", room, to, size);
    case CL_DEVICE_VERSION: return give_text("OpenCL 1.2 Clsim", room, to, size);
    case CL_DEVICE_OPENCL_C_VERSION: return give_text("OpenCL C 1.2 Clsim", room, to, size);
    case CL_DEVICE_EXTENSIONS: return give_text(EXTENSIONS, room, to, size);
    case CL_DEVICE_PRINTF_BUFFER_SIZE: GIVE(size_t, printing_bytes());
    case CL_DEVICE_PREFERRED_INTEROP_USER_SYNC: GIVE(cl_bool, CL_TRUE);
    case CL_DEVICE_PARENT_DEVICE: GIVE(cl_device_id, NULL);
    case CL_DEVICE_PARTITION_MAX_SUB_DEVICES: GIVE(cl_uint, 0);
    case CL_DEVICE_PARTITION_PROPERTIES:
    case CL_DEVICE_PARTITION_TYPE: GIVE(cl_device_partition_property, 0);
    case CL_DEVICE_PARTITION_AFFINITY_DOMAIN: GIVE(cl_device_affinity_domain, 0);
    case CL_DEVICE_REFERENCE_COUNT: GIVE(cl_uint, 1);
    default: return CL_INVALID_VALUE;
    }
}
CL_API_ENTRY cl_int CL_API_CALL clRetainDevice(cl_device_id d) {
    return d == &the_device ? CL_SUCCESS : CL_INVALID_DEVICE;
}
CL_API_ENTRY cl_int CL_API_CALL clReleaseDevice(cl_device_id d) {
    return d == &the_device ? CL_SUCCESS : CL_INVALID_DEVICE;
}
CL_API_ENTRY cl_int CL_API_CALL clCreateSubDevices(cl_device_id d, const cl_device_partition_property *p, cl_uint n,
                                                   cl_device_id *to, cl_uint *count) {
    (void)p;
    (void)n;
    (void)to;
    (void)count;
    return d == &the_device ? CL_INVALID_VALUE : CL_INVALID_DEVICE;
}
