// The calls as clients have them: each is the driver's own, and with CLSIM_CHECK_API an error that it answers is told
// with the call's name. And the table of an ICD loader.
#define CLSIM_OUTER
#include "objects.h"
#include <string.h>

// ---- errors ----

#define ERROR(NAME) \
    { NAME, #NAME }
static const struct {
    cl_int fault;
    const char *name;
} errors[] = {
    ERROR(CL_DEVICE_NOT_FOUND),
    ERROR(CL_DEVICE_NOT_AVAILABLE),
    ERROR(CL_COMPILER_NOT_AVAILABLE),
    ERROR(CL_MEM_OBJECT_ALLOCATION_FAILURE),
    ERROR(CL_OUT_OF_RESOURCES),
    ERROR(CL_OUT_OF_HOST_MEMORY),
    ERROR(CL_PROFILING_INFO_NOT_AVAILABLE),
    ERROR(CL_MEM_COPY_OVERLAP),
    ERROR(CL_IMAGE_FORMAT_MISMATCH),
    ERROR(CL_IMAGE_FORMAT_NOT_SUPPORTED),
    ERROR(CL_BUILD_PROGRAM_FAILURE),
    ERROR(CL_MAP_FAILURE),
    ERROR(CL_MISALIGNED_SUB_BUFFER_OFFSET),
    ERROR(CL_EXEC_STATUS_ERROR_FOR_EVENTS_IN_WAIT_LIST),
    ERROR(CL_COMPILE_PROGRAM_FAILURE),
    ERROR(CL_LINKER_NOT_AVAILABLE),
    ERROR(CL_LINK_PROGRAM_FAILURE),
    ERROR(CL_DEVICE_PARTITION_FAILED),
    ERROR(CL_KERNEL_ARG_INFO_NOT_AVAILABLE),
    ERROR(CL_INVALID_VALUE),
    ERROR(CL_INVALID_DEVICE_TYPE),
    ERROR(CL_INVALID_PLATFORM),
    ERROR(CL_INVALID_DEVICE),
    ERROR(CL_INVALID_CONTEXT),
    ERROR(CL_INVALID_QUEUE_PROPERTIES),
    ERROR(CL_INVALID_COMMAND_QUEUE),
    ERROR(CL_INVALID_HOST_PTR),
    ERROR(CL_INVALID_MEM_OBJECT),
    ERROR(CL_INVALID_IMAGE_FORMAT_DESCRIPTOR),
    ERROR(CL_INVALID_IMAGE_SIZE),
    ERROR(CL_INVALID_SAMPLER),
    ERROR(CL_INVALID_BINARY),
    ERROR(CL_INVALID_BUILD_OPTIONS),
    ERROR(CL_INVALID_PROGRAM),
    ERROR(CL_INVALID_PROGRAM_EXECUTABLE),
    ERROR(CL_INVALID_KERNEL_NAME),
    ERROR(CL_INVALID_KERNEL_DEFINITION),
    ERROR(CL_INVALID_KERNEL),
    ERROR(CL_INVALID_ARG_INDEX),
    ERROR(CL_INVALID_ARG_VALUE),
    ERROR(CL_INVALID_ARG_SIZE),
    ERROR(CL_INVALID_KERNEL_ARGS),
    ERROR(CL_INVALID_WORK_DIMENSION),
    ERROR(CL_INVALID_WORK_GROUP_SIZE),
    ERROR(CL_INVALID_WORK_ITEM_SIZE),
    ERROR(CL_INVALID_GLOBAL_OFFSET),
    ERROR(CL_INVALID_EVENT_WAIT_LIST),
    ERROR(CL_INVALID_EVENT),
    ERROR(CL_INVALID_OPERATION),
    ERROR(CL_INVALID_GL_OBJECT),
    ERROR(CL_INVALID_BUFFER_SIZE),
    ERROR(CL_INVALID_MIP_LEVEL),
    ERROR(CL_INVALID_GLOBAL_WORK_SIZE),
    ERROR(CL_INVALID_PROPERTY),
    ERROR(CL_INVALID_IMAGE_DESCRIPTOR),
    ERROR(CL_INVALID_COMPILER_OPTIONS),
    ERROR(CL_INVALID_LINKER_OPTIONS),
    ERROR(CL_INVALID_DEVICE_PARTITION_COUNT),
};

static const char *name_of_error(cl_int fault) {
    for (size_t i = 0; i < sizeof errors / sizeof *errors; i++)
        if (errors[i].fault == fault) return errors[i].name;
    return "an error";
}

static cl_int told(const char *call, cl_int fault) {
    if (!fault || !setting("CLSIM_CHECK_API")) return fault;
    lock();
    tell("%s answers %s (%d)", call, name_of_error(fault), fault);
    unlock();
    return fault;
}

// ---- calls ----

// One that answers an error.
#define CALL(NAME, PARAMETERS, ARGUMENTS) \
    cl_int inner_##NAME PARAMETERS; \
    CL_API_ENTRY cl_int CL_API_CALL NAME PARAMETERS { return told(#NAME, inner_##NAME ARGUMENTS); }
// One that hands out an object or a pointer; its error goes where its last parameter says.
#define MAKE(T, NAME, PARAMETERS, ARGUMENTS) \
    T inner_##NAME PARAMETERS; \
    CL_API_ENTRY T CL_API_CALL NAME PARAMETERS { \
        cl_int fault = CL_SUCCESS; \
        T made = inner_##NAME ARGUMENTS; \
        told(#NAME, fault); \
        if (errcode_ret) *errcode_ret = fault; \
        return made; \
    }

// clang-format off
MAKE(cl_mem, clCreateBuffer, (cl_context context, cl_mem_flags flags, size_t size, void *host_ptr, cl_int *errcode_ret),
     (context, flags, size, host_ptr, &fault))
MAKE(cl_mem, clCreateSubBuffer, (cl_mem buffer, cl_mem_flags flags, cl_buffer_create_type buffer_create_type, const void
     *buffer_create_info, cl_int *errcode_ret), (buffer, flags, buffer_create_type, buffer_create_info, &fault))
CALL(clGetMemObjectInfo, (cl_mem memobj, cl_mem_info param_name, size_t param_value_size, void *param_value, size_t
     *param_value_size_ret), (memobj, param_name, param_value_size, param_value, param_value_size_ret))
CALL(clSetMemObjectDestructorCallback, (cl_mem memobj, void (CL_CALLBACK *pfn_notify)(cl_mem memobj, void *user_data),
     void *user_data), (memobj, pfn_notify, user_data))
CALL(clEnqueueReadBuffer, (cl_command_queue command_queue, cl_mem buffer, cl_bool blocking_read, size_t offset, size_t
     size, void *ptr, cl_uint num_events_in_wait_list, const cl_event *event_wait_list, cl_event *event),
     (command_queue, buffer, blocking_read, offset, size, ptr, num_events_in_wait_list, event_wait_list, event))
CALL(clEnqueueWriteBuffer, (cl_command_queue command_queue, cl_mem buffer, cl_bool blocking_write, size_t offset, size_t
     size, const void *ptr, cl_uint num_events_in_wait_list, const cl_event *event_wait_list, cl_event *event),
     (command_queue, buffer, blocking_write, offset, size, ptr, num_events_in_wait_list, event_wait_list, event))
CALL(clEnqueueFillBuffer, (cl_command_queue command_queue, cl_mem buffer, const void *pattern, size_t pattern_size,
     size_t offset, size_t size, cl_uint num_events_in_wait_list, const cl_event *event_wait_list, cl_event *event),
     (command_queue, buffer, pattern, pattern_size, offset, size, num_events_in_wait_list, event_wait_list, event))
CALL(clEnqueueCopyBuffer, (cl_command_queue command_queue, cl_mem src_buffer, cl_mem dst_buffer, size_t src_offset,
     size_t dst_offset, size_t size, cl_uint num_events_in_wait_list, const cl_event *event_wait_list, cl_event *event),
     (command_queue, src_buffer, dst_buffer, src_offset, dst_offset, size, num_events_in_wait_list, event_wait_list,
     event))
CALL(clEnqueueReadBufferRect, (cl_command_queue command_queue, cl_mem buffer, cl_bool blocking_read, const size_t
     *buffer_origin, const size_t *host_origin, const size_t *region, size_t buffer_row_pitch, size_t
     buffer_slice_pitch, size_t host_row_pitch, size_t host_slice_pitch, void *ptr, cl_uint num_events_in_wait_list,
     const cl_event *event_wait_list, cl_event *event), (command_queue, buffer, blocking_read, buffer_origin,
     host_origin, region, buffer_row_pitch, buffer_slice_pitch, host_row_pitch, host_slice_pitch, ptr,
     num_events_in_wait_list, event_wait_list, event))
CALL(clEnqueueWriteBufferRect, (cl_command_queue command_queue, cl_mem buffer, cl_bool blocking_write, const size_t
     *buffer_origin, const size_t *host_origin, const size_t *region, size_t buffer_row_pitch, size_t
     buffer_slice_pitch, size_t host_row_pitch, size_t host_slice_pitch, const void *ptr, cl_uint
     num_events_in_wait_list, const cl_event *event_wait_list, cl_event *event), (command_queue, buffer, blocking_write,
     buffer_origin, host_origin, region, buffer_row_pitch, buffer_slice_pitch, host_row_pitch, host_slice_pitch, ptr,
     num_events_in_wait_list, event_wait_list, event))
CALL(clEnqueueCopyBufferRect, (cl_command_queue command_queue, cl_mem src_buffer, cl_mem dst_buffer, const size_t
     *src_origin, const size_t *dst_origin, const size_t *region, size_t src_row_pitch, size_t src_slice_pitch, size_t
     dst_row_pitch, size_t dst_slice_pitch, cl_uint num_events_in_wait_list, const cl_event *event_wait_list, cl_event
     *event), (command_queue, src_buffer, dst_buffer, src_origin, dst_origin, region, src_row_pitch, src_slice_pitch,
     dst_row_pitch, dst_slice_pitch, num_events_in_wait_list, event_wait_list, event))
MAKE(void *, clEnqueueMapBuffer, (cl_command_queue command_queue, cl_mem buffer, cl_bool blocking_map, cl_map_flags
     map_flags, size_t offset, size_t size, cl_uint num_events_in_wait_list, const cl_event *event_wait_list, cl_event
     *event, cl_int *errcode_ret), (command_queue, buffer, blocking_map, map_flags, offset, size,
     num_events_in_wait_list, event_wait_list, event, &fault))
CALL(clEnqueueUnmapMemObject, (cl_command_queue command_queue, cl_mem memobj, void *mapped_ptr, cl_uint
     num_events_in_wait_list, const cl_event *event_wait_list, cl_event *event), (command_queue, memobj, mapped_ptr,
     num_events_in_wait_list, event_wait_list, event))
CALL(clEnqueueMigrateMemObjects, (cl_command_queue command_queue, cl_uint num_mem_objects, const cl_mem *mem_objects,
     cl_mem_migration_flags flags, cl_uint num_events_in_wait_list, const cl_event *event_wait_list, cl_event *event),
     (command_queue, num_mem_objects, mem_objects, flags, num_events_in_wait_list, event_wait_list, event))
CALL(clEnqueueMarkerWithWaitList, (cl_command_queue command_queue, cl_uint num_events_in_wait_list, const cl_event
     *event_wait_list, cl_event *event), (command_queue, num_events_in_wait_list, event_wait_list, event))
CALL(clEnqueueBarrierWithWaitList, (cl_command_queue command_queue, cl_uint num_events_in_wait_list, const cl_event
     *event_wait_list, cl_event *event), (command_queue, num_events_in_wait_list, event_wait_list, event))
CALL(clEnqueueMarker, (cl_command_queue command_queue, cl_event *event), (command_queue, event))
CALL(clEnqueueBarrier, (cl_command_queue command_queue), (command_queue))
CALL(clEnqueueWaitForEvents, (cl_command_queue command_queue, cl_uint num_events, const cl_event *event_list),
     (command_queue, num_events, event_list))
CALL(clRetainMemObject, (cl_mem memobj), (memobj))
CALL(clReleaseMemObject, (cl_mem memobj), (memobj))
CALL(clCompileProgram, (cl_program program, cl_uint num_devices, const cl_device_id *device_list, const char *options,
     cl_uint num_input_headers, const cl_program *input_headers, const char **header_include_names, void (CL_CALLBACK
     *pfn_notify)(cl_program program, void *user_data), void *user_data), (program, num_devices, device_list, options,
     num_input_headers, input_headers, header_include_names, pfn_notify, user_data))
MAKE(cl_program, clLinkProgram, (cl_context context, cl_uint num_devices, const cl_device_id *device_list, const char
     *options, cl_uint num_input_programs, const cl_program *input_programs, void (CL_CALLBACK *pfn_notify)(cl_program
     program, void *user_data), void *user_data, cl_int *errcode_ret), (context, num_devices, device_list, options,
     num_input_programs, input_programs, pfn_notify, user_data, &fault))
MAKE(cl_context, clCreateContext, (const cl_context_properties *properties, cl_uint num_devices, const cl_device_id
     *devices, void (CL_CALLBACK *pfn_notify)(const char *errinfo, const void *private_info, size_t cb, void
     *user_data), void *user_data, cl_int *errcode_ret), (properties, num_devices, devices, pfn_notify, user_data,
     &fault))
MAKE(cl_context, clCreateContextFromType, (const cl_context_properties *properties, cl_device_type device_type, void
     (CL_CALLBACK *pfn_notify)(const char *errinfo, const void *private_info, size_t cb, void *user_data), void
     *user_data, cl_int *errcode_ret), (properties, device_type, pfn_notify, user_data, &fault))
CALL(clGetContextInfo, (cl_context context, cl_context_info param_name, size_t param_value_size, void *param_value,
     size_t *param_value_size_ret), (context, param_name, param_value_size, param_value, param_value_size_ret))
MAKE(cl_command_queue, clCreateCommandQueue, (cl_context context, cl_device_id device, cl_command_queue_properties
     properties, cl_int *errcode_ret), (context, device, properties, &fault))
CALL(clSetCommandQueueProperty, (cl_command_queue command_queue, cl_command_queue_properties properties, cl_bool enable,
     cl_command_queue_properties *old_properties), (command_queue, properties, enable, old_properties))
CALL(clGetCommandQueueInfo, (cl_command_queue command_queue, cl_command_queue_info param_name, size_t param_value_size,
     void *param_value, size_t *param_value_size_ret), (command_queue, param_name, param_value_size, param_value,
     param_value_size_ret))
CALL(clFlush, (cl_command_queue command_queue), (command_queue))
CALL(clFinish, (cl_command_queue command_queue), (command_queue))
CALL(clWaitForEvents, (cl_uint num_events, const cl_event *event_list), (num_events, event_list))
CALL(clGetEventInfo, (cl_event event, cl_event_info param_name, size_t param_value_size, void *param_value, size_t
     *param_value_size_ret), (event, param_name, param_value_size, param_value, param_value_size_ret))
CALL(clGetEventProfilingInfo, (cl_event event, cl_profiling_info param_name, size_t param_value_size, void *param_value,
     size_t *param_value_size_ret), (event, param_name, param_value_size, param_value, param_value_size_ret))
CALL(clSetEventCallback, (cl_event event, cl_int command_exec_callback_type, void (CL_CALLBACK *pfn_notify)(cl_event
     event, cl_int event_command_status, void *user_data), void *user_data), (event, command_exec_callback_type,
     pfn_notify, user_data))
MAKE(cl_event, clCreateUserEvent, (cl_context context, cl_int *errcode_ret), (context, &fault))
CALL(clSetUserEventStatus, (cl_event event, cl_int execution_status), (event, execution_status))
CALL(clRetainContext, (cl_context context), (context))
CALL(clReleaseContext, (cl_context context), (context))
CALL(clRetainCommandQueue, (cl_command_queue command_queue), (command_queue))
CALL(clReleaseCommandQueue, (cl_command_queue command_queue), (command_queue))
CALL(clRetainEvent, (cl_event event), (event))
CALL(clReleaseEvent, (cl_event event), (event))
CALL(clEnqueueNDRangeKernel, (cl_command_queue command_queue, cl_kernel kernel, cl_uint work_dim, const size_t
     *global_work_offset, const size_t *global_work_size, const size_t *local_work_size, cl_uint
     num_events_in_wait_list, const cl_event *event_wait_list, cl_event *event), (command_queue, kernel, work_dim,
     global_work_offset, global_work_size, local_work_size, num_events_in_wait_list, event_wait_list, event))
CALL(clEnqueueTask, (cl_command_queue command_queue, cl_kernel kernel, cl_uint num_events_in_wait_list, const cl_event
     *event_wait_list, cl_event *event), (command_queue, kernel, num_events_in_wait_list, event_wait_list, event))
CALL(clEnqueueNativeKernel, (cl_command_queue command_queue, void (CL_CALLBACK *user_func)(void *), void *args, size_t
     cb_args, cl_uint num_mem_objects, const cl_mem *mem_list, const void **args_mem_loc, cl_uint
     num_events_in_wait_list, const cl_event *event_wait_list, cl_event *event), (command_queue, user_func, args,
     cb_args, num_mem_objects, mem_list, args_mem_loc, num_events_in_wait_list, event_wait_list, event))
CALL(clGetPlatformIDs, (cl_uint num_entries, cl_platform_id *platforms, cl_uint *num_platforms), (num_entries,
     platforms, num_platforms))
CALL(clGetPlatformInfo, (cl_platform_id platform, cl_platform_info param_name, size_t param_value_size, void
     *param_value, size_t *param_value_size_ret), (platform, param_name, param_value_size, param_value,
     param_value_size_ret))
CALL(clGetDeviceIDs, (cl_platform_id platform, cl_device_type device_type, cl_uint num_entries, cl_device_id *devices,
     cl_uint *num_devices), (platform, device_type, num_entries, devices, num_devices))
CALL(clGetDeviceInfo, (cl_device_id device, cl_device_info param_name, size_t param_value_size, void *param_value,
     size_t *param_value_size_ret), (device, param_name, param_value_size, param_value, param_value_size_ret))
CALL(clRetainDevice, (cl_device_id device), (device))
CALL(clReleaseDevice, (cl_device_id device), (device))
CALL(clCreateSubDevices, (cl_device_id in_device, const cl_device_partition_property *properties, cl_uint num_devices,
     cl_device_id *out_devices, cl_uint *num_devices_ret), (in_device, properties, num_devices, out_devices,
     num_devices_ret))
MAKE(cl_program, clCreateProgramWithSource, (cl_context context, cl_uint count, const char **strings, const size_t
     *lengths, cl_int *errcode_ret), (context, count, strings, lengths, &fault))
MAKE(cl_program, clCreateProgramWithBinary, (cl_context context, cl_uint num_devices, const cl_device_id *device_list,
     const size_t *lengths, const unsigned char **binaries, cl_int *binary_status, cl_int *errcode_ret), (context,
     num_devices, device_list, lengths, binaries, binary_status, &fault))
MAKE(cl_program, clCreateProgramWithBuiltInKernels, (cl_context context, cl_uint num_devices, const cl_device_id
     *device_list, const char *kernel_names, cl_int *errcode_ret), (context, num_devices, device_list, kernel_names,
     &fault))
CALL(clBuildProgram, (cl_program program, cl_uint num_devices, const cl_device_id *device_list, const char *options,
     void (CL_CALLBACK *pfn_notify)(cl_program program, void *user_data), void *user_data), (program, num_devices,
     device_list, options, pfn_notify, user_data))
CALL(clUnloadCompiler, (void), ())
CALL(clUnloadPlatformCompiler, (cl_platform_id platform), (platform))
CALL(clGetProgramInfo, (cl_program program, cl_program_info param_name, size_t param_value_size, void *param_value,
     size_t *param_value_size_ret), (program, param_name, param_value_size, param_value, param_value_size_ret))
CALL(clGetProgramBuildInfo, (cl_program program, cl_device_id device, cl_program_build_info param_name, size_t
     param_value_size, void *param_value, size_t *param_value_size_ret), (program, device, param_name, param_value_size,
     param_value, param_value_size_ret))
MAKE(cl_kernel, clCreateKernel, (cl_program program, const char *kernel_name, cl_int *errcode_ret), (program,
     kernel_name, &fault))
CALL(clCreateKernelsInProgram, (cl_program program, cl_uint num_kernels, cl_kernel *kernels, cl_uint *num_kernels_ret),
     (program, num_kernels, kernels, num_kernels_ret))
CALL(clSetKernelArg, (cl_kernel kernel, cl_uint arg_index, size_t arg_size, const void *arg_value), (kernel, arg_index,
     arg_size, arg_value))
CALL(clGetKernelInfo, (cl_kernel kernel, cl_kernel_info param_name, size_t param_value_size, void *param_value, size_t
     *param_value_size_ret), (kernel, param_name, param_value_size, param_value, param_value_size_ret))
CALL(clGetKernelArgInfo, (cl_kernel kernel, cl_uint arg_indx, cl_kernel_arg_info param_name, size_t param_value_size,
     void *param_value, size_t *param_value_size_ret), (kernel, arg_indx, param_name, param_value_size, param_value,
     param_value_size_ret))
CALL(clGetKernelWorkGroupInfo, (cl_kernel kernel, cl_device_id device, cl_kernel_work_group_info param_name, size_t
     param_value_size, void *param_value, size_t *param_value_size_ret), (kernel, device, param_name, param_value_size,
     param_value, param_value_size_ret))
CALL(clRetainProgram, (cl_program program), (program))
CALL(clReleaseProgram, (cl_program program), (program))
CALL(clRetainKernel, (cl_kernel kernel), (kernel))
CALL(clReleaseKernel, (cl_kernel kernel), (kernel))
MAKE(cl_mem, clCreateImage, (cl_context context, cl_mem_flags flags, const cl_image_format *image_format, const
     cl_image_desc *image_desc, void *host_ptr, cl_int *errcode_ret), (context, flags, image_format, image_desc,
     host_ptr, &fault))
MAKE(cl_mem, clCreateImage2D, (cl_context context, cl_mem_flags flags, const cl_image_format *image_format, size_t
     image_width, size_t image_height, size_t image_row_pitch, void *host_ptr, cl_int *errcode_ret), (context, flags,
     image_format, image_width, image_height, image_row_pitch, host_ptr, &fault))
MAKE(cl_mem, clCreateImage3D, (cl_context context, cl_mem_flags flags, const cl_image_format *image_format, size_t
     image_width, size_t image_height, size_t image_depth, size_t image_row_pitch, size_t image_slice_pitch, void
     *host_ptr, cl_int *errcode_ret), (context, flags, image_format, image_width, image_height, image_depth,
     image_row_pitch, image_slice_pitch, host_ptr, &fault))
CALL(clGetSupportedImageFormats, (cl_context context, cl_mem_flags flags, cl_mem_object_type image_type, cl_uint
     num_entries, cl_image_format *image_formats, cl_uint *num_image_formats), (context, flags, image_type, num_entries,
     image_formats, num_image_formats))
CALL(clGetImageInfo, (cl_mem image, cl_image_info param_name, size_t param_value_size, void *param_value, size_t
     *param_value_size_ret), (image, param_name, param_value_size, param_value, param_value_size_ret))
MAKE(cl_sampler, clCreateSampler, (cl_context context, cl_bool normalized_coords, cl_addressing_mode addressing_mode,
     cl_filter_mode filter_mode, cl_int *errcode_ret), (context, normalized_coords, addressing_mode, filter_mode,
     &fault))
// clang-format on

// ---- the table of an ICD loader ----

struct _cl_icd_dispatch dispatch_table;

static cl_int none(void) { return CL_INVALID_OPERATION; }
static void *nothing(void) { return NULL; }

CL_API_ENTRY void *CL_API_CALL clGetExtensionFunctionAddress(const char *name) {
    return name && !strcmp(name, "clIcdGetPlatformIDsKHR") ? (void *)clIcdGetPlatformIDsKHR : NULL;
}
CL_API_ENTRY void *CL_API_CALL clGetExtensionFunctionAddressForPlatform(cl_platform_id p, const char *name) {
    (void)p;
    return clGetExtensionFunctionAddress(name);
}

__attribute__((constructor)) static void fill_table(void) {
    // what isn't named here refuses
    void **all = (void **)&dispatch_table;
    for (size_t i = 0; i < sizeof dispatch_table / sizeof *all; i++) all[i] = (void *)none;
    dispatch_table.clCreateFromGLBuffer = (void *)nothing;
#define PUT(NAME) dispatch_table.NAME = (void *)NAME
    PUT(clGetPlatformIDs);
    PUT(clGetPlatformInfo);
    PUT(clGetDeviceIDs);
    PUT(clGetDeviceInfo);
    PUT(clCreateContext);
    PUT(clCreateContextFromType);
    PUT(clRetainContext);
    PUT(clReleaseContext);
    PUT(clGetContextInfo);
    PUT(clCreateCommandQueue);
    PUT(clRetainCommandQueue);
    PUT(clReleaseCommandQueue);
    PUT(clGetCommandQueueInfo);
    PUT(clSetCommandQueueProperty);
    PUT(clCreateBuffer);
    PUT(clCreateImage2D);
    PUT(clCreateImage3D);
    PUT(clRetainMemObject);
    PUT(clReleaseMemObject);
    PUT(clGetSupportedImageFormats);
    PUT(clGetMemObjectInfo);
    PUT(clGetImageInfo);
    PUT(clCreateSampler);
    PUT(clCreateProgramWithSource);
    PUT(clCreateProgramWithBinary);
    PUT(clRetainProgram);
    PUT(clReleaseProgram);
    PUT(clBuildProgram);
    PUT(clUnloadCompiler);
    PUT(clGetProgramInfo);
    PUT(clGetProgramBuildInfo);
    PUT(clCreateKernel);
    PUT(clCreateKernelsInProgram);
    PUT(clRetainKernel);
    PUT(clReleaseKernel);
    PUT(clSetKernelArg);
    PUT(clGetKernelInfo);
    PUT(clGetKernelWorkGroupInfo);
    PUT(clWaitForEvents);
    PUT(clGetEventInfo);
    PUT(clRetainEvent);
    PUT(clReleaseEvent);
    PUT(clGetEventProfilingInfo);
    PUT(clFlush);
    PUT(clFinish);
    PUT(clEnqueueReadBuffer);
    PUT(clEnqueueWriteBuffer);
    PUT(clEnqueueCopyBuffer);
    PUT(clEnqueueMapBuffer);
    PUT(clEnqueueUnmapMemObject);
    PUT(clEnqueueNDRangeKernel);
    PUT(clEnqueueTask);
    PUT(clEnqueueNativeKernel);
    PUT(clEnqueueMarker);
    PUT(clEnqueueWaitForEvents);
    PUT(clEnqueueBarrier);
    PUT(clGetExtensionFunctionAddress);
    PUT(clSetEventCallback);
    PUT(clCreateSubBuffer);
    PUT(clSetMemObjectDestructorCallback);
    PUT(clCreateUserEvent);
    PUT(clSetUserEventStatus);
    PUT(clEnqueueReadBufferRect);
    PUT(clEnqueueWriteBufferRect);
    PUT(clEnqueueCopyBufferRect);
    PUT(clCreateSubDevices);
    PUT(clRetainDevice);
    PUT(clReleaseDevice);
    PUT(clCreateImage);
    PUT(clCreateProgramWithBuiltInKernels);
    PUT(clCompileProgram);
    PUT(clLinkProgram);
    PUT(clUnloadPlatformCompiler);
    PUT(clGetKernelArgInfo);
    PUT(clEnqueueFillBuffer);
    PUT(clEnqueueMigrateMemObjects);
    PUT(clEnqueueMarkerWithWaitList);
    PUT(clEnqueueBarrierWithWaitList);
    PUT(clGetExtensionFunctionAddressForPlatform);
    // these hand out pointers
    dispatch_table.clCreateCommandQueueWithProperties = (void *)nothing;
    dispatch_table.clCreatePipe = dispatch_table.clSVMAlloc = dispatch_table.clCreateSamplerWithProperties =
        dispatch_table.clCloneKernel = dispatch_table.clCreateProgramWithIL = (void *)nothing;
    dispatch_table.clCreateBufferWithProperties = dispatch_table.clCreateImageWithProperties = (void *)nothing;
    dispatch_table.clEnqueueMapImage = (void *)nothing;
}
