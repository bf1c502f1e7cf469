// The driver's own calls have other names than those that clients call (api.c).
#ifndef CLSIM_INNER_H
#define CLSIM_INNER_H
#define INNER(NAME) __typeof__(NAME) inner_##NAME
INNER(clCreateBuffer);
INNER(clCreateSubBuffer);
INNER(clGetMemObjectInfo);
INNER(clSetMemObjectDestructorCallback);
INNER(clEnqueueReadBuffer);
INNER(clEnqueueWriteBuffer);
INNER(clEnqueueFillBuffer);
INNER(clEnqueueCopyBuffer);
INNER(clEnqueueReadBufferRect);
INNER(clEnqueueWriteBufferRect);
INNER(clEnqueueCopyBufferRect);
INNER(clEnqueueMapBuffer);
INNER(clEnqueueUnmapMemObject);
INNER(clEnqueueMigrateMemObjects);
INNER(clEnqueueMarkerWithWaitList);
INNER(clEnqueueBarrierWithWaitList);
INNER(clEnqueueMarker);
INNER(clEnqueueBarrier);
INNER(clEnqueueWaitForEvents);
INNER(clRetainMemObject);
INNER(clReleaseMemObject);
INNER(clCompileProgram);
INNER(clLinkProgram);
INNER(clCreateContext);
INNER(clCreateContextFromType);
INNER(clGetContextInfo);
INNER(clCreateCommandQueue);
INNER(clSetCommandQueueProperty);
INNER(clGetCommandQueueInfo);
INNER(clFlush);
INNER(clFinish);
INNER(clWaitForEvents);
INNER(clGetEventInfo);
INNER(clGetEventProfilingInfo);
INNER(clSetEventCallback);
INNER(clCreateUserEvent);
INNER(clSetUserEventStatus);
INNER(clRetainContext);
INNER(clReleaseContext);
INNER(clRetainCommandQueue);
INNER(clReleaseCommandQueue);
INNER(clRetainEvent);
INNER(clReleaseEvent);
INNER(clEnqueueNDRangeKernel);
INNER(clEnqueueTask);
INNER(clEnqueueNativeKernel);
INNER(clGetPlatformIDs);
INNER(clGetPlatformInfo);
INNER(clGetDeviceIDs);
INNER(clGetDeviceInfo);
INNER(clRetainDevice);
INNER(clReleaseDevice);
INNER(clCreateSubDevices);
INNER(clCreateProgramWithSource);
INNER(clCreateProgramWithBinary);
INNER(clCreateProgramWithBuiltInKernels);
INNER(clBuildProgram);
INNER(clUnloadCompiler);
INNER(clUnloadPlatformCompiler);
INNER(clGetProgramInfo);
INNER(clGetProgramBuildInfo);
INNER(clCreateKernel);
INNER(clCreateKernelsInProgram);
INNER(clSetKernelArg);
INNER(clGetKernelInfo);
INNER(clGetKernelArgInfo);
INNER(clGetKernelWorkGroupInfo);
INNER(clRetainProgram);
INNER(clReleaseProgram);
INNER(clRetainKernel);
INNER(clReleaseKernel);
INNER(clCreateImage);
INNER(clCreateImage2D);
INNER(clCreateImage3D);
INNER(clGetSupportedImageFormats);
INNER(clGetImageInfo);
INNER(clCreateSampler);
#undef INNER
#define clCreateBuffer inner_clCreateBuffer
#define clCreateSubBuffer inner_clCreateSubBuffer
#define clGetMemObjectInfo inner_clGetMemObjectInfo
#define clSetMemObjectDestructorCallback inner_clSetMemObjectDestructorCallback
#define clEnqueueReadBuffer inner_clEnqueueReadBuffer
#define clEnqueueWriteBuffer inner_clEnqueueWriteBuffer
#define clEnqueueFillBuffer inner_clEnqueueFillBuffer
#define clEnqueueCopyBuffer inner_clEnqueueCopyBuffer
#define clEnqueueReadBufferRect inner_clEnqueueReadBufferRect
#define clEnqueueWriteBufferRect inner_clEnqueueWriteBufferRect
#define clEnqueueCopyBufferRect inner_clEnqueueCopyBufferRect
#define clEnqueueMapBuffer inner_clEnqueueMapBuffer
#define clEnqueueUnmapMemObject inner_clEnqueueUnmapMemObject
#define clEnqueueMigrateMemObjects inner_clEnqueueMigrateMemObjects
#define clEnqueueMarkerWithWaitList inner_clEnqueueMarkerWithWaitList
#define clEnqueueBarrierWithWaitList inner_clEnqueueBarrierWithWaitList
#define clEnqueueMarker inner_clEnqueueMarker
#define clEnqueueBarrier inner_clEnqueueBarrier
#define clEnqueueWaitForEvents inner_clEnqueueWaitForEvents
#define clRetainMemObject inner_clRetainMemObject
#define clReleaseMemObject inner_clReleaseMemObject
#define clCompileProgram inner_clCompileProgram
#define clLinkProgram inner_clLinkProgram
#define clCreateContext inner_clCreateContext
#define clCreateContextFromType inner_clCreateContextFromType
#define clGetContextInfo inner_clGetContextInfo
#define clCreateCommandQueue inner_clCreateCommandQueue
#define clSetCommandQueueProperty inner_clSetCommandQueueProperty
#define clGetCommandQueueInfo inner_clGetCommandQueueInfo
#define clFlush inner_clFlush
#define clFinish inner_clFinish
#define clWaitForEvents inner_clWaitForEvents
#define clGetEventInfo inner_clGetEventInfo
#define clGetEventProfilingInfo inner_clGetEventProfilingInfo
#define clSetEventCallback inner_clSetEventCallback
#define clCreateUserEvent inner_clCreateUserEvent
#define clSetUserEventStatus inner_clSetUserEventStatus
#define clRetainContext inner_clRetainContext
#define clReleaseContext inner_clReleaseContext
#define clRetainCommandQueue inner_clRetainCommandQueue
#define clReleaseCommandQueue inner_clReleaseCommandQueue
#define clRetainEvent inner_clRetainEvent
#define clReleaseEvent inner_clReleaseEvent
#define clEnqueueNDRangeKernel inner_clEnqueueNDRangeKernel
#define clEnqueueTask inner_clEnqueueTask
#define clEnqueueNativeKernel inner_clEnqueueNativeKernel
#define clGetPlatformIDs inner_clGetPlatformIDs
#define clGetPlatformInfo inner_clGetPlatformInfo
#define clGetDeviceIDs inner_clGetDeviceIDs
#define clGetDeviceInfo inner_clGetDeviceInfo
#define clRetainDevice inner_clRetainDevice
#define clReleaseDevice inner_clReleaseDevice
#define clCreateSubDevices inner_clCreateSubDevices
#define clCreateProgramWithSource inner_clCreateProgramWithSource
#define clCreateProgramWithBinary inner_clCreateProgramWithBinary
#define clCreateProgramWithBuiltInKernels inner_clCreateProgramWithBuiltInKernels
#define clBuildProgram inner_clBuildProgram
#define clUnloadCompiler inner_clUnloadCompiler
#define clUnloadPlatformCompiler inner_clUnloadPlatformCompiler
#define clGetProgramInfo inner_clGetProgramInfo
#define clGetProgramBuildInfo inner_clGetProgramBuildInfo
#define clCreateKernel inner_clCreateKernel
#define clCreateKernelsInProgram inner_clCreateKernelsInProgram
#define clSetKernelArg inner_clSetKernelArg
#define clGetKernelInfo inner_clGetKernelInfo
#define clGetKernelArgInfo inner_clGetKernelArgInfo
#define clGetKernelWorkGroupInfo inner_clGetKernelWorkGroupInfo
#define clRetainProgram inner_clRetainProgram
#define clReleaseProgram inner_clReleaseProgram
#define clRetainKernel inner_clRetainKernel
#define clReleaseKernel inner_clReleaseKernel
#define clCreateImage inner_clCreateImage
#define clCreateImage2D inner_clCreateImage2D
#define clCreateImage3D inner_clCreateImage3D
#define clGetSupportedImageFormats inner_clGetSupportedImageFormats
#define clGetImageInfo inner_clGetImageInfo
#define clCreateSampler inner_clCreateSampler
#endif
