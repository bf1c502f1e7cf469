// clFFT on the driver: complex transforms of one dimension on floats, against sums of the host, and back; each of so
// many numbers, several at once. By hand:
//     cc -o fft fft.c -lclFFT -lOpenCL -lm && OCL_ICD_VENDORS=../../vendors ./fft 16x16 1024x1 ..
#include "../host.h"
#include <clFFT.h>
#include <math.h>
#include <stdbool.h>

static host h;

static clfftPlanHandle plan_of(size_t n, size_t batch, cl_int *status) {
    clfftPlanHandle plan = 0;
    *status = (cl_int)clfftCreateDefaultPlan(&plan, h.context, CLFFT_1D, &n);
    if (!*status) *status = (cl_int)clfftSetPlanPrecision(plan, CLFFT_SINGLE);
    if (!*status) *status = (cl_int)clfftSetLayout(plan, CLFFT_COMPLEX_INTERLEAVED, CLFFT_COMPLEX_INTERLEAVED);
    if (!*status) *status = (cl_int)clfftSetResultLocation(plan, CLFFT_INPLACE);
    if (!*status) *status = (cl_int)clfftSetPlanBatchSize(plan, batch);
    if (!*status) *status = (cl_int)clfftBakePlan(plan, 1, &h.queue, NULL, NULL);
    return plan;
}

// Transforms in place, and reads what comes of it.
static cl_int transformed(clfftPlanHandle plan, clfftDirection way, cl_mem m, size_t n, float *got) {
    cl_int status = (cl_int)clfftEnqueueTransform(plan, way, 1, &h.queue, 0, NULL, NULL, &m, NULL, NULL);
    OK(clEnqueueReadBuffer(h.queue, m, CL_TRUE, 0, 2 * n * sizeof *got, got, 0, NULL, NULL));
    return status;
}

// How far numbers are from the transform of others.
static double apart(size_t n, const float *from, const float *got) {
    double worst = 0;
    for (size_t k = 0; k < n; k++) {
        double re = 0, im = 0;
        for (size_t i = 0; i < n; i++) {
            double angle = -2 * M_PI * (double)(i * k % n) / (double)n;
            re += from[2 * i] * cos(angle) - from[2 * i + 1] * sin(angle);
            im += from[2 * i] * sin(angle) + from[2 * i + 1] * cos(angle);
        }
        worst = fmax(worst, fmax(fabs(re - got[2 * k]), fabs(im - got[2 * k + 1])));
    }
    return worst;
}

static bool is_right(size_t n, size_t batch) {
    size_t all = n * batch;
    float *from = malloc(2 * all * sizeof *from), *got = malloc(2 * all * sizeof *got);
    cl_int fault, there, back = 0;
    double worst = 0, worst_back = 0;
    for (size_t i = 0; i < all; i++) {
        from[2 * i] = (float)(i * 7 % 13) - 6;
        from[2 * i + 1] = (float)(i * 3 % 5) - 2;
    }
    cl_mem m = clCreateBuffer(h.context, CL_MEM_COPY_HOST_PTR, 2 * all * sizeof *from, from, &fault);
    OK(fault);
    clfftPlanHandle plan = plan_of(n, batch, &there);
    if (!there) there = transformed(plan, CLFFT_FORWARD, m, all, got);
    for (size_t at = 0; !there && at < 2 * all; at += 2 * n) worst = fmax(worst, apart(n, from + at, got + at));
    if (!there) back = transformed(plan, CLFFT_BACKWARD, m, all, got);
    for (size_t i = 0; i < 2 * all; i++) worst_back = fmax(worst_back, fabs((double)got[i] - from[i]));
    bool right = !there && !back && worst < 1e-4 * (double)n && worst_back < 1e-4;
    printf("%zux%zu: %s (status %d and %d, at most %g and %g apart)\n", n, batch, right ? "right" : "WRONG", there,
           back, worst, worst_back);
    clfftDestroyPlan(&plan);
    OK(clReleaseMemObject(m));
    free(from);
    free(got);
    return right;
}

int main(int count, char **words) {
    int right = 0;
    clfftSetupData setup = {.major = clfftVersionMajor, .minor = clfftVersionMinor, .patch = clfftVersionPatch};
    setvbuf(stdout, NULL, _IOLBF, 0);
    h = open_host();
    clfftSetup(&setup);
    for (int i = 1; i < count; i++) {
        const char *times = strchr(words[i], 'x');
        right += is_right(strtoul(words[i], NULL, 10), times ? strtoul(times + 1, NULL, 10) : 1);
    }
    clfftTeardown();
    printf("%d of %d are right\n", right, count - 1);
    return right < count - 1;
}
