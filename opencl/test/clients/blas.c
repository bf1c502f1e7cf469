// CLBlast on the driver: routines of its three levels on floats, each against what the host computes. By hand:
//     cc -o blas blas.c -lclblast -lOpenCL -lm && OCL_ICD_VENDORS=../../vendors ./blas [ROUTINE]
#include "../host.h"
#include <clblast_c.h>
#include <math.h>
#include <stdbool.h>

enum { N = 32, BYTES = N * sizeof(float), SQUARE = N * BYTES };
static host h;
static float x[N], y[N], a[N * N], b[N * N], c[N * N], wanted[N * N], got[N * N];
static cl_mem on_x, on_y, on_a, on_b, on_c, one; // the same on the device, and a single number

static cl_mem made(size_t bytes) {
    cl_int fault;
    cl_mem m = clCreateBuffer(h.context, CL_MEM_READ_WRITE, bytes, NULL, &fault);
    OK(fault);
    return m;
}
static void write_to(cl_mem m, const float *from, size_t bytes) {
    OK(clEnqueueWriteBuffer(h.queue, m, CL_TRUE, 0, bytes, from, 0, NULL, NULL));
}
static void set_all(void) {
    write_to(on_x, x, BYTES);
    write_to(on_y, y, BYTES);
    write_to(on_a, a, SQUARE);
    write_to(on_b, b, SQUARE);
    write_to(on_c, c, SQUARE);
}

// Each routine answers what CLBlast does, says where how many results are, and computes them in `wanted`.
typedef int routine(cl_mem *m, size_t *n);
static int axpy(cl_mem *m, size_t *n) {
    for (int i = 0; i < N; i++) wanted[i] = 2.5f * x[i] + y[i];
    *m = on_y, *n = N;
    return CLBlastSaxpy(N, 2.5f, on_x, 0, 1, on_y, 0, 1, &h.queue, NULL);
}
static int scal(cl_mem *m, size_t *n) {
    for (int i = 0; i < N; i++) wanted[i] = 0.5f * x[i];
    *m = on_x, *n = N;
    return CLBlastSscal(N, 0.5f, on_x, 0, 1, &h.queue, NULL);
}
static int copy(cl_mem *m, size_t *n) {
    memcpy(wanted, x, BYTES);
    *m = on_c, *n = N;
    return CLBlastScopy(N, on_x, 0, 1, on_c, 0, 1, &h.queue, NULL);
}
static int swap(cl_mem *m, size_t *n) {
    memcpy(wanted, y, BYTES);
    *m = on_x, *n = N;
    return CLBlastSswap(N, on_x, 0, 1, on_y, 0, 1, &h.queue, NULL);
}
static int dot(cl_mem *m, size_t *n) {
    for (int i = 0; i < N; i++) wanted[0] += x[i] * y[i];
    *m = one, *n = 1;
    return CLBlastSdot(N, one, 0, on_x, 0, 1, on_y, 0, 1, &h.queue, NULL);
}
static int nrm2(cl_mem *m, size_t *n) {
    for (int i = 0; i < N; i++) wanted[0] += x[i] * x[i];
    wanted[0] = sqrtf(wanted[0]);
    *m = one, *n = 1;
    return CLBlastSnrm2(N, one, 0, on_x, 0, 1, &h.queue, NULL);
}
static int asum(cl_mem *m, size_t *n) {
    for (int i = 0; i < N; i++) wanted[0] += fabsf(x[i]);
    *m = one, *n = 1;
    return CLBlastSasum(N, one, 0, on_x, 0, 1, &h.queue, NULL);
}
static int amax(cl_mem *m, size_t *n) {
    cl_uint at = 0; // (the result is a whole number: its bits are compared)
    for (cl_uint i = 0; i < N; i++)
        if (fabsf(x[i]) > fabsf(x[at])) at = i;
    memcpy(wanted, &at, sizeof at);
    *m = one, *n = 1;
    return CLBlastiSamax(N, one, 0, on_x, 0, 1, &h.queue, NULL);
}
static int gemv(cl_mem *m, size_t *n) {
    for (int i = 0; i < N; i++) {
        double sum = 0.5 * y[i];
        for (int j = 0; j < N; j++) sum += 1.5 * a[i * N + j] * x[j];
        wanted[i] = (float)sum;
    }
    *m = on_y, *n = N;
    return CLBlastSgemv(CLBlastLayoutRowMajor, CLBlastTransposeNo, N, N, 1.5f, on_a, 0, N, on_x, 0, 1, 0.5f, on_y, 0, 1,
                        &h.queue, NULL);
}
static int ger(cl_mem *m, size_t *n) {
    for (int i = 0; i < N * N; i++) wanted[i] = c[i] + 2 * x[i / N] * y[i % N];
    *m = on_c, *n = N * N;
    return CLBlastSger(CLBlastLayoutRowMajor, N, N, 2, on_x, 0, 1, on_y, 0, 1, on_c, 0, N, &h.queue, NULL);
}
static int gemm(cl_mem *m, size_t *n) {
    for (int i = 0; i < N * N; i++) {
        double sum = 2 * c[i];
        for (int k = 0; k < N; k++) sum += (double)a[i / N * N + k] * b[k * N + i % N];
        wanted[i] = (float)sum;
    }
    *m = on_c, *n = N * N;
    return CLBlastSgemm(CLBlastLayoutRowMajor, CLBlastTransposeNo, CLBlastTransposeNo, N, N, N, 1, on_a, 0, N, on_b, 0,
                        N, 2, on_c, 0, N, &h.queue, NULL);
}
static int omatcopy(cl_mem *m, size_t *n) {
    for (int i = 0; i < N * N; i++) wanted[i] = 3 * a[i % N * N + i / N];
    *m = on_c, *n = N * N;
    return CLBlastSomatcopy(CLBlastLayoutRowMajor, CLBlastTransposeYes, N, N, 3, on_a, 0, N, on_c, 0, N, &h.queue,
                            NULL);
}

static bool is_right(const char *name, routine *run) {
    cl_mem m;
    size_t n;
    double worst = 0;
    set_all();
    memset(wanted, 0, sizeof wanted);
    int status = run(&m, &n);
    OK(clFinish(h.queue));
    OK(clEnqueueReadBuffer(h.queue, m, CL_TRUE, 0, n * sizeof *got, got, 0, NULL, NULL));
    for (size_t i = 0; i < n; i++) worst = fmax(worst, fabs((double)got[i] - wanted[i]));
    bool right = !status && worst <= 1e-3 && (run != amax || !memcmp(got, wanted, sizeof *got));
    printf("%s: %s (status %d, at most %g apart)\n", name, right ? "right" : "WRONG", status, worst);
    return right;
}

int main(int count, char **words) {
    static const struct {
        const char *name;
        routine *run;
    } all[] = {{"axpy", axpy}, {"scal", scal}, {"copy", copy}, {"swap", swap}, {"dot", dot},   {"nrm2", nrm2},
               {"asum", asum}, {"amax", amax}, {"gemv", gemv}, {"ger", ger},   {"gemm", gemm}, {"omatcopy", omatcopy}};
    int right = 0, tried = 0;
    setvbuf(stdout, NULL, _IOLBF, 0);
    h = open_host();
    for (int i = 0; i < N; i++) x[i] = (float)i * 0.25f - 3, y[i] = 1 - (float)i * 0.5f;
    for (int i = 0; i < N * N; i++) {
        a[i] = (float)(i * 7 % 23) * 0.125f - 1;
        b[i] = (float)(i * 5 % 19) * 0.25f - 2;
        c[i] = (float)(i % 11);
    }
    on_x = made(BYTES), on_y = made(BYTES), on_a = made(SQUARE), on_b = made(SQUARE), on_c = made(SQUARE);
    one = made(64);
    for (size_t i = 0; i < sizeof all / sizeof *all; i++)
        if (count < 2 || !strcmp(all[i].name, words[1])) tried++, right += is_right(all[i].name, all[i].run);
    printf("%d of %d are right\n", right, tried);
    return right < tried;
}
