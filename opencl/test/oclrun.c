// oclrun SCRIPT..: runs scripts through the calls of OpenCL, each in a context of its own, and writes a line for each
// command into SCRIPT.out: `ok`, `data HEX`, `launched`, or `error N` with the error of the call.
#include "host.h"
#include <stdint.h>

enum { MAX_NAMES = 512, MAX_WORDS = 16 };
typedef struct {
    char name[64];
    cl_mem memory;
    cl_program program;
    cl_kernel kernel;
} named;
typedef struct {
    host *h;
    named names[MAX_NAMES];
    size_t count;
    char *at;
    FILE *out;
} run;

static named *find(run *r, const char *name) {
    for (size_t i = r->count; i-- > 0;)
        if (!strcmp(r->names[i].name, name)) return &r->names[i];
    return NULL;
}
static named *add(run *r, const char *name) {
    named *n = &r->names[r->count++];
    memset(n, 0, sizeof *n);
    snprintf(n->name, sizeof n->name, "%s", name);
    return n;
}
static char *line_of(run *r) {
    char *line = r->at, *end = strchr(line, '\n');
    if (!end) return NULL;
    *end = 0;
    r->at = end + 1;
    return line;
}
static unsigned char *bytes_of(const char *hex, size_t *n) {
    *n = strlen(hex) / 2;
    unsigned char *bytes = malloc(*n + 1);
    for (size_t i = 0; i < *n; i++) {
        char digits[3] = {hex[2 * i], hex[2 * i + 1], 0};
        bytes[i] = (unsigned char)strtoul(digits, NULL, 16);
    }
    return bytes;
}
static cl_uint list_of(const char *s, size_t *to) {
    cl_uint n = 0;
    for (char *end; n < 4; s = end + 1) {
        to[n++] = strtoull(s, &end, 10);
        if (*end != ',') break;
    }
    return n;
}
#define NUMBER(I) strtoull(w[I], NULL, 10)

static cl_int build(run *r, char **w) {
    cl_int fault;
    char *begin = r->at;
    for (unsigned long i = NUMBER(2); i; i--) r->at = strchr(r->at, '\n') + 1;
    size_t n = (size_t)(r->at - begin);
    const char *source = begin;
    cl_program p = clCreateProgramWithSource(r->h->context, 1, &source, &n, &fault);
    fault = clBuildProgram(p, 0, NULL, "", NULL, NULL);
    if (fault) clReleaseProgram(p);
    else add(r, w[1])->program = p;
    return fault;
}

static cl_int set_argument(run *r, char **w) {
    named *k = find(r, w[1]), *b = find(r, w[4]);
    cl_uint index = (cl_uint)NUMBER(2);
    if (!k) return CL_INVALID_KERNEL;
    if (!strcmp(w[3], "buffer"))
        return b ? clSetKernelArg(k->kernel, index, sizeof(cl_mem), &b->memory) : CL_INVALID_MEM_OBJECT;
    if (!strcmp(w[3], "local")) return clSetKernelArg(k->kernel, index, NUMBER(4), NULL);
    char type[64];
    cl_int fault = clGetKernelArgInfo(k->kernel, index, CL_KERNEL_ARG_TYPE_NAME, sizeof type, type, NULL);
    int64_t value = *w[4] == '-' ? strtoll(w[4], NULL, 10) : (int64_t)NUMBER(4);
    int has_four = strstr(type, "int") || strstr(type, "float"); // (a float is given by its bits)
    size_t n = strstr(type, "char") ? 1 : strstr(type, "short") ? 2 : has_four ? 4 : 8;
    return fault ? fault : clSetKernelArg(k->kernel, index, n, &value);
}

static cl_int launch(run *r, char **w, int count) {
    size_t global[4], local[4], offset[4] = {0};
    named *k = find(r, w[1]);
    cl_uint n = list_of(w[2], global);
    if (!k || list_of(w[3], local) != n) return CL_INVALID_WORK_DIMENSION;
    if (count > 4) list_of(w[4], offset);
    return clEnqueueNDRangeKernel(r->h->queue, k->kernel, n, offset, global, local, 0, NULL, NULL);
}

static cl_int release(run *r, const char *name) {
    named *n = find(r, name);
    if (!n) return CL_INVALID_VALUE;
    *n->name = 0;
    return n->memory    ? clReleaseMemObject(n->memory)
           : n->program ? clReleaseProgram(n->program)
                        : clReleaseKernel(n->kernel);
}

// Does one command; its data in `data`, if it gives any.
static cl_int perform(run *r, char **w, int count, unsigned char **data, size_t *n) {
    cl_int fault = CL_SUCCESS;
    cl_command_queue q = r->h->queue;
    named *a = count > 1 ? find(r, w[1]) : NULL;
    if (!strcmp(w[0], "buffer")) {
        cl_mem m = clCreateBuffer(r->h->context, CL_MEM_READ_WRITE, NUMBER(2), NULL, &fault);
        if (m) add(r, w[1])->memory = m;
        return fault;
    }
    if (!strcmp(w[0], "program")) return build(r, w);
    if (!strcmp(w[0], "kernel")) {
        named *p = find(r, w[2]);
        cl_kernel k = p ? clCreateKernel(p->program, w[3], &fault) : NULL;
        if (k) add(r, w[1])->kernel = k;
        return p ? fault : CL_INVALID_PROGRAM;
    }
    if (!strcmp(w[0], "arg")) return set_argument(r, w);
    if (!strcmp(w[0], "launch")) return launch(r, w, count);
    if (!strcmp(w[0], "release")) return release(r, w[1]);
    if (!a) return CL_INVALID_MEM_OBJECT;
    if (!strcmp(w[0], "read")) {
        *n = NUMBER(3);
        *data = malloc(*n + 1);
        return clEnqueueReadBuffer(q, a->memory, CL_TRUE, NUMBER(2), *n, *data, 0, NULL, NULL);
    }
    if (!strcmp(w[0], "copy")) {
        named *b = find(r, w[3]);
        return b ? clEnqueueCopyBuffer(q, a->memory, b->memory, NUMBER(2), NUMBER(4), NUMBER(5), 0, NULL, NULL)
                 : CL_INVALID_MEM_OBJECT;
    }
    size_t length;
    unsigned char *bytes = bytes_of(w[count - 1], &length);
    if (!strcmp(w[0], "write"))
        fault = clEnqueueWriteBuffer(q, a->memory, CL_TRUE, NUMBER(2), length, bytes, 0, NULL, NULL);
    else fault = clEnqueueFillBuffer(q, a->memory, bytes, length, NUMBER(2), NUMBER(3), 0, NULL, NULL);
    free(bytes);
    return fault;
}

static void run_script(run *r) {
    for (char *line; (line = line_of(r));) {
        char *w[MAX_WORDS + 1], *rest = NULL;
        int count = 0;
        for (char *word = strtok_r(line, " ", &rest); word && count < MAX_WORDS; word = strtok_r(NULL, " ", &rest))
            w[count++] = word;
        unsigned char *data = NULL;
        size_t n = 0;
        cl_int fault = perform(r, w, count, &data, &n);
        if (fault) fprintf(r->out, "error %d\n", fault);
        else if (!data) fprintf(r->out, "%s\n", strcmp(w[0], "launch") ? "ok" : "launched");
        else {
            fprintf(r->out, "data ");
            for (size_t i = 0; i < n; i++) fprintf(r->out, "%02x", data[i]);
            fprintf(r->out, "\n");
        }
        free(data);
    }
    for (size_t i = 0; i < r->count; i++)
        if (*r->names[i].name) release(r, r->names[i].name);
}

int main(int count, char **words) {
    if (count < 2) {
        fprintf(stderr, "oclrun: SCRIPT..\n");
        return 2;
    }
    for (int i = 1; i < count; i++) {
        static char script[1 << 22], path[4096];
        FILE *file = fopen(words[i], "rb");
        if (!file) {
            fprintf(stderr, "oclrun: cannot read %s\n", words[i]);
            return 2;
        }
        script[fread(script, 1, sizeof script - 1, file)] = 0;
        fclose(file);
        host h = open_host();
        static run r;
        snprintf(path, sizeof path, "%s.out", words[i]);
        r = (run){.h = &h, .at = script, .out = fopen(path, "wb")};
        if (!r.out) {
            fprintf(stderr, "oclrun: cannot write %s\n", path);
            return 2;
        }
        run_script(&r);
        fclose(r.out);
        close_host(&h);
    }
    return 0;
}
