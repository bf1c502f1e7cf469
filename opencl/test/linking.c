// Programs that are compiled and linked apart (OpenCL 1.2, 5.6.3): what they leave, and what the calls answer.
// Status 0: all of it.
#include "host.h"
#include <stdbool.h>
#include <stdint.h>
#include <sys/stat.h>
#include <unistd.h>

#define WANT(CONDITION) \
    do { \
        if (!(CONDITION)) { \
            fprintf(stderr, "line %d: not so: %s\n", __LINE__, #CONDITION); \
            exit(4); \
        } \
    } while (0)

static host h;

static cl_program source_of(const char *text) {
    cl_int fault;
    cl_program p = clCreateProgramWithSource(h.context, 1, &text, NULL, &fault);
    OK(fault);
    return p;
}

static const char *log_of(cl_program p) {
    static char log[65536];
    OK(clGetProgramBuildInfo(p, h.device, CL_PROGRAM_BUILD_LOG, sizeof log, log, NULL));
    return log;
}

#define WANT_LOG(P, TEXT) \
    do { \
        if (!strstr(log_of(P), TEXT)) fprintf(stderr, "line %d: the log: %s", __LINE__, log_of(P)); \
        WANT(strstr(log_of(P), TEXT)); \
    } while (0)

static void want_state(cl_program p, cl_build_status status, cl_program_binary_type type, const char *options) {
    cl_build_status got = 99;
    cl_program_binary_type got_type = 99;
    char got_options[256] = "?";
    OK(clGetProgramBuildInfo(p, h.device, CL_PROGRAM_BUILD_STATUS, sizeof got, &got, NULL));
    OK(clGetProgramBuildInfo(p, h.device, CL_PROGRAM_BINARY_TYPE, sizeof got_type, &got_type, NULL));
    OK(clGetProgramBuildInfo(p, h.device, CL_PROGRAM_BUILD_OPTIONS, sizeof got_options, got_options, NULL));
    if (got != status || got_type != type)
        fprintf(stderr, "status %d, type %u, log: %s\n", got, (unsigned)got_type, log_of(p));
    WANT(got == status && got_type == type && !strcmp(got_options, options));
}

enum {
    NONE = CL_PROGRAM_BINARY_TYPE_NONE,
    OBJECT = CL_PROGRAM_BINARY_TYPE_COMPILED_OBJECT,
    LIBRARY = CL_PROGRAM_BINARY_TYPE_LIBRARY,
    EXECUTABLE = CL_PROGRAM_BINARY_TYPE_EXECUTABLE
};

static cl_program compiled(const char *text, const char *options) {
    cl_program p = source_of(text);
    cl_int fault = clCompileProgram(p, 1, &h.device, options, 0, NULL, NULL, NULL, NULL);
    if (fault) fprintf(stderr, "%s", log_of(p));
    OK(fault);
    want_state(p, CL_BUILD_SUCCESS, OBJECT, options);
    return p;
}

static cl_program linked(const char *options, cl_uint n, const cl_program *programs) {
    cl_int fault;
    cl_program p = clLinkProgram(h.context, 0, NULL, options, n, programs, NULL, NULL, &fault);
    if (fault && p) fprintf(stderr, "%s", log_of(p));
    OK(fault);
    return p;
}

// What a link answers that doesn't come out; its program with the log where there is one.
static cl_int link_fault(const char *options, cl_uint n, const cl_program *programs, cl_program *p) {
    cl_int fault;
    *p = clLinkProgram(h.context, 0, NULL, options, n, programs, NULL, NULL, &fault);
    return fault;
}

static void release(cl_uint n, const cl_program *programs) {
    for (cl_uint i = 0; i < n; i++) OK(clReleaseProgram(programs[i]));
}

// The first number that a kernel of a program leaves. Over four work-items.
static int32_t left_by(cl_program p, const char *name, cl_int wanted) {
    cl_int fault;
    int32_t numbers[4] = {0};
    size_t global = 4;
    cl_kernel k = clCreateKernel(p, name, &fault);
    OK(fault);
    cl_mem m = clCreateBuffer(h.context, CL_MEM_COPY_HOST_PTR, sizeof numbers, numbers, &fault);
    OK(fault);
    OK(clSetKernelArg(k, 0, sizeof m, &m));
    WANT(clEnqueueNDRangeKernel(h.queue, k, 1, NULL, &global, NULL, 0, NULL, NULL) == wanted);
    OK(clEnqueueReadBuffer(h.queue, m, CL_TRUE, 0, sizeof numbers, numbers, 0, NULL, NULL));
    OK(clReleaseMemObject(m));
    OK(clReleaseKernel(k));
    return numbers[0];
}

// ---- headers ----

// A program with headers by names, one of them in a folder, one twice, and one that a file of this folder is named as
// too. The fault of one is told at its line of the header.
static void headers(void) {
    static const char *const texts[] = {"#include <ops/add.h>\n#include \"mine.h\"\n#include \"given.h\"\n"
                                        "kernel void f(global int *a) { a[get_global_id(0)] = add(MINE, GIVEN, BY); }\n"
                                        "kernel void g(global int *a) { a[0] = add(1, 2, 3); outside(a); }\n",
                                        "#pragma once\n#include \"base.h\"\n"
                                        "inline int add(int x, int y, int z) { return x + y * TEN + z; }\n"
                                        "inline void outside(global int *a) {\n    a[HUNDRED] = 1;\n}\n",
                                        "#define TEN 10\n#define HUNDRED 100\n", "#define MINE 5\n", "#error second\n"};
    static const char *names[] = {"ops/add.h", "base.h", "mine.h", "mine.h"};
    cl_program p = source_of(texts[0]), all[4];
    for (int i = 0; i < 4; i++) all[i] = source_of(texts[1 + i]);
    FILE *file = fopen("mine.h", "w");
    WANT(file && fputs("#error that of the folder\n", file) >= 0 && !fclose(file));
    mkdir("given", 0700);
    file = fopen("given/given.h", "w");
    WANT(file && fputs("#define GIVEN 7\n", file) >= 0 && !fclose(file));
    OK(clCompileProgram(p, 0, NULL, "-I given -D BY=400", 4, all, names, NULL, NULL));
    WANT(!remove("mine.h") && !remove("given/given.h") && !rmdir("given"));
    want_state(p, CL_BUILD_SUCCESS, OBJECT, "-I given -D BY=400");
    release(4, all);
    cl_program whole = linked(NULL, 1, &p);
    WANT(left_by(whole, "f", CL_SUCCESS) == 5 + 70 + 400);
    WANT(left_by(whole, "g", CL_INVALID_OPERATION) == 0);
    OK(clReleaseProgram(whole));
    OK(clReleaseProgram(p));
}

// What is wrong with a header is in the log, at its line; names that leave the folder are refused.
static void wrong_headers(void) {
    static const char *const bad[] = {"../up.h", "/up.h", "", "a/../../up.h", "a\nb"};
    const char *name = "in.h";
    cl_program p = source_of("#include \"in.h\"\n"), header = source_of("int f(void) {\n    return wrong;\n}\n");
    WANT(clCompileProgram(p, 0, NULL, "", 1, &header, &name, NULL, NULL) == CL_COMPILE_PROGRAM_FAILURE);
    WANT_LOG(p, "in.h:2:12: error: use of undeclared identifier 'wrong'");
    want_state(p, CL_BUILD_ERROR, NONE, "");
    for (size_t i = 0; i < sizeof bad / sizeof *bad; i++) {
        WANT(clCompileProgram(p, 0, NULL, "", 1, &header, (const char **)&bad[i], NULL, NULL) ==
             CL_COMPILE_PROGRAM_FAILURE);
        WANT_LOG(p, "cannot write the header ");
    }
    WANT(clCompileProgram(p, 0, NULL, "", 0, NULL, NULL, NULL, NULL) == CL_COMPILE_PROGRAM_FAILURE);
    WANT_LOG(p, "source:1:10: fatal error: 'in.h' file not found");
    OK(clReleaseProgram(header));
    OK(clReleaseProgram(p));
}

// A number as an address in a header is refused in the link, at its line.
static void refused_headers(void) {
    const char *name = "in.h";
    cl_program p = source_of("#include \"in.h\"\nkernel void f(global int *a) { a[0] = bad(a[1]); }\n"), whole;
    cl_program header = source_of("\ninline int bad(int x) { int *y = (int *)(long)x; return *y; }\n");
    OK(clCompileProgram(p, 0, NULL, "", 1, &header, &name, NULL, NULL));
    WANT(link_fault("", 1, &p, &whole) == CL_LINK_PROGRAM_FAILURE && whole);
    WANT_LOG(whole, "in.h:2:34: error: Clsim has no numbers as addresses\n"
                    "inline int bad(int x) { int *y = (int *)(long)x; return *y; }\n");
    want_state(whole, CL_BUILD_ERROR, NONE, "");
    OK(clReleaseProgram(whole));
    OK(clReleaseProgram(header));
    OK(clReleaseProgram(p));
}

// ---- several sources ----

static const char first_half[] = "typedef struct { int a; short b[2]; } pair;\n"
                                 "int twice(int x);\n"
                                 "int sum_of(pair p, global const int *a);\n"
                                 "extern __constant int table[];\n"
                                 "static int own(int x) { return x + 1; }\n"
                                 "kernel void f(global int *a) {\n"
                                 "    pair p = {1, {2, 3}};\n"
                                 "    a[get_global_id(0)] = twice(own(10)) + sum_of(p, a) * 100 + table[1] * 1000;\n"
                                 "}\n",
                  second_half[] = "typedef struct { int a; short b[2]; } pair;\n"
                                  "__constant int table[3] = {4, 5, 6};\n"
                                  "static int own(int x) { return x * 2; }\n"
                                  "int twice(int x) { return own(x); }\n"
                                  "int sum_of(pair p, global const int *a) { return p.a + p.b[0] + p.b[1]; }\n"
                                  "kernel void g(global int *a) { a[get_global_id(0)] = own(21); }\n";

static void several(void) {
    cl_program both[] = {compiled(first_half, ""), compiled(second_half, "-w")};
    cl_program whole = linked("", 2, both);
    size_t count = 0;
    char names[16] = "";
    want_state(whole, CL_BUILD_SUCCESS, EXECUTABLE, "");
    OK(clGetProgramInfo(whole, CL_PROGRAM_NUM_KERNELS, sizeof count, &count, NULL));
    OK(clGetProgramInfo(whole, CL_PROGRAM_KERNEL_NAMES, sizeof names, names, NULL));
    WANT(count == 2 && !strcmp(names, "f;g"));
    WANT(clGetProgramInfo(both[0], CL_PROGRAM_NUM_KERNELS, sizeof count, &count, NULL) ==
         CL_INVALID_PROGRAM_EXECUTABLE);
    WANT(left_by(whole, "f", CL_SUCCESS) == 22 + 600 + 5000);
    WANT(left_by(whole, "g", CL_SUCCESS) == 42);
    WANT(clBuildProgram(whole, 0, NULL, "", NULL, NULL) == CL_INVALID_OPERATION);
    WANT(clCompileProgram(whole, 0, NULL, "", 0, NULL, NULL, NULL, NULL) == CL_INVALID_OPERATION);
    OK(clReleaseProgram(whole));
    release(2, both);
}

// A library of one source, and a program that is linked with it.
static void libraries(void) {
    cl_program second = compiled(second_half, ""), first = compiled(first_half, ""), whole;
    cl_program library = linked("-create-library -enable-link-options", 1, &second);
    want_state(library, CL_BUILD_SUCCESS, LIBRARY, "-create-library -enable-link-options");
    cl_int fault;
    WANT(!clCreateKernel(library, "g", &fault) && fault == CL_INVALID_PROGRAM_EXECUTABLE);
    cl_program both[] = {first, library};
    whole = linked("-cl-fast-relaxed-math", 2, both);
    WANT(left_by(whole, "f", CL_SUCCESS) == 22 + 600 + 5000);
    OK(clReleaseProgram(whole));
    cl_program three[] = {first, library, second};
    WANT(link_fault("", 3, three, &whole) == CL_LINK_PROGRAM_FAILURE);
    WANT_LOG(whole, "source3:2:16: error: table is defined in another source of this program too\n");
    OK(clReleaseProgram(whole));
    OK(clReleaseProgram(first));
    OK(clReleaseProgram(second));
    OK(clReleaseProgram(library));
}

// What sources have in common that they shouldn't, or not as they say.
static void wrong_links(void) {
    static const struct {
        const char *one, *two, *log;
    } wrong[] = {
        {"kernel void f(global int *a) { a[0] = 1; }", "kernel void f(global int *a) { a[0] = 2; }",
         "source2:1:13: error: f is defined in another source of this program too\n"},
        {"int n(int x);\nkernel void f(global int *a) { a[0] = n(1); }", "int n(long x) { return 1; }",
         "source1:1:5: error: n is declared in another way here than where it is defined\n"},
        {"int n(global int *x);\nkernel void f(global int *a) { a[0] = n(a); }", "int n(local int *x) { return 1; }",
         "source1:1:5: error: n is declared in another way here than"},
        {"int n(int x);\nkernel void f(global int *a) { a[0] = n(1); }", "static int n(int x) { return 1; }",
         "source1:2:39: error: Clsim has no function n\n"},
        {"int n(int x);\nkernel void f(global int *a) { a[0] = n(1); }", "inline int n(int x) { return 1; }",
         "source1:2:39: error: Clsim has no function n\n"},
        {"int n(int x);\nint m(int x) { return n(x); }\nkernel void f(global int *a) { a[0] = m(1); }",
         "int m(int x);\nint n(int x) { return m(x); }", "source2:2:23: error: a function calls itself\n"},
    };
    for (size_t i = 0; i < sizeof wrong / sizeof *wrong; i++) {
        cl_program both[] = {compiled(wrong[i].one, ""), compiled(wrong[i].two, "")}, whole;
        WANT(link_fault("", 2, both, &whole) == CL_LINK_PROGRAM_FAILURE && whole);
        WANT_LOG(whole, wrong[i].log);
        OK(clReleaseProgram(whole));
        release(2, both);
    }
}

// Names that each source has for itself, and overloaded ones.
static void right_links(void) {
    static const char one[] = "inline int n(int x) { return x + 1; }\n"
                              "__attribute__((overloadable)) int over(int x) { return x; }\n"
                              "__attribute__((overloadable)) int over(long x);\n"
                              "kernel void f(global int *a) { a[get_global_id(0)] = n(1) + over(10) + over(100L); }\n",
                      two[] = "inline int n(int x) { return x + 2; }\n"
                              "__attribute__((overloadable)) int over(long x) { return (int)x * 2; }\n"
                              "kernel void g(global int *a) { a[get_global_id(0)] = n(1); }\n";
    cl_program both[] = {compiled(one, ""), compiled(two, "")}, whole = linked("", 2, both);
    WANT(left_by(whole, "f", CL_SUCCESS) == 2 + 10 + 200 && left_by(whole, "g", CL_SUCCESS) == 3);
    OK(clReleaseProgram(whole));
    release(2, both);
}

// ---- binaries ----

static cl_program by_binary(cl_program p, cl_program_binary_type type) {
    size_t n = 0;
    unsigned char *bytes;
    cl_int fault, state;
    OK(clGetProgramInfo(p, CL_PROGRAM_BINARY_SIZES, sizeof n, &n, NULL));
    WANT(n && (bytes = malloc(n)));
    OK(clGetProgramInfo(p, CL_PROGRAM_BINARIES, sizeof bytes, &bytes, NULL));
    cl_program again =
        clCreateProgramWithBinary(h.context, 1, &h.device, &n, (const unsigned char **)&bytes, &state, &fault);
    OK(fault);
    want_state(again, CL_BUILD_NONE, type, "");
    for (size_t cut = n - 1; cut > n - 40; cut--) // one that isn't whole is none
        WANT(
            !clCreateProgramWithBinary(h.context, 1, &h.device, &cut, (const unsigned char **)&bytes, &state, &fault) &&
            fault == CL_INVALID_BINARY && state == CL_INVALID_BINARY);
    free(bytes);
    return again;
}

static void binaries(void) {
    cl_program second = compiled(second_half, ""), first = compiled(first_half, "");
    cl_program library = linked("-create-library", 1, &second);
    cl_program both[] = {by_binary(first, OBJECT), by_binary(library, LIBRARY)};
    cl_program whole = linked("", 2, both), again = by_binary(whole, EXECUTABLE), alone = by_binary(second, OBJECT);
    cl_int fault;
    WANT(left_by(whole, "f", CL_SUCCESS) == 22 + 600 + 5000);
    WANT(!clCreateKernel(again, "f", &fault) && fault == CL_INVALID_PROGRAM_EXECUTABLE);
    OK(clBuildProgram(again, 0, NULL, "", NULL, NULL));
    want_state(again, CL_BUILD_SUCCESS, EXECUTABLE, "");
    WANT(left_by(again, "f", CL_SUCCESS) == 22 + 600 + 5000);
    OK(clBuildProgram(alone, 0, NULL, "", NULL, NULL)); // an object's binary is built to an executable
    WANT(left_by(alone, "g", CL_SUCCESS) == 42);
    WANT(clCompileProgram(both[0], 0, NULL, "", 0, NULL, NULL, NULL, NULL) == CL_INVALID_OPERATION);
    cl_program all[] = {second, first, library, both[0], both[1], whole, again, alone};
    release(8, all);
}

// ---- what the calls answer ----

static int notified;
static void CL_CALLBACK notify(cl_program p, void *user) {
    WANT(p && user == &notified);
    notified++;
}

static void answers(void) {
    const char *name = "a.h", *no_name = NULL;
    cl_program p = source_of("kernel void f(global int *a) { a[0] = 1; }"),
               executable = source_of("kernel void g() {}");
    cl_program other = compiled("int n(int x) { return x; }", ""), whole, q;
    cl_int fault;
    OK(clBuildProgram(executable, 0, NULL, "", NULL, NULL));
    WANT(clCompileProgram(NULL, 0, NULL, "", 0, NULL, NULL, NULL, NULL) == CL_INVALID_PROGRAM);
    WANT(clCompileProgram(p, 1, NULL, "", 0, NULL, NULL, NULL, NULL) == CL_INVALID_VALUE);
    WANT(clCompileProgram(p, 0, NULL, "", 1, NULL, NULL, NULL, NULL) == CL_INVALID_VALUE);
    WANT(clCompileProgram(p, 0, NULL, "", 0, &p, NULL, NULL, NULL) == CL_INVALID_VALUE);
    WANT(clCompileProgram(p, 0, NULL, "", 1, &p, &no_name, NULL, NULL) == CL_INVALID_VALUE);
    WANT(clCompileProgram(p, 0, NULL, "", 1, &(cl_program){NULL}, &name, NULL, NULL) == CL_INVALID_PROGRAM);
    WANT(clCompileProgram(p, 0, NULL, "", 0, NULL, NULL, NULL, &name) == CL_INVALID_VALUE);
    WANT(clCompileProgram(p, 0, NULL, "-frob", 0, NULL, NULL, NULL, NULL) == CL_INVALID_COMPILER_OPTIONS);
    WANT_LOG(p, "options: error: OpenCL 1.2 has no option -frob\n");
    WANT(clCompileProgram(p, 0, NULL, "-create-library", 0, NULL, NULL, NULL, NULL) == CL_INVALID_COMPILER_OPTIONS);
    OK(clCompileProgram(p, 0, NULL, NULL, 0, NULL, NULL, notify, &notified));
    WANT(notified == 1);
    want_state(p, CL_BUILD_SUCCESS, OBJECT, "");
    WANT(link_fault("", 0, NULL, &q) == CL_INVALID_VALUE && !q);
    WANT(link_fault("", 1, NULL, &q) == CL_INVALID_VALUE && !q);
    WANT(link_fault("", 1, &(cl_program){NULL}, &q) == CL_INVALID_PROGRAM && !q);
    WANT(link_fault("-DA", 1, &p, &q) == CL_INVALID_LINKER_OPTIONS && !q);
    WANT(link_fault("-enable-link-options", 1, &p, &q) == CL_INVALID_LINKER_OPTIONS && !q);
    WANT(link_fault("", 2, (cl_program[]){p, executable}, &q) == CL_INVALID_OPERATION && !q);
    WANT(link_fault("", 1, &executable, &q) == CL_SUCCESS && q); // nothing is compiled: no executable
    want_state(q, CL_BUILD_NONE, NONE, "");
    OK(clReleaseProgram(q));
    WANT(!clLinkProgram(NULL, 0, NULL, "", 1, &p, NULL, NULL, &fault) && fault == CL_INVALID_CONTEXT);
    WANT(!clLinkProgram(h.context, 1, NULL, "", 1, &p, NULL, NULL, &fault) && fault == CL_INVALID_VALUE);
    WANT(!clLinkProgram(h.context, 0, NULL, "", 1, &p, NULL, &p, &fault) && fault == CL_INVALID_VALUE);
    whole = clLinkProgram(h.context, 1, &h.device, "", 2, (cl_program[]){p, other}, notify, &notified, &fault);
    WANT(whole && !fault && notified == 2);
    cl_kernel k = clCreateKernel(whole, "f", &fault);
    OK(fault);
    OK(clReleaseProgram(whole)); // (the kernel uses it)
    OK(clReleaseKernel(k));
    OK(clBuildProgram(p, 0, NULL, "", NULL, NULL)); // the same program, built as a whole
    want_state(p, CL_BUILD_SUCCESS, EXECUTABLE, "");
    k = clCreateKernel(p, "f", &fault);
    OK(fault);
    WANT(clCompileProgram(p, 0, NULL, "", 0, NULL, NULL, NULL, NULL) == CL_INVALID_OPERATION);
    OK(clReleaseKernel(k));
    cl_bool has_linker = CL_FALSE;
    OK(clGetDeviceInfo(h.device, CL_DEVICE_LINKER_AVAILABLE, sizeof has_linker, &has_linker, NULL));
    WANT(has_linker);
    release(3, (cl_program[]){p, executable, other});
}

// A source in Clsim's language needs no clang, and is judged as it is.
static void own(void) {
    cl_program p = compiled("__kernel void f(__global int *a)\n{\n    a[get_global_id(0)] = 3;\n}\n", "");
    cl_program whole = linked("", 1, &p);
    WANT(left_by(whole, "f", CL_SUCCESS) == 3);
    release(2, (cl_program[]){p, whole});
}

int main(int count, char **words) {
    static const struct {
        const char *name;
        void (*call)(void);
    } all[] = {{"headers", headers},
               {"wrong headers", wrong_headers},
               {"refused headers", refused_headers},
               {"several", several},
               {"libraries", libraries},
               {"wrong links", wrong_links},
               {"right links", right_links},
               {"binaries", binaries},
               {"answers", answers},
               {"own", own}};
    h = open_host();
    for (size_t i = 0; i < sizeof all / sizeof *all; i++)
        if (count < 2 || !strcmp(words[1], all[i].name)) all[i].call();
    close_host(&h);
    puts("links are right");
    return 0;
}
