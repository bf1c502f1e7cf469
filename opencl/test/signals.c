// signals interrupted|wait: a client that catches the interrupt of a terminal goes on, with its device; one that makes
// a context, says so, and then waits to be killed. Then what sources without functions answer.
#include "host.h"
#include <signal.h>
#include <unistd.h>

static volatile sig_atomic_t caught;
static void catch(int signal) { caught = signal; }

// Sources without a byte, and without a function, are built; they have no kernels.
static void build_nothing(host *h) {
    static const char *const sources[] = {"", " \n", "typedef int number;\n", "#define N 1\n", "int twice(int x);\n"};
    for (size_t i = 0; i < sizeof sources / sizeof *sources; i++) {
        size_t count = 9;
        cl_program p = build_program(h, sources[i], "");
        OK(clGetProgramInfo(p, CL_PROGRAM_NUM_KERNELS, sizeof count, &count, NULL));
        if (count) exit(5);
        OK(clReleaseProgram(p));
    }
}

int main(int count, char **words) {
    if (count != 2) return 2;
    signal(SIGINT, catch);
    setpgid(0, 0);
    host h = open_host();
    if (!strcmp(words[1], "wait")) {
        puts("a context is there");
        fflush(stdout);
        for (;;) pause();
    }
    kill(0, SIGINT); // as a terminal does
    usleep(100000);
    cl_int fault, number = 7, back = 0;
    cl_mem m = clCreateBuffer(h.context, CL_MEM_COPY_HOST_PTR, sizeof number, &number, &fault);
    OK(fault);
    OK(clEnqueueReadBuffer(h.queue, m, CL_TRUE, 0, sizeof back, &back, 0, NULL, NULL));
    if (caught != SIGINT || back != 7) return 4;
    OK(clReleaseMemObject(m));
    build_nothing(&h);
    close_host(&h);
    puts("it goes on");
    return 0;
}
