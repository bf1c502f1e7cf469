/* Preloaded before a program, this refuses requests for memory: malloc, calloc, realloc and the aligned ones answer
   that none is left. Or it fails calls of read or write. What is said of requests holds of these calls then.

   WHAT=memory   requests for memory; so it is without WHAT
   WHAT=reads    reads from standard input and from files, each of at most 4 bytes
   WHAT=writes   writes to standard output, each of at most 4 bytes
   REFUSE=N      the program's Nth request is refused; with 0 none is
   REFUSE=each   the program runs once with no request refused, and then with the Nth refused, for N = 1, 2, .., until a
                 run makes fewer requests, so that the last run refuses none. Each run is a process of its own, forked
                 before `main`, and reads standard input from its beginning where that is a file
   REPORT=PATH   the file at the end of which each run is told (below)
   MOST=N        with REFUSE=each, a sample is refused of the requests of a program that makes more than N; without it,
                 all are
   FIRST=N, STEP=N, LAST=N
                 the sample: the first so many requests, each so-many-th, and the last so many of those that the run
                 with none refused makes; without them, the first 1, each 1,000th and the last 1
   SECONDS=N     a run that takes longer is ended by a signal; without it, 60

   While a program is between a line `refuse: all` and a line `refuse: none`, each of them one write to standard error,
   every request is refused too.

   A run is told by a line `run N status S asked A refused R live L output O error E`, and, where REFUSE is `each`, the
   O bytes of its standard output and the E bytes of its standard error. S is the status, or 128 and the number of the
   signal that ended it; it is -1 where REFUSE is a number. A is how many requests it made, R whether the Nth was
   refused, and L how many blocks it took and didn't give back. */
#define _GNU_SOURCE
#include <errno.h>
#include <fcntl.h>
#include <limits.h>
#include <stdatomic.h>
#include <stdbool.h>
#include <stddef.h>
#include <stdint.h>
#include <stdio.h>
#include <stdlib.h>
#include <string.h>
#include <sys/mman.h>
#include <sys/uio.h>
#include <sys/wait.h>
#include <unistd.h>

/* The C library's own, which it exports by these names. */
extern void *__libc_malloc(size_t size);
extern void *__libc_calloc(size_t count, size_t size);
extern void *__libc_realloc(void *block, size_t size);
extern void *__libc_memalign(size_t alignment, size_t size);
extern void __libc_free(void *block);

/* What is counted of a run. It lies in memory that the run shares with the process that started it. */
struct counts {
    atomic_ulong asked, refused;
    atomic_long live;
};

enum what { MEMORY, READS, WRITES };

/* The most bytes of a read or a write, where these are refused. */
enum { PIECE = 4 };

static struct counts unshared;
static struct counts *counts = &unshared;
static enum what what = MEMORY;
static unsigned long chosen;
static atomic_bool all;

/* Whether a request is the one that is refused. */
static bool is_chosen(void) {
    if (atomic_fetch_add(&counts->asked, 1) + 1 != chosen)
        return false;
    atomic_store(&counts->refused, 1);
    return true;
}

static bool is_refused(void) {
    if ((what == MEMORY && is_chosen()) || atomic_load(&all)) {
        errno = ENOMEM;
        return true;
    }
    return false;
}

static void *counted(void *block) {
    if (block != NULL)
        atomic_fetch_add(&counts->live, 1);
    return block;
}

void *malloc(size_t size) {
    return is_refused() ? NULL : counted(__libc_malloc(size));
}

void *calloc(size_t count, size_t size) {
    return is_refused() ? NULL : counted(__libc_calloc(count, size));
}

void *realloc(void *block, size_t size) {
    if (is_refused())
        return NULL;
    void *moved = __libc_realloc(block, size);
    if (block == NULL)
        return counted(moved);
    if (moved == NULL && size == 0)
        atomic_fetch_sub(&counts->live, 1);
    return moved;
}

void *memalign(size_t alignment, size_t size) {
    return is_refused() ? NULL : counted(__libc_memalign(alignment, size));
}

void *aligned_alloc(size_t alignment, size_t size) {
    return memalign(alignment, size);
}

int posix_memalign(void **block, size_t alignment, size_t size) {
    int before = errno;
    void *made = memalign(alignment, size);
    errno = before;
    if (made == NULL)
        return ENOMEM;
    *block = made;
    return 0;
}

void free(void *block) {
    if (block != NULL)
        atomic_fetch_sub(&counts->live, 1);
    __libc_free(block);
}

/* What the program says on standard error. */
static void said(const char *text, size_t length) {
    static const char on[] = "refuse: all\n", off[] = "refuse: none\n";
    if (length == sizeof on - 1 && memcmp(text, on, length) == 0)
        atomic_store(&all, true);
    if (length == sizeof off - 1 && memcmp(text, off, length) == 0)
        atomic_store(&all, false);
}

/* Whether a call on a stream fails; else it moves no more than a piece. */
static bool is_failed(size_t *length) {
    if (is_chosen()) {
        errno = EIO;
        return true;
    }
    if (*length > PIECE)
        *length = PIECE;
    return false;
}

ssize_t read(int file, void *bytes, size_t length) {
    if (what == READS && file != STDOUT_FILENO && file != STDERR_FILENO && is_failed(&length))
        return -1;
    struct iovec piece = {bytes, length};
    return readv(file, &piece, 1);
}

ssize_t write(int file, const void *bytes, size_t length) {
    if (what == WRITES && file == STDOUT_FILENO && is_failed(&length))
        return -1;
    if (file == STDERR_FILENO)
        said(bytes, length);
    struct iovec piece = {(void *)(uintptr_t)bytes, length};
    return writev(file, &piece, 1);
}

/* ---- the report ------------------------------------------------------------------------------ */

static void fail(const char *why) {
    dprintf(STDERR_FILENO, "refuse: %s: %s\n", why, strerror(errno));
    _exit(125);
}

/* Appends bytes to the report. */
static void tell(int report, const char *bytes, size_t length) {
    while (length > 0) {
        ssize_t came = write(report, bytes, length);
        if (came < 0)
            fail("the report can't be written");
        bytes += came;
        length -= (size_t)came;
    }
}

static void tell_run(int report, unsigned long number, int status, size_t output, size_t error) {
    char line[200];
    int length = snprintf(line, sizeof line, "run %lu status %d asked %lu refused %lu live %ld output %zu error %zu\n",
                          number, status, atomic_load(&counts->asked), atomic_load(&counts->refused),
                          atomic_load(&counts->live), output, error);
    tell(report, line, (size_t)length);
}

static int opened_report(void) {
    const char *path = getenv("REPORT");
    int report = path == NULL ? -1 : open(path, O_WRONLY | O_CREAT | O_APPEND | O_CLOEXEC, 0666);
    if (report < 0)
        fail("no file REPORT");
    return report;
}

/* ---- one run --------------------------------------------------------------------------------- */

static unsigned long number_in(const char *name, unsigned long otherwise) {
    const char *text = getenv(name);
    char *end;
    if (text == NULL)
        return otherwise;
    errno = 0;
    unsigned long number = strtoul(text, &end, 10);
    if (end == text || *end != '\0' || errno != 0) {
        errno = EINVAL;
        fail(name);
    }
    return number;
}

static enum what what_in(const char *name) {
    static const char *words[] = {"memory", "reads", "writes"};
    const char *text = getenv(name);
    for (enum what it = MEMORY; it <= WRITES; it++)
        if (strcmp(text == NULL ? words[MEMORY] : text, words[it]) == 0)
            return it;
    errno = EINVAL;
    fail(name);
    return MEMORY;
}

/* Counts from here on. */
static void begin(unsigned long number, unsigned seconds) {
    chosen = number;
    atomic_store(&counts->asked, 0);
    atomic_store(&counts->refused, 0);
    atomic_store(&counts->live, 0);
    alarm(seconds);
}

static int single_report = -1;

__attribute__((destructor)) static void end_single(void) {
    if (single_report >= 0)
        tell_run(single_report, chosen, -1, 0, 0);
}

/* ---- each run -------------------------------------------------------------------------------- */

static int made_file(const char *name) {
    int file = memfd_create(name, MFD_CLOEXEC);
    if (file < 0)
        fail("no file for a stream");
    return file;
}

/* The bytes that a file in memory has, copied to the report. */
static void copy(int report, int file, size_t length) {
    char bytes[1 << 14];
    for (size_t at = 0; at < length;) {
        ssize_t came = pread(file, bytes, sizeof bytes, (off_t)at);
        if (came <= 0)
            fail("what the program wrote can't be read");
        tell(report, bytes, (size_t)came);
        at += (size_t)came;
    }
}

static size_t length_of(int file) {
    off_t length = lseek(file, 0, SEEK_END);
    if (length < 0)
        fail("what the program wrote can't be measured");
    return (size_t)length;
}

static void emptied(int file) {
    if (ftruncate(file, 0) != 0 || lseek(file, 0, SEEK_SET) != 0)
        fail("a file for a stream can't be emptied");
}

/* Forks the run of a number. In that run it returns; in this process it gives whether a request was refused there. */
static bool is_run(unsigned long number, unsigned seconds, int report, int output, int error, bool *is_here) {
    int status;
    emptied(output);
    emptied(error);
    pid_t child = fork();
    if (child < 0)
        fail("no process");
    if (child == 0) {
        if (dup2(output, STDOUT_FILENO) < 0 || dup2(error, STDERR_FILENO) < 0)
            fail("no streams");
        lseek(STDIN_FILENO, 0, SEEK_SET);
        *is_here = true;
        begin(number, seconds);
        return false;
    }
    if (waitpid(child, &status, 0) != child)
        fail("a run can't be waited for");
    size_t written = length_of(output), told = length_of(error);
    tell_run(report, number, WIFSIGNALED(status) ? 128 + WTERMSIG(status) : WEXITSTATUS(status), written, told);
    copy(report, output, written);
    copy(report, error, told);
    return atomic_load(&counts->refused) > 0;
}

/* Which requests are refused of a program that makes more than `most`. */
struct sample {
    unsigned long most, first, step, last;
};

/* The request that is refused after one, of so many that the run with none refused makes. Behind the last of a sample
   comes one that no run makes: where there are threads, a run may make some more requests than another. */
static unsigned long next(const struct sample *sample, unsigned long number, unsigned long asked) {
    if (asked <= sample->most || number < sample->first)
        return number + 1;
    if (number >= asked)
        return ULONG_MAX;
    if (asked - number <= sample->last)
        return number + 1;
    unsigned long stepped = number - number % sample->step + sample->step, late = asked - sample->last + 1;
    return stepped < late ? stepped : late;
}

static void run_each(unsigned seconds) {
    const struct sample sample = {number_in("MOST", ULONG_MAX), number_in("FIRST", 1), number_in("STEP", 1000),
                                  number_in("LAST", 1)};
    if (sample.step == 0) {
        errno = EINVAL;
        fail("STEP");
    }
    int report = opened_report(), output = made_file("output"), error = made_file("error");
    bool is_here = false;
    counts = mmap(NULL, sizeof *counts, PROT_READ | PROT_WRITE, MAP_SHARED | MAP_ANONYMOUS, -1, 0);
    if (counts == MAP_FAILED)
        fail("no memory for the counts");
    for (unsigned long number = 0, asked = 0;; number = next(&sample, number, asked)) {
        bool is_met = is_run(number, seconds, report, output, error, &is_here);
        if (is_here)
            return;
        if (number == 0)
            asked = atomic_load(&counts->asked);
        else if (!is_met)
            _exit(0);
    }
}

__attribute__((constructor)) static void start(void) {
    const char *refuse = getenv("REFUSE");
    unsigned seconds = (unsigned)number_in("SECONDS", 60);
    if (refuse == NULL)
        return;
    what = what_in("WHAT");
    if (strcmp(refuse, "each") == 0) {
        run_each(seconds);
    } else {
        unsigned long number = number_in("REFUSE", 0);
        single_report = opened_report();
        begin(number, seconds);
    }
}
