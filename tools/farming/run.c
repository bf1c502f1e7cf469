// Runs a program on scripts one after another, and tells how each run ended. A worker of tools/farm has this do what is
// done for each script: it takes less time here than in Python, and what is known of the memory of a small program is
// more.
//
//     farm_run GROUPS ANSWERS TEXTS SCRIPT SECONDS PROCESSOR_SECONDS MEMORY PROGRAM WORD..
//
// Each run may take so many seconds, so many seconds of a processor, and so many bytes of memory (0: as many as there
// are). The program has its words, the standard files of this one, and a process group of its own; what it leaves
// running there is ended. The first four words are the numbers of open files:
//
//   GROUPS   the scripts, a line for each group: AT:SIZE of each, its place in TEXTS, with a blank behind it
//   ANSWERS  a line for each run, `STATUS NANOSECONDS KILOBYTES SAID TOLD`: its status as wait gives it, or -1 for one
//            that took too long; its most memory, which is at least what this program has; and where standard output
//            and standard error end then. Or `error NUMBER` where it can't be started. Or `full` in place of all others
//            of a group, where so much was said that it has to be taken away first
//   TEXTS    the texts of the scripts
//   SCRIPT   the file that the program reads as its script
//
// Status 0 at the end of GROUPS; 130 where a signal or the end of what started it ended it and the program that ran; 2
// where a word or a file isn't as it should be. What isn't answered then has to be run anew.
#define _GNU_SOURCE
#include <ctype.h>
#include <errno.h>
#include <fcntl.h>
#include <sched.h>
#include <signal.h>
#include <stdbool.h>
#include <stdio.h>
#include <stdlib.h>
#include <string.h>
#include <sys/prctl.h>
#include <sys/resource.h>
#include <sys/time.h>
#include <sys/wait.h>
#include <time.h>
#include <unistd.h>

enum { STOPPED = 130, FAILED = 2 };
// Bytes: of an answer, of answers that wait, of a line of GROUPS, of what is copied at a time, and of the stack of a
// process that isn't the program yet.
enum { ANSWER_ROOM = 160, ANSWERS_ROOM = 4096, GROUP_ROOM = 4096, BLOCK = 1 << 16, STACK = 1 << 14 };

static const long long SECOND = 1000000000, MOST_SECONDS = 1000000000;
// From how many bytes of an output on a group is left.
static const off_t FULL = 1 << 20;
// How often it is looked at a run, in nanoseconds. Answers wait until then for others that are written with them, so
// that who reads them is woken for several; and a look takes a part of what a small script does, of which a busy
// machine would have many to a script.
static const long long LOOK = 200000000;

// What this program was asked for.
static struct {
    int groups, answers, texts, script;
    long long most;                  // nanoseconds of a run
    struct rlimit processor, memory; // of a run
    char **words;                    // the program's
    pid_t own;                       // the number of this process
} given;

// The process of the program, 0 for none, and whether a signal ends this one.
static volatile pid_t running;
static volatile sig_atomic_t is_over;

static struct {
    char lines[ANSWERS_ROOM];
    size_t length;
} answers;

// What was read of GROUPS and isn't taken yet.
static struct {
    char text[GROUP_ROOM];
    size_t begin, end;
} asked;

static long long now(void) {
    struct timespec time;
    clock_gettime(CLOCK_MONOTONIC, &time);
    return time.tv_sec * SECOND + time.tv_nsec;
}

// The number at the begin of a text, and where it ends. Above the largest number there is, it is this.
static unsigned long long number_at(const char *text, char **end) {
    if (!isdigit((unsigned char)*text)) exit(FAILED);
    return strtoull(text, end, 10);
}

static unsigned long long number_of(const char *word) {
    char *end;
    unsigned long long number = number_at(word, &end);
    if (*end) exit(FAILED);
    return number;
}

// ---- signals ----

static void look(int number) { (void)number; }

static void stop(int number) {
    int fault = errno;
    (void)number;
    is_over = 1;
    if (running) kill(-running, SIGKILL);
    errno = fault;
}

// Each look interrupts a wait. What is ignored, as behind nohup, stays so; but the system tells how programs ended,
// also where what started all this ignores how its own do.
static void heed_signals(void) {
    struct sigaction looking = {.sa_handler = look}, stopping = {.sa_handler = stop}, before;
    const int ends[] = {SIGINT, SIGTERM, SIGHUP};
    signal(SIGCHLD, SIG_DFL);
    sigaction(SIGALRM, &looking, NULL);
    for (int i = 0; i < 3; i++)
        if (sigaction(ends[i], NULL, &before) == 0 && before.sa_handler != SIG_IGN) sigaction(ends[i], &stopping, NULL);
    struct itimerval each = {{0, LOOK / 1000}, {0, LOOK / 1000}};
    setitimer(ITIMER_REAL, &each, NULL);
    prctl(PR_SET_PDEATHSIG, SIGTERM);
}

// ---- answers ----

static void write_answers(void) {
    for (size_t done = 0; done < answers.length;) {
        ssize_t written = write(given.answers, answers.lines + done, answers.length - done);
        if (written < 0 && errno != EINTR) exit(FAILED);
        if (written > 0) done += (size_t)written;
    }
    answers.length = 0;
}

static void answer(const char *line) {
    size_t length = strlen(line);
    if (answers.length + length > ANSWERS_ROOM) write_answers();
    memcpy(answers.lines + answers.length, line, length);
    answers.length += length;
}

// ---- a run ----

// Writes a part of a script to where the program reads it.
static void put(const char *block, size_t length, off_t at) {
    for (size_t done = 0; done < length;) {
        ssize_t written = pwrite(given.script, block + done, length - done, at + (off_t)done);
        if (written < 0 && errno != EINTR) exit(FAILED);
        if (written > 0) done += (size_t)written;
    }
}

// Copies a script to where the program reads it.
static void take(unsigned long long at, unsigned long long size) {
    static char block[BLOCK];
    for (unsigned long long done = 0; done < size;) {
        size_t left = size - done < BLOCK ? size - done : BLOCK;
        ssize_t length = pread(given.texts, block, left, (off_t)(at + done));
        if (length < 0 && errno == EINTR) continue;
        if (length <= 0) exit(FAILED);
        put(block, (size_t)length, (off_t)done);
        done += (size_t)length;
    }
    if (ftruncate(given.script, (off_t)size) != 0) exit(FAILED);
}

// Makes a process the program, in a group of its own, which ends with what started it. Says why that can't be done.
static int become_program(void *fault) {
    setpgid(0, 0);
    prctl(PR_SET_PDEATHSIG, SIGKILL);
    // (what started it may have ended before)
    if (getppid() != given.own) return FAILED;
    if (setrlimit(RLIMIT_CPU, &given.processor) == 0 && setrlimit(RLIMIT_AS, &given.memory) == 0)
        execv(given.words[0], given.words);
    *(volatile int *)fault = errno;
    return FAILED;
}

// Starts the program: the number of its process, or 0 where errno says why it can't be started. (The process has this
// one's memory until it is the program, and this one waits until then: so nothing is copied.)
static pid_t start(void) {
    static _Alignas(16) char stack[STACK];
    volatile int fault = 0;
    pid_t number = clone(become_program, stack + STACK, CLONE_VM | CLONE_VFORK | SIGCHLD, (void *)&fault);
    if (number > 0 && fault == 0) return number;
    if (number > 0) {
        while (waitpid(number, NULL, 0) < 0 && errno == EINTR) {}
        errno = fault;
    }
    return 0;
}

// Waits for the program, and ends it where it takes too long: its status, or -1 then.
static int ended(long long until, struct rusage *used) {
    pid_t number = running;
    int status = 0;
    bool is_late = false;
    siginfo_t how;
    while (waitid(P_PID, (id_t)number, &how, WEXITED | WNOWAIT) != 0) {
        if (errno != EINTR) exit(FAILED);
        write_answers();
        if (now() < until) continue;
        kill(-number, SIGKILL);
        is_late = true;
    }
    // (until it is waited for, no other process and no other group has its number)
    kill(-number, SIGKILL);
    running = 0;
    while (wait4(number, &status, 0, used) != number)
        if (errno != EINTR) exit(FAILED);
    return is_late ? -1 : status;
}

// Runs the program on the script that was taken, and answers. Whether there is room for what another run says.
static bool run(void) {
    char line[ANSWER_ROOM];
    struct rusage used = {0};
    long long begun = now();
    pid_t number = start();
    if (number == 0) {
        snprintf(line, sizeof line, "error %d\n", errno);
        answer(line);
        return true;
    }
    running = number;
    if (is_over) kill(-number, SIGKILL);
    int status = ended(begun + given.most, &used);
    off_t said = lseek(STDOUT_FILENO, 0, SEEK_CUR), told = lseek(STDERR_FILENO, 0, SEEK_CUR);
    if (said < 0 || told < 0) exit(FAILED);
    snprintf(line, sizeof line, "%d %lld %ld %lld %lld\n", status, now() - begun, used.ru_maxrss, (long long)said,
             (long long)told);
    // (what a signal ended meanwhile has no result)
    if (!is_over) answer(line);
    return said < FULL && told < FULL;
}

// ---- groups ----

// The next line of GROUPS, without its end; NULL where there is none.
static char *next_group(void) {
    while (!is_over) {
        char *line = asked.text + asked.begin, *end = memchr(line, '\n', asked.end - asked.begin);
        if (end) {
            *end = 0;
            asked.begin = (size_t)(end + 1 - asked.text);
            return line;
        }
        memmove(asked.text, line, asked.end - asked.begin);
        asked.end -= asked.begin;
        asked.begin = 0;
        if (asked.end == GROUP_ROOM) exit(FAILED);
        ssize_t length = read(given.groups, asked.text + asked.end, GROUP_ROOM - asked.end);
        if (length == 0) return NULL;
        if (length < 0 && errno != EINTR) exit(FAILED);
        if (length > 0) asked.end += (size_t)length;
    }
    return NULL;
}

// Runs the program on the scripts of a group.
static void run_group(char *group) {
    for (bool has_room = true; *group && !is_over; has_room = run()) {
        if (!has_room) {
            answer("full\n");
            break;
        }
        unsigned long long at = number_at(group, &group);
        if (*group != ':') exit(FAILED);
        unsigned long long size = number_at(group + 1, &group);
        if (*group != ' ') exit(FAILED);
        group++;
        take(at, size);
    }
    write_answers();
}

// The limits of a run, of which each is at most what it is for this process; with 0 they are those of this process.
static struct rlimit limit_of(int what, unsigned long long most) {
    struct rlimit limit;
    if (getrlimit(what, &limit) != 0) exit(FAILED);
    if (most && most < limit.rlim_max) limit.rlim_max = most;
    if (most) limit.rlim_cur = limit.rlim_max;
    return limit;
}

// The number of an open file, which no program inherits.
static int file_of(const char *word) {
    int file = (int)number_of(word);
    if (fcntl(file, F_SETFD, FD_CLOEXEC) != 0) exit(FAILED);
    return file;
}

static void read_words(char **words) {
    unsigned long long seconds = number_of(words[5]);
    given.groups = file_of(words[1]);
    given.answers = file_of(words[2]);
    given.texts = file_of(words[3]);
    given.script = file_of(words[4]);
    given.most = (seconds < (unsigned long long)MOST_SECONDS ? (long long)seconds : MOST_SECONDS) * SECOND;
    given.processor = limit_of(RLIMIT_CPU, number_of(words[6]));
    given.memory = limit_of(RLIMIT_AS, number_of(words[7]));
    given.words = words + 8;
    given.own = getpid();
}

int main(int count, char **words) {
    if (count < 9) return FAILED;
    read_words(words);
    // (this process itself may take as much of a processor as the system lets it: it runs many scripts)
    struct rlimit own = {given.processor.rlim_max, given.processor.rlim_max};
    if (getrlimit(RLIMIT_CPU, &own) == 0) own.rlim_cur = own.rlim_max;
    setrlimit(RLIMIT_CPU, &own);
    heed_signals();
    for (char *group; (group = next_group());) run_group(group);
    return is_over ? STOPPED : 0;
}
