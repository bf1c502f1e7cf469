// A program that runs as a child process, within limits of time and memory.
#ifndef CLSIM_FRONT_CHILD_H
#define CLSIM_FRONT_CHILD_H
#include "../arena.h"
#include <stdbool.h>
#include <stdint.h>
#include <sys/types.h>

typedef struct {
    unsigned seconds; // from its start to its end, and of processor time
    uint64_t memory;  // of its address space, in bytes
} child_limits;

typedef struct {
    pid_t number;       // of the process, and of its group
    int output, errors; // ends of pipes, -1 once they are closed
    long long last;     // the millisecond at which it is ended
    bool is_late;       // its time has run out
    bool is_taken;      // the client has taken its end along
    char *told;         // the first bytes of its standard error, with a zero behind them
    size_t told_length;
} child;

// Starts words[0], found on the path, in a process group of its own. It reads the descriptor `input` from its
// beginning, sees none but the three standard ones, and no signal is blocked or ignored there. `told` lives in the
// arena. An error's number, or 0.
int start_child(child *c, arena *a, char *const *words, int input, child_limits limits);

// The next bytes of its standard output, as `read` gives them: 0 at the end, below 0 where its time has run out or a
// pipe can't be read.
ssize_t read_child(child *c, char *to, size_t room);

// Ends what still runs of it where it hasn't closed its output, and waits for it. The status as `waitpid` gives it; -1
// where the client has taken that along.
int end_child(child *c);

// A file in memory with these bytes, read from its beginning; below 0 where it can't be made.
int file_with(const char *bytes, size_t length);
#endif
