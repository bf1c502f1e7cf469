// What the command tells: errors of its own, what the driver says, and the verdict at the source's lines.
#ifndef CLSIM_KERNEL_TELLING_H
#define CLSIM_KERNEL_TELLING_H
#include "../arena.h"
#include <stdbool.h>

// Tells a line on standard error, and ends the command with status 2.
_Noreturn void stop(const char *format, ...) __attribute__((format(printf, 1, 2)));
// The bytes of a file with a zero behind them, and how many they are. Where it can't be read, the command ends; the
// message begins with `from`, where it is there.
char *read_file(arena *a, const char *path, const char *from, size_t *n);

// Has the driver's lines kept from here on, for the functions below. The source is named by the path of its file.
void keep_lines(const char *path);
// Tells what the driver said since the last look.
void tell_errors(void);
// Whether it said at any time that it lost a part of the script.
bool is_script_lost(void);
// What the driver says of a launch. Of one that is clean it says nothing.
typedef enum { NO_VERDICT, FAULT_VERDICT, ORDERED_VERDICT } verdict;
// Tells on standard output what it said of a launch. Where it didn't say of a verdict, it is told as errors are.
verdict tell_verdict(void);
// Tells the log of a build on standard error, each line with words in front.
void tell_log(const char *log, const char *in_front);
#endif
