// The options of builds (OpenCL 1.2, 5.6.4 and 5.6.5).
#ifndef CLSIM_OPTIONS_H
#define CLSIM_OPTIONS_H
#include "arena.h"
#include <stdbool.h>

typedef enum { COMPILER_OPTION, LINKER_OPTION } option_kind;

// The words of the options of a build, without their quotes.
char **split_options(arena *a, const char *options, size_t *count);
// Whether one of them is this word.
bool has_option(arena *a, const char *options, const char *word);
// The first option that OpenCL 1.2 hasn't. NULL where it has all of them.
const char *unknown_option(arena *a, const char *options, option_kind kind);
#endif
