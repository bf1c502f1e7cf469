// The helpers of opencl/floats as the translator knows them.
#ifndef CLSIM_FRONT_FLOATS_H
#define CLSIM_FRONT_FLOATS_H
#include "integers.h"

// A helper, as floats/helpers.h has it.
typedef struct {
    const char *name;
    integer_type result;
    const char *parameters; // words for their types, with a space between
    const char *calls;      // the helpers that it calls
    const char *text;
} helper;

enum { MOST_PARAMETERS = 8, NO_HELPER = -1 };

unsigned helper_count(void);
const helper *helper_at(unsigned number);
// The number of a helper, or NO_HELPER.
int helper_named(const char *name);
bool has_loop(unsigned number); // in itself or in a helper that it calls
// The types of its parameters; how many there are.
unsigned parameters_of(const helper *h, integer_type *types);
// What a helper gives for arguments that are known. False where it isn't worked out here.
bool known_result(unsigned helper, const uint64_t *arguments, uint64_t *result);
#endif
