// Why a fault is one, by the reasons of an explanation.
#ifndef CLSIM_REASONS_H
#define CLSIM_REASONS_H
#include "json.h"
#include "source.h"

// Adds the sentence of a reason of an explanation, with its places in the client's source. False where a member is
// missing.
bool add_reason(text *t, const prepared *source, const kernel_form *kernel, json explanation, json reason);
// Tells each reason of an explanation, with its places in the client's source.
void tell_reasons(const prepared *source, const kernel_form *kernel, json explanation);
#endif
