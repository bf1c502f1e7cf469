// For which of the client's bytes and numbers the verdicts of a context's launches hold (CLSIM_WIDEN): told at the
// context's end, launch by launch, by `clsim widen` on the script of its commands.
#ifndef CLSIM_WIDENING_H
#define CLSIM_WIDENING_H
#include "objects.h"

// Notes a launch that was judged, with its reply.
void note_launch(cl_kernel k, const char *reply);
// Frees a source, or keeps it for the context's end, where launches by it were noted.
void leave_source(prepared *p);
// Tells the launches that were noted, and lets them go. The session is there still.
void tell_widened(cl_context c);
#endif
