// The driver's settings, and the file of the script.
#ifndef CLSIM_KERNEL_SETTINGS_H
#define CLSIM_KERNEL_SETTINGS_H
#include "../arena.h"
#include <stdbool.h>

// Sets the driver's variables for this command, which may ask for a launch with `orders`. The script of what is done is
// recorded beside its file, if one is asked for: until it is kept, nothing of that file is lost.
void set_driver(arena *a, const char *script, bool has_orders);
// Puts the recorded script in its place.
void keep_script(void);
#endif
