// A private folder with the headers that a client gives a source, while clang reads that.
#ifndef CLSIM_FRONT_FOLDER_H
#define CLSIM_FRONT_FOLDER_H
#include "ast.h"

typedef struct made_path made_path;

typedef struct {
    const char *path;
    made_path *last; // what was made in it, the last one first, itself among it
} folder;

// Makes a folder that is empty but for headers under their names, in TMPDIR or /tmp. Of two of one name the first one
// counts. NULL, or what is wrong; what was made is there to be removed then too.
const char *make_folder(folder *f, arena *a, const named_text *headers, unsigned count);
// Removes what was made.
void remove_folder(folder *f);
// The folder that this process is in; `.` where that isn't known.
const char *current_folder(arena *a);
#endif
