// A preprocessed text by its rows, and where each of its words comes from.
#ifndef CLSIM_FRONT_PLACES_H
#define CLSIM_FRONT_PLACES_H
#include "ast.h"

// A word of C: a name, a number, a literal, a sign.
typedef struct {
    const char *at;
    unsigned length;
    unsigned column;        // of its first byte, from 1
    unsigned client_column; // where it comes from, in the client's line
} word;

typedef struct {
    size_t begin, end; // its bytes, without the line feed
    const char *file;  // as a `place` names it; NULL for what clang itself puts in front
    unsigned line;     // of the client's text
    word *words;       // NULL until they are asked for
    unsigned word_count;
} row;

typedef struct rows rows;

// Takes apart what `clang -E -dD` writes of a source that names itself "source"; places have the name that it has here.
// The lines that name places, and those that define macros, become empty in `text`, which keeps its length.
rows *read_rows(arena *a, char *text, size_t length, const client_source *source);
// The row of a number, from 1 on. NULL where there is none.
row *row_at(const rows *r, unsigned number);
// Where the word that begins at a row and column comes from. Its file is the source and its line 0 where that isn't
// known.
place client_place(rows *r, unsigned number, unsigned column);
// The word that begins there. NULL where there is none.
const word *word_at(rows *r, unsigned number, unsigned column);
// The words from the one at a place to the one at another, in one line.
const char *words_between(rows *r, unsigned row, unsigned column, unsigned last_row, unsigned last_column);
// Whether a row is of what clang itself puts in front of the client's text.
bool is_in_front(const rows *r, unsigned number);
#endif
