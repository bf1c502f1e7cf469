// What a command line asks for, or a file `.sim`.
#ifndef CLSIM_KERNEL_REQUEST_H
#define CLSIM_KERNEL_REQUEST_H
#include "../arena.h"
#include "numbers.h"

typedef enum {
    NO_CONTENT, // nothing is said of it
    ZERO_CONTENT,
    FILL_CONTENT,   // words: the number
    RANGE_CONTENT,  // words: perhaps the first number, the step, and the last number
    RANDOM_CONTENT, // words: perhaps the seed, and behind it the least and the greatest number
    FILE_CONTENT,   // words: the path
    LIST_CONTENT    // words: the numbers
} content_kind;

// An argument as it was given. Which kind of parameter it is for isn't known yet.
typedef struct {
    const char *name;  // of the parameter, or its number from 0
    const char *from;  // what stands in front of messages: the option, or the line of a file
    const char *label; // by which it is dumped
    bool is_local;     // bytes of local memory: `bytes`
    bool is_null;      // no buffer
    bool is_of_file;   // it is `bytes` long, and local memory where its parameter is
    uint64_t bytes;
    bool has_type, has_count;
    element type;
    uint64_t count; // of elements
    content_kind content;
    char **words;
    size_t word_count;
    bool is_hex; // its numbers are hexadecimal
} given;

// What is shown of a buffer after the launch.
typedef struct {
    const char *name, *path; // the argument's name, and the file for its bytes; NULL: it is shown
} wanted_dump;

typedef struct {
    char **at;
    size_t count, room;
} word_list;

typedef struct {
    arena *arena;
    const char *file, *kernel, *script, *budget; // NULL where they aren't given
    const char *simulation;                      // the file that names them and has the arguments, NULL for none
    text options;                                // of the build
    unsigned dimensions;                         // 0 where there is no global size
    size_t global[3], local[3], offset[3];
    bool has_local, has_orders;
    given *arguments;
    size_t argument_count, argument_room;
    wanted_dump *dumps;
    size_t dump_count, dump_room;
} request;

void add_word(arena *a, word_list *to, const char *word, size_t n);
given *add_argument(request *r);
void add_dump(request *r, const char *name, const char *path);
// One to three sizes with a comma between each two. How many there are, 0 where the text is none.
unsigned read_sizes(const char *text, size_t *sizes);

// Reads the words of a command line. One that can't be read ends the command.
void read_command(request *r, int count, char **words);
// Reads what stands behind `--arg`.
void read_argument(request *r, const char *text);
// Reads a file of the form of oclgrind-kernel into a request that names it.
void read_simulation(request *r);
#endif
