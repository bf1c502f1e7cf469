// From the tree of an OpenCL C source to Clsim's language.
#ifndef CLSIM_FRONT_TRANSLATE_H
#define CLSIM_FRONT_TRANSLATE_H
#include "../formats.h"
#include "ast.h"
#include "integers.h"

typedef enum {
    BUFFER_PARAMETER,
    LOCAL_PARAMETER,
    VALUE_PARAMETER,
    TABLE_PARAMETER,
    ORIGIN_PARAMETER, // of an argument that is a part of its buffer: where that begins, in bytes
    SIZE_PARAMETER,   // and how many bytes it has
    PRINT_PARAMETER,  // the words that printf writes
    ROOM_PARAMETER    // and how many of them each work-item has
} parameter_kind;

// A parameter of a kernel as it is judged. A client's buffer has one for each type that it is accessed by, a struct or
// a vector one for each number in it.
typedef struct {
    parameter_kind kind;
    integer_type type; // of an element, or of the value
    unsigned argument; // which of the client's arguments it belongs to; of a table which of the tables
    uint64_t offset;   // of a value: where it lies in the client's argument, in bytes
} judged_parameter;

// A name of the judged text, and what it stands for in the client's source.
typedef struct {
    const char *judged;
    const char *shown; // as `s.b` and `w[3]`; NULL where it holds a part of an expression
} shown_name;

// An object in local memory as it is judged: an array, or a parameter.
typedef struct {
    const char *judged, *shown;
    const type *type;     // in the client's source; of a parameter what it points to
    integer_type element; // in the judged text
    bool is_parameter;
    unsigned argument; // of a parameter: which of the client's arguments it is
} local_object;

typedef struct {
    const node *function;
    const char *name;     // in the judged text, at most MOST_NAME bytes
    size_t begin, length; // its text, which is a program of its own
    judged_parameter *parameters;
    unsigned parameter_count;
    shown_name *names;
    unsigned name_count;
    local_object *locals;
    unsigned local_count;
    unsigned char *accesses; // of each of the client's arguments: which accesses of its buffer are written
    printed_call *printed;   // its calls of printf, by their numbers from 1 on
    unsigned printed_count;
} judged_kernel;

// Accesses of a buffer, a bit for each; and what else an argument may be: a part of its buffer, or NULL.
enum { LOADS = 1, STORES = 2, IS_PART = 4, IS_NULL = 8 };
// Where an access goes that is held back: an element that no object has.
#define HELD_ELEMENT "-2305843009213693952"
// And one outside of the part that an argument is: that many elements behind this one, as the argument has the number.
#define OUTSIDE_ELEMENT (-(INT64_C(1) << 59))

// Constant memory that the source fills itself: the driver makes a buffer of it.
typedef struct {
    const char *name; // in the client's source
    const unsigned char *bytes;
    size_t size;
    unsigned width; // of an element
} constant_table;

// A call of a function of the source, which is judged in its place.
typedef struct call_site {
    const struct call_site *up; // the call round it, NULL for none
    const place *at;
} call_site;

enum { MOST_NAME = 63 }; // bytes of a name in a script

// A loop, by its number. What has it is a part of the turn before in the client's source: the loop's test, or its step,
// where these stand at the begin of the judged loop's body.
typedef struct turn_before {
    const struct turn_before *more; // other such loops, NULL for none
    unsigned loop;
} turn_before;

// What begins at a byte of the judged text.
typedef struct {
    size_t offset;
    const place *at;
    const call_site *calls;    // in which it is, the innermost one
    unsigned loop;             // the number of the loop that begins here, else 0
    const turn_before *before; // of which loops it is a part of the turn before, NULL for none
} judged_place;

typedef struct {
    char *text;
    size_t length;
    judged_kernel *kernels; // in the order of the text
    unsigned kernel_count;
    constant_table *tables;
    unsigned table_count;
    unsigned *table_numbers; // of each declaration and text 1 above the number of its table, 0 where it has none
    unsigned table_room;
    judged_place *places; // in the order of their offsets
    size_t place_count;
    const char *notes; // what is left out, a line each; empty where nothing is
} judged_source;

typedef struct {
    place at;
    const char *message;
} refusal;

// Writes the kernels of a tree in Clsim's language. False where there is something without a rule: then `wrong` says
// what and where. Where memory is refused it goes on behind `a->failed`.
bool translate(arena *a, const tree *tree, judged_source *to, refusal *wrong);
// Writes one kernel of a tree that is translated once more, over the same tables, for arguments of which a set for each
// is known: accesses in it are held back, which makes them the fault bounds at HELD_ELEMENT.
bool translate_held(arena *a, const tree *tree, const node *kernel, const unsigned char *held, judged_source *to,
                    refusal *wrong);
#endif
