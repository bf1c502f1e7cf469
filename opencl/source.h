// A client's source, made ready for the device: in Clsim's language, with its kernels and where each byte comes from.
#ifndef CLSIM_SOURCE_H
#define CLSIM_SOURCE_H
#include "front/translate.h"
#include "session.h"

enum { MAX_LINES = 65536 }; // of a program in a script

typedef struct {
    const char *name;
    const type *type;
    const char *type_name; // as clGetKernelArgInfo tells it
} parameter;

typedef struct {
    const char *name, *judged_name; // the client's, and that in the judged text
    parameter *parameters;          // those of the client
    unsigned count;
    judged_parameter *judged; // those of the judged text
    unsigned judged_count;
    shown_name *names;
    unsigned name_count;
    local_object *locals;
    unsigned local_count;
    size_t begin, length; // the program that it is sent in: a part of the judged text
    unsigned lines;
    size_t group[3];               // reqd_work_group_size, or zeros
    const char *attributes;        // those of its function, with a space between each two
    const node *function;          // NULL where it is judged as it is
    const unsigned char *accesses; // of each argument: which accesses of its buffer are written; NULL where unknown
    const printed_call *printed;   // its calls of printf, by their numbers from 1 on
    unsigned printed_count;
} kernel_form;

typedef struct {
    arena arena;
    char *text;              // as it is judged
    const named_text *texts; // the client's: sources and their headers
    unsigned text_count;
    size_t length;
    unsigned lines;
    bool is_own; // it is in Clsim's language, and judged byte for byte, all of it as one program
    judged_place *places;
    size_t place_count;
    kernel_form *kernels;
    unsigned kernel_count;
    constant_table *tables; // constant memory that the source fills itself
    unsigned table_count;
    const char *log;         // why it can't be built, or what was left out
    const tree *tree;        // NULL where it is judged as it is
    unsigned *table_numbers; // as in `judged_source`
    unsigned table_room;
    struct kept_source *kept; // that launches by it are noted (widening.c); NULL for none
} prepared;

typedef enum { PREPARED, NOT_PREPARED, NO_MEMORY } preparation;

// Makes a source ready by the options of a build. The device says whether it is a program in Clsim's language. The text
// and the log live until it is freed.
preparation prepare_source(prepared *p, const char *source, const char *options, session *device);
// Makes several sources ready as one program (OpenCL 1.2, 5.6.3). Those that aren't compiled are then.
preparation prepare_linked(prepared *p, client_source *sources, unsigned count, session *device);
// Compiles a source, unless it is in Clsim's language: such a one stays as it is. What it becomes lives until `p` is
// freed, which gets the log.
preparation prepare_compiled(prepared *p, client_source *source, session *device);
// Makes a kernel ready once more, in which accesses by its arguments, a set for each, are the fault bounds at
// HELD_ELEMENT. What it comes to lives as long as `p`, which has no more tables then. NOT_PREPARED where it can't be.
preparation prepare_held(prepared *p, const kernel_form *k, const unsigned char *held, prepared *to);
void free_prepared(prepared *p);
// The log of a build that the device refused, from its reply to the program that begins at an offset of the judged
// text. NULL where memory is refused.
const char *build_log(prepared *p, size_t begin, const char *reply);
// Where a byte of the program of a kernel comes from, as FILE:LINE:COLUMN; false where that isn't known, or there is no
// such byte.
bool place_of(const prepared *p, const kernel_form *k, size_t offset, char *room, size_t n);
// The same as a place.
bool site_of(const prepared *p, const kernel_form *k, size_t offset, place *at);
// The client's line at a place, NULL where it isn't found. It lives as long as `a`.
const char *line_of(const prepared *p, arena *a, const place *at);
// The client's text that has a name; NULL for a file.
const char *text_of(const prepared *p, const char *name);
// The client's line there with its row and column; false too where it has no room.
bool line_at(const prepared *p, const kernel_form *k, size_t offset, unsigned *row, unsigned *column, char *room,
             size_t n);
// The calls of the source round a byte, which are judged in their places; NULL for none.
const call_site *calls_round(const prepared *p, size_t offset);
void put_place(char *room, size_t n, const place *at);
// Whether what stands at a byte of that text is a part of the turn before in the client's source, of the loop that
// begins at another byte.
bool is_of_turn_before(const prepared *p, size_t offset, size_t loop);
// What a name of the judged text stands for in the client's source; NULL where it holds a part of an expression, and
// the name itself where nothing is known of it. The length is that of the name.
const char *shown_as(const kernel_form *k, const char *name, size_t length);
// An object's part at a byte as the source names it behind the object's name: `[3].x`.
void put_part(char *room, size_t n, const type *type, uint64_t offset);
// The number that begins at a byte of an object of a type; NULL for none.
const type *number_at(const type *type, uint64_t offset);
#endif
