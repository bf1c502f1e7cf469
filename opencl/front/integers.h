// The integer types of Clsim's language, and its conversions (C99 6.3.1).
#ifndef CLSIM_FRONT_INTEGERS_H
#define CLSIM_FRONT_INTEGERS_H
#include <stdbool.h>
#include <stdint.h>

typedef enum { CHAR, UCHAR, SHORT, USHORT, INT, UINT, LONG, ULONG, NO_INTEGER } integer_type;
enum { INTEGER_TYPES = 8 };

unsigned width_of(integer_type t); // in bytes
bool is_signed(integer_type t);
const char *name_of(integer_type t);
integer_type integer_of(unsigned width, bool is_signed);
integer_type unsigned_of(integer_type t);
integer_type signed_of(integer_type t);
integer_type promoted(integer_type t);
// What two operands of these types are converted to (6.3.1.8).
integer_type common(integer_type a, integer_type b);
// A value in a type, as 64 bits with the sign of that type.
uint64_t converted(uint64_t value, integer_type to);
// The least and the greatest value of a type, likewise.
uint64_t least(integer_type t);
uint64_t greatest(integer_type t);
#endif
