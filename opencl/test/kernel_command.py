"""Tests of clsim-kernel: what it writes, its status, and the files that it leaves, worked out by hand.

`tests(bench, is_with_clang)` gives those of opencl/test/run, each with its name and the call that fails or doesn't."""
import os
import shlex
import struct

ADD = """\
__kernel void add(__global const int *a, __global int *b, int n) {
    int i = get_global_id(0);
    if (i < n)
        b[i] = a[i] + 1;
}
"""
SHIFT = """\
__kernel void shift(__global int *data) {
\tint i = get_global_id(0);
\tdata[i] = data[(i + 1) % get_global_size(0)];
}
"""
NOTHING = "__kernel void f(__global int *a) {\n}\n"
TILE = """\
__kernel void tile(__global int *a, __local int *t) {
    t[get_local_id(0)] = a[get_global_id(0)];
    barrier(CLK_LOCAL_MEM_FENCE);
    a[get_global_id(0)] = t[get_local_size(0) - 1 - get_local_id(0)];
}
"""
FLAG = "__kernel void flag(__global int *a) {\n    a[0] = 1;\n}\n"
LOOP = "__kernel void loop(__global int *a) {\n    for (int i = 0; i < 100; i++)\n        a[0] = i;\n}\n"
VALUES = """\
__kernel void values(char c, uchar uc, short s, ushort us, int i, uint ui, long l, ulong ul, __global long *to) {
    to[0] = c;
    to[1] = uc;
    to[2] = s;
    to[3] = us;
    to[4] = i;
    to[5] = ui;
    to[6] = l;
    to[7] = (long)ul;
}
"""
# what only clang reads
MANY = """\
#include "help.h"
typedef struct { int a; char b; } pair;
typedef float real;
enum colour { RED, BLUE };
__kernel void many(__global const int4 *restrict v, int n, __local int *t, const float f, int3 w, const pair s,
                   __global volatile pair *q, __constant uchar *c, enum colour e, real r, __global half *h, uint) {
    TOUCH(t);
}
__kernel __attribute__((reqd_work_group_size(4, 1, 1))) void sum(__global int *a, __global int *out) {
    __local int part[4];
    part[get_local_id(0)] = a[get_global_id(0)];
    barrier(CLK_LOCAL_MEM_FENCE);
    if (get_local_id(0) == 0) out[get_group_id(0)] = part[0] + part[1] + part[2] + part[3];
    if (get_local_id(0) == 0) printf("%d\\n", out[get_group_id(0)]);
}
"""
MANY_LISTED = """\
kernel many
  0   __global const int4 *restrict v  --arg v=int4[COUNT]
  1   int n                            --arg n=NUMBER
  2   __local int *t                   --arg t=local:BYTES
  3   float f                          --arg f=NUMBER
  4   int3 w                           --arg w=NUMBER,NUMBER,NUMBER
  5   pair s                           --arg s=uchar:BYTE,BYTE..
  6   __global volatile pair *q        --arg q=uchar[BYTES]
  7   __constant uchar *c              --arg c=uchar[COUNT]
  8   uint e                           --arg e=NUMBER
  9   float r                          --arg r=NUMBER
  10  __global half *h                 --arg h=half[COUNT]
  11  uint 11                          --arg 11=NUMBER
"""
SUM_LISTED = """\
kernel sum
  reqd_work_group_size(4, 1, 1)
  16 bytes of local memory of its own
  0  __global int *a    --arg a=int[COUNT]
  1  __global int *out  --arg out=int[COUNT]
"""
VECTORS = """\
__kernel void vectors(int3 a, uchar4 b, float2 f, __global int4 *to, __global float *floats) {
    to[0] = (int4)(a, 7);
    to[1] = convert_int4(b);
    floats[0] = f.x;
    floats[1] = f.y;
}
"""
HALVES = """\
__kernel void halves(__global half *h, __global float *f, float by) {
    int i = get_global_id(0);
    f[i] = vload_half(i, h) * by;
    vstore_half(f[i], i, h);
}
"""
STRUCTS = """\
typedef struct { short x, y; int z; } box;
__kernel void structs(box s, __global int *to) {
    to[0] = s.x;
    to[1] = s.y;
    to[2] = s.z;
}
"""
HEADED = '#include "part.h"\n__kernel void headed(__global int *a) {\n    store(a, N);\n}\n'
PART = "void store(__global int *a, int n) {\n    a[n] = 1;\n}\n"
REFUSED = "__kernel void wrong(__global float *a) {\n    a[0] = *(__global float *)8L;\n}\n"
PRINTS = """\
__kernel void prints(__global const float *a, __global const double *d) {
    int i = get_global_id(0);
    float4 v = (float4)(a[i], 1, -0.1f, 1e10f);
    printf("%d: %f %e %G|%5.1f|%-6s|%c%%\\n", i, a[i], a[i], d[i], a[i], i & 1 ? "odd" : "even", 'A' + i);
    barrier(CLK_LOCAL_MEM_FENCE);
    int none = printf("%v4hlf %5v2hhd|%#x %hhd %lu %a\\n", v, (char2)(i, -1), i + 16, 300, ~0ul, a[i]);
    if (none) printf("never");
}
__kernel void much(__global int *a) {
    for (int i = 0; i < 400; i++)
        if (printf("%d\\n", i) < 0) {
            a[get_global_id(0)] = i;
            return;
        }
}
__kernel void left(__global int *a, __constant char *text) {
    printf(text, a[0]);
    printf("%d %s", a[0]);
    printf("%p", a);
    printf("%f", a[0]);
}
__kernel void races(__global float *a) {
    printf("never");
    a[0] = get_global_id(0) * 0.1f;
}
"""
SIMULATION = """\
add.cl   # the source
add

8 1 1    # global
4 1 1

<size=32 range=3:2:17>
<size=32 fill=ff hex dump name=left>
<size=4>6
"""
FILES = {"add.cl": ADD, "shift.cl": SHIFT, "nothing.cl": NOTHING, "tile.cl": TILE, "flag.cl": FLAG, "loop.cl": LOOP,
         "values.cl": VALUES, "many.cl": MANY, "help.h": "#define TOUCH(p) (p)[0] = 1\n", "vectors.cl": VECTORS,
         "structs.cl": STRUCTS, "halves.cl": HALVES, "headed.cl": HEADED, "part.h": PART, "refused.cl": REFUSED,
         "empty.cl": "",
         "no_kernel.cl": "void f() {\n}\n", "add.sim": SIMULATION, "a.bin": "abcdefgh", "odd.bin": "abc",
         "prints.cl": PRINTS,
         "zero.cl": "__kernel void f(__global int *a) {\n\0}\n"}

SHIFT_FAULT = """\
fault 1 race: work-item 0 loads, and work-item 1 stores, the same bytes, in kernel shift
  item 0: load at shift.cl:3:12
        3 | \tdata[i] = data[(i + 1) % get_global_size(0)];
          | \t          ^
    data[1] is 1
  item 1: store at shift.cl:3:2
        3 | \tdata[i] = data[(i + 1) % get_global_size(0)];
          | \t^
    data[1] = 2
  kernel shift, global size 4, local size 4
  buffer b3 has 16 bytes and is argument 0, data: data[1]
  item 0 is global id (0), group (0), local id (0)
  item 1 is global id (1), group (0), local id (1)
  why: both work-items are of group 0, and no barrier of it stands between the two accesses
  why: one of the two stores: what the other one finds depends on which comes first
  reply: fault 1 race item 0 load item 1 store buffer b3 byte 4 schedule 0*2 1*2
"""

# the same where the buffer is of zeros
ZEROS_FAULT = SHIFT_FAULT.replace("data[1] is 1", "data[1] is 0").replace("data[1] = 2", "data[1] = 0")


def want(condition, text):
    if not condition:
        raise ValueError(text)


class Command:
    """The command in a folder with the files."""

    def __init__(self, bench, name):
        self.bench, self.folder = bench, bench.path(f"command_{name.replace(' ', '_')}")
        os.makedirs(self.folder)
        for file, content in FILES.items():
            self.write(file, content)

    def path(self, name):
        return os.path.join(self.folder, name)

    def write(self, name, content):
        with open(self.path(name), "w", encoding="ascii") as file:
            file.write(content)

    def read(self, name):
        with open(self.path(name), "rb") as file:
            return file.read()

    def run(self, words, status=0, program="clsim-kernel", **settings):
        """What it writes on standard output, and behind that what it writes on standard error."""
        return self.bench.run(["env", "-C", self.folder, self.bench.path(program), *shlex.split(words)], status,
                              **settings)

    def writes(self, words, wanted, status=0, **settings):
        told = self.run(words, status, **settings)
        want(told == wanted, f"{words}\nwritten:\n{told}wanted:\n{wanted}")


# ---- forms of arguments -------------------------------------------------------------------------

# what stands behind `a=`, and what the buffer holds then, as --dump shows it
BUFFERS = [
    ("int[3]", "a[0]: 0 0 0"), ("int[3]:zero", "a[0]: 0 0 0"), ("[3]", "a[0]: 0 0 0"),
    ("int:5,-6,0x7f", "a[0]: 5 -6 127"), ("int[2]:1,+2", "a[0]: 1 2"), ("[2]:4,5", "a[0]: 4 5"),
    ("int[10]:range", "a[0]: 0 1 2 3 4 5 6 7\na[8]: 8 9"), ("short[3]:range=-1", "a[0]: -1 0 1"),
    ("uint[3]:range=5,-2", "a[0]: 5 3 1"), ("ulong[2]:range=18446744073709551614", "a[0]: 18446744073709551614 "
                                                                                    "18446744073709551615"),
    ("ulong[2]:range=1,9223372036854775808", "a[0]: 1 9223372036854775809"),
    ("long[2]:range=-9223372036854775808,5", "a[0]: -9223372036854775808 -9223372036854775803"),
    ("char[4]:fill=-128", "a[0]: -128 -128 -128 -128"), ("uchar[4]:fill=255", "a[0]: 255 255 255 255"),
    ("short:-32768,32767", "a[0]: -32768 32767"), ("ushort[2]:fill=0xFFFF", "a[0]: 65535 65535"),
    ("int:-2147483648,2147483647", "a[0]: -2147483648 2147483647"),
    ("float:0.1,-2.5e3,inf,16777217", "a[0]: 0.100000001 -2500 inf 16777216"),
    ("double:0.1,1e300", "a[0]: 0.10000000000000001 1.0000000000000001e+300"),
    ("float[3]:range=0.5,0.25", "a[0]: 0.5 0.75 1"),
    ("float:1.5f,-2.F,.5f,1e2f,0.1f", "a[0]: 1.5 -2 0.5 100 0.100000001"),
    ("float:0x1.8p1,-0X.8P0F,0x1p-149f,0x1f", "a[0]: 3 -0.5 1.40129846e-45 31"),
    ("double:0x1.8p1,0x1p-1074,0.1f,1e-400", "a[0]: 3 4.9406564584124654e-324 0.10000000149011612 0"),
    # (half-way between two numbers, and a little above it)
    ("float:1.000000059604644775390625,1.00000005960464477539062500000001", "a[0]: 1 1.00000012"),
    ("half:1.00048828125,1.00048828125000000000000000000001", "a[0]: 1 1.001"),
    ("half:0.1,-65504,65519.99,0x1p-24,3e-8,2e-8,-inf,nan",
     "a[0]: 0.099976 -65504 65504 5.9605e-08 5.9605e-08 0 -inf nan"),
    ("half[3]:range=0.5,0.25", "a[0]: 0.5 0.75 1"), ("half2[2]:fill=-2.5f", "a[0]: (-2.5 -2.5) (-2.5 -2.5)"),
    ("ushort[3]:fill=0x3c00", "a[0]: 15360 15360 15360"),
    ("int2[3]:range", "a[0]: (0 1) (2 3) (4 5)"), ("int3[2]:fill=9", "a[0]: (9 9 9) (9 9 9)"),
    ("uchar16:1,2,3,4,5,6,7,8,9,10,11,12,13,14,15,16", "a[0]: (1 2 3 4 5 6 7 8 9 10 11 12 13 14 15 16)"),
    ("int4[5]:range", "a[0]: (0 1 2 3) (4 5 6 7)\na[2]: (8 9 10 11) (12 13 14 15)\na[4]: (16 17 18 19)"),
    ("uchar[8]:file=a.bin", "a[0]: 97 98 99 100 101 102 103 104"), ("int:file=a.bin", "a[0]: 1684234849 1751606885"),
    ("ushort[]:file=a.bin", "a[0]: 25185 25699 26213 26727"), ("uchar[3]:file=odd.bin", "a[0]: 97 98 99"),
    ("uchar4:file=a.bin", "a[0]: (97 98 99 100) (101 102 103 104)"),
]


def buffers(bench):
    """Each form of a buffer: its bytes, by its type."""
    command = Command(bench, "buffers")
    for form, left in BUFFERS:
        command.writes(f"nothing.cl f --global 1 --arg a={form} --dump a", f"clean\n{left}\n")
    command.writes("nothing.cl f --global=1 --arg=0=int[2]:range --dump=0", "clean\n0[0]: 0 1\n")


def random_numbers(seed, count):
    """splitmix64, as its authors have it."""
    state, numbers = seed, []
    for _ in range(count):
        state = (state + 0x9e3779b97f4a7c15) % 2**64
        z = state
        z = (z ^ z >> 30) * 0xbf58476d1ce4e5b9 % 2**64
        z = (z ^ z >> 27) * 0x94d049bb133111eb % 2**64
        numbers.append(z ^ z >> 31)
    return numbers


def by_chance(bench):
    """Numbers by chance: the same for one seed, another one for each argument without a seed."""
    command = Command(bench, "by chance")

    def of(form, name="a", words="nothing.cl f --arg"):
        command.run(f"{words} a={form} --global 1 --dump {name}={name}.out")
        return command.read(f"{name}.out")

    for seed in [0, 7, 2**64 - 1]:
        numbers = random_numbers(seed, 50)
        want(of(f"ulong[50]:random={seed}") == struct.pack("<50Q", *numbers), f"ulong by {seed}")
        want(of(f"short[50]:random={seed}") == struct.pack("<50H", *(n % 2**16 for n in numbers)), f"short by {seed}")
        want(of(f"int[50]:random={seed},-3,5") == struct.pack("<50i", *(n % 9 - 3 for n in numbers)), f"int by {seed}")
        want(of(f"double[50]:random={seed}") == struct.pack("<50d", *((n >> 11) * 2.0**-53 for n in numbers)), "double")
        floats = struct.unpack("<50f", of(f"float[50]:random={seed},-1,1"))
        want(all(-1 <= it <= 1 for it in floats) and len(set(floats)) > 40, f"float by {seed}: {floats}")
    want(of("ulong[9]:random") == struct.pack("<9Q", *random_numbers(0, 9)), "without a seed")
    want(of("long[3]:random=1,-9223372036854775808,9223372036854775807")
         == struct.pack("<3q", *(n - 2**63 for n in random_numbers(1, 3))), "of the whole range")
    words = "add.cl add --arg n=0 --arg b=ulong[9]:random --arg"
    want(of("ulong[9]:random", "b", words) == struct.pack("<9Q", *random_numbers(1, 9)), "of the second argument")


def values(bench):
    """Values of each integer type, at their bounds."""
    command = Command(bench, "values")
    words = "values.cl values --global 1 --arg to=long[8] --dump to"
    names = ["c", "uc", "s", "us", "i", "ui", "l", "ul"]
    for row in [[-128, 0, -32768, 0, -2**31, 0, -2**63, 0],
                [127, 255, 32767, 65535, 2**31 - 1, 2**32 - 1, 2**63 - 1, 2**63 - 1]]:
        given = " ".join(f"--arg {name}={value}" for name, value in zip(names, row))
        command.writes(f"{words} {given}", f"clean\nto[0]: {' '.join(map(str, row))}\n")
    numbered = " ".join(f"--arg {n}={n + 1}" for n in range(8))
    command.writes(f"{words} {numbered}", "clean\nto[0]: 1 2 3 4 5 6 7 8\n")
    for name, value, type_name, bounds in [("c", 128, "char", "-128 to 127"), ("uc", -1, "uchar", "0 to 255"),
                                           ("ul", 2**64, "ulong", "0 to 18446744073709551615"),
                                           ("l", -2**63 - 1, "long", "-9223372036854775808 to 9223372036854775807")]:
        rest = " ".join(f"--arg {other}=1" for other in names if other != name)
        command.writes(f"{words} {rest} --arg {name}={value}",
                       f"clsim-kernel: --arg {name}={value}: {value} doesn't fit {type_name} ({bounds})\n", 2)


def vectors(bench):
    """Vectors, floats and structs by value."""
    command = Command(bench, "vectors")
    words = "vectors.cl vectors --global 1 --arg to=int4[2] --arg floats=float[2] --dump to --dump floats"
    command.writes(f"{words} --arg a=1,-2,3 --arg b=250,251,252,253 --arg f=0.5,-1e9",
                   "clean\nto[0]: (1 -2 3 7) (250 251 252 253)\nfloats[0]: 0.5 -1e+09\n")
    command.writes(f"{words} --arg a=int3:4,5,6 --arg b=uint:4294967295 --arg f=float:1,2",
                   "clean\nto[0]: (4 5 6 7) (255 255 255 255)\nfloats[0]: 1 2\n")
    command.writes(f"{words} --arg a=1,2 --arg b=1,2,3,4 --arg f=1,2",
                   "clsim-kernel: --arg a=1,2: 2 numbers are no whole elements of int3\n", 2)
    command.writes(f"{words} --arg a=1,-2,3 --arg b=1,2,3,4 --arg f=0x1.8p0,-2.5f",
                   "clean\nto[0]: (1 -2 3 7) (1 2 3 4)\nfloats[0]: 1.5 -2.5\n")
    words = "structs.cl structs --global 1 --arg to=int[3] --dump to"
    command.writes(f"{words} --arg s=short:-5,6,7,0", "clean\nto[0]: -5 6 7\n")
    command.writes(f"{words} --arg s=uchar:file=a.bin", "clean\nto[0]: 25185 25699 1751606885\n")
    told = command.run(f"{words} --arg s=short:1", 2)
    want(told.endswith("clsim-kernel: --arg s=short:1: 2 bytes aren't the size of box s\n"), told)
    command.writes(f"{words} --arg s=1,2,3", "clsim-kernel: --arg s=1,2,3: of which type are its numbers? "
                                             "NAME=TYPE[COUNT], as uchar[16]\n", 2)


def halves(bench):
    """Buffers of half, as numbers and by their bits, and a number of them in a fault."""
    command = Command(bench, "halves")
    words = "halves.cl halves --global 4 --arg f=float[4] --dump h --dump f"
    left = "clean\nh[0]: 3 0.1499 -inf 1.1921e-07\nf[0]: 3 0.149963379 -98256 8.94069672e-08\n"
    command.writes(f"{words} --arg by=1.5f --arg h=half:2,0.1,-65504,0x1p-24", left)
    command.writes(f"{words} --arg by=0x1.8p0 --arg h=[4]:2,0.1,-65504,0x1p-24", left)
    bits = left.replace("3 0.1499 -inf 1.1921e-07", "16896 12492 64512 2")
    command.writes(f"{words} --arg by=1.5 --arg h=ushort:0x4000,0x2e66,0xfbff,1", bits)
    told = command.run("halves.cl halves --global 2 --arg f=float[1] --arg h=half:1,0.1 --arg by=1", 1)
    want("fault 4 bounds" in told, told)
    command.write("race.cl", "__kernel void f(__global half *h) {\n    vstore_half(get_global_id(0) * 0.1f, 0, h);\n}")
    told = command.run("race.cl f --global 2 --arg h=half[1]", 1)
    want("\n    h[0] = 0.0h\n" in told and "\n    h[0] = 0.1h\n" in told, told)


def local_memory(bench):
    """Local memory in bytes and in elements: the last element is there, and the one behind isn't."""
    command = Command(bench, "local memory")
    words = "tile.cl tile --global 8 --local 4 --arg a=int[8]:range --dump a"
    for form in ["16", "0x10", "int[4]", "uchar[16]", "int4[1]"]:
        command.writes(f"{words} --arg t=local:{form}", "clean\na[0]: 3 2 1 0 7 6 5 4\n")
    told = command.run(f"{words} --arg t=local:12", 1)
    want("\n  reply: fault 4 bounds item 3 store local 0 t element 3 schedule 0*2 1*2 2*2 3*1\n" in told
         and told.startswith("fault 4 bounds: work-item 3 stores outside of an object, in kernel tile\n")
         and "\n  t of group 0: t[3], of 3 elements\n" in told and told.endswith("\na[0]: 0 1 2 3 4 5 6 7\n")
         and "\n  item 3: store at tile.cl:2:5\n        2 |     t[get_local_id(0)] = a[get_global_id(0)];\n"
             "          |     ^\n" in told, told)


# ---- the verdict --------------------------------------------------------------------------------

def told_at_its_line(bench):
    """A race at its lines, with what the buffer held."""
    command = Command(bench, "told at its line")
    command.writes("shift.cl shift --global 4 --arg data=int[4]:range --dump data", SHIFT_FAULT + "data[0]: 0 1 2 3\n", 1)
    beside = command.folder.replace(" ", "_")
    told = command.run(f"{beside}/shift.cl shift --global 4 --arg data=int[4]", 1)
    want(told == ZEROS_FAULT.replace("at shift.cl", f"at {beside}/shift.cl"), told)
    # (the settings of other host programs aren't for it)
    command.writes("shift.cl shift --global 4 --arg data=int[4]", ZEROS_FAULT, 1, CLSIM_ON_FAULT="abort",
                   CLSIM_STATUS="7", CLSIM_LOG=command.path("log"), CLSIM_SCRIPT=command.path("script"))
    want(not os.path.exists(command.path("log")) and not os.path.exists(command.path("script")), "a file was written")


def told_in_headers(bench):
    """A fault in a header beside the source, by a macro of the command line, with the call."""
    command = Command(bench, "told in headers")
    told = command.run("headed.cl headed --global 1 --arg a=int[4] -D N=4", 1)
    lines = ["  item 0: store at ./part.h:2:5\n        2 |     a[n] = 1;\n          |     ^\n"
             "    called at headed.cl:3:5\n", "\n  buffer b3 has 16 bytes and is argument 0, a: a[4], of 4 elements\n"]
    want(all(line in told for line in lines), told)
    command.writes("headed.cl headed --global 1 --arg a=int[4] -DN=3 --dump a", "clean\na[0]: 0 0 0 1\n")
    os.makedirs(command.path("a folder"))
    os.rename(command.path("headed.cl"), command.path("a folder/headed.cl"))
    command.writes("'a folder/headed.cl' headed --global 1 --arg a=int[4] -DN=3 -I . --dump a", "clean\na[0]: 0 0 0 1\n")
    os.rename(command.path("part.h"), command.path("a folder/part.h"))
    command.writes("'a folder/headed.cl' headed --global 1 --arg a=int[4] -D N=2 --dump a", "clean\na[0]: 0 0 1 0\n")


def refused_sources(bench):
    """A source that doesn't build is told at its lines."""
    command = Command(bench, "refused sources")
    command.writes("refused.cl wrong --global 1", "refused.cl:2:13: error: Clsim has no numbers as addresses\n"
                   "    a[0] = *(__global float *)8L;\n            ^\nclsim-kernel: refused.cl doesn't build\n", 2)
    command.write("wrong.cl", "__kernel void f(__global int *a) {\n    a[0] = b;\n}\n")
    told = command.run("wrong.cl f --global 1", 2)
    want("wrong.cl:2:12: error: use of undeclared identifier 'b'\n" in told and "source:" not in told, told)
    command.writes("nothing.cl f -frob", "options: error: OpenCL 1.2 has no option -frob\n"
                                         "clsim-kernel: nothing.cl doesn't build\n", 2)


def settings(bench):
    """Options of the device."""
    command = Command(bench, "settings")
    words = "flag.cl flag --global 2 --local 1 --arg a=int[1] --dump a"
    told = command.run(words, 1)
    want("\n  reply: fault 1 race item 0 store item 1 store buffer b3 byte 0 " in told and "a[0]: 0\n" in told, told)
    command.writes(f"{words} --uniform", "clean\na[0]: 1\n")
    words = "loop.cl loop --global 1 --arg a=int[1] --dump a"
    want(command.run(f"{words} --budget 199", 1).startswith("fault 8 budget: work-item 0 "), "it has enough")
    command.writes(f"{words} --budget 200 --workers 2", "clean\na[0]: 99\n")
    words = "nothing.cl f --global 1024 --local 512 --arg a=int[1]"
    command.writes(words, "clean\n")
    command.writes(f"{words} --limits profile",
                   "clsim-kernel: kernel f: the local size is too large (limits: profile, groups of at most 256)\n"
                   "clsim-kernel: a group has more work-items than the device allows (error -55)\n", 2)
    command.writes("nothing.cl f --global 1 --arg a=int[262145] --limits profile",
                   "clsim-kernel: --arg a=int[262145]: 1048580 bytes are more than a buffer may have: 1048576\n", 2)
    words = "add.cl add --global 2,3 --offset 1,0 --arg a=int[8]:range --arg b=int[8] --arg n=8 --dump b --uniform"
    command.writes(words, "clean\nb[0]: 0 2 3 0 0 0 0 0\n")
    command.writes("nothing.cl f --global 1 --arg a=int[1]", "clsim-kernel: cannot start no-such-program: No such file or "
                   "directory\nclsim-kernel: there is no device: `clsim` has to be beside this command or on the path, or "
                   "CLSIM_SERVE names it\n", 2, CLSIM_SERVE="no-such-program serve")


def beside(bench):
    """Without a setting the device is the `clsim` beside the command, whatever the folder's name."""
    command = Command(bench, "beside")
    for folder in ["bin", "a bin"]:
        os.makedirs(command.path(folder))
        for name, path in [("clsim", bench.clsim), ("clsim-kernel", bench.path("clsim-kernel"))]:
            # (by a process of its own: a file that this one writes is open in what other threads start meanwhile, and
            # can't be executed)
            bench.run(["cp", path, command.path(f"{folder}/{name}")])
        told = bench.run(["env", "-C", command.folder, "-u", "CLSIM_SERVE", command.path(f"{folder}/clsim-kernel"),
                          "nothing.cl", "f", "--global", "1", "--arg", "a=int[1]"])
        want(told == "clean\n", told)


# ---- printf -------------------------------------------------------------------------------------

PRINTED = """\
0: 0.500000 5.000000e-01 0.1|  0.5|even  |A%
1: -1.250000 -1.250000e+00 1E+100| -1.2|odd   |B%
0.500000,1.000000,-0.100000,10000000000.000000     0,   -1|0x10 44 18446744073709551615 0x1p-1
-1.250000,1.000000,-0.100000,10000000000.000000     1,   -1|0x11 44 18446744073709551615 -0x1.4p+0
2: inf inf -0|  inf|even  |C%
3: 0.100000 1.000000e-01 3|  0.1|odd   |D%
inf,1.000000,-0.100000,10000000000.000000     2,   -1|0x12 44 18446744073709551615 inf
0.100000,1.000000,-0.100000,10000000000.000000     3,   -1|0x13 44 18446744073709551615 0x1.99999ap-4
clean
"""
NOTED = "clsim-kernel: note: a printf writes nothing whose format isn't known, or isn't that of its arguments\n"


def printf(bench):
    """What printf writes, in which order; what has no room; what writes nothing."""
    command = Command(bench, "printf")
    words = "--global 4 --local 2 --arg a=float:0.5,-1.25,inf,0.1 --arg d=double:0.1,1e100,-0.0,3"
    command.writes(f"prints.cl prints {words}", PRINTED + NOTED)
    some = "".join(f"{i}\n" for i in range(341)) * 2
    command.writes("prints.cl much --global 2 --arg a=int[2] --dump a",
                   f"{some}clean\na[0]: 341 341\n{NOTED}clsim-kernel: kernel much: 2 work-items had no room for all "
                   "that printf wrote: each has 4092 bytes in a launch of 2 work-items\n")
    command.writes("prints.cl left --global 2 --arg a=int[1] --arg text=char[4]", f"clean\n{NOTED}")
    told = command.run("prints.cl races --global 2 --arg a=float[1]", 1)
    want("never" not in told and "\n    a[0] = 0.1f\n" in told, told)


# ---- listing, dumps, scripts --------------------------------------------------------------------

def listing(bench):
    """Kernels with their parameters, and what is missing."""
    command = Command(bench, "listing")
    command.writes("shift.cl", "kernel shift\n  0  __global int *data  --arg data=int[COUNT]\n"
                               "clsim-kernel: missing: KERNEL, --global SIZES\n", 2)
    listed = "kernel add\n  0  __global const int *a  --arg a=int[COUNT]\n  1  __global int *b        --arg b=int[COUNT]\n" \
             "  2  int n                  --arg n=NUMBER\n"
    command.writes("add.cl add --arg b=int[1]",
                   f"{listed}clsim-kernel: missing: --global SIZES, --arg a=int[COUNT], --arg n=NUMBER\n", 2)
    command.writes("add.cl sub --global 1", f"{listed}clsim-kernel: add.cl has no kernel sub\n", 2)
    command.writes("add.cl add --global 1 --arg c=1",
                   f"{listed}clsim-kernel: --arg c=1: the kernel add has no parameter c\n", 2)
    command.writes("no_kernel.cl", "clsim-kernel: no_kernel.cl has no kernel\n", 2)
    command.writes("empty.cl", "clsim-kernel: empty.cl is empty\n", 2)


def listing_by_clang(bench):
    command = Command(bench, "listing by clang")
    command.writes("many.cl", f"{MANY_LISTED}{SUM_LISTED}clsim-kernel: missing: KERNEL, --global SIZES\n", 2)
    words = "many.cl sum --global 8 --arg a=int[8]:range --arg out=int[2] --dump out"
    command.writes(words, "6\n22\nclean\nout[0]: 6 22\n")
    command.writes(f"{words} --local 4", "6\n22\nclean\nout[0]: 6 22\n")
    command.writes(f"{words} --local 8",
                   "clsim-kernel: the kernel sum asks for groups of 4,1,1 (reqd_work_group_size)\n", 2)


def dumps(bench):
    """Buffers into files, some at once, and none on bad input."""
    command = Command(bench, "dumps")
    words = "add.cl add --global 3 --arg a=int:1,2,3 --arg b=int[3] --arg n=2"
    command.writes(f"{words} --dump b=left --dump a --dump b --dump 0", "clean\na[0]: 1 2 3\nb[0]: 2 3 0\na[0]: 1 2 3\n")
    want(command.read("left") == struct.pack("<3i", 2, 3, 0), "other bytes")
    command.writes(f"{words} --dump c", "clsim-kernel: --dump c: the kernel add has no such parameter\n", 2)
    command.writes(f"{words} --dump b=left --dump n",
                   "clsim-kernel: --dump n: only a buffer is left behind a launch, and this is int n\n", 2)
    want(command.read("left") == struct.pack("<3i", 2, 3, 0), "the file is lost")
    for path in ["/dev/full", "no/folder"]:
        told = command.run(f"{words} --dump b={path}", 2)
        want(told.startswith(f"clean\nclsim-kernel: --dump b: cannot write {path}: "), told)


def scripts(bench):
    """The script shows the same to `clsim run`. On bad input the file that was there stays."""
    command = Command(bench, "scripts")
    command.writes("shift.cl shift --global 4 --arg data=int[4]:range --dump data --script out.txt",
                   SHIFT_FAULT + "data[0]: 0 1 2 3\n", 1)
    replies = bench.replies(command.path("out.txt"))
    data = "data " + struct.pack("<4i", 0, 1, 2, 3).hex()
    fault = SHIFT_FAULT.splitlines()[-1].removeprefix("  reply: ")
    want([line for line in replies if line != "ok"] == [fault, data], replies)
    before = command.read("out.txt")
    command.writes("tile.cl tile --global 4 --script out.txt --arg a=int[4] --arg t=5",
                   "clsim-kernel: --arg t=5: __local int *t is in local memory, whose bytes are given: t=local:BYTES\n", 2)
    want(command.read("out.txt") == before and not os.path.exists(command.path("out.txt.new")), "the script is lost")
    command.run("tile.cl tile --global 4 --script out.txt --arg a=int[4] --arg t=local:16")
    want(command.read("out.txt").startswith(b"clsim 2\nprogram p1 5\n__kernel void tile("), "another script")
    want(set(bench.replies(command.path("out.txt"))) == {"ok", "clean"}, "other replies")
    words = "nothing.cl f --global 1 --arg a=int[1] --script"
    told = command.run(f"{words} no/folder", 2)
    want(told == "clsim-kernel: cannot write no/folder: No such file or directory\n", told)
    told = command.run(f"{words} /dev/full", 2)
    want("the script is not whole: No space left on device\n" in told and "/dev/full isn't whole\n" in told, told)
    want(command.run(f"{words} /dev/stdout").startswith("clsim 2\nprogram p1 2\n"), "nothing on standard output")


# ---- files of oclgrind-kernel -------------------------------------------------------------------

# changes of the file, and what is told of it then
BAD_SIMULATIONS = [
    ("add.cl   ", "none.cl", "cannot read none.cl: No such file or directory"),
    ("\nadd\n", "\nsub\n", "add.cl has no kernel sub"),
    ("8 1 1 ", "8 1 ", "add.sim:7: < stands here, and not a local size from 1, of which there are three"),
    ("4 1 1", "4 x 1", "add.sim:5: x stands here, and not a local size from 1, of which there are three"),
    ("8 1 1 ", "8 0 1 ", "add.sim:4: 0 stands here, and not a global size from 1, of which there are three"),
    ("4 1 1", "3 1 1", "the local size 3 doesn't divide the global size 8"),
    ("range=3:2:17", "range=3:2:19", "add.sim:7: argument 0: the range doesn't have 8 numbers, as its size has"),
    ("range=3:2:17", "range=3:2", "add.sim:7: argument 0: range is START:STEP:END"),
    ("range=3:2:17", "", "", ""),
    ("range=3:2:17>", "range=3:2:17> 5", "add.sim:7: argument 0: its content is given twice"),
    ("range=3:2:17>", "> 1 2 3", "add.sim:7: argument 0: 3 numbers, and 32 bytes of int have 8"),
    ("range=3:2:17", "null fill=3", "add.sim:7: argument 0: its content is given twice"),
    ("fill=ff", "fill=fg", "add.sim:8: argument 1: `fg` is no number of the type int"),
    ("fill=ff", "fill=fffffffff", "add.sim:8: argument 1: fffffffff doesn't fit int (-2147483648 to 2147483647)"),
    ("hex", "hexa", "add.sim:8: argument 1: there is no attribute hexa"),
    ("size=32 fill", "fill", "add.sim:8: argument 1: size=BYTES is missing"),
    ("size=32 fill", "size=30 fill", "add.sim:8: argument 1: 30 bytes aren't whole elements of int, 4 bytes each"),
    ("name=left>", "name=left", "add.sim:9: < stands here, and not the argument's >"),
    ("<size=4>6", "<size=4>", "add.sim:9: argument 2: int n is a value: its number stands behind the >"),
    ("<size=4>6", "<size=4>6 7", "add.sim:9: argument 2: 2 numbers, and 4 bytes of int have 1"),
    ("<size=4>6", "<size=8>6", "add.sim:9: argument 2: the parameter has 4 bytes, and 8 are given"),
    ("<size=4>6\n", "", "missing in add.sim: argument int n"),
    ("<size=4>6", "<size=4>6\n<size=4>7", "add.sim:10: argument 3: the kernel add has no parameter 3"),
    ("<size=4>6", "<size=4>6 >", "add.sim:9: > stands here, and not an argument's < or the end"),
]


def simulations(bench):
    """Files of the form of oclgrind-kernel."""
    command = Command(bench, "simulations")
    left = "clean\nleft[0]: 0x00000004 0x00000006 0x00000008 0x0000000a 0x0000000c 0x0000000e 0x000000ff 0x000000ff\n"
    command.writes("add.sim", left)
    beside = bench.run([bench.path("clsim-kernel"), command.path("add.sim")])
    want(beside == left, beside)
    command.writes("add.sim --dump a", left.replace("clean\n", "clean\na[0]: 3 5 7 9 11 13 15 17\n"))
    for change in BAD_SIMULATIONS:
        old, new, *told = change
        command.write("bad.sim", SIMULATION.replace(old, new))
        if len(told) == 1:
            written = command.run("bad.sim", 2)
            wanted = told[0].replace("add.sim", "bad.sim")
            want(written.endswith(f"clsim-kernel: {wanted}\n"), f"{old} by {new}: {written}")
        else:  # (a buffer without a content has zeros)
            want("left[0]: 0x00000001 0x00000001" in command.run("bad.sim"), f"{old} by {new}")
    command.write("tile.sim", "tile.cl tile 8 1 1 4 1 1 <size=32 short range=0:1:15 dump> <size=16>")
    command.writes("tile.sim", "clean\na[0]: 6 7 4 5 2 3 0 1\na[8]: 14 15 12 13 10 11 8 9\n")
    command.write("tile.sim", "tile.cl tile 8 1 1 4 1 1 <size=32 noinit dump> <size=16> 4")
    told = command.run("tile.sim", 2)
    want("__local int *t is in local memory, whose bytes are given: <size=BYTES>" in told, told)
    for words, text in [("add.sim add", "add.sim names its kernel: there is a word too many: add"),
                        ("add.sim --global 4", "add.sim has the sizes and arguments: --global, --local, --offset and "
                                               "--arg aren't for it")]:
        command.writes(words, f"clsim-kernel: {text}\n", 2)


# ---- bad input ----------------------------------------------------------------------------------

# words of a command line, and what is told of them
BAD_WORDS = [
    ("none.cl", "cannot read none.cl: No such file or directory"), (".", "cannot read .: Is a directory"),
    ("add.cl add more", "there is a word too many: more"), ("add.cl ''", "a word of the command line is empty"),
    ("add.cl --frob", "there is no option --frob: clsim-kernel --help lists them"),
    ("add.cl --uniform=1", "there is no option --uniform=1: clsim-kernel --help lists them"),
    ("add.cl --arg", "--arg takes a value"), ("add.cl -D", "-D takes a value"),
    ("add.cl --global 1,", "--global takes one to three sizes with commas, as 64,64, and not 1,"),
    ("add.cl --global 1,1,1,1", "--global takes one to three sizes with commas, as 64,64, and not 1,1,1,1"),
    ("add.cl --global -1", "--global takes one to three sizes with commas, as 64,64, and not -1"),
    ("add.cl --global 0", "--global takes sizes from 1, and not 0"),
    ("add.cl --local 4,0", "--local takes sizes from 1, and not 4,0"),
    ("add.cl --global 4 --global 4", "--global is given twice"),
    ("add.cl --global 4 --local 2,2", "--local has 2 sizes, and --global 1"),
    ("add.cl --global 4,4 --offset 2", "--offset has 1 size, and --global 2"),
    ("add.cl --workers 0", "--workers takes a number from 1 to 16, and not 0"),
    ("add.cl --workers 17", "--workers takes a number from 1 to 16, and not 17"),
    ("add.cl --budget 1000000001", "--budget takes a number from 1 to 1000000000, and not 1000000001"),
    ("add.cl --budget 1000001 --limits profile",
     "--budget by the profile takes a number from 1 to 1000000, and not 1000001"),
    ("add.cl --limits huge", "--limits takes profile or large, and not huge"),
    ("add.cl --dump =x", "--dump =x: this is neither NAME nor NAME=PATH"),
    ("add.cl --dump b=", "--dump b=: this is neither NAME nor NAME=PATH"),
    ("add.cl --arg a", "--arg a: this isn't of the form NAME=VALUE"),
    ("add.cl --arg =5", "--arg =5: this isn't of the form NAME=VALUE"),
]
# what stands behind `a=`, and what is told of it
BAD_BUFFERS = [
    ("", " is neither a number nor a TYPE[COUNT] (clsim-kernel --help has the forms)"),
    ("real[4]", "real[4] is neither a number nor a TYPE[COUNT] (clsim-kernel --help has the forms)"),
    ("int5[4]", "__global int *a is a pointer to a buffer: a=int[COUNT]"),
    ("5", "__global int *a is a pointer to a buffer: a=int[COUNT]"),
    ("local:16", "__global int *a is a pointer to a buffer: a=int[COUNT]"),
    ("int", "how many elements are there? int[COUNT]"), ("int:range", "how many elements are there? int[COUNT]"),
    ("int[]", "how many elements are there? int[COUNT]"), ("int[4", "a ] is missing"),
    ("int[0]", "how many elements there are is a number from 1, and not 0"),
    ("int[-1]", "how many elements there are is a number from 1, and not -1"),
    ("int[4]range", "behind ] stands a :, and not range"),
    ("int[4]:rang", "rang is neither zero, range, fill=NUMBER, random, file=PATH nor numbers with commas"),
    ("int[4]:", " is neither zero, range, fill=NUMBER, random, file=PATH nor numbers with commas"),
    ("int[4]:zero=1", "what stands behind zero is nothing"), ("int[4]:fill", "what stands behind fill is one number: fill=7"),
    ("int[4]:fill=1,2", "what stands behind fill is one number: fill=7"),
    ("int[4]:file", "what stands behind file is a path: file=PATH"),
    ("int[4]:range=1,2,3", "what stands behind range is nothing, =START or =START,STEP"),
    ("int[4]:random=1,2", "what stands behind random is nothing, =SEED or =SEED,LEAST,GREATEST"),
    ("int[4]:random=-1", "-1 doesn't fit ulong (0 to 18446744073709551615)"),
    ("int[4]:random=1,5,4", "the least number is above the greatest"),
    ("int[4]:fill=x", "`x` is no number of the type int"), ("int[4]:fill=", "`` is no number of the type int"),
    ("int[4]:fill=1.5", "`1.5` is no number of the type int"), ("int[4]:fill=0x", "`0x` is no number of the type int"),
    ("int[4]:fill=1.5f", "`1.5f` is no number of the type int"),
    ("int[4]:fill=0x1p3", "`0x1p3` is no number of the type int"),
    ("float[4]:fill=1f", "`1f` is no number of the type float"),
    ("float[4]:fill=1.5ff", "`1.5ff` is no number of the type float"),
    ("float[4]:fill=1.5l", "`1.5l` is no number of the type float"),
    ("float[4]:fill=0x1.8p", "`0x1.8p` is no number of the type float"),
    ("float[4]:fill=inff", "`inff` is no number of the type float"),
    ("double[4]:fill=f", "`f` is no number of the type double"),
    ("float[1]:fill=1e39", "1e39 doesn't fit float (up to 3.4e38)"),
    ("double[1]:fill=1e309", "1e309 doesn't fit double (up to 1.8e308)"),
    ("half[1]:fill=65520", "65520 doesn't fit half (up to 65504)"),
    ("half[3]:range=65000,500", "number 2 of the range doesn't fit half (up to 65504)"),
    ("float[2]:range=2e38,2e38", "number 1 of the range doesn't fit float (up to 3.4e38)"),
    ("int:1,,2", "`` is no number of the type int"), ("uchar:1,256", "256 doesn't fit uchar (0 to 255)"),
    ("uchar[257]:range", "number 256 of the range doesn't fit uchar (0 to 255)"),
    ("char[3]:range=127,-128", "number 2 of the range doesn't fit char (-128 to 127)"),
    ("int[3]:1,2", "2 numbers, and 12 bytes of int have 3"), ("int[1]:1,2", "2 numbers, and 4 bytes of int have 1"),
    ("int2:1,2,3", "3 numbers are no whole elements of int2"),
    ("int:file=none", "cannot read none: No such file or directory"), ("int:file=.", "cannot read .: Is a directory"),
    ("short:file=odd.bin", "odd.bin has 3 bytes, which isn't a number of elements of short, 2 bytes each"),
    ("int:file=empty.cl", "empty.cl has 0 bytes, which isn't a number of elements of int, 4 bytes each"),
    ("uchar[4]:file=odd.bin", "odd.bin has 3 bytes, and 4 are wanted"),
    ("long[134217729]", "1073741832 bytes are more than a buffer may have: 1073741824"),
    ("long[2305843009213693953]:range", "18446744073709551615 bytes are more than a buffer may have: 1073741824"),
]
BAD_LOCALS = [("0", "local memory has one byte at least"), ("", "behind local: stands how many bytes there are, as "
                                                                "local:256, or TYPE[COUNT]"),
              ("1x", "the bytes of local memory are a number"), ("int", "behind local: stands how many bytes there are, as "
                                                                        "local:256, or TYPE[COUNT]"),
              ("1048576", None)]


def bad_words(bench):
    """What is wrong is told with the argument that it is wrong of, in one line, and nothing is run."""
    command = Command(bench, "bad words")
    for words, told in BAD_WORDS:
        command.writes(words, f"clsim-kernel: {told}\n", 2)
    for form, told in BAD_BUFFERS:
        command.writes(f"nothing.cl f --global 1 --arg 'a={form}'", f"clsim-kernel: --arg a={form}: {told}\n", 2)
    for form, told in BAD_LOCALS:
        written = command.run(f"tile.cl tile --global 1 --arg a=int[1] --arg 't=local:{form}'", 2)
        wanted = told or "1048576 bytes are more than the local memory of a group: "
        want(written.startswith(f"clsim-kernel: --arg t=local:{form}: {wanted}"), written)
    command.writes("nothing.cl f --global 1 --arg a=int[1] --arg 0=int[2]",
                   "clsim-kernel: --arg 0=int[2]: this argument was given already: --arg a=int[1]\n", 2)
    told = command.run("nothing.cl f --global 1 --arg a=int:" + ",".join(["1"] * 100) + ",x", 2)
    want(told == "clsim-kernel: --arg a=int:" + ",".join(["1"] * 29)[:54] + "..: `x` is no number of the type int\n", told)
    told = command.run("zero.cl", 2)
    want("a byte 0 stands in the source\n" in told and "zero.cl:" in told, told)
    told = command.run("", 2)
    want(told.startswith("Usage: clsim-kernel FILE.cl [KERNEL] [OPTIONS]\n") and told == command.run("--help"), told)
    written = bench.run(["bash", "-c", f"cd {command.folder}\n{bench.path('clsim-kernel')} nothing.cl f --global 1 "
                                       "--arg a=int[1] >/dev/full"], 2)
    want(written == "clsim-kernel: cannot write: No space left on device\n", written)


# ---- what the page shows ------------------------------------------------------------------------

def as_shown(bench, sessions, compare):
    """The sessions of the page, by its very commands, in one folder."""
    command = Command(bench, "as shown")
    os.symlink(bench.opencl, command.path("opencl"))
    want(len(sessions) >= 3, sessions)
    for line, lines in sessions:
        done = line.replace("clsim-kernel ", f"{bench.path('clsim-kernel')} ").replace("clsim run", f"{bench.clsim} run")
        written = bench.run(["bash", "-c", f"cd {command.folder}\n{done} 2>&1"], None)
        compare(written.splitlines(), lines)


def tests(bench, is_with_clang):
    calls = [buffers, by_chance, values, local_memory, told_at_its_line, settings, beside, listing, dumps, scripts,
             simulations, bad_words]
    if is_with_clang:
        calls += [vectors, halves, told_in_headers, refused_sources, listing_by_clang, printf]
    for call in calls:
        yield f"clsim-kernel: {call.__name__.replace('_', ' ')}", lambda call=call: call(bench)
