"""Random structs with bit-fields, and statements on them, in a source of which OpenCL C and C make the same: on the
driver they have to leave the bytes that the C compiler of this machine does, whose layouts are clang's."""
import random

BITS = {"uchar": 8, "ushort": 16, "uint": 32, "ulong": 64}
BYTES, NUMBERS = 96, 40  # of the struct's buffers, and of the numbers that a function leaves
HEAD = """\
#include <stdbool.h>
#include <stdio.h>
#include <string.h>
typedef unsigned char uchar;
typedef unsigned short ushort;
typedef unsigned int uint;
typedef unsigned long ulong;
#define __global
#define __kernel
"""
MAIN = """\
static void show(const void *at, size_t size) {
    printf("data ");
    for (size_t i = 0; i < size; i++) printf("%02x", ((const uchar *)at)[i]);
    printf("\\n");
}
"""


class Case:
    """A struct S_n and a function f_n by a seed: `S_n *p, S_n *q, ulong *out`. Of what q points to the members count."""

    def __init__(self, seed, n):
        self.r, self.n = random.Random(seed), n
        self.members = []  # names and types; of a bit-field its own
        self.struct = self.declare()
        self.bytes = self.r.randbytes(BYTES)

    def chance(self, percent):
        return self.r.randrange(100) < percent

    def member(self, name):
        r = self.r
        kind = r.choice(list(BITS))
        if self.chance(20):
            self.members.append((name, kind))
            return f"{kind} {name};"
        if self.chance(12):
            self.members.append((name, "bool"))
            return f"bool {name} : 1;"
        width = r.randint(1, BITS[kind])
        if self.chance(10):
            return f"{kind} : 0;"
        if self.chance(12):
            return f"{kind} : {width};"
        self.members.append((name, kind))
        return f"{kind} {name} : {width}{' __attribute__((packed))' if self.chance(8) else ''};"

    def declare(self):
        members = " ".join(self.member(f"m{i}") for i in range(self.r.randint(2, 7)))
        self.members.append(("last", "uint"))
        marks = " __attribute__((packed))" if self.chance(25) else ""
        marks += " __attribute__((aligned(16)))" if self.chance(10) else ""
        pack = self.r.choice([1, 2, 4]) if self.chance(15) else 0
        text = f"typedef struct{marks} {{ {members} uint last : 9; }} S_{self.n};\n"
        return f"#pragma pack(push, {pack})\n{text}#pragma pack(pop)\n" if pack else text

    # ---- statements ---------------------------------------------------------------------------

    def place(self):
        return self.r.choice(["s", "s", "(*p)", "(*q)", "t[x]", "t[1 - x]", "t[1]"])

    def value(self):
        r = self.r
        name, _ = r.choice(self.members)
        return r.choice([f"{r.getrandbits(64):#x}ul", f"(ulong){self.place()}.{name} + {r.randint(0, 9)}u",
                         f"(ulong){self.place()}.{name} * {r.getrandbits(40)}ul", "n", "~0ul", "0ul"])

    def statement(self):
        r, place = self.r, self.place()
        name, kind = r.choice(self.members)
        target, value = f"{place}.{name}", self.value()
        given = f"(({value}) & 1) != 0" if kind == "bool" else f"({kind})({value})"
        forms = [f"{target} = {given};", f"{target} = {given};", f"n ^= (ulong)({target} = {given});",
                 f"{self.r.choice(['s', 't[x]', 't[1]', '(*q)'])} = {place};", f"s = same_{self.n}({place});"]
        if kind != "bool":
            forms += [f"{target} {r.choice(['^=', '|=', '&=', '+=', '-='])} {given};", f"n += (ulong){target}++;",
                      f"n = n * 3 + (ulong){r.choice(['++', '--'])}{target};"]
        return r.choice(forms)

    def text(self):
        """The struct and the function."""
        s, n = f"S_{self.n}", self.n
        lines = [f"{s} s = *p, t[2] = {{ s, *p }}; *q = s; uint x = (uint)(out[0] & 1); ulong n = out[1];"]
        lines += [self.statement() for _ in range(self.r.randint(4, 14))]
        at = 0
        for place in ["s", "t[0]", "t[1]", "(*q)"]:
            for name, _ in self.members[:8]:
                lines.append(f"out[{at}] = (ulong){place}.{name};")
                at += 1
        lines.append(f"out[{at}] = n; out[{at + 1}] = sizeof({s});")
        body = "\n    ".join(lines)
        return (f"{self.struct}{s} same_{n}({s} v) {{ v.last ^= 1; return v; }}\n"
                f"__kernel void f_{n}(__global {s} *p, __global {s} *q, __global ulong *out) {{\n    {body}\n}}\n")


def cases(seed, count):
    made = [Case(seed * count + n, n) for n in range(count)]
    return made, "".join(case.text() for case in made)


def host_program(made, source):
    """A C program that writes the bytes that each function leaves."""
    calls = []
    for case in made:
        numbers = ",".join(str(byte) for byte in case.bytes)
        calls.append(f"    {{ _Alignas(16) uchar p[{BYTES}] = {{{numbers}}}, q[{BYTES}] = {{0}}; "
                     f"ulong out[{NUMBERS}] = {{{case.n & 1}, {case.n}}};\n"
                     f"      f_{case.n}((void *)p, (void *)q, out); show(p, sizeof p); show(out, sizeof out); }}\n")
    return f"{HEAD}{source}{MAIN}int main(void) {{\n{''.join(calls)}    return 0;\n}}\n"


def script(made, source):
    """The same as commands of oclrun.c."""
    source = f"#pragma OPENCL EXTENSION __cl_clang_bitfields : enable\n{source}"
    lines = [f"buffer p {BYTES}", f"buffer q {BYTES}", f"buffer out {8 * NUMBERS}",
             f"program s {source.count(chr(10))}", source.rstrip("\n")]
    for case in made:
        numbers = [case.n & 1, case.n, *[0] * (NUMBERS - 2)]
        lines += [f"kernel k{case.n} s f_{case.n}", f"write p 0 {case.bytes.hex()}", f"write q 0 {bytes(BYTES).hex()}",
                  f"write out 0 {b''.join(number.to_bytes(8, 'little') for number in numbers).hex()}",
                  *[f"arg k{case.n} {i} buffer {name}" for i, name in enumerate(['p', 'q', 'out'])],
                  f"launch k{case.n} 1 1", f"read p 0 {BYTES}", f"read out 0 {8 * NUMBERS}"]
    return "\n".join(lines) + "\n"
