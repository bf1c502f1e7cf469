"""Random scripts for the calls of OpenCL."""
import random

# each with the types of its parameters: `g` and `c` a pointer to global or constant memory, `l` to local memory,
# else the type of a value
SOURCES = [
    ("ggi", "__kernel void f(__global int *a, __global int *b, int n) "
            "{ int i = get_global_id(0); if (i < n) b[i] = a[i] + n; }"),
    ("g", "__kernel void f(__global int *a) { a[get_global_id(0)] = a[get_global_id(0) + 1]; }"),
    ("gl", "__kernel void f(__global uint *a, __local uint *t) "
           "{ int l = get_local_id(0); t[l] = a[get_global_id(0)]; barrier(CLK_LOCAL_MEM_FENCE);\n"
           "  a[get_global_id(0)] = t[get_local_size(0) - 1 - l]; }"),
    ("gh", "__kernel void f(__global short *a, short by) { a[get_global_id(0)] *= by; }"),
    ("gC", "__kernel void f(__global char *a, uchar x) "
           "{ a[get_global_id(1) * get_global_size(0) + get_global_id(0)] ^= x; }"),
    ("gcL", "__kernel void f(__global long *a, __constant long *b, ulong x) "
            "{ a[get_global_id(0)] = b[get_global_id(0)] * (long)x; }"),
    ("g", "__kernel void f(__global int *a) "
          "{ atomic_add(&a[0], (int)get_global_id(0)); if (get_global_id(0) == 7) atomic_or(&a[0], 1); }"),
    ("gi", "__kernel void f(__global int *a, int n) { while (n != 0) n -= 3; a[get_global_id(0)] = n; }"),
    ("gu", "__kernel void f(__global uint *a, uint d) { a[get_global_id(0)] /= d; }"),
    ("gi", "#define TWICE(x) ((x) * 2)\ntypedef unsigned int u32;\n__constant int K[3] = {5, 6, 7};\n"
           "int pick(int i) { return K[i % 3]; }\n__kernel void f(__global u32 *a, const int n) "
           "{ const int i = get_global_id(0); a[i] = TWICE(pick(i)) + pick(n & 3); }"),
    ("gi", "__kernel void f(__global int *a, int n) "
           "{ int i = get_global_id(0), x, y; x = y = n; while (x-- > 0 && x < 9) a[i] += y++; "
           "switch (n) { case 1: a[i]++; break; default: a[i]--; } }"),
    ("g", "__kernel void f(__global float *a) { a[0] = 1; }"),
]
RANGES = {"i": (-2**31, 2**31 - 1), "h": (-2**15, 2**15 - 1), "C": (0, 255), "L": (0, 2**64 - 1), "u": (0, 2**32 - 1)}


def value(r, kind):
    low, high = RANGES[kind]
    return r.choice([max(low, -1), 0, 1, 2, 5, low, high, r.randint(low, high)])


def arguments(r, kernel, kinds, buffers):
    for index, kind in enumerate(kinds):
        if r.random() < 0.03:
            continue
        if kind in "gc":
            yield f"arg {kernel} {index} buffer {r.choice(buffers)}"
        elif kind == "l":
            yield f"arg {kernel} {index} local {r.choice([4, 16, 32, 64, 33000])}"
        else:
            yield f"arg {kernel} {index} value {value(r, kind)}"


def memory_command(r, buffers):
    a, b = r.choice(buffers), r.choice(buffers)
    offset, count = 4 * r.randint(0, 12), 4 * r.randint(1, 8)
    kind = r.choice(["write", "fill", "copy", "read", "read"])
    if kind == "write":
        return f"write {a} {offset} {r.randbytes(count).hex()}"
    if kind == "fill":
        return f"fill {a} {offset} {count} {r.randbytes(r.choice([1, 2, 4])).hex()}"
    if kind == "copy":
        return f"copy {a} {offset} {b} {4 * r.randint(0, 12)} {count}"
    return f"read {a} {offset} {count}"


def script(seed):
    """A script of one context, by its seed."""
    r = random.Random(seed)
    lines, buffers = [], []
    for n in range(r.randint(1, 4)):
        buffers.append(f"m{n}")
        lines.append(f"buffer m{n} {r.choice([4, 32, 64, 64, 64, 128])}")
        lines.append(f"write m{n} 0 {r.randbytes(4).hex()}")
    for n in range(r.randint(1, 4)):
        kinds, source = r.choice(SOURCES)
        lines.append(f"program p{n} {source.count(chr(10)) + 1}")
        lines += source.split("\n")
        lines.append(f"kernel k{n} p{n} f")
        for _ in range(r.randint(1, 3)):
            lines += arguments(r, f"k{n}", kinds, buffers)
            lines.append(memory_command(r, buffers))
            size = r.choice([1, 2, 4, 8, 8, 16, 16, 100000000])
            shapes = [f"{size} {r.choice([1, 2, size])}", f"{size},2 {r.choice([1, size])},1 1,0"]
            lines.append(f"launch k{n} {r.choice(shapes)}")
        if r.random() < 0.5:
            lines += r.sample([f"release k{n}", f"release p{n}"], 2)
    lines += [f"read {name} 0 4" for name in buffers]
    if r.random() < 0.5:
        lines.append(f"release {r.choice(buffers)}")
    return "\n".join(lines) + "\n"
