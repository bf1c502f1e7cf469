"""A large source, like those of password crackers: rounds of hashes in inline functions, all of which one kernel calls.

    large_source.py JUDGED [ROUNDS]

JUDGED is judged.c, built without sanitizers. Told are the processor seconds that clang and the driver take for it, and
the megabytes of the larger one of the two.
"""
import resource
import subprocess
import sys
import tempfile

ROUNDS, EACH = 14080, 64  # some 478,000 nodes: expressions, statements and declarations
ROUND = "#define R(a, b, c, d, k, s) a = b + rotate(a + ((b & c) | (~b & d)) + x[k] + 0x5a827999u, (uint)s)\n"


def source(rounds=ROUNDS):
    names, lines = "abcd", [ROUND]
    functions = range(rounds // EACH)
    for n in functions:
        body = " ".join(f"R({', '.join(names[(i + j) % 4] for j in range(4))}, {(i * 7 + n) % 16}, {i % 31 + 1});\n"
                        for i in range(EACH))
        lines.append("inline void part%d(__private uint *h, __private const uint *x) {\n"
                     "uint a = h[0], b = h[1], c = h[2], d = h[3];\n%s"
                     "h[0] += a; h[1] += b; h[2] += c; h[3] += d;\n}\n" % (n, body))
    calls = " ".join(f"part{n}(h, x);\n" for n in functions)
    lines.append("__kernel void f(__global uint *a) {\nuint i = get_global_id(0), h[4] = {1, 2, 3, i}, x[16];\n"
                 f"for (int k = 0; k < 16; k++) x[k] = a[k];\n{calls}a[i] = h[0] ^ h[1] ^ h[2] ^ h[3];\n}}\n")
    return "".join(lines)


def measured(judged, text, **settings):
    """The status, processor seconds and the most megabytes of one process of those that read a source."""
    with tempfile.NamedTemporaryFile("w", suffix=".cl") as file:
        file.write(text)
        file.flush()
        before = resource.getrusage(resource.RUSAGE_CHILDREN)
        done = subprocess.run([judged, file.name], stdout=subprocess.DEVNULL, check=False, **settings)
        after = resource.getrusage(resource.RUSAGE_CHILDREN)
    seconds = after.ru_utime + after.ru_stime - before.ru_utime - before.ru_stime
    return done.returncode, seconds, after.ru_maxrss / 1024


def main():
    status, seconds, megabytes = measured(sys.argv[1], source(int(sys.argv[2]) if len(sys.argv) > 2 else ROUNDS))
    print(f"status {status}, {seconds:.1f} processor seconds, {megabytes:.0f} MB")
    return status


if __name__ == "__main__":
    sys.exit(main())
