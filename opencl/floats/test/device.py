#!/usr/bin/python3
"""Runs helpers on the device, and compares what they leave with numpy, or with exact fractions.

The elementary functions may differ from numpy's by some units in the last place: of a float by 1, of a double by 4.
lgamma of a double may by 8, since the C library's own may be wrong by 4, and no bound is set to it.

    device.py CLSIM FILE [--items N] [--seed N] [--only HELPER]

FILE has the helpers. Each is called once by each of N items, on bits chosen so that corners are frequent.
The last line is `N passed, M failed`; the status is 0 where M is 0, else 1.
"""
import argparse
import ctypes
import math
import os
import subprocess
import sys
import tempfile
from fractions import Fraction

import numpy

sys.path.insert(0, os.path.dirname(os.path.abspath(__file__)))
import helpers as texts  # noqa: E402

FLOAT, DOUBLE = numpy.float32, numpy.float64
BITS = {FLOAT: numpy.uint32, DOUBLE: numpy.uint64}
# Python's own lgamma raises an error where C's is infinite, and is less exact near 1 and 2.
C_LIBRARY = ctypes.CDLL("libm.so.6")
C_LIBRARY.lgamma.argtypes, C_LIBRARY.lgamma.restype = [ctypes.c_double], ctypes.c_double
CORNERS = [0.0, -0.0, math.inf, -math.inf, math.nan, 1.0, -1.0, 0.5, 1.5, 2.5, -2.5, 3.0]


def chosen(real, random, count):
    """Bits: any, with exponents near 0, with few ones in the fraction, corners, the smallest and the largest ones."""
    bits, info = BITS[real], numpy.finfo(real)
    width, fraction = info.bits, info.nmant
    ones = bits((1 << fraction) - 1)
    sign = bits(1 << (width - 1))
    any_bits = random.integers(0, 1 << width, count, dtype=bits, endpoint=False) if width < 64 else \
        random.integers(0, (1 << 64) - 1, count, dtype=bits, endpoint=True)
    near = (any_bits & (sign | ones)) | ((random.integers(-8, 9, count) + info.maxexp - 1).astype(bits) << bits(fraction))
    few = (near & ~ones) | (near & ones & ~(ones >> bits(6)))
    special = numpy.array(CORNERS + [info.tiny, info.max, info.tiny / 2, info.max / 2], real).view(bits)
    special = numpy.concatenate([special, numpy.array([1, 2, 3], bits), numpy.array([ones], bits)])
    kind = random.integers(0, 8, count)
    result = numpy.where(kind < 2, any_bits, numpy.where(kind < 5, near, few))
    result = numpy.where(kind == 7, special[random.integers(0, len(special), count)], result)
    return result.astype(bits)


def fused(real, a, b, c):
    """a * b + c by fractions, rounded once: by hand where all are finite, else as the host's unit does."""
    if not all(math.isfinite(x) for x in (a, b, c)):
        return real(a * b + c) if not (math.isfinite(a) and math.isfinite(b)) else real(c)
    exact = Fraction(float(a)) * Fraction(float(b)) + Fraction(float(c))
    if exact == 0:
        return real(a * b + c) if a == 0 or b == 0 else real(0)
    return rounded(real, exact)


def rounded(real, exact):
    """A fraction other than 0 as the nearest number of the format, the even one of two."""
    info = numpy.finfo(real)
    size = abs(exact)
    exponent = size.numerator.bit_length() - size.denominator.bit_length()
    exponent -= size < Fraction(2) ** exponent
    step = Fraction(2) ** (max(exponent, int(info.minexp)) - info.nmant)
    count = round(size / step)
    if count * step >= Fraction(2) ** int(info.maxexp):
        return real(math.inf if exact > 0 else -math.inf)
    size = math.ldexp(count, int(math.log2(step))) if step >= Fraction(1, 1 << 1074) else 0
    return real(size if exact > 0 else -size)


def whole(limit, real):
    """The conversion to a whole number toward zero, between two limits."""
    low, high = limit

    def convert(x):
        return [0 if math.isnan(y) else low if y <= low else high if y >= high else int(y) for y in x.astype(DOUBLE)]
    return convert


def rows(real):
    """Helper, its arguments (a, b, c: numbers of the format; others are constants), and what it should give."""
    name = "float" if real is FLOAT else "double"

    def each(function):
        return lambda *columns: [function(*row) for row in zip(*columns)]
    yield from [(f"{name}_{helper}", arguments, wanted) for helper, arguments, wanted in [
        ("add", "ab", numpy.add), ("sub", "ab", numpy.subtract), ("mul", "ab", numpy.multiply),
        ("div", "ab", numpy.divide), ("sqrt", "a", numpy.sqrt),
        ("fma", "abc", each(lambda a, b, c: fused(real, a, b, c))),
        ("equal", "ab", numpy.equal), ("less", "ab", numpy.less), ("less_equal", "ab", numpy.less_equal),
        ("to_integral", "0a", numpy.rint), ("to_integral", "1a", numpy.trunc), ("to_integral", "2a", numpy.ceil),
        ("to_integral", "3a", numpy.floor), ("fmod", "ab", numpy.fmod), ("nextafter", "ab", numpy.nextafter),
        ("copysign", "ab", numpy.copysign), ("fmin", "ab", numpy.fmin), ("fmax", "ab", numpy.fmax),
        ("frexp", "a", lambda a: numpy.frexp(a)[0]), ("isnan", "a", numpy.isnan),
        ("to_signed", ["1", "a", f"{2**31 - 1}ul"], whole((-2**31, 2**31 - 1), real)),
        ("to_unsigned", ["1", "a", f"{2**8 - 1}ul"], whole((0, 255), real))]]
    if real is FLOAT:
        yield "double_from_float", "a", lambda a: a.astype(DOUBLE)
    else:
        yield "float_from_double", "0a", lambda a: a.astype(FLOAT)


def elementary(real):
    """The same for functions that numpy has; those of a float by its functions on doubles."""
    name = "float" if real is FLOAT else "double"

    def wide(function):
        return lambda *columns: function(*[column.astype(DOUBLE) for column in columns]).astype(real)
    for helper in ("exp", "exp2", "expm1", "log", "log2", "log10", "log1p", "sin", "cos", "tan", "sinh", "cosh", "tanh",
                   "cbrt"):
        yield f"{name}_{helper}", "a", wide(getattr(numpy, helper))
    for helper in ("asin", "acos", "atan", "asinh", "acosh", "atanh"):
        yield f"{name}_{helper}", "a", wide(getattr(numpy, helper.replace("a", "arc", 1)))
    yield f"{name}_atan2", "ab", wide(numpy.arctan2)
    yield f"{name}_pow", "ab", wide(numpy.power)
    yield f"{name}_hypot", "ab", wide(numpy.hypot)
    yield f"{name}_lgamma", "a", wide(numpy.vectorize(C_LIBRARY.lgamma, otypes=[DOUBLE]))
    for helper in ("erf", "erfc", "tgamma"):
        plain = getattr(math, helper.replace("tgamma", "gamma"))
        yield f"{name}_{helper}", "a", wide(numpy.vectorize(lambda x, plain=plain: by_math(plain, x), otypes=[DOUBLE]))


def by_math(function, x):
    """What a function of the module math gives, where that raises an error as C's does."""
    try:
        return function(x)
    except OverflowError:
        return math.inf
    except ValueError:
        return math.nan if function is not math.gamma or x != 0 else math.copysign(math.inf, x)


def script(helpers, name, arguments, columns):
    """A script of one launch of a kernel that calls the helper."""
    helper = helpers[name]
    letters = [word for word in arguments if word in columns]
    word = {4: "uint", 8: "ulong"}[columns["a"].itemsize]
    source = texts.text_of(helpers, [name])
    source += f"__kernel void called(__global {helper.result} *r, " + ", ".join(f"__global {word} *{x}" for x in letters)
    source += ") {\nint i = get_global_id(0);\n" + helper.result + f" x = {name}("
    source += ", ".join(f"{word}[i]" if word in letters else word for word in arguments) + ");\nr[i] = x;\n}\n"
    count = len(columns["a"])
    size = {"int": 4, "uint": 4, "long": 8, "ulong": 8}[helper.result] * count
    lines = [f"buffer r {size}"]
    for letter in letters:
        data = columns[letter].tobytes()
        lines += [f"buffer {letter} {len(data)}", f"write {letter} 0 {data.hex()}"]
    lines += [f"program q {source.count(chr(10))}", source + "kernel k q called"]
    lines += [f"arg k {i} buffer {x}" for i, x in enumerate(["r"] + letters)]
    lines += [f"launch k {count} {min(count, 64)}", f"read r 0 {size}"]
    return "\n".join(lines) + "\n"


def left_by(clsim, text):
    with tempfile.NamedTemporaryFile("w", suffix=".txt") as file:
        file.write(text)
        file.flush()
        told = subprocess.run([clsim, "run", file.name], capture_output=True, text=True)
    last = told.stdout.strip().split("\n")[-1]
    if not last.startswith("data "):
        sys.exit(f"no data: {told.stdout[-500:]}{told.stderr[-500:]}")
    return bytes.fromhex(last[5:])


def distances(name, data, wanted):
    """The places where the bits differ by more than the units allowed."""
    bits = BITS[wanted.dtype.type]
    signed = numpy.int32 if bits is numpy.uint32 else numpy.int64
    came = numpy.frombuffer(data, wanted.dtype)
    sides = []
    for numbers in (came, wanted):
        plain = numbers.view(signed).astype(object)
        sides.append(numpy.where(plain < 0, -(plain & ((1 << (8 * numbers.itemsize - 1)) - 1)), plain))
    allowed = 1 if bits is numpy.uint32 else 8 if name.endswith("lgamma") else 4
    far = numpy.array([abs(int(x) - int(y)) > allowed for x, y in zip(*sides)])
    return numpy.nonzero(far & ~(numpy.isnan(came) & numpy.isnan(wanted)))[0]


def differences(name, helper, data, wanted):
    """The places where the bits differ: a NaN is the one quiet NaN; zeros of fmin and fmax may have either sign."""
    if isinstance(wanted, list):
        wanted = numpy.array(wanted)
    if not numpy.issubdtype(wanted.dtype, numpy.floating):
        came = numpy.frombuffer(data, {"int": numpy.int32, "long": numpy.int64, "ulong": numpy.uint64}[helper.result])
        return numpy.nonzero(came != wanted.astype(came.dtype))[0]
    bits = BITS[wanted.dtype.type]
    came = numpy.frombuffer(data, bits)
    nan = numpy.array([math.nan], wanted.dtype).view(bits)[0]
    expected = numpy.where(numpy.isnan(wanted), nan, wanted.view(bits))
    same = came == expected
    if name.endswith(("fmin", "fmax")):
        same |= (wanted == 0) & (came.view(wanted.dtype) == 0)
    return numpy.nonzero(~same)[0]


def main():
    parser = argparse.ArgumentParser()
    parser.add_argument("clsim")
    parser.add_argument("file")
    parser.add_argument("--items", type=int, default=256)
    parser.add_argument("--seed", type=int, default=1)
    parser.add_argument("--only", help="the helper that is tried alone")
    words = parser.parse_args()
    helpers = texts.read_helpers(words.file)
    random = numpy.random.default_rng(words.seed)
    passed = failed = 0
    for real in (FLOAT, DOUBLE):
        for name, arguments, reference in list(rows(real)) + list(elementary(real)):
            if words.only and words.only != name:
                continue
            columns = {letter: chosen(real, random, words.items) for letter in "abc"}
            data = left_by(words.clsim, script(helpers, name, arguments, columns))
            with numpy.errstate(all="ignore"):
                wanted = reference(*[columns[word].view(real) for word in arguments if word in columns])
                if isinstance(wanted, list) and isinstance(wanted[0], numpy.floating):
                    wanted = numpy.array(wanted, real)
            is_exact = name in [row[0] for row in rows(real)]
            wrong = differences(name, helpers[name], data, wanted) if is_exact else distances(name, data, wanted)
            passed, failed = passed + (len(wrong) == 0), failed + (len(wrong) != 0)
            for i in wrong[:3]:
                print(name, "of", " ".join(hex(columns[word][i]) for word in arguments if word in columns), "isn't", wanted[i])
    print(f"{passed} passed, {failed} failed")
    return failed != 0


if __name__ == "__main__":
    sys.exit(main())
