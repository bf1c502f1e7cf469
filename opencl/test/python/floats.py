"""Operators, conversions and functions of floating-point numbers, against numpy and Python's own.

    floats.py        the last line is `N results agree`

Each kernel gives one result of each pair of chosen and random numbers.
"""
import math
import random
import sys
import warnings
from fractions import Fraction

import numpy as np
import pyopencl as cl

warnings.simplefilter("ignore")
np.seterr(all="ignore")
FORMATS = {"float": (np.float32, np.uint32), "double": (np.float64, np.uint64)}
WHOLE = {"char": np.int8, "uchar": np.uint8, "short": np.int16, "ushort": np.uint16, "int": np.int32,
         "uint": np.uint32, "long": np.int64, "ulong": np.uint64}
COUNT = 48

context = cl.Context([cl.get_platforms()[0].get_devices()[0]])
queue = cl.CommandQueue(context)
agreed = 0
wrong = []


def numbers(format_name, seed):
    """Chosen and random numbers of a format."""
    kind, bits = FORMATS[format_name]
    chance = random.Random(seed)
    chosen = [0.0, -0.0, 1.0, -1.0, 0.5, 1.5, 2.5, -2.5, 3.0, 100.25, -7.75, 1e-3, 1e10, -3e9, math.inf, -math.inf,
              math.nan, float(np.finfo(kind).max), float(np.finfo(kind).tiny), float(np.finfo(kind).tiny) / 4]
    chance.shuffle(chosen)
    width = 8 * np.dtype(kind).itemsize
    made = np.array([chance.getrandbits(width) for _ in range(12)], dtype=bits).view(kind).astype(kind)
    usual = np.array([chance.uniform(-9, 9) for _ in range(COUNT - 12 - len(chosen))], dtype=kind)
    return np.concatenate([np.array(chosen, dtype=kind), made, usual])


jobs = []  # a kernel's source without its head, its arguments, the name and what it has to leave, and in which ulps


def agree(name, head, body, arguments, wanted, ulps=0):
    """Has a kernel with these parameters and this body run with the others, and its last argument compared."""
    source = f"__kernel void f{len(jobs)}({head}) {{ int i = get_global_id(0); {body} }}\n"
    jobs.append((source, arguments, name, wanted, ulps))


def run_all():
    """Builds all kernels as one program, launches them and compares."""
    program = cl.Program(context, "".join(job[0] for job in jobs)).build()
    for n, (_, arguments, name, wanted, ulps) in enumerate(jobs):
        made = np.zeros_like(wanted)
        buffers = [cl.Buffer(context, cl.mem_flags.COPY_HOST_PTR, hostbuf=a) for a in [*arguments, made]]
        getattr(program, f"f{n}")(queue, (wanted.shape[0],), None, *buffers)
        cl.enqueue_copy(queue, made, buffers[-1])
        compare(name, made, wanted, ulps)


def compare(name, made, wanted, ulps):
    """Notes whether all numbers are those that are wanted, any NaN being like another one."""
    global agreed
    for i, (x, y) in enumerate(zip(made.ravel(), wanted.ravel())):
        same = x == y and (made.dtype.kind != "f" or np.signbit(x) == np.signbit(y))
        same = same or (x != x and y != y)
        if not same and ulps and np.isfinite(x) and np.isfinite(y):
            same = abs(float(x) - float(y)) <= max(ulps * abs(float(np.spacing(y))), 4e-16)
        if not same:
            wrong.append(f"{name}: number {i} is {x!r} in place of {y!r}")
            return
    agreed += 1


def operator(name, text, wanted, result=None, ulps=0, formats=("float", "double")):
    """One expression of x, y and z in both formats."""
    for format_name in formats:
        kind = FORMATS[format_name][0]
        x, y, z = (numbers(format_name, f"{name}{i}") for i in range(3))
        word = format_name if result is None else next(w for w, k in WHOLE.items() if k == result)
        head = ", ".join(f"__global const {format_name} *{n}" for n in "abc") + f", __global {word} *d"
        body = (f"{format_name} x = a[i], y = b[i], z = c[i]; d[i] = {text.replace('T', format_name)};")
        values = np.array(wanted(x, y, z)).astype(kind if result is None else result)
        agree(f"{name} of {format_name}", head, body, [x, y, z], values, ulps)


def operators():
    operator("sum", "x + y", lambda x, y, z: x + y)
    operator("difference", "x - y", lambda x, y, z: x - y)
    operator("product", "x * y", lambda x, y, z: x * y)
    operator("quotient", "x / y", lambda x, y, z: x / y)
    operator("minus", "-x", lambda x, y, z: -x)
    operator("plus", "+x", lambda x, y, z: x)
    operator("two roundings", "x * y + z", lambda x, y, z: x * y + z)
    operator("with whole numbers", "x * 2 + i - 1u", lambda x, y, z: x * x.dtype.type(2)
             + np.arange(COUNT).astype(x.dtype) - x.dtype.type(1))
    operator("literals", "x * (T)1.1 + (T)(0.1f * 3)", lambda x, y, z: x * x.dtype.type(1.1)
             + x.dtype.type(np.float32(0.1) * np.float32(3)))
    for name, compare in [("==", np.equal), ("!=", np.not_equal), ("<", np.less), (">", np.greater),
                          ("<=", np.less_equal), (">=", np.greater_equal)]:
        operator(name, f"x {name} y", lambda x, y, z, compare=compare: compare(x, y), np.int32)
    operator("not", "!x", lambda x, y, z: x == 0, np.int32)
    operator("and", "x && y", lambda x, y, z: (x != 0) & (y != 0), np.int32)
    operator("or", "x || y < z", lambda x, y, z: (x != 0) | (y < z), np.int32)
    operator("choice", "x < y ? x : z", lambda x, y, z: np.where(x < y, x, z))
    operator("bool", "(bool)x", lambda x, y, z: x != 0, np.int32)
    operator("assignments", "(x += y, x -= z, x *= y, x /= z, x)", lambda x, y, z: (x + y - z) * y / z)
    operator("assignments of the other type", "(x += 0.1, x *= 3, x -= 2.5f, x)",
             lambda x, y, z: (((x.astype(np.float64) + 0.1).astype(x.dtype) * x.dtype.type(3))
                              - x.dtype.type(2.5)))
    operator("steps", "(y = x++, y += --z, y + x)", lambda x, y, z: (x + (z - x.dtype.type(1)))
             + (x + x.dtype.type(1)))
    operator("condition", "({ T w = 0; if (x) w = y; if (!z) w = 1; w; })",
             lambda x, y, z: np.where(z == 0, x.dtype.type(1), np.where(x != 0, y, x.dtype.type(0))))
    operator("loop", "({ T w = 0; for (T s = 0; s < 3; s += 0.5f) w += s * y; w; })", lambda x, y, z: loop(y))
    operator("the same bits", "as_T(x)", lambda x, y, z: x)


def loop(y):
    w = np.zeros_like(y)
    for s in range(6):
        w = w + y.dtype.type(s / 2) * y
    return w


def in_range(x, kind, rounded):
    """What a conversion gives: rounded, in the range of the type, 0 of what is no number."""
    ends = np.iinfo(kind)
    made = []
    for number in x:
        if math.isnan(number):
            made.append(0)
        elif math.isinf(number):
            made.append(ends.max if number > 0 else ends.min)
        else:
            made.append(min(max(rounded(float(number)), ends.min), ends.max))
    return np.array(made, dtype=kind)


def nearest(number):
    return round(number)


ROUNDINGS = {"": math.trunc, "_rte": nearest, "_rtz": math.trunc, "_rtp": math.ceil, "_rtn": math.floor}


def conversions():
    for format_name, (kind, _) in FORMATS.items():
        x = numbers(format_name, "conversions")
        for word, whole in WHOLE.items():
            head = f"__global const {format_name} *a, __global {word} *b"
            for mode, rounded in ROUNDINGS.items():
                agree(f"convert_{word}_sat{mode} of {format_name}", head, f"b[i] = convert_{word}_sat{mode}(a[i]);",
                      [x], in_range(x, whole, rounded))
            agree(f"a cast of {format_name} to {word}", head, f"b[i] = ({word})a[i];", [x],
                  in_range(x, whole, math.trunc))
            chance, ends = random.Random(word), np.iinfo(whole)
            n = np.array([ends.min, ends.max, ends.max - 1, 0, 1]
                         + [chance.randint(ends.min, ends.max) for _ in range(COUNT - 5)], dtype=whole)
            head = f"__global const {word} *a, __global {format_name} *b"
            agree(f"{word} to {format_name}", head, "b[i] = a[i];", [n], n.astype(kind))
            agree(f"convert_{format_name}_rte of {word}", head, f"b[i] = convert_{format_name}_rte(a[i]);", [n],
                  n.astype(kind))
    x, y = numbers("float", "between"), numbers("double", "between")
    y[:10] = np.array([1 + 2.0**-24, 1 + 3 * 2.0**-24, 1e-40, 1e-46, 3.5e38, 1e300, -1e300, 0.1, -0.1, 1 / 3])
    agree("float to double", "__global const float *a, __global double *b", "b[i] = a[i];", [x], x.astype(np.float64))
    head = "__global const double *a, __global float *b"
    agree("double to float", head, "b[i] = a[i];", [y], y.astype(np.float32))
    for mode in ["_rte", "_rtz", "_rtp", "_rtn"]:
        agree(f"convert_float{mode} of double", head, f"b[i] = convert_float{mode}(a[i]);", [y],
              np.array([directed(n, mode) for n in y], dtype=np.float32))


def directed(number, mode):
    near = np.float32(number)
    if mode == "_rte" or math.isnan(number) or math.isinf(number) or float(near) == number:
        return near
    up = {"_rtp": True, "_rtn": False, "_rtz": number < 0}[mode]
    if up:
        return near if float(near) > number else np.nextafter(near, np.float32(math.inf))
    return near if float(near) < number else np.nextafter(near, np.float32(-math.inf))


def wide(function):
    """A function computed in double, one number at a time."""
    def whole(x, y, z):
        made = []
        for one in zip(x.astype(np.float64), y.astype(np.float64), z.astype(np.float64)):
            try:
                made.append(function(*one))
            except OverflowError:
                made.append(math.inf)
            except (ValueError, ZeroDivisionError):
                made.append(math.nan)
        return np.array(made)
    return whole


def of_one(function):
    return lambda x, y, z: function(x.astype(np.float64))


def of_pi(function):
    return lambda x, y, z: function(np.pi * np.fmod(x.astype(np.float64), 2))


def functions():
    one = {"exp": np.exp, "exp2": np.exp2, "expm1": np.expm1, "log": np.log, "log2": np.log2, "log10": np.log10,
           "log1p": np.log1p, "sin": np.sin, "cos": np.cos, "tan": np.tan, "asin": np.arcsin, "acos": np.arccos,
           "atan": np.arctan, "sinh": np.sinh, "cosh": np.cosh, "tanh": np.tanh, "asinh": np.arcsinh,
           "acosh": np.arccosh, "atanh": np.arctanh, "cbrt": np.cbrt, "exp10": lambda x: np.power(10.0, x),
           "rsqrt": lambda x: 1 / np.sqrt(x), "asinpi": lambda x: np.arcsin(x) / np.pi,
           "acospi": lambda x: np.arccos(x) / np.pi, "atanpi": lambda x: np.arctan(x) / np.pi,
           "degrees": np.degrees, "radians": np.radians}
    for name, function in one.items():
        operator(name, f"{name}(x)", of_one(function), ulps=16)
    for name in ["cos", "exp", "exp2", "exp10", "log", "log2", "log10", "rsqrt", "sin", "tan"]:
        operator(f"half_{name}", f"half_{name}(x)", of_one(one[name]), ulps=16, formats=["float"])
        operator(f"native_{name}", f"native_{name}(x)", of_one(one[name]), ulps=16, formats=["float"])
    for form in ["half", "native"]:
        for name, text, wanted in [("divide", "(x, y)", lambda x, y, z: x / y),
                                   ("recip", "(x)", lambda x, y, z: 1 / x),
                                   ("sqrt", "(x)", lambda x, y, z: np.sqrt(x)),
                                   ("powr", "(fabs(x), 1.5f)", lambda x, y, z: np.power(np.abs(x), np.float64(1.5)))]:
            operator(f"{form}_{name}", f"{form}_{name}{text}", wanted, ulps=16, formats=["float"])
    for name, function in [("sinpi", np.sin), ("cospi", np.cos)]:
        operator(name, f"{name}(fmod(x, 8))", lambda x, y, z, function=function: function(
            np.pi * np.fmod(np.fmod(x, 8).astype(np.float64), 2)), ulps=64)
    operator("tanpi", "tanpi((T)0.125 + (T)0 * i)", lambda x, y, z: np.full(COUNT, np.tan(np.pi * 0.125)), ulps=16)
    two = {"atan2": np.arctan2, "hypot": np.hypot, "pow": np.power}
    for name, function in two.items():
        operator(name, f"{name}(x, y)", lambda x, y, z, function=function: function(
            x.astype(np.float64), y.astype(np.float64)), ulps=16)
    operator("atan2pi", "atan2pi(x, y)", lambda x, y, z: np.arctan2(x.astype(np.float64), y) / np.pi, ulps=16)
    operator("powr", "powr(fabs(x), y)", lambda x, y, z: np.where(
        ((x == 0) & (y == 0)) | ((np.abs(x) == np.inf) & (y == 0)) | ((np.abs(x) == 1) & np.isinf(y)) | np.isnan(x)
        | np.isnan(y), np.nan, np.power(np.abs(x).astype(np.float64), y.astype(np.float64))), ulps=16)
    operator("pown", "pown(x, i % 7 - 3)", lambda x, y, z: np.power(x.astype(np.float64), np.arange(COUNT) % 7 - 3.0),
             ulps=16)
    operator("rootn", "rootn(fabs(x), i % 2 + 1)", lambda x, y, z: np.power(
        np.abs(x).astype(np.float64), 1 / (np.arange(COUNT) % 2 + 1.0)), ulps=16)
    for name, function in [("erf", math.erf), ("erfc", math.erfc), ("tgamma", math.gamma), ("lgamma", math.lgamma)]:
        operator(name, f"{name}(fmin(fabs(x) + (T)0.5, (T)9))",
                 lambda x, y, z, function=function: wide(lambda a, b, c: function(a))(
                     np.fmin(np.abs(x) + x.dtype.type(0.5), x.dtype.type(9)), y, z),
                 ulps=4096 if name == "lgamma" else 32)
    exact = [("sqrt(x)", lambda x, y, z: np.sqrt(x)), ("fabs(x)", lambda x, y, z: np.abs(x)),
             ("ceil(x)", lambda x, y, z: np.ceil(x)), ("floor(x)", lambda x, y, z: np.floor(x)),
             ("trunc(x)", lambda x, y, z: np.trunc(x)), ("rint(x)", lambda x, y, z: np.rint(x)),
             ("round(x)", lambda x, y, z: np.copysign(np.where(np.abs(x) < 1e15, np.trunc(
                 np.abs(x) + np.where(np.abs(x) - np.trunc(np.abs(x)) >= 0.5, 0.5, 0).astype(x.dtype)), np.abs(x)), x)),
             ("copysign(x, y)", lambda x, y, z: np.copysign(x, y)),
             ("fmin(x, y) + 1", lambda x, y, z: np.fmin(x, y) + x.dtype.type(1)),
             ("fmax(x, y) + 1", lambda x, y, z: np.fmax(x, y) + x.dtype.type(1)),
             ("fmod(x, y)", lambda x, y, z: np.fmod(x, y)),
             ("fdim(x, y)", lambda x, y, z: np.where(np.isnan(x) | np.isnan(y), np.nan, np.where(x > y, x - y, 0))),
             ("nextafter(x, y)", lambda x, y, z: np.nextafter(x, y)),
             ("remainder(x, y)", lambda x, y, z: wide(lambda a, b, c: math.remainder(a, b))(x, y, z)),
             ("ldexp(x, i - 9)", lambda x, y, z: np.ldexp(x, np.arange(COUNT) - 9)),
             ("sign(x)", lambda x, y, z: np.where(np.isnan(x), 0, np.where(x == 0, x, np.sign(x)))),
             ("step(x, y)", lambda x, y, z: np.where(y < x, 0, 1)),
             ("maxmag(x, y)", lambda x, y, z: np.where(np.abs(x) > np.abs(y), x, np.where(np.abs(y) > np.abs(x), y,
                                                                                          np.fmax(x, y)))),
             ("minmag(x, y)", lambda x, y, z: np.where(np.abs(x) < np.abs(y), x, np.where(np.abs(y) < np.abs(x), y,
                                                                                          np.fmin(x, y)))),
             ("fma((T)3, (T)i, (T)1)", lambda x, y, z: 3 * np.arange(COUNT) + 1),
             ("mad((T)3, (T)i, (T)1)", lambda x, y, z: 3 * np.arange(COUNT) + 1),
             ("fma(1 + (T)1e-4f, 1 - (T)1e-4f, (T)-1)", lambda x, y, z: np.full(COUNT, fused(x.dtype.type))),
             ("max((T)i, (T)9)", lambda x, y, z: np.maximum(np.arange(COUNT), 9)),
             ("min((T)i, (T)9)", lambda x, y, z: np.minimum(np.arange(COUNT), 9)),
             ("clamp((T)i, (T)5, (T)9)", lambda x, y, z: np.clip(np.arange(COUNT), 5, 9)),
             ("mix((T)1, (T)3, (T)i)", lambda x, y, z: 1 + 2 * np.arange(COUNT)),
             ("smoothstep((T)0, (T)4, (T)1) + (T)0 * i", lambda x, y, z: np.full(COUNT, 0.15625)),
             ("logb((T)(i + 1))", lambda x, y, z: np.floor(np.log2(np.arange(COUNT) + 1))),
             ("nan(0u) + x", lambda x, y, z: np.full(COUNT, np.nan)),
             ("select(x, y, i % 2)", lambda x, y, z: np.where(np.arange(COUNT) % 2 != 0, y, x)),
             ("bitselect(x, y, (T)-0.0)", lambda x, y, z: np.copysign(x, y)),
             ("fract(x, &w) + w + 0", lambda x, y, z: np.where(np.isfinite(x), np.fmin(
                 x - np.floor(x), np.nextafter(x.dtype.type(1), x.dtype.type(0))) + np.floor(x),
                                                         np.where(np.isnan(x), np.nan, x)) + 0),
             ("modf(x, &w) + w", lambda x, y, z: x), ("frexp(x, &n) + n", lambda x, y, z: np.where(
                 np.isfinite(x), np.frexp(x)[0] + np.frexp(x)[1].astype(x.dtype), x)),
             ("remquo((T)i, (T)5, &n) + n", lambda x, y, z: np.array(
                 [math.remainder(k, 5) + round((k - math.remainder(k, 5)) / 5) for k in range(COUNT)])),
             ("lgamma_r((T)1, &n) + n + i", lambda x, y, z: 1 + np.arange(COUNT))]
    for text, wanted in exact:
        one_format(text, text, wanted, "float")
        one_format(text, text.replace("i % 2)", "(long)(i % 2))").replace("0u", "0ul"), wanted, "double")
    operator("sincos", "({ T c, s = sincos(x, &c); s + c; })", of_one(lambda x: np.sin(x) + np.cos(x)), ulps=4096)
    for name, wanted in [("isequal", np.equal), ("isnotequal", np.not_equal), ("isgreater", np.greater),
                         ("isgreaterequal", np.greater_equal), ("isless", np.less), ("islessequal", np.less_equal),
                         ("islessgreater", lambda x, y: (x < y) | (x > y)),
                         ("isordered", lambda x, y: ~(np.isnan(x) | np.isnan(y))),
                         ("isunordered", lambda x, y: np.isnan(x) | np.isnan(y))]:
        operator(name, f"{name}(x, y)", lambda x, y, z, wanted=wanted: wanted(x, y), np.int32)
    for name, wanted in [("isnan", np.isnan), ("isinf", np.isinf), ("isfinite", np.isfinite), ("signbit", np.signbit),
                         ("isnormal", lambda x: np.isfinite(x) & (np.abs(x) >= np.finfo(x.dtype).tiny))]:
        operator(name, f"{name}(x)", lambda x, y, z, wanted=wanted: wanted(x), np.int32)
    operator("ilogb", "ilogb((T)(i + 1))", lambda x, y, z: np.floor(np.log2(np.arange(COUNT) + 1)), np.int32)


def fused(kind):
    """(1 + d)(1 - d) - 1, rounded once; d is a float."""
    d = kind(np.float32(1e-4))
    whole = Fraction(float(kind(1) + d)) * Fraction(float(kind(1) - d)) - 1
    return kind(float(whole))


def one_format(name, text, wanted, format_name):
    kind = FORMATS[format_name][0]
    x, y, z = (numbers(format_name, f"{name}{i}") for i in range(3))
    head = ", ".join(f"__global const {format_name} *{n}" for n in "abc") + f", __global {format_name} *d"
    body = (f"{format_name} x = a[i], y = b[i], z = c[i], w = 0; int n = 0; d[i] = {text.replace('T', format_name)};")
    agree(f"{name} of {format_name}", head, body, [x, y, z], np.array(wanted(x, y, z)).astype(kind))


def programs():
    """A product of matrices, a step of bodies and Mandelbrot's set, by the same operations in the same order here."""
    side, chance = 8, np.random.RandomState(1)
    a, b = (chance.uniform(-1, 1, (side, side)).astype(np.float32) for _ in range(2))
    made = np.zeros((side, side), dtype=np.float32)
    for k in range(side):
        made = made + a[:, k:k + 1] * b[k:k + 1, :]
    agree("product of matrices", "__global const float *a, __global const float *b, __global float *c",
          "int y = i / 8, x = i % 8; float s = 0; for (int k = 0; k < 8; k++) s += a[y * 8 + k] * b[k * 8 + x]; "
          "c[i] = s;", [a.ravel(), b.ravel()], made.ravel())
    place = chance.uniform(-1, 1, (16, 4)).astype(np.float32)
    force = np.zeros((16, 4), dtype=np.float32)
    for j in range(16):
        away = place[j] - place
        square = away[:, 0] * away[:, 0]
        for k in range(1, 4):
            square = square + away[:, k] * away[:, k]
        square = square + np.float32(0.01)
        force = force + away / (np.sqrt(square) * square)[:, None]
    agree("a step of bodies", "__global const float4 *p, __global float4 *f",
          "float4 s = 0; for (int j = 0; j < 16; j++) { float4 d = p[j] - p[i]; float q = dot(d, d) + 0.01f; "
          "s += d / (sqrt(q) * q); } f[i] = s;", [place], force)
    turns = np.zeros(64, dtype=np.int32)
    for i in range(64):
        x = y = 0.0
        while turns[i] < 20 and x * x + y * y <= 4:
            x, y = x * x - y * y + (i % 8 / 4.0 - 1.5), 2 * x * y + (i // 8 / 4.0 - 1)
            turns[i] += 1
    agree("Mandelbrot's set", "__global int *n", "double x = 0, y = 0, a = i % 8 / 4.0 - 1.5, b = i / 8 / 4.0 - 1; "
          "int k = 0; while (k < 20 && x * x + y * y <= 4) { double t = x * x - y * y + a; y = 2 * x * y + b; x = t; "
          "k++; } n[i] = k;", [], turns)


if __name__ == "__main__":
    parts = [operators, conversions, functions, programs]
    for part in parts:
        if len(sys.argv) < 2 or part.__name__ in sys.argv[1:]:
            part()
    run_all()
    for line in wrong:
        print(line)
    print(f"{agreed} results agree" + (f", {len(wrong)} don't" if wrong else ""))
    sys.exit(bool(wrong))
