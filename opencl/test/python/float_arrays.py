"""Arrays of pyopencl in float32 and float64, unchanged: operators, functions, reductions, scans, kernels of its own.

    float_arrays.py        the last line is `N results agree`

Each sort of result is computed by numpy too. Where every operation is one of IEEE 754, all bits have to be the same.
"""
import sys
import warnings

import numpy as np
import pyopencl as cl
import pyopencl.array as cl_array
import pyopencl.clmath as clmath
import pyopencl.elementwise as elementwise
import pyopencl.reduction as reduction
import pyopencl.scan as scan

warnings.simplefilter("ignore")
context = cl.Context([cl.get_platforms()[0].get_devices()[0]])
queue = cl.CommandQueue(context)
agreed = 0
wrong = []


def agree(name, made, wanted, ulps=0):
    """Notes whether numbers are those that are wanted, or no further from them than so many units of the last place."""
    global agreed
    made, wanted = np.asarray(made), np.asarray(wanted)
    same = made.dtype == wanted.dtype and made.shape == wanted.shape
    if same and ulps:
        same = bool((np.abs(made - wanted) <= ulps * np.spacing(np.abs(wanted))).all())
    elif same:
        same = made.tobytes() == wanted.tobytes()
    if same:
        agreed += 1
    else:
        wrong.append(f"{name}: {made!r} in place of {wanted!r}")


def operators(kind):
    """Operators of arrays, with arrays and with numbers."""
    chance = np.random.RandomState(1)
    x, y = (chance.uniform(-9, 9, 40).astype(kind) for _ in range(2))
    a, b = cl_array.to_device(queue, x), cl_array.to_device(queue, y)
    two = kind(2)
    for name, made, wanted in [
            ("sum", a + b, x + y), ("difference", a - b, x - y), ("product", a * b, x * y), ("quotient", a / b, x / y),
            ("by a number", a * two, x * two), ("and a number", two + a, two + x), ("from a number", two - a, two - x),
            ("of a number", two / a, two / x), ("minus", -a, -x), ("absolute", abs(a), abs(x)),
            ("the larger", cl_array.maximum(a, b), np.maximum(x, y)),
            ("the smaller", cl_array.minimum(a, b), np.minimum(x, y)),
            ("choice", cl_array.if_positive(a, b, -b), np.where(x > 0, y, -y)), ("reversed", a.reverse(), x[::-1]),
            ("part", a[3:17].copy(), x[3:17]), ("comparison", a < b, (x < y).astype(np.int8)),
            ("equal", a == a, np.ones(40, np.int8)),
            ("another kind", a.astype(np.float64), x.astype(np.float64)),
            ("the narrower kind", a.astype(np.float32), x.astype(np.float32)),
            ("whole numbers", a.astype(np.int32), x.astype(np.int32)),
            ("numbers in a row", cl_array.arange(queue, 0, 20, 0.5, dtype=kind), np.arange(0, 20, 0.5, dtype=kind)),
            ("zeros", cl_array.zeros(queue, 8, kind), np.zeros(8, kind)),
            ("some of them", cl_array.take(a, cl_array.to_device(queue, np.arange(0, 40, 3, dtype=np.int32))), x[::3])]:
        agree(f"{name} of {kind.__name__}", made.get(), wanted)
    a += b
    a *= two
    a -= b
    agree(f"assignments of {kind.__name__}", a.get(), (x + y) * two - y)
    agree(f"power of {kind.__name__}", (abs(b) ** kind(1.5)).get(), abs(y) ** kind(1.5), 16)


def functions(kind):
    """Functions of clmath."""
    x = np.linspace(-0.95, 0.95, 24).astype(kind)
    exact = {"fabs": np.abs, "floor": np.floor, "ceil": np.ceil, "trunc": np.trunc, "rint": np.rint}
    near = {"exp": np.exp, "sin": np.sin, "cos": np.cos, "tan": np.tan, "sinh": np.sinh, "cosh": np.cosh,
            "tanh": np.tanh, "asin": np.arcsin, "acos": np.arccos, "atan": np.arctan, "expm1": np.expm1,
            "log1p": np.log1p}
    of_positive = {"log": np.log, "log10": np.log10, "log2": np.log2}
    a, b = cl_array.to_device(queue, x * kind(9)), cl_array.to_device(queue, x)
    for name, wanted in exact.items():
        agree(f"{name} of {kind.__name__}", getattr(clmath, name)(a).get(), wanted(x * kind(9)))
    agree(f"sqrt of {kind.__name__}", clmath.sqrt(abs(a)).get(), np.sqrt(np.abs(x * kind(9))))
    for name, wanted in near.items():
        agree(f"{name} of {kind.__name__}", getattr(clmath, name)(b).get(), wanted(x), 6)
    for name, wanted in of_positive.items():
        agree(f"{name} of {kind.__name__}", getattr(clmath, name)(abs(a)).get(), wanted(np.abs(x * kind(9))), 4)
    whole = clmath.modf(a)
    agree(f"modf of {kind.__name__}", whole[0].get(), np.modf(x * kind(9))[0])
    agree(f"fmod of {kind.__name__}", clmath.fmod(a, b + kind(2)).get(), np.fmod(x * kind(9), x + kind(2)))


def reductions(kind):
    """Sums, products of arrays, the least and the greatest; numbers whose sums are exact."""
    x = (np.arange(1000) % 37 - 11).astype(kind) / kind(4)
    a = cl_array.to_device(queue, x)
    agree(f"sum of all {kind.__name__}", cl_array.sum(a).get(), x.sum())
    agree(f"dot of {kind.__name__}", cl_array.dot(a, a).get(), (x * x).sum())
    agree(f"greatest of {kind.__name__}", cl_array.max(a).get(), x.max())
    agree(f"least of {kind.__name__}", cl_array.min(a).get(), x.min())
    word = "float" if kind is np.float32 else "double"
    kernel = reduction.ReductionKernel(context, kind, neutral="0", reduce_expr="a+b", map_expr="x[i]*y[i]+1",
                                       arguments=f"__global {word} *x, __global {word} *y")
    agree(f"a reduction of {kind.__name__}", kernel(a, a).get(), (x * x + kind(1)).sum())


def scans(kind):
    """Sums in front of each, and up to each."""
    x = (np.arange(700) % 31 - 9).astype(kind) / kind(8)
    a = cl_array.to_device(queue, x)
    scan.InclusiveScanKernel(context, kind, "a+b", neutral="0")(a)
    agree(f"inclusive sums of {kind.__name__}", a.get(), np.cumsum(x, dtype=kind))
    a = cl_array.to_device(queue, x)
    scan.ExclusiveScanKernel(context, kind, "a+b", neutral="0")(a)
    agree(f"exclusive sums of {kind.__name__}", a.get(), np.cumsum(x, dtype=kind) - x)
    a = cl_array.to_device(queue, x)
    scan.InclusiveScanKernel(context, kind, "fmax(a, b)", neutral="-INFINITY")(a)
    agree(f"greatest so far of {kind.__name__}", a.get(), np.maximum.accumulate(x))


def kernels(kind):
    """Elementwise kernels."""
    word = "float" if kind is np.float32 else "double"
    chance = np.random.RandomState(2)
    x, y = (chance.uniform(-9, 9, 50).astype(kind) for _ in range(2))
    a, b = cl_array.to_device(queue, x), cl_array.to_device(queue, y)
    z = cl_array.empty_like(a)
    axpy = elementwise.ElementwiseKernel(context, f"{word} s, {word} *x, {word} *y, {word} *z", "z[i] = s*x[i] + y[i]")
    axpy(kind(2.5), a, b, z)
    agree(f"axpy of {kind.__name__}", z.get(), kind(2.5) * x + y)
    step = elementwise.ElementwiseKernel(context, f"{word} *x, {word} *z",
                                         f"{word} v = x[i]; while (v > 1) v /= 2; z[i] = v < 0 ? -v : v", "halve")
    step(a, z)
    wanted = x.copy()
    while (wanted > 1).any():
        wanted = np.where(wanted > 1, wanted / kind(2), wanted)
    agree(f"a loop of {kind.__name__}", z.get(), np.abs(wanted))


for each in [np.float32, np.float64]:
    for call in [operators, functions, reductions, scans, kernels]:
        call(each)
print("\n".join(wrong))
print(f"{len(wrong)} differ" if wrong else f"{agreed} results agree")
sys.exit(1 if wrong else 0)
