"""pyopencl's arrays and algorithms on whole numbers, against numpy: a line for each. By hand:

    OCL_ICD_VENDORS=../../vendors python3 arrays.py [NAME]..
"""
import sys
import time
import warnings

import numpy as np
import pyopencl as cl
import pyopencl.algorithm as al
import pyopencl.array as ca
import pyopencl.clrandom as cr
from pyopencl.bitonic_sort import BitonicSort
from pyopencl.elementwise import ElementwiseKernel
from pyopencl.reduction import ReductionKernel
from pyopencl.scan import ExclusiveScanKernel, InclusiveScanKernel

N = 200
warnings.simplefilter("ignore")
context = cl.Context([next(p for p in cl.get_platforms() if "Clsim" in p.name).get_devices()[0]])
queue = cl.CommandQueue(context)


def data(kind=np.int32, times=37):
    numbers = np.arange(N, dtype=np.int64) * times % 101
    return (numbers - (0 if np.dtype(kind).kind == "u" else 40)).astype(kind)


def on_device(numbers):
    return ca.to_device(queue, numbers)


def stored(numbers):
    numbers[4:9] = 1
    return numbers


def elementwise():
    kernel = ElementwiseKernel(context, "int a, __global int *x, __global int *y", "y[i] = a * x[i] + i", "f")
    x, y = on_device(data()), on_device(data())
    kernel(np.int32(3), x, y)
    return y.get(), 3 * data() + np.arange(N)


def reduction():
    kernel = ReductionKernel(context, np.int32, neutral="0", reduce_expr="a+b", map_expr="x[i]*y[i]",
                             arguments="__global int *x, __global int *y")
    return kernel(on_device(data()), on_device(data(times=5))).get(), int((data() * data(times=5)).sum())


def inclusive_scan():
    x = on_device(data())
    InclusiveScanKernel(context, np.int32, "a+b", "0")(x)
    return x.get(), np.cumsum(data(), dtype=np.int32)


def exclusive_scan():
    x = on_device(data())
    ExclusiveScanKernel(context, np.int32, "a+b", "0")(x)
    return x.get(), np.cumsum(data(), dtype=np.int32) - data()


def copy_if():
    result, count, _ = al.copy_if(on_device(data()), "ary[i] > 5")
    return result.get()[:int(count.get())], data()[data() > 5]


def partition():
    yes, no, count, _ = al.partition(on_device(data()), "ary[i] > 5")
    count = int(count.get())
    return (np.concatenate([yes.get()[:count], no.get()[:N - count]]),
            np.concatenate([data()[data() > 5], data()[data() <= 5]]))


def unique():
    numbers = np.sort(data() // 10)
    result, count, _ = al.unique(on_device(numbers))
    return result.get()[:int(count.get())], np.unique(numbers)


def radix_sort():
    sort = al.RadixSort(context, "unsigned int *ary", key_expr="ary[i]", sort_arg_names=["ary"], key_dtype=np.uint32)
    (result,), _ = sort(on_device(data(np.uint32)), key_bits=8)
    return result.get(), np.sort(data(np.uint32))


def bitonic_sort():
    numbers = np.resize(data(), 256)
    result, _ = BitonicSort(context)(on_device(numbers))
    return result.get(), np.sort(numbers)


def random_numbers():
    numbers = cr.PhiloxGenerator(context, seed=5).uniform(queue, N, np.int32, a=0, b=100).get()
    return numbers.min() >= 0 and numbers.max() < 100 and len(set(numbers)) > 50, True


TESTS = {
    "add": lambda: ((on_device(data()) + on_device(data(times=5))).get(), data() + data(times=5)),
    "subtract": lambda: ((on_device(data()) - 3).get(), data() - 3),
    "subtract from": lambda: ((3 - on_device(data())).get(), 3 - data()),
    "multiply": lambda: ((on_device(data(np.int64)) * on_device(data(np.int64))).get(), data(np.int64) ** 2),
    "and": lambda: ((on_device(data()) & on_device(data(times=5))).get(), data() & data(times=5)),
    "xor": lambda: ((on_device(data(np.uint8)) ^ 3).get(), data(np.uint8) ^ 3),
    "less": lambda: ((on_device(data()) < on_device(data(times=5))).get(), data() < data(times=5)),
    "negate, abs": lambda: (abs(-on_device(data())).get(), abs(data())),
    "fill": lambda: (ca.zeros(queue, N, np.uint16).fill(9).get(), np.full(N, 9, np.uint16)),
    "arange": lambda: (ca.arange(queue, 3, 90, 2, dtype=np.int32).get(), np.arange(3, 90, 2, dtype=np.int32)),
    "astype": lambda: (on_device(data()).astype(np.int8).get(), data().astype(np.int8)),
    "store": lambda: (stored(on_device(data())).get(), stored(data())),
    "take": lambda: (ca.take(on_device(data()), on_device(np.arange(N - 1, -1, -1, dtype=np.int32))).get(),
                     data()[::-1]),
    "choose": lambda: (ca.if_positive(on_device(data()), on_device(data(times=5)), on_device(data(times=7))).get(),
                       np.where(data() > 0, data(times=5), data(times=7))),
    "maximum": lambda: (ca.maximum(on_device(data()), on_device(data(times=5))).get(),
                        np.maximum(data(), data(times=5))),
    "sum": lambda: (ca.sum(on_device(data())).get(), data().sum(dtype=np.int32)),
    "max": lambda: (ca.max(on_device(data())).get(), data().max()),
    "min": lambda: (ca.min(on_device(data(np.uint8))).get(), data(np.uint8).min()),
    "dot": lambda: (ca.dot(on_device(data()), on_device(data(times=5))).get(), np.dot(data(), data(times=5))),
    "any": lambda: (on_device(data()).any().get(), 1),
    "concatenate": lambda: (ca.concatenate([on_device(data()), on_device(data())]).get(),
                            np.concatenate([data(), data()])),
    "cumsum": lambda: (ca.cumsum(on_device(data())).get(), np.cumsum(data(), dtype=np.int32)),
    "elementwise": elementwise, "reduction": reduction, "inclusive scan": inclusive_scan,
    "exclusive scan": exclusive_scan, "copy_if": copy_if, "partition": partition, "unique": unique,
    "radix sort": radix_sort, "bitonic sort": bitonic_sort, "random numbers": random_numbers,
}


def main():
    chosen, right = sys.argv[1:] or list(TESTS), 0
    for name in chosen:
        begin = time.monotonic()
        try:
            got, wanted = TESTS[name]()
            told = "right" if np.array_equal(np.asarray(got), np.asarray(wanted)) else "WRONG"
        except Exception as error:  # whatever a library makes of a refusal
            told = str(error).replace("\n", " | ")[:300]
        right += told == "right"
        print(f"{name}: {told} ({time.monotonic() - begin:.0f} s)", flush=True)
    print(f"{right} of {len(chosen)} are right")
    return right < len(chosen)


if __name__ == "__main__":
    sys.exit(main())
