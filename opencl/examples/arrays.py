"""Numbers in arrays of pyopencl, whose kernels pyopencl writes, on the first OpenCL device: with the argument `wrong`
one is taken that isn't there."""
import sys

import numpy as np
import pyopencl as cl
import pyopencl.array as arrays

queue = cl.CommandQueue(cl.create_some_context(interactive=False))
numbers = arrays.arange(queue, 8, dtype=np.int32)
print(numbers * numbers + 1)
print("the sum is", arrays.sum(numbers))
places = arrays.to_device(queue, np.array([7, 0, 8 if "wrong" in sys.argv else 3], np.int32))
print(arrays.take(numbers, places))
