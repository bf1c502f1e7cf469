"""Counts letters by pyopencl, on the first OpenCL device: with the argument `wrong` by a step that is no atomic
function."""
import sys

import numpy as np
import pyopencl as cl

SOURCE = """
__constant uint FIRST = 'a';
__kernel void count_letters(__global const uchar *text, __global uint *counts)
{
    const uint letter = text[get_global_id(0)] - FIRST;
    if (letter < 26)
        COUNT(counts[letter]);
}
"""

count = "-DCOUNT(x)=(x)++" if "wrong" in sys.argv else "-DCOUNT(x)=atomic_inc(&(x))"
context = cl.create_some_context(interactive=False)
queue = cl.CommandQueue(context)
text = np.frombuffer(b"the quick brown fox jumps over the lazy dog", np.uint8)
counts = np.zeros(26, np.uint32)
flags = cl.mem_flags
text_buffer = cl.Buffer(context, flags.READ_ONLY | flags.COPY_HOST_PTR, hostbuf=text)
counts_buffer = cl.Buffer(context, flags.READ_WRITE | flags.COPY_HOST_PTR, hostbuf=counts)
program = cl.Program(context, SOURCE).build(options=[count])
program.count_letters(queue, text.shape, None, text_buffer, counts_buffer)
cl.enqueue_copy(queue, counts, counts_buffer)
print(" ".join(f"{chr(ord('a') + i)}{n}" for i, n in enumerate(counts) if n > 1))
