import sys
import numpy as np
import pyopencl as cl

context = cl.create_some_context(interactive=False)
queue = cl.CommandQueue(context)
mf = cl.mem_flags
program = cl.Program(context, """
__kernel void compact(__global const int *a, __global int *count, __global int *out, __global int *last) {
    int i = get_global_id(0);
    if (a[i] % 2) {
        out[atomic_inc(count)] = a[i];
        if (MISTAKE) last[0] = a[i];
    }
}
""").build(options=["-DMISTAKE=" + str(len(sys.argv) - 1)])
for seed in range(4):
    a = np.random.RandomState(seed).randint(0, 1000, 96).astype(np.int32)
    a_g = cl.Buffer(context, mf.READ_ONLY | mf.COPY_HOST_PTR, hostbuf=a)
    counts = np.zeros(2, dtype=np.int32)
    count_g, last_g = [cl.Buffer(context, mf.READ_WRITE | mf.COPY_HOST_PTR, hostbuf=counts[:1]) for _ in range(2)]
    out_g = cl.Buffer(context, mf.READ_WRITE, a.nbytes)
    program.compact(queue, a.shape, (16,), a_g, count_g, out_g, last_g)
    out = np.empty_like(a)
    cl.enqueue_copy(queue, out, out_g)
    cl.enqueue_copy(queue, counts[:1], count_g)
    assert counts[0] == (a % 2).sum() and (np.sort(out[:counts[0]]) == np.sort(a[a % 2 == 1])).all()
print("compaction is right")
