"""Random kernels on floating-point numbers on Clsim's driver and on pocl: they have to leave the same bytes, and
results of functions within both their bounds.

    front_floats.py [--seed N] [--count N] [--first N..] [--together N] [--keep FOLDER] [--seconds N]

As front_fuzz.py; the last line is `N the same, M refused, K differ`.
"""
import math
import os
import random
import sys

import numpy as np

sys.path.insert(0, os.path.dirname(os.path.abspath(__file__)))

import float_kernels  # noqa: E402
import front_fuzz  # noqa: E402

ITEMS, NEAR = float_kernels.ITEMS, float_kernels.NEAR


def distance(t, x, y):
    """How far two results are from one another, in units of the last place of the format."""
    if x == y or (math.isnan(x) and math.isnan(y)):
        return 0.0
    if not (math.isfinite(x) and math.isfinite(y)):
        return math.inf
    kind = np.float32 if t == "float" else np.float64
    return abs(x - y) / max(float(np.spacing(kind(max(abs(x), abs(y))))), float(np.finfo(kind).tiny))


class Floats:
    """Kernels on floating-point numbers."""

    program = staticmethod(float_kernels.program)

    def __init__(self, devices, programs, seeds):
        self.devices, self.programs, self.seeds = devices, programs, seeds

    def left(self, which, n, data):
        """The words and the near results that a kernel leaves on a device."""
        device = self.devices[which]
        out, near = np.zeros(ITEMS * 8, dtype=np.uint64), np.zeros(ITEMS * NEAR, dtype=np.float64)
        held = [device.buffer(out), device.buffer(near)]
        device.launch(self.programs[which], n, *held, device.buffer(data))
        return device.read(held[0], out), device.read(held[1], near)

    def compare(self, n):
        """`same`, or what differs."""
        bounds, chance = float_kernels.Kernel(self.seeds[n]).near, random.Random(self.seeds[n])
        data = np.array([float_kernels.word(chance) for _ in range(ITEMS * float_kernels.WORDS)], dtype=np.uint64)
        (mine, near), (other, far) = self.left(0, n, data), self.left(1, n, data)
        if not np.array_equal(mine, other):
            at = int(np.nonzero(mine != other)[0][0])
            return f"word {at}: {int(mine[at]):#x} and on pocl {int(other[at]):#x}"
        for at in range(len(near)):
            t, ulps = bounds[at % NEAR] if at % NEAR < len(bounds) else ("float", 0)
            if distance(t, float(near[at]), float(far[at])) > 2 * ulps:
                return f"near result {at}: {float(near[at])!r} and on pocl {float(far[at])!r}, bound {ulps}"
        return "same"


if __name__ == "__main__":
    sys.exit(front_fuzz.main(Floats))
