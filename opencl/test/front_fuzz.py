"""Random kernels of all constructs on Clsim's driver and on pocl: they have to leave the same bytes.

    front_fuzz.py [--seed N] [--count N] [--first N..] [--together N] [--keep FOLDER] [--seconds N]

Both are found by the ICD loader (OCL_ICD_VENDORS names the folder of their vendor files). The kernels are those of the
seeds N and so on, behind those of --first. So many kernels are one program, since a program takes more of a compiler's
time than a kernel: where one is refused, each is tried alone. Each kernel that differs is told, and kept in the folder.
A kernel that the driver refuses is counted by its reason. One that differs from what pocl makes of it without
optimization, and not from what it makes with it, is told and is none that differs. The last line is `N the same, M
refused, K differ`; the status is 0 where none differs and no more than one of ten is refused.
"""
import argparse
import collections
import os
import random
import re
import sys
import time
import warnings

import numpy as np
import pyopencl as cl

sys.path.insert(0, os.path.dirname(os.path.abspath(__file__)))

import front_kernels  # noqa: E402

OUT = front_kernels.ITEMS * 8
IN = front_kernels.ITEMS * front_kernels.WORDS


class Refused(Exception):
    """A source that isn't built."""


class Device:
    """One of the two platforms."""

    def __init__(self, name):
        platform = next(p for p in cl.get_platforms() if name in p.name)
        self.context = cl.Context([platform.get_devices()[0]])
        self.queue = cl.CommandQueue(self.context)

    def buffer(self, data):
        return cl.Buffer(self.context, cl.mem_flags.READ_WRITE | cl.mem_flags.COPY_HOST_PTR, hostbuf=data)

    def read(self, buffer, data):
        back = np.empty_like(data)
        cl.enqueue_copy(self.queue, back, buffer)
        return back

    def built(self, source, options=("-cl-opt-disable",)):
        try:
            return cl.Program(self.context, source).build(options=list(options))
        except cl.RuntimeError as error:
            raise Refused(str(error)) from error

    def launch(self, program, n, *arguments):
        kernel = cl.Kernel(program, f"f_{n}")
        kernel.set_args(*arguments)
        cl.enqueue_nd_range_kernel(self.queue, kernel, (front_kernels.ITEMS,), (front_kernels.GROUP,))

    def sizes(self, program, count):
        """The sizes of the structs of a program's kernels."""
        sizes = np.zeros(count, dtype=np.uint32)
        held = self.buffer(sizes)
        program.measure(self.queue, (1,), (1,), held)
        return self.read(held, sizes)


class Whole:
    """Kernels on whole numbers."""

    program = staticmethod(front_kernels.program)

    def __init__(self, devices, programs, seeds):
        self.devices, self.programs, self.seeds = devices, programs, seeds
        self.sizes = [device.sizes(program, len(seeds)) for device, program in zip(devices, programs)]

    def left(self, which, n, data):
        """The bytes that a kernel leaves on a device; the struct gets bytes by chance."""
        device, seed = self.devices[which], self.seeds[n]
        value = np.frombuffer(random.Random(seed).randbytes(int(self.sizes[which][n])), dtype=np.uint8)
        out = np.zeros(OUT, dtype=np.uint64)
        held = device.buffer(out)
        device.launch(self.programs[which], n, held, device.buffer(data), value)
        return device.read(held, out)

    def compare(self, n):
        """`same`, or what differs."""
        data = np.array([random.Random(self.seeds[n] + i).getrandbits(64) for i in range(IN)], dtype=np.uint64)
        mine, other = self.left(0, n, data), self.left(1, n, data)
        if np.array_equal(mine, other):
            return "same"
        at = int(np.nonzero(mine != other)[0][0])
        return f"word {at}: {int(mine[at]):#x} and on pocl {int(other[at]):#x}"


def reason(error):
    """What a refusal says, without names and numbers."""
    found = re.search(r"error: (.*)", error) or re.search(r"(TooLong\w*|TooLarge\w*|refused .*)", error)
    return re.sub(r"'[^']*'|\d+", "_", found.group(1))[:100] if found else error[:200]


def compared(kernels, n):
    try:
        found = kernels.compare(n)
    except cl.Error as error:
        found = str(error)[:500]
    return ("same", "") if found == "same" else ("differ", found)


def compared_twice(kind, devices, kernels, n):
    """A kernel that differs is built alone once more, by pocl with optimization: where it is the same then, it is pocl
    that differs from itself."""
    what, words = compared(kernels, n)
    if what == "same":
        return what, words
    seed = kernels.seeds[n]
    try:
        source = kind.program([seed])
        alone = kind(devices, [devices[0].built(source), devices[1].built(source, ())], [seed])
    except (Refused, cl.Error):
        return what, words
    return ("optimized", words) if compared(alone, 0)[0] == "same" else (what, words)


def judged(kind, devices, seeds):
    """What comes of each seed: the seed, its class, and words."""
    try:
        programs = [device.built(kind.program(seeds)) for device in devices]
        kernels = kind(devices, programs, seeds)
    except (Refused, cl.Error) as error:
        if len(seeds) > 1:
            return [found for seed in seeds for found in judged(kind, devices, [seed])]
        is_refused = isinstance(error, Refused)
        return [(seeds[0], *(("refused", reason(str(error))) if is_refused else ("differ", str(error)[:500])))]
    return [(seed, *compared_twice(kind, devices, kernels, n)) for n, seed in enumerate(seeds)]


def main(kind):
    parser = argparse.ArgumentParser()
    parser.add_argument("--seed", type=int, default=1)
    parser.add_argument("--count", type=int, default=200)
    parser.add_argument("--first", type=int, nargs="*", default=[])
    parser.add_argument("--together", type=int, default=10)
    parser.add_argument("--seconds", type=float, default=1e9)
    parser.add_argument("--keep")
    given = parser.parse_args()
    warnings.simplefilter("ignore")
    devices = [Device("Clsim"), Device("Portable")]
    counts, reasons = collections.Counter(), collections.Counter()
    begin, tried = time.monotonic(), [*given.first, *range(given.seed, given.seed + given.count)]
    for first in range(0, len(tried), given.together):
        if time.monotonic() - begin > given.seconds:
            break
        for seed, what, words in judged(kind, devices, tried[first:first + given.together]):
            counts[what] += 1
            if what == "refused":
                reasons[words] += 1
            if what in ("differ", "optimized"):
                print(f"seed {seed}: {words}", flush=True)
            if what != "same" and given.keep:
                with open(os.path.join(given.keep, f"{what}_{seed}.cl"), "w", encoding="ascii") as file:
                    file.write(kind.program([seed]))
    for words, count in reasons.most_common():
        print(f"{count} refused: {words}")
    if counts["optimized"]:
        print(f"{counts['optimized']} the same only where pocl optimizes them")
    print(f"{counts['same'] + counts['optimized']} the same, {counts['refused']} refused, {counts['differ']} differ")
    return 1 if counts["differ"] or counts["refused"] * 10 > sum(counts.values()) else 0


if __name__ == "__main__":
    sys.exit(main(Whole))
