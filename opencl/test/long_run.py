"""Random kernels in a long run: front_fuzz.py or front_floats.py, chunk by chunk, in several processes.

    long_run.py FOLDER [--seed N] [--count N] [--chunk N] [--jobs N] [--program NAME]

FOLDER/log has a line for each chunk that is done: its first seed, how many kernels it has, how many of them are the
same, refused, and differ, and its seconds. The same command goes on where it was stopped, so that a stop loses what
the chunks were at. Kernels that differ or are refused are kept in FOLDER. Both platforms are found by the loader, as
by front_fuzz.py. The last line is the sum; the status is 0 where none differs.
"""
import argparse
import os
import re
import subprocess
import sys
import time
from concurrent.futures import ThreadPoolExecutor

HERE = os.path.dirname(os.path.abspath(__file__))
LAST = re.compile(r"^(\d+) the same, (\d+) refused, (\d+) differ$", re.M)


def chunks_done(log):
    """The chunks of a log, by their first seeds. A line that isn't whole is none."""
    if not os.path.exists(log):
        return {}
    with open(log, encoding="ascii") as file:
        lines = [line.split() for line in file if line.endswith("\n")]
    return {int(words[0]): [int(word) for word in words[1:5]] for words in lines if len(words) == 6}


def run_chunk(given, first, count):
    """One process over some seeds: how many kernels it tried, and what came of them; None where it didn't end well."""
    begin = time.monotonic()
    words = [sys.executable, os.path.join(HERE, given.program), "--seed", str(first), "--count", str(count), "--keep",
             given.folder]
    done = subprocess.run(words, capture_output=True, text=True, stdin=subprocess.DEVNULL, check=False)
    found = LAST.search(done.stdout)
    told = [line for line in done.stdout.splitlines() if line.startswith("seed ") or " refused: " in line]
    print("\n".join([f"{first}: {line}" for line in told]), end="\n" if told else "", flush=True)
    if not found:
        print(f"{first}: status {done.returncode}\n{done.stdout[-500:]}{done.stderr[-1500:]}", flush=True)
        return
    with open(os.path.join(given.folder, "log"), "a", encoding="ascii") as file:
        file.write(f"{first} {count} {' '.join(found.groups())} {time.monotonic() - begin:.0f}\n")


def main():
    parser = argparse.ArgumentParser()
    parser.add_argument("folder")
    parser.add_argument("--seed", type=int, default=1)
    parser.add_argument("--count", type=int, default=10000)
    parser.add_argument("--chunk", type=int, default=100)
    parser.add_argument("--jobs", type=int, default=1)
    parser.add_argument("--program", default="front_fuzz.py")
    given = parser.parse_args()
    os.makedirs(given.folder, exist_ok=True)
    log = os.path.join(given.folder, "log")
    done = chunks_done(log)
    wanted = range(given.seed, given.seed + given.count, given.chunk)
    with ThreadPoolExecutor(given.jobs) as pool:
        for first in wanted:
            if first not in done:
                pool.submit(run_chunk, given, first, min(given.chunk, given.seed + given.count - first))
    tried, same, refused, differ = (sum(column) for column in zip([0] * 4, *chunks_done(log).values()))
    print(f"{tried} kernels: {same} the same, {refused} refused, {differ} differ")
    return 1 if differ else 0


if __name__ == "__main__":
    sys.exit(main())
