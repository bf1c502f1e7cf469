"""Piglit's OpenCL programs (Debian: piglit) on the driver, each with what becomes of its tests. By hand:

    OCL_ICD_VENDORS=../../vendors python3 piglit.py LOG [--every N] [--whole] [FOLDER]..

FOLDER is one of Piglit's, as tests/cl/program/execute; without one all that have OpenCL programs are taken, but for
those with images, and by `--whole` for those with floating-point numbers too. Of each folder's programs every N-th is
run. A line for each goes to the end of LOG: `pass`, `fail`
or `skip` as Piglit tells it, how many of its tests pass, and of those that don't what the driver says: `race`,
`bounds` .., `refused` for a source that isn't built, else `wrong`. Programs that LOG has are left out, so that a run
may go on. The last lines count.
"""
import argparse
import collections
import glob
import os
import re
import subprocess

PIGLIT = next(iter(glob.glob("/usr/lib/*/piglit")), "/usr/lib/piglit")
LIMIT = 600


def programs(folder, is_whole):
    """Sources without images, and descriptions of tests, by their paths below Piglit's folder."""
    for path in sorted(glob.glob(os.path.join(PIGLIT, folder, "*"))):
        if path.endswith((".cl", ".program_test")) and os.path.isfile(path):
            with open(path, encoding="utf-8", errors="replace") as file:
                text = file.read()
            has_images = re.search(r"image[123]d|sampler_t|read_image|write_image", text)
            has_floats = re.search(r"\b(float|double|half)\d*\b", text)
            if not has_images and not (is_whole and has_floats):
                yield os.path.relpath(path, PIGLIT)


def all_folders():
    found = glob.glob(os.path.join(PIGLIT, "**/cl/**/*.cl"), recursive=True)
    return sorted({os.path.relpath(os.path.dirname(path), PIGLIT) for path in found})


def kinds_of_failures(told):
    """What the driver says of the tests that fail: a launch with a fault is a test."""
    kinds = collections.Counter(re.findall(r"^clsim: *reply: fault \d+ (\w+)", told, re.M))
    wrong = len(re.findall(r'"subtest".*"fail"', told)) - sum(kinds.values())
    if wrong > 0:
        kinds["wrong"] = wrong
    if not kinds and re.search(r"error: |Could not build", told):
        kinds["refused"] += 1
    return kinds


def tried(program):
    try:
        done = subprocess.run([os.path.join(PIGLIT, "bin/cl-program-tester"), program], cwd=PIGLIT, text=True,
                              stdout=subprocess.PIPE, stderr=subprocess.STDOUT, stdin=subprocess.DEVNULL,
                              errors="replace", timeout=LIMIT)
        told = done.stdout
    except subprocess.TimeoutExpired:
        return f"{program} fail 0 timeout=1"
    result = re.findall(r'^PIGLIT: \{"result": "(\w+)"', told, re.M)
    passes = len(re.findall(r'"subtest".*"pass"', told))
    kinds = kinds_of_failures(told) if result and result[-1] == "fail" else {}
    return " ".join([program, result[-1] if result else "none", str(passes), *(f"{k}={n}" for k, n in kinds.items())])


def main():
    parser = argparse.ArgumentParser()
    parser.add_argument("log")
    parser.add_argument("--every", type=int, default=1)
    parser.add_argument("--whole", action="store_true")
    parser.add_argument("folders", nargs="*")
    words = parser.parse_intermixed_args()
    log, lines = words.log, []
    if os.path.exists(log):
        with open(log, encoding="utf-8") as file:
            lines = file.read().splitlines()
    known = {line.split()[0] for line in lines}
    folders = words.folders or all_folders()
    for program in [p for folder in folders for p in list(programs(folder, words.whole))[::words.every]]:
        if program not in known:
            lines.append(tried(program))
            with open(log, "a", encoding="utf-8") as file:
                file.write(lines[-1] + "\n")
    counts, kinds = collections.Counter(line.split()[1] for line in lines), collections.Counter()
    for line in lines:
        for word in line.split()[3:]:
            kinds[word.split("=")[0]] += int(word.split("=")[1])
    print(f"{len(lines)} programs: " + ", ".join(f"{n} {what}" for what, n in counts.most_common()))
    print(f"{sum(int(line.split()[2]) for line in lines)} of their tests pass"
          + "".join(f", {n} {what}" for what, n in kinds.most_common()))


if __name__ == "__main__":
    main()
