#!/usr/bin/env python3
"""Builds what runs scripts for a worker: `tools/farming/building.py PROGRAM [FLAG..]`, by the C compiler CC (cc), which
is given the flags too. Status 0, or 2 with a line on standard error that says why it can't be built."""
import os
import shlex
import subprocess
import sys

SOURCE = f"{os.path.dirname(os.path.realpath(__file__))}/run.c"
WORDS = ["-std=gnu11", "-O2", "-Wall", "-Wextra", "-Werror", "-s"]


def build(path, flags=()):
    """Builds the program, whole or not at all: why it can't be built, None where it is there then."""
    new, compiler = f"{path}.{os.getpid()}.new", shlex.split(os.environ.get("CC", "")) or ["cc"]
    try:
        os.makedirs(os.path.dirname(path) or ".", exist_ok=True)
        ran = subprocess.run([*compiler, *WORDS, *flags, "-o", new, SOURCE], capture_output=True, text=True,
                             errors="replace", check=False)
        if ran.returncode == 0:
            os.replace(new, path)
            return None
        told = [line for line in ran.stderr.split("\n") if "error" in line] or [f"status {ran.returncode}"]
        return f"{compiler[0]} can't build it: {told[0][:200]}"
    except FileNotFoundError:
        return f"no C compiler {compiler[0]}"
    except OSError as fault:
        return f"{fault.filename or path}: {fault.strerror}"
    finally:
        if os.path.exists(new):
            os.remove(new)


def main():
    why = build(sys.argv[1], sys.argv[2:])
    if why:
        print(f"tools/farming/building.py: {why}", file=sys.stderr)
    return 2 if why else 0


if __name__ == "__main__":
    sys.exit(main())
