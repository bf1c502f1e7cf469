#!/usr/bin/env python3
"""Counts the native instructions that a call of a helper takes on the device, by valgrind's callgrind.

    instructions.py CLSIM FILE HELPER ARGUMENT ... [, HELPER ARGUMENT ...]

FILE has the helpers, and the arguments are numbers. A work-item calls the helpers in each turn of a loop; what a turn
takes without the calls is left out. The line has the instructions for a turn, and those of a turn without calls.
"""
import os
import re
import subprocess
import sys
import tempfile

sys.path.insert(0, os.path.dirname(os.path.abspath(__file__)))
import helpers as texts  # noqa: E402

FEW, MANY = 1000, 3000


def script(source, turns):
    return (f"buffer r 8\nprogram q {source.count(chr(10))}\n{source}kernel k q called\narg k 0 buffer r\n"
            f"arg k 1 value {turns}\nlaunch k 1 1\n")


def instructions(clsim, source, turns):
    """Those of the whole program."""
    with tempfile.TemporaryDirectory() as folder:
        path = os.path.join(folder, "script.txt")
        with open(path, "w", encoding="ascii") as file:
            file.write(script(source, turns))
        command = ["valgrind", "--tool=callgrind", f"--callgrind-out-file={folder}/out", clsim, "run", path]
        told = subprocess.run(command, capture_output=True, text=True)
    found = re.search(r"Collected : (\d+)", told.stderr)
    if not found or "clean" not in told.stdout:
        sys.exit(told.stdout + told.stderr)
    return int(found.group(1))


def for_a_turn(clsim, source):
    return (instructions(clsim, source, MANY) - instructions(clsim, source, FEW)) / (MANY - FEW)


def kernel(helpers, calls):
    """A kernel whose loop makes the calls. Each argument is a variable, as it is in a kernel."""
    declared, made = "", ""
    for n, (name, arguments) in enumerate(calls):
        given = []
        for letter, (kind, word) in zip("abcdefgh", zip(helpers[name].types, arguments)):
            declared += f"{kind} {letter}{n} = ({kind}){word}{'ul' if kind in ('long', 'ulong') else 'u'};\n"
            given.append(f"{letter}{n}")
        made += f"{helpers[name].result} x{n} = {name}({', '.join(given)});\n"
    return (texts.text_of(helpers, [name for name, _ in calls])
            + "__kernel void called(__global ulong *r, int n) {\n" + declared
            + "for (int i = 0; i < n; i++) {\n" + made + "}\n*r = n;\n}\n")


def main():
    clsim, path = sys.argv[1:3]
    helpers, calls = texts.read_helpers(path), []
    for words in " ".join(sys.argv[3:]).split(","):
        name, *arguments = words.split()
        calls.append((name, arguments))
    without = for_a_turn(clsim, kernel(helpers, []))
    taken = for_a_turn(clsim, kernel(helpers, calls)) - without
    print(f"{', '.join(name for name, _ in calls)}: {taken:.0f} instructions; a turn without calls {without:.0f}")


if __name__ == "__main__":
    main()
