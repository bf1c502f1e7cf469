"""Refuses each request for memory of the front end in turn: each has to be told as such, and nothing may leak.

    front_memory.py FRONT_TREE [CLANG]

FRONT_TREE is front_tree.c, built without sanitizers, which have an allocator of their own. What clang writes is kept
and played back. The last line is `N requests are refused`, else the first run that ends otherwise is told.
"""
import os
import re
import shlex
import subprocess
import sys
import tempfile

HERE = os.path.dirname(os.path.abspath(__file__))
SOURCE = """typedef struct { int a; uchar4 b[3]; } S;
__constant int table[] = {1, 2, 3};
enum { ONE = 1 };
#define NEXT(a) (a + 1)
kernel void k(global S *s, local int *l) {
    for (int i = 0; i < NEXT(2); i++) s[i].b[ONE].xy = (uchar2)(table[i]);
    goto out;
out:;
}
"""
RECORD = """#!/bin/sh
case "$*" in *-ast-dump*) name=dump ;; *) name=text ;; esac
cat >{folder}/input
if grep -q ONE {folder}/input; then name=own_$name; fi
[ -e {folder}/$name ] || {clang} "$@" <{folder}/input >{folder}/$name
exec cat {folder}/$name
"""


def main():
    tree, clang = os.path.abspath(sys.argv[1]), sys.argv[2] if len(sys.argv) > 2 else "clang"
    with tempfile.TemporaryDirectory() as folder:
        fake, source, library, report = (os.path.join(folder, n) for n in ["clang", "source.cl", "refuse.so", "report"])
        with open(fake, "w", encoding="ascii") as file:
            file.write(RECORD.format(folder=folder, clang=shlex.quote(clang)))
        os.chmod(fake, 0o755)
        with open(source, "w", encoding="ascii") as file:
            file.write(SOURCE)
        subprocess.run(["cc", "-shared", "-fPIC", "-O1", os.path.join(HERE, "../../tools/refuse.c"), "-o", library],
                       check=True)
        settings = {**os.environ, "CLSIM_CLANG": fake}
        subprocess.run([tree, source], check=True, env=settings, stdout=subprocess.DEVNULL)
        subprocess.run([tree, source], env={**settings, "LD_PRELOAD": library, "REFUSE": "each", "REPORT": report},
                       stdin=subprocess.DEVNULL, timeout=1200)
        with open(report, "rb") as file:
            text = file.read()
    runs = re.findall(rb"^run (\d+) status (\d+) asked (\d+) refused (\d+) live (-?\d+) output \d+ error \d+$", text,
                      re.M)
    runs = [[int(n) for n in r] for r in runs]
    plain = runs[0]
    for number, status, _, refused, live in runs:
        if status not in ([2, 0] if refused else [0]) or live > plain[4]:
            print(f"request {number}: status {status}, {live} blocks live (else {plain[4]})")
            return 1
    print(f"{len(runs) - 2} requests are refused")
    return 0


if __name__ == "__main__":
    sys.exit(main())
