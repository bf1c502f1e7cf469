"""Clangs that do what they shouldn't: what the front end says then, how soon, and that no process of theirs stays.

    front_bad.py FRONT_TREE [CLANG]

FRONT_TREE is front_tree.c, built. The last line is `N clangs are told`, else the first that isn't is told.
"""
import os
import subprocess
import sys
import tempfile
import time

SOURCE = "kernel void misbehave(global int *a) { a[get_global_id(0)] = 1; }\n"
LATE = "takes longer than"
SECONDS = 4  # for a clang that may take too long
ENOUGH = 120  # for any other one, on a machine with much else to do
# What a clang does in place of reading a source: `dump` in place of its tree, `text` in place of the preprocessed text.
# $REAL is the real one's output. Behind it is what the log says; of one that writes without end, what comes first.
DUMPS = {
    "dies": ("exit 3", "ends with status 3"),
    "is killed": ("kill -SEGV $$", "was ended by signal 11"),
    "writes nothing": ("exit 0", "it doesn't begin as a tree"),
    "writes half a line": ('printf "%s" "$REAL" | head -c 9000', "half of one"),
    "writes a part": ('printf "%s\\n" "$REAL" | head -n 60', "it ends too early"),
    "writes words": ("echo hello world", "it doesn't begin as a tree"),
    "writes bytes": ("head -c 1000000 /dev/urandom", "a tree of this source that Clsim can't read"),
    "writes words in between": ('printf "%s\\n" "$REAL" | sed "s/.*FunctionDecl.*misbehave.*/hello world/"',
                                "a line that can't be read"),
    "indents too far": ('printf "%s\\n" "$REAL" | sed "/FunctionDecl.*misbehave/s/^/| | | | /"',
                        "indented too far"),
    "writes one line without end": ("yes abcdefghijklmnopqrstuvwxyz | tr -d '\\n'",
                                    ("it doesn't begin as a tree", "half of one", LATE)),
    "writes nodes without end": ('echo "TranslationUnitDecl 0x1 <<invalid sloc>> <invalid sloc>"; '
                                 'yes "|-NullStmt 0x2 <line:9:9>"',
                                 ("it has more than 4000000 nodes", LATE)),
    "writes a hundred levels without end": ('echo "TranslationUnitDecl 0x1 <<invalid sloc>> <invalid sloc>"; '
                                            'yes "$(printf "| %.0s" $(seq 100))|-NullStmt 0x2 <line:9:9>"',
                                            "indented too far"),
    "never ends": ("sleep 1000", LATE),
    "never ends behind its tree": ('printf "%s\\n" "$REAL"; sleep 1000', LATE),
    "closes its output and never ends": ('exec >&- 2>&-; sleep 1000', LATE),
    "leaves a process that never ends": ("sleep 1000 & sleep 1000", LATE),
    "tells errors without end": ("yes complaint >&2", LATE),
    "tells an error": ("echo 'source:1:1: error: no' >&2; exit 1", "source:1:1: error: no"),
}
TEXTS = {
    "writes a text without end": ("yes 'typedef int t;'", ("it is too long", LATE)),
    "writes no text": ("exit 0", "its preprocessed text ends too early"),
    "writes a part of a text": ('printf "%s\\n" "$text" | {clang} "$@" | head -n -3', "ends too early"),
    "dies at the text": ("exit 4", "ends with status 4"),
}
FAKE = """#!/bin/bash
text=$(cat)
case "$text" in
*misbehave*)
    case "$*" in
    *-ast-dump*)
        REAL=$(printf '%s\\n' "$text" | {clang} "$@")
        {dump}
        exit ;;
    *-E*)
        {text}
        exit ;;
    esac
esac
printf '%s\\n' "$text" | exec {clang} "$@"
"""
PLAIN_DUMP, PLAIN_TEXT = 'printf "%s\\n" "$REAL"', 'printf "%s\\n" "$text" | {clang} "$@"'
# as clang 13 writes it behind a pragma
MARKED_TEXT = PLAIN_TEXT + '; printf "# 9 \\"source\\"\\n\\n"'


def own_processes(mark):
    """The processes whose environment has a mark."""
    found = []
    for number in os.listdir("/proc"):
        try:
            with open(f"/proc/{number}/environ", "rb") as file:
                if mark.encode() in file.read():
                    found.append(number)
        except OSError:
            pass
    return found


class Bench:
    def __init__(self, folder, tree, clang):
        self.folder, self.tree, self.clang = folder, tree, clang
        self.source = os.path.join(folder, "source.cl")
        with open(self.source, "w", encoding="ascii") as file:
            file.write(SOURCE)

    def fake(self, dump, text):
        path = os.path.join(self.folder, "clang")
        with open(path, "w", encoding="ascii") as file:
            file.write(FAKE.format(clang=self.clang, dump=dump.replace("{clang}", self.clang),
                                   text=text.replace("{clang}", self.clang)))
        os.chmod(path, 0o755)
        return path

    def read(self, clang, seconds):
        """What the front end says with a clang, and how long it takes. None of the clang's processes may stay."""
        mark = f"FRONT_BAD={os.getpid()}_{time.monotonic()}"
        settings = {**os.environ, "CLSIM_CLANG": clang, "CLSIM_CLANG_SECONDS": str(seconds),
                    **dict([mark.split("=")])}
        begin = time.monotonic()
        done = subprocess.run([self.tree, self.source], capture_output=True, text=True, env=settings,
                              timeout=2 * ENOUGH)
        took, stays = time.monotonic() - begin, own_processes(mark)
        while stays and time.monotonic() - begin < took + 10:  # what is killed needs a moment to be gone
            time.sleep(0.1)
            stays = own_processes(mark)
        return done.returncode, done.stderr, took, stays


def wrong(bench, name, clang, told):
    words = [told] if isinstance(told, str) else told
    status, log, took, stays = bench.read(clang, SECONDS if LATE in words else ENOUGH)
    if status != 1 or not any(word in log for word in words):
        return f"{name}: status {status} in place of 1, or nothing of '{told}' in\n{log[:1500]}"
    if stays:
        return f"{name}: processes {stays} are left"
    return f"{name}: it took {took:.0f} seconds" if took > ENOUGH else ""


def main():
    tree, clang = sys.argv[1], sys.argv[2] if len(sys.argv) > 2 else "clang"
    with tempfile.TemporaryDirectory() as folder:
        bench = Bench(folder, os.path.abspath(tree), clang)
        cases = [(name, bench.fake, dump, PLAIN_TEXT, told) for name, (dump, told) in DUMPS.items()]
        cases += [(name, bench.fake, PLAIN_DUMP, text, told) for name, (text, told) in TEXTS.items()]
        found = ""
        for name, text in [("the plain one", PLAIN_TEXT), ("one with a place behind its end", MARKED_TEXT)]:
            status, log, _, stays = bench.read(bench.fake(PLAIN_DUMP, text), ENOUGH)
            found = found or ("" if status == 0 and not stays else f"{name}: status {status}\n{log}")
        for name, fake, dump, text, told in cases:
            found = found or wrong(bench, name, fake(dump, text), told)
        old = bench.fake(PLAIN_DUMP, PLAIN_TEXT)
        with open(old, "w", encoding="ascii") as file:
            file.write('#!/bin/sh\ncase "$*" in *--version*) echo "clang version 12.0.1"; esac\n')
        found = found or wrong(bench, "an old one", old, "clang 12.0.1")
        found = found or wrong(bench, "one that isn't there", "/nowhere/clang", "cannot start /nowhere/clang")
        found = found or wrong(bench, "a folder", folder, f"cannot start {folder}: ")
    print(found or f"{len(cases) + 3} clangs are told")
    return 1 if found else 0


if __name__ == "__main__":
    sys.exit(main())
