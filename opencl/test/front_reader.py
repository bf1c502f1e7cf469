"""Compares what the front end reads of random sources with what clang tells in JSON, node by node: kinds, places,
types, values, and the layouts of structs and unions with clang's own.

    front_reader.py FRONT_TREE [CLANG] [--seed N] [--count N]

FRONT_TREE is front_tree.c, built. The last line is `N sources agree`, else the first that doesn't is told.
"""
import argparse
import difflib
import os
import re
import subprocess
import sys
import tempfile

sys.path.insert(0, os.path.dirname(os.path.abspath(__file__)))

import front_json  # noqa: E402
import front_sources  # noqa: E402


def without_numbers(text):
    """The numbers of attributes aren't in the JSON."""
    return re.sub(r"\[(\w+Attr)[ 0-9]*\]", r"[\1]", text)


def difference(tree, clang, path):
    """Where the two readings of a file differ; empty where they don't."""
    read = subprocess.run([tree, path], capture_output=True, text=True, env={**os.environ, "CLSIM_CLANG": clang})
    if read.returncode:
        return f"status {read.returncode}: {read.stderr[:2000]}"
    own = without_numbers(read.stdout).splitlines()
    other = front_json.Reader(clang, path).write().splitlines()
    return "\n".join(list(difflib.unified_diff(own, other, "the front end", "JSON", lineterm="", n=1))[:40])


def wrong_layout(clang, source, records, path):
    """What clang says to the layouts that the front end's rules give."""
    with open(path, "w", encoding="ascii") as file:
        file.write(source)
    reader = front_json.Reader(clang, path)
    lines = []
    for spelled, members in records:
        t = reader.read_type(spelled)
        lines.append(f'_Static_assert(sizeof({spelled}) == {t.size} && __alignof__({spelled}) == {t.align}, "size");')
        names = {c["name"]: reader.fields[c["id"]][0] for c in t.record["inner"]
                 if c.get("kind") == "FieldDecl" and "name" in c}
        lines += [f'_Static_assert(__builtin_offsetof({spelled}, {n}) == {o}, "{n}");' for n, o in names.items()]
    with open(path, "a", encoding="ascii") as file:
        file.write("\n".join(lines) + "\n")
    return front_json.run_clang(clang, path, [], "=json").stderr[:2000]


def main():
    parser = argparse.ArgumentParser()
    parser.add_argument("tree")
    parser.add_argument("clang", nargs="?", default="clang")
    parser.add_argument("--seed", type=int, default=1)
    parser.add_argument("--count", type=int, default=50)
    given = parser.parse_args()
    with tempfile.TemporaryDirectory() as folder:
        path = os.path.join(folder, "source.cl")
        for seed in range(given.seed, given.seed + given.count):
            source = front_sources.source(seed)
            with open(path, "w", encoding="ascii") as file:
                file.write(source)
            found = difference(given.tree, given.clang, path) or \
                wrong_layout(given.clang, source, front_sources.records(seed), path)
            if found:
                print(f"{source}\nseed {seed}:\n{found}")
                return 1
    print(f"{given.count} sources agree")
    return 0


if __name__ == "__main__":
    sys.exit(main())
