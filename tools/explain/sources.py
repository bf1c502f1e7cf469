#!/usr/bin/env python3
"""Names the client's sources in explanations by their files: `tools/explain/sources.py FILE > named`.

Reads the explanations of host programs, which the driver writes (docs/use/host-programs.md, CLSIM_JSON), from the files
that are named or from standard input. Where a file below the current folder has the very text of one of their sources,
and a name that ends in one of ENDS, that source is named by its path, in all places too. Where none has, but such a
file is a part of the text, or the text stands in a file of a host program (HOSTS), as it is or as string literals in a
row, but for a few lines at its end, the places there are those of that file. Each explanation is written in a line. The
status is 0, or 2 where the input is bad."""

import bisect
import json
import os
import re

from reading import explanations, run, text_of

ENDS = (".cl", ".clh", ".h", ".inc", ".opencl", ".ocl")
HOSTS = (".c", ".cc", ".cpp", ".cxx", ".h", ".hh", ".hpp", ".hxx", ".inc", ".py", ".rs", ".go", ".jl", ".java", ".js")
MOST = 20000  # files that are looked at
LARGEST = 1 << 20  # bytes of a file of a host program that is looked into
ADDED = 4  # lines that a library may add at the end of a text
LEAST = 40  # bytes of a file, or of what is left of a text, that are enough to know it by

# a string literal of one line, what stands between two that belong together, and what its escapes are
LITERAL = re.compile(rb'"((?:[^"\\\n]|\\[^\n])*)"')
BETWEEN = re.compile(rb"[\s+\\]*")
PART = re.compile(rb"\\(.)|([^\\])", re.S)
ESCAPED = {b"n": b"\n", b"t": b"\t", b"r": b"\r"}


class Inside:
    """Where a part of the text of a source stands in a file: where it begins, and the places of its bytes."""

    def __init__(self, path, content, places, begin=0):
        self.path, self.lines, self.places, self.begin = path, content.split(b"\n"), places, begin
        self.starts = [0]
        for line in self.lines[:-1]:
            self.starts.append(self.starts[-1] + len(line) + 1)

    def line_of(self, byte):
        """The number of the file's line that a byte of the text stands in."""
        return bisect.bisect(self.starts, self.places[byte])

    def moved(self, place):
        """A place of the text as one of the file; its own text is kept, but that of a whole line is the file's."""
        byte = place["offset"] - self.begin
        if not 0 <= byte < len(self.places):
            return place
        line = self.line_of(byte)
        at, start, raw = self.places[byte], self.starts[line - 1], self.lines[line - 1]
        own = {"file": self.path, "offset": at, "line": line, "script_line": line, "column": at - start + 1}
        if "length" in place:
            last = self.places[min(byte + max(1, place["length"]), len(self.places)) - 1]
            own["length"] = min(last + 1, start + len(raw)) - at if place["length"] else 0
        if "text" in place and ("node" in place or "length" not in place):
            own["text"] = text_of(raw)
        return {**place, **own}


def literals_of(content):
    """The texts of string literals in a row, each with where its bytes stand in a file."""
    text, places, end = b"", [], None
    for found in LITERAL.finditer(content):
        if end is not None and not BETWEEN.fullmatch(content, end, found.start()):
            yield text, places
            text, places = b"", []
        for part in PART.finditer(found[1]):
            text += part[2] or ESCAPED.get(part[1], part[1])
            places.append(found.start(1) + part.start())
        end = found.end()
    yield text, places


def places_in(content, text):
    """Where the bytes of a text, but for some lines at its end, stand in a file, as it is or in string literals; None
    where they don't."""
    joined = [(content, range(len(content))), *literals_of(content)]
    lines = text.split(b"\n")
    for added in range(min(ADDED, len(lines) - 1) + 1):
        wanted = b"\n".join(lines[: len(lines) - added])
        if added and len(wanted) < LEAST:
            return None
        for part, places in joined:
            at = part.find(wanted)
            if at >= 0:
                return places[at : at + len(wanted)]
    return None


class Folder:
    """The files below the current folder that may be sources by their sizes, and those of host programs."""

    def __init__(self):
        self.by_size, self.hosts, self.known, left = {}, [], {}, MOST
        for at, folders, names in os.walk("."):
            folders[:] = sorted(name for name in folders if not name.startswith("."))
            for name in sorted(names):
                path = os.path.relpath(os.path.join(at, name))
                if left and name.endswith((*ENDS, *HOSTS)) and os.path.isfile(path):
                    left -= 1
                    self.by_size.setdefault(os.path.getsize(path), []).append(path)
                    self.hosts += [path] if name.endswith(HOSTS) and os.path.getsize(path) <= LARGEST else []

    def path_of(self, text):
        """The path of a file that has this text; None where there is none."""
        paths = [path for path in self.by_size.get(len(text), []) if path.endswith(ENDS)]
        return next((path for path in paths if content_of(path) == text), None)

    def inside(self, text):
        """Where the text stands in the first file of a host program that has it; None where there is none."""
        if text not in self.known:
            self.known[text] = self.look_inside(text) if text.strip() else None
        return self.known[text]

    def look_inside(self, text):
        """Looks for files that are a part of the text, and into those of host programs."""
        for size in sorted((it for it in self.by_size if LEAST <= it < len(text)), reverse=True):
            for path in [path for path in self.by_size[size] if path.endswith(ENDS)]:
                begin = text.find(content_of(path) or text + b" ")
                if begin >= 0:
                    return Inside(path, content_of(path), range(size), begin)
        for path in self.hosts:
            content = content_of(path)
            places = places_in(content, text) if b"kernel" in content else None
            if places is not None:
                return Inside(path, content, places)
        return None


def content_of(path):
    """The bytes of a file; none where it can't be read."""
    try:
        with open(path, "rb") as file:
            return file.read()
    except OSError:
        return b""


def renamed(value, names, inside):
    """A value in which each place has the new name of its file, or is one of the file that its source stands in."""
    if isinstance(value, list):
        return [renamed(part, names, inside) for part in value]
    if not isinstance(value, dict):
        return value
    whole = {member: names.get(part, part) if member == "file" else renamed(part, names, inside)
             for member, part in value.items()}
    return inside[value["file"]].moved(whole) if value.get("file") in inside else whole


def launched(launch, text, where):
    """A launch whose kernel's line is that of the file in which the source stands."""
    line = launch["script_line"] or 0
    byte = sum(len(it) + 1 for it in text.split(b"\n")[: line - 1]) - where.begin
    return {**launch, "script_line": where.line_of(byte)} if line and 0 <= byte < len(where.places) else launch


def named(whole, folder):
    """An explanation with its sources named by their files."""
    texts = {source["name"]: source["text"].encode() for source in whole.get("sources", [])}
    names = {name: path for name, path in ((name, folder.path_of(text)) for name, text in texts.items()) if path}
    inside = {name: folder.inside(text) for name, text in texts.items() if name not in names}
    inside = {name: where for name, where in inside.items() if where}
    script, whole = whole["script"], renamed(whole, names, inside)
    if script in inside:
        whole["launch"] = launched(whole["launch"], texts[script], inside[script])
    whole["script"] = inside[script].path if script in inside else names.get(script, script)
    for source in whole.get("sources", []):
        source["name"] = names.get(source["name"], source["name"])
    return whole


def main(paths):
    """The explanations, a line each."""
    found = explanations(paths)
    folder = Folder() if any(whole.get("sources") for whole in found) else None
    return "".join(json.dumps(named(whole, folder) if folder else whole) + "\n" for whole in found)


if __name__ == "__main__":
    run(main)
