#!/usr/bin/env python3
"""Counts the nodes of helpers with what they call in place of the calls, as docs/use/language.md counts them.

    nodes.py FILE [HELPER ...]

FILE has the helpers. A line for each helper: its nodes, the bytes of its text with all that it calls, its name.
"""
import os
import re
import sys

sys.path.insert(0, os.path.dirname(os.path.abspath(__file__)))
import helpers as texts  # noqa: E402

TYPES = "char uchar short ushort int uint long ulong"
# A declaration's `=` is no node, nor are brackets, commas and `:`; a cast is one.
TOKENS = re.compile(r"(?P<declaration>\b(?:" + TYPES.replace(" ", "|") + r") \w+ =)|(?P<cast>\((?:"
                    + TYPES.replace(" ", "|") + r")\))|(?P<word>\b(?!else\b)\w+)|(?P<block>\{)"
                    r"|(?P<operator><<=|>>=|<<|>>|[<>=!+*/%&|^-]=|&&|\|\||[<>=+*/%&|^~!?-])")


def own_nodes(helper):
    """The nodes of its text alone: its head and its body's block are none."""
    body = "\n".join(helper.lines[1:])
    return sum(1 for _ in TOKENS.finditer(body))


def nodes_of(helpers, name, known):
    """With the bodies of what it calls."""
    if name not in known:
        helper = helpers[name]
        total = own_nodes(helper)
        for called in re.findall(r"(\w+)\(", "\n".join(helper.lines[1:])):
            if called in helpers:
                total += nodes_of(helpers, called, known)
        known[name] = total
    return known[name]


def main():
    helpers, known = texts.read_helpers(sys.argv[1]), {}
    for name in sys.argv[2:] or helpers:
        print(f"{nodes_of(helpers, name, known):6} {len(texts.text_of(helpers, [name])):6} {name}")


if __name__ == "__main__":
    main()
