"""Variants of a script: one for each choice of values of a template."""
import ast
import itertools
import operator
import os
import random
import re

from base import fail, write_whole

OPERATORS = {ast.Add: operator.add, ast.Sub: operator.sub, ast.Mult: operator.mul, ast.FloorDiv: operator.floordiv,
             ast.Mod: operator.mod, ast.Pow: operator.pow}


def numbers(count, seed):
    """Hexadecimal bytes of this many 32-bit numbers, the same for one seed."""
    chance = random.Random(seed)
    return b"".join(chance.getrandbits(32).to_bytes(4, "little") for _ in range(count)).hex()


FUNCTIONS = {"min": min, "max": max, "zeros": lambda count: "00" * count, "numbers": numbers}


def value_of(node, names):
    """The value of an expression of a template."""
    if isinstance(node, ast.Constant) and isinstance(node.value, int):
        return node.value
    if isinstance(node, ast.Name) and node.id in names:
        return names[node.id]
    if isinstance(node, ast.UnaryOp) and isinstance(node.op, ast.USub):
        return -value_of(node.operand, names)
    if isinstance(node, ast.BinOp) and type(node.op) in OPERATORS:
        return OPERATORS[type(node.op)](value_of(node.left, names), value_of(node.right, names))
    if (isinstance(node, ast.Call) and isinstance(node.func, ast.Name) and node.func.id in FUNCTIONS
            and not node.keywords):
        return FUNCTIONS[node.func.id](*(value_of(it, names) for it in node.args))
    raise ValueError(f"{ast.unparse(node)} is no expression of a template")


def filled(text, names):
    """A template with its expressions worked out."""
    return re.sub(r"\$\{([^}]*)\}", lambda it: str(value_of(ast.parse(it[1].strip(), mode="eval").body, names)), text)


def vary(options):
    """Writes a script for each choice of values."""
    try:
        given = [it.partition("=") for it in options.values]
        choices = {name: [int(it) for it in values.split(",")] for name, _, values in given}
        with open(options.template, encoding="utf-8") as file:
            text = file.read()
        os.makedirs(options.into, exist_ok=True)
        stem = os.path.splitext(os.path.basename(options.template))[0]
        for chosen in itertools.product(*choices.values()):
            names = dict(zip(choices, chosen))
            path = f"{options.into}/{'_'.join([stem, *(f'{name}{value}' for name, value in names.items())])}.txt"
            write_whole(path, filled(text, names))
            print(path)
        return 0
    except (ValueError, SyntaxError, TypeError, ZeroDivisionError) as fault:
        return fail(f"{options.template}: {fault}")
    except OSError as fault:
        return fail(f"{fault.filename}: {fault.strerror}")
