"""The seeds of all that is random in opencl/test/run.

They are fixed, so that the same commit comes out alike each time. By hand another seed can be given, or drawn.
"""
import os

FIXED = 1
# Kernels that differed from pocl in some run: they are tried in front of the others. What each one was:
#   4349463  abs of the least int (front_kernels.py says what pocl makes of it)
#   100025   pocl 3.1 leaves other bytes of one work-item with -cl-opt-disable than with optimization, whose bytes are
#            Clsim's and Oclgrind's
ONCE = {"front_fuzz.py": [4349463, 100025]}


class WrongSeed(Exception):
    """A text that is no seed."""


def seed_of(text):
    """The seed that a text says: a number, or `any`, which draws one."""
    if text == "any":
        return int.from_bytes(os.urandom(2), "little")
    if not text.isascii() or not text.isdecimal():
        raise WrongSeed(f"{text} is neither a whole number nor any")
    return int(text)


def chosen(word):
    """The seed of the command line, else of RANDOM_SEED in the environment, else the fixed one."""
    text = word if word is not None else os.environ.get("RANDOM_SEED")
    return FIXED if text is None else seed_of(text)
