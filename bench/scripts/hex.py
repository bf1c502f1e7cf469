#!/usr/bin/env python3
"""Prints a script of 4 MiB of hexadecimal digits, the same each time: four writes of 512 KiB into a buffer of 1 MiB,
and two reads that write 4 MiB of digits back."""
import random

HALF = 524288
random.seed(1)
print("buffer a 1048576")
for number in range(4):
    print(f"write a {number % 2 * HALF} {random.randbytes(HALF).hex()}")
for _ in range(2):
    print("read a 0 1048576")
