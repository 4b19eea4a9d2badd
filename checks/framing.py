#!/usr/bin/env python3
"""Gives each text of framing.txt, whole and in pieces of 1 to 16 and of 64 bytes, to the proved program of crates/example_reader,
and compares the steps that it prints with those written there by hand. `rt ci` has to have built the program, or it is built
first, which takes some minutes."""

import os
import subprocess
import sys

sys.dont_write_bytecode = True
from framing_table import USUAL, compare

top = os.path.dirname(os.path.dirname(os.path.abspath(__file__)))
program = os.path.join(top, "crates", "example_reader", "out", "example_reader")


def sizes_of(text):
    """In pieces of how many bytes it is given."""
    return sorted({max(len(text), 1), *range(1, 17), 64})


def faults_of(row):
    """What is printed otherwise, and how many runs there were."""
    number, limits, text, wanted = row
    faults = []
    for size in sizes_of(text):
        ran = subprocess.run([program, *limits, str(size)], input=text, capture_output=True, check=False)
        printed = ran.stdout.decode("ascii").rstrip("\n").split("\n")
        if ran.returncode or printed != wanted:
            faults.append(f"framing.txt:{number}: in pieces of {size}: status {ran.returncode}, {printed}")
    return faults, len(sizes_of(text))


def main():
    built = subprocess.run([os.path.join(top, "checks", "built.sh"), "example_reader", *USUAL, "1"], capture_output=True, check=False)
    if built.returncode:
        sys.exit(built.stderr.decode()[-2000:])
    compare(faults_of)


main()
