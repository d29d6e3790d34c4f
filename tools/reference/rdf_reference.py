#!/usr/bin/env python3
"""What rdf prints, worked out by separate passes: the same words, output and exit status.

It is written from the rules in docs/ and not from the program, and shares nothing between passes;
so it is slow, and serves to compare with. `--slots` changes nothing here: partial lines are those
of one slot.
"""
import os
import sys

sys.path.insert(0, os.path.dirname(os.path.abspath(__file__)))
sys.setrecursionlimit(1000000)

from commands import run  # noqa: E402


def real_files(name):
    try:
        with open(name, "rb") as file:
            return file.read()
    except FileNotFoundError:
        return None


def answer(status, output):
    """Writes the output and ends with the status."""
    try:
        with open(1, "wb", closefd=False) as standard_output:
            standard_output.write(output)
    except OSError:
        status = 4
    os._exit(status)


if __name__ == "__main__":
    answer(*run([os.fsencode(word) for word in sys.argv[1:]], real_files))
