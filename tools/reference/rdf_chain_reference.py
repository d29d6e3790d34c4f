#!/usr/bin/env python3
"""What rdf_chain writes, worked out by separate passes: the same words, output and exit status."""
import os
import sys

sys.path.insert(0, os.path.dirname(os.path.abspath(__file__)))

from rdf_reference import answer, real_files  # noqa: E402
from chain_commands import run  # noqa: E402

if __name__ == "__main__":
    answer(*run([os.fsencode(word) for word in sys.argv[1:]], real_files))
