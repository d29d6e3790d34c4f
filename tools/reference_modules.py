"""Imported for its effect: modules of tools/reference can be imported, and may recurse as deeply as a script nests."""

import sys
from pathlib import Path

sys.path.insert(0, str(Path(__file__).resolve().parent / "reference"))
sys.setrecursionlimit(max(sys.getrecursionlimit(), 50_000))
