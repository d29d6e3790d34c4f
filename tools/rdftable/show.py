"""The command show: the first entries of a table in columns."""

from __future__ import annotations

import argparse
import sys
from collections.abc import Sequence

from . import tables

FIRST = 10  # entries, where no number is named
ELEMENTS = 6  # of a vector that are shown


def main(given: Sequence[str] | None = None) -> int:
    """Runs the command and gives its status."""
    args = _parser().parse_args(given)
    try:
        columns, rows, more = tables.first_entries(tables.bytes_of(args.table), args.entries)
        sys.stdout.write(aligned(columns, rows) + ("...\n" if more else ""))
        sys.stdout.flush()
        return 0
    except tables.Refusal as refusal:
        sys.stdout.write(refusal.line.decode() + "\n")
        return refusal.status
    except BrokenPipeError:
        return 4
    except OSError as fault:
        print(f"read failed: {tables.printable(args.table)}")
        print(f"rdf_show: {fault.strerror}", file=sys.stderr)
        return 3


def _parser() -> argparse.ArgumentParser:
    parser = argparse.ArgumentParser(
        prog="rdf show",
        description="Prints the first entries of a table in columns. Only these are read and checked.",
        epilog="Its statuses are those of rdf: 5 for no file, 7 for a table that is refused, each with rdf's line.",
        allow_abbrev=False,
    )
    parser.add_argument("table", metavar="TABLE")
    parser.add_argument("entries", metavar="N", nargs="?", type=_count, default=FIRST, help=f"how many ({FIRST})")
    return parser


def _count(text: str) -> int:
    if not (text.isascii() and text.isdigit() and 1 <= int(text) <= 1_000_000):
        raise argparse.ArgumentTypeError("not a number from 1 to 1000000")
    return int(text)


def aligned(columns: Sequence[tables.Column], rows: Sequence[Sequence[str]]) -> str:
    """Numbers end below each other, vectors begin so; of a long vector the first elements and its length."""
    titles = ["entry", *(f"{column.name}:{column.kind}" for column in columns)]
    kinds = ["int", *(column.kind for column in columns)]
    lines = [titles]
    for entry, row in enumerate(rows):
        cells = [_vector(cell) if column.kind == "vec" else cell for cell, column in zip(row, columns)]
        lines.append([str(entry), *cells])
    wide = [max(len(line[place]) for line in lines) for place in range(len(titles))]
    text = ""
    for line in lines:
        cells = [c.ljust(w) if kind == "vec" else c.rjust(w) for c, w, kind in zip(line, wide, kinds)]
        text += "  ".join(cells).rstrip() + "\n"
    return text


def _vector(cell: str) -> str:
    elements = cell.split(";")
    if len(elements) <= ELEMENTS:
        return cell
    return ";".join(elements[:ELEMENTS]) + f";... {len(elements)} in all"
