"""The command describe: columns, entries and clusters of a table.

Least and greatest values and the number of entries come from rdf itself, by scripts that are made here; the lengths of
vectors and the clusters from a reading of the table in Python.
"""

from __future__ import annotations

import argparse
import os
import subprocess
import sys
import tempfile
from collections.abc import Iterator, Sequence
from dataclasses import dataclass
from pathlib import Path

from . import tables

TOP = Path(__file__).resolve().parent.parent.parent
USUAL_CLUSTER = 10000
NO_PROGRAM = 70  # the status of ./rdf where there is none
COLUMNS = 31  # of one script: each has two results, and 64 results are allowed


class Ended(Exception):
    """A run of rdf that refuses the table, or can't be made."""

    def __init__(self, status: int, line: str) -> None:
        super().__init__(line)
        self.status = status


@dataclass(frozen=True)
class Ends:
    """The least and the greatest value of a column, as rdf prints them."""

    least: str
    greatest: str


def main(given: Sequence[str] | None = None) -> int:
    """Runs the command and gives its status."""
    args = _parser().parse_args(given)
    try:
        sys.stdout.write(_described(args.table, args.cluster))
        sys.stdout.flush()
        return 0
    except Ended as ended:
        sys.stdout.write(str(ended))
        return ended.status
    except tables.Refusal as refusal:
        sys.stdout.write(refusal.line.decode() + "\n")
        return refusal.status
    except BrokenPipeError:
        return 4
    except OSError as fault:
        print(f"read failed: {tables.printable(args.table)}")
        print(f"rdf_describe: {fault.strerror}", file=sys.stderr)
        return 3


def _parser() -> argparse.ArgumentParser:
    parser = argparse.ArgumentParser(
        prog="rdf describe",
        description="Tells a table's columns with their least and greatest values, its entries and its clusters.",
        epilog="A table that is refused gives rdf's line and status. RDF_PROGRAM names another program than ./rdf.",
        allow_abbrev=False,
    )
    parser.add_argument("table", metavar="TABLE")
    parser.add_argument(
        "--cluster", type=_size, default=USUAL_CLUSTER, metavar="N", help=f"the size of a cluster ({USUAL_CLUSTER})"
    )
    return parser


def _size(text: str) -> int:
    if not (text.isascii() and text.isdigit() and 1 <= int(text) <= 1_000_000):
        raise argparse.ArgumentTypeError("not a number from 1 to 1000000")
    return int(text)


def _described(name: str, size: int) -> str:
    data = tables.bytes_of(name)
    columns = tables.header(next(tables.records(data), [b""]))
    with tempfile.TemporaryDirectory() as place:
        folder = Path(place)
        table = Path(name)
        if not table.is_file():  # a pipe can't be read twice
            table = folder / "table.csv"
            table.write_bytes(data)
        entries, ends = _run_all(table, folder, [c.name for c in columns if c.kind != "cut"])
    lengths, clusters = tables.lengths_and_clusters(data, size)
    about = {
        "Table": f"{tables.printable(name)}, {len(data)} bytes",
        "Entries": entries,
        "Clusters": _said(clusters, size),
        "Columns": str(len(ends)),
    }
    return _beside(about) + "\n" + _columns(columns, ends, lengths)


# Runs of rdf


def scripts(columns: Sequence[str]) -> Iterator[str]:
    """Scripts that print the entries and the ends of so many columns each."""
    for begin in range(0, len(columns), COLUMNS):
        lines = ["entries = df.Count()\n"]
        for place, column in enumerate(columns[begin : begin + COLUMNS], begin):
            lines += [f'least_{place} = df.Min("{column}")\n', f'greatest_{place} = df.Max("{column}")\n']
        names = [line.split(" = ")[0] for line in lines]
        yield "".join(lines) + "".join(f"Print({name})\n" for name in names)


def _run_all(table: Path, folder: Path, columns: Sequence[str]) -> tuple[str, dict[str, Ends]]:
    found: dict[str, str] = {}
    for script in scripts(columns):
        file = folder / "script.txt"
        file.write_text(script, encoding="ascii")
        for line in _run(file, table).splitlines():
            name, _, value = line.partition(" = ")
            found[name] = value
    ends = {column: Ends(found[f"least_{i}"], found[f"greatest_{i}"]) for i, column in enumerate(columns)}
    return found["entries"], ends


def _run(script: Path, table: Path) -> str:
    program = os.environ.get("RDF_PROGRAM") or str(TOP / "rdf")
    try:
        done = subprocess.run([program, "--", str(script), str(table)], stdout=subprocess.PIPE, check=False)
    except OSError as fault:
        print(f"rdf_describe: {program}: {fault.strerror}", file=sys.stderr)
        raise Ended(NO_PROGRAM, "") from None
    text = done.stdout.decode(errors="backslashreplace")
    if done.returncode:
        raise Ended(done.returncode, text)
    return text


# The text


def _said(clusters: tables.Marked, size: int) -> str:
    count = len(clusters.sizes)
    if count == 0:
        return "0"
    least, greatest = min(clusters.sizes), max(clusters.sizes)
    entries = f"{least}" if least == greatest else f"{least} to {greatest}"
    marks = "no marks" if clusters.marks is None else f"{clusters.marks} marks"
    return f"{count}, of {entries} entries ({marks}, at most {size})"


def _beside(about: dict[str, str]) -> str:
    wide = max(map(len, about))
    return "".join(f"{name:<{wide}}  {text}\n" for name, text in about.items())


def _columns(
    columns: Sequence[tables.Column], ends: dict[str, Ends], lengths: dict[str, tables.Lengths]
) -> str:
    lines = [["Column", "Kind", "Least", "Greatest", "Length", "Elements"]]
    for column in columns:
        if column.kind == "cut":
            lines.append([column.name, "cut", "", "", "", ""])
            continue
        row = [column.name, column.kind, ends[column.name].least, ends[column.name].greatest]
        length = lengths.get(column.name)
        lines.append([*row, *([f"{length.least} to {length.greatest}", str(length.total)] if length else ["", ""])])
    wide = [max(len(line[place]) for line in lines) for place in range(6)]
    text = ""
    for line in lines:
        cells = [c.ljust(w) if place < 2 else c.rjust(w) for place, (c, w) in enumerate(zip(line, wide))]
        text += "  ".join(cells).rstrip() + "\n"
    return text
