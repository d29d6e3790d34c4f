"""The command: words, files, statuses."""

from __future__ import annotations

import argparse
import shutil
import subprocess
import sys
from collections.abc import Sequence
from pathlib import Path

from . import booked, dot

DONE, REFUSED, FAULTY, FAILED = 0, 1, 2, 3
FORMS = (".png", ".pdf", ".svg", ".dot")

_END = """\
statuses:
  0  done
  1  the script or the table's header is refused: rdf's line goes to standard error
  2  the words can't be taken
  3  a file can't be read or written, or Graphviz's dot isn't there
"""


def main(given: Sequence[str] | None = None) -> int:
    """Runs the command and gives its status."""
    args = _parser().parse_args(given)
    if args.out and args.out.suffix.lower() not in FORMS:
        return _ended(FAULTY, f"rdf_graph: --out {args.out}: the name must end with one of {' '.join(FORMS)}")
    try:
        table = args.table.read_bytes() if args.table else None
        graph = booked.read(args.script.read_bytes(), table)
        return _write(dot.text(graph, _printable(args.table.name) if args.table else "df"), args.out, args.dpi)
    except booked.Refused as line:
        return _ended(REFUSED, str(line))
    except BrokenPipeError:
        return FAILED
    except OSError as fault:
        return _ended(FAILED, f"rdf_graph: {fault.filename}: {fault.strerror}")


def _parser() -> argparse.ArgumentParser:
    parser = argparse.ArgumentParser(
        prog="rdf_graph",
        description="Draws the graph that a script books: its nodes, named filters, variations at what depends on"
        " them, and the results of each event loop.",
        epilog=_END,
        formatter_class=argparse.RawDescriptionHelpFormatter,
        allow_abbrev=False,
    )
    parser.add_argument("script", type=Path, metavar="SCRIPT")
    parser.add_argument(
        "table", type=Path, nargs="?", metavar="TABLE", help="check the script over the columns of this table"
    )
    parser.add_argument(
        "--out", type=Path, metavar="FILE", help=f"{', '.join(FORMS)}; without it Graphviz's text on standard output"
    )
    parser.add_argument("--dpi", type=int, default=96, metavar="N", help="dots of a PNG to the inch (96)")
    return parser


def _printable(name: str) -> str:
    return name.encode(errors="backslashreplace").decode()


def _ended(status: int, line: str) -> int:
    print(line, file=sys.stderr)
    return status


def _write(text: str, out: Path | None, dpi: int) -> int:
    if out is None:
        sys.stdout.write(text)
        sys.stdout.flush()
        return DONE
    if out.suffix.lower() == ".dot":
        out.write_text(text, encoding="utf-8")
        return DONE
    program = shutil.which("dot")
    if program is None:
        return _ended(FAILED, "rdf_graph: needs Graphviz's dot (Debian package graphviz)")
    form = out.suffix.lower()[1:]
    words = [program, f"-T{form}", *([f"-Gdpi={dpi}"] if form == "png" else [])]
    drawn = subprocess.run(words, input=text.encode(), capture_output=True, check=False)
    if drawn.returncode:
        return _ended(FAILED, f"rdf_graph: dot: {drawn.stderr.decode(errors='replace').strip()}")
    out.write_bytes(drawn.stdout)
    return DONE
