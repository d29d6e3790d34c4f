"""The words of the command."""

from __future__ import annotations

import argparse
from collections.abc import Iterable, Sequence
from fractions import Fraction
from pathlib import Path

from .building import ENVELOPE, MANY, QUADRATURE
from .quantities import number_of

_END = """\
statuses:
  0  done
  1  an input has a refusal or fault line of rdf: the line goes to standard error and nothing is drawn, also not
     the results before it
  2  the words, or a line of the input, can't be taken: standard error says why, with the line's number
  3  an input can't be read, a picture can't be written, or matplotlib isn't there

docs/PICTURES.md has an example of each option.
"""


class Faulty(Exception):
    """Words that can't be taken."""


def parser() -> argparse.ArgumentParser:
    """All words but the pairs' contents are checked by it."""
    found = argparse.ArgumentParser(
        prog="rdf_plot",
        description="Draws what rdf prints: histograms, efficiencies, maps, cutflows and, where asked, the values of"
        " a Take. The histograms of several inputs are drawn over each other.",
        epilog=_END,
        formatter_class=argparse.RawDescriptionHelpFormatter,
        allow_abbrev=False,
    )
    found.add_argument(
        "inputs", nargs="*", default=["-"], metavar="INPUT", help="what rdf printed; - or none is standard input"
    )
    _add_files(found.add_argument_group("what is written"))
    _add_chosen(found.add_argument_group("what is drawn"))
    _add_names(found.add_argument_group("names and units"))
    _add_looks(found.add_argument_group("how it looks"))
    return found


def _add_files(group: argparse._ArgumentGroup) -> None:
    out = group.add_mutually_exclusive_group()
    out.add_argument(
        "--out", type=Path, metavar="FILE", help="all pictures in one FILE.pdf, or a single one in FILE.png"
    )
    out.add_argument(
        "--out-dir", type=Path, metavar="DIR", help="a file for each picture in DIR, which is made where it isn't there"
    )
    group.add_argument("--format", choices=("png", "pdf"), help="of the files in DIR (png)")
    group.add_argument(
        "--dpi", type=_resolution, default=150, metavar="N", help="dots of a PNG to the inch, 30 to 600 (150)"
    )
    group.add_argument("--list", action="store_true", help="print numbers and partial results to standard output")
    group.add_argument(
        "--json", metavar="FILE", help="write all results and what is drawn as JSON; - is standard output"
    )


def _add_chosen(group: argparse._ArgumentGroup) -> None:
    group.add_argument(
        "--only", action="append", default=[], metavar="NAME", help="draw this result, or PASS_of_ALL, and no other"
    )
    group.add_argument("--take", action="append", default=[], metavar="NAME", help="draw this Take's values too")
    group.add_argument(
        "--bins", type=_positive, default=40, metavar="N", help="at most about so many bins for a Take (40)"
    )
    group.add_argument(
        "--efficiency",
        nargs=2,
        action="append",
        default=[],
        metavar=("PASS", "ALL"),
        help="draw one Histo1D over another, with Wilson's intervals, as PASS_of_ALL",
    )
    group.add_argument(
        "--band",
        choices=(ENVELOPE, QUADRATURE),
        help=f"variations as one band; an envelope by itself from {MANY} of them on",
    )
    group.add_argument("--singles", action="store_true", help="beside the band each variation as a line")


def _add_names(group: argparse._ArgumentGroup) -> None:
    group.add_argument(
        "--script",
        type=Path,
        metavar="FILE",
        help="the script: it names columns, and units in comments # COLUMN: NAME [UNIT]",
    )
    group.add_argument(
        "--label", action="append", default=[], metavar="NAME=TEXT", help="name of a result's x axis, or of a column"
    )
    group.add_argument("--label2", action="append", default=[], metavar="NAME=TEXT", help="name of a result's y axis")
    group.add_argument(
        "--scale",
        action="append",
        default=[],
        metavar="NAME=FACTOR[:UNIT]",
        help="multiply the x axis of a result, or a column",
    )
    group.add_argument(
        "--scale2", action="append", default=[], metavar="NAME=FACTOR[:UNIT]", help="multiply a result's y axis"
    )
    group.add_argument(
        "--legend", action="append", default=[], metavar="TEXT", help="name of an input, in their order (its file's)"
    )
    group.add_argument(
        "--times", action="append", default=[], metavar="TEXT=FACTOR", help="multiply the sums of one of several inputs"
    )


def _add_looks(group: argparse._ArgumentGroup) -> None:
    widths = group.add_mutually_exclusive_group()
    widths.add_argument(
        "--per-width",
        dest="per_width",
        action="store_const",
        const=True,
        help="sums over the width of their bin; by itself where a Histo1D has bins of several widths",
    )
    widths.add_argument(
        "--per-bin", dest="per_width", action="store_const", const=False, help="sums as they are in any case"
    )
    group.add_argument("--log", action="store_true", help="a logarithmic axis of sums")
    group.add_argument("--flow", action="store_true", help="under- and overflow of a Histo1D as bins too")
    group.add_argument("--points", action="append", default=[], metavar="TEXT", help="draw this input as points")


def _positive(text: str) -> int:
    if not (text.isascii() and text.isdigit() and 1 <= int(text) <= 100_000):
        raise argparse.ArgumentTypeError("not a number from 1 to 100000")
    return int(text)


def _resolution(text: str) -> int:
    if not (text.isascii() and text.isdigit() and 30 <= int(text) <= 600):
        raise argparse.ArgumentTypeError("not a number from 30 to 600")
    return int(text)


def labels(option: str, pairs: Sequence[str], known: Iterable[str]) -> dict[str, str]:
    """The texts of `NAME=TEXT` by their names."""
    found = {}
    for pair in pairs:
        name, equals, text = pair.partition("=")
        if not equals:
            raise Faulty(f"{option} {pair}: not NAME=TEXT")
        if name not in known:
            raise Faulty(f"{option} {pair}: the input has no result {name}")
        found[name] = text
    return found


def factors(option: str, pairs: Sequence[str], known: Iterable[str]) -> dict[str, Fraction]:
    """The factors of `TEXT=FACTOR` by the names of the inputs."""
    found = {}
    for pair in pairs:
        label, equals, text = pair.rpartition("=")
        factor = number_of(text)
        if not equals or label not in known or factor is None or factor < 0:
            raise Faulty(f"{option} {pair}: not TEXT=FACTOR with an input's name and a factor above 0")
        found[label] = factor
    return found


def scales(option: str, pairs: Sequence[str], known: Iterable[str]) -> dict[str, tuple[Fraction, str | None]]:
    """The factors and units of `NAME=FACTOR:UNIT` by their names."""
    found = {}
    for name, text in labels(option, pairs, known).items():
        factor_text, colon, unit = text.partition(":")
        factor = number_of(factor_text)
        if factor is None or factor < 0 or colon and not unit:
            raise Faulty(f"{option} {name}={text}: not NAME=FACTOR or NAME=FACTOR:UNIT with a factor above 0")
        found[name] = (factor, unit or None)
    return found
