"""The command: reading, writing, statuses."""

from __future__ import annotations

import argparse
import sys
from collections.abc import Sequence
from fractions import Fraction
from pathlib import Path

from . import numbers, plan, script, words
from .building import Unfit
from .charts import Look
from .looks import Looks
from .plan import Output, Picture
from .read import Malformed, Refused, Result, Values, read

DONE, REFUSED, FAULTY, FAILED = 0, 1, 2, 3


class Failed(Exception):
    """Something outside of the words and the input that is missing."""


def main(given: Sequence[str] | None = None) -> int:
    """Runs the command and gives its status."""
    try:
        _run(words.parser().parse_intermixed_args(given))
        sys.stdout.flush()
        return DONE
    except Refused as line:
        return _ended(REFUSED, str(line))
    except (Malformed, Unfit, words.Faulty) as why:
        return _ended(FAULTY, f"rdf_plot: {why}")
    except Failed as fault:
        return _ended(FAILED, f"rdf_plot: {fault}")
    except BrokenPipeError:  # nobody reads the list any more
        return FAILED
    except OSError as fault:
        name = f"{fault.filename}: " if fault.filename else ""
        return _ended(FAILED, f"rdf_plot: {name}{fault.strerror}")


def _ended(status: int, line: str) -> int:
    print(line, file=sys.stderr)
    return status


def _run(args: argparse.Namespace) -> None:
    _check(args)
    outputs = _outputs(args)
    named = {result.name: result for output in outputs for result in output.results}
    efficiencies = {plan.efficiency_name(*pair): (pair[0], pair[1]) for pair in args.efficiency}
    for name in (*args.take, *(name for pair in args.efficiency for name in pair)):
        if name not in named:
            raise words.Faulty(f"the input has no result {name}")
    for name in args.take:
        if not isinstance(named[name].nominal, Values):
            raise words.Faulty(f"--take {name}: not the values of a Take")
    looks = _looks(args, [*named, *efficiencies])
    if args.list:
        _list(outputs[0].results)
    pictures = _pictures(args, outputs, efficiencies, looks)
    if args.json:
        _write_text(args.json, numbers.text(outputs, pictures))
    if args.out or args.out_dir:
        if not pictures:
            shared = " that all inputs have" if len(outputs) > 1 else ", no cutflow, and no Take that --take names"
            raise words.Faulty(f"nothing to draw: no histogram{shared}")
        _draw(args, pictures, looks)


def _pictures(
    args: argparse.Namespace, outputs: Sequence[Output], efficiencies: dict[str, tuple[str, str]], looks: Looks
) -> list[Picture]:
    """Those of the results that --only names, or of all."""
    known = {result.name for output in outputs for result in output.results}
    for name in args.only:
        if name not in known and name not in efficiencies:
            raise words.Faulty(f"the input has no result {name}")
    chosen = [name for name in plan.shared(outputs, args.take) if not args.only or name in args.only]
    pairs = [pair for name, pair in efficiencies.items() if not args.only or name in args.only]
    return list(plan.pictures(outputs, chosen, pairs, looks.of))


def _check(args: argparse.Namespace) -> None:
    if not (args.out or args.out_dir or args.list or args.json):
        raise words.Faulty("nothing asked for: give --out, --out-dir, --json or --list")
    if args.format and not args.out_dir:
        raise words.Faulty("--format goes with --out-dir")
    if args.out and args.out.suffix.lower() not in (".pdf", ".png"):
        raise words.Faulty(f"--out {args.out}: the name must end with .pdf or .png")
    if args.list and len(args.inputs) > 1:
        raise words.Faulty("--list goes with one input")
    if args.inputs.count("-") > 1:
        raise words.Faulty("standard input is read once")
    if args.legend and len(args.legend) != len(args.inputs):
        raise words.Faulty(f"--legend is given {len(args.legend)} times for {len(args.inputs)} inputs")


def _outputs(args: argparse.Namespace) -> list[Output]:
    """The inputs with their names: those of the options, or for several inputs those of their files."""
    stems = ["standard input" if name == "-" else Path(name).stem for name in args.inputs]
    labels = args.legend or (stems if len(stems) > 1 else [plan.NOMINAL])
    if len(set(labels)) < len(labels):
        raise words.Faulty("two inputs have one name: name them by --legend")
    for label in args.points:
        if label not in labels:
            raise words.Faulty(f"--points {label}: no input has that name")
    if args.times and len(labels) == 1:
        raise words.Faulty("--times goes with several inputs: --scale2 multiplies the sums of a result")
    factors = words.factors("--times", args.times, labels)
    one = Fraction(1)
    return [Output(label, tuple(_read(name)), factors.get(label, one)) for label, name in zip(labels, args.inputs)]


def _read(name: str) -> list[Result]:
    return read(sys.stdin.buffer.read() if name == "-" else Path(name).read_bytes())


def _looks(args: argparse.Namespace, named: Sequence[str]) -> Looks:
    usual = Look(
        flow=args.flow,
        bins=args.bins,
        per_width=args.per_width,
        log=args.log,
        band=args.band,
        singles=args.singles,
        points=frozenset(args.points),
    )
    told = None
    if args.script:
        try:
            told = script.read(args.script.read_bytes())
        except script.BadScript as why:
            raise words.Faulty(f"--script {args.script}: {why}") from None
    columns = told.columns() if told else set()
    known = {*named, *columns}
    return Looks(
        usual,
        told,
        words.labels("--label", args.label, known),
        words.labels("--label2", args.label2, named),
        words.scales("--scale", args.scale, known),
        words.scales("--scale2", args.scale2, named),
    )


def _list(results: Sequence[Result]) -> None:
    """Prints numbers and partial results, their values below each other."""
    rows: list[tuple[str, str]] = []
    for result in results:
        for partial in result.partials:
            value = "none" if partial.value is None else str(partial.value)
            rows.append((f"partial {result.name} over {partial.clusters()}", value))
        for tag, passed in {"": result.nominal, **result.variations}.items():
            if isinstance(passed, Values):
                rows.append((f"{result.name}[{tag}]" if tag else result.name, _few(passed)))
    wide = max((len(label) for label, _ in rows), default=0)
    for label, text in rows:
        print(f"{label:<{wide}} = {text}")


def _few(values: Values) -> str:
    """The values, or the first ones of many."""
    count = len(values.values)
    return str(values) if count <= 10 else f"{Values(values.values[:8])} ... ({count} values)"


def _write_text(name: str, text: str) -> None:
    if name == "-":
        sys.stdout.write(text)
    else:
        Path(name).write_text(text, encoding="utf-8")


def _draw(args: argparse.Namespace, pictures: Sequence[Picture], looks: Looks) -> None:
    try:
        from . import files, frames
    except ImportError as fault:
        raise Failed(f"needs matplotlib (Debian package python3-matplotlib): {fault}") from fault
    for text in looks.texts():
        if why := frames.fault_of_text(text):
            raise words.Faulty(f"the label {text} can't be drawn: {why}")
    if args.out_dir:
        files.write_folder(args.out_dir, args.format or "png", pictures, args.dpi)
    elif args.out.suffix.lower() == ".pdf":
        files.write_pdf(args.out, pictures)
    elif len(pictures) > 1:
        raise words.Faulty(f"{len(pictures)} pictures don't fit in {args.out}: take --out-dir, a PDF, or --only")
    else:
        files.write_png(args.out, pictures[0], args.dpi)
