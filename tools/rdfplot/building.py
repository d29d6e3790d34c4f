"""From results to charts: histograms, values, efficiencies, of one output or of several over each other."""

from __future__ import annotations

import math
from collections import Counter
from collections.abc import Callable, Sequence
from dataclasses import dataclass, replace
from fractions import Fraction

from .charts import Band, Bins, Chart, Floats, Line, Look, Panel, Stroke, input_strokes, strokes, x_label
from .read import Cell, Histo1D, Result, Values

ENVELOPE = "envelope"
QUADRATURE = "quadrature"
SPANNED = {ENVELOPE: "envelope of variations", QUADRATURE: "variations in quadrature"}
MANY = 7  # variations, which are drawn as one band

Cells = Sequence[Cell]


class Unfit(Exception):
    """Results that can't be drawn as it was asked."""


@dataclass(frozen=True)
class Input:
    """A result of one output, and what the legend calls its nominal line."""

    label: str
    result: Result
    factor: Fraction = Fraction(1)  # of its sums


@dataclass(frozen=True)
class _Passes:
    """The cells that are drawn of one input: nominal, then each variation by its `name:tag`."""

    label: str
    nominal: Cells
    varied: dict[str, Cells]


@dataclass(frozen=True)
class _Scale:
    """Makes numbers of the output into those of the axis."""

    factor: Fraction
    widths: tuple[Fraction, ...] | None

    def __call__(self, numbers: Sequence[float]) -> Floats:
        if self.widths is not None:
            return tuple(float(Fraction(n) * self.factor / wide) for n, wide in zip(numbers, self.widths))
        if self.factor != 1:
            return tuple(float(Fraction(n) * self.factor) for n in numbers)
        return tuple(map(float, numbers))


# Histograms


def histogram(name: str, inputs: Sequence[Input], look: Look) -> Chart:
    """The nominal line with its variations, or several inputs over each other; below them ratios to the first line."""
    edges = _edges(name, inputs)

    def cells(of: Input, value: object) -> Cells:
        assert isinstance(value, Histo1D)
        shown = value.cells if look.flow else value.cells[1:-1]
        if of.factor == 1:
            return shown
        return [Cell(cell.sum * of.factor, cell.squares * of.factor**2) for cell in shown]  # type: ignore[arg-type]

    passes = [
        _Passes(i.label, cells(i, i.result.nominal), {t: cells(i, v) for t, v in i.result.variations.items()})
        for i in inputs
    ]
    first = inputs[0].result.nominal
    assert isinstance(first, Histo1D)
    corner = _outside(first, look.y.factor) if len(inputs) == 1 and not look.flow else ""
    return replace(_chart(name, edges, passes, look), corner=corner)


def values(name: str, inputs: Sequence[Input], look: Look) -> Chart:
    """The values of a Take counted into bins. They have no errors."""
    taken = [v for i in inputs for v in (i.result.nominal, *i.result.variations.values()) if isinstance(v, Values)]
    truth = any(v.truth for v in taken)
    edges = (0, 1, 2) if truth else edges_for([v for part in taken for v in part.values], look.bins)

    def count(part: object) -> Cells:
        assert isinstance(part, Values)
        counts = Counter((v - edges[0]) // (edges[1] - edges[0]) for v in part.values)
        return [Cell(counts[i], 0) for i in range(len(edges) - 1)]

    passes = [
        _Passes(i.label, count(i.result.nominal), {t: count(v) for t, v in i.result.variations.items()}) for i in inputs
    ]
    chart = _chart(name, edges, passes, replace(look, flow=False, counted="Values"))
    corner = f"values {len(taken[0].values)}" if len(inputs) == 1 else ""
    return replace(chart, corner=corner, words=("false", "true") if truth else ())


def edges_for(numbers: Sequence[int], bins: int) -> tuple[int, ...]:
    """Edges around the numbers: about so many bins at most, of a width 1, 2 or 5 times a power of ten."""
    low, high = min(numbers, default=0), max(numbers, default=0)
    least = -(-(high - low + 1) // bins)
    power = 10 ** (len(str(least)) - 1)
    width = next(w for w in (power, 2 * power, 5 * power, 10 * power) if w >= least)
    start = low // width * width
    return tuple(range(start, high + width + 1, width))


def _edges(name: str, inputs: Sequence[Input]) -> tuple[int, ...]:
    found = set()
    for each in inputs:
        if not isinstance(each.result.nominal, Histo1D):
            raise Unfit(f"{name} isn't a Histo1D in each input")
        found.add(each.result.nominal.edges)
    if len(found) > 1:
        raise Unfit(f"{name} has other edges in one input than in another")
    return found.pop()


def _chart(name: str, edges: Sequence[int], passes: Sequence[_Passes], look: Look) -> Chart:
    bins = Bins.of(edges, look.x, look.flow)
    per_width = not bins.even if look.per_width is None else look.per_width
    scale = _Scale(look.y.factor, bins.widths if per_width else None)
    one = len(passes) == 1
    y_name = _y_label(look, bins, per_width)
    return Chart(
        name=name,
        bins=bins,
        x_label=x_label(name, look.x, bins.origin),
        main=replace(
            _alone(passes[0], scale, look, y_name) if one else _together(passes, scale, look, y_name),
            whole=not per_width and look.y.factor.denominator == 1,
        ),
        ratio=_ratio(passes, look) if not one or passes[0].varied else None,
        log=look.log,
        per_width=per_width,
    )


def _y_label(look: Look, bins: Bins, per_width: bool) -> str:
    """What the y axis shows, with the width that it is over."""
    given = look.y.name is not None
    text = look.y.label(look.counted)
    if per_width:
        return f"{text.removesuffix(' per bin')} / {look.x.unit or 'bin width'}"
    if given or not bins.even or look.x.unit is None:
        return text if given else f"{text} per bin"
    width = f"{float(bins.widths[1 if bins.flow else 0]):.6g}"
    return f"{text} / {look.x.unit if width == '1' else f'{width} {look.x.unit}'}"


def _outside(histo: Histo1D, factor: Fraction) -> str:
    return f"underflow {_said(histo.cells[0], factor)}\noverflow {_said(histo.cells[-1], factor)}"


def _said(cell: Cell, factor: Fraction) -> str:
    total = short(cell.sum) if factor == 1 else f"{float(cell.sum * factor):.6g}"
    if not cell.squares:
        return total
    error = math.sqrt(cell.squares) * float(factor)
    return f"{total} ± {f'{error:.3g}' if error < 1000 else short(round(error))}"


def short(number: int) -> str:
    """The number, rounded where it has more than 15 digits."""
    return str(number) if abs(number) < 10**15 else f"{number:.6g}"


# Lines and bands


def _alone(passes: _Passes, scale: _Scale, look: Look, y_name: str) -> Panel:
    """Nominal with its errors; its variations as lines, or many of them as a band."""
    sums = scale([cell.sum for cell in passes.nominal])
    stroke = Stroke(points=passes.label in look.points)
    lines = [Line(passes.label, sums, *_ends(sums, _errors(passes.nominal, scale)), stroke)]
    bands = []
    if _banded(passes, look):
        bands.append(_span(passes, look, lambda cells: scale([cell.sum for cell in cells])))
    if not bands or look.singles:
        looks = strokes(passes.varied)
        lines += [Line(t, scale([c.sum for c in cells]), stroke=looks[t]) for t, cells in passes.varied.items()]
    return Panel(y_name, tuple(lines), tuple(bands))


def _together(inputs: Sequence[_Passes], scale: _Scale, look: Look, y_name: str) -> Panel:
    """The nominal lines of several inputs with their errors, and what the first one's variations span."""
    lines = []
    looks = input_strokes([passes.label for passes in inputs], look.points)
    for passes in inputs:
        sums = scale([cell.sum for cell in passes.nominal])
        lines.append(Line(passes.label, sums, *_ends(sums, _errors(passes.nominal, scale)), looks[passes.label]))
    first = inputs[0]
    bands = [_span(first, look, lambda cells: scale([c.sum for c in cells]))] if first.varied else []
    return Panel(y_name, tuple(lines), tuple(bands))


def _ratio(inputs: Sequence[_Passes], look: Look) -> Panel:
    """Every line over the first one, whose own error is a band around 1."""
    first = inputs[0]
    base = [cell.sum for cell in first.nominal]

    def over(numbers: Sequence[float]) -> Floats:
        return tuple(_quotient(n, b) for n, b in zip(numbers, base))

    error = tuple(_quotient(math.sqrt(c.squares), abs(c.sum)) for c in first.nominal)
    bands = []
    if any(c.squares for c in first.nominal):
        said = f"error of {first.label}"
        bands.append(Band(said, tuple(1 - e for e in error), tuple(1 + e for e in error), True))
    if len(inputs) > 1 and first.varied or _banded(first, look):
        bands.append(_span(first, look, lambda cells: over([c.sum for c in cells])))
    lines = []
    if len(inputs) > 1:
        inputs_looks = input_strokes([passes.label for passes in inputs], look.points)
        for passes in inputs[1:]:
            ratio = over([c.sum for c in passes.nominal])
            errors = over([math.copysign(math.sqrt(c.squares), b) for c, b in zip(passes.nominal, base)])
            lines.append(Line(passes.label, ratio, *_ends(ratio, errors), inputs_looks[passes.label]))
    elif not _banded(first, look) or look.singles:
        looks = strokes(first.varied)
        lines = [Line(t, over([c.sum for c in cells]), stroke=looks[t]) for t, cells in first.varied.items()]
    return Panel(f"Ratio to {first.label}", tuple(lines), tuple(bands))


def _banded(passes: _Passes, look: Look) -> bool:
    return bool(passes.varied) and (look.band is not None or len(passes.varied) >= MANY)


def _span(passes: _Passes, look: Look, shown: Callable[[Cells], Floats]) -> Band:
    """The band from the least to the greatest pass, or of all deviations from nominal in quadrature."""
    kind = look.band or ENVELOPE
    nominal = shown(passes.nominal)
    rows = {tag: shown(cells) for tag, cells in passes.varied.items()}
    if kind == ENVELOPE:
        columns = list(zip(nominal, *rows.values()))
        return Band(SPANNED[kind], tuple(map(min, columns)), tuple(map(max, columns)))
    lows, highs = [], []
    for place, middle in enumerate(nominal):
        groups: dict[str, list[float]] = {}
        for tag, row in rows.items():
            groups.setdefault(tag.partition(":")[0], [0.0]).append(row[place] - middle)
        lows.append(middle - math.hypot(*(min(group) for group in groups.values())))
        highs.append(middle + math.hypot(*(max(group) for group in groups.values())))
    return Band(SPANNED[kind], tuple(lows), tuple(highs))


def _errors(cells: Cells, scale: _Scale) -> Floats:
    """The errors of the sums, none at all where no cell has one."""
    return scale([math.sqrt(cell.squares) for cell in cells]) if any(cell.squares for cell in cells) else ()


def _ends(values: Floats, errors: Floats) -> tuple[Floats, Floats]:
    return (
        tuple(v - e for v, e in zip(values, errors)),
        tuple(v + e for v, e in zip(values, errors)),
    )


def _quotient(part: float, whole: float) -> float:
    return float(part / whole) if whole else math.nan
