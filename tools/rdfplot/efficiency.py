"""Efficiencies: a histogram of what passed over a histogram of all, with Wilson's intervals."""

from __future__ import annotations

import math
from collections.abc import Sequence
from dataclasses import dataclass

from .building import Unfit
from .charts import Band, Bins, Chart, Floats, Line, Look, Panel, Stroke, strokes, x_label
from .read import Histo1D, Result


@dataclass(frozen=True)
class Pair:
    """The two results of one output, and what the legend calls their nominal efficiency."""

    label: str
    passed: Result
    reached: Result


@dataclass(frozen=True)
class _Points:
    values: Floats
    lows: Floats
    highs: Floats


def wilson(passed: int, reached: int) -> tuple[float, float]:
    """The ends of Wilson's interval of 68.27 per cent (one standard deviation); `reached` isn't 0."""
    share = passed / reached
    middle = (share + 0.5 / reached) / (1 + 1 / reached)
    half = math.sqrt(share * (1 - share) / reached + 0.25 / reached**2) / (1 + 1 / reached)
    return max(0.0, middle - half), min(1.0, middle + half)


def efficiency(name: str, pairs: Sequence[Pair], look: Look) -> Chart:
    """Nominal as points with intervals, its variations as steps; several inputs with their ratios to the first."""
    edges = {histo.edges for pair in pairs for histo in _histograms(pair)}
    if len(edges) > 1:
        raise Unfit(f"{name}: the histograms have other edges than one another")
    bins = Bins.of(edges.pop(), look.x, look.flow)
    points = [_points(pair, "", look.flow) for pair in pairs]
    one = len(pairs) == 1
    lines = [
        Line(pair.label, p.values, p.lows, p.highs, Stroke(place - 1, points=True))
        for place, (pair, p) in enumerate(zip(pairs, points))
    ]
    if one:
        lines += _varied(pairs[0], look.flow)
    said = look.y.label("Efficiency")
    x_name = x_label(pairs[0].passed.name, look.x, bins.origin)
    ratio = None if one else _ratio(pairs, points)
    return Chart(name, bins, x_name, Panel(said, tuple(lines)), ratio)


def _histograms(pair: Pair) -> list[Histo1D]:
    found = []
    for result in (pair.passed, pair.reached):
        for value in (result.nominal, *result.variations.values()):
            if not isinstance(value, Histo1D):
                raise Unfit(f"--efficiency: {result.name} is no Histo1D")
            if any(cell.sum != cell.squares for cell in value.cells):
                raise Unfit(f"--efficiency: {result.name} has weights, and Wilson's interval wants counts")
            found.append(value)
    return found


def _points(pair: Pair, tag: str, flow: bool) -> _Points:
    """The efficiency under a variation; nominal stands in where a result doesn't depend on it."""
    numerator = pair.passed.variations.get(tag, pair.passed.nominal)
    denominator = pair.reached.variations.get(tag, pair.reached.nominal)
    assert isinstance(numerator, Histo1D) and isinstance(denominator, Histo1D)
    cells = list(zip(numerator.cells, denominator.cells))
    rows = []
    for passed, reached in cells if flow else cells[1:-1]:
        if passed.sum > reached.sum:
            raise Unfit(f"--efficiency: {pair.passed.name} has more in a bin than {pair.reached.name}")
        whole = reached.sum
        rows.append((passed.sum / whole, *wilson(passed.sum, whole)) if whole else (math.nan,) * 3)
    values, lows, highs = zip(*rows)
    return _Points(values, lows, highs)


def _varied(pair: Pair, flow: bool) -> list[Line]:
    looks = strokes(dict.fromkeys([*pair.passed.variations, *pair.reached.variations]))
    return [Line(tag, _points(pair, tag, flow).values, stroke=look) for tag, look in looks.items()]


def _ratio(pairs: Sequence[Pair], points: Sequence[_Points]) -> Panel:
    base = points[0]

    def over(row: Floats) -> Floats:
        return tuple(v / b if b else math.nan for v, b in zip(row, base.values))

    lines = tuple(
        Line(pair.label, over(p.values), over(p.lows), over(p.highs), Stroke(place, points=True))
        for place, (pair, p) in enumerate(zip(pairs[1:], points[1:]))
    )
    band = Band(f"error of {pairs[0].label}", over(base.lows), over(base.highs), of_error=True)
    return Panel(f"Ratio to {pairs[0].label}", lines, (band,))
