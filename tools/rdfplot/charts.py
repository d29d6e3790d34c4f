"""What a picture of bins shows, in numbers: lines with their errors, bands, ratios. Nothing is drawn here."""

from __future__ import annotations

from collections.abc import Iterable, Sequence
from dataclasses import dataclass
from fractions import Fraction

from .quantities import Quantity, spelled

Floats = tuple[float, ...]


@dataclass(frozen=True)
class Look:
    """What the options say of a picture. `y` are the sums of a histogram or the y axis of a map, `z` a map's sums."""

    x: Quantity = Quantity()
    y: Quantity = Quantity()
    z: Quantity = Quantity()
    counted: str = "Sum of weights"
    flow: bool = False
    bins: int = 40
    per_width: bool | None = None
    log: bool = False
    band: str | None = None
    singles: bool = False
    points: frozenset[str] = frozenset()


@dataclass(frozen=True)
class Stroke:
    """How a line looks: steps or points, black where it has no group, without dashes where it has no side."""

    group: int = -1
    side: int = -1
    points: bool = False


@dataclass(frozen=True)
class Line:
    """A value for each bin, and the ends of its error bar where there are any; NaN where there is none."""

    label: str
    values: Floats
    lows: Floats = ()
    highs: Floats = ()
    stroke: Stroke = Stroke()


@dataclass(frozen=True)
class Band:
    """Two ends for each bin: those of the first line's error, or what its variations span."""

    label: str
    lows: Floats
    highs: Floats
    of_error: bool = False


@dataclass(frozen=True)
class Panel:
    """Lines and bands over one y axis; `whole` where its numbers are whole ones."""

    y_label: str
    lines: tuple[Line, ...]
    bands: tuple[Band, ...] = ()
    whole: bool = False


@dataclass(frozen=True)
class Bins:
    """The bins as drawn. With `flow` the first and the last one hold what lies outside, and have widths made up."""

    edges: Floats
    widths: tuple[Fraction, ...]
    origin: int
    flow: bool
    whole: bool = True

    @staticmethod
    def of(edges: Sequence[int], quantity: Quantity, flow: bool) -> Bins:
        """Where floats can't hold the edges, the first one is taken off all of them."""
        origin = 0 if all(int(float(edge)) == edge for edge in edges) else edges[0]
        places = [(edge - origin) * quantity.factor for edge in edges]
        if flow:
            share = min(Fraction(1, 10), max(Fraction(6, 100), Fraction(1, len(edges) - 1)))
            wide = (places[-1] - places[0]) * share
            places = [places[0] - wide, *places, places[-1] + wide]
        widths = tuple(high - low for low, high in zip(places, places[1:]))
        return Bins(tuple(map(float, places)), widths, origin, flow, quantity.factor.denominator == 1)

    @property
    def even(self) -> bool:
        """Whether all bins within the edges have one width."""
        return len(set(self.widths[1:-1] if self.flow else self.widths)) <= 1


@dataclass(frozen=True)
class Chart:
    """One picture. `words` name the bins where they have no numbers, `corner` stands in the upper left."""

    name: str
    bins: Bins
    x_label: str
    main: Panel
    ratio: Panel | None = None
    corner: str = ""
    words: tuple[str, ...] = ()
    log: bool = False
    per_width: bool = False


def x_label(name: str, quantity: Quantity, origin: int) -> str:
    """The name of an axis, with the number that was taken off its edges."""
    text = quantity.label(name)
    if origin:
        text += f" {'-' if origin > 0 else '+'} {spelled(abs(origin) * quantity.factor)}"
    return text


def strokes(tags: Iterable[str]) -> dict[str, Stroke]:
    """One colour for each variation, other dashes for each of its tags."""
    groups: dict[str, list[str]] = {}
    for tag in tags:
        groups.setdefault(tag.partition(":")[0], []).append(tag)
    return {tag: Stroke(group, side) for group, sides in enumerate(groups.values()) for side, tag in enumerate(sides)}


def input_strokes(labels: Sequence[str], points: Iterable[str]) -> dict[str, Stroke]:
    """Several inputs: black is the only one with points, else the first; each other one has a colour."""
    pointed = [label for label in labels if label in set(points)]
    black = pointed[0] if len(pointed) == 1 else labels[0]
    coloured = [label for label in labels if label != black]
    groups = {black: -1, **{label: group for group, label in enumerate(coloured)}}
    return {label: Stroke(groups[label], points=label in pointed) for label in labels}
