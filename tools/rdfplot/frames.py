"""Figures, axes, ticks and texts that all pictures share."""

from __future__ import annotations

import textwrap
from collections.abc import Iterable, Sequence
from typing import Any

from matplotlib.axes import Axes
from matplotlib.backends.backend_agg import FigureCanvasAgg
from matplotlib.cbook import is_math_text
from matplotlib.figure import Figure
from matplotlib.font_manager import FontProperties
from matplotlib.mathtext import MathTextParser
from matplotlib.text import Text
from matplotlib.textpath import text_to_path
from matplotlib.ticker import Locator, MaxNLocator

from . import style

WIDTH = 6.5  # of the axes, in inches
BELOW = 0.88  # inches below the axes, for their numbers and name
STEPS = (1, 2, 2.5, 5, 10)  # between ticks


class Inside(Locator):
    """The places of another locator that lie within the edges."""

    def __init__(self, locator: Locator, low: float, high: float) -> None:
        self._locator, self._low, self._high = locator, low, high

    def set_axis(self, axis: Any) -> None:
        super().set_axis(axis)
        self._locator.set_axis(axis)

    def __call__(self) -> list[float]:
        slack = 1e-9 * (self._high - self._low)
        return [place for place in self._locator() if self._low - slack <= place <= self._high + slack]


def figure(width: float, height: float) -> Figure:
    """An empty figure of so many inches."""
    found = Figure(figsize=(width, height))
    FigureCanvasAgg(found)
    return found


def axes(of: Figure, left: float, bottom: float, width: float, height: float, label: str, **more: Any) -> Axes:
    """Axes at a place in inches."""
    w, h = of.get_size_inches()
    return of.add_axes((left / w, bottom / h, width / w, height / h), label=label, **more)


def ticks(ends: Sequence[float] = (), width: float = WIDTH, whole: bool = True) -> Locator:
    """Round places; for an x axis no more than there is room for texts as long as those of its ends."""
    bins: Any = "auto"
    if ends:
        span = abs(ends[-1] - ends[0])
        decimals = 0 if whole or span >= 10 else 1 if span >= 1 else 2
        texts = [f"{end:.{decimals}f}" if abs(end) < 1e6 else "-0.00" for end in ends]
        bins = min(9, int(width / (0.13 + max(wide_of(text, style.TEXT - 1) for text in texts))))
    return MaxNLocator(nbins=bins, steps=STEPS, integer=whole)


def clear_exponent(of: Axes) -> None:
    """Moves the x axis' name below the power of ten at the axis' end, where there is one."""
    if of.xaxis.get_offset_text().get_text():
        of.xaxis.labelpad += 15


def more_lines(text: str) -> float:
    """The inches that an axis' name of several lines takes beyond its first."""
    return 0.25 * text.count("\n")


def wide_of(text: str, size: float) -> float:
    """The width of a text in inches, dollars being plain."""
    font = FontProperties(size=size)
    return max(text_to_path.get_text_width_height_descent(part, font, False)[0] for part in text.split("\n")) / 72


def wrapped(text: str, most: int) -> str:
    """The text in lines of at most so many characters."""
    return "\n".join(textwrap.wrap(text, most, break_on_hyphens=False)) or text


def plain(text: Text) -> Text:
    """Keeps dollars as they are."""
    text.set_parse_math(False)
    return text


def fault_of_text(text: str) -> str | None:
    """Why a label with mathematical text (between dollars) can't be drawn; None where it can."""
    if is_math_text(text):
        try:
            MathTextParser("path").parse(text)
        except ValueError as fault:
            return str(fault).strip().splitlines()[-1]
    return None


def boxes_overlap(boxes: Iterable[Any]) -> bool:
    """Whether any two of these boxes have a common part."""
    held = list(boxes)
    return any(one.overlaps(other) for place, one in enumerate(held) for other in held[place + 1 :])
