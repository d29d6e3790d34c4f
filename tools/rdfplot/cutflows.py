"""Draws a Report as bars, with its numbers beside them."""

from __future__ import annotations

from collections.abc import Sequence
from typing import NamedTuple

import numpy as np
from matplotlib.axes import Axes
from matplotlib.figure import Figure
from matplotlib.ticker import FixedLocator, MaxNLocator, NullLocator

from . import frames, style
from .charts import Look
from .read import Report, Step

BARS = 4.6  # inches of the axes


def draw(name: str, report: Report, look: Look) -> Figure:
    """A bar for each filter, from above: the entries that passed, over those that reached it; numbers beside them."""
    steps = report.steps
    labels = [frames.wrapped(step.label, 32) for step in steps]
    pitch = 0.52 if len(steps) <= 40 else 0.36
    named = 0.4 if look.y.name else 0.0
    left = 0.35 + max(frames.wide_of(label, style.TEXT - 1) for label in labels) + named
    height = max(1.2, pitch * len(steps) + 0.25)
    x_name = look.x.label(frames.wrapped(f"{name}: entries", 44))
    below = frames.BELOW + frames.more_lines(x_name)
    columns = _columns_of(steps)
    figure = frames.figure(left + BARS + columns[-1].end + 0.25, below + height + 0.5)
    main = frames.axes(figure, left, below, BARS, height, "main")
    _bars(main, steps)
    _beside(main, columns)
    for text in main.set_yticklabels(labels):
        frames.plain(text)
    main.set_xlabel(x_name)
    if look.y.name is not None:
        main.set_ylabel(look.y.label(""))
    figure.draw_without_rendering()
    frames.clear_exponent(main)
    return figure


def _bars(main: Axes, steps: Sequence[Step]) -> None:
    places = np.arange(len(steps))
    reached = main.barh(places, [step.reached for step in steps], 0.74, color=style.REACHED, zorder=1, label="reached")
    passed = main.barh(places, [step.passed for step in steps], 0.74, color=style.PASSED, zorder=2, label="passed")
    main.set_xlim(0, 1.04 * max(step.reached for step in steps) or 1)
    main.set_ylim(len(steps) - 0.4, -0.6)
    main.yaxis.set_major_locator(FixedLocator(places))
    main.yaxis.set_minor_locator(NullLocator())
    main.tick_params(axis="y", which="both", length=0)
    main.xaxis.set_major_locator(MaxNLocator(nbins=5, integer=True))
    main.legend(
        [passed, reached],
        ["passed", "reached the filter"],
        loc="lower left",
        bbox_to_anchor=(0.0, 1.0),
        ncol=2,
        borderaxespad=0.2,
        handlelength=1.6,
        columnspacing=1.4,
        fontsize=style.SMALL,
    )


class _Column(NamedTuple):
    """Texts below each other, the first one a title, which end so many inches to the right of the axes."""

    texts: tuple[str, ...]
    end: float


def _columns_of(steps: Sequence[Step]) -> list[_Column]:
    """The numbers of a cutflow as columns side by side."""
    rows = [(str(s.passed), str(s.reached), _percent(s.eff), _percent(s.cumulative)) for s in steps]
    columns: list[_Column] = []
    end = 0.0
    for texts in zip(("passed", "reached", "eff", "cumulative"), *rows):
        end += 0.2 + max(frames.wide_of(text, style.SMALL) for text in texts)
        columns.append(_Column(texts, end))
    return columns


def _beside(axes: Axes, columns: Sequence[_Column]) -> None:
    """Writes the columns to the right of the axes: titles at its top, and a row for each whole number of its y axis."""
    for (title, *texts), end in columns:
        at = {"textcoords": "offset points", "ha": "right", "size": style.SMALL}
        axes.annotate(title, (1.0, 1.0), (72 * end, 5), xycoords="axes fraction", va="bottom", **at)
        for place, text in enumerate(texts):
            axes.annotate(
                text, (1.0, place), (72 * end, 0), xycoords=axes.get_yaxis_transform(), va="center_baseline", **at
            )


def _percent(text: str) -> str:
    return text if text == "none" else f"{text}%"
