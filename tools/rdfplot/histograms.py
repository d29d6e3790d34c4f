"""Draws a chart: steps, points and bands over bins, and a panel of ratios below."""

from __future__ import annotations

import math
from collections.abc import Iterable, Sequence
from typing import Any

import numpy as np
from matplotlib.axes import Axes
from matplotlib.figure import Figure
from matplotlib.legend import Legend
from matplotlib.ticker import AutoMinorLocator, FixedLocator, LogLocator, MaxNLocator, NullFormatter, NullLocator
from numpy.typing import NDArray

from . import frames, style
from .charts import Band, Bins, Chart, Line, Panel

Array = NDArray[np.float64]

LEFT = 1.35  # inches from the figure's left side to the axes
MAIN, RATIO, GAP = 4.85, 1.6, 0.14  # the heights of the panels and what lies between them
FEW_TAGS = 8  # that a legend inside the axes takes


def draw(chart: Chart) -> Figure:
    """The figure of a chart."""
    x_name = frames.wrapped(chart.x_label, 44) if "$" not in chart.x_label else chart.x_label
    labels = _labels(chart)
    below = frames.BELOW + frames.more_lines(x_name) + (0.17 if chart.bins.flow else 0.0)
    bottom = below + RATIO + GAP if chart.ratio else below
    figure = frames.figure(LEFT + WIDTH_AND_EDGE + _legend_room(labels), bottom + MAIN + 0.4)
    main = frames.axes(figure, LEFT, bottom, frames.WIDTH, MAIN, "main")
    panels = [main]
    handles = _panel(main, chart.main, chart.bins)
    if chart.ratio:
        lower = frames.axes(figure, LEFT, below, frames.WIDTH, RATIO, "ratio", sharex=main)
        panels.append(lower)
        _ratio_panel(lower, chart.ratio, chart.bins, handles)
        main.tick_params(labelbottom=False)
    main.set_xlim(chart.bins.edges[0], chart.bins.edges[-1])
    main.set_ylabel(chart.main.y_label)
    panels[-1].set_xlabel(x_name)
    boxes = _texts(main, chart, handles)
    _x_ticks(panels, chart)
    figure.align_ylabels(panels)
    figure.draw_without_rendering()
    _fit_height(main, chart, boxes)
    frames.clear_exponent(panels[-1])
    return figure


WIDTH_AND_EDGE = frames.WIDTH + 0.5


def _labels(chart: Chart) -> list[str]:
    """What the legend names: nothing where one line stands alone."""
    panels = [chart.main, *([chart.ratio] if chart.ratio else [])]
    named = [line.label for panel in panels for line in panel.lines]
    named += [band.label for panel in panels for band in panel.bands]
    once = list(dict.fromkeys(named))
    return once if len(once) > 1 else []


def _texts(main: Axes, chart: Chart, handles: dict[str, Any]) -> list[Any]:
    """The text in the corner and the legend: boxes that nothing drawn may reach."""
    boxes: list[Any] = []
    inset = _inset(chart.bins)
    if chart.corner:
        text = main.text(inset + 0.03, 0.965, chart.corner, transform=main.transAxes, va="top", size=style.SMALL)
        boxes.append(frames.plain(text))
    if _labels(chart):
        boxes.append(_legend(main, handles, inset))
    return boxes


# Lines and bands


def _panel(of: Axes, panel: Panel, bins: Bins) -> dict[str, Any]:
    """Draws bands and lines, and gives the legend's handles by their labels; the first line is the uppermost."""
    handles: dict[str, Any] = {}
    for place, line in enumerate(panel.lines):
        handles[line.label] = _line(of, line, bins, 4 - place / len(panel.lines))
    for band in panel.bands:
        handles.setdefault(band.label, _band(of, band, bins))
    return handles


def _line(of: Axes, line: Line, bins: Bins, order: float) -> Any:
    look = style.line(line.stroke.group, line.stroke.side)
    values = np.array(line.values)
    there = np.isfinite(values)
    places = _centres(bins)[there]
    bars = {"yerr": _bars(line, there), "ecolor": look["color"], "elinewidth": 1.2}
    if line.stroke.points:
        half = np.diff(np.array(bins.edges))[there] / 2
        points = {"fmt": "o", "color": look["color"], "markersize": 5, "zorder": order + 1}
        drawn = of.errorbar(places, values[there], xerr=half, label=line.label, **bars, **points)
        drawn.lines[0].set_clip_on(of.get_label() != "main")  # a point on the frame is whole
        return drawn
    if line.lows:
        of.errorbar(places, values[there], fmt="none", zorder=order, **bars)
    # Without a baseline no line goes down to 0 at the two ends.
    return of.stairs(values, np.array(bins.edges), baseline=None, fill=False, zorder=order, label=line.label, **look)


def _bars(line: Line, there: Array) -> Array | None:
    """How far the error bars of these bins reach down and up."""
    if not line.lows:
        return None
    values, lows, highs = (np.array(row)[there] for row in (line.values, line.lows, line.highs))
    return np.maximum(0.0, np.array([values - lows, highs - values]))


def _band(of: Axes, band: Band, bins: Bins) -> Any:
    return of.stairs(
        np.array(band.highs),
        np.array(bins.edges),
        baseline=np.array(band.lows),
        fill=True,
        zorder=1,
        label=band.label,
        **style.band(band.of_error),
    )


def _ratio_panel(of: Axes, panel: Panel, bins: Bins, handles: dict[str, Any]) -> None:
    """The ratios around 1, with a mark at the frame where one lies outside of it."""
    for label, handle in _panel(of, panel, bins).items():
        handles.setdefault(label, handle)
    half = _half(panel)
    of.set_ylim(1 - half, 1 + half)
    of.axhline(1, color=style.BLACK, linewidth=1, zorder=2)
    centres = _centres(bins)
    for line in panel.lines:
        row = np.array(line.values)
        for mark, edge, out in (("^", 1 + half, row > 1 + half), ("v", 1 - half, row < 1 - half)):
            if out.any():
                colour = style.line(line.stroke.group, line.stroke.side)["color"]
                of.plot(centres[out], np.full(out.sum(), edge), mark, color=colour, markersize=6, clip_on=False)
    of.yaxis.set_major_locator(
        frames.Inside(MaxNLocator(nbins=5, steps=frames.STEPS), 1 - 0.9 * half, 1 + 0.9 * half)
    )
    of.yaxis.set_minor_locator(AutoMinorLocator())
    of.set_ylabel(panel.y_label, loc="center", size=style.SMALL + 1)


def _half(panel: Panel) -> float:
    """Half of a ratio panel's height: it holds lines and variations up to 2.1, and the error in most bins."""
    far = [abs(v - 1) for line in panel.lines for v in line.values if math.isfinite(v)]
    for band in panel.bands:
        reach = sorted(abs(v - 1) for v in (*band.lows, *band.highs) if math.isfinite(v))
        far += reach[: len(reach) * 3 // 4] if band.of_error else reach
    return min(max(1.2 * max(far, default=0.0), 0.05), 1.1)


# Axes


def _centres(bins: Bins) -> Array:
    edges = np.array(bins.edges)
    return (edges[:-1] + edges[1:]) / 2


def _inset(bins: Bins) -> float:
    """The share of the axis that the bin of what lies below the edges takes, as does the one above them."""
    return (bins.edges[1] - bins.edges[0]) / (bins.edges[-1] - bins.edges[0]) if bins.flow else 0.0


def _x_ticks(panels: Sequence[Axes], chart: Chart) -> None:
    """Numbers within the edges, or the words of the bins; the bins outside are named below."""
    bins, axis = chart.bins, panels[0].xaxis
    if chart.words:
        axis.set_major_locator(FixedLocator(_centres(bins)))
        axis.set_minor_locator(NullLocator())
        panels[-1].set_xticklabels(chart.words)
    elif bins.flow:
        low, high = bins.edges[1], bins.edges[-2]
        width = (1 - 2 * _inset(bins)) * frames.WIDTH
        axis.set_major_locator(frames.Inside(frames.ticks((low, high), width, bins.whole), low, high))
        axis.set_minor_locator(frames.Inside(AutoMinorLocator(), low, high))
        _name_flow(panels, bins)
    else:
        axis.set_major_locator(frames.ticks((bins.edges[0], bins.edges[-1]), whole=bins.whole))


def _name_flow(panels: Sequence[Axes], bins: Bins) -> None:
    centres = _centres(bins)
    last = panels[-1]
    for place, text, edge in ((centres[0], "under", bins.edges[1]), (centres[-1], "over", bins.edges[-2])):
        last.annotate(
            text,
            (place, 0.0),
            (0, -24),
            xycoords=last.get_xaxis_transform(),
            textcoords="offset points",
            ha="center",
            va="top",
            size=style.TINY,
        )
        for part in panels:
            part.axvline(edge, color=style.BLACK, linewidth=0.8, linestyle=":", zorder=1)
    last.xaxis.labelpad += 12


def _fit_height(main: Axes, chart: Chart, boxes: Iterable[Any]) -> None:
    """Sets the height so that nothing drawn reaches into the boxes of text."""
    lows, highs = _reach(chart.main)
    if chart.log:
        positive = [v for line in chart.main.lines for v in line.values if v > 0] + [v for v in highs if v > 0]
        bottom, most = min(positive, default=0.1), max(positive, default=1.0)
        bottom, top = bottom / 2, most * 2
        _make_logarithmic(main, bottom, top)
        forth, back = math.log10, lambda v: 10.0**v
        highs = np.where(highs > 0, highs, bottom)
    else:
        main.yaxis.set_major_locator(frames.ticks(whole=chart.main.whole))
        least, most = min(0.0, lows.min()), max(0.0, highs.max())
        most = 1.0 if least == most else most
        bottom = least - 0.06 * (most - least) if least < 0 else 0.0
        top = most + 0.08 * (most - bottom)
        forth = back = float
    place = _cleared(main, boxes, chart.bins, [forth(v) for v in highs], forth(bottom), forth(top))
    main.set_ylim(bottom, back(place))
    if bottom < 0:
        main.axhline(0, color=style.BLACK, linewidth=0.8, zorder=1)


def _make_logarithmic(main: Axes, bottom: float, top: float) -> None:
    main.set_ylim(bottom, top)  # before the scale, which would look for positive data
    main.set_yscale("log")
    main.yaxis.set_major_locator(LogLocator(numticks=10))
    main.yaxis.set_minor_locator(LogLocator(subs=range(2, 10), numticks=100))
    main.yaxis.set_minor_formatter(NullFormatter())


def _reach(panel: Panel) -> tuple[Array, Array]:
    """The lowest and the highest place drawn in each bin; an error bar alone makes no room below 0."""
    values = [line.values for line in panel.lines]
    ends = [(line.lows, line.highs) for line in panel.lines if line.lows]
    ends += [(band.lows, band.highs) for band in panel.bands]
    lows, highs = _per_bin(np.min, values), _per_bin(np.max, [*values, *(high for _, high in ends)])
    if lows.min() < 0 and ends:
        lows = np.minimum(lows, _per_bin(np.min, [low for low, _ in ends]))
    return lows, highs


def _per_bin(choose: Any, rows: Sequence[Sequence[float]]) -> Array:
    """The least or the greatest number of each bin, 0 where there is none."""
    return np.ma.filled(choose(np.ma.masked_invalid(np.array(rows)), axis=0), 0.0)


def _cleared(
    main: Axes, boxes: Iterable[Any], bins: Bins, highs: Sequence[float], bottom: float, top: float
) -> float:
    """The top of the axis for which all that is drawn below a box of text stays below it."""
    edges, heights = np.array(bins.edges), np.array(highs)
    for box in boxes:
        extent = box.get_window_extent()
        place = extent.transformed(main.transData.inverted())
        share = extent.transformed(main.transAxes.inverted()).y0 - 0.03
        under = (edges[:-1] < place.x1) & (edges[1:] > place.x0)
        if under.any() and 0 < share < 1:
            top = max(top, bottom + (heights[under].max() - bottom) / share)
    return top


# The legend


def _legend_room(labels: Sequence[str]) -> float:
    """How wide a legend to the right of the axes is, in inches: 0 where it goes inside."""
    if len(labels) <= FEW_TAGS + 2 and all(len(label) <= 28 for label in labels):
        return 0.0
    return _columns(labels) * (0.75 + max(frames.wide_of(frames.wrapped(label, 36), style.SMALL) for label in labels))


def _columns(labels: Sequence[str]) -> int:
    return -(-len(labels) // 26)


def _legend(main: Axes, handles: dict[str, Any], inset: float) -> Legend:
    labels = list(handles)
    where: dict[str, Any] = {"loc": "upper right", "bbox_to_anchor": (1.0 - inset, 1.0)}
    if _legend_room(labels):
        where = {"loc": "upper left", "bbox_to_anchor": (1.03, 1.0), "ncol": _columns(labels), "fontsize": style.SMALL}
    # The texts come in afterwards, since a legend leaves out those that begin with `_`.
    legend = main.legend(list(handles.values()), ["label"] * len(labels), **where)
    for text, label in zip(legend.get_texts(), labels):
        frames.plain(text).set_text(frames.wrapped(label, 36))
    return legend
