"""Draws a Histo2D as a map, and in the cells of a small one their sums."""

from __future__ import annotations

from collections.abc import Sequence
from fractions import Fraction
from typing import Any

import numpy as np
from matplotlib.axes import Axes
from matplotlib.colors import CenteredNorm, LogNorm, Normalize
from matplotlib.figure import Figure
from numpy.typing import NDArray

from . import frames, style
from .building import short
from .charts import Bins, Look, x_label
from .read import Histo2D

HEIGHT = 5.5  # of the axes, in inches
NUMBERED = 100  # cells at most whose sums stand in them
Array = NDArray[np.float64]


def norm_of(maps: Sequence[Histo2D], look: Look) -> Normalize:
    """One scale of colours for all passes."""
    rows = [_shown(histo, look) for histo in maps]
    least, most = min(row.min() for row in rows), max(np.abs(row).max() for row in rows)
    if look.log:
        positive = [v for row in rows for v in row[row > 0].ravel()]
        return LogNorm(min(positive, default=0.1), max(positive, default=1.0))
    return Normalize(0.0, most or 1.0) if least >= 0 else CenteredNorm(0.0, most)


def draw(name: str, histo: Histo2D, norm: Normalize, said: str, look: Look) -> Figure:
    """The cells within the edges as colours, blank where nothing fell in; those outside as a table of sums."""
    x_bins, y_bins = _bins(histo, look)
    x_name = x_label(_wrapped(f"{name}: x"), look.x, x_bins.origin)
    y_name = x_label(_wrapped(f"{name}: y"), look.y, y_bins.origin)
    left, below = 1.35 + frames.more_lines(y_name), frames.BELOW + frames.more_lines(x_name)
    figure = frames.figure(left + 8.15, below + HEIGHT + 1.15)
    main = frames.axes(figure, left, below, frames.WIDTH, HEIGHT, "main")
    side = frames.axes(figure, left + frames.WIDTH + 0.18, below, 0.28, HEIGHT, "colours")
    cells = np.ma.array(_shown(histo, look), mask=_blank(histo, look))
    colours = style.BOTH_SIGNS if isinstance(norm, CenteredNorm) else style.RISING
    mesh = main.pcolormesh(x_bins.edges, y_bins.edges, cells, norm=norm, cmap=colours, shading="flat", rasterized=True)
    bar = figure.colorbar(mesh, cax=side)
    bar.set_label(_sums_name(look), loc="top")
    bar.ax.tick_params(which="both", left=False)
    main.xaxis.set_major_locator(frames.ticks((x_bins.edges[0], x_bins.edges[-1]), whole=x_bins.whole))
    main.yaxis.set_major_locator(frames.ticks(whole=y_bins.whole))
    main.set_xlabel(x_name)
    main.set_ylabel(y_name)
    _above(main, _outside(histo), said)
    _numbers(main, histo, (x_bins, y_bins), mesh)
    figure.draw_without_rendering()
    frames.clear_exponent(main)
    return figure


def _wrapped(name: str) -> str:
    return frames.wrapped(name, 44)


def _bins(histo: Histo2D, look: Look) -> tuple[Bins, Bins]:
    return Bins.of(histo.x_edges, look.x, False), Bins.of(histo.y_edges, look.y, False)


def _shown(histo: Histo2D, look: Look) -> Array:
    """The cells within the edges as numbers of the colour bar; a row for each y bin."""
    x_bins, y_bins = _bins(histo, look)
    rows = []
    for row, x_width in zip(histo.cells[1:-1], x_bins.widths):
        areas = [x_width * y_width if look.per_width else Fraction(1) for y_width in y_bins.widths]
        rows.append([float(cell.sum * look.z.factor / area) for cell, area in zip(row[1:-1], areas)])
    return np.array(rows).T


def _blank(histo: Histo2D, look: Look) -> NDArray[np.bool_]:
    cells = [[cell.squares == 0 or look.log and cell.sum <= 0 for cell in row[1:-1]] for row in histo.cells[1:-1]]
    return np.array(cells).T


def _sums_name(look: Look) -> str:
    text = look.z.label(look.counted)
    if not look.per_width:
        return f"{text} per cell"
    if look.x.unit is not None and look.x.unit == look.y.unit:
        return f"{text} / {look.x.unit}²"
    return f"{text} / ({look.x.unit or 'x width'} × {look.y.unit or 'y width'})"


def _above(main: Axes, table: str, said: str) -> None:
    """The sums outside of the edges, and the name of the pass, above the map."""
    at: dict[str, Any] = {"xycoords": "axes fraction", "textcoords": "offset points", "va": "bottom"}
    main.annotate(table, (0.0, 1.0), (0, 20), family="DejaVu Sans Mono", size=style.TINY, **at)
    if said:
        main.annotate(said, (1.0, 1.0), (0, 6), ha="right", **at)


def _numbers(main: Axes, histo: Histo2D, bins: tuple[Bins, Bins], mesh: Any) -> None:
    """The sums in the cells, where each has room for its own; in all cells or in none."""
    x_edges, y_edges = (np.array(part.edges) for part in bins)
    wide = np.diff(x_edges) / (x_edges[-1] - x_edges[0]) * frames.WIDTH
    high = np.diff(y_edges) / (y_edges[-1] - y_edges[0]) * HEIGHT
    texts = [[short(cell.sum) if cell.squares else "" for cell in row[1:-1]] for row in histo.cells[1:-1]]
    if len(wide) * len(high) > NUMBERED or high.min() < 1.5 * style.TINY / 72:
        return
    size = next((s for s in (style.TEXT - 1, style.SMALL, style.TINY) if _fit(texts, wide, s)), None)
    if size is None:
        return
    for column, x_low, x_high in zip(texts, x_edges, x_edges[1:]):
        for text, y_low, y_high in zip(column, y_edges, y_edges[1:]):
            place = ((x_low + x_high) / 2, (y_low + y_high) / 2)
            number = main.text(*place, text, ha="center", va="center", size=size, gid="cell")
            number.set_clip_on(True)
    _readable(main, mesh)


def _fit(texts: Sequence[Sequence[str]], wide: Array, size: float) -> bool:
    return all(frames.wide_of(text, size) < 0.92 * room for column, room in zip(texts, wide) for text in column if text)


def _readable(main: Axes, mesh: Any) -> None:
    """White numbers on dark cells. The texts go column by column, the cells of the mesh row by row."""
    mesh.update_scalarmappable()
    rows, columns = mesh.get_coordinates().shape[0] - 1, mesh.get_coordinates().shape[1] - 1
    faces = mesh.get_facecolors().reshape(rows, columns, 4)
    numbers = [text for text in main.texts if text.get_gid() == "cell"]
    for place, text in enumerate(numbers):
        red, green, blue, opaque = faces[place % rows, place // rows]
        dark = opaque > 0 and 0.299 * red + 0.587 * green + 0.114 * blue < 0.5
        text.set_color("#ffffff" if dark else style.BLACK)


def _outside(histo: Histo2D) -> str:
    """A table of the sums below, within and above the edges of both axes."""
    parts = {"under": slice(0, 1), "in": slice(1, -1), "over": slice(-1, None)}
    lines = [["sums", *(f"x {x}" for x in parts)]]
    for y in ("over", "in", "under"):
        sums = [sum(cell.sum for row in histo.cells[parts[x]] for cell in row[parts[y]]) for x in parts]
        lines.append([f"y {y}", *map(short, sums)])
    wide = [max(len(line[i]) for line in lines) for i in range(4)]
    return "\n".join("  ".join([line[0].ljust(wide[0]), *map(str.rjust, line[1:], wide[1:])]) for line in lines)
