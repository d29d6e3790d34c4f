"""Results and pictures as JSON: the exact numbers of the output, and those that are drawn."""

from __future__ import annotations

import json
import math
from collections.abc import Iterable, Sequence
from typing import Any

from .charts import Bins, Chart, Look, Panel
from .plan import Map, Output, Picture
from .quantities import Quantity, spelled
from .read import Histo1D, Histo2D, Report, Result, Value, Values


def text(outputs: Sequence[Output], pictures: Iterable[Picture]) -> str:
    """One object: `inputs` with the results of each output, and `pictures` with what is drawn."""
    whole = {
        "inputs": [{"label": o.label, "results": {r.name: result(r) for r in o.results}} for o in outputs],
        "pictures": [picture(each) for each in pictures],
    }
    return json.dumps(whole, indent=1, ensure_ascii=False, allow_nan=False) + "\n"


def result(of: Result) -> dict[str, Any]:
    """The result with its variations by `name:tag`. Each number is that of the output."""
    found = value(of.nominal)
    if of.variations:
        found["variations"] = {tag: value(each) for tag, each in of.variations.items()}
    if of.partials:
        found["partials"] = [{"clusters": p.clusters(), "value": p.value} for p in of.partials]
    return found


def value(of: Value) -> dict[str, Any]:
    """One pass. The cells of a histogram go from underflow to overflow."""
    if isinstance(of, Histo1D):
        return {
            "kind": "Histo1D",
            "edges": list(of.edges),
            "sums": [cell.sum for cell in of.cells],
            "squares": [cell.squares for cell in of.cells],
        }
    if isinstance(of, Histo2D):
        return {
            "kind": "Histo2D",
            "x_edges": list(of.x_edges),
            "y_edges": list(of.y_edges),
            "sums": [[cell.sum for cell in row] for row in of.cells],
            "squares": [[cell.squares for cell in row] for row in of.cells],
        }
    if isinstance(of, Values):
        return {"kind": "values", "values": list(of.values)}
    assert isinstance(of, Report)
    steps = [{"label": s.label, "passed": s.passed, "reached": s.reached} for s in of.steps]
    return {"kind": "Report", "filters": steps}


def picture(of: Picture) -> dict[str, Any]:
    """What is drawn. A number that isn't there, as the ratio to 0, is null."""
    shown = of.shown
    if isinstance(shown, Chart):
        return {"name": of.name, **_chart(shown)}
    if isinstance(shown, Map):
        axes = {"x": _quantity(shown.look.x), "y": _quantity(shown.look.y), "sums": _quantity(shown.look.z)}
        return {"name": of.name, "pass": shown.said or None, **axes, **value(shown.histo), **_options(shown.look)}
    return {"name": of.name, **value(shown.report)}


def _chart(chart: Chart) -> dict[str, Any]:
    return {
        "kind": "chart",
        "x": {"label": chart.x_label, "edges": _floats(chart.bins.edges), **_bins(chart.bins)},
        "per_width": chart.per_width,
        "log": chart.log,
        "main": _panel(chart.main),
        "ratio": _panel(chart.ratio) if chart.ratio else None,
    }


def _bins(bins: Bins) -> dict[str, Any]:
    return {"taken_off": bins.origin, "flow": bins.flow}


def _panel(panel: Panel) -> dict[str, Any]:
    lines = []
    for line in panel.lines:
        ends = {"lows": _floats(line.lows), "highs": _floats(line.highs)} if line.lows else {}
        lines.append({"label": line.label, "values": _floats(line.values), **ends})
    bands = [{"label": b.label, "lows": _floats(b.lows), "highs": _floats(b.highs)} for b in panel.bands]
    return {"label": panel.y_label, "lines": lines, "bands": bands}


def _quantity(quantity: Quantity) -> dict[str, Any]:
    return {"name": quantity.name, "unit": quantity.unit, "factor": spelled(quantity.factor)}


def _options(look: Look) -> dict[str, Any]:
    return {"per_width": bool(look.per_width), "log": look.log}


def _floats(row: Sequence[float]) -> list[float | None]:
    return [v if math.isfinite(v) else None for v in row]
