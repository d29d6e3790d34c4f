"""What a script says of its results: their columns and weights, and what its comments call the columns."""

from __future__ import annotations

import re
from dataclasses import dataclass, field
from typing import Any

import reference_modules  # noqa: F401
from scripts import read_script
from values import Refusal

from .quantities import Quantity

_COMMENT = re.compile(r"\s*#\s*([A-Za-z_][A-Za-z0-9_]*)\s*:\s*(\S.*)")
_AXES = {"Histo1D": 1, "Histo2D": 2, "Take": 1}


class BadScript(Exception):
    """A script that can't be read; the text is the refusal's line."""


@dataclass(frozen=True)
class Columns:
    """The columns on the axes of a result, and that of its weights."""

    kind: str
    axes: tuple[str, ...]
    weight: str | None = None


@dataclass(frozen=True)
class Script:
    """The results by their names, and what the comments say of columns."""

    results: dict[str, Columns] = field(default_factory=dict)
    told: dict[str, Quantity] = field(default_factory=dict)

    def quantity(self, column: str) -> Quantity:
        """What is told of the column, or its name alone."""
        return self.told.get(column, Quantity(column))

    def columns(self) -> set[str]:
        """All columns on axes or as weights of results."""
        return {column for found in self.results.values() for column in (*found.axes, found.weight) if column}


def read(data: bytes) -> Script:
    """A comment `# COLUMN: NAME [UNIT]` on a line of its own tells of a column that the script names."""
    try:
        statements = read_script(data)
    except Refusal as refusal:
        raise BadScript(refusal.line.decode(errors="replace")) from None
    results = {s["name"].decode(): _columns(s) for s in statements if s["what"] in ("action", "Report")}
    named = Script(results).columns()
    told = {}
    for line in data.decode("utf-8", "replace").splitlines():
        match = _COMMENT.fullmatch(line)
        if match and match[1] in named:
            told[match[1]] = Quantity.of(match[2])
    return Script(results, told)


def _columns(statement: dict[str, Any]) -> Columns:
    kind = statement.get("kind", "Report")
    columns = [column.decode() for column in statement.get("columns", [])]
    count = _AXES.get(kind, 0)
    weight = columns[count] if kind.startswith("Histo") and len(columns) > count else None
    return Columns(kind, tuple(columns[:count]), weight)
