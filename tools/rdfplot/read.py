"""Reads the lines that rdf prints. Numbers stay exact integers."""

from __future__ import annotations

import re
from dataclasses import dataclass, field
from typing import NamedTuple, Union


class Malformed(Exception):
    """A line that rdf doesn't print, or not there. Lines count from 1."""

    def __init__(self, line: int, why: str) -> None:
        super().__init__(f"line {line}: {why}")
        self.line = line
        self.why = why


class Refused(Exception):
    """A refusal or fault line of rdf, rdf_shard or rdf_chain."""


class Cell(NamedTuple):
    """The sum of the weights in a cell, and of their squares."""

    sum: int
    squares: int


@dataclass(frozen=True)
class Values:
    """What stands on one line: no value (`none`), one number, or the values of a Take."""

    values: tuple[int, ...] | tuple[bool, ...]

    @property
    def truth(self) -> bool:
        """Whether these are truth values."""
        return bool(self.values) and isinstance(self.values[0], bool)

    def __str__(self) -> str:
        return " ".join(str(v).lower() for v in self.values) or "none"


@dataclass(frozen=True)
class Histo1D:
    """The cells are underflow, the bins between the edges, overflow."""

    edges: tuple[int, ...]
    cells: tuple[Cell, ...]


@dataclass(frozen=True)
class Histo2D:
    """`cells[i][j]` is x cell i and y cell j, each axis from underflow to overflow."""

    x_edges: tuple[int, ...]
    y_edges: tuple[int, ...]
    cells: tuple[tuple[Cell, ...], ...]


@dataclass(frozen=True)
class Step:
    """One filter of a report: how many entries reached it and how many passed, and the printed percents."""

    label: str
    passed: int
    reached: int
    eff: str
    cumulative: str


@dataclass(frozen=True)
class Report:
    steps: tuple[Step, ...]


@dataclass(frozen=True)
class Partial:
    """A partial result over runs of clusters, each from its first to its last."""

    runs: tuple[tuple[int, int], ...]
    value: int | None

    def clusters(self) -> str:
        return ",".join(str(a) if a == b else f"{a}-{b}" for a, b in self.runs)


Value = Union[Values, Histo1D, Histo2D, Report]


@dataclass(frozen=True)
class Result:
    """All that one Print wrote. Variations go by `name:tag`, in their order."""

    name: str
    nominal: Value
    variations: dict[str, Value] = field(default_factory=dict)
    partials: tuple[Partial, ...] = ()


_NAME = r"(?!(?:true|false)\b)[A-Za-z_][A-Za-z0-9_]{0,63}"
_NUMBER = r"(?:0|-?[1-9][0-9]{0,38})"
_COUNT = r"(?:0|[1-9][0-9]{0,38})"
_CELL = rf"(under|over|\[{_NUMBER},{_NUMBER}\))"
_PERCENT = r"(none|[0-9]{1,40}\.[0-9][0-9])"

_number = re.compile(_NUMBER)
_value_line = re.compile(rf"({_NAME})(?:\[({_NAME}:{_NAME})\])? = (.*)", re.S)
_histo1d = re.compile(rf"histo1d ({_COUNT})")
_histo2d = re.compile(rf"histo2d ({_COUNT}) ({_COUNT})")
_cell1 = re.compile(rf"  {_CELL} ({_NUMBER}) ({_NUMBER})")
_cell2 = re.compile(rf"  {_CELL} {_CELL} ({_NUMBER}) ({_NUMBER})")
# A filter's label may hold ` pass=` itself; the numbers at the end of the line are the report's.
_step_line = re.compile(
    rf"({_NAME}): ([ !#-~]{{1,64}}) pass=({_COUNT}) all=({_COUNT}) eff={_PERCENT} cumulative={_PERCENT}"
)
_no_steps_line = re.compile(rf"({_NAME}): no named filters")
_partial_line = re.compile(rf"partial ({_NAME}) over ([0-9,-]+) = (none|{_NUMBER})")
_run = re.compile(rf"({_COUNT})(?:-({_COUNT}))?")
_refusal = re.compile(
    r"usage: rdf[ _]|read failed: |no file |script refused(?:: | at )|table (?:.+ )?refused(?:: | at )|friend refused(?:: | at )"
    r"|fault (?:in file \d+ )?at entry |span refused$|file .+ (?:refused at line \d+|differs)$"
    r"|(?:cluster|file) \d+ isn't covered once$|(?:files|part) longer than \d+ bytes$"
)

_LEAST, _GREATEST = -(2**127), 2**127 - 1


def read(data: bytes) -> list[Result]:
    """The results that the bytes print, in order; one that is printed again alike stands once."""
    lines = _Lines(data)
    results: dict[str, Result] = {}
    while lines.peek() is not None:
        start = lines.number
        result = _result(lines)
        before = results.setdefault(result.name, result)
        if before != result:
            raise Malformed(start, f"{result.name} was printed before, with other values")
    return list(results.values())


def percent(part: int, whole: int) -> str:
    """part of whole in percent with two decimals cut off, as rdf prints it."""
    if whole == 0:
        return "none"
    hundredths = part * 10_000 // whole
    return f"{hundredths // 100}.{hundredths % 100:02d}"


class _Lines:
    """The lines with their numbers. Meeting a refusal line ends the reading."""

    def __init__(self, data: bytes) -> None:
        self._lines = data.decode("utf-8", "surrogateescape").split("\n")
        self._cut = self._lines.pop() or None
        self._next = 0

    @property
    def number(self) -> int:
        """The number of the line that `peek` gives."""
        return self._next + 1

    def peek(self) -> str | None:
        """The next line, or None at the end."""
        cut = self._next == len(self._lines)
        line = self._cut if cut else self._lines[self._next]
        if line is None:
            return None
        if _refusal.match(line) and not _step_line.fullmatch(line):
            raise Refused(line)
        if cut:
            raise Malformed(self.number, f"the output was cut off within the line {_shown(line)}")
        return line

    def step(self) -> None:
        """Goes to the line after the one that `peek` gave."""
        self._next += 1


def _shown(line: str) -> str:
    return repr(line if len(line) <= 60 else line[:57] + "...")


def _in_range(number: str, line: int) -> int:
    value = int(number)
    if not _LEAST <= value <= _GREATEST:
        raise Malformed(line, f"{number} has more than 128 bits")
    return value


def _result(lines: _Lines) -> Result:
    """One Print's lines: partial lines, then the nominal result and its variations, or a report."""
    line = lines.peek()
    assert line is not None
    if _step_line.fullmatch(line) or _no_steps_line.fullmatch(line):
        return _report(lines)
    partials: list[Partial] = []
    name = None
    while (match := _partial_line.fullmatch(lines.peek() or "")) and name in (None, match[1]):
        name = match[1]
        partials.append(_partial(match[2], match[3], lines.number))
        lines.step()
    start = lines.number
    found, variation, nominal = _value(lines)
    if variation is not None:
        raise Malformed(start, f"{found}[{variation}] without the nominal {found} before it")
    if name not in (None, found):
        raise Malformed(start, f"expected {name}, whose partial results stand before")
    if partials and not (isinstance(nominal, Values) and len(nominal.values) <= 1 and not nominal.truth):
        raise Malformed(start, f"{found} has partial results and isn't one number")
    variations: dict[str, Value] = {}
    like = nominal
    while (match := _value_line.fullmatch(lines.peek() or "")) and match[1] == found and match[2]:
        start = lines.number
        variation = match[2]
        value = _value(lines)[2]
        if variation in variations:
            raise Malformed(start, f"{found}[{variation}] stands twice")
        if not _alike(like, value):
            raise Malformed(start, f"{found}[{variation}] is of another kind than {found}, or has other edges")
        if like == Values(()):
            like = value
        variations[variation] = value
    return Result(found, nominal, variations, tuple(partials))


def _alike(a: Value, b: Value) -> bool:
    """Whether these may be passes of one result."""
    if isinstance(a, Values) and isinstance(b, Values):
        return a.truth == b.truth or not a.values or not b.values
    if isinstance(a, Histo1D) and isinstance(b, Histo1D):
        return a.edges == b.edges
    if isinstance(a, Histo2D) and isinstance(b, Histo2D):
        return (a.x_edges, a.y_edges) == (b.x_edges, b.y_edges)
    return False


def _value(lines: _Lines) -> tuple[str, str | None, Value]:
    """`LABEL = ...` with the cells that follow: the result's name, the variation, the value."""
    line = lines.peek()
    start = lines.number
    if line is None:
        raise Malformed(start, "the input ends where a result was due")
    match = _value_line.fullmatch(line)
    if match is None:
        raise Malformed(start, f"not a line that rdf prints here: {_shown(line)}")
    name, variation, text = match.groups()
    lines.step()
    value: Value
    if head := _histo1d.fullmatch(text):
        value = _cells1(lines, name, int(head[1]))
    elif head := _histo2d.fullmatch(text):
        value = _cells2(lines, name, int(head[1]), int(head[2]))
    else:
        value = _values(text, start)
    return name, variation, value


def _values(text: str, line: int) -> Values:
    words = text.split(" ")
    if words == ["none"]:
        return Values(())
    if all(word in ("true", "false") for word in words):
        return Values(tuple(word == "true" for word in words))
    for word in words:
        if not _number.fullmatch(word):
            raise Malformed(line, f"{_shown(word)} is no number")
    return Values(tuple(_in_range(word, line) for word in words))


class _Axis:
    """Takes the names of an axis' cells in order: `under`, bins that join, `over`."""

    def __init__(self, cells: int) -> None:
        self._cells = cells
        self.names: list[str] = []
        self.edges: list[int] = []

    def add(self, name: str, line: int) -> None:
        place = len(self.names)
        if place == 0 or place == self._cells - 1:
            if name != ("over" if place else "under"):
                raise Malformed(line, f"the cell {name} stands where {'over' if place else 'under'} was due")
        elif name in ("under", "over"):
            raise Malformed(line, f"the cell {name} stands where a bin was due")
        else:
            low, high = (int(edge) for edge in name[1:-1].split(","))
            if low >= high:
                raise Malformed(line, f"the edges of {name} don't rise")
            if self.edges and self.edges[-1] != low:
                raise Malformed(line, f"the bin {name} doesn't begin at {self.edges[-1]}")
            self.edges += [high] if self.edges else [low, high]
        self.names.append(name)


def _cell(lines: _Lines, form: re.Pattern[str], name: str, place: int, cells: int) -> re.Match[str]:
    line = lines.peek()
    if line is None:
        raise Malformed(lines.number, f"the input ends after {place} of {cells} cells of {name}")
    match = form.fullmatch(line)
    if match is None:
        raise Malformed(lines.number, f"expected cell {place + 1} of {cells} of {name}, found {_shown(line)}")
    return match


def _sums(total: str, squares: str, line: int) -> Cell:
    cell = Cell(_in_range(total, line), _in_range(squares, line))
    if cell.squares < 0:
        raise Malformed(line, f"the sum of squares {squares} is below 0")
    return cell


def _cells1(lines: _Lines, name: str, cells: int) -> Histo1D:
    if cells < 3:
        raise Malformed(lines.number - 1, f"a histogram has at least 3 cells, {name} has {cells}")
    axis = _Axis(cells)
    sums: list[Cell] = []
    for place in range(cells):
        match = _cell(lines, _cell1, name, place, cells)
        axis.add(match[1], lines.number)
        sums.append(_sums(match[2], match[3], lines.number))
        lines.step()
    return Histo1D(tuple(axis.edges), tuple(sums))


def _cells2(lines: _Lines, name: str, x_cells: int, y_cells: int) -> Histo2D:
    if min(x_cells, y_cells) < 3:
        raise Malformed(lines.number - 1, f"an axis has at least 3 cells, {name} has {x_cells} by {y_cells}")
    x_axis, y_axis = _Axis(x_cells), _Axis(y_cells)
    rows: list[tuple[Cell, ...]] = []
    for i in range(x_cells):
        row: list[Cell] = []
        for j in range(y_cells):
            match = _cell(lines, _cell2, name, i * y_cells + j, x_cells * y_cells)
            if j == 0:
                x_axis.add(match[1], lines.number)
            elif match[1] != x_axis.names[i]:
                raise Malformed(lines.number, f"the x cell {match[1]} stands where {x_axis.names[i]} was due")
            if i == 0:
                y_axis.add(match[2], lines.number)
            elif match[2] != y_axis.names[j]:
                raise Malformed(lines.number, f"the y cell {match[2]} stands where {y_axis.names[j]} was due")
            row.append(_sums(match[3], match[4], lines.number))
            lines.step()
        rows.append(tuple(row))
    return Histo2D(tuple(x_axis.edges), tuple(y_axis.edges), tuple(rows))


def _report(lines: _Lines) -> Result:
    """The lines of one report, which stand one after the other."""
    line = lines.peek() or ""
    if match := _no_steps_line.fullmatch(line):
        lines.step()
        return Result(match[1], Report(()))
    name = None
    steps: list[Step] = []
    while (match := _step_line.fullmatch(lines.peek() or "")) and name in (None, match[1]):
        name = match[1]
        step = Step(match[2], int(match[3]), int(match[4]), match[5], match[6])
        steps.append(step)
        if step.passed > step.reached:
            raise Malformed(lines.number, f"pass={step.passed} is above all={step.reached}")
        if step.eff != percent(step.passed, step.reached):
            raise Malformed(lines.number, f"eff={step.eff} isn't pass={step.passed} of all={step.reached}")
        if step.cumulative != percent(step.passed, steps[0].reached):
            raise Malformed(
                lines.number, f"cumulative={step.cumulative} isn't pass={step.passed} of {steps[0].reached}"
            )
        lines.step()
    assert name is not None
    return Result(name, Report(_once(tuple(steps))))


def _once(steps: tuple[Step, ...]) -> tuple[Step, ...]:
    """The steps of a report that may have been printed several times over."""
    count = len(steps)
    return next(steps[:n] for n in range(1, count + 1) if steps[:n] * (count // n) == steps)


def _partial(clusters: str, value: str, line: int) -> Partial:
    runs: list[tuple[int, int]] = []
    for text in clusters.split(","):
        match = _run.fullmatch(text)
        if match is None:
            raise Malformed(line, f"{_shown(text)} is no run of clusters")
        low = int(match[1])
        high = low if match[2] is None else int(match[2])
        if match[2] is not None and high <= low:
            raise Malformed(line, f"the run of clusters {text} doesn't rise")
        if runs and low <= runs[-1][1] + 1:
            raise Malformed(line, f"the run of clusters {text} should stand apart from {runs[-1][1]}")
        runs.append((low, high))
    return Partial(tuple(runs), None if value == "none" else _in_range(value, line))
