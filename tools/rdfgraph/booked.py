"""What a script books: nodes, results, the loop that fills each, and on which variations each depends."""

from __future__ import annotations

from collections.abc import Sequence
from dataclasses import dataclass
from typing import Any

import reference_modules  # noqa: F401
from booking import Booking, refuse
from expressions import SHIPPED
from scripts import read_script, tokens_of
from tables import read_header, records_of
from values import Refusal


class Refused(Exception):
    """A script or a table's header that is refused; the text is the line of rdf."""


@dataclass(frozen=True)
class Made:
    """A node: its name in the script, that of the node above, its method, what it is called on, and its texts."""

    name: str
    parent: str
    method: str
    title: str
    texts: tuple[str, ...]
    variations: tuple[str, ...]


@dataclass(frozen=True)
class Booked:
    """A result with its method and columns, the variations on which it depends, and how often it is filled."""

    name: str
    parent: str
    method: str
    title: str
    variations: tuple[str, ...]
    passes: int
    watched: bool
    printed: bool


@dataclass(frozen=True)
class Graph:
    """Nodes in their order, results by the loop that fills them; in `unfilled` those that no loop fills."""

    nodes: tuple[Made, ...]
    loops: tuple[tuple[str, tuple[Booked, ...]], ...]
    unfilled: tuple[Booked, ...]
    variations: tuple[str, ...]


def read(script: bytes, table: bytes | None) -> Graph:
    """The graph of a script, which is checked over the table's columns where there is a table."""
    try:
        statements = read_script(script)
        if table is None:
            booking = _Named([], SHIPPED).book(statements)
        else:
            booking = _Remembered(_columns(table), SHIPPED).book(statements)
    except Refusal as refusal:
        raise Refused(refusal.line.decode(errors="replace")) from None
    lines = script.split(b"\n")
    results = {name: _booked(booking, result) for name, result in booking.results.items()}
    loops = [(p.name.decode(), tuple(results[r.name] for r in waiting)) for p, waiting in booking.prints if waiting]
    unfilled = tuple(results[name] for name, result in booking.results.items() if not result.filled)
    nodes = tuple(_made(booking, node, lines) for node in booking.nodes.values() if node.statement is not None)
    order = dict.fromkeys(name.decode() for name, _ in booking.variations)
    return Graph(nodes, tuple(loops), unfilled, tuple(order))


def _columns(table: bytes) -> list[tuple[bytes, str]]:
    records = records_of(table[: _end_of_header(table)])
    header = read_header(records[0] if records else [b""])
    return [column for column in header if column[1] != "cut"]


def _end_of_header(table: bytes) -> int:
    """A place behind the first record: its line may hold no line end within quotes, since names hold none."""
    start = len(table) - len(table.lstrip(b"\xef\xbb\xbf\r\n"))
    ends = [end for end in (table.find(b"\n", start), table.find(b"\r", start)) if end >= 0]
    return min(ends, default=len(table))


class _Remembered(Booking):
    """A booking that works out once what a column is at a node."""

    def __init__(self, table_columns: Any, functions: Any) -> None:
        super().__init__(table_columns, functions)
        self._kinds: dict[tuple[Any, bytes], str | None] = {}
        self._depends: dict[tuple[Any, bytes], Any] = {}

    def kind_at(self, node: Any, name: bytes) -> str | None:
        if (node, name) not in self._kinds:
            self._kinds[node, name] = super().kind_at(node, name)
        return self._kinds[node, name]

    def depends(self, node: Any, name: bytes) -> Any:
        if (node, name) not in self._depends:
            self._depends[node, name] = super().depends(node, name)
        return self._depends[node, name]


class _Named(_Remembered):
    """A booking without a table: the names of nodes and results are checked, and any column is there."""

    def kind_at(self, node: Any, name: bytes) -> str:
        return "int"

    def kind_of(self, tree: Any, node: Any) -> str:
        return "int"

    def check_Define(self, statement: dict[str, Any]) -> None:
        self.add_node(statement, self.check_names(statement))

    check_Redefine = check_Alias = check_Define

    def check_Filter(self, statement: dict[str, Any]) -> None:
        self.add_node(statement, self.check_names(statement))
        if statement["label"] is not None:
            self.named_filters.append(self.nodes[statement["name"]])

    def check_Vary(self, statement: dict[str, Any]) -> None:
        parent = self.check_names(statement)
        refuse("S2", statement["variation"] in [variation[0] for variation in self.variations])
        self.variations += [(statement["variation"], tag) for tag in statement["tags"]]
        self.add_node(statement, parent)

    def check_action(self, statement: dict[str, Any]) -> None:
        self.add_result(statement, self.check_names(statement))


def _made(booking: Any, node: Any, lines: Sequence[bytes]) -> Made:
    statement = node.statement
    tokens = tokens_of(lines[statement["line"] - 1].rstrip(b"\r"))
    strings = [text.decode() for sort, text, _ in tokens if sort == "string"]
    method = statement["what"]
    if method == "Filter":
        title, texts, depends = strings[1:2], strings[:1], booking.depends_of(statement["expression"], node.parent)
    elif method == "Vary":
        title, texts = [statement["variation"].decode()], [_values_of(strings, statement)]
        texts[:0] = [f"{', '.join(_decoded(statement['columns']))} as {', '.join(_decoded(statement['tags']))}"]
        depends = {(statement["variation"], tag) for tag in statement["tags"]}
    else:
        title, texts, depends = strings[:1], strings[1:], booking.depends(node, statement["column"])
    return Made(
        statement["name"].decode(),
        statement["parent"].decode(),
        method,
        title[0] if title else "",
        tuple(texts),
        _names(booking, depends),
    )


def _values_of(strings: Sequence[str], statement: dict[str, Any]) -> str:
    """The values of a Vary, which stand behind its columns."""
    return strings[len(statement["columns"])]


def _booked(booking: Any, result: Any) -> Booked:
    statement = result.statement
    columns = ", ".join(_decoded(result.columns))
    if result.kind == "Reduce":
        columns = f"{statement['operation'].decode()}, {columns}"
    if result.kind == "Report":
        columns = f"{len(result.covered)} named filter{'' if len(result.covered) == 1 else 's'}"
    depends = set() if result.kind == "Report" else booking.result_depends(result)
    return Booked(
        result.name.decode(),
        statement["parent"].decode(),
        result.kind,
        columns,
        _names(booking, depends),
        len(booking.passes(result)) if result.kind != "Report" else 1,
        result.watched,
        any(printed is result for printed, _ in booking.prints),
    )


def _names(booking: Any, depends: set[tuple[bytes, bytes]]) -> tuple[str, ...]:
    """The names of variations, in the order of the script."""
    return tuple(dict.fromkeys(name.decode() for name, tag in booking.variations if (name, tag) in depends))


def _decoded(names: Sequence[bytes]) -> list[str]:
    return [name.decode() for name in names]
