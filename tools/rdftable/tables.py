"""Reads tables as far as describe and show want it, and refuses them with rdf's lines."""

from __future__ import annotations

from collections.abc import Iterator
from dataclasses import dataclass
from itertools import islice
from pathlib import Path

import reference_modules  # noqa: F401
import tables as _tables
import values as _values

Refusal = _values.Refusal
NO_FILE, TABLE = 5, 7  # statuses of rdf


@dataclass(frozen=True)
class Column:
    """A field of the header; its kind is int, vec or cut."""

    name: str
    kind: str


@dataclass(frozen=True)
class Lengths:
    """The least, the greatest and all together of the numbers of elements of a vec column."""

    least: int
    greatest: int
    total: int


@dataclass(frozen=True)
class Marked:
    """The entries of each cluster, and whether the table marks where one begins."""

    sizes: tuple[int, ...]
    marks: int | None


def printable(name: str) -> str:
    """The name of a file, with what is no UTF-8 in it spelled out."""
    return name.encode(errors="backslashreplace").decode()


def bytes_of(name: str) -> bytes:
    """The whole file, where it is there and a table may be so long."""
    try:
        data = Path(name).read_bytes()
    except FileNotFoundError:
        raise Refusal(NO_FILE, b"no file " + printable(name).encode()) from None
    if len(data) > _tables.MOST_BYTES:
        raise Refusal(TABLE, b"table refused: longer than %d bytes" % _tables.MOST_BYTES)
    return data


def records(text: bytes) -> Iterator[list[bytes]]:
    """The records of a CSV text, one after the other."""
    text = text.removeprefix(b"\xef\xbb\xbf")
    if b'"' in text:
        yield from _quoted_records(text)
        return
    for line in text.replace(b"\r", b"\n").split(b"\n"):
        if line:
            yield line.split(b",")


def _quoted_records(text: bytes) -> Iterator[list[bytes]]:
    at = 0
    while at < len(text):
        if text[at] in b"\r\n":
            at += 1
            continue
        fields: list[bytes] = []
        ended = False
        while not ended:
            field, at = _tables.field_at(text, at)
            fields.append(field)
            ended = at >= len(text) or text[at] in b"\r\n"
            at += 1
        yield fields


def header(record: list[bytes]) -> list[Column]:
    """The columns of a header, and its marks where it has them."""
    kinds = {"int": "int", "vect": "vec", "cut": "cut"}
    return [Column(name.decode(), kinds[kind]) for name, kind in _tables.read_header(record)]


def first_entries(text: bytes, count: int) -> tuple[list[Column], list[list[str]], bool]:
    """The columns, the fields of the first entries, each checked, and whether there are more."""
    rows = records(text)
    columns = header(next(rows, [b""]))
    found = []
    for entry, record in enumerate(islice(rows, count)):
        if len(record) != len(columns):
            raise _tables.refused("B2", entry)
        for field, (cell, column) in enumerate(zip(record, columns)):
            if not _fits(cell, column.kind):
                raise _tables.refused({"int": "B3", "vec": "B4", "cut": "B6"}[column.kind], entry, field)
        found.append([cell.decode() for cell in record])
    return columns, found, next(rows, None) is not None


def _fits(cell: bytes, kind: str) -> bool:
    if kind == "cut":
        return cell in (b"0", b"1")
    return (_values.integer(cell) if kind == "int" else _tables.vector(cell)) is not None


def lengths_and_clusters(text: bytes, size: int) -> tuple[dict[str, Lengths], Marked]:
    """How long the vectors of a table are that rdf takes, and how many entries its clusters have."""
    rows = records(text)
    columns = header(next(rows))
    vectors = [place for place, column in enumerate(columns) if column.kind == "vec"]
    marked = columns[-1].kind == "cut"
    least, greatest, total = ({place: 0 for place in vectors} for _ in range(3))
    sizes: list[int] = []
    marks = 0
    for entry, record in enumerate(rows):
        mark = marked and record[-1] == b"1"
        marks += mark
        if mark or not sizes or sizes[-1] == size:
            sizes.append(0)
        sizes[-1] += 1
        for place in vectors:
            length = record[place].count(b";") + 1 if record[place] else 0
            total[place] += length
            greatest[place] = max(greatest[place], length)
            least[place] = min(least[place], length) if entry else length
    lengths = {columns[p].name: Lengths(least[p], greatest[p], total[p]) for p in vectors}
    return lengths, Marked(tuple(sizes), marks if marked else None)
