"""Shard files: what stands in one, its text, and the reading of the text line by line.

A line of a loop is a tuple of its word and its content; a loop is the list of its lines. A faulted
one has the one line ("fault", entry, pass, kind). `part_texts` reads and writes with what stands here.
"""
import collections

from tables import MOST_COLUMNS, MOST_ENTRIES
from values import DIGITS, GREATEST, LEAST, is_name

MOST_BYTES = 134217728
MOST_COUNT = 2 ** 32 - 1
MOST_SUM = 2 ** 96 - 1
MOST_PASSES = 8256
FAULT_KINDS = 8
KINDS = {b"int": "int", b"vec": "vect"}
TRUTHS = {b"true": True, b"false": False}


class Shard:
    def __init__(self):
        self.entries = self.clusters = self.low = self.high = None
        self.columns = []               # (name, kind)
        self.loops = []

    def head(self):
        return self.entries, self.clusters, self.columns


class BadLine(Exception):
    """The first line, counted from 1, at which a text breaks the rules."""

    def __init__(self, number):
        super().__init__(number)
        self.number = number


class Broken(Exception):
    """A line that can't stand where it stands."""


# ---- the text of a shard

def number(value):
    if value is None:
        return b"none"
    if isinstance(value, bool):
        return b"true" if value else b"false"
    return b"%d" % value


def line_text(line):
    word, content = line[0], line[1:]
    if word in ("take", "cells", "report"):
        items = content[0]
        values = items if word == "take" else [value for pair in items for value in pair]
        content = [len(items)] + values
    return b" ".join([word.encode()] + [number(value) for value in content])


def column_texts(columns):
    words = {kind: word for word, kind in KINDS.items()}
    return [b"column %s %s" % (name, words[kind]) for name, kind in columns]


def loop_texts(loops):
    return [text for loop in loops for text in [b"loop"] + [line_text(line) for line in loop]]


def text_of(lines):
    return b"".join(line + b"\n" for line in lines + [b"end"])


def shard_text(shard):
    return text_of([b"rdfshard 1", b"table %d %d" % (shard.entries, shard.clusters)]
                   + column_texts(shard.columns) + [b"span %d %d" % (shard.low, shard.high)]
                   + loop_texts(shard.loops))


# ---- reading it

def needs(holds):
    if not holds:
        raise Broken


def whole(text, least, most):
    """The number of a canonical integer within bounds."""
    digits = text[1:] if text[:1] == b"-" else text
    needs(digits and all(byte in DIGITS for byte in digits) and len(digits) < 40)
    needs(digits[0] != 0x30 or text == b"0")
    needs(least <= int(text) <= most)
    return int(text)


def one(parts, least, most):
    needs(len(parts) == 1)
    return whole(parts[0], least, most)


def items_of(parts, size):
    """What stands behind a number K: K times `size` parts."""
    needs(parts)
    items = parts[1:]
    needs(len(items) % size == 0)
    needs(whole(parts[0], 0, len(items)) * size == len(items))
    return items


def pairs_of(parts, read_one, read_other):
    items = items_of(parts, 2)
    return [(read_one(one), read_other(other)) for one, other in zip(items[::2], items[1::2])]


def within(least, most):
    """Reads a number within bounds."""
    return lambda part: whole(part, least, most)


def read_take(parts, most):
    """At most so many values of one sort, which the first of them shows."""
    items = items_of(parts, 1)
    needs(len(items) <= most)
    if items and items[0] in TRUTHS:
        needs(all(item in TRUTHS for item in items))
        return [TRUTHS[item] for item in items]
    return [whole(item, LEAST, GREATEST) for item in items]


# the greatest count, number of a take's values, absolute values of a sum and of a cell's sum and squares
Limits = collections.namedtuple("Limits", "count take sum cell squares")
SHARD_LIMITS = Limits(MOST_COUNT, MOST_BYTES, MOST_SUM, MOST_SUM, MOST_SUM)


def line_readers(limits):
    """How a line is read whose first word names what it holds."""
    count = within(0, limits.count)
    return {
        b"count": lambda parts: one(parts, 0, limits.count),
        b"sum": lambda parts: one(parts, -limits.sum, limits.sum),
        b"number": lambda parts: one(parts, LEAST, GREATEST),
        b"extreme": lambda parts: None if parts == [b"none"] else one(parts, LEAST, GREATEST),
        b"take": lambda parts: read_take(parts, limits.take),
        b"cells": lambda parts: pairs_of(parts, within(-limits.cell, limits.cell),
                                         within(-limits.squares, limits.squares)),
        b"report": lambda parts: pairs_of(parts, count, count),
    }


class Reader:
    """Takes one line after another. `may` are the words with which the next one may begin."""

    def __init__(self, found, begins, behind_columns):
        self.found = found
        self.may = {begins}
        self.behind_columns = behind_columns
        self.readers = line_readers(SHARD_LIMITS)

    def take(self, line):
        word, *parts = line.split(b" ")
        needs(word in self.may)
        if word in self.readers:
            self.found.loops[-1].append((word.decode(), self.readers[word](parts)))
            self.may = set(self.readers) | {b"loop", b"end"}
        else:
            getattr(self, "take_" + word.decode())(parts)

    def take_column(self, parts):
        needs(len(parts) == 2 and is_name(parts[0]) and parts[1] in KINDS)
        columns = self.found.columns
        needs(len(columns) < MOST_COLUMNS and parts[0] not in [name for name, _ in columns])
        columns.append((parts[0], KINDS[parts[1]]))
        self.may = {b"column"} | self.behind_columns

    def take_loop(self, parts):
        needs(not parts)
        self.found.loops.append([])
        self.may = set(self.readers) | {b"fault"}

    def add_fault(self, parts, bounds):
        """A fault whose numbers lie in these bounds."""
        needs(len(parts) == len(bounds))
        numbers = [whole(part, *each) for part, each in zip(parts, bounds)]
        self.found.loops[-1].append(("fault", *numbers))
        self.may = {b"end"}

    def take_end(self, parts):
        needs(not parts)
        self.may = set()


ENTRY_BOUNDS, PASS_BOUNDS, KIND_BOUNDS = (0, MOST_ENTRIES - 1), (0, MOST_PASSES - 1), (1, FAULT_KINDS)


class ShardReader(Reader):
    def __init__(self):
        super().__init__(Shard(), b"rdfshard", {b"span"})

    def take_rdfshard(self, parts):
        needs(parts == [b"1"])
        self.may = {b"table"}

    def take_table(self, parts):
        needs(len(parts) == 2)
        self.found.entries, self.found.clusters = [whole(part, 0, MOST_ENTRIES) for part in parts]
        self.may = {b"column"}

    def take_span(self, parts):
        needs(len(parts) == 2)
        self.found.high = whole(parts[1], 0, self.found.clusters)
        self.found.low = whole(parts[0], 0, self.found.high)
        self.may = {b"loop", b"end"}

    def take_fault(self, parts):
        self.add_fault(parts, [ENTRY_BOUNDS, PASS_BOUNDS, KIND_BOUNDS])


def read_with(reader, text):
    *lines, rest = text.split(b"\n")
    for place, line in enumerate(lines, 1):
        try:
            reader.take(line)
        except Broken:
            raise BadLine(place) from None
    if rest or reader.may:
        raise BadLine(len(lines) + 1)
    return reader.found


def read_shard(text):
    return read_with(ShardReader(), text)
