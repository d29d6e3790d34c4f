"""Part files of chains: what stands in one, its text, and the reading of the text.

Loops are as in a shard, but that a faulted one's line is ("fault", file, entry, pass, kind), and that
limits go with the number of entries.
"""
from shard_texts import (ENTRY_BOUNDS, KIND_BOUNDS, PASS_BOUNDS, Limits, Reader, column_texts, line_readers,
                         loop_texts, needs, read_with, text_of, whole)
from tables import MOST_ENTRIES

MOST_FILES = 16777216
HEX_DIGITS = frozenset(b"0123456789abcdef")


class Part:
    def __init__(self):
        self.first = self.last = self.entries = self.script = None
        self.columns = []               # (name, kind)
        self.loops = []


def script_hash(script):
    """FNV-1a of 64 bits, as 16 digits."""
    value = 0xcbf29ce484222325
    for byte in script:
        value = (value ^ byte) * 0x100000001b3 % 2 ** 64
    return b"%016x" % value


def part_text(part):
    return text_of([b"rdfpart 1", b"files %d %d" % (part.first, part.last), b"entries %d" % part.entries,
                    b"script " + part.script] + column_texts(part.columns) + loop_texts(part.loops))


class PartReader(Reader):
    def __init__(self):
        super().__init__(Part(), b"rdfpart", {b"loop", b"end"})

    def take_rdfpart(self, parts):
        needs(parts == [b"1"])
        self.may = {b"files"}

    def take_files(self, parts):
        needs(len(parts) == 2)
        self.found.last = whole(parts[1], 1, MOST_FILES)
        self.found.first = whole(parts[0], 0, self.found.last - 1)
        self.may = {b"entries"}

    def take_entries(self, parts):
        needs(len(parts) == 1)
        entries = whole(parts[0], 0, MOST_ENTRIES * (self.found.last - self.found.first))
        self.found.entries = entries
        self.readers = line_readers(Limits(entries, entries, entries * 2 ** 75, entries * 2 ** 43, entries * 2 ** 74))
        self.may = {b"script"}

    def take_script(self, parts):
        needs(len(parts) == 1 and len(parts[0]) == 16 and all(byte in HEX_DIGITS for byte in parts[0]))
        self.found.script = parts[0]
        self.may = {b"column"}

    def take_fault(self, parts):
        files = (self.found.first, self.found.last - 1)
        self.add_fault(parts, [files, ENTRY_BOUNDS, PASS_BOUNDS, KIND_BOUNDS])


def read_part(text):
    return read_with(PartReader(), text)
