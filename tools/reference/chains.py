"""Chains of tables: their transcript over all rows, the part of one table, and what several parts come to."""
from part_texts import Part
from shards import first, joined, loops_over, printed_lines
from tables import Table
from transcripts import Run

FAULT_PLACE = b"in file %d at entry %d"


# ---- all tables at once

class ChainRun(Run):
    """A booked script over the rows of several tables, one table's behind the other's."""

    def __init__(self, booking, tables):
        rows = [row for table in tables for row in table.rows]
        super().__init__(booking, Table(tables[0].columns, rows, []), max(len(rows), 1), 1)
        self.places = [(file, entry) for file, table in enumerate(tables) for entry in range(len(table.rows))]

    def place_of(self, entry):
        return FAULT_PLACE % self.places[entry]

    def partial_lines(self, result):
        return []                       # Watch is dropped


# ---- parts

def part_of(booking, table, file, script):
    """The part of one table, which is that file of its chain."""
    part = Part()
    part.first, part.last, part.entries, part.script = file, file + 1, len(table.rows), script
    part.columns = table.columns
    part.loops = loops_over(booking, table.columns, table.rows, lambda entry: (file, entry))
    return part


def joined_part(booking, parts):
    """One part of all, whose files follow each other in some order."""
    in_order = sorted(parts, key=lambda part: part.first)
    whole = Part()
    whole.first, whole.last = in_order[0].first, in_order[-1].last
    whole.entries = sum(part.entries for part in parts)
    whole.script, whole.columns = parts[0].script, parts[0].columns
    whole.loops = joined(booking, in_order)
    return whole


def part_lines(booking, part):
    """The status and the lines that a part of a whole chain prints."""
    return printed_lines(booking, part.loops, FAULT_PLACE)


# ---- parts that don't fit

def unlike_head(parts, script):
    """The first part of another script, or with other columns than the first one's, or None."""
    return first(part.script != script or part.columns != parts[0].columns for part in parts)


def uncovered(parts):
    """The least file, from the least one of a part on, that stands in no part or in several, or None.

    How many parts have a file changes only where one of them begins or ends.
    """
    ends = sorted({end for part in parts for end in (part.first, part.last)})
    return next((file for file in ends[:-1] if sum(part.first <= file < part.last for part in parts) != 1), None)


def unlike_whole(part, count):
    """The least file below `count` or of the part that isn't in both, or None."""
    if part.first > 0:
        return 0
    return None if part.last == count else min(part.last, count)
