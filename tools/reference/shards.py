"""Shards: what a script comes to over a span of a table's clusters, and what several spans come to together."""
from passes import Analysis, reduced
from shard_texts import Shard
from tables import Table, clusters_of
from transcripts import label, report_lines, result_lines
from values import FAULT_NAMES, Refusal

FAULT_WORDS = sorted(FAULT_NAMES)       # F1 to F8
SPAN_REFUSED = Refusal(20, b"span refused")


def loops_of(booking):
    """The passes of each loop, in order: (result, variation)."""
    return [[(result, variation) for result in waiting for variation in booking.passes(result)]
            for _, waiting in booking.prints if waiting]


def all_cells(result):
    """The places of a histogram's cells in the order of its lines."""
    places = [()]
    for edges in result.statement["edges"]:
        places = [at + (cell,) for at in places for cell in range(len(edges) + 1)]
    return places


# ---- one span

def shard_of(booking, table, size, low, high):
    clusters = clusters_of(len(table.rows), size, table.marks)
    if not low <= high <= len(clusters):
        raise SPAN_REFUSED
    span = [entry for cluster in clusters[low:high] for entry in range(*cluster)]
    shard = Shard()
    shard.entries, shard.clusters, shard.columns = len(table.rows), len(clusters), table.columns
    shard.low, shard.high = low, high
    rows = [table.rows[entry] for entry in span]
    shard.loops = loops_over(booking, table.columns, rows, lambda place: (span[place],))
    return shard


def loops_over(booking, columns, rows, place_of):
    """What the loops come to over some rows, up to one with a fault; `place_of` gives the numbers of a row's place."""
    analysis = Analysis(booking, Table(columns, rows, []))
    found = []
    for passes in loops_of(booking):
        fault = analysis.first_fault(passes)
        if fault is not None:
            row, at, kind = fault
            return found + [[("fault", *place_of(row), at, FAULT_WORDS.index(kind) + 1)]]
        found.append([line_of(analysis, *each) for each in passes])
    return found


def line_of(analysis, result, variation):
    if result.kind == "Report":
        return "report", [analysis.cutflow(named) for named in result.covered]
    value = analysis.result_of(result, variation, analysis.rows)
    if result.kind.startswith("Histo"):
        return "cells", [value.get(place, (0, 0)) for place in all_cells(result)]
    return LINE_WORDS[result.kind], value


LINE_WORDS = {"Count": "count", "Sum": "sum", "Min": "extreme", "Max": "extreme", "Take": "take",
              "Reduce": "number"}


# ---- several

def unlike_head(shards):
    """The first file that is of another table, or None."""
    return first(shard.head() != shards[0].head() for shard in shards)


def unlike_shape(booking, files):
    """The first file whose loops aren't those of the script, or None."""
    return first(not has_shape(booking, file.loops) for file in files)


def uncovered(shards):
    """The least cluster that stands in no span or in several, or None."""
    return first(sum(shard.low <= cluster < shard.high for shard in shards) != 1
                 for cluster in range(shards[0].clusters))


def first(faulty):
    return next((place for place, is_faulty in enumerate(faulty) if is_faulty), None)


def has_shape(booking, found):
    loops = loops_of(booking)
    for place, lines in enumerate(found):
        if place == len(loops):
            return False
        if lines[0][0] == "fault":
            _, *_, at, _ = lines[0]
            return at < len(loops[place])
        if len(lines) != len(loops[place]):
            return False
        if not all(suits(booking, result, line) for (result, _), line in zip(loops[place], lines)):
            return False
    return len(found) == len(loops)


def suits(booking, result, line):
    word, content = line[0], line[1]
    if result.kind == "Report":
        return word == "report" and len(content) == len(result.covered)
    if result.kind.startswith("Histo"):
        return word == "cells" and len(content) == len(all_cells(result))
    if word != LINE_WORDS[result.kind]:
        return False
    if word != "take":
        return True
    truths = booking.kind_at(result.node, result.columns[0]) == "bool"
    return all(isinstance(value, bool) == truths for value in content)


def joined(booking, files):
    """The loops of all files, which are given in their order, up to the first one with a fault.

    The fault is the one with the least first number, which is a shard's entry.
    """
    found = []
    for place, passes in enumerate(loops_of(booking)):
        loops = [file.loops[place] for file in files]
        faults = [lines[0] for lines in loops if lines[0][0] == "fault"]
        if faults:
            return found + [[min(faults, key=lambda fault: fault[1])]]
        found.append([joined_line(result, [lines[at] for lines in loops])
                      for at, (result, _) in enumerate(passes)])
    return found


def joined_line(result, lines):
    contents = [content for _, content in lines]
    return lines[0][0], JOINS[lines[0][0]](result, contents)


def joined_pairs(result, contents):
    return [tuple(map(sum, zip(*pairs))) for pairs in zip(*contents)]


def joined_extreme(result, contents):
    chosen = min if result.kind == "Min" else max
    return chosen([value for value in contents if value is not None], default=None)


JOINS = {
    "count": lambda result, contents: sum(contents),
    "sum": lambda result, contents: sum(contents),
    "number": lambda result, contents: reduced(result.statement, [[value] for value in contents]),
    "extreme": joined_extreme,
    "take": lambda result, contents: [value for values in contents for value in values],
    "cells": joined_pairs,
    "report": joined_pairs,
}


def merged_lines(booking, shards):
    in_order = sorted(shards, key=lambda shard: (shard.low, shard.high))
    return printed_lines(booking, joined(booking, in_order), b"at entry %d")


def printed_lines(booking, found, place):
    """The status and the lines of the Prints in order, with a fault's place as told."""
    loops = iter(found)
    lines, contents = [], {}
    for printed, waiting in booking.prints:
        passes = [(result, variation) for result in waiting for variation in booking.passes(result)]
        loop = next(loops) if waiting else []
        if loop and loop[0][0] == "fault":
            _, *numbers, at, kind = loop[0]
            word = FAULT_WORDS[kind - 1]
            told = (place % tuple(numbers), label(*passes[at]), (word + " " + FAULT_NAMES[word]).encode())
            return 8, lines + [b"fault %s in %s: %s" % told]
        contents.update({each: content for each, (_, content) in zip(passes, loop)})
        for variation in booking.passes(printed):
            lines += lines_of(printed, variation, contents[printed, variation])
    return 0, lines


def lines_of(result, variation, content):
    if result.kind == "Report":
        return report_lines(result, [(named.statement["label"], *counts)
                                     for named, counts in zip(result.covered, content)])
    if result.kind.startswith("Histo"):
        content = dict(zip(all_cells(result), content))
    return result_lines(label(result, variation), result, content)
