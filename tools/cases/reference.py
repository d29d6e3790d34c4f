"""The reference, called in this process, and what must hold of partial lines of several slots."""
import os
import re
import sys

from casefile import TOP

sys.path.insert(0, os.path.join(TOP, "tools", "reference"))
sys.setrecursionlimit(1000000)

import chain_commands  # noqa: E402
import commands  # noqa: E402
import shard_commands  # noqa: E402
import snapshot_commands  # noqa: E402
from passes import Analysis  # noqa: E402
from values import Fault, Refusal  # noqa: E402

PROGRAMS = {"rdf": commands.run, "rdf_shard": shard_commands.run, "rdf_snapshot": snapshot_commands.run,
            "rdf_chain": chain_commands.run}


def reference_run(words, files, program="rdf"):
    """The status and output of a command over files in memory."""
    shelf = {os.fsencode(name): text for name, text in files.items()}
    return PROGRAMS[program]([os.fsencode(word) for word in words], shelf.get)


class EachOnce(Analysis):
    """An analysis that works out once what all entries with the same cells come to in a pass."""

    def __init__(self, plain):
        self.__dict__.update(plain.__dict__)
        self.texts = {id(row): repr(row) for row in self.rows}
        self.answers = {}

    def fed(self, row, result, variation):
        return self.once((id(result), variation, self.texts[id(row)]),
                         lambda: Analysis.fed(self, row, result, variation))

    def through(self, row, node, variation):
        return self.once((id(node), variation, self.texts[id(row)]),
                         lambda: Analysis.through(self, row, node, variation))

    def once(self, key, answer):
        if key not in self.answers:
            try:
                self.answers[key] = answer(), None
            except Fault as fault:
                self.answers[key] = None, fault.kind
        value, fault = self.answers[key]
        if fault is not None:
            raise Fault(fault)
        return value


def prepared(words, files):
    """A checked run of `rdf`, for tables in which the same entries stand many times."""
    shelf = {os.fsencode(name): text for name, text in files.items()}
    run = commands.prepared([os.fsencode(word) for word in words], shelf.get)
    run.analysis = EachOnce(run.analysis)
    return run


def quick_run(words, files):
    """What `reference_run` answers for `rdf`, sooner where the same entries stand many times."""
    try:
        status, lines = prepared(words, files).transcript()
    except Refusal as refusal:
        status, lines = refusal.status, [refusal.line]
    return status, b"".join(line + b"\n" for line in lines)


def has_several_slots(words):
    text = " ".join(words)
    found = re.search(r"--slots[ =](\d+)", text)
    return found is not None and int(found[1]) > 1


def difference(words, files, wanted, got):
    """Why the output isn't the one that is wanted, or None.

    `wanted` has the partial lines of one slot. With several slots the sets of clusters may be
    others: each line must be the result over the clusters that it names, their number must be
    exact, each set must contain the one before, and the results of one loop must share them.
    """
    if wanted == got:
        return None
    if not (has_several_slots(words) and b"\npartial " in b"\n" + wanted):
        return "the output differs"
    ours, theirs = wanted.split(b"\n"), got.split(b"\n")
    if len(ours) != len(theirs):
        return "another number of lines"
    run = prepared(words, files)
    loops = loop_of_each_result(run.booking)
    chains, before = {}, None
    for number, (our, their) in enumerate(zip(ours, theirs), 1):
        if our == their and not our.startswith(b"partial "):
            before = None
            continue
        head = re.match(rb"partial (\w+) over ([0-9,-]+) = ", their)
        if head is None or not our.startswith(b"partial %s over " % head[1]):
            return "line %d differs" % number
        name, clusters = head[1], clusters_in(head[2])
        if any(not 0 <= c < len(run.clusters) for c in clusters):
            return "line %d names a cluster that isn't there" % number
        if run.partial_line(run.booking.results[name], clusters) != their:
            return "line %d isn't the result over its clusters" % number
        if len(clusters) != len(clusters_in(our.split(b" ")[3])):
            return "line %d names another number of clusters" % number
        if before is not None and before[0] == name and not set(before[1]) < set(clusters):
            return "line %d doesn't contain the clusters before" % number
        before = (name, clusters)
        chain = chains.setdefault((loops[name], len(clusters)), clusters)
        if chain != clusters:
            return "line %d has other clusters than its loop" % number
    return None


def clusters_in(text):
    found = []
    for part in text.split(b","):
        low, _, high = part.partition(b"-")
        found += range(int(low), int(high or low) + 1)
    return found


def loop_of_each_result(booking):
    return {result.name: number for number, (_, waiting) in enumerate(booking.prints)
            for result in waiting}
