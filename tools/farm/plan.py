"""The steps of a chain, for the Snakefile and dask_chain.py: a map for each table, and joins until one part is left."""
import hashlib
import os
from dataclasses import dataclass


@dataclass(frozen=True)
class Step:
    """A step's name, the part that it writes, the parts that it reads, and the table of a map with its number."""
    name: str
    part: str
    parts: tuple = ()
    table: str = None
    number: int = None

    def words(self, script, slots):
        """What is asked of `rdf chain`."""
        if self.table is None:
            return ["join", script, *self.parts]
        return ["map", script, str(self.number), self.table, "--slots", str(slots)]


def digits_of(text):
    return hashlib.sha256(os.fsencode(text)).hexdigest()[:16]


def script_sum(script):
    with open(script, "rb") as file:
        return hashlib.sha256(file.read()).hexdigest()


def map_of(script, number, table, work):
    """A part is named after its table as it is now, so that a changed one has another part."""
    state = os.stat(table)
    seconds, rest = divmod(state.st_mtime_ns, 10 ** 9)
    key = digits_of("%s %d %d %d %d.%09d\n" % (script, state.st_dev, state.st_ino, state.st_size, seconds, rest))
    part = os.path.join(work, "map-%d-%s-%s.part" % (number, os.path.basename(table), key))
    return Step("map-%d" % number, part, (), table, number)


def plan(script, tables, work, group):
    """All steps, each behind those whose parts it reads; the last one's part is that of all tables."""
    state = script_sum(script)
    level = [(number, number, map_of(state, number, table, work)) for number, table in enumerate(tables)]
    steps = [step for _, _, step in level]
    while len(level) > 1:
        groups = [level[at:at + group] for at in range(0, len(level), group)]
        level = [joined(members, work) if len(members) > 1 else members[0] for members in groups]
        steps += [step for (_, _, step), members in zip(level, groups) if len(members) > 1]
    return steps


def joined(members, work):
    first, last = members[0][0], members[-1][1]
    parts = tuple(step.part for _, _, step in members)
    name = "join-%d-%d" % (first, last)
    key = digits_of("".join(part + "\n" for part in parts))
    return first, last, Step(name, os.path.join(work, "%s-%s.part" % (name, key)), parts)
