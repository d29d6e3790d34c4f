#!/usr/bin/env python3
"""Random scripts over tables of a block of entries and more: the built program against the reference.

    tools/cases/random_blocks.py [PROGRAM] [COUNT] [SEED]

The event loop goes over at most 1,024 entries of a cluster at once. These tables have so many, one less, one more,
or several times as many. In each stand a few different entries, each of them many times, at which nothing faults;
entries at which something faults stand at chosen places. Entries with the same cells come to the same in a pass, so
the reference works it out once for them.

The words are those of random_cases.py. Every hundredth case is also put to the reference as it is, which has to
agree with its quick form.
"""
import collections
import os
import random
import sys

sys.path.insert(0, os.path.dirname(os.path.abspath(__file__)))

import random_cases  # noqa: E402
from random_cases import Script, random_cells, random_columns, shown_columns, text_of  # noqa: E402
from reference import prepared, quick_run, reference_run  # noqa: E402
from values import Fault, Refusal  # noqa: E402

BLOCK = 1024
SIZES = [1023, 1024, 1025, 2500]
OTHER_SIZES = [1, 2, 512, 2047, 2048, 2049, 3071, 3073]
EDGES = [0, 1, 511, 512, BLOCK - 2, BLOCK - 1, BLOCK, BLOCK + 1, 2 * BLOCK - 1, 2 * BLOCK, 2 * BLOCK + 1]
CLUSTERS = [1, 3, 1000, 1024, 1025, 10000]
DIFFERENT = 40      # so many entries are tried beside a script
TURNS = 8           # so many scripts are tried for one that faults as is wished
WISHES = ["two"] * 8 + ["varied"] * 3 + ["Report"] * 2 + ["F1", "F2", "F3", "F4", "F5", "F6", "F7", "F8"]


class DaringScript(Script):
    """A script that faults at many entries."""

    divisors, picks, vectors = 0.4, 0.5, 0.5

    def number(self, inner):
        return self.daring(inner) if self.chance.random() < 0.3 else super().number(inner)

    def daring(self, inner):
        form = self.chance.choice([
            "%d / ((%s) - 3)", "%d %% (%s)", "(9223372036854775807 - %d) + (%s)", "(%d - 9223372036854775807) - (%s)",
            "square(%d + 50000000 * (%s))", "At(%s, %d %% 3)", "Min(%s) + %d", "Max(%s) - %d", "(%s)[%d %% 2]"])
        number, kind = self.chance.randrange(50), "int" if form.index("%d") < form.index("%s") else "vect"
        return form % ((number, inner(kind)) if kind == "int" else (inner(kind), number))

    def action_line(self):
        if self.chance.random() < 0.5:
            super().action_line()
        else:
            self.daring_result()

    def daring_result(self):
        """A result of a column, a Vary or a filter of its own, which faults here and there."""
        parent = self.parent()
        columns, made = self.nodes[parent], self.fresh("q")
        daring = lambda: self.daring(lambda kind: self.leaf(columns, kind))  # noqa: E731
        varied = [name for name, kind in columns.items() if kind == "int" and name not in self.aliases[parent]]
        form = self.chance.choice(["column", "column", "Vary", "Report"])
        if form == "Report":
            self.add_node(parent, 'Filter("(%s) %% 5 != 4", "%s")' % (daring(), made))
            self.add_result("df", "Report", "")
        elif form == "Vary" and varied:
            name = self.chance.choice(varied)
            self.variations += 1
            self.add_node(parent, 'Vary("%s", "%s", ["down", "up"], "v%d")' % (
                name, self.daring_values(columns, daring), self.variations))
            self.lines.append("VariationsFor(%s)" % self.add_result(list(self.nodes)[-1], "Sum", '"%s"' % name))
        else:
            self.add_node(parent, 'Define("%s", "%s")' % (made, daring()), {**columns, made: "int"})
            self.add_result(list(self.nodes)[-1], self.chance.choice(["Sum", "Min", "Max", "Take"]), '"%s"' % made)

    def daring_values(self, columns, daring):
        """The two values of a Vary, or a vector that here and there has another length."""
        vector = self.column(columns, "vect")
        if vector is None or self.chance.random() < 0.5:
            return "{%s, %s}" % (daring(), daring())
        return "%s[%s != %d]" % (vector, vector, self.chance.randrange(-1, 50))

    def add_result(self, node, kind, column):
        name = self.fresh("r")
        self.lines.append("%s = %s.%s(%s)" % (name, node, kind, column))
        self.results[name] = kind
        return name

    def written(self):
        for _ in range(self.chance.choice([0, 0, 2, 3])):
            self.chance.choice([self.daring_result, self.daring_result, self.node_line])()
        return super().written()


def random_table_and_script(chance):
    """Columns, a script that is accepted, entries at which nothing faults, and lists of some that fault alike.

    The lists are in the order of the first pass that faults."""
    wished, found = chance.choice(WISHES), None
    for turn in range(1000):
        columns = random_columns(chance)
        script = chance.choice([Script, DaringScript, DaringScript])(chance, shown_columns(columns)).written()
        entries = [random_cells(chance, columns) for _ in range(DIFFERENT)]
        alike = collections.defaultdict(list)
        for cells, faults in zip(entries, faults_of(script, columns, entries)):
            alike[faults].append(cells)
        plain = alike.pop("", [])
        order = sorted(alike, key=first_pass)
        if len(plain) >= 3 and (found is None or order):
            found = columns, script, plain, [alike[faults] for faults in order]
            if granted(wished, order):
                break
        if found and turn >= TURNS:
            break
    return found


def granted(wished, order):
    """Whether two passes fault first somewhere, or one of a sort, or one with a kind of fault."""
    if wished == "two":
        return len(set(map(first_pass, order))) > 1
    return any(wished in faults.split(" ")[0] for faults in order)


def first_pass(faults):
    return int(faults.partition(":")[0])


def faults_of(script, columns, entries):
    """For each entry the passes that fault at it, their sort and the kind, as a text; none where the script is refused."""
    files = {"s.txt": script.encode(), "a.csv": text_of(columns, entries).encode()}
    try:
        run = prepared(["s.txt", "a.csv"], files)
    except Refusal:
        return []
    passes = [(result, variation) for _, waiting in run.booking.prints for result in waiting
              for variation in run.booking.passes(result)]
    return [" ".join(filter(None, (fault_of(run.analysis, row, number, *each) for number, each in enumerate(passes))))
            for row in run.rows]


def fault_of(analysis, row, number, result, variation):
    try:
        analysis.fed(row, result, variation)
    except Fault as fault:
        return "%d:%s:%s" % (number, result.kind if variation is None else "varied", fault.kind)
    return ""


def places_of_faults(chance, count, cluster):
    """Up to four entries: at the edges and in the middle of blocks and clusters, or anywhere; most of them in one block."""
    edges = EDGES + [count - 2, count - 1, cluster - 1, cluster, cluster + BLOCK - 1, cluster + BLOCK]
    places = [chance.choice(edges) if chance.random() < 0.75 else chance.randrange(count)
              for _ in range(chance.choice([0, 1, 2, 2, 3, 4]))]
    if chance.random() < 0.7:
        block = chance.choice(places or [0]) // BLOCK
        places = [place % BLOCK + block * BLOCK for place in places]
    return [place for place in places if 0 <= place < count]


def with_faults(chance, entries, places, special):
    """The entries, with some that fault at these places: in any order, or mostly a later pass at an earlier entry."""
    chosen = [chance.randrange(len(special)) for _ in places]
    if chance.random() < 0.6:
        places = sorted(places)
        chosen = sorted(chosen, reverse=True)
        chosen[-1:] = [0] * len(chosen[-1:])
    for place, number in zip(places, chosen):
        entries[place] = chance.choice(special[number])
    return entries


def random_case(seed):
    chance = random.Random(seed)
    columns, script, plain, special = random_table_and_script(chance)
    count = chance.choice(SIZES) if chance.random() < 0.9 else chance.choice(OTHER_SIZES)
    cluster = chance.choice(CLUSTERS)
    entries = [chance.choice(plain) for _ in range(count)]
    if special:
        entries = with_faults(chance, entries, places_of_faults(chance, count, cluster), special)
    if chance.random() < 0.1:
        marked = {chance.randrange(count) for _ in range(3)}
        columns = columns + [("k", "cut")]
        entries = [cells + [str(int(entry in marked))] for entry, cells in enumerate(entries)]
    words = ["s.txt", "a.csv", "--slots", chance.choice(["1", "3", "16"]), "--cluster", str(cluster),
             "--watch", str(chance.choice([1, 1, 2]) if cluster > 3 else chance.choice([100, 333, 1000]))]
    return words, {"s.txt": script.encode(), "a.csv": text_of(columns, entries).encode()}


class Checked:
    """What is due to the cases in turn; of every hundredth one the two forms of the reference agree."""

    def __init__(self):
        self.cases = 0

    def __call__(self, words, files):
        due = quick_run(words, files)
        self.cases += 1
        if self.cases % 100 == 0 and due != reference_run(words, files):
            raise AssertionError("the reference and its quick form differ\n" + random_cases.shown(words, files))
        return due


def main():
    return random_cases.tried(random_cases.usual_parser(__doc__).parse_args(), random_case, Checked())


if __name__ == "__main__":
    sys.exit(main())
