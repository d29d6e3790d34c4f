#!/usr/bin/env python3
"""Snapshots of random scripts and tables: laws of the reference, and rdf_snapshot against it.

    tools/cases/random_snapshots.py [PROGRAM] [COUNT] [SEED]

PROGRAM is RDF_SNAPSHOT_PROGRAM or crates/rdf_snapshot/out/rdf_snapshot where it isn't named, COUNT 500, SEED 1. Of the
reference these laws are tried: what it writes reads as a table; a column of it is what a Take of that column at that
node gives under the same variation (an int column) or has as many elements and the same sum (a vector), and a
snapshot of what was written is that again. Each table that was written is read again by rdf, which is RDF_PROGRAM or
crates/rdf/out/rdf: it has the Count and the Sums that its columns have at the node.
`--reference` tries the laws alone, rdf being the reference. `--show SEED/i` prints that case and what is due to it.
"""
import os
import re
import sys

sys.path.insert(0, os.path.dirname(os.path.abspath(__file__)))

from random_cases import Script, random_table, spoiled  # noqa: E402
from reference import reference_run  # noqa: E402
from run import program_run, usual_program  # noqa: E402
from tables import read_table  # noqa: E402
from trials import SCRIPT_PIECES, TABLE_PIECES, Trial, main  # noqa: E402


class SnapshotTrial(Trial):
    """One script and table, of which several snapshots are taken."""

    program = "rdf_snapshot"

    def __init__(self, seed):
        super().__init__(seed)
        columns, table = random_table(self.chance)
        written = Script(self.chance, columns)
        script = written.written()
        if self.chance.random() < 0.05:
            script = spoiled(self.chance, script, SCRIPT_PIECES)
        if self.chance.random() < 0.05:
            table = spoiled(self.chance, table, TABLE_PIECES)
        self.nodes = written.nodes
        self.files = {"s.txt": script.encode(), "a.csv": table.encode()}
        self.variations = re.findall(r'Vary\((?:"(\w+)"|\[.*?\]), .*\[([^\[\]]*)\](?:, "(\w+)")?\)', script)

    def tried(self):
        for _ in range(6):
            self.taken(self.random_words())
        return self.runs

    def counted(self, words):
        return "snapshots"

    def random_words(self):
        node = self.chance.choice(list(self.nodes))
        seen = [name for name, kind in self.nodes[node].items() if kind != "bool"] or ["x"]
        columns = self.chance.sample(seen, self.chance.randrange(1, len(seen) + 1))
        if self.chance.random() < 0.08:
            columns.insert(self.chance.randrange(len(columns) + 1), self.chance.choice(["zz", *self.nodes[node], "x"]))
        under = "nominal"
        if self.variations and self.chance.random() < 0.7:
            column, tags, name = self.chance.choice(self.variations)
            under = "%s:%s" % (name or column, self.chance.choice(re.findall(r"\w+", tags) or ["up"]))
        if self.chance.random() < 0.04:
            node = self.chance.choice(["nowhere", "n0", "r1", "df", "1"])
        if self.chance.random() < 0.04:
            under = self.chance.choice(["x:no", "nominal", "x", ":"])
        options = ["--slots", self.chance.choice(["1", "2", "3", "16"]),
                   "--cluster", self.chance.choice(["0", "1", "1", "2", "2", "3", "3", "5", "5", "10000"])]
        return ["s.txt", "a.csv", node, ",".join(columns), under] + options

    def taken(self, words):
        status, output = self.run(*words)
        if status != 0:
            return
        table = read_table(output)
        again = reference_run(["e.txt", "b.csv", "df", words[3], "nominal"], {"e.txt": b"", "b.csv": output},
                              "rdf_snapshot")
        self.law(again == (0, output), "a snapshot of a snapshot")
        for place, (name, kind) in enumerate(table.columns):
            cells = [row[place] for row in table.rows]
            if kind == "vect":
                self.compare(words, 'df.Sum("%s")' % name.decode(), [sum(map(sum, cells))])
                column = 'df.Define("sizes", "Size(%s)")' % name.decode()
                self.compare(words, 'sized.Take("sizes")', [len(cell) for cell in cells] or ["none"], "sized = " + column)
            else:
                self.compare(words, 'df.Take("%s")' % name.decode(), cells or ["none"])

    def compare(self, words, call, wanted, line=None):
        """The result of an action at the node, under the variation of the words, is these numbers."""
        place = lambda text: text.replace("df.", words[2] + ".")  # noqa: E731
        lines = [line and place(line), "taken = " + place(call), "VariationsFor(taken)", "Print(taken)"]
        script = self.with_nodes([each for each in lines if each])
        status, output = reference_run(["t.txt", "a.csv"], dict(self.files, **{"t.txt": script.encode()}))
        if status != 0:
            return                      # another variation faults
        results = dict(each.split(" = ") for each in output.decode().splitlines())
        found = results.get("taken[%s]" % words[4], results["taken"])
        self.law(found == " ".join(map(str, wanted)), "%s is %s" % (call, found))

    def with_nodes(self, lines):
        """A script with the nodes of this one, and lines behind them."""
        nodes = [each for each in self.files["s.txt"].decode().split("\n")
                 if re.search(r"\.(Define|Redefine|Alias|Filter|Vary)\(", each)]
        return "\n".join(nodes + lines) + "\n"

    def wrong_with(self, run, output, program):
        """What is wrong with an output that is due: `rdf` doesn't read it again as what it holds."""
        words, _, status, _ = run
        if status == 0 and not self.read_again(words, output, run_of_rdf(program)):
            return "READ AGAIN AS ANOTHER"

    def read_again(self, words, output, run):
        """Whether a table that was written has the Count and the Sums that its columns have at the node, by `run` of rdf."""
        actions = ["Count()"] + ['Sum("%s")' % name for name in words[3].split(",")]
        booked = lambda node: ["made%d = %s.%s" % (at, node, call) for at, call in enumerate(actions)]  # noqa: E731
        prints = ["Print(made%d)" % at for at in range(len(actions))]
        again = run(["e.txt", "b.csv"], {"e.txt": "\n".join(booked("df") + prints).encode(), "b.csv": output})
        asked = ["VariationsFor(made%d)" % at for at in range(len(actions))]
        script = self.with_nodes(booked(words[2]) + asked + prints)
        status, text = run(["t.txt", "a.csv"], dict(self.files, **{"t.txt": script.encode()}))
        if status != 0:
            return again[0] == 0        # another variation faults, or there are too many results
        results = dict(each.split(" = ") for each in text.decode().splitlines())
        names = ["made%d" % at for at in range(len(actions))]
        due = "".join("%s = %s\n" % (name, results.get("%s[%s]" % (name, words[4]), results[name])) for name in names)
        return again == (0, due.encode())


def run_of_rdf(program):
    """How rdf is run: by the reference where no program is tried."""
    rdf = usual_program("rdf")
    return reference_run if program is None else lambda words, files: program_run(rdf, words, files)


if __name__ == "__main__":
    sys.exit(main(__doc__, SnapshotTrial))
