#!/usr/bin/env python3
"""Shards of random scripts, tables and spans: the reference against its own single run, and rdf_shard against it.

    tools/cases/random_shards.py [PROGRAM] [COUNT] [SEED]

PROGRAM is RDF_SHARD_PROGRAM or crates/rdf_shard/out/rdf_shard where it isn't named, COUNT 500, SEED 1. Each case
writes a file for each span of a table, and then merges them in random order; some mergings leave a file out, name
one twice, or have one that is cut short, changed by a byte or a number, or of another table, size or script. Each
file and each merging is compared with the reference's. Of the reference these laws are tried: where spans hold each
cluster once, the merging is the single run without Watch; where a cluster is left out or stands twice, or a file is
cut short, it is refused; a file that reads is the one text of what it holds.
`--reference` tries the laws alone. `--show SEED/i` prints that case and what is due to it.
"""
import os
import re
import sys

sys.path.insert(0, os.path.dirname(os.path.abspath(__file__)))

from random_cases import Script, random_table, spoiled  # noqa: E402
from reference import reference_run  # noqa: E402
from shard_texts import BadLine, read_shard, shard_text  # noqa: E402
from trials import SCRIPT_PIECES, TABLE_PIECES, Trial, main, with_fault, with_other_number  # noqa: E402

FILE_PIECES = list("0123456789- \nlcsaeft") + ["none", "true", " 0", "end\n", "loop\n", "fault 0 0 1\n", "count 1\n"]


class ShardTrial(Trial):
    program = "rdf_shard"

    def __init__(self, seed):
        super().__init__(seed)
        columns, table = random_table(self.chance)
        script = with_fault(self.chance, Script(self.chance, columns).written(), columns, table)
        if self.chance.random() < 0.05:
            script = spoiled(self.chance, script, SCRIPT_PIECES)
        if self.chance.random() < 0.05:
            table = spoiled(self.chance, table, TABLE_PIECES)
        self.files = {"s.txt": script.encode(), "a.csv": table.encode()}
        self.size = self.chance.choice([1, 1, 2, 3, 5, 1000000])

    # ---- files

    def tried(self):
        """All runs of the case."""
        status, output = self.run("run", "s.txt", "a.csv", str(self.size), "0", "0")
        if self.chance.random() < 0.1:
            self.wrong_words()
        if status != 0:
            self.run("merge", "s.txt", "a.csv")
            return self.runs
        self.clusters = int(output.split(b"\n")[1].split()[2])
        if self.chance.random() < 0.3:
            self.any_span()
        spans = self.random_spans()
        names = [self.written(low, high) for low, high in spans]
        self.chance.shuffle(names)
        self.whole(names)
        for _ in range(4):
            self.chance.choice([self.left_out, self.twice, self.cut_short, self.changed, self.number_changed,
                                self.of_another, self.other_script])(names)
        return self.runs

    def wrong_words(self):
        words = ["run", "s.txt", "a.csv", str(self.size), "0", "1"]
        at = self.chance.randrange(1, 6)
        words[at] = self.chance.choice(["", "0", "00", "-1", "7", "1000001", "none", "s.txt", "a.csv"])
        if self.chance.random() < 0.3:
            del words[self.chance.randrange(6)]
        self.run(*words)

    def any_span(self):
        low, high = [self.chance.randrange(self.clusters + 2) for _ in range(2)]
        status, _ = self.run("run", "s.txt", "a.csv", str(self.size), str(low), str(high))
        self.law(status == (0 if low <= high <= self.clusters else 20), "a span")

    def random_spans(self):
        """Spans that hold each cluster once; some hold none."""
        cuts = sorted(self.chance.randrange(self.clusters + 1) for _ in range(self.chance.choice([0, 1, 1, 2, 3, 5])))
        ends = [0] + cuts + [self.clusters]
        return list(zip(ends, ends[1:]))

    def written(self, low, high, size=None):
        status, output = self.run("run", "s.txt", "a.csv", str(size or self.size), str(low), str(high))
        self.law(status == 0, "a span that is refused")
        self.law(shard_text(read_shard(output)) == output, "a file that reads as another")
        return self.kept(output)

    # ---- mergings

    def merged(self, names):
        return self.run("merge", "s.txt", *names)

    def whole(self, names):
        status, output = self.merged(names)
        script = re.sub(rb"(?m)^Watch\(\w+\)$", b"", self.files["s.txt"])
        single = reference_run(["s.txt", "a.csv"], dict(self.files, **{"s.txt": script}))
        self.law((status, output) == single, "a merging that isn't the single run, of status %d:\n%s"
                 % (single[0], single[1].decode()))

    def is_empty(self, name):
        shard = read_shard(self.files[name])
        return shard.low == shard.high

    def left_out(self, names):
        name = self.chance.choice(names)
        rest = [each for each in self.shuffled(names) if each != name]
        status, _ = self.merged(rest)
        wanted = 2 if not rest else 23 if not self.is_empty(name) else None
        self.law(status == wanted or wanted is None and status in (0, 8), "a file that is left out")

    def twice(self, names):
        name = self.chance.choice(names)
        status, _ = self.merged(self.shuffled(names + [name]))
        self.law(status == 23 or self.is_empty(name) and status in (0, 8), "a file that stands twice")

    def with_other(self, names, content):
        """A merging in which one file has another content."""
        name = self.kept(content)
        gone = self.chance.choice(names)
        return self.merged([name if each == gone else each for each in self.shuffled(names)])

    def cut_short(self, names):
        text = self.files[self.chance.choice(names)]
        status, _ = self.with_other(names, text[:self.chance.randrange(len(text))])
        self.law(status == 21, "a file that is cut short")

    def changed(self, names):
        text = self.files[self.chance.choice(names)].decode()
        self.checked(names, spoiled(self.chance, text, FILE_PIECES).encode())

    def number_changed(self, names):
        self.checked(names, with_other_number(self.chance, self.files[self.chance.choice(names)]))

    def checked(self, names, text):
        try:
            self.law(shard_text(read_shard(text)) == text, "a file that reads as another")
            is_refused = False
        except BadLine:
            is_refused = True
        status, _ = self.with_other(names, text)
        self.law((status == 21) == is_refused, "a file that reads, or doesn't")

    def of_another(self, names):
        """A file of another size of clusters or of another table."""
        if self.chance.random() < 0.5:
            _, output = self.run("run", "s.txt", "a.csv", str(self.chance.choice([1, 2, 3, 4])), "0", "0")
        else:
            table = re.sub(rb"\n.*\n$", b"\n", self.files["a.csv"])
            _, output = reference_run(["run", "s.txt", "t.csv", str(self.size), "0", "0"],
                                      dict(self.files, **{"t.csv": table}), "rdf_shard")
        self.with_other(names, output)

    def other_script(self, names):
        """The script has a line less, or one more, than that of the files."""
        lines = self.files["s.txt"].decode().split("\n")
        self.chance.choice([lambda: lines.pop(self.chance.randrange(len(lines))),
                            lambda: lines.insert(0, "more = df.Count()"),
                            lambda: lines.append("Print(%s)" % self.chance.choice(["n0", "r1", "df"]))])()
        self.files["o.txt"] = "\n".join(lines).encode()
        self.run("merge", "o.txt", *self.shuffled(names))


if __name__ == "__main__":
    sys.exit(main(__doc__, ShardTrial))
