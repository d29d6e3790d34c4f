#!/usr/bin/env python3
"""Chains of random tables: laws of the reference, and rdf_chain against it.

    tools/cases/random_chains.py [PROGRAM] [COUNT] [SEED]

PROGRAM is RDF_CHAIN_PROGRAM or crates/rdf_chain/out/rdf_chain where it isn't named, COUNT 500, SEED 1. Each case runs
a script over a chain, writes a part for each of its tables, joins them under random groupings in random order, and
prints; then parts are left out, named twice, cut short, changed by a byte or a number, of another script or of other
columns. Each run is compared with the reference's. Of the reference these laws are tried:

- `print` over the joined parts is `run`, and `run` is `rdf`'s run over all rows in one table, but for a fault's place;
- in whatever groups parts are joined, the text is the same, also where a number of one is another;
- slots and clusters change nothing; a Watch changes nothing but the script's hash;
- a part that reads is the one text of what it holds; where one is cut short, left out or named twice, another
  number of files is printed, or a script or columns are others, it is refused.

`--reference` tries the laws alone. `--show SEED/i` prints that case and what is due to it.
"""
import os
import re
import sys

sys.path.insert(0, os.path.dirname(os.path.abspath(__file__)))

from random_cases import Script, random_columns, random_text, shown_columns, spoiled  # noqa: E402
from reference import reference_run  # noqa: E402
from part_texts import part_text, read_part, script_hash  # noqa: E402
from shard_texts import BadLine  # noqa: E402
from tables import read_table  # noqa: E402
from trials import SCRIPT_PIECES, TABLE_PIECES, Trial, main, with_fault, with_other_number  # noqa: E402

PART_PIECES = list("0123456789- \nlcsaeft") + ["none", "true", " 0", "end\n", "loop\n", "fault 0 0 0 1\n", "count 1\n"]
PART_NUMBERS = ["0", "1", "2", "3", "4", "-1", "7", "none", "true", "false", str(2 ** 63 - 1), str(-2 ** 63),
                str(2 ** 75), str(-2 ** 76), str(2 ** 43), str(2 ** 74), "16777216", "1000000"]


class ChainTrial(Trial):
    program = "rdf_chain"

    def __init__(self, seed):
        super().__init__(seed)
        chance = self.chance
        columns = random_columns(chance)
        tables = [random_text(chance, columns) for _ in range(chance.choice([1, 1, 2, 2, 3, 4, 6]))]
        seen = shown_columns(columns)
        script = with_fault(chance, Script(chance, seen).written(), seen, chance.choice(tables))
        if chance.random() < 0.04:
            script = spoiled(chance, script, SCRIPT_PIECES)
        if chance.random() < 0.04:
            place = chance.randrange(len(tables))
            tables[place] = spoiled(chance, tables[place], TABLE_PIECES)
        self.files = {"s.txt": script.encode(), **{"%c.csv" % (97 + i): text.encode() for i, text in enumerate(tables)}}
        self.tables = [name for name in self.files if name != "s.txt"]
        if chance.random() < 0.15:
            self.tables.append(chance.choice(self.tables))

    def options(self):
        """Some options, which change nothing."""
        chance = self.chance
        options = [["--slots", chance.choice(["1", "2", "3", "16"])],
                   ["--cluster", chance.choice(["1", "2", "3", "5", "1000000"])]]
        return [word for option in chance.sample(options, chance.randrange(3)) for word in option]

    def tried(self):
        """All runs of the case."""
        due = self.run("run", "s.txt", *self.tables)
        self.law(self.run("run", "s.txt", *self.tables, *self.options()) == due, "options that change something")
        if self.chance.random() < 0.1:
            self.wrong_words()
        if due[0] not in (0, 8):
            self.refused(due)
            return self.runs
        self.as_one_table(due)
        parts = [self.mapped(number, name) for number, name in enumerate(self.tables)]
        whole = self.same_in_groups(parts)
        count = len(parts)
        self.law(self.printed(count, whole) == due, "a whole that prints something else")
        self.law(self.printed(self.chance.choice([each for each in range(1, count + 2) if each != count]), whole)[0] == 23,
                 "another number of files")
        for _ in range(4):
            self.chance.choice([self.left_out, self.twice, self.cut_short, self.changed, self.number_changed,
                                self.number_changed, self.other_script, self.other_columns])(parts)
        return self.runs

    # ---- tables

    def wrong_words(self):
        words = self.chance.choice([["run", "s.txt", "a.csv", "--slots", "1"], ["map", "s.txt", "0", "a.csv"],
                                    ["join", "s.txt", "a.csv"], ["print", "s.txt", "1", "a.csv"]])
        at = self.chance.randrange(len(words))
        words[at] = self.chance.choice(["", "0", "00", "-1", "7", "16777216", "16777217", "s.txt", "a.csv", "--", "run"])
        if self.chance.random() < 0.3:
            del words[self.chance.randrange(len(words))]
        self.run(*words)

    def refused(self, due):
        """A chain that is refused: so is the part of each table that is, and the first of these is the chain's."""
        found = [self.run("map", "s.txt", "0", name) for name in self.tables]
        alone = [each for each in found if each[0] != 0]
        self.law(due[0] == 22 or due in alone, "a refusal that no table has")
        self.run("join", "s.txt", *self.tables)

    def as_one_table(self, due):
        """What rdf gives over all rows in one table; a fault's entry is then counted through all tables."""
        tables = [read_table(self.files[name]) for name in self.tables]
        files = {"s.txt": without_watch(self.files["s.txt"]),
                 "a.csv": table_text(tables[0].columns, [row for table in tables for row in table.rows])}
        status, output = reference_run(["s.txt", "a.csv"], files)
        if status == 8:
            *lines, last = output.split(b"\n")[:-1]
            entry, behind = re.fullmatch(rb"fault at entry (\d+) (.*)", last).groups()
            entry, file = int(entry), 0
            while entry >= len(tables[file].rows):
                entry, file = entry - len(tables[file].rows), file + 1
            lines.append(b"fault in file %d at entry %d %s" % (file, entry, behind))
            output = b"".join(line + b"\n" for line in lines)
        self.law((status, output) == due, "a chain that isn't one table:\n" + output.decode())

    # ---- parts

    def mapped(self, number, table):
        status, output = self.run("map", "s.txt", str(number), table, *self.options())
        self.law(status == 0, "a part that is refused")
        self.law(part_text(read_part(output)) == output, "a part that reads as another")
        return self.kept(output)

    def printed(self, count, text):
        return self.run("print", "s.txt", str(count), self.kept(text))

    def joined(self, names):
        return self.run("join", "s.txt", *self.shuffled(names))

    def grouped(self, names):
        """One part of all, joined in random groups of neighbours, or what refused."""
        while len(names) > 1:
            inner = self.chance.sample(range(1, len(names)), self.chance.randrange(len(names)))
            cuts = sorted({0, len(names), *inner})
            if len(cuts) > len(names):
                continue
            groups = []
            for low, high in zip(cuts, cuts[1:]):
                status, output = self.joined(names[low:high])
                if status != 0:
                    return status, output
                groups.append(self.kept(output))
            names = groups
        return self.joined(names)

    def same_in_groups(self, parts):
        """The text of all parts joined at once, which is that of all groupings."""
        due = self.joined(parts)
        self.law(due[0] == 0, "parts that don't join")
        self.law(part_text(read_part(due[1])) == due[1], "a joined part that reads as another")
        for _ in range(2):
            self.law(self.grouped(parts) == due, "groups that join to something else")
        return due[1]

    # ---- parts that don't fit

    def left_out(self, parts):
        place = self.chance.randrange(len(parts))
        rest = parts[:place] + parts[place + 1:]
        if not rest:
            return self.law(self.joined(rest)[0] == 2, "no part")
        found = self.joined(rest)
        if 0 < place < len(parts) - 1:
            return self.law(found == (23, b"file %d isn't covered once\n" % place), "a part that is left out")
        self.law(found[0] == 0, "a chain without an end")
        missing = 0 if place == 0 else len(rest)
        self.law(self.printed(len(parts), found[1]) == (23, b"file %d isn't covered once\n" % missing), "an end that is left out")

    def twice(self, parts):
        place = self.chance.randrange(len(parts))
        self.law(self.joined(parts + [parts[place]]) == (23, b"file %d isn't covered once\n" % place),
                 "a part that stands twice")

    def with_other(self, parts, content):
        """The parts, one of which has another content."""
        gone, name = self.chance.choice(parts), self.kept(content)
        return [name if each == gone else each for each in parts]

    def cut_short(self, parts):
        text = self.files[self.chance.choice(parts)]
        found = self.joined(self.with_other(parts, text[:self.chance.randrange(len(text))]))
        self.law(found[0] == 21, "a part that is cut short")

    def changed(self, parts):
        text = self.files[self.chance.choice(parts)].decode()
        self.checked(parts, spoiled(self.chance, text, PART_PIECES).encode())

    def number_changed(self, parts):
        self.checked(parts, with_other_number(self.chance, self.files[self.chance.choice(parts)], PART_NUMBERS))

    def checked(self, parts, text):
        """Another text of a part: it is refused, or is the one text of what it holds; in groups it joins to the same."""
        try:
            is_refused = part_text(read_part(text)) != text
            self.law(not is_refused, "a part that reads as another")
        except BadLine:
            is_refused = True
        parts = self.with_other(parts, text)
        status, output = self.joined(parts)
        self.law((status == 21) == is_refused, "a part that reads, or doesn't")
        if status == 0:
            self.law(self.grouped(parts) == (status, output), "groups that join to something else")
            self.law(part_text(read_part(output)) == output, "a joined part that reads as another")
            self.printed(len(parts), output)

    def other_script(self, parts):
        """The parts with another script, of which one is or all but one are."""
        text = self.files["s.txt"].decode()
        lines = text.split("\n")
        place = self.chance.randrange(len(lines))
        self.chance.choice([lambda: lines.pop(place), lambda: lines.insert(place, ""), lambda: lines.insert(0, "# other"),
                            lambda: lines.__setitem__(place, lines[place] + " ")])()
        self.files["o.txt"] = "\n".join(lines).encode()
        is_other = script_hash(self.files["o.txt"]) != script_hash(self.files["s.txt"])
        status, _ = self.run("join", "o.txt", *self.shuffled(parts))
        self.law(status in (6, 22) or not is_other, "parts of another script")
        status, output = self.run("map", "o.txt", "0", self.tables[0])
        if status == 0 and is_other:
            self.law(self.joined(self.with_other(parts, output))[0] == (22 if parts else 2), "a part of another script")
        if re.search(rb"(?m)^Watch\(", self.files["s.txt"]):
            self.watch_dropped()

    def watch_dropped(self):
        self.files["w.txt"] = without_watch(self.files["s.txt"])
        self.law(self.run("run", "w.txt", *self.tables) == self.run("run", "s.txt", *self.tables), "a Watch that counts")

    def other_columns(self, parts):
        """A table with a column more, in the chain and as a part."""
        table = read_table(self.files[self.chance.choice(self.tables)])
        kind, cell = self.chance.choice([("int", 1), ("vect", [1])])
        self.files["o.csv"] = table_text([(b"more", kind)] + table.columns, [[cell] + row for row in table.rows])
        place = self.chance.randrange(1, len(self.tables) + 1)
        found = self.run("run", "s.txt", *self.tables[:place], "o.csv", *self.tables[place:])
        self.law(found == (22, b"file o.csv differs\n"), "a table with a column more")
        status, output = self.run("map", "s.txt", str(len(parts)), "o.csv")
        if status == 0:
            found = self.run("join", "s.txt", *parts, self.kept(output))
            self.law(found[0] == 22, "a part with a column more")


def table_text(columns, rows):
    lines = [b",".join(name + (b":int" if kind == "int" else b":vec") for name, kind in columns)]
    for row in rows:
        cells = [";".join(map(str, cell if isinstance(cell, list) else [cell])) for cell in row]
        lines.append(",".join(cells).encode() or b'""')
    return b"".join(line + b"\n" for line in lines)


def without_watch(script):
    return re.sub(rb"(?m)^Watch\(\w+\)$", b"", script)


if __name__ == "__main__":
    sys.exit(main(__doc__, ChainTrial))
