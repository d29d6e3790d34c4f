#!/usr/bin/env python3
"""Random scripts over random tables: the built program against the reference.

    tools/cases/random_cases.py [PROGRAM] [COUNT] [SEED]

PROGRAM is RDF_PROGRAM or crates/rdf/out/rdf where it isn't named, COUNT 500, SEED 1. Case number i
has the seed `SEED/i`; each difference is printed with its seed, its words, script and table.
`--show SEED/i` prints that case and what the reference says of it, and runs no program.
`--reference` runs the reference alone and says how often each status came. `--friends` gives each
case a friend, which three in ten have else.
"""
import argparse
import collections
import concurrent.futures
import os
import random
import sys

sys.path.insert(0, os.path.dirname(os.path.abspath(__file__)))

from reference import difference, reference_run  # noqa: E402
from run import program_run, usual_program  # noqa: E402

ARITHMETIC = ["+", "-", "*", "+", "-", "*", "/", "%"]
COMPARISONS = ["<", "<=", ">", ">=", "==", "!="]


class Script:
    """A script that mostly reads, checks and doesn't fault, line by line."""

    # how often a divisor may be 0, an element or an extreme may be missing, and a Vary has one vector for its values
    divisors, picks, vectors = 0.15, 0.1, 0.2

    def __init__(self, chance, columns):
        self.chance = chance
        self.nodes = {"df": dict(columns)}      # the columns that a node sees, with their kinds
        self.aliases = {"df": frozenset()}
        self.results = {}                       # kinds of the results that aren't filled
        self.filled = []
        self.variations = 0
        self.takes = 0
        self.lines = []

    # ---- expressions

    def column(self, columns, kind):
        return self.chance.choice([name for name, k in columns.items() if k == kind] or [None])

    def expression(self, columns, kind, depth):
        if depth == 0 or self.chance.random() < 0.15:
            return self.leaf(columns, kind)
        inner = lambda k: self.expression(columns, k, depth - 1)  # noqa: E731
        return {"int": self.number, "bool": self.truth, "vect": self.vector}[kind](inner)

    def leaf(self, columns, kind):
        name = self.column(columns, kind)
        if name is not None and self.chance.random() < 0.75:
            return name
        if kind == "bool":
            return self.chance.choice(["true", "false"])
        if kind == "int":
            return str(self.chance.choice([0, 1, 2, 3, 7, 10, 25, self.chance.randrange(100), 2 ** 31]))
        return name or "(%s)" % self.leaf(columns, "int")       # no vector: refused

    def divisor(self, inner):
        if self.chance.random() < self.divisors:
            return "(%s)" % inner("int")
        return str(self.chance.choice([1, 2, 3, 7, 100]))

    def number(self, inner):
        chance = self.chance
        form = chance.randrange(12)
        if form < 4:
            operator = chance.choice(ARITHMETIC)
            right = self.divisor(inner) if operator in "/%" else inner("int")
            return "(%s) %s (%s)" % (inner("int"), operator, right)
        if form == 4:
            return "(%s) ? (%s) : %s" % (inner("bool"), inner("int"), inner("int"))
        if form == 5:
            return "-(%s)" % inner("int")
        if form == 6:
            return "abs(%s)" % inner("int")
        if form == 7:
            return "%s(%s)" % (chance.choice(["Sum", "Size"]), inner("vect"))
        if form == 8:
            vector = inner("vect")
            pick = chance.choice(["Min(%s)", "Max(%s)", "(%s)[0]", "At(%s, 0)"]) % vector
            return pick if chance.random() < self.picks else "Size(%s) > 0 ? %s : -1" % (vector, pick)
        if form == 9:
            return "square(%s)" % inner("int")
        if form == 10:
            return "hyp2(%s, %s)" % (inner("int"), inner("int"))
        return "clampto(%s, %s, %s)" % (inner("int"), inner("int"), inner("int"))

    def truth(self, inner):
        form = self.chance.randrange(8)
        if form < 4:
            return "(%s) %s (%s)" % (inner("int"), self.chance.choice(COMPARISONS), inner("int"))
        if form < 6:
            return "(%s) %s (%s)" % (inner("bool"), self.chance.choice(["&&", "||", "==", "!="]), inner("bool"))
        if form == 6:
            return "!(%s)" % inner("bool")
        return "%s(%s)" % (self.chance.choice(["Any", "All"]), inner("vect"))

    def vector(self, inner):
        form = self.chance.randrange(7)
        one = inner("vect")
        other = "(%s)" % inner("int") if self.chance.random() < 0.85 else "(%s)" % inner("vect")
        if form < 2:
            operator = self.chance.choice(ARITHMETIC)
            if operator in "/%":
                other = self.divisor(inner)
            return "(%s) %s %s" % (one, operator, other)
        if form == 2:
            return "(%s) %s %s" % (one, self.chance.choice(COMPARISONS), other)
        if form == 3:
            return "(%s)[(%s) %s %s]" % (one, one, self.chance.choice(COMPARISONS), other)
        if form == 4:
            return "%s(%s)" % (self.chance.choice(["-", "!"]), one)
        if form == 5:
            return "(%s) %s (%s)" % (one, self.chance.choice(["&&", "||"]), one)
        return "(%s) ? (%s) : %s" % (inner("bool"), one, inner("vect"))

    # ---- lines

    def fresh(self, letter):
        return "%s%d" % (letter, len(self.lines))

    def parent(self):
        names = list(self.nodes)
        return names[-1] if self.chance.random() < 0.6 else self.chance.choice(names)

    def add_node(self, parent, call, columns=None, alias=None):
        name = self.fresh("n")
        self.lines.append("%s = %s.%s" % (name, parent, call))
        self.nodes[name] = columns or self.nodes[parent]
        self.aliases[name] = self.aliases[parent] | ({alias} if alias else set())

    def text(self, columns, kind):
        return self.expression(columns, kind, self.chance.randrange(4))

    def node_line(self):
        chance, parent = self.chance, self.parent()
        columns = self.nodes[parent]
        own = [name for name in columns if name not in self.aliases[parent]]
        form = chance.randrange(10)
        if form < 3:
            kind, name = chance.choice(["int", "int", "bool", "vect"]), self.fresh("c")
            self.add_node(parent, 'Define("%s", "%s")' % (name, self.text(columns, kind)),
                          {**columns, name: kind})
        elif form < 4:
            name = chance.choice(own)
            kind = columns[name] if chance.random() < 0.8 else chance.choice(["int", "vect"])
            self.add_node(parent, 'Redefine("%s", "%s")' % (name, self.text(columns, kind)),
                          {**columns, name: kind})
        elif form < 5:
            name, target = self.fresh("a"), chance.choice(list(columns))
            self.add_node(parent, 'Alias("%s", "%s")' % (name, target), {**columns, name: columns[target]}, name)
        elif form < 8:
            label = ', "cut %d"' % len(self.lines) if chance.random() < 0.5 else ""
            self.add_node(parent, 'Filter("%s"%s)' % (self.text(columns, "bool"), label))
        else:
            self.vary_line(parent, columns, own)

    def vary_line(self, parent, columns, own):
        chance = self.chance
        names = chance.sample(own, min(len(own), chance.choice([1, 1, 2])))
        tags = ["down", "up", "off"][:chance.choice([1, 2, 2, 3])]
        self.variations += 1
        variation = "v%d" % self.variations
        if len(names) == 1 and columns[names[0]] == "int" and chance.random() < self.vectors:
            values = self.text(columns, "vect")
            if chance.random() < 0.7:
                values = "(%s)[%s]" % (values, values) if chance.random() < 0.2 else "vec%d" % len(tags)
                if values not in columns:
                    values = self.text(columns, "vect")
        else:
            lists = ["{%s}" % ", ".join(self.text(columns, columns[name]) for _ in tags) for name in names]
            values = lists[0] if len(lists) == 1 else "{%s}" % ", ".join(lists)
        quoted = ", ".join('"%s"' % name for name in names)
        shown = quoted if len(names) == 1 and chance.random() < 0.5 else "[%s]" % quoted
        self.add_node(parent, 'Vary(%s, "%s", [%s], "%s")'
                      % (shown, values, ", ".join('"%s"' % tag for tag in tags), variation))

    def action_line(self):
        chance, parent = self.chance, self.parent()
        columns, name = self.nodes[parent], self.fresh("r")
        kinds = collections.defaultdict(list)
        for column, kind in columns.items():
            kinds[kind].append(column)
        pick = lambda *wanted: chance.choice([c for k in wanted for c in kinds[k]] or list(columns))  # noqa: E731
        edges = lambda: "[%s]" % ", ".join(map(str, sorted(chance.sample(range(-20, 80), chance.choice([2, 3, 5])))))  # noqa: E731
        form = chance.choice(["Count", "Sum", "Sum", "Min", "Max", "Take", "Reduce", "Histo1D", "Histo2D", "Report"])
        if form in ("Count", "Report"):
            call = form + "()"
        elif form in ("Sum", "Min", "Max"):
            call = '%s("%s")' % (form, pick("int", "int", "vect"))
        elif form == "Take":
            call = 'Take("%s")' % pick("int", "bool")
        elif form == "Reduce":
            operation = chance.choice(["min", "max", "and", "or", "xor", "wrapadd"])
            call = 'Reduce("%s", "%s")' % (operation, pick("int"))
        else:
            kind = chance.choice(["int", "vect"])
            named = [pick(kind) for _ in range(int(form[5]))]
            if chance.random() < 0.5:
                named.append(pick("int", "vect") if kind == "vect" else pick("int"))
            axes = ", ".join(edges() for _ in range(int(form[5])))
            call = "%s(%s, %s)" % (form, axes, ", ".join('"%s"' % c for c in named))
        self.lines.append("%s = %s.%s" % (name, parent, call))
        self.results[name] = form

    def asking_line(self):
        chance = self.chance
        if self.results and chance.random() < 0.5:
            name = chance.choice(list(self.results))
            kind = self.results[name]
            if kind in ("Count", "Sum", "Min", "Max") and chance.random() < 0.4:
                self.lines.append("Watch(%s)" % name)
            elif kind not in ("Report", "Take"):
                self.lines.append("VariationsFor(%s)" % name)
        elif self.results or self.filled:
            self.print_line(chance.choice(list(self.results) + self.filled))

    def print_line(self, name):
        self.lines.append("Print(%s)" % name)
        if name in self.results:
            self.filled += list(self.results)
            self.results = {}

    def written(self):
        for _ in range(self.chance.randrange(3, 20)):
            self.chance.choice([self.node_line] * 4 + [self.action_line] * 3 + [self.asking_line])()
        for name in list(self.results)[:5]:
            if self.results.get(name) not in ("Report", "Take", None) and self.chance.random() < 0.6:
                self.lines.append("VariationsFor(%s)" % name)
        for name in list(self.results)[:6] + self.filled[:2]:
            self.print_line(name)
        return "\n".join(self.lines) + "\n"


def random_table(chance):
    """The columns of a table, with their kinds as in expressions, and its text."""
    columns = random_columns(chance)
    return shown_columns(columns), random_text(chance, columns)


def random_columns(chance):
    kinds = [("x", "int"), ("y", "int"), ("j", "vec"), ("vec2", "vec"), ("w", "int")]
    return [c for c in kinds if chance.random() < 0.75] or kinds[:1]


def shown_columns(columns):
    return [(name, "vect" if kind == "vec" else kind) for name, kind in columns]


def random_text(chance, columns):
    """A table with these columns, at times with marks."""
    marks = [("k", "cut")] if chance.random() < 0.15 else []
    entries = []
    for _ in range(chance.choice([0, 1, 2, 4, 7, 12])):
        entries.append(random_cells(chance, columns) + [str(int(chance.random() < 0.3)) for _ in marks])
    return text_of(columns + marks, entries)


def random_cells(chance, columns):
    """The cells of one entry."""
    number = lambda: chance.choice([0, 1, -1, chance.randrange(-50, 100), chance.randrange(-50, 100)])  # noqa: E731
    cells = []
    for name, kind in columns:
        if kind == "int":
            huge = chance.choice([2 ** 63 - 1, -2 ** 63])
            cells.append(str(huge if chance.random() < 0.01 else number()))
        else:
            length = 2 if name == "vec2" else chance.choice([0, 1, 1, 2, 3])
            cells.append(";".join(str(number()) for _ in range(length)))
    return cells


def text_of(columns, entries):
    """The text of a table."""
    lines = [",".join(":".join(column) for column in columns)]
    lines += [",".join(cells) if cells != [""] else '""' for cells in entries]
    return "\n".join(lines) + "\n"


def random_friend(chance, columns):
    """The words and the file of a friend that mostly joins, and the columns that it adds."""
    keys = [name for name, kind in columns if kind == "int"]
    key = chance.choice(keys) if keys and chance.random() < 0.95 else chance.choice(["w", "j", "run"])
    others = [c for c in [("run", "int"), ("ids", "vec"), ("z", "int")] if chance.random() < 0.6]
    if chance.random() < 0.05:
        others.append(chance.choice([("y", "int"), ("j", "vec")]))
    header = others[:]
    header.insert(chance.randrange(len(header) + 1), (key, "int" if chance.random() < 0.97 else "vec"))
    numbers = sorted({0, 1, -1, 2 ** 63 - 1, -2 ** 63} | set(range(-50, 100, chance.choice([1, 3]))))
    chance.shuffle(numbers)
    entries = numbers[:chance.choice([0, 1, 3, 20, 150])]
    if entries and chance.random() < 0.05:
        entries.append(chance.choice(entries))
    number = lambda: str(chance.randrange(-50, 100))  # noqa: E731
    lines = [",".join(":".join(column) for column in header)]
    for entry in entries:
        cells = [str(entry) if name == key else number() if kind == "int" else
                 ";".join(number() for _ in range(chance.choice([0, 1, 1, 2, 3]))) for name, kind in header]
        lines.append(",".join(cells) if cells != [""] else '""')
    words = ["--friend", "f.csv", "--key", key]
    if chance.random() < 0.3:
        words.append("--missing=%s" % chance.choice([-1, 7, 2 ** 63 - 1]))
    return words, "\n".join(lines) + "\n", shown_columns(others)


def spoiled(chance, text, pieces):
    """A text with a byte or a word changed."""
    at = chance.randrange(len(text) + 1)
    form = chance.randrange(3)
    if form == 0:
        return text[:at] + text[at + chance.choice([1, 1, 2, 5]):]
    if form == 1:
        return text[:at] + chance.choice(pieces) + text[at:]
    return text[:at] + chance.choice(pieces) + text[at + 1:]


def random_case(seed, with_friend=0.3):
    chance = random.Random(seed)
    columns, table = random_table(chance)
    asked, friend, more = random_friend(chance, columns) if chance.random() < with_friend else ([], None, [])
    script = Script(chance, columns + [c for c in more if c[0] not in dict(columns)]).written()
    if chance.random() < 0.12:
        script = spoiled(chance, script, list('"(),.=[]{}#;&|<>!?:+-*/% \n0a') + ["zz", "true", "df", "05", "99999999999999999999"])
    if chance.random() < 0.06:
        table = spoiled(chance, table, list(',;":-+05x\n\r ') + [":int", ":cut"])
    words = ["s.txt", "a.csv", "--slots", chance.choice(["1", "2", "3", "16"]),
             "--cluster", chance.choice(["1", "2", "3", "5", "10000"]),
             "--watch", chance.choice(["1", "1", "2", "3"])]
    files = {"s.txt": script.encode(), "a.csv": table.encode()}
    if friend is not None:
        if chance.random() < 0.08:
            friend = spoiled(chance, friend, list(',;":-+05x\n\r ') + [":int", ":cut", "pt", "1\n1\n"])
        files["f.csv"] = friend.encode()
    return words + asked, files


def shown(words, files):
    told = "words: %s\n--- script\n%s--- table\n%s" % (
        " ".join(words), files["s.txt"].decode(), files["a.csv"].decode())
    return told + ("--- file f.csv\n" + files["f.csv"].decode() if "f.csv" in files else "")


def usual_parser(usage):
    parser = argparse.ArgumentParser(usage=usage)
    parser.add_argument("program", nargs="?", default=usual_program())
    parser.add_argument("count", nargs="?", type=int, default=500)
    parser.add_argument("seed", nargs="?", default="1")
    parser.add_argument("--show")
    parser.add_argument("--reference", action="store_true")
    return parser


def main():
    parser = usual_parser(__doc__)
    parser.add_argument("--friends", action="store_true")
    asked = parser.parse_args()
    return tried(asked, lambda seed: random_case(seed, 1 if asked.friends else 0.3), reference_run)


def tried(asked, case_of, due):
    """Runs the cases that are asked for; `due` gives the status and output of words over files."""
    if asked.show:
        words, files = case_of(asked.show)
        status, output = due(words, files)
        print("%s--- status %d\n%s" % (shown(words, files), status, output.decode()))
        return 0
    program = os.path.abspath(asked.program)
    statuses = collections.Counter()

    def attempt(number):
        seed = "%s/%d" % (asked.seed, number)
        words, files = case_of(seed)
        wanted = due(words, files)
        statuses[wanted[0]] += 1
        if asked.reference:
            return None
        status, output = program_run(program, words, files)
        found = "status %d, wanted %d" % (status, wanted[0]) if status != wanted[0] \
            else difference(words, files, wanted[1], output)
        if found is None:
            return None
        return "DIFFERS seed %s: %s\n%s--- wanted\n%s--- got\n%s" % (
            seed, found, shown(words, files), wanted[1].decode(), output.decode(errors="backslashreplace"))

    with concurrent.futures.ThreadPoolExecutor(os.cpu_count() or 1) as workers:
        failures = [text for text in workers.map(attempt, range(asked.count)) if text is not None]
    for text in failures[:20]:
        print(text)
    told = ", ".join("%d of status %d" % (n, status) for status, n in sorted(statuses.items()))
    print("%d cases from seed %s (%s), %d differ" % (asked.count, asked.seed, told, len(failures)))
    return 1 if failures else 0


if __name__ == "__main__":
    sys.exit(main())
