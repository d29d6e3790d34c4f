"""Reads case files. Their format is told in cases/README.md."""
import copy
import itertools
import os
import re
import shlex

TOP = os.path.dirname(os.path.dirname(os.path.dirname(os.path.abspath(__file__))))
CASES = os.path.join(TOP, "cases")
NO_FILE = None


class Case:
    def __init__(self, file, name, options, program="rdf"):
        self.file = file
        self.name = name
        self.program = program
        self.options = options          # lists of words, one list for each run
        self.makes = []                 # files that the program writes beforehand: (name, words, content or None)
        self.words = ["s.txt", "a.csv"]
        self.others = []                # words of further runs, without options
        self.files = {"s.txt": NO_FILE, "a.csv": NO_FILE}
        self.status = 0
        self.output = b""
        self.heavy = False
        self.made = False               # its table is one that formulas make

    def title(self):
        return "%s: %s" % (os.path.basename(self.file), self.name)

    def runs(self):
        return [self.words + options for options in self.options] + self.others

    def contents(self):
        return {name: text for name, text in self.files.items() if text is not NO_FILE}


def expanded(lines):
    """Lines with `@repeat LO HI TEXT` written out, and `<<TEXT*N>>` too."""
    found = []
    for line in lines:
        match = re.fullmatch(r"@repeat (\d+) (\d+) (.*)", line)
        numbers = range(int(match[1]), int(match[2])) if match else [None]
        for number in numbers:
            text = match[3] if match else line
            text = re.sub(r"<<i(?:\+(\d+))?>>", lambda m: str(number + int(m[1] or 0)), text)
            found.append(re.sub(r"<<(.+?)\*(\d+)>>", lambda m: m[1] * int(m[2]), text))
    return found


def unescaped(text):
    return re.sub(rb"\\(n|r|t|\\|x[0-9a-f]{2})",
                  lambda m: bytes([int(m[1][1:], 16)]) if m[1][:1] == b"x" else
                  {b"n": b"\n", b"r": b"\r", b"t": b"\t", b"\\": b"\\"}[m[1]], text)


def words_of(text):
    return shlex.split(expanded([text])[0])


def body(form, lines):
    if form == "bytes":
        return unescaped("".join(expanded(lines)).encode())
    if form == "expanded":
        lines = expanded(lines)
    return "".join(line + "\n" for line in lines).encode()


def made_table(entries, lines):
    """A table of so many entries, from lines `NAME:KIND = FORMULA` whose formulas give a cell in entry e."""
    columns = [line.partition(" = ")[::2] for line in filter(None, lines)]
    formulas = [compile(formula, formula, "eval") for _, formula in columns]
    rows = [",".join(column for column, _ in columns)]
    for entry in range(entries):
        cells = [eval(formula, {"__builtins__": {}}, {"e": entry}) for formula in formulas]
        rows.append(",".join(";".join(map(str, cell)) if isinstance(cell, list) else str(int(cell)) for cell in cells))
    return ("\n".join(rows) + "\n").encode()


def option_sets(text):
    """`--slots 1|2 --cluster 1|3` as the four lists of words."""
    choices = [word.split("|") for word in text.split()]
    return [list(chosen) for chosen in itertools.product(*choices)]


def rows_of(pattern, template, lines):
    """A case for each line `TEXT => OUTPUT`: a file is the template with the text for its `@`, its words for `$1`.."""
    found = []
    name, _, template = template.rpartition(" <- ")
    for line in filter(None, lines):
        text, _, output = line.rpartition(" => ")
        case = copy.copy(pattern)
        case.name = "%s `%s`" % (pattern.name, text)
        filled = re.sub(r"\$(\d)", lambda m: text.split()[int(m[1]) - 1], template.replace("@", text))
        content = unescaped(filled.encode()) + b"\n"
        case.files = dict(pattern.files, **{name or "s.txt": content})
        case.output = unescaped(output.encode()) + b"\n"
        found.append(case)
    return found


def read_case_file(path):
    with open(path, encoding="utf-8", newline="\n") as file:
        lines = file.read().split("\n")[:-1]
    tables, made, cases, usual, program = {}, set(), [], [[]], "rdf"
    at = 0
    while at < len(lines):
        line = lines[at]
        at += 1
        begin = at
        while at < len(lines) and not lines[at].startswith(("=== ", "--- ")):
            at += 1
        text = lines[begin:at]
        while text and not text[-1] and at < len(lines) and lines[at].startswith("=== "):
            text.pop()                  # the blank line before the next case
        mark, key, rest = (line.split(" ", 2) + ["", ""])[:3]
        if begin == 1 and not line.startswith("=== "):
            continue                    # what the file is about
        if line.startswith("=== table "):
            tables[rest] = body("", text)
        elif line.startswith("=== made "):
            name, entries = rest.split()
            tables[name] = made_table(int(entries), text)
            made.add(name)
        elif line.startswith("=== with "):
            usual = option_sets(rest)
        elif line.startswith("=== program "):
            program = rest
        elif line.startswith("=== case "):
            cases.append(Case(path, rest, list(usual), program))
            fresh = True
        elif mark == "---" and key in ("script", "table"):
            name = "s.txt" if key == "script" else "a.csv"
            cases[-1].files[name] = tables[rest] if rest in tables else body(rest, text)
            cases[-1].made |= rest in made
        elif mark == "---" and key == "file":
            name, _, form = rest.partition(" ")
            cases[-1].files[name] = body(form, text)
        elif mark == "---" and key == "makes":
            name, *words = shlex.split(rest)
            cases[-1].makes.append((name, words, body("", text) if text else None))
        elif mark == "---" and key == "words":
            cases[-1].words = words_of(rest)
            cases[-1].options, fresh = [[]], False
        elif mark == "---" and key == "or":
            cases[-1].others.append(words_of(rest))
        elif mark == "---" and key == "with":
            cases[-1].options = ([] if fresh else cases[-1].options) + option_sets(rest)
            fresh = False
        elif mark == "---" and key == "status":
            cases[-1].status = int(rest)
        elif mark == "---" and key == "output":
            cases[-1].output = body(rest, text)
        elif mark == "---" and key == "heavy":
            cases[-1].heavy = True
        elif mark == "---" and key == "rows":
            cases += rows_of(cases.pop(), rest or "@", text)
        elif line and not line.startswith("#"):
            raise ValueError("%s:%d: %s" % (path, begin, line))
    return cases


def read_whole(path):
    with open(path, "rb") as file:
        return file.read()


def example_cases():
    """The analyses of examples/, whatever the slots; the clusters too where no partial line shows them."""
    folder = os.path.join(TOP, "examples")
    found = []
    for name in sorted(n[:-4] for n in os.listdir(folder) if n.endswith(".txt")):
        path = os.path.join(folder, name)
        case = Case("examples", name, [])
        case.files = {"s.txt": read_whole(path + ".txt"), "a.csv": read_whole(path + ".csv")}
        case.output = read_whole(path + ".out")
        case.options = option_sets("--slots 1|2|3|16")
        if b"partial " not in case.output:
            case.options += option_sets("--slots 1|2|3|16 --cluster 1|7|1000")
        found.append(case)
    return found


def all_cases(folder=CASES, programs=("rdf",)):
    files = sorted(name for name in os.listdir(folder) if name.endswith(".case"))
    cases = [case for name in files for case in read_case_file(os.path.join(folder, name))]
    return [case for case in cases + example_cases() if case.program in programs]
