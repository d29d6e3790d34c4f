#!/usr/bin/env python3
"""Runs the examples of docs/ERRORS.md and a table of typical mistakes through ./rdf.

    tools/errors_test.py [PROGRAM]      RDF_PROGRAM, or crates/rdf/out/rdf, where none is named
    tools/errors_test.py --fill         writes what is shown into the page, to be read before it is kept

The commands of ./rdf are run by RDF_SHARD_PROGRAM, or crates/rdf_shard/out/rdf_shard, and so on; an example of one
whose crate isn't there is left out.

Each run must write the output and end with the status of the program alone, and, where the reference in
Python can tell, with those that it works out; and what it says must be what the page or the table wants.
With RDF_HINTS=0 and without Python it must say nothing. Without /dev/full the runs on it are left out.
For each refusal and fault of cases/ tools/explain must know something.
"""
import os
import re
import shutil
import subprocess
import sys
import tempfile

TOP = os.path.dirname(os.path.dirname(os.path.abspath(__file__)))
PAGE = os.path.join(TOP, "docs", "ERRORS.md")
REFERENCE = os.path.join(TOP, "tools", "reference", "%s_reference.py")
COMMAND = re.compile(r"\./rdf(?: (shard|snapshot|chain)\b)?")
BLOCK = re.compile(r"```(script|table|sh|text)\n(.*?)```\n", re.S)


def programs_there(program):
    """The programs by their names."""
    found = {"rdf": program}
    for name in ("rdf_shard", "rdf_snapshot", "rdf_chain"):
        path = os.environ.get(name.upper() + "_PROGRAM") or os.path.join(TOP, "crates", name, "out", name)
        if os.access(path, os.X_OK) or os.path.isdir(os.path.join(TOP, "crates", name)):
            found[name] = os.path.abspath(path)
    return found


class Place:
    """A folder with a copy of the launcher that runs the programs, and files to run them on."""

    def __init__(self, folder, programs):
        self.folder, self.programs = folder, programs
        self.home = os.path.join(folder, "home")
        self.work = os.path.join(folder, "work")
        os.makedirs(self.work)
        for name, program in programs.items():
            out = os.path.join(self.home, "crates", name, "out")
            os.makedirs(out)
            shutil.copy(program, os.path.join(out, name))
        shutil.copy(os.path.join(TOP, "rdf"), self.home)
        os.symlink(os.path.join(TOP, "tools"), os.path.join(self.home, "tools"))
        with open(os.path.join(self.home, "crates.txt"), "w", encoding="utf-8") as file:
            file.writelines(name + ":\n" for name in programs)
        os.utime(os.path.join(self.home, "crates.txt"), (0, 0))
        os.symlink(os.path.join(self.home, "rdf"), os.path.join(self.work, "rdf"))
        self.write("table", "x:int\n1\n")

    def write(self, kind, text):
        name = {"script": "s.txt", "table": "a.csv"}[kind]
        with open(os.path.join(self.work, name), "wb") as file:
            file.write(text if isinstance(text, bytes) else text.encode())

    def run(self, command, **environment):
        """Status, standard output and standard error of a command, in which ./rdf is the launcher."""
        done = subprocess.run(["sh", "-c", command], cwd=self.work, stdin=subprocess.DEVNULL, timeout=300,
                              stdout=subprocess.PIPE, stderr=subprocess.PIPE, env={**os.environ, **environment})
        return done.returncode, done.stdout, done.stderr

    def judge(self, command):
        """What ./rdf says for a command, and what is wrong with its output and status."""
        said = self.run(command)
        others = [("the program alone", self.run(COMMAND.sub(lambda found: "'%s'" % self.programs[program_of(found)], command))),
                  ("the reference", self.run(COMMAND.sub(lambda found: "python3 -B '%s'" % REFERENCE % program_of(found), command)))]
        wrong = [name for name, (status, output, _) in others if (status, output) != said[:2]]
        silent = self.run(command, RDF_HINTS="0")
        if silent[:2] != said[:2] or silent[2]:
            wrong.append("the launcher without hints")
        return said[1].decode(), said[2].decode(), wrong


def program_of(found):
    """The name of the program that a command runs."""
    return "rdf_" + found[1] if found[1] else "rdf"


# ---- the page

def examples(page):
    """Each block of text with the script, table and command before it; and the blocks' places."""
    usual, given = {}, {}
    for block in BLOCK.finditer(page):
        kind, text = block[1], block[2]
        if kind != "text":
            given[kind] = text
            if kind != "sh" and kind not in usual:
                usual[kind] = given.pop(kind)
            continue
        yield {**usual, "sh": "./rdf s.txt a.csv\n", **given}, block
        given = {}


def can_run(command, programs):
    named = all(program_of(found) in programs for found in COMMAND.finditer(command))
    return named and ("/dev/full" not in command or os.path.exists("/dev/full"))


def run_page(place, page):
    """Each example as (its line, what is shown, what is wanted, what is wrong, its block)."""
    for files, block in filter(lambda example: can_run(example[0]["sh"], place.programs), examples(page)):
        for kind in ("script", "table"):
            place.write(kind, files[kind])
        output, hints, wrong = place.judge(files["sh"].rstrip("\n"))
        yield page[:block.start()].count("\n") + 1, output + hints, block[2], wrong, block


def fill(place, page):
    filled, end = "", 0
    for _, shown, _, _, block in run_page(place, page):
        filled += page[end:block.start()] + "```text\n" + shown + "```\n"
        end = block.end()
    with open(PAGE, "w", encoding="utf-8") as file:
        file.write(filled + page[end:])


# ---- typical mistakes

TABLE = "pt:int,w:int,jets:vec\n10,1,3;4\n25,2,\n40,1,50\n5,-3,1;1;1\n"
COUNT = "n = df.Count()\nPrint(n)\n"
PLAIN = "./rdf s.txt a.csv"

# What it is; the script, the table and the command; the culprit that a hint names; where the carets stand in
# the line that is shown, None for no line.
MISTAKES = [
    ("a typing error in a column", 's = df.Sum("jest")\nPrint(s)\n', TABLE, PLAIN, "'jest'; is 'jets' meant?", "jest"),
    ("a typing error in a node", 'high = df.Filter("pt > 20")\nn = hihg.Count()\n', TABLE, PLAIN, "'hihg'; is 'high' meant?", "hihg"),
    ("a typing error in a function", 'f = df.Filter("Szie(jets) > 1")\n', TABLE, PLAIN, "'Szie'; is 'Size' meant?", "Szie"),
    ("= for ==", 'f = df.Filter("pt = 20")\n', TABLE, PLAIN, "== compares", "="),
    ("a float in an expression", 'f = df.Filter("pt > 91.2")\n', TABLE, PLAIN, "numbers are whole", "."),
    ("a float in edges", 'h = df.Histo1D([0, 91.2], "pt")\n', TABLE, PLAIN, "numbers are whole", "."),
    ("a float in a table", COUNT, "pt:int\n1\n91.2\n", PLAIN, "column 'pt' is int, and '91.2' is a float", "91.2"),
    ("single quotes", "f = df.Filter('pt > 20')\n", TABLE, PLAIN, "double quotes", "'"),
    ("a bracket that is missing in a line", "n = df.Count(\n", TABLE, PLAIN, ") is missing", ""),
    ("a bracket that is missing in an expression", 'f = df.Filter("(pt > 20")\n', TABLE, PLAIN, "this ( isn't closed", "("),
    ("a wrong kind", 'f = df.Filter("pt")\n', TABLE, PLAIN, "a filter's expression is a truth value, and this is an int", "pt"),
    ("a wrong kind inside", 'f = df.Filter("pt > 20 && w")\n', TABLE, PLAIN, "a truth value and an int", "pt > 20 && w"),
    ("a wrong count", 'd = df.Define("most", "Max(pt, w)")\n', TABLE, PLAIN, "'Max' takes 1 argument, and here are 2", "Max"),
    ("a late VariationsFor", COUNT + "VariationsFor(n)\n", TABLE, PLAIN, "'n' was filled by the Print at line 2", "n"),
    ("an unknown result", "n = df.Count()\nPrint(m)\n", TABLE, PLAIN, "there is no result 'm'", "m"),
    ("a ragged row", COUNT, "pt:int,w:int\n1,2\n3\n", PLAIN, "line 3: the header has 2 fields, and this line 1 field", ""),
    ("an empty file", COUNT, "", PLAIN, "a.csv: it is empty", None),
    ("tabs", COUNT, "pt:int\tw:int\n1\t2\n", PLAIN, "tabs separate the columns, and commas are wanted", " "),
    ("no kinds", COUNT, "pt,w,jets\n1,2,3;4\n", PLAIN, "pt:int,w:int,jets:vec", "pt,w,jets"),
    ("gzip", COUNT, b"\x1f\x8b\x08\x00", PLAIN, "a.csv: it is packed by gzip", None),
    ("swapped names of files", COUNT, TABLE, "./rdf a.csv s.txt", "a.csv: it looks like a table; SCRIPT comes first", None),
    ("swapped arguments", 'f = df.Filter("high", "pt > 20")\n', TABLE, PLAIN, "expression comes first", "high"),
    ("edges behind the column", 'h = df.Histo1D("pt", [0, 20])\n', TABLE, PLAIN, "the edges come first", '"pt"'),
    ("--slots 0", COUNT, TABLE, PLAIN + " --slots 0", "--slots: 0 is not from 1 to 16", None),
    ("--slots two", COUNT, TABLE, PLAIN + " --slots two", "--slots: two is no whole number", None),
    ("a folder", COUNT, TABLE, "./rdf s.txt .", "TABLE: '.' is a folder", None),
    ("no file", COUNT, TABLE, "./rdf s.txt none.csv", "TABLE: there is no file 'none.csv'", None),
    ("an empty script", "", TABLE, PLAIN, "'s.txt' holds no statement", None),
    ("no Print", "n = df.Count()\n", TABLE, PLAIN, "'s.txt' prints nothing, so nothing was run; add Print(n)", None),
    ("65 results", "".join("n%d = df.Count()\n" % i for i in range(65)), TABLE, PLAIN, "at most 64 results, and this is the 65th", "n64 = df.Count()"),
    ("257 statements", "n = df.Count()\n" + 256 * "Print(n)\n", TABLE, PLAIN, "at most 256 statements, and this has 257", "Print(n)"),
    ("a full disk", COUNT, TABLE, PLAIN + " >/dev/full", "the disk or device is full", None),
    ("a mean", 'm = df.Mean("pt")\n', TABLE, PLAIN, "there are no means", "Mean"),
    ("a root", 'f = df.Filter("sqrt(pt) > 4")\n', TABLE, PLAIN, "there are no roots", "sqrt"),
    ("chained calls", 'n = df.Filter("pt > 20").Count()\n', TABLE, PLAIN, "one call a line", "."),
    ("a zero divisor", 'd = df.Define("z", "1 / (pt - 25)")\ns = d.Sum("z")\nPrint(s)\n', TABLE, PLAIN,
     "the divisor 'pt - 25' is 0 at entry 1 (line 3 of the table), where 'pt' is 25", "1 / (pt - 25)"),
    ("an element that isn't there", 'f = df.Filter("w > 1 && jets[0] > 2")\nn = f.Count()\nPrint(n)\n', TABLE, PLAIN,
     "'jets' has 0 elements", "jets[0]"),
    ("a quoted cell over two lines", COUNT, 'pt:int,w:int\n"1","2"\n"a\nb",2\n', PLAIN, "line 3: column 'pt' is int", '"a?b"'),
    ("an end of line of two bytes", 's = df.Sum("jest")\r\n', TABLE, PLAIN, "'jest'; is 'jets' meant?", "jest"),
    ("a byte order mark", COUNT, b"\xef\xbb\xbfpt:int\nx\n", PLAIN, "line 2: column 'pt' is int, and 'x' is no whole number", "x"),
    ("a script through a pipe", COUNT, TABLE, "echo Print | ./rdf /dev/stdin a.csv", "that are plain files", None),
    ("a table through a pipe", 's = df.Sum("jest")\n', TABLE, "cat a.csv | ./rdf s.txt /dev/stdin", "that are plain files", None),
    ("a table through a pipe, and = for ==", 'f = df.Filter("pt = 20")\n', TABLE, "cat a.csv | ./rdf s.txt /dev/stdin", "== compares", "="),
]


def under_carets(hints):
    """The part of the shown line over the carets, or None where no line is shown."""
    lines = hints.split("\n")
    if len(lines) < 3 or not re.fullmatch(r" +\^+", lines[2]):
        return None
    begin = lines[2].index("^")
    return lines[1][begin:len(lines[2])]


def run_mistakes(place):
    for name, script, table, command, culprit, over in MISTAKES:
        if not can_run(command, place.programs):
            continue
        place.write("script", script)
        place.write("table", table)
        _, hints, wrong = place.judge(command)
        if not hints.startswith("rdf: ") or culprit not in hints.split("\n")[0]:
            wrong.append("the hint, which doesn't say %r" % culprit)
        if under_carets(hints) != over:
            wrong.append("the carets, which stand under %r" % under_carets(hints))
        yield name, hints, wrong


def run_cases(folder):
    """Each refusal and fault of cases/ whose files aren't too large gets a hint, whatever it is."""
    sys.path[:0] = [os.path.join(TOP, "tools", name) for name in ("explaining", "reference", "cases")]
    from answers import for_line
    from casefile import all_cases
    from named import WORDS
    from said import said_in

    os.chdir(folder)
    for case in all_cases(programs=tuple(WORDS)):
        if case.status < 6 or case.heavy or case.made:
            continue
        for name, text in case.contents().items():
            with open(name, "wb") as file:
                file.write(text)
        for name, making, _ in case.makes:
            with open(name, "wb") as file:
                subprocess.run(["python3", "-B", REFERENCE % case.program, *making], stdout=file, check=True)
        try:
            hints = "\n".join(for_line(WORDS[case.program](case.words), said_in(case.output)))
        except Exception as found:  # the test tells of each
            hints = repr(found)
        good = hints.startswith("rdf: ") and hints.isascii() and ("\n" not in hints or under_carets(hints + "\n") is not None)
        yield case.title(), hints, [] if good else ["a hint"]


def without_python(place):
    """Where there is no Python nothing is said, and all else is the same."""
    tools = os.path.join(place.folder, "tools")
    os.mkdir(tools)
    for tool in "sh dirname readlink find head awk grep sed sort cat".split():
        os.symlink(shutil.which(tool), os.path.join(tools, tool))
    place.write("script", 's = df.Sum("jest")\n')
    place.write("table", TABLE)
    with_python, bare = place.run(PLAIN), place.run(PLAIN, PATH=tools)
    return [] if bare[:2] == with_python[:2] and bare[2] == b"" else ["a machine without Python"]


def main():
    words = [word for word in sys.argv[1:] if word != "--fill"]
    program = os.path.abspath(words[0] if words else os.environ.get("RDF_PROGRAM")
                              or os.path.join(TOP, "crates", "rdf", "out", "rdf"))
    programs = programs_there(program)
    for path in programs.values():
        if not os.access(path, os.X_OK):
            print("errors: no program at %s" % path)
            return 1
    with open(PAGE, encoding="utf-8") as file:
        page = file.read()
    count = failed = 0
    with tempfile.TemporaryDirectory() as folder:
        place = Place(folder, programs)
        if "--fill" in sys.argv:
            fill(place, page)
            return 0
        for line, shown, wanted, wrong, _ in run_page(place, page):
            count += 1
            if shown != wanted:
                wrong.append("what is shown:\n" + shown)
            if wrong:
                failed += 1
                print("FAILED docs/ERRORS.md line %d: unlike %s" % (line, "; ".join(wrong)))
        for name, hints, wrong in [*run_mistakes(place), *run_cases(place.work)]:
            count += 1
            if wrong:
                failed += 1
                print("FAILED %s: unlike %s\n%s" % (name, "; ".join(wrong), hints))
        count += 1
        if without_python(place):
            failed += 1
            print("FAILED: without Python something is said, or the output differs")
    print("errors: %d runs, %d failed" % (count, failed))
    return 1 if failed else 0


if __name__ == "__main__":
    sys.exit(main())
