"""What is said of the files themselves: those that aren't there or can't be read, the output, an empty script."""
import os
import re
import stat

from hint import Hint, nearest, word
from scripts import METHODS, tokens_of


def parted(words):
    """The names of a command line that a program takes, and its options."""
    names, options = [], {}
    given = list(words)
    while given:
        each = given.pop(0)
        if each == "--":
            names += given
            break
        if each == "--make":
            options["make"] = ""
        elif each.startswith("--"):
            key, equals, value = each[2:].partition("=")
            options[key] = value if equals else given.pop(0)
        else:
            names.append(each)
    return names, options


class Words:
    """The words of rdf: a script, a table, and maybe a friend."""

    program = "rdf"
    what = "TABLE"

    def __init__(self, words):
        (self.script, self.table), self.options = parted(words)
        self.friend = self.options.get("friend")

    def files(self):
        """The files in the order in which they are read."""
        return [self.script, self.table] + ([self.friend] if self.friend is not None else [])

    def which(self, name):
        return "SCRIPT" if name == self.script else "TABLE" if name == self.table else "--friend"

    def of_script_alone(self, script):
        """Words of which the text of a script alone may be refused."""
        return ["--", script, os.devnull]


def shown(name):
    return word(os.fsencode(name))


def missing(words):
    """A file that isn't there."""
    name = next((each for each in words.files() if not os.path.exists(each)), words.files()[-1])
    folder = os.path.dirname(name) or "."
    if not os.path.isdir(folder):
        return Hint("%s: there is no folder %s" % (words.which(name), shown(folder)))
    near = nearest(os.fsencode(os.path.basename(name)), [os.fsencode(each) for each in os.listdir(folder)])
    more = "; is %s meant?" % word(near) if near else ""
    return Hint("%s: there is no file %s in %s%s" % (
        words.which(name), shown(os.path.basename(name)), "this folder" if folder == "." else shown(folder), more))


def unreadable(words):
    """A file whose reading failed."""
    for name in words.files():
        if os.path.isdir(name):
            return Hint("%s: %s is a folder; a file is wanted" % (words.which(name), shown(name)))
        if os.path.exists(name) and not os.access(name, os.R_OK):
            return Hint("%s: you may not read %s" % (words.which(name), shown(name)))
    return None


def unwritten(words):
    """An output that took no more; standard output is still the one of the program."""
    try:
        mode = os.fstat(1).st_mode
    except OSError:
        return Hint("standard output is closed")
    if stat.S_ISFIFO(mode) or stat.S_ISSOCK(mode):
        return Hint("the output isn't whole: who reads it stopped reading")
    if stat.S_ISREG(mode) and os.fstatvfs(1).f_bavail > 0:
        return Hint("the output isn't whole: the file can't grow, by a quota or a limit")
    return Hint("the output isn't whole: the disk or device is full")


def nothing_printed(words):
    """A script that ran and prints nothing."""
    with open(words.script, "rb") as file:
        text = file.read()
    lines = [tokens_of(line) for line in lines_of(text)]
    if not any(lines):
        return Hint("%s holds no statement; docs/TUTORIAL.md begins with one" % shown(words.script))
    results = [line[0][1] for line in lines if len(line) > 4 and line[4][1] in METHODS and line[4][1] not in NODES]
    if not results:
        return Hint("%s books no result and prints nothing; add n = df.Count() and Print(n), say" % shown(words.script))
    return Hint("%s prints nothing, so nothing was run; add Print(%s), say"
                % (shown(words.script), results[0].decode()))


NODES = (b"Define", b"Redefine", b"Alias", b"Filter", b"Vary")


def lines_of(text):
    """The lines of a script: a CR before the LF that ends one is no part of it."""
    pieces = text.split(b"\n")
    return [piece[:-1] if piece.endswith(b"\r") else piece for piece in pieces[:-1]] + pieces[-1:]


def statements_in(text):
    """How many lines of a script that is read say something."""
    return sum(not re.match(rb"[ \t]*(#|$)", line) for line in lines_of(text))


def contents(name):
    with open(name, "rb") as file:
        return file.read()


def swapped(text):
    """Whether a script looks like a table: a header with kinds."""
    return re.match(rb"(\xef\xbb\xbf)?\s*\w+:(int|vec)\s*(,|\r|\n|$)", text) is not None
