"""The command's words, the generator, and a whole run."""
from booking import Booking
from expressions import SHIPPED
from friends import joined
from scripts import read_script
from tables import read_friend, read_table
from transcripts import Run
from values import Refusal, integer, is_name

USAGE = (b"usage: rdf SCRIPT TABLE [--slots N] [--cluster N] [--watch K] [--make]"
         b" [--friend FILE] [--key NAME] [--missing N]")
LIMITS = {b"slots": (1, 16, 1), b"cluster": (1, 1000000, 10000), b"watch": (1, 1000000, 1)}
OPTIONS = set(LIMITS) | {b"friend", b"key", b"missing"}

MADE_SCRIPT = b"""\
v = df.Vary("c0", "{c0 - 100, c0 + 100}", ["down", "up"])
f = v.Filter("c0 > 499", "high")
n = f.Count()
s = f.Sum("c0")
h = df.Histo1D([0, 500, 1000], "v")
m = df.Max("c3")
r = df.Report()
VariationsFor(n)
VariationsFor(s)
Print(n)
Print(s)
Print(h)
Print(m)
Print(r)
"""


def made_table(entries, seed):
    lines = [b"c0:int,c1:int,c2:int,c3:int,v:vec"]
    for entry in range(entries):
        cells = [b"%d" % ((entry * 7919 + column * 104729 + seed) % 1000) for column in range(4)]
        lines.append(b",".join(cells + [b";".join(cells[1:1 + int(cells[0]) % 4])]))
    return b"\n".join(lines) + b"\n"


class Words:
    """A simple command's words: the names, and the options that take a value. `--` ends the options."""

    def __init__(self, words, usage, options, flags=()):
        self.named, self.flags, self.options = [], set(), {}
        self.usage = usage
        given = list(words)
        for word in given:
            try:
                word.decode()
            except UnicodeDecodeError:
                self.refuse()
        while given:
            word = given.pop(0)
            name, equals, value = word[2:].partition(b"=")
            if word == b"--":
                self.named += given
                break
            if not word.startswith(b"-") or word == b"-":
                self.named.append(word)
            elif word[:2] == b"--" and not equals and name in flags and name not in self.flags:
                self.flags.add(name)
            elif word[:2] == b"--" and name in options and name not in self.options:
                self.options[name] = value if equals else self.value(given)
            else:
                self.refuse()

    def refuse(self):
        raise Refusal(2, self.usage) from None

    def value(self, given):
        if not given or given[0].startswith(b"-") and given[0] != b"-":
            self.refuse()
        return given.pop(0)

    def number(self, name):
        """The value of an option that is a number in its limits."""
        least, most, usual = LIMITS[name]
        value = integer(self.options.get(name, b"%d" % usual))
        if value is None or not least <= value <= most:
            self.refuse()
        return value


class RdfWords(Words):
    """SCRIPT and TABLE, or with --make ENTRIES and SEED; and the options, a friend's among them."""

    def __init__(self, words):
        super().__init__(words, USAGE, OPTIONS, (b"make",))
        self.slots, self.cluster, self.watch = [self.number(name) for name in (b"slots", b"cluster", b"watch")]
        self.make = b"make" in self.flags
        refused = len(self.named) != 2
        if self.make and not refused:
            self.entries, self.seed = [integer(word) for word in self.named]
            refused = (self.entries is None or not 1 <= self.entries <= 1000000
                       or self.seed is None or not 0 <= self.seed < 2 ** 32)
        self.friend = self.options.get(b"friend")
        self.key = self.options.get(b"key")
        self.missing = integer(self.options.get(b"missing", b"0"))
        if self.friend is None:
            refused = refused or self.key is not None or b"missing" in self.options
        else:
            refused = (refused or self.make or self.key is None or not is_name(self.key)
                       or self.missing is None)
        if refused:
            self.refuse()


def prepared(words, shelf):
    """A checked run. `shelf` gives the bytes of a file, or None where there is none."""
    taken = RdfWords(words)
    if taken.make:
        script, text = read_script(MADE_SCRIPT), made_table(taken.entries, taken.seed)
    else:
        script = read_script(file_of(shelf, taken.named[0]))
        text = file_of(shelf, taken.named[1])
    table = read_table(text)
    if taken.friend is not None:
        friend = read_friend(file_of(shelf, taken.friend))
        table = joined(table, friend, taken.key, taken.missing)
    booking = Booking(table.columns, SHIPPED).book(script)
    return Run(booking, table, taken.cluster, taken.watch)


def file_of(shelf, name):
    try:
        content = shelf(name)
    except OSError:
        raise Refusal(3, b"read failed: " + name) from None
    if content is None:
        raise Refusal(5, b"no file " + name)
    return content


def run(words, shelf):
    """The status and the bytes that the words call for."""
    try:
        status, lines = prepared(words, shelf).transcript()
    except Refusal as refusal:
        status, lines = refusal.status, [refusal.line]
    return status, b"".join(line + b"\n" for line in lines)
