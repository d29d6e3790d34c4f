"""Programs run side by side, for the scripts of this folder: their time, their peak memory, what they print.

All turns of one run are interleaved, so that what else the machine does falls on each program alike.
The system gives no program a lower peak than this process has at its start, about 15 MB.
"""
import filecmp
import os
import subprocess
import sys
import time

BENCH = os.path.dirname(os.path.abspath(__file__))
TURNS = 5
SEED = 7
MOST_ENTRIES = 1000000

# the first entries of seed 7, as `MadeEntries` of crates/rdf_program has them
FIRST_LINES = b"""\
c0:int,c1:int,c2:int,c3:int,v:vec
7,736,465,194,736;465;194
926,655,384,113,655;384
845,574,303,32,574
764,493,222,951,
"""


class Stopped(Exception):
    """What ends a script with status 1, as one line."""


def rdf_program():
    named = os.environ.get("RDF_PROGRAM") or os.path.join(BENCH, "..", "crates", "rdf", "out", "rdf")
    program = os.path.abspath(named)
    if not os.access(program, os.X_OK):
        raise Stopped("no program at %s" % program)
    return program


def whole_number(word, most):
    if not (word.isascii() and word.isdigit() and 1 <= int(word) <= most):
        raise Stopped("%r is no number from 1 to %d" % (word, most))
    return int(word)


def entries_and_slots(words):
    """ENTRIES and SLOTS.. of a script's words, 1,000,000 and 1 and 4 where they are left out."""
    entries = whole_number(words[0], MOST_ENTRIES) if words else MOST_ENTRIES
    return entries, [whole_number(word, 16) for word in words[1:]] or [1, 4]


def make_table(name, entries):
    """Writes the generator's table of seed 7."""
    with open(name, "wb") as file:
        subprocess.run(["awk", "-v", "n=%d" % entries, "-v", "seed=%d" % SEED, "-f",
                        os.path.join(BENCH, "make_table.awk")], stdout=file, check=True)
    with open(name, "rb") as file:
        begin = file.read(len(FIRST_LINES))
        lines = begin.count(b"\n") + sum(chunk.count(b"\n") for chunk in iter(lambda: file.read(65536), b""))
    if not (FIRST_LINES.startswith(begin) and lines == entries + 1):
        raise Stopped("make_table.awk doesn't give the generator's table")


class Runner:
    """A command and the best of its runs."""

    def __init__(self, name, words, output):
        self.name, self.words, self.output = name, words, output
        self.seconds = self.busy = self.peak = None
        self.status = None

    def run(self):
        begun = time.perf_counter()
        child = os.posix_spawnp(self.words[0], self.words, os.environ, file_actions=[
            (os.POSIX_SPAWN_OPEN, 0, os.devnull, os.O_RDONLY, 0),
            (os.POSIX_SPAWN_OPEN, 1, self.output, os.O_WRONLY | os.O_CREAT | os.O_TRUNC, 0o644)])
        _, ended, usage = os.wait4(child, 0)
        seconds = time.perf_counter() - begun
        self.status = os.waitstatus_to_exitcode(ended)
        if self.seconds is None or seconds < self.seconds:
            self.seconds, self.busy = seconds, usage.ru_utime + usage.ru_stime
        self.peak = max(self.peak or 0, usage.ru_maxrss * 1024)
        return self


def race(runners, turns=TURNS):
    """Each runs once in every turn; each has to end well."""
    for _ in range(turns):
        for runner in runners:
            if runner.run().status != 0:
                raise Stopped("%s ended with status %d" % (runner.name, runner.status))


def print_times(runners, turns=TURNS):
    print("%-24s %10s %12s %10s" % ("best of %d" % turns, "seconds", "processor", "peak MB"))
    for runner in runners:
        print("%-24s %10.4f %12.4f %10.1f" % (runner.name, runner.seconds, runner.busy, runner.peak / 1e6))


def print_ratio(what, value, goal=None):
    told = "" if goal is None else "  (goal: at most %g; %s)" % (goal, "met" if value <= goal else "missed")
    print("%-52s %8.2f%s" % (what, value, told))


def unlike(runners):
    """The runners whose output isn't the first one's."""
    first = runners[0].output
    return [runner for runner in runners[1:] if not filecmp.cmp(first, runner.output, shallow=False)]


def main(work):
    """Runs a script's work on its words and ends with its status, or with 1 and a line of what stopped it."""
    try:
        sys.exit(work(sys.argv[1:]))
    except (Stopped, subprocess.CalledProcessError, OSError) as stop:
        print("%s: %s" % (os.path.basename(sys.argv[0]), stop), file=sys.stderr)
        sys.exit(1)
