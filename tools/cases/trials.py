"""Random cases of a program whose files other runs read: laws of the reference, and the program against it."""
import argparse
import collections
import concurrent.futures
import os
import random
import re

from reference import reference_run
from run import program_run, usual_program

SCRIPT_PIECES = list('"(),.=[]{}#') + ["zz", "true"]
TABLE_PIECES = list(',;"-0x\n') + [":int"]
OTHER_NUMBERS = ["0", "1", "2", "3", "-1", "7", "none", "true", "false", str(2 ** 63 - 1), str(-2 ** 63),
                 str(2 ** 32 - 1), str(2 ** 32), str(2 ** 96 - 1), str(-2 ** 96)]


class Broken(Exception):
    """A law of the reference that doesn't hold, as text."""


class Trial:
    """One case: each run is kept with what the reference says of it."""

    program = "rdf"

    def __init__(self, seed):
        self.chance = random.Random(seed)
        self.files = {}
        self.runs = []                  # (words, files, status, output)
        self.made = 0

    def run(self, *words):
        status, output = reference_run(words, self.files, self.program)
        self.runs.append((list(words), dict(self.files), status, output))
        return status, output

    def kept(self, content):
        """The name of a new file."""
        self.made += 1
        name = "p%d" % self.made
        self.files[name] = content
        return name

    def counted(self, words):
        """What runs of these words are told as."""
        return words[0]

    def wrong_with(self, run, output, program):
        """What is wrong with an output that is due to its run, as text, or None."""

    def law(self, holds, text):
        if not holds:
            raise Broken("%s\n%s" % (text, shown(self.runs[-1])))

    def shuffled(self, names):
        return self.chance.sample(names, len(names))


def with_fault(chance, script, columns, table):
    """At times a result that faults where an int column has the number of some entry, in the first loop or the last."""
    place = next((place for place, (_, kind) in enumerate(columns) if kind == "int"), None)
    entries = table.split("\n")[1:-1]
    if place is None or not entries or chance.random() < 0.7:
        return script
    number = chance.choice(entries).split(",")[place]
    lines = 'faulty = df.Define("faulty", "100 / (%s + (%s))")\nfs = faulty.Sum("faulty")\n' % (
        columns[place][0], "- " + number if number[0] != "-" else number[1:])
    return lines + script if chance.random() < 0.5 else script + lines + "Print(fs)\n"


def with_other_number(chance, text, others=OTHER_NUMBERS):
    """One number of a file's text is another, often of the same form."""
    found = chance.choice(list(re.finditer(rb"-?\d+|none|true|false", text)))
    other = chance.choice(others)
    return text[:found.start()] + other.encode() + text[found.end():]


def shown(run):
    words, files, status, output = run
    parts = ["words: %s\n" % " ".join(words)]
    parts += ["--- file %s\n%s" % (name, text.decode(errors="backslashreplace"))
              for name, text in files.items() if name in words]
    return "".join(parts) + "--- status %d\n%s" % (status, output.decode(errors="backslashreplace"))


def failures_of(trial, program, statuses):
    """What is wrong in a case, as texts; the statuses are counted."""
    try:
        runs = trial.tried()
    except Broken as broken:
        return ["BROKEN %s" % broken]
    found = []
    for run in runs:
        words, files, status, output = run
        statuses[trial.counted(words), status] += 1
        got = (status, output) if program is None else program_run(
            program, words, {name: text for name, text in files.items() if name in words})
        wrong = "DIFFERS" if got != (status, output) else trial.wrong_with(run, output, program)
        if wrong:
            found.append("%s %s\n--- got status %d\n%s" % (wrong, shown(run), got[0], got[1].decode(errors="backslashreplace")))
    return found


def main(usage, trial_of):
    parser = argparse.ArgumentParser(usage=usage)
    parser.add_argument("program", nargs="?")
    parser.add_argument("count", nargs="?", type=int, default=500)
    parser.add_argument("seed", nargs="?", default="1")
    parser.add_argument("--show")
    parser.add_argument("--reference", action="store_true")
    asked = parser.parse_args()
    if asked.show:
        for run in trial_of(asked.show).tried():
            print(shown(run))
        return 0
    program = None if asked.reference else os.path.abspath(asked.program or usual_program(trial_of.program))
    statuses = collections.Counter()

    def attempt(number):
        seed = "%s/%d" % (asked.seed, number)
        return ["seed %s: %s" % (seed, text) for text in failures_of(trial_of(seed), program, statuses)]

    with concurrent.futures.ThreadPoolExecutor(1 if program is None else os.cpu_count() or 1) as workers:
        failures = [text for texts in workers.map(attempt, range(asked.count)) for text in texts]
    for text in failures[:20]:
        print(text)
    told = ", ".join("%d of %s with status %d" % (n, *key) for key, n in sorted(statuses.items(), key=str))
    print("%d cases from seed %s (%s), %d differ" % (asked.count, asked.seed, told, len(failures)))
    return 1 if failures else 0
