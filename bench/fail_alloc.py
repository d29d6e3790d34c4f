"""The runs of fail_alloc.sh: fail_alloc.py LIBRARY [TEXT..]."""
import collections
import os
import re
import subprocess
import sys
import tempfile

import race

sys.path.insert(0, os.path.join(race.BENCH, "..", "tools", "cases"))

from casefile import all_cases  # noqa: E402
from reference import difference  # noqa: E402

SECONDS = 60
NO_MEMORY = 1


def slots(words):
    found = re.search(r"--slots[ =](\d+)", " ".join(words))
    return int(found[1]) if found else 1


def chosen_runs(case):
    """The first run with one slot and the first one with two to four."""
    runs = case.runs()
    return [next((words for words in runs if slots(words) in wanted), None) for wanted in ([1], [2, 3, 4])]


class Sweep:
    """One case with one set of words, over each request that a run makes."""

    def __init__(self, program, library, case, words, folder):
        self.program, self.library, self.case, self.words, self.folder = program, library, case, words, folder
        for name, text in case.contents().items():
            with open(os.path.join(folder, name), "wb") as file:
                file.write(text)

    def run(self, refuse):
        """Whether a request was refused, and what is wrong with the end of the run, or how it ended."""
        mark = os.path.join(self.folder, "mark")
        with open(mark, "wb") as file:
            os.dup2(file.fileno(), 9)
        surroundings = {"LD_PRELOAD": self.library, "REFUSE": refuse}
        try:
            done = subprocess.run([self.program, *self.words], cwd=self.folder, env=surroundings, pass_fds=[9],
                                  stdin=subprocess.DEVNULL, stdout=subprocess.PIPE, stderr=subprocess.PIPE,
                                  timeout=SECONDS)
        except subprocess.TimeoutExpired:
            return True, "no end after %d s" % SECONDS
        return os.path.getsize(mark) > 0, self.ending(done)

    def ending(self, done):
        case = self.case
        if done.stderr:
            return "standard error: %r" % done.stderr[:200]
        if done.returncode == NO_MEMORY and not done.stdout:
            return "none"
        if done.returncode == case.status and difference(self.words, case.contents(), case.output, done.stdout) is None:
            return "whole"
        return "status %d, output %r" % (done.returncode, done.stdout[:200])

    def all_requests(self, form):
        """How often each ending came; stops where a run makes fewer requests than that."""
        endings, number = collections.Counter(), 0
        while True:
            number += 1
            refused, ending = self.run(form % number)
            if not refused:
                if ending != "whole":
                    endings["wrong"] += 1
                    print("WRONG %s, %s, nothing refused: %s" % (self.case.title(), " ".join(self.words), ending))
                return endings
            if ending not in ("none", "whole"):
                print("WRONG %s, %s, request %s: %s" % (
                    self.case.title(), " ".join(self.words), form % number, ending))
                ending = "wrong"
            endings[ending] += 1


def work(words):
    library, *texts = words
    program = race.rdf_program()
    texts = texts or ["examples: "]
    cases = [case for case in all_cases() if any(text in case.title() for text in texts) and not case.heavy]
    if not cases:
        raise race.Stopped("no case of this name")
    total, runs = collections.Counter(), 0
    for case in cases:
        for run in chosen_runs(case):
            if run is None:
                continue
            for form in ("%d", "%d.."):
                with tempfile.TemporaryDirectory() as folder:
                    found = Sweep(program, library, case, run, folder).all_requests(form)
                total += found
                runs += 1
                if len(cases) <= 50:
                    print("%s, %s, %s: %d requests, %d without output, %d whole, %d wrong" % (
                        case.title(), " ".join(run), "one refused" if form == "%d" else "all from one on refused",
                        sum(found.values()), found["none"], found["whole"], found["wrong"]), flush=True)
    print("%d cases, %d sweeps, %d runs with a request refused: %d ended with status 1 and no output, "
          "%d with the whole output, %d wrong" % (
              len(cases), runs, sum(total.values()), total["none"], total["whole"], total["wrong"]))
    return 1 if total["wrong"] else 0


if __name__ == "__main__":
    race.main(work)
