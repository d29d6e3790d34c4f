"""The script and the runs of booking.sh: booking.py [TURNS] [ENTRIES]."""
import os
import random
import statistics
import subprocess
import sys
import tempfile
import time

import race

sys.path.insert(0, os.path.join(race.BENCH, "..", "tools", "cases"))

from reference import reference_run  # noqa: E402

GOAL = 0.1
GOAL_ENTRIES, GOAL_OF_ENTRIES = 20000, 3
SEED, BELOW = 5, 1000
COLUMNS, VARIES, TAGS, LOCKSTEP = 64, 8, 16, 3
DEFINES, FILTERS, REPORTS, RESULTS, PRINTS, WATCHED, STATEMENTS = 40, 24, 4, 64, 52, 8, 256


def script():
    """Eight Varys of three columns each; then Defines and named Filters in one chain, and every kind of result but
    Take at its end, each with all of its variations."""
    lines, node = [], "df"

    def book(call):
        nonlocal node
        lines.append("k%d = %s.%s" % (len(lines), node, call))
        node = "k%d" % (len(lines) - 1)

    for v in range(VARIES):
        columns = ["c%d" % (LOCKSTEP * v + i) for i in range(LOCKSTEP)]
        lists = ", ".join("{%s}" % ", ".join("%s + %d" % (c, t) for t in range(TAGS)) for c in columns)
        book('Vary([%s], "{%s}", [%s], "v%d")' % (
            ", ".join('"%s"' % c for c in columns), lists, ", ".join('"t%d"' % t for t in range(TAGS)), v))
    for d in range(DEFINES):
        before = "d%d" % (d - 1) if d else "c0"
        book('Define("d%d", "%s %% 1000 + c%d * 3 - abs(c%d) + (c%d > %d ? 1 : c%d)")' % (
            d, before, d, (d + 7) % COLUMNS, (d + 24) % COLUMNS, d, (d + 13) % COLUMNS))
    for f in range(FILTERS):
        book('Filter("d%d > %d || c%d < c%d", "cut %d")' % (f, f, (f + 40) % COLUMNS, f, f))
    results = []
    edges = "[%s]" % ", ".join(map(str, range(0, 1000, 100)))
    calls = ['Count()', 'Sum("d%d")', 'Min("d%d")', 'Max("d%d")', 'Reduce("xor", "d%d")',
             'Histo1D(' + edges + ', "d%d", "c2")', 'Histo2D([0, 10, 20], [0, 10, 20], "d%d", "c3")']
    for r in range(RESULTS - REPORTS):
        call = calls[r % len(calls)]
        results.append("r%d" % r)
        lines.append("r%d = %s.%s" % (r, node, call % (r % DEFINES) if "%d" in call else call))
    for r in range(REPORTS):
        lines.append("report%d = %s.Report()" % (r, node))
    lines += ["VariationsFor(%s)" % name for name in results]
    watched = [name for name in results if int(name[1:]) % len(calls) < 4][:WATCHED]
    lines += ["Watch(%s)" % name for name in watched]
    lines += ["Print(%s)" % name for name in results[:PRINTS]]
    if len(lines) != STATEMENTS:
        raise race.Stopped("the script has %d statements" % len(lines))
    return "".join(line + "\n" for line in lines).encode()


def but_partial(printed):
    """The lines that don't depend on which slot took which cluster."""
    return [line for line in printed.splitlines() if not line.startswith(b"partial ")]


def over_entries(turns, entries):
    """Times the script over random entries, by one slot, and has four slots print the same but for partial results; RDF_BEFORE takes
    turns with the program."""
    numbers = random.Random(SEED)
    programs = [race.rdf_program()] + ([os.environ["RDF_BEFORE"]] if os.environ.get("RDF_BEFORE") else [])
    with tempfile.TemporaryDirectory() as folder:
        with open(os.path.join(folder, "s.txt"), "wb") as file:
            file.write(script())
        with open(os.path.join(folder, "a.csv"), "w") as file:
            print(",".join("c%d:int" % c for c in range(COLUMNS)), file=file)
            for _ in range(entries):
                print(",".join(str(numbers.randrange(BELOW)) for _ in range(COLUMNS)), file=file)

        def run(program, slots):
            begun = time.perf_counter()
            done = subprocess.run([program, "s.txt", "a.csv", "--slots", str(slots)], cwd=folder,
                                  stdin=subprocess.DEVNULL, stdout=subprocess.PIPE)
            if done.returncode:
                raise race.Stopped("%s ends with %d" % (program, done.returncode))
            return time.perf_counter() - begun, done.stdout

        due, best = but_partial(run(programs[0], 4)[1]), {}
        for _ in range(turns):
            for program in programs:
                took, printed = run(program, 1)
                if but_partial(printed) != due:
                    raise race.Stopped("%s prints another output with one slot" % program)
                best[program] = min(took, best.get(program, took))
    for program in programs:
        told = ""
        if entries == GOAL_ENTRIES and program == programs[0]:
            told = "  (goal: at most %g s; %s)" % (GOAL_OF_ENTRIES, "met" if best[program] <= GOAL_OF_ENTRIES else "missed")
        print("%s: %d entries, best %.2f s of %d runs%s" % (program, entries, best[program], turns, told))
    return 0


def work(words):
    turns = race.whole_number(words[0], 100000) if words else 20
    if len(words) > 1:
        return over_entries(turns, race.whole_number(words[1], race.MOST_ENTRIES))
    program = race.rdf_program()
    files = {"s.txt": script(), "a.csv": ",".join("c%d:int" % c for c in range(COLUMNS)).encode() + b"\n"}
    command = ["s.txt", "a.csv"]
    due = reference_run(command, files)
    with tempfile.TemporaryDirectory() as folder:
        for name, text in files.items():
            with open(os.path.join(folder, name), "wb") as file:
                file.write(text)
        wall, busy = [], []
        for _ in range(turns):
            before, begun = os.times(), time.perf_counter()
            done = subprocess.run([program, *command], cwd=folder, stdin=subprocess.DEVNULL, stdout=subprocess.PIPE)
            wall.append(time.perf_counter() - begun)
            after = os.times()
            busy.append(after.children_user + after.children_system - before.children_user - before.children_system)
            if (done.returncode, done.stdout) != due:
                raise race.Stopped("status %d, and another output than the reference's" % done.returncode)
    print("%d statements in %d bytes, %d columns, %d variations, %d lines printed" % (
        STATEMENTS, len(files["s.txt"]), COLUMNS, VARIES * TAGS, due[1].count(b"\n")))
    print("best %.3f s, middle %.3f s of %d runs; processor %.3f s in the best  (goal: below %g s; %s)" % (
        min(wall), statistics.median(wall), turns, min(busy), GOAL, "met" if min(wall) < GOAL else "missed"))
    return 0


if __name__ == "__main__":
    race.main(work)
