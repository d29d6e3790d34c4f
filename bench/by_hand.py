"""The race of by_hand.sh: by_hand.py ENTRIES SLOTS.., of a by_hand that is built."""
import os
import shutil
import tempfile

import race
from race import Runner, print_ratio

BY_HAND = os.path.join(race.BENCH, "by_hand", "target", "release", "by_hand")
SCRIPT = os.path.join(race.BENCH, "generated.txt")

# The goals are those of a table of 1,000,000 entries: what rdf may take beside the program by hand, by slots; beside
# itself over a tenth of the table; and of memory.
GOALS = {1: 0.9, 4: 0.4}
GROWTH_GOAL = 11
PEAK_GOAL = 1
MORE_GOAL = 30


def plain_bytes(entries):
    """The table's numbers as columns: 8 bytes for each, and 8 for the end of each vector."""
    elements = sum((entry * 7919 + race.SEED) % 1000 % 4 for entry in range(entries))
    return 8 * (4 * entries + elements + entries)


def work(words):
    entries, slots = race.entries_and_slots(words)
    program = race.rdf_program()
    full = entries == race.MOST_ENTRIES
    with tempfile.TemporaryDirectory() as folder:
        table, short_table = os.path.join(folder, "table.csv"), os.path.join(folder, "short.csv")
        race.make_table(table, entries)
        short = max(1, entries // 10)
        race.make_table(short_table, short)

        runners, names = [], iter(range(1000))

        def add(name, *command):
            output = os.path.join(folder, "out%d" % next(names))
            runners.append(Runner(name, list(command), output))
            return runners[-1]

        hand = {n: add("by_hand, threads %d" % n, BY_HAND, table, str(n)) for n in slots}
        rdf = {n: add("rdf, slots %d" % n, program, SCRIPT, table, "--slots", str(n)) for n in slots}
        others = []
        if shutil.which("mawk"):
            others.append(add("mawk", "mawk", "-f", os.path.join(race.BENCH, "by_hand.awk"), table))
        if shutil.which("mlr"):
            others.append(add("miller", "mlr", "--icsv", "--from", table, "put", "-q", "-f",
                              os.path.join(race.BENCH, "by_hand.mlr")))
        long_runners = list(runners)
        short_rdf = {n: add("rdf, slots %d, a tenth" % n, program, SCRIPT, short_table, "--slots", str(n))
                     for n in slots}
        short_hand = add("by_hand, a tenth", BY_HAND, short_table, str(slots[0]))
        made = Runner("rdf --make", [program, str(entries), str(race.SEED), "--make"], os.path.join(folder, "made"))

        size, plain = os.path.getsize(table), plain_bytes(entries)
        print("table: %d entries, %d bytes; as plain columns %d bytes" % (entries, size, plain))
        race.race(runners)
        race.race([made], 1)

        race.print_times(runners)
        wrong = race.unlike(long_runners + [made]) + race.unlike([short_hand, *short_rdf.values()])
        for runner in wrong:
            print("OTHER OUTPUT: %s" % runner.name)
        if not wrong:
            print("all outputs are alike, that of rdf --make too")

        for n in slots:
            print_ratio("rdf with slots %d / by_hand with threads %d" % (n, n), rdf[n].seconds / hand[n].seconds,
                        GOALS.get(n) if full else None)
        for other in others:
            print_ratio("rdf with slots %d / %s" % (slots[0], other.name), rdf[slots[0]].seconds / other.seconds)
        for n in slots[1:]:
            print_ratio("rdf with slots %d / rdf with slots %d" % (n, slots[0]), rdf[n].seconds / rdf[slots[0]].seconds)
        for n in slots:
            print_ratio("rdf with slots %d: %d entries / %d entries" % (n, entries, short),
                        rdf[n].seconds / short_rdf[n].seconds, GROWTH_GOAL if full else None)
        for n in slots:
            print_ratio("rdf with slots %d: peak / (bytes + 2 plain columns)" % n, rdf[n].peak / (size + 2 * plain),
                        PEAK_GOAL if full else None)
        if 1 in rdf:
            print_ratio("rdf with slots 1: MB at the peak beyond the table's bytes", (rdf[1].peak - size) / 1e6,
                        MORE_GOAL if full else None)
        return 1 if wrong else 0


if __name__ == "__main__":
    race.main(work)
