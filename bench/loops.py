"""The loop by itself, of loops.sh: loops.py ENTRIES SLOTS.."""
import os
import tempfile

import race
from race import Runner, print_ratio

SCRIPT = os.path.join(race.BENCH, "loops.txt")
GOALS = {4: 0.3}


def work(words):
    entries, slots = race.entries_and_slots(words)
    program = race.rdf_program()
    with tempfile.TemporaryDirectory() as folder:
        table, nothing = os.path.join(folder, "table.csv"), os.path.join(folder, "nothing.txt")
        race.make_table(table, entries)
        with open(nothing, "wb"):
            pass

        def runner(name, script, n):
            return Runner("%s, slots %d" % (name, n), [program, script, table, "--slots", str(n)],
                          os.path.join(folder, "%s%d" % (name.split()[0], n)))

        reading = {n: runner("no results", nothing, n) for n in slots}
        whole = {n: runner("20 results", SCRIPT, n) for n in slots}
        runners = [*reading.values(), *whole.values()]
        print("table: %d entries, %d bytes" % (entries, os.path.getsize(table)))
        race.race(runners)
        race.print_times(runners)
        wrong = race.unlike(list(whole.values()))
        for other in wrong:
            print("OTHER OUTPUT: %s" % other.name)
        if not wrong:
            print("the outputs of 20 results are alike")

        loop = {n: whole[n].seconds - reading[n].seconds for n in slots}
        for n in slots:
            print("%-52s %8.4f s" % ("loop of 20 results, slots %d" % n, loop[n]))
        if min(loop.values()) <= 0:
            print("the loops are too short to compare")
        else:
            goals = GOALS if slots[0] == 1 and entries == race.MOST_ENTRIES else {}
            for n in slots[1:]:
                print_ratio("loop with slots %d / loop with slots %d" % (n, slots[0]), loop[n] / loop[slots[0]],
                            goals.get(n))
        return 1 if wrong else 0


if __name__ == "__main__":
    race.main(work)
