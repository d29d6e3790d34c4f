"""The times of skim.sh: skim.py ENTRIES SLOTS.."""
import os
import shutil
import subprocess
import tempfile

import race
from race import Runner, print_ratio

SCRIPT = 'kept = df.Filter("c0 > 499")\nn = kept.Count()\nPrint(n)\n'
COUNT = "n = df.Count()\nPrint(n)\n"
COLUMNS = "c1,c3,v"
BY_MAWK = 'BEGIN { FS = OFS = "," } NR == 1 || $1 > 499 { print $2, $4, $5 }'
BY_MILLER = ["filter", "${c0:int} > 499", "then", "cut", "-o", "-f", "c1:int,c3:int,v:vec"]

# What a skim may take beside a Count under the same filter, by slots, of 1,000,000 entries.
GOALS = {1: 2, 4: 2}


def count_of(program, script, table):
    return subprocess.run([program, script, table], stdout=subprocess.PIPE, check=True).stdout


def work(words):
    entries, slots = race.entries_and_slots(words)
    rdf, snapshot = race.rdf_program(), os.path.abspath(os.environ["RDF_SNAPSHOT_PROGRAM"])
    with tempfile.TemporaryDirectory() as folder:
        table, script, count = [os.path.join(folder, name) for name in ("table.csv", "kept.txt", "count.txt")]
        race.make_table(table, entries)
        for name, text in ((script, SCRIPT), (count, COUNT)):
            with open(name, "w", encoding="ascii") as file:
                file.write(text)

        def made(name, *command):
            return Runner(name, list(command), os.path.join(folder, name.replace(" ", "_")))

        counts = {n: made("Count, slots %d" % n, rdf, script, table, "--slots", str(n)) for n in slots}
        skims = {n: made("skim, slots %d" % n, snapshot, script, table, "kept", COLUMNS, "nominal", "--slots", str(n))
                 for n in slots}
        others = []
        if shutil.which("mawk"):
            others.append(made("mawk", "mawk", BY_MAWK, table))
        if shutil.which("mlr"):
            others.append(made("miller", "mlr", "--csv", "--from", table, *BY_MILLER))
        race.race([*counts.values(), *skims.values(), *others])
        race.print_times([*counts.values(), *skims.values(), *others])

        written = [*skims.values(), *others]
        wrong = race.unlike(written)
        due = count_of(rdf, script, table)
        wrong += [skim for skim in skims.values() if count_of(rdf, count, skim.output) != due]
        for runner in wrong:
            print("OTHER OUTPUT: %s" % runner.name)
        print("table: %d entries, %d bytes; skim: %d bytes" % (
            entries, os.path.getsize(table), os.path.getsize(written[0].output)))
        for n in slots:
            print_ratio("skim with slots %d / Count with slots %d" % (n, n), skims[n].seconds / counts[n].seconds,
                        GOALS.get(n) if entries == race.MOST_ENTRIES else None)
        for other in others:
            print_ratio("skim with slots %d / %s" % (slots[0], other.name), skims[slots[0]].seconds / other.seconds)
        return 1 if wrong else 0


if __name__ == "__main__":
    race.main(work)
