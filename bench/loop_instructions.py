"""The instructions of a loop, of loop_instructions.sh: loop_instructions.py [ENTRIES] [CLUSTER..]"""
import os
import re
import subprocess
import tempfile

import race

SCRIPTS = {"generator's analysis": "generated.txt", "loop of 20 results": "loops.txt"}
GOALS = {"generator's analysis": 200, "loop of 20 results": 600}
WHOLE_CLUSTER = 10000


def counted(program, script, table, cluster, folder):
    """How many instructions a run takes, with one slot."""
    words = [program, script, table, "--slots", "1", "--cluster", str(cluster)]
    found = subprocess.run(["valgrind", "--tool=callgrind", "--callgrind-out-file=/dev/null", *words],
                           stdout=subprocess.DEVNULL, stderr=subprocess.PIPE, cwd=folder, text=True)
    count = re.search(r"Collected : (\d+)", found.stderr)
    if found.returncode or not count:
        raise race.Stopped("%s ends with %d under callgrind:\n%s" % (script, found.returncode, found.stderr[-500:]))
    return int(count[1])


def work(words):
    entries = race.whole_number(words[0], race.MOST_ENTRIES) if words else 100000
    clusters = [race.whole_number(word, race.MOST_ENTRIES) for word in words[1:]] or [WHOLE_CLUSTER, 1]
    programs = {"": race.rdf_program()}
    if os.environ.get("RDF_BEFORE"):
        programs["before, "] = os.environ["RDF_BEFORE"]
    with tempfile.TemporaryDirectory() as folder:
        table, nothing = os.path.join(folder, "table.csv"), os.path.join(folder, "nothing.txt")
        race.make_table(table, entries)
        with open(nothing, "wb"):
            pass
        for cluster in clusters:
            for said, program in programs.items():
                base = counted(program, nothing, table, cluster, folder)
                print("%sclusters of %d, nothing booked: %d instructions an entry" % (said, cluster, base // entries), flush=True)
                for name, file in SCRIPTS.items():
                    each = (counted(program, os.path.join(race.BENCH, file), table, cluster, folder) - base) / entries
                    goal = GOALS[name] if cluster == WHOLE_CLUSTER and not said else None
                    told = "" if goal is None else "   goal %d: %s" % (goal, "met" if each <= goal else "missed")
                    print("%sclusters of %d, %s: %.0f instructions an entry%s" % (said, cluster, name, each, told), flush=True)
    return 0


if __name__ == "__main__":
    race.main(work)
