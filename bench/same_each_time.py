"""The runs of same_each_time.sh: same_each_time.py RUNS SLOTS CLUSTER ENTRIES."""
import os
import random
import subprocess
import tempfile
import time

import race

USUAL = [1000, 16, 1000, 100000]
MOST = [1000000, 16, 1000000, race.MOST_ENTRIES]


def write_table(name, entries):
    """No two clusters are alike; q is 0 here and there from a quarter of the table on."""
    chance = random.Random(1)
    with open(name, "w") as file:
        file.write("entry:int,x:int,y:int,q:int,v:vec\n")
        for entry in range(entries):
            q = 0 if entry >= entries // 4 and chance.randrange(400) == 0 else chance.randrange(1, 10)
            v = ";".join(str(chance.randrange(1000)) for _ in range(chance.randrange(4)))
            file.write("%d,%d,%d,%d,%s\n" % (entry, chance.randrange(1000), chance.randrange(1000), q, v))


def outcome(words):
    """The status of a run, its output without partial lines, and the partial lines."""
    done = subprocess.run(words, stdin=subprocess.DEVNULL, stdout=subprocess.PIPE)
    lines = done.stdout.split(b"\n")
    partial = [line for line in lines if line.startswith(b"partial ")]
    return (done.returncode, [line for line in lines if not line.startswith(b"partial ")]), partial


def repeat(program, script, table, runs, slots, cluster, due_status):
    """How many runs differ from the one with one slot."""
    words = [program, os.path.join(race.BENCH, script), table, "--cluster", str(cluster)]
    due, partial = outcome([*words, "--slots", "1"])
    if due[0] != due_status:
        raise race.Stopped("%s with one slot ended with status %d" % (script, due[0]))
    begun, differing, courses = time.monotonic(), 0, set()
    for turn in range(runs):
        found, found_partial = outcome([*words, "--slots", str(slots)])
        courses.add(hash(tuple(found_partial)))
        if found != due or len(found_partial) != len(partial):
            differing += 1
            if differing <= 3:
                print("run %d of %s differs: status %d, %d lines" % (turn, script, found[0], len(found[1])))
    print("%s: %d runs with slots %d, clusters of %d: %d differ from the run with one slot (status %d); %s%.0f s" % (
        script, runs, slots, cluster, differing, due_status,
        "%d kinds of partial lines; " % len(courses) if partial else "", time.monotonic() - begun), flush=True)
    return differing


def work(words):
    if len(words) > len(USUAL):
        raise race.Stopped("at most RUNS SLOTS CLUSTER ENTRIES")
    numbers = [race.whole_number(word, most) for word, most in zip(words, MOST)]
    runs, slots, cluster, entries = numbers + USUAL[len(numbers):]
    program = race.rdf_program()
    with tempfile.TemporaryDirectory() as folder:
        table = os.path.join(folder, "table.csv")
        write_table(table, entries)
        differing = repeat(program, "same_each_time.txt", table, runs, slots, cluster, 0)
        differing += repeat(program, "same_each_time_fault.txt", table, runs, slots, cluster, 8)
    return 1 if differing else 0


if __name__ == "__main__":
    race.main(work)
