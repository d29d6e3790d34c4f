"""How often a function is called, for evaluations.sh: evaluations.py [ENTRIES] [CLUSTER..]"""
import os
import re
import subprocess
import tempfile

import race

BLOCK = 1024
FAULT = 700     # the entry of the script that faults
CLUSTERS = [10000, 1024, 1000, 1]

# Entry e has e, and w = e mod 7. Beside each script the calls that an entry demands, of n entries.
SCRIPTS = {
    "one column, three Sums and a filter": (
        'd = df.Define("z", "square(w)")\ns = d.Sum("z")\nt = d.Sum("z")\nm = d.Sum("z")\n'
        'f = d.Filter("z > 1")\nc = f.Count()\nPrint(s)\n', lambda n: n),
    "behind a filter": (
        'f = df.Filter("e % 5 == 0")\nd = f.Define("z", "square(w)")\ns = d.Sum("z")\nm = d.Max("z")\nPrint(s)\n',
        lambda n: (n + 4) // 5),
    "under a condition": (
        'd = df.Define("z", "e < 300 ? square(w) : w")\ns = d.Sum("z")\nm = d.Max("z")\nPrint(s)\n',
        lambda n: min(n, 300)),
    "a column under a condition, then at fewer entries": (
        'd = df.Define("z", "square(w)")\nu = d.Define("u", "e % 2 == 0 ? z : 0")\ns = u.Sum("u")\n'
        'f = d.Filter("e % 4 == 0")\nt = f.Sum("z")\nPrint(s)\n', lambda n: (n + 1) // 2),
    "a column at few entries, then at more and at all": (
        'd = df.Define("z", "square(w)")\nf = d.Filter("e % 4 == 0")\nt = f.Sum("z")\n'
        'u = d.Define("u", "e % 2 == 0 ? z : 0")\ns = u.Sum("u")\nm = d.Max("z")\nPrint(s)\n', lambda n: n),
    "a Vary's two values, a filter and a column thrice, one once": (
        'v = df.Vary("w", "{square(1) + w, square(2) + w}", ["down", "up"])\nf = v.Filter("square(1) + w > 0")\n'
        'd = f.Define("y", "square(1) + e")\nz = d.Define("z", "square(1) + w * y")\n'
        's = z.Sum("z")\nt = z.Max("z")\nVariationsFor(s)\nPrint(s)\n', lambda n: 9 * n),
    "a column on which no variation acts": (
        'v = df.Vary("w", "{w + 1, w + 2}", ["down", "up"])\nd = v.Define("y", "square(1) + e")\n'
        'z = d.Define("z", "1 + w * y")\ns = z.Sum("z")\nVariationsFor(s)\nPrint(s)\n', lambda n: n),
    "a Report and its filter's Count": (
        'f = df.Filter("square(w) > 3", "high")\nr = df.Report()\nn = f.Count()\nPrint(r)\n', lambda n: n),
}
FAULTY = ('x = df.Define("x", "1 / (e - %d)")\nd = df.Define("z", "square(w)")\nt = d.Sum("z")\n'
          's = x.Sum("x")\nu = d.Max("z")\nPrint(s)\n' % FAULT)


def calls_in(profile):
    """How often the profile has a handed-in function called."""
    names, calls, called = {}, 0, None
    for line in profile:
        named = re.match(r"c?fn=\((\d+)\)(?: (.*))?", line)
        if named and named[2]:
            names[named[1]] = named[2]
        if line.startswith("cfn="):
            called = names[named[1]]
        elif line.startswith("calls=") and re.search(r"main::.*Fn::call", called):
            calls += int(line[6:].split()[0])
    return calls


def counted(program, script, table, cluster, folder, status):
    with open(os.path.join(folder, "s.txt"), "w") as file:
        file.write(script)
    profile = os.path.join(folder, "profile")
    words = [program, "s.txt", table, "--slots", "1", "--cluster", str(cluster)]
    done = subprocess.run(["valgrind", "--tool=callgrind", "--callgrind-out-file=" + profile, *words],
                          stdout=subprocess.DEVNULL, stderr=subprocess.PIPE, cwd=folder, text=True)
    if done.returncode != status:
        raise race.Stopped("status %d, wanted %d:\n%s" % (done.returncode, status, done.stderr[-500:]))
    with open(profile) as file:
        return calls_in(file)


def told(name, cluster, calls, least, most):
    """Prints a count, and answers whether it is none that may be."""
    wrong = not least <= calls <= most
    print("clusters of %d, %s: %d calls, due %d to %d%s" % (
        cluster, name, calls, least, most, ": WRONG" if wrong else ""), flush=True)
    return wrong


def work(words):
    entries = race.whole_number(words[0], race.MOST_ENTRIES) if words else 2500
    clusters = [race.whole_number(word, race.MOST_ENTRIES) for word in words[1:]] or CLUSTERS
    program, wrong = race.rdf_program(), 0
    with tempfile.TemporaryDirectory() as folder:
        table = os.path.join(folder, "table.csv")
        with open(table, "w") as file:
            file.write("e:int,w:int\n" + "".join("%d,%d\n" % (e, e % 7) for e in range(entries)))
        for cluster in clusters:
            for name, (script, demanded) in SCRIPTS.items():
                calls = counted(program, script, table, cluster, folder, 0)
                wrong += told(name, cluster, calls, demanded(entries), 2 * demanded(entries))
            if FAULT < entries:
                begin = FAULT // cluster * cluster
                end = min(begin + ((FAULT - begin) // BLOCK + 1) * BLOCK, begin + cluster, entries)
                calls = counted(program, FAULTY, table, cluster, folder, 8)
                wrong += told("a fault at entry %d" % FAULT, cluster, calls, FAULT, 2 * end)
    print("%d counts are wrong" % wrong)
    return 1 if wrong else 0


if __name__ == "__main__":
    race.main(work)
