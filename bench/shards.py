"""A merging of large files, of shards.sh."""
import os
import tempfile

import race
from race import Runner

FILES = 64
ENTRIES = 976512                        # 64 times 15,258
TAKES = 8
GOAL_SECONDS, GOAL_MEMORY = 2, 3


def number(entry, take):
    """12 digits and more, of either sign."""
    value = 10 ** 11 + (entry * 7919 + take * 104729) * 1000003 % 10 ** 13
    return b"%d" % (value if entry % 3 else -value)


def write_files(folder):
    share = ENTRIES // FILES
    names = []
    for at in range(FILES):
        names.append(os.path.join(folder, "p%02d" % at))
        with open(names[-1], "wb") as file:
            file.write(b"rdfshard 1\ntable %d %d\ncolumn x int\nspan %d %d\nloop\n" % (ENTRIES, FILES, at, at + 1))
            for take in range(TAKES):
                values = [number(entry, take) for entry in range(at * share, (at + 1) * share)]
                file.write(b"take %d %s\n" % (share, b" ".join(values)))
            file.write(b"end\n")
    return names


def due(name):
    """The lines that the merging writes."""
    with open(name, "wb") as file:
        for take in range(TAKES):
            file.write(b"t%d = %s\n" % (take, b" ".join(number(entry, take) for entry in range(ENTRIES))))


def work(words):
    program = os.path.abspath(os.environ["RDF_SHARD_PROGRAM"])
    with tempfile.TemporaryDirectory() as folder:
        script, output, wanted = [os.path.join(folder, name) for name in ("s.txt", "out", "wanted")]
        with open(script, "w") as file:
            file.writelines('t%d = df.Take("x")\n' % take for take in range(TAKES))
            file.writelines("Print(t%d)\n" % take for take in range(TAKES))
        names = write_files(folder)
        due(wanted)
        size = sum(map(os.path.getsize, names))
        order = [names[at * 37 % FILES] for at in range(FILES)]
        merging = Runner("merging", [program, "merge", script, *order], output)
        race.race([merging])
        race.print_times([merging])
        with open(output, "rb") as got, open(wanted, "rb") as file:
            wrong = merging.status != 0 or got.read() != file.read()
        print("%d files of %.1f MB together, %s" % (FILES, size / 1e6, "OTHER OUTPUT" if wrong else "the output is right"))
        race.print_ratio("seconds", merging.seconds, GOAL_SECONDS)
        race.print_ratio("peak of memory / bytes of the files", merging.peak / size, GOAL_MEMORY)
        return 1 if wrong else 0


if __name__ == "__main__":
    race.main(work)
