"""The mutator of hostile.sh and what it asks of each run."""
import collections
import concurrent.futures
import os
import random
import re
import subprocess
import sys
import tempfile
import time

TOP = os.path.dirname(os.path.dirname(os.path.abspath(__file__)))
sys.path.insert(0, os.path.join(TOP, "tools", "cases"))

from casefile import all_cases  # noqa: E402

SECONDS = 10
PROGRAM = os.path.abspath(os.environ.get("RDF_PROGRAM") or os.path.join(TOP, "crates", "rdf", "out", "rdf"))

# ---- what may be printed

NAME = rb"[A-Za-z_][A-Za-z0-9_]{0,63}"
LABEL = NAME + rb"(?:\[" + NAME + rb":" + NAME + rb"\])?"
INT = rb"-?[0-9]+"
CELL = rb"(?:under|over|\[" + INT + rb"," + INT + rb"\))"
SHARE = rb"(?:[0-9]+\.[0-9]{2}|none)"
RESULT = re.compile(
    rb"(?:" + LABEL + rb" = (?:none|" + INT + rb"|(?:" + INT + rb"|true|false)(?: (?:" + INT + rb"|true|false))*"
    rb"|histo1d [0-9]+|histo2d [0-9]+ [0-9]+)"
    rb"|  " + CELL + rb"(?: " + CELL + rb")? " + INT + rb" [0-9]+"
    rb"|" + NAME + rb": no named filters"
    rb"|" + NAME + rb": [\x20\x21\x23-\x7e]{1,64} pass=[0-9]+ all=[0-9]+ eff=" + SHARE + rb" cumulative=" + SHARE +
    rb"|partial " + NAME + rb" over [0-9,-]+ = (?:" + INT + rb"|none))")
FAULT = re.compile(rb"fault at entry [0-9]+ in " + LABEL + rb": F[1-8] [A-Za-z]+")
ONE_LINE = {
    2: re.compile(rb"usage: rdf SCRIPT TABLE.*"),
    6: re.compile(rb"script refused(?:: longer than 65536 bytes| at line [0-9]+ place [0-9]+: (?:S1|E[1-4]) [A-Za-z]+"
                  rb"| at line [0-9]+: S[0-9]+ [A-Za-z]+)"),
    7: re.compile(rb"table refused(?:: longer than 67108864 bytes| at header field [0-9]+: B1 Header"
                  rb"| at entry [0-9]+(?: field [0-9]+)?: B[2-6] [A-Za-z]+)"),
    9: re.compile(rb"friend refused(?:: longer than 67108864 bytes| at header field [0-9]+: B1 Header"
                  rb"| at entry [0-9]+(?: field [0-9]+)?: B[2-6] [A-Za-z]+"
                  rb"|: J[1235] [A-Za-z]+| at entry [0-9]+: J4 Duplicate)"),
}


def complaint(status, output):
    """Why this output doesn't go with this status, or None."""
    if not 0 <= status <= 9 or status in (1, 3, 4, 5):
        return "status %d" % status
    if output and not output.endswith(b"\n"):
        return "the last line doesn't end"
    lines = output.split(b"\n")[:-1]
    if status in ONE_LINE:
        good = len(lines) == 1 and ONE_LINE[status].fullmatch(lines[0])
        return None if good else "the line of status %d" % status
    if status == 8:
        if not lines or not FAULT.fullmatch(lines.pop()):
            return "no fault line"
    bad = next((line for line in lines if not RESULT.fullmatch(line)), None)
    return None if bad is None else "a line %r" % bad[:200]


# ---- mutations

WORDS = [b"Define", b"Redefine", b"Alias", b"Filter", b"Vary", b"Count", b"Sum", b"Min", b"Max", b"Take", b"Reduce",
         b"Histo1D", b"Histo2D", b"Report", b"Print", b"VariationsFor", b"Watch", b"df", b"true", b"false", b":int",
         b":vec", b":cut", b"0", b"-1", b"9223372036854775807", b"-9223372036854775808", b"9223372036854775808",
         b"99999999999999999999999999", b"05", b"-0", b"\"\"", b"\r\n", b"\n\n", b"\xef\xbb\xbf", b"\x00", b"\xff",
         b"{", b"}", b"[", b"]", b"((((((((", b"))))))))", b"- - - - - -", b"!!!!", b"a" * 64, b"a" * 65]


def gently_mutated(chance, text):
    """A number, an operator or a line changed, so that most texts still read."""
    for _ in range(chance.choice([1, 1, 2, 4])):
        numbers = list(re.finditer(rb"-?\d+", text))
        operators = list(re.finditer(rb" [-+*/%<>]=? ", text))
        form = chance.randrange(4)
        if form == 0 and numbers:
            found = chance.choice(numbers)
            number = chance.choice([b"0", b"1", b"-1", b"2", b"1000", b"2147483648", b"9223372036854775807"])
            text = text[:found.start()] + number + text[found.end():]
        elif form == 1 and operators:
            found = chance.choice(operators)
            operator = chance.choice([b" + ", b" - ", b" * ", b" / ", b" % ", b" < ", b" >= ", b" == "])
            text = text[:found.start()] + operator + text[found.end():]
        else:
            lines = text.split(b"\n")
            place = chance.randrange(len(lines))
            if form == 2:
                lines.insert(chance.randrange(len(lines)), lines.pop(place))
            else:
                lines.insert(place, lines[place])
            text = b"\n".join(lines)
    return text


def mutated(chance, text, other):
    if chance.random() < 0.5:
        return gently_mutated(chance, text)
    for _ in range(chance.choice([1, 1, 1, 2, 3, 6, 20])):
        at = chance.randrange(len(text) + 1)
        length = chance.choice([1, 1, 2, 5, 20, 200])
        form = chance.randrange(9)
        if form == 0:
            text = text[:at] + text[at + length:]
        elif form == 1:
            text = text[:at] + bytes([chance.randrange(256)]) + text[at + 1:]
        elif form == 2:
            text = text[:at] + chance.choice(WORDS) + text[at:]
        elif form == 3:
            text = text[:at] + chance.choice(WORDS) + text[at + length:]
        elif form == 4:
            text = text[:at] + text[at:at + length] * chance.choice([2, 3, 50]) + text[at + length:]
        elif form == 5:
            begin = chance.randrange(len(other) + 1)
            text = text[:at] + other[begin:begin + length * 4] + text[at:]
        elif form == 6:
            lines = text.split(b"\n")
            chance.shuffle(lines)
            text = b"\n".join(lines)
        elif form == 7:
            text = text[:at]
        else:
            lines = text.split(b"\n")
            lines.insert(chance.randrange(len(lines) + 1), chance.choice(lines))
            text = b"\n".join(lines)
    return text


def starting_points():
    """Scripts, tables and at times friends, with the friend's options, none of them long: those that are accepted, and all."""
    accepted, found = [], []        # all_cases() has the examples too
    for case in all_cases():
        files = case.contents()
        if sum(map(len, files.values())) >= 20000:
            continue
        chosen = accepted if case.status in (0, 8) else found
        if set(files) == {"s.txt", "a.csv"}:
            chosen.append((files, []))
        elif set(files) == {"s.txt", "a.csv", "f.csv"} and case.words[:2] == ["s.txt", "a.csv"]:
            chosen.append((files, case.words[2:]))
    return accepted, accepted + found


def attempt(seed, points):
    chance = random.Random(seed)
    accepted, every = points
    files, asked = chance.choice(accepted if chance.random() < 0.8 else every)
    files, other = dict(files), chance.choice(every)[0]
    what = chance.randrange(4)
    if what != 0:
        files["s.txt"] = mutated(chance, files["s.txt"], other["s.txt"])
    if what in (0, 1):
        files["a.csv"] = mutated(chance, files["a.csv"], other["a.csv"])
    if "f.csv" in files and what != 3:
        files["f.csv"] = mutated(chance, files["f.csv"], other["a.csv"])
    options = ["--slots", chance.choice(["1", "1", "2", "4", "16"]), "--cluster", chance.choice(["1", "3", "10000"]),
               "--watch", chance.choice(["1", "2", "100"])]
    with tempfile.TemporaryDirectory() as folder:
        for name, text in files.items():
            with open(os.path.join(folder, name), "wb") as file:
                file.write(text)
        begun = time.monotonic()
        try:
            done = subprocess.run([PROGRAM, "s.txt", "a.csv", *asked, *options], cwd=folder, stdin=subprocess.DEVNULL,
                                  stdout=subprocess.PIPE, stderr=subprocess.PIPE, timeout=6 * SECONDS)
        except subprocess.TimeoutExpired:
            return None, "no end after %d s" % (6 * SECONDS), files
        seconds = time.monotonic() - begun
    wrong = complaint(done.returncode, done.stdout)
    if done.stderr:
        wrong = "standard error: %r" % done.stderr[:200]
    if seconds > SECONDS:
        wrong = "%.1f s" % seconds
    return done.returncode, wrong, files


def main():
    count = int(sys.argv[1]) if len(sys.argv) > 1 else 10000
    seed = sys.argv[2] if len(sys.argv) > 2 else "1"
    jobs = int(sys.argv[3]) if len(sys.argv) > 3 else os.cpu_count() or 1
    if not os.access(PROGRAM, os.X_OK):
        print("hostile: no program at %s" % PROGRAM)
        return 1
    points = starting_points()
    statuses, wrong_runs = collections.Counter(), 0
    with concurrent.futures.ThreadPoolExecutor(jobs) as workers:
        seeds = ["%s/%d" % (seed, number) for number in range(count)]
        for name, (status, wrong, files) in zip(seeds, workers.map(lambda s: attempt(s, points), seeds)):
            statuses[status] += 1
            if wrong is not None:
                wrong_runs += 1
                print("WRONG seed %s: %s" % (name, wrong))
                for file, text in files.items():
                    print("  %s %r" % (file, text[:1000]))
    told = ", ".join("%d of status %s" % (n, status) for status, n in sorted(statuses.items(), key=str))
    print("%d runs from seed %s (%s), %d wrong" % (count, seed, told, wrong_runs))
    return 1 if wrong_runs else 0


if __name__ == "__main__":
    sys.exit(main())
