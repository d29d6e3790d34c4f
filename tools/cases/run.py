#!/usr/bin/env python3
"""Runs every case of cases/ and compares the exit status and the output, byte by byte.

    tools/cases/run.py [PROGRAM]        the built program (RDF_PROGRAM, or crates/rdf/out/rdf)
    tools/cases/run.py --of NAME [PROGRAM]      only the cases of this program, as rdf_shard
    tools/cases/run.py --reference      the reference in Python instead of a program

    --shard PROGRAM, --snapshot PROGRAM, --chain PROGRAM
                  the built rdf_shard, rdf_snapshot and rdf_chain (RDF_SHARD_PROGRAM, or crates/rdf_shard/out/rdf_shard);
                  the cases of one are left out, with a line that says so, where there is no program, and either no
                  crate of this name or another PROGRAM was named
    --only TEXT   only the cases whose file or name holds TEXT
    --jobs N      so many runs side by side (as many as there are processors)
    --heavy       with --reference, the cases too that take it minutes
"""
import argparse
import concurrent.futures
import difflib
import os
import subprocess
import sys
import tempfile

sys.path.insert(0, os.path.dirname(os.path.abspath(__file__)))

from casefile import TOP, all_cases  # noqa: E402
from reference import difference, reference_run  # noqa: E402

SECONDS = 120
OTHERS = ("shard", "snapshot", "chain")


def usual_program(name="rdf"):
    named = os.environ.get(name.upper() + "_PROGRAM")
    return os.path.abspath(named or os.path.join(TOP, "crates", name, "out", name))


def program_run(program, words, files):
    """The status and output of the program in a folder with these files."""
    with tempfile.TemporaryDirectory() as folder:
        for name, text in files.items():
            with open(os.path.join(folder, name), "wb") as file:
                file.write(text)
        done = subprocess.run([program, *words], cwd=folder, stdin=subprocess.DEVNULL,
                              stdout=subprocess.PIPE, stderr=subprocess.PIPE, timeout=SECONDS)
        return done.returncode, done.stdout + done.stderr


def failure(case, words, run):
    """What is wrong with a run of a case, as text, or None. `run` answers status and output of words over files."""
    files = case.contents()
    for name, making, content in case.makes:
        status, files[name] = run(making, files)
        if status != 0 or content not in (None, files[name]):
            return "FAILED %s\n  words: %s\n  status %d, wanted 0, for\n%s" % (
                case.title(), " ".join(making), status, files[name].decode(errors="backslashreplace"))
    status, output = run(words, files)
    found = difference(words, case.contents(), case.output, output)
    if status == case.status and found is None:
        return None
    lines = ["FAILED %s" % case.title(), "  words: %s" % " ".join(words)]
    if status != case.status:
        lines.append("  status %d, wanted %d" % (status, case.status))
    if found is not None:
        lines.append("  " + found)
        lines += ["  " + line for line in difflib.unified_diff(
            case.output.decode(errors="backslashreplace").split("\n"),
            output.decode(errors="backslashreplace").split("\n"),
            "wanted", "got", lineterm="", n=2)][:60]
    return "\n".join(lines)


def quick_runs(case):
    """The runs by the reference, to which slots and clusters are one but for partial lines: one over a long table."""
    return case.runs()[:1] if case.made and b"partial " not in case.output else case.runs()


def main():
    parser = argparse.ArgumentParser(usage=__doc__)
    parser.add_argument("program", nargs="?")
    parser.add_argument("--of", choices=["rdf"] + ["rdf_" + other for other in OTHERS])
    parser.add_argument("--reference", action="store_true")
    for other in OTHERS:
        parser.add_argument("--" + other)
    parser.add_argument("--only", default="")
    parser.add_argument("--jobs", type=int, default=os.cpu_count() or 1)
    parser.add_argument("--heavy", action="store_true")
    asked = parser.parse_args()
    given = {"rdf": asked.program, **{"rdf_" + other: getattr(asked, other) for other in OTHERS}}
    if asked.of:
        given = {asked.of: asked.program or given[asked.of]}
    paths = {name: os.path.abspath(path or usual_program(name)) for name, path in given.items()}
    if not asked.reference:
        for name in [name for name, path in paths.items() if not os.access(path, os.X_OK)]:
            print("cases: no program at %s" % paths[name])
            expected = not asked.program and os.path.isdir(os.path.join(TOP, "crates", name))
            if len(given) == 1 or name == "rdf" or given[name] or expected:
                return 1
            del paths[name]

    def attempt(case, words):
        def run(given, files):
            if asked.reference:
                return reference_run(given, files, case.program)
            return program_run(paths[case.program], given, files)
        try:
            return failure(case, words, run)
        except subprocess.TimeoutExpired:
            return "FAILED %s\n  words: %s\n  no end after %d s" % (case.title(), " ".join(words), SECONDS)

    cases = [case for case in all_cases(programs=paths) if asked.only in case.title()]
    if asked.reference and not asked.heavy:
        cases = [case for case in cases if not case.heavy]
    runs = [(case, words) for case in cases for words in (quick_runs(case) if asked.reference else case.runs())]
    with concurrent.futures.ThreadPoolExecutor(asked.jobs) as workers:
        answers = list(workers.map(lambda run: attempt(*run), runs))
    failures = [answer for answer in answers if answer is not None]
    for text in failures:
        print(text)
    print("%d cases, %d runs, %d failed" % (len(cases), len(runs), len(failures)))
    return 1 if failures else 0


if __name__ == "__main__":
    sys.exit(main())
