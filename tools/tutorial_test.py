#!/usr/bin/env python3
"""Runs the commands of docs/TUTORIAL.md and README.md through the launcher and compares what they print.

    tools/tutorial_test.py [PROGRAM]        the program behind the launcher: RDF_PROGRAM, or crates/rdf/out/rdf

The commands of ./rdf are run by RDF_SHARD_PROGRAM, or crates/rdf_shard/out/rdf_shard, and so on.
README's commands run in the top folder of what looks like a clone, the tutorial's in the folder that its first block makes
there. A block of `sh` is run; the block of `text` that follows it, if any, is what it prints to standard output, to the byte,
and a block of `hints` behind that what it prints to standard error. A block of `sh matplotlib` is run where python3 has
matplotlib, and so of `sh` with any other module. A block of another kind, as `python`, isn't run.
"""
import difflib
import functools
import os
import re
import shutil
import subprocess
import sys
import tempfile

TOP = os.path.dirname(os.path.dirname(os.path.abspath(__file__)))
OUTPUTS = ["text", "hints"]


def blocks(page):
    """The fenced blocks as (line, kind, text)."""
    found, lines, at = [], page.split("\n"), 0
    while at < len(lines):
        match = re.fullmatch(r"```(.*)", lines[at])
        at += 1
        if match is None:
            continue
        begin = at
        while lines[at] != "```":
            at += 1
        found.append((begin, match[1], "".join(line + "\n" for line in lines[begin:at])))
        at += 1
    return found


@functools.lru_cache(None)
def has_module(name):
    found = subprocess.run(["python3", "-c", "import " + name], stderr=subprocess.DEVNULL).returncode == 0
    if not found:
        print("tutorial: no %s, so what needs it isn't run" % name)
    return found


def said_in(parts):
    """What the blocks behind a command say of its outputs, None of one of which they say nothing."""
    said = dict.fromkeys(OUTPUTS)
    for (_, kind, text), output in zip(parts, OUTPUTS):
        if kind != output:
            break
        said[output] = text
    return list(said.values())


def commands(page):
    """Each block that is run, with its line and what the page says of its outputs."""
    parts = blocks(page)
    for at, (line, kind, text) in enumerate(parts):
        language, *modules = kind.split(" ")
        if language == "sh" and all(has_module(name) for name in modules):
            yield line, text, said_in(parts[at + 1:])


def run(command, folder, program):
    """What a command prints to standard output and to standard error."""
    done = subprocess.run(["sh", "-c", command], cwd=folder, stdin=subprocess.DEVNULL, timeout=600,
                          capture_output=True, env={**os.environ, "RDF_PROGRAM": program, "RDF_HINTS": "1"})
    return [part.decode(errors="backslashreplace") for part in (done.stdout, done.stderr)]


def programs_there(program):
    """The programs by their names: rdf, and those of the commands that have a crate or are named."""
    found = {"rdf": program}
    for name in ("rdf_shard", "rdf_snapshot", "rdf_chain"):
        path = os.environ.get(name.upper() + "_PROGRAM") or os.path.join(TOP, "crates", name, "out", name)
        if os.access(path, os.X_OK) or os.path.isdir(os.path.join(TOP, "crates", name)):
            found[name] = os.path.abspath(path)
    return found


def make_clone(folder, programs):
    """What looks like a clone in which the programs are built."""
    for name in ["rdf", "crates.txt"]:
        shutil.copy2(os.path.join(TOP, name), folder)
    os.symlink(os.path.join(TOP, "tools"), os.path.join(folder, "tools"))
    shutil.copytree(os.path.join(TOP, "examples"), os.path.join(folder, "examples"))
    for name, program in programs.items():
        out = os.path.join(folder, "crates", name, "out")
        os.makedirs(out)
        os.symlink(program, os.path.join(out, name))


def check(name, own_folder, programs):
    """How many commands a page has, and how many print something else."""
    with open(os.path.join(TOP, name), encoding="utf-8") as file:
        page = file.read()
    count = failed = 0
    with tempfile.TemporaryDirectory() as clone:
        make_clone(clone, programs)
        if own_folder:
            subprocess.run(["sh", "-e", "-c", blocks(page)[0][2]], cwd=clone, check=True)
        for line, command, wanted in commands(page):
            count += 1
            got = run(command, os.path.join(clone, own_folder), programs["rdf"])
            wrong = [(said, part) for said, part in zip(wanted, got) if said not in (None, part)]
            failed += bool(wrong)
            for said, part in wrong:
                print("FAILED %s line %d" % (name, line))
                print("\n".join(difflib.unified_diff(said.split("\n"), part.split("\n"), "page", "run", lineterm="")))
    return count, failed


def main():
    usual = os.environ.get("RDF_PROGRAM") or os.path.join(TOP, "crates", "rdf", "out", "rdf")
    program = os.path.abspath(sys.argv[1] if len(sys.argv) > 1 else usual)
    programs = programs_there(program)
    for path in programs.values():
        if not os.access(path, os.X_OK):
            print("tutorial: no program at %s" % path)
            return 1
    results = [check(os.path.join("docs", "TUTORIAL.md"), "first-hour", programs), check("README.md", "", programs)]
    count, failed = (sum(numbers) for numbers in zip(*results))
    print("tutorial: %d commands, %d failed" % (count, failed))
    return 1 if failed else 0


if __name__ == "__main__":
    sys.exit(main())
