#!/usr/bin/env python3
"""What the documents name is there: linked files, each crate in docs/PROOFS.md and docs/ARCHITECTURE.md, and in the table of
PROOFS each file and each clause, definition or law. Of a word that CONTRIBUTING follows through the crates its table names each
file in which the word stands. README has at most 1,200 words. Ends with 1 where something is missing."""
import glob
import os
import re
import sys

TOP = os.path.dirname(os.path.dirname(os.path.abspath(__file__)))
MOST_WORDS = 1200
LINK = re.compile(r"\]\(([^)#:]+)\)")
QUOTED = re.compile(r"`([^`\n]+)`")


def text_of(*names):
    with open(os.path.join(TOP, *names), encoding="utf-8") as file:
        return file.read()


def crates():
    """The crates of the repository, without those that hold tests alone."""
    lines = (line.split("#")[0] for line in text_of("crates.txt").split("\n"))
    names = [line.split(":")[0].split()[0] for line in lines if ":" in line]
    return [name for name in names if not name.endswith("_tests")]


def broken_links():
    pages = (os.path.relpath(page, TOP) for page in glob.glob(os.path.join(TOP, "docs", "*.md")))
    for page in ["README.md", "CONTRIBUTING.md", *pages]:
        for target in LINK.findall(text_of(page)):
            if not os.path.exists(os.path.join(TOP, os.path.dirname(page), target)):
                yield f"{page} links {target}, which isn't there"


def rows(page):
    """The cells of each line of a table, with the crate of the first cell, or of the line before it."""
    crate = None
    for line in page.split("\n"):
        cells = [cell.strip() for cell in line.strip("|").split("|")] if line.startswith("|") else []
        if cells and cells[0]:
            named = QUOTED.fullmatch(cells[0])
            crate = named and named[1]
        if crate and os.path.isdir(os.path.join(TOP, "crates", crate)):
            yield crate, cells


def sources(crate):
    files = glob.glob(os.path.join(TOP, "crates", crate, "src", "**", "*.rt"), recursive=True)
    return "\n".join(text_of(file) for file in files)


def missing_of_proofs():
    told = set()
    for crate, cells in rows(text_of("docs", "PROOFS.md")):
        told.add(crate)
        if len(cells) != 4:
            continue
        for file in QUOTED.findall(cells[3]):
            if not os.path.exists(os.path.join(TOP, "crates", crate, "src", file)):
                yield f"docs/PROOFS.md: {crate} has no {file}"
        code = sources(crate)
        for clause in QUOTED.findall(cells[2]):
            if not re.search(rf"\b{re.escape(clause)}\b", code):
                yield f"docs/PROOFS.md: no contract of {crate} has {clause}"
    yield from (f"docs/PROOFS.md has no row of {crate}" for crate in crates() if crate not in told)


def missing_of_architecture():
    page = text_of("docs", "ARCHITECTURE.md")
    yield from (f"docs/ARCHITECTURE.md has no row of {crate}" for crate in crates() if f"\n| `{crate}` " not in page)


def followed():
    """The words that CONTRIBUTING follows, each as a pattern, with the crates of its table and what is quoted of each."""
    part = text_of("CONTRIBUTING.md").split("## Where a new thing goes")[1].split("\n## ")[0]
    for text in re.split(r"(?m)^(?=\*\*)", part):
        word = re.match(r"\*\*[^*]+\*\*, as `(\w+)`( \(`grep -rwi)?", text)
        if word:
            quoted = {crate: QUOTED.findall(cells[1]) for crate, cells in rows(text)}
            yield word[1], re.compile(rf"\b{word[1]}\b", re.IGNORECASE if word[2] else 0), quoted


def missing_of_contributing():
    for word, pattern, quoted in followed():
        for folder in sorted(glob.glob(os.path.join(TOP, "crates", "*"))):
            crate = os.path.basename(folder)
            names = quoted.get(crate, [])
            for name in names:
                if re.fullmatch(r"[\w/]+\.(rt|antt)", name) and not os.path.exists(os.path.join(folder, name)):
                    yield f"CONTRIBUTING.md, {word}: {crate} has no {name}"
            code = glob.glob(os.path.join(folder, "src", "**", "*.rt"), recursive=True)
            specs = glob.glob(os.path.join(folder, "specs", "**", "*.antt"), recursive=True)
            for file in sorted(code + specs):
                inside = os.path.relpath(file, folder)
                stem = os.path.splitext(os.path.basename(file))[0]
                if stem.lower() == "lib" or "tests" in inside or not pattern.search(text_of(file)):
                    continue
                if inside not in names and not (file.endswith(".antt") and stem in names):
                    yield f"CONTRIBUTING.md, {word}: {crate} has it in {inside}"


def long_readme():
    words = len(text_of("README.md").split())
    if words > MOST_WORDS:
        yield f"README.md has {words} words, and at most {MOST_WORDS} are meant"


def main():
    checks = (broken_links, missing_of_proofs, missing_of_architecture, missing_of_contributing, long_readme)
    faults = [fault for check in checks for fault in check()]
    print("\n".join([*faults, f"docs: {len(faults)} faults"]))
    return 1 if faults else 0


if __name__ == "__main__":
    sys.exit(main())
