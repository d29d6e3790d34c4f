#!/usr/bin/env python3
"""What proofs and contracts bring in is there, by a look at the text alone, in two seconds: each name that a `use` line takes
from the specs or proofs of a crate here stands in that module, or is passed on by the root, which passes on what is there; each
file of proofs/ has another name than the modules of its crate, `if .. then ..` is brought in where it stands, and no two crates
name a type alike. It proves nothing; run it after crates were merged or lemmas removed, before a gate that would find the first
such line in ten minutes. Ends with 1 where something is missing.

    tools/names.py [FOLDER]        the repository in FOLDER (this one)
"""
import functools
import os
import re
import sys

TOP = os.path.dirname(os.path.dirname(os.path.abspath(__file__)))
USE = re.compile(r"use\s+Rattle\.(\w+)\.(specs|proofs)\.(?:([\w.+-]+?)\.)?\{([^}]*)\}")
PASSED_ON = re.compile(r"(?m)^(?:unfoldable )?pub use ([\w.]+)\.\{([^}]*)\}")
MODIFIERS = r"(?:(?:pub|abbrev|unfoldable|opaque|data|record|ruleset)\s+)*"
DEFINED = re.compile(r"(?m)^\s*" + MODIFIERS + r"([^\s:(){},]+(?: [^\s:(){},]+)*)\s*(?:\{[^}]*\}\s*|\([^)]*\)\s*)*:(?=\s)")
HEADED = re.compile(r"(?m)^\s*(?:pub\s+)?(?:data|record|ruleset|module)\s+([^\s:(){},]+)")
CHOICE = re.compile(r"(?<![\w-])if\s[^\n]*\n?[^\n]*\sthen\s")
TYPE = re.compile(r"(?m)^\s*(?:pub(?:\([a-z]+\))? )?(?:struct|enum|trait) (\w+)")
# Types that each program has for the same thing, with its own status.
OF_PROGRAMS = {"Answer", "Means", "Read"}
# Modules that the checker writes.
WRITTEN = ("Goals", "Given", "Lts", "Reads", "OwnLists", "TheLaws")


@functools.lru_cache(None)
def text_of(path):
    with open(path, encoding="utf-8") as file:
        return file.read()


def crates(top):
    lines = (line.split("#")[0] for line in text_of(os.path.join(top, "crates.txt")).split("\n"))
    return sorted(line.split(":")[0].split()[0] for line in lines if ":" in line)


def sources(top, crate):
    """The files of a crate that a check reads."""
    for part in ("src", "specs", "proofs"):
        for folder, _, files in os.walk(os.path.join(top, "crates", crate, part)):
            yield from (os.path.join(folder, name) for name in sorted(files) if name.endswith((".rt", ".antt")))


@functools.lru_cache(None)
def defined_in(path):
    """The names that a module defines; a line may name several."""
    text = re.sub(r"--.*", "", text_of(path))
    return {name for line in DEFINED.findall(text) for name in line.split()} | set(HEADED.findall(text))


@functools.lru_cache(None)
def begins_a_line(path, name):
    """Whether the name begins a line, as a constructor or a field does."""
    return re.search(r"(?m)^\s*(?:pub\s+)?" + re.escape(name) + r"(?=[\s:])", text_of(path)) is not None


def given(names):
    """The names under which these are passed on."""
    return [each.split(" as ")[-1].strip().strip("«»") for each in names.split(",")]


def split(names):
    return [name for name in (each.split(" as ")[0].strip().strip("«»") for each in names.split(",")) if name]


def lost_from_root(top, crate):
    """What the crate's roots pass on that isn't there."""
    for part in ("specs", "proofs"):
        root = os.path.join(top, "crates", crate, part, "Lib.antt")
        for module, names in PASSED_ON.findall(text_of(root)) if os.path.isfile(root) else []:
            home = os.path.join(top, "crates", crate, part, *module.split(".")) + ".antt"
            if module.startswith(("declared", "Rattle.std.")):
                continue
            for name in split(names):
                if not os.path.isfile(home) or name not in defined_in(home) and not begins_a_line(home, name):
                    yield f"{os.path.relpath(root, top)}: {module} has no {name}"


def lost_names(top, crate, known):
    """What the crate's files bring in from crates of the repository, where it isn't there."""
    yield from lost_from_root(top, crate)
    for path in sources(top, crate):
        shown = os.path.relpath(path, top)
        for other, part, module, names in USE.findall(text_of(path)):
            if other not in known or module.startswith(("declared", "contracts")) or module.split(".")[-1] in WRITTEN:
                continue
            if not module:
                root = os.path.join(top, "crates", other, part, "Lib.antt")
                passed = {name for _, on in PASSED_ON.findall(text_of(root) if os.path.isfile(root) else "") for name in given(on)}
                yield from (f"{shown}: the root of the {part} of {other} passes on no {name}" for name in split(names) if name not in passed)
                continue
            home = os.path.join(top, "crates", other, part, *module.split(".")) + ".antt"
            if not os.path.isfile(home):
                yield f"{shown}: there is no module {module} in the {part} of {other}"
                continue
            there = defined_in(home)
            for name in split(names):
                if name not in there and not begins_a_line(home, name):
                    yield f"{shown}: {module} of {other} has no {name}"


def lost_choices(top, crate):
    """Files in which `if .. then ..` stands and isn't brought in."""
    for path in sources(top, crate):
        text = re.sub(r"--.*", "", text_of(path)) if path.endswith(".antt") else ""
        if CHOICE.search(text) and "if◌then◌else◌" not in text:
            yield f"{os.path.relpath(path, top)}: if .. then .. isn't brought in"


def shared_names(top, crate):
    """Lemma files that are named as a module of the crate, but for the case."""
    folder = os.path.join(top, "crates", crate)
    modules = {name[:-3].lower() for _, _, files in os.walk(os.path.join(folder, "src")) for name in files if name.endswith(".rt")}
    files = os.listdir(os.path.join(folder, "proofs")) if os.path.isdir(os.path.join(folder, "proofs")) else []
    for name in sorted(files):
        if name.endswith(".antt") and name[:-5].lower() in modules - {"lib"}:
            yield f"crates/{crate}/proofs/{name} is named as a module of the crate"


def types_alike(top, known):
    """Types that two crates name alike."""
    homes = {}
    for crate in known:
        for folder, _, files in os.walk(os.path.join(top, "crates", crate, "src")):
            for name in sorted(files):
                for each in TYPE.findall(text_of(os.path.join(folder, name))) if name.endswith(".rt") else ():
                    homes.setdefault(each, set()).add(crate)
    for each in sorted(set(homes) - OF_PROGRAMS):
        if len(homes[each]) > 1:
            yield f"{each} is a type in {', '.join(sorted(homes[each]))}"


def main(words):
    top = os.path.abspath(words[0]) if words else TOP
    known = crates(top)
    faults = [*types_alike(top, known)]
    for crate in known:
        faults += [*lost_names(top, crate, known), *lost_choices(top, crate), *shared_names(top, crate)]
    print("\n".join([*faults, f"names: {len(faults)} faults"]))
    return 1 if faults else 0


if __name__ == "__main__":
    sys.exit(main(sys.argv[1:]))
