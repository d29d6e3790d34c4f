#!/usr/bin/env python3
"""Drops answers that the check finds by itself from the lemmas that they cite: in a crate's folder whose `rt check` has passed, all answers of each function
go, and the function gets `#[tactic(auto, using(LEMMAS), unfolding(DEFINITIONS))]` with what they cited; a check tells which goals stay open; their answers come
back, until the crate is proved again. A function where that saves fewer than three lines is left as it was. Some three to five checks of what changed.

    cd crates/NAME && ../../tools/answers.py [--jobs N] [WORD..]     (functions whose path has one of the words; all)

What goes is printed. Read the diff: an answer whose steps a comment tells is better put back. What an attribute of the function or of its module names already
stays named. It passes over cycles of functions, over answers that another file cites, and over those of tests, which a check doesn't prove.
"""
import argparse
import glob
import os
import re
import subprocess
import sys

MOST_LEMMAS = 8
MOST_CHECKS = 8
LEAST_SAVED = 3
SIGNATURE = re.compile(r"^(?:pub |abbrev |unfoldable )*([^\s(){}:=|]+) : ")
USE = re.compile(r"^use ([\w.+'-]+)\.\{(.*)\}$")
PASSED_ON = re.compile(r"^(?:unfoldable )?pub use ([\w.]+)\.\{(.*)\}")
LEMMA = re.compile(r"^[a-z_][A-Za-z0-9_]*$")
ATTRIBUTE = "#[tactic"


def words(text):
    return re.findall(r"[^\s(){}\[\];,:=λ«»\"|@.]+", text)


def read(path):
    with open(path, encoding="utf-8") as file:
        return file.read()


def write(path, text):
    os.makedirs(os.path.dirname(path), exist_ok=True)
    with open(path, "w", encoding="utf-8") as file:
        file.write(text)


def split(names):
    return [name.strip() for name in names.split(",")]


def home_of(module, name):
    """The module in which a name stands that a crate's root passes on."""
    found = re.fullmatch(r"Rattle\.(\w+)\.(specs|proofs)", module)
    root = found and f"../{found[1]}/{found[2]}/Lib.antt"
    for line in read(root).split("\n") if root and os.path.isfile(root) else []:
        passed = PASSED_ON.match(line)
        if passed and name in split(passed[2]):
            return passed[1] if passed[1].startswith("Rattle.") else f"{module}.{passed[1]}"
    return module


class Block:
    """A definition of a file of answers, with its lines and the comment above it."""

    def __init__(self, name, lines):
        self.name, self.lines, self.is_answer = name, lines, " : goal." in lines[-1]

    def words(self):
        return set(words("\n".join(self.lines)))


class Answers:
    """A function's file of answers."""

    def __init__(self, path, crate):
        self.path, self.crate, self.text = path, crate, read(path)
        lines, self.head, self.blocks, above = self.text.rstrip("\n").split("\n"), [], [], []
        for line in lines:
            found = None if line.startswith(("use ", "--")) else SIGNATURE.match(line)
            if found:
                if not self.blocks:
                    while len(self.head) > 1 and self.head[-1].startswith("--"):
                        above.insert(0, self.head.pop())
                self.blocks.append(Block(found[1], [*above, line]))
                above = []
            elif not self.blocks:
                self.head.append(line)
            elif line.startswith("--") or not line.strip() and above:
                above.append(line)
            else:
                self.blocks[-1].lines.append(line)
        self.brought = {name.split(" as ")[-1].strip(): (use[1], name.split(" as ")[0]) for use in map(USE.match, self.head) if use for name in split(use[2])}
        self.answers = {block.name for block in self.blocks if block.is_answer}
        self.dropped, self.left = set(), len(lines)
        self.before = self.left

    def path_of(self, name):
        """A name as an attribute has it, or None for what stands in the file itself."""
        if name not in self.brought:
            return None
        module, own = self.brought[name]
        parts = [*home_of(module, own).split(".")[1:], own]
        return "::".join(["crate" if parts[0] == self.crate else parts[0], *parts[1:]])

    def cited(self):
        """The lemmas that the dropped answers cite, and the definitions that they unfold."""
        own = {block.name: block for block in self.blocks if not block.is_answer}
        lemmas, opened, left, seen = [], [], [block for block in self.blocks if block.name in self.dropped], set()
        while left:
            block = left.pop(0)
            if block.name in seen:
                continue
            seen.add(block.name)
            for line in block.lines:
                is_unfolding = line.strip().startswith("unfolding ")
                for word in words(line):
                    if word in own:
                        left.append(own[word])
                    module = self.brought.get(word, ("",))[0]
                    is_lemma = ".proofs" in module and not re.search("Common|Goals|TheVariants|Props", module) and LEMMA.match(self.brought[word][1])
                    if is_unfolding and module:
                        opened.append(self.path_of(word))
                    elif is_lemma and not is_unfolding:
                        lemmas.append(self.path_of(word))
        return list(dict.fromkeys(lemmas))[:MOST_LEMMAS], list(dict.fromkeys(opened))

    def attribute(self, named):
        lemmas, opened = self.cited()
        lemmas, opened = ([*named.get(word, []), *(it for it in new if it not in named.get(word, []))] for word, new in (("using", lemmas), ("unfolding", opened)))
        parts = [f"{word}({', '.join(names)})" for word, names in (("using", lemmas), ("unfolding", opened)) if names]
        return f"{ATTRIBUTE}(auto, {', '.join(parts)})]" if parts else None

    def drop(self, names):
        """Writes the file without these answers, the helpers that only they had, and the imports that nothing needs then."""
        self.dropped = set(names)
        if not self.dropped:
            self.left = self.before
            write(self.path, self.text)
            return
        blocks = [block for block in self.blocks if block.name not in self.dropped]
        while idle := [it for it in blocks if not it.is_answer and not any(it.name in other.words() for other in blocks if other is not it)]:
            blocks = [block for block in blocks if block not in idle]
        if not any(block.is_answer for block in blocks):
            self.left = 0
            if os.path.exists(self.path):
                os.remove(self.path)
            return
        text = "\n\n".join("\n".join(block.lines).strip("\n") for block in blocks)
        head = [kept for kept in (self.pruned(line, text) for line in self.head) if kept]
        self.left = len(head) + 2 + text.count("\n")
        write(self.path, "\n".join(head) + "\n\n" + text + "\n")

    def pruned(self, line, text):
        """A line of the head with the names alone that a text has."""
        use, used = USE.match(line), set(words(text))
        if not use:
            return line
        names = [it for it in split(use[2]) if it.split(" as ")[-1] in used or all(part in text for part in it.split(" as ")[-1].split("◌"))]
        return f"use {use[1]}.{{{', '.join(names)}}}" if names else None


class Function:
    """Where a function stands in the code; None as its file where that isn't plain."""

    def __init__(self, path):
        *rooms, self.name = path.split("/")[1:-1]
        self.types = [room for room in rooms if room[0].isupper()]
        modules = "/".join(room for room in rooms if not room[0].isupper())
        files = [f"src/{modules}.rt"] if modules else ["src/lib.rt", "src/main.rt"]
        self.file = next((file for file in files if os.path.isfile(file)), None)
        if "+" in path or self.file and len(self.places()) != 1:
            self.file = None
        self.line, self.named = self.stood() if self.file else (None, {})

    def stood(self):
        """The line of its attribute before any trial, or None, and what it names, or else what the module's attribute names."""
        lines = read(self.file).split("\n")
        at = self.attribute(lines)
        line = lines[at] if at is not None else None
        of_module = re.search(r"(?m)^#!\[tactic\(auto, .*$", read(self.file))
        said = line or (of_module[0] if of_module else "")
        return line, {word: split(names) for word, names in re.findall(r"(using|unfolding)\(([^)]*)\)", said)}

    def places(self):
        found, room = [], None
        for at, line in enumerate(read(self.file).split("\n")):
            if re.match(r"^impl\b", line):
                room = line
            elif line.startswith("}"):
                room = None
            is_here = re.search(rf"\b{self.types[-1]}\b", room.split("{")[0]) if self.types and room else room is None and not self.types
            if is_here and re.match(rf"^\s*(pub(\([\w:]+\))? )?(const )?fn {re.escape(self.name)}\b", line):
                found.append(at)
        return found

    def attribute(self, lines):
        """The line of its attribute, or None."""
        at = self.places()[0] - 1
        while lines[at].strip().startswith(("#[", "//")):
            if lines[at].strip().startswith(ATTRIBUTE):
                return at
            at -= 1
        return None

    def set(self, attribute):
        lines = read(self.file).split("\n")
        old = self.attribute(lines)
        if old is not None:
            del lines[old]
            write(self.file, "\n".join(lines))
        at = self.places()[0]
        if attribute or self.line:
            lines.insert(at, re.match(r"\s*", lines[at])[0] + attribute if attribute else self.line)
            write(self.file, "\n".join(lines))


class Trial:
    """A function whose answers are tried without."""

    def __init__(self, answers, function):
        self.answers, self.function = answers, function
        self.drop(answers.answers)

    def drop(self, names):
        self.answers.drop(names)
        self.attribute = self.answers.attribute(self.function.named) if self.answers.dropped else None
        self.function.set(self.attribute)

    def saves(self):
        return self.answers.before - self.answers.left - (bool(self.attribute) and not self.function.line)

    def bring_back(self, goals):
        """Brings back the answers of these goals, or all where it isn't told which are open."""
        dropped = self.answers.dropped
        alike = lambda name, goal: name == goal or name.startswith(goal + "-") or goal.startswith(name + "-")
        back = {name for name in dropped if any(alike(name, goal) for goal in goals)} or dropped
        self.drop(dropped - back)
        if self.saves() < LEAST_SAVED:
            self.drop(())
        return bool(back)


def trials(crate, given):
    cited = "".join(map(read, glob.glob("proofs/**/*.antt", recursive=True)))
    for path in sorted(glob.glob("proofs/**/Answers.antt", recursive=True)):
        if path.startswith("proofs/tests/"):
            continue
        function, module = Function(path), f"Rattle.{crate}." + path.removesuffix(".antt").replace("/", ".")
        if (not given or any(word in path for word in given)) and function.file and module not in cited:
            answers = Answers(path, crate)
            if answers.answers:
                yield Trial(answers, function)


def check(jobs):
    """Checks the crate: its status, and the goals that are open, by the files of answers."""
    ran = subprocess.run(["rt", "check", "--allow-holes", "--jobs", jobs], stdout=subprocess.PIPE, stderr=subprocess.STDOUT, text=True, errors="replace")
    write("out/answers.log", ran.stdout)
    goals = {path: set() for path in re.findall(r"(?:in|to|write|error:?) \./(proofs/\S+?/Answers\.antt)", ran.stdout)}
    goals.update({path: set() for path in re.findall(r"(proofs/[^\s:]+?/Answers\.antt):\d+:\d+: error", ran.stdout)})
    path = None
    for line in ran.stdout.split("\n"):
        help_of = re.match(r"help: (?:write|add these lines to) \./(proofs/\S+?/Answers\.antt)", line)
        path = help_of[1] if help_of else path if line.startswith(" ") else None
        asked = re.match(r"    pub (\S+) :(?: goal\.|$)", line)
        if path and asked:
            goals.setdefault(path, set()).add(asked[1])
    return ran.returncode, goals


def main():
    options = argparse.ArgumentParser(description="Drops answers that the check finds from the lemmas that they cite.")
    options.add_argument("--jobs", default="2")
    options.add_argument("words", nargs="*")
    given = options.parse_args()
    tried = list(trials(os.path.basename(os.getcwd()), given.words))
    status = 0
    for _ in range(MOST_CHECKS):
        status, goals = check(given.jobs)
        print(f"{sum(bool(it.answers.dropped) for it in tried)} files without answers tried, {len(goals)} open", flush=True)
        if status == 0 or not [it for it in tried if it.answers.path in goals and it.bring_back(goals[it.answers.path])]:
            break
    weak = [it for it in tried if it.answers.dropped and it.saves() < LEAST_SAVED]
    for it in tried if status else weak:
        it.drop(())
    if status or weak:
        status = check(given.jobs)[0]
    gone = [it for it in tried if it.answers.dropped]
    print("\n".join([*(f"{it.answers.path}: {it.saves()} lines" for it in gone), f"{sum(it.saves() for it in gone)} lines fewer"]))
    return status


if __name__ == "__main__":
    sys.exit(main())
