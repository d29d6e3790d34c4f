#!/usr/bin/env python3
"""Drops lemmas that calls of tactics don't need: in a crate's folder whose `rt check` has passed, each lemma that is cited only in lists, as `grind (arith, LEMMA)`
or `using(LEMMA)`, goes from all of them at once; a check tells which calls want theirs; these come back, until the crate is proved again.

    cd crates/NAME && ../../tools/idle.py [--jobs N] [--dry]

What goes is printed. It passes over what nothing cites, as examples. Some four checks of what changed.
"""
import argparse
import glob
import os
import re
import subprocess
import sys

sys.path.insert(0, os.path.dirname(os.path.abspath(__file__)))
import answers as by_answers  # noqa: E402

MOST_CHECKS = 10
CALL = re.compile(r"\b(grind|search|simp|omega) \(((?:[^()]|\([^()]*\))*)\)")
USING = re.compile(r"using\(([^()]*)\)")
SIGNATURE = re.compile(r"^( *)(?:pub )?([^\s(){}:=|]+) : ")
NO_LEMMA = re.compile(r"^ *(--|use |pub use |record|data|module|abbrev|unfoldable|ruleset|ghost|pub abbrev|let |mutual)")
ERROR = re.compile(r"((?:proofs|specs)/[^\s:()]+\.antt):(\d+)(?::\d+)?: error")
TOKEN = re.compile(r"[^\s(){}\[\];,:=λ«»\"|@.&<>!?*#]+")


def indent(line):
    return len(line) - len(line.lstrip())


def is_use(line):
    return re.match(r"\s*(pub )?(unfoldable )?(pub )?(ghost )?use\b", line)


def is_told(line):
    return not line.strip().startswith(("--", "//")) and not is_use(line)


def end_of(lines, at, name):
    deep, end = indent(lines[at]), at + 1
    clause = re.compile(rf"^ {{{deep}}}{re.escape(name)}(?: |$)")
    while end < len(lines):
        if not lines[end].strip():
            after = next((it for it in range(end, len(lines)) if lines[it].strip()), len(lines))
            if after == len(lines) or not (indent(lines[after]) > deep or clause.match(lines[after])):
                break
            end = after
        elif indent(lines[end]) > deep or clause.match(lines[end]):
            end += 1
        else:
            break
    return end


class Lemma:
    def __init__(self, path, lines, at, name):
        self.path, self.at, self.name, self.end = path, at, name, end_of(lines, at, name)
        self.first = at
        while self.first and lines[self.first - 1].strip().startswith("--") and not lines[self.first - 1].strip().startswith("-- ----"):
            self.first -= 1

    def size(self):
        return self.end - self.first + 1


def items(text):
    out, depth, part = [], 0, ""
    for char in text:
        depth += (char in "({[") - (char in ")}]")
        if char == "," and depth == 0:
            out.append(part.strip())
            part = ""
        else:
            part += char
    return [*out, part.strip()]


def head(item):
    return re.split(r"[\s]", item.strip("() "))[0].split("::")[-1]


class Crate:
    def __init__(self):
        self.name = os.path.basename(os.getcwd())
        self.paths = sorted(glob.glob("proofs/**/*.antt", recursive=True) + glob.glob("src/**/*.rt", recursive=True))
        self.lines = {path: open(path, encoding="utf-8").read().split("\n") for path in self.paths}
        self.lemmas, twice = {}, set()
        for path in self.paths:
            if not path.startswith("proofs/") or path.endswith(("Answers.antt", "Invariants.antt", "Lib.antt")) or "Example" in path:
                continue
            for at, line in enumerate(self.lines[path]):
                found = SIGNATURE.match(line)
                if not found or NO_LEMMA.match(line):
                    continue
                deep, name = len(found[1]), found[2]
                after = next((it for it in self.lines[path][at + 1 :] if indent(it) <= deep), "")
                if not re.match(rf"^ {{{deep}}}{re.escape(name)}(?: |$)", after) and not after.strip().startswith("unfolding"):
                    continue
                if name in self.lemmas:
                    twice.add(name)
                self.lemmas[name] = Lemma(path, self.lines[path], at, name)
        self.lemmas = {name: it for name, it in self.lemmas.items() if name not in twice}
        self.outside = set()
        for path in glob.glob("../*/**/*.antt", recursive=True) + glob.glob("../*/**/*.rt", recursive=True) + glob.glob("../../edits/*/*.edit"):
            if "/out/" in path or path.startswith(f"../{self.name}/"):
                continue
            for line in open(path, encoding="utf-8", errors="replace"):
                if f"Rattle.{self.name}." in line or f"{self.name}::proofs" in line or path.endswith(".edit"):
                    self.outside.update(TOKEN.findall(line.replace("::", " ")))
        self.specs = set()
        for path in glob.glob("specs/**/*.antt", recursive=True):
            for line in open(path, encoding="utf-8"):
                if ".proofs." in line:
                    self.specs.update(TOKEN.findall(line))

    def citations(self, line):
        """The names that a line cites in lists, and all others."""
        listed, rest = [], line
        for regex, group in ((CALL, 2), (USING, 1)):
            for found in regex.finditer(line):
                for item in items(found[group]):
                    listed.append(head(item))
                # (arguments of a listed lemma count as told)
                inner = found[group]
                rest = rest.replace(inner, ", ".join(" ".join(re.split(r"\s+", it.strip("() "))[1:]) for it in items(inner)))
        return listed, TOKEN.findall(rest.replace("::", " "))

    def candidates(self):
        told, listed = {}, {}
        for path in self.paths:
            for at, line in enumerate(self.lines[path]):
                if not is_told(line):
                    continue
                names, rest = self.citations(line)
                for name in names:
                    if name in self.lemmas:
                        listed.setdefault(name, []).append((path, at))
                for name in rest:
                    if name in self.lemmas:
                        told.setdefault(name, []).append((path, at))
        found = set()
        for name, it in self.lemmas.items():
            own = [(path, at) for path, at in told.get(name, []) if not (path == it.path and it.at <= at < it.end)]
            if listed.get(name) and not own and name not in self.outside and name not in self.specs:
                found.add(name)
        return found

    def write(self, gone):
        """Writes the crate without these lemmas; where lines stand now, with what went from them."""
        self.shown, self.went = {}, {}
        for path in self.paths:
            lines, out, drop = self.lines[path], [], set()
            for name in gone:
                it = self.lemmas[name]
                if it.path == path:
                    end = it.end + 1 if it.end < len(lines) and not lines[it.end].strip() else it.end
                    drop.update(range(it.first, end))
            for at, line in enumerate(lines):
                if at in drop:
                    continue
                took = set()
                if gone and is_use(line) and f"Rattle.{self.name}.proofs" in line and "{" in line:
                    start, names = line[: line.index("{") + 1], items(line[line.index("{") + 1 : line.rindex("}")])
                    kept = [it for it in names if it.split(" as ")[0].strip() not in gone]
                    if not kept:
                        continue
                    line = start + ", ".join(kept) + line[line.rindex("}") :]
                elif gone and is_told(line):
                    def pruned(found, group):
                        kept = []
                        for item in items(found[group]):
                            if head(item) in gone:
                                took.add(head(item))
                            else:
                                kept.append(item)
                        return kept

                    def call(found):
                        kept = pruned(found, 2)
                        return f"{found[1]} ({', '.join(kept)})" if len(kept) > 1 else f"{found[1]} {kept[0]}" if kept and " " not in kept[0] else f"{found[1]} ({kept[0]})" if kept else f"{found[1]} arith"

                    def using(found):
                        return f"using({', '.join(pruned(found, 1))})"

                    line = CALL.sub(call, line) if path.endswith(".antt") else line
                    line = USING.sub(using, line)
                    if took and "using()" in line:
                        line = line.replace(", using()", "")
                        if line.strip() == "#[tactic(auto)]":
                            self.went.setdefault(path, set()).update(took)
                            continue
                out.append(line)
                if took:
                    self.shown[path, len(out)] = took
                    self.went.setdefault(path, set()).update(took)
            text = "\n".join(out)
            if path.startswith("proofs/") and not any(is_told(it) and it.strip() for it in out):
                text = "\n".join(lines)
            if open(path, encoding="utf-8").read() != text:
                open(path, "w", encoding="utf-8").write(text)

    def check(self, jobs, gone):
        ran = subprocess.run(["rt", "check", "--allow-holes", "--jobs", jobs], stdout=subprocess.PIPE, stderr=subprocess.STDOUT, text=True, errors="replace")
        open("out/idle.log", "w", encoding="utf-8").write(ran.stdout)
        back = set()
        for path, line in ERROR.findall(ran.stdout):
            line, near = int(line), None
            for at in range(line, max(0, line - 12), -1):
                if (path, at) in self.shown:
                    near = self.shown[path, at]
                    break
            back |= near if near else self.went.get(path, set())
        files = set(re.findall(r"(?:in|to|write|error:?) \./(proofs/\S+?/Answers\.antt)", ran.stdout)) | set(re.findall(r"(proofs/[^\s:]+?/Answers\.antt)", ran.stdout) if ran.returncode else [])
        for path in files:
            function = by_answers.Function(path)
            source = function.file or next(iter(glob.glob("src/" + "/".join(p for p in path.split("/")[1:-2] if not p[0].isupper()) + ".rt")), None)
            back |= self.went.get(path, set()) | (self.went.get(source, set()) if source else set())
        named = {name for name in gone if re.search(rf"(?<![\w.-]){re.escape(name)}(?![\w-])", "\n".join(line for line in ran.stdout.split("\n") if "error" in line or "unknown" in line or "scope" in line))}
        return ran.returncode, (back | named) & gone


def main():
    options = argparse.ArgumentParser()
    options.add_argument("--jobs", default="1")
    options.add_argument("--dry", action="store_true")
    given = options.parse_args()
    crate = Crate()
    gone = crate.candidates()
    size = lambda: sum(crate.lemmas[it].size() for it in gone)
    print(f"{len(gone)} lemmas, {size()} lines are cited in lists alone", flush=True)
    if given.dry:
        print("\n".join(sorted(gone)))
        return 0
    for _ in range(MOST_CHECKS):
        crate.write(gone)
        status, back = crate.check(given.jobs, gone)
        print(f"status {status}: {len(back)} come back", flush=True)
        if status == 0 or not back:
            break
        # what a lemma that comes back cites may be wanted too: the next check tells
        gone -= back
    if status:
        crate.write(set())
        print("not proved, so all is put back (out/idle.log)")
        return 1
    print("\n".join([*(f"{crate.lemmas[it].path}: {it}, {crate.lemmas[it].size()} lines" for it in sorted(gone)), f"{size()} lines fewer"]))
    return 0


if __name__ == "__main__":
    sys.exit(main())
