#!/usr/bin/env python3
"""Writes `grind (arith, LEMMAS)` in place of long proofs, where it finds them: in a crate's folder whose `rt check` has passed, each lemma, clause and local
function whose body takes N lines and more gets a call of `grind` with the lemmas that the body cites, all at once; a check tells which are refused; these are
put back, and what stands inside them is tried in their place, until the crate is proved again. Some six to ten checks of what changed.

    cd crates/NAME && ../../tools/shorten.py [--by search] [--through] [--lines N] [--steps S] [FILE..]     (3 lines; 800000 steps a call; all files of proofs/)

By --by search it writes `search (arith, LEMMAS)`, which finds some proofs that `grind` doesn't. By --through it tries bodies of any length, and lists in place of each lemma that nothing else cites those that this one cites: where that is proved, the lemma
in between goes. What is kept is printed. Read the diff: a proof whose steps a comment tells is better put back. What was refused is noted in out/, so a second
run is short.
"""
import argparse
import glob
import json
import os
import re
import subprocess
import sys

MOST_LEMMAS = 12
MOST_USES = 4
MOST_CHECKS = 24
WIDTH = 170
NOTE = os.path.join("out", "shorten.json")
SIGNATURE = re.compile(r"^( *)(pub )?([^\s(){}:=|]+) : (.*)$")
USE = re.compile(r"^\s*(?:pub )?use ([\w.+]+)\.\{(.*)\}\s*$")
ERROR = re.compile(r"((?:proofs|specs)/[^\s:()]+\.antt):(\d+)(?::\d+)?: error")
NO_LEMMA = re.compile(r"^\s*(--|use |pub use |record|data|module|\||let |abbrev|ruleset|ghost)")
# Bodies that make a value and no proof.
VALUE = re.compile(r"^(ℕ|ℤ|List|Bool|Option|Type|Value|Outcome|Held|Expr|Statement|String|Result|Demand|Cells?|Lane\w*|Source)\b")
WORDS = set(
    "let in elim as absurd cc omega grind search simp rw grw subst refl sym ap record λ where arith if then else assumption hlevel first_of at unfolding "
    "open use with tt inl inr Some None Ok Err true false zero suc steps depth parts fits pub".split()
)
OPENING, CLOSING = "({[«⟦", ")}]»⟧"


def split_outside(text, mark):
    """The parts of a text between marks that stand in no brackets."""
    parts, depth, part = [], 0, ""
    for char in text:
        depth += (char in OPENING) - (char in CLOSING)
        if char == mark and depth == 0:
            parts.append(part.strip())
            part = ""
        else:
            part += char
    return [*parts, part.strip()]


def binders(part):
    """The names that a part of a signature binds, as `(a b : T) {c : U}`; None stands for a type without a name."""
    if not part or part[0] not in "({":
        return [None]
    groups = [group for group in split_outside(part.replace(")(", ") (").replace("}{", "} {"), " ") if group]
    if not all(re.match(r"^[({][^(){}:]+ : .*[)}]$", group) for group in groups):
        return [None]
    return [name for group in groups if group[0] == "(" for name in group[1:].split(" : ")[0].split()]


def head_of(line):
    """A clause's left side, or None."""
    depth = 0
    for at, char in enumerate(line):
        depth += (char in OPENING) - (char in CLOSING)
        if char == "=" and depth == 0 and line[at - 1] == " " and (at + 1 == len(line) or line[at + 1] == " "):
            return line[: at - 1]
    return None


def patterns(line, name):
    parts = split_outside((head_of(line) or "").strip()[len(name) :].strip(), " ")
    return [part for part in parts if part and not part.startswith("{")]


def indent(line):
    return len(line) - len(line.lstrip())


def tokens(text):
    return [word.strip(".") for word in re.findall(r"[^\s(){}\[\];,:=λ«»\"|@]+", text)]


def has_clause(lines, at, signature):
    """Whether a signature is a lemma's, and no record's field."""
    deep = len(signature[1])
    after = next((line for line in lines[at + 1 :] if indent(line) <= deep and not line.strip().startswith("unfolding ")), "")
    return re.match(rf"^ {{{deep}}}{re.escape(signature[3])}(?: |$)", after) is not None


class Lemma:
    """A signature and its clauses, by their lines."""

    def __init__(self, name, deep, signature, clauses):
        self.name, self.deep, self.signature, self.clauses = name, deep, signature, clauses
        self.first, self.end = clauses[0][0], clauses[-1][1]


def clause_end(lines, start, deep, high):
    at = start + 1
    while at < high:
        if lines[at].strip():
            if indent(lines[at]) <= deep and not re.match(r"^[\])};,]+$", lines[at].strip()):
                break
            at += 1
            continue
        after = next((it for it in range(at, high) if lines[it].strip()), high)
        if after == high or indent(lines[after]) <= deep or not any(line.strip() == "where" for line in lines[start:at]):
            break
        at = after
    return at


def lemmas(lines, low, high, least_deep):
    """The lemmas of a stretch of lines, without those inside them."""
    at = low
    while at < high:
        found = SIGNATURE.match(lines[at])
        if not found or found[3] in WORDS or indent(lines[at]) < least_deep or NO_LEMMA.match(lines[at]):
            at += 1
            continue
        deep, name, end = len(found[1]), found[3], at + 1
        while end < high and lines[end].strip() and indent(lines[end]) > deep and not lines[end].strip().startswith("unfolding "):
            end += 1
        signature = " ".join(line.strip() for line in lines[at:end])
        while end < high and lines[end].strip().startswith("unfolding "):
            end += 1
        clause, clauses = re.compile(rf"^ {{{deep}}}{re.escape(name)}(?: |$)"), []
        while end < high and clause.match(lines[end]):
            clauses.append((end, clause_end(lines, end, deep, high)))
            end = clauses[-1][1]
        if clauses:
            yield Lemma(name, deep, signature, clauses)
        at = max(end, at + 1)


class Place:
    """A body that may give way to a call, and the places inside it, for when it may not. bring: the names that its call needs, each with its module;
    passed: the lemmas in between that it doesn't."""

    def __init__(self, name, start, end, call, inside, bring, passed):
        self.name, self.start, self.end, self.call, self.inside, self.bring, self.passed = name, start, end, call, inside, bring, passed

    @property
    def key(self):
        return "\n".join(self.call or [])

    def saves(self):
        return self.end - self.start - len(self.call)


def is_told(line):
    """Whether a line's words count as uses."""
    return not line.strip().startswith(("--", "//", "use ", "pub use ", "ghost use "))


class Between:
    """The lemmas of a crate, and where they are cited."""

    def __init__(self, crate):
        self.home, self.uses, twice = {}, {}, set()
        for path in [*glob.glob("../*/**/*.antt", recursive=True), *glob.glob("../*/**/*.rt", recursive=True), *glob.glob("../../edits/*/*.edit")]:
            if "/out/" in path:
                continue
            path = os.path.relpath(path)
            with open(path, encoding="utf-8") as file:
                lines = file.read().split("\n")
            for at, line in enumerate(lines):
                for word in tokens(re.sub(r"::|\.", " ", line)) if is_told(line) else []:
                    self.uses.setdefault(word, []).append((path, at))
            if path.startswith("proofs/") and not path.endswith(("Answers.antt", "Invariants.antt", "Lib.antt")) and "Example" not in path:
                for lemma in lemmas(lines, 0, len(lines), 0):
                    if lemma.name in self.home:
                        twice.add(lemma.name)
                    self.home[lemma.name] = path, lemma
        self.home = {name: it for name, it in self.home.items() if name not in twice}
        self.crate, self.sources = crate, {}

    def source(self, path):
        if path not in self.sources:
            self.sources[path] = Source(path, 1)
        return self.sources[path]

    def stands(self, name):
        """The source of a lemma, the lemma, and its lines."""
        path, lemma = self.home[name]
        source = self.source(path)
        return source, lemma, range(source.first_of(lemma), lemma.end)

    def from_outside(self, name, gone=()):
        """Where a lemma is cited, but in itself and in lemmas that go."""
        passed = [(source.path, lines) for source, _, lines in map(self.stands, {name, *gone})]
        return [(at, line) for at, line in self.uses.get(name, []) if not any(at == path and line in lines for path, lines in passed)]

    def few(self, name, path, start):
        """The source and lemma of a name that few lines cite, or None, also where a place is in the lemma itself."""
        if name not in self.home or len(self.from_outside(name)) > MOST_USES:
            return None
        source, lemma, lines = self.stands(name)
        return None if source.path == path and start in lines else (source, lemma)

    def idle(self, names):
        """Those of the lemmas that nothing cites but others of them."""
        gone = set(names) & set(self.home)
        while found := next((name for name in gone if self.from_outside(name, gone)), None):
            gone.remove(found)
        return gone

    def module(self, path):
        return f"Rattle.{self.crate}." + path.removesuffix(".antt").replace("/", ".")


class Source:
    """A file of proofs, with its places. between: the lemmas that calls may pass over."""

    tactic = "grind"

    def __init__(self, path, least, between=None):
        self.path, self.least, self.between = path, least, between
        with open(path, encoding="utf-8") as file:
            self.lines = file.read().split("\n")
        self.brought = {name.split(" as ")[-1].strip(): use[1] for use in map(USE.match, self.lines) if use for name in use[2].split(",")}
        self.aliases = {name.split(" as ")[-1].strip() for use in map(USE.match, self.lines) if use for name in use[2].split(",") if " as " in name}
        signed = [found for at, found in enumerate(map(SIGNATURE.match, self.lines)) if found and has_clause(self.lines, at, found)]
        self.own, self.shared = {it[3] for it in signed}, {it[3] for it in signed if it[2]}
        self.opened = {name for line in self.lines if line.strip().startswith("unfolding ") for name in re.split(r"[\s,]+", line.strip()[10:])}
        self.live, self.shown = [], {}

    def find(self):
        self.live = list(self.places(0, len(self.lines), 0, 0))
        return self

    def first_of(self, lemma):
        """The line of a lemma's signature."""
        at = lemma.first - 1
        while not ((found := SIGNATURE.match(self.lines[at])) and found[3] == lemma.name):
            at -= 1
        return at

    def passing(self, cited, start, bring, passed, deep=0):
        """What a call at a place lists in place of the lemmas in between, whose names are noted as passed."""
        found = []
        for name in cited:
            lemma = self.between.few(name, self.path, start) if deep < 3 else None
            inner = lemma and self.through(*lemma, start, bring, passed, deep)
            found += [it for it in ([name] if inner is None else inner) if it not in found]
        return found

    def through(self, home, lemma, start, bring, passed, deep):
        """What a lemma in between cites, or None where this file can't."""
        body = "\n".join(home.lines[lemma.first : lemma.end])
        recurs = lemma.name in tokens(body.replace(lemma.name, "", len(lemma.clauses)))
        if recurs or lemma.name in [*passed, *home.opened] or VALUE.match(split_outside(lemma.signature.split(" : ", 1)[1], "→")[-1]):
            return None
        cited = home.cited(lemma.first, lemma.end, {lemma.name, *home.arguments(lemma)})
        brought = {}
        for name in cited if home.path != self.path else []:
            module = self.between.module(home.path) if name in home.own else home.brought[name]
            if name in home.own - home.shared or name in home.aliases or self.brought.get(name, module) != module or name in self.own:
                return None
            brought[name] = module
        bring.update(brought)
        passed.append(lemma.name)
        return self.passing(cited, start, bring, passed, deep + 1)

    def cited(self, start, end, bound):
        """The lemmas that lines cite, but those that stand in them."""
        found, bound = [], {*bound, *(it[3] for it in map(SIGNATURE.match, self.lines[start:end]) if it)}
        for word in tokens("\n".join(self.lines[start:end])):
            home = self.brought.get(word, "")
            is_lemma = not word[:1].isupper() and (word in self.own or re.search(r"\.proofs(\.|$)", home) and not re.search("Common|Goals", home))
            if is_lemma and word not in WORDS and word not in bound and word not in found:
                found.append(word)
        return found

    def call(self, deep, head, cited, room):
        """The lines of a clause that is a call of the tactic, or None where it would be too long."""
        if len(cited) > MOST_LEMMAS:
            return None
        call = f"{self.tactic} (arith, {', '.join(cited)})" if cited else f"{self.tactic} arith"
        lines = [f"{head} = {call} STEPS"]
        if len(lines[0]) > WIDTH:
            lines = [f"{head} =", " " * (deep + 4) + f"{call} STEPS"]
        return lines if len(lines) < room and max(map(len, lines)) <= WIDTH + 20 else None

    def arguments(self, lemma):
        """Names for all that a lemma takes: those of its signature, else of a clause, else a letter."""
        names, used = [], set()
        for part in split_outside(lemma.signature.split(" : ", 1)[1], "→")[:-1]:
            names += binders(part)
        used |= {name for name in names if name}
        rows = [patterns(self.lines[start], lemma.name) for start, _ in lemma.clauses]
        for at, name in enumerate(names):
            if name is None:
                given = [row[at] for row in rows if at < len(row) and re.match(r"^[a-z]\w*'?$", row[at])]
                free = [it for it in [*given, *"hklmpqrt"] if it not in used and it not in self.own and it not in WORDS and it not in self.brought]
                names[at] = free[0] if free else f"h{at}"
                used.add(names[at])
        return names

    def places(self, low, high, least_deep, level):
        for lemma in lemmas(self.lines, low, high, least_deep):
            if lemma.name in self.opened or lemma.end - lemma.first < self.least:
                continue
            body = "\n".join(self.lines[lemma.first : lemma.end])
            itself = re.compile(rf"(?<![\w.\-]){re.escape(lemma.name)}(?![\w\-])")
            recurs = len(itself.findall(body)) > len(lemma.clauses)
            result = split_outside(lemma.signature.split(" : ", 1)[1], "→")[-1]
            call, bring, passed = None, {}, []
            if not recurs and not VALUE.match(result):
                names = self.arguments(lemma)
                head = " " * lemma.deep + " ".join([lemma.name, *names])
                call, bring, passed = self.offer(lemma.deep, head, self.cited(lemma.first, lemma.end, {lemma.name, *names}), lemma.first, lemma.end)
            inside = list(self.inside(lemma, recurs, level))
            if call or inside:
                yield Place(lemma.name, lemma.first, lemma.end, call, inside, bring, passed)

    def offer(self, deep, head, cited, start, end, again=()):
        """The call for a body, and what it brings; by way of lemmas in between where these are asked for."""
        bring, passed = {}, []
        if not self.between:
            return self.call(deep, head, [*cited, *again], end - start), bring, passed
        listed = self.passing(cited, start, bring, passed)
        return self.call(deep, head, [*listed, *again], end - start + 2 * len(passed)) if passed else None, bring, passed

    def inside(self, lemma, recurs, level):
        """A lemma's clauses, and what stands behind their `where`."""
        for start, end in lemma.clauses:
            behind = list(self.places(start + 1, end, lemma.deep + 1, level + 1)) if end - start >= self.least and level < 3 else []
            head = head_of(self.lines[start]) or (self.lines[start][:-2] if self.lines[start].endswith(" =") else None)
            if head is None or len(lemma.clauses) == 1 and not recurs:
                yield from behind
                continue
            text = "\n".join(self.lines[start:end])
            argument = r"(?: (?:[^\s()]+|\([^()]*\)))+"
            again = dict.fromkeys(re.findall(rf"[(] ?({re.escape(lemma.name)}{argument})\)", text[len(head) :]))
            call, bring, passed = self.offer(lemma.deep, head, self.cited(start, end, {lemma.name, *tokens(head)}), start, end, again)
            if call or behind:
                yield Place(lemma.name, start, end, call, behind, bring, passed)

    def settle(self, refused):
        """Places that may not give way make room for those inside them."""

        def settled(places):
            for place in places:
                if place.call and place.key not in refused:
                    yield place
                else:
                    yield from settled(place.inside)

        self.live = sorted(settled(self.live), key=lambda place: place.start)

    def write(self, steps):
        """Writes the file with its places' calls, and notes where they stand in it."""
        bound = f" steps {steps}" if steps and self.tactic == "grind" else ""
        out, at, self.shown = [], 0, {}
        for place in self.live:
            out += self.lines[at : place.start]
            new = [line.replace(" STEPS", bound) for line in place.call]
            self.shown.update({len(out) + 1 + it: place for it in range(len(new))})
            out += new
            at = place.end
        out += self.lines[at:]
        self.bring(out, {name: module for place in self.live for name, module in place.bring.items() if self.brought.get(name) != module})
        with open(self.path, "w", encoding="utf-8") as file:
            file.write("\n".join(out))

    def bring(self, lines, names):
        """Adds imports, each in place of a line or beside one, so that no line moves."""
        for name, module in names.items():
            uses = [at for at, line in enumerate(lines) if line.startswith("use ")]
            own = [at for at in uses if lines[at].startswith(f"use {module}.{{")]
            if own:
                lines[own[0]] = lines[own[0]].replace("}", f", {name}}}")
            else:
                lines[uses[-1]] += f"\nuse {module}.{{{name}}}"
                self.shown = {line + 1: place for line, place in self.shown.items()}

    def drop(self, lemma):
        """Drops a lemma that nothing cites any more, with its comment."""
        first, end = self.first_of(lemma), lemma.end
        while self.lines[first - 1].strip().startswith("--") and not self.lines[first - 1].strip().startswith("-- ----"):
            first -= 1
        while not self.lines[end - 1].strip():
            end -= 1
        if end < len(self.lines) and not self.lines[end].strip():
            end += 1
        with open(self.path, "w", encoding="utf-8") as file:
            file.write("\n".join(self.lines[:first] + self.lines[end:]))


def keep_what_serves(crate, sources):
    """Puts back the calls that save no line because what they pass over is cited elsewhere too."""
    passed = {name for source in sources.values() for place in source.live for name in place.passed}
    idle = Between(crate).idle(passed)
    for source in sources.values():
        source.live = [place for place in source.live if idle & set(place.passed) or place.saves() > 0]


def drop_idle(crate, names):
    """Drops those of the lemmas that nothing cites any more."""
    for name in sorted(Between(crate).idle(names)):
        source, lemma, _ = Between(crate).stands(name)
        source.drop(lemma)
        unimport(f"use Rattle.{crate}." + source.path.removesuffix(".antt").replace("/", ".") + ".{", name)
        print(f"{source.path}: {name} goes")


def unimport(start, name):
    """Drops a name from the lines of imports that begin so."""
    for path in glob.glob("proofs/**/*.antt", recursive=True):
        with open(path, encoding="utf-8") as file:
            lines = file.read().split("\n")
        for at, line in enumerate(lines):
            if line.removeprefix("pub ").startswith(start):
                names = [it.strip() for it in line[line.index("{") + 1 : line.rindex("}")].split(",") if it.split(" as ")[0].strip() != name]
                lines[at] = line[: line.index("{") + 1] + ", ".join(names) + "}" if names else None
        with open(path, "w", encoding="utf-8") as file:
            file.write("\n".join(line for line in lines if line is not None))


def check(sources, steps):
    """Checks the crate with the places' calls: its status, and the places at which errors stand."""
    for source in sources.values():
        source.write(steps)
    ran = subprocess.run(["rt", "check"], stdout=subprocess.PIPE, stderr=subprocess.STDOUT, text=True, errors="replace")
    at = [sources[path].shown.get(int(line)) for path, line in ERROR.findall(ran.stdout) if path in sources]
    hit = list(dict.fromkeys(place for place in at if place))
    if ran.returncode:
        with open(os.path.join("out", "shorten.log"), "w", encoding="utf-8") as file:
            file.write(ran.stdout)
    return ran.returncode, hit


def resting_on_none(hit):
    """Of the places that were refused, those that cite no other of them: one that does may only rest on it."""
    names = {place.name for place in hit}
    return [place for place in hit if not (names - {place.name}) & set(tokens(place.key))] or hit


def shorten(sources, steps):
    """Puts back what is refused until the crate is proved, and tells whether it is."""
    refused = set(json.load(open(NOTE, encoding="utf-8"))) if os.path.isfile(NOTE) else set()
    for number in range(MOST_CHECKS):
        for source in sources.values():
            source.settle(refused)
        status, hit = check(sources, steps)
        print(f"{sum(len(source.live) for source in sources.values())} tried, {len(hit)} refused", flush=True)
        if not hit:
            return status == 0
        for place in resting_on_none(hit):
            refused.add(place.key)
            if number > MOST_CHECKS - 8:
                place.inside = []
        with open(NOTE, "w", encoding="utf-8") as file:
            json.dump(sorted(refused), file)
    return False


def main():
    options = argparse.ArgumentParser(description="Writes calls of grind in place of long proofs.")
    options.add_argument("--by", choices=["grind", "search"], default="grind")
    options.add_argument("--through", action="store_true")
    options.add_argument("--lines", type=int)
    options.add_argument("--steps", type=int, default=800000)
    options.add_argument("files", nargs="*")
    given = options.parse_args()
    Source.tactic = given.by
    files = given.files or [it for it in sorted(glob.glob("proofs/**/*.antt", recursive=True)) if "Example" not in it and not it.endswith("Lib.antt")]
    between = Between(os.path.basename(os.getcwd())) if given.through else None
    sources = {file: Source(file, given.lines or (1 if given.through else 3), between).find() for file in files}
    is_proved = shorten(sources, given.steps)
    if between and is_proved:
        keep_what_serves(between.crate, sources)
    is_proved = is_proved and check(sources, 0)[0] == 0
    if not is_proved:
        for source in sources.values():
            source.live = []
        check(sources, 0)
        print("not proved, so all is put back")
    kept = [(source.path, place) for source in sources.values() for place in source.live]
    if given.through and is_proved:
        drop_idle(between.crate, {name for _, place in kept for name in place.passed})
        is_proved = subprocess.run(["rt", "check", "--fix-imports"], stdout=subprocess.DEVNULL, stderr=subprocess.STDOUT).returncode == 0
    print("\n".join([*(f"{path}: {place.name}, {place.saves()} lines" for path, place in kept), f"{sum(place.saves() for _, place in kept)} lines fewer" + " and the lemmas that go" * given.through]))
    return 0 if is_proved else 1


if __name__ == "__main__":
    sys.exit(main())
