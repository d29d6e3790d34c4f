#!/usr/bin/env python3
"""Processor minutes of a gate: what each crate's proof, tests and edits took.

  tools/gate_cost.py PID [--log FILE]   watches the process PID and all that it starts, until it ends; then the table
  tools/gate_cost.py FILE               the table of a log that such a watch wrote

A watched process is a check of a crate: its proof, a check of its tests, or a check of one of its must-fail edits, told
apart by the command line and by the folder that it runs in. It looks twice a second, and keeps what a check had used when it
was last seen, with all that it had waited for; so half a second of each check may be missing. What isn't a check of a crate
(the compilers, the tests and programs themselves, rt's own work) stands in the last row.
"""
import argparse
import json
import os
import re
import sys
import time

TICKS = os.sysconf("SC_CLK_TCK")
KINDS = ("proof", "tests", "edits", "other")
OTHER = "(compiling, running, rt)"


def read(path):
    try:
        with open(path, "rb") as file:
            return file.read()
    except OSError:
        return b""


def processes():
    """Each process by its number: its parent, its own seconds, and the seconds of the children that it waited for."""
    found = {}
    for name in os.listdir("/proc"):
        if not name.isdigit():
            continue
        fields = read(f"/proc/{name}/stat").rpartition(b") ")[2].split()
        if len(fields) > 14:
            own, waited = (sum(map(int, fields[at:at + 2])) / TICKS for at in (11, 13))
            found[int(name)] = int(fields[1]), own, waited
    return found


def below(found, top):
    """The processes that a process started, with itself."""
    children = {}
    for pid, (parent, _, _) in found.items():
        children.setdefault(parent, []).append(pid)
    order = [top] if top in found else []
    for pid in order:
        order += children.get(pid, [])
    return order


def check_of(pid):
    """The crate and the kind of a check, or None where the process is no check."""
    words = read(f"/proc/{pid}/cmdline").decode(errors="replace").split("\0")
    if not any(os.path.basename(word) == "rattle" for word in words[:1]) or "--crate-name" not in words:
        return None
    crate = words[words.index("--crate-name") + 1]
    try:
        folder = os.readlink(f"/proc/{pid}/cwd")
    except OSError:
        folder = ""
    if re.search(r"/rt-edit-[^/]*$", folder):
        return crate, "edits"
    if "--crate-checked" in words:
        return None
    return crate, "tests" if "--test" in words else "proof"


class Watch:
    """What was seen of each process: the check that it is or belongs to, and its seconds when it was seen last."""

    def __init__(self, top):
        self.top = top
        self.checks = {}                # of a check: its crate and kind, and its seconds
        self.workers = set()            # what a check started: counted with it
        self.other = {}                 # the seconds of every other process
        self.begun = time.time()

    def look(self):
        found = processes()
        order = below(found, self.top)
        for pid in order:
            parent, own, waited = found[pid]
            if parent in self.checks or parent in self.workers:
                self.workers.add(pid)
                continue
            what = self.checks[pid][0] if pid in self.checks else check_of(pid)
            if what:
                # workers that still run aren't in what the check waited for
                live = sum(found[it][1] + found[it][2] for it in below(found, pid)[1:])
                self.checks[pid] = what, own + waited + live
                self.other.pop(pid, None)
            else:
                self.other[pid] = own
        return bool(order)

    def rows(self):
        table = {}
        for (crate, kind), seconds in self.checks.values():
            row = table.setdefault(crate, dict.fromkeys(KINDS, 0.0))
            row[kind] += seconds
        rest = table.setdefault(OTHER, dict.fromkeys(KINDS, 0.0))
        rest["other"] += sum(self.other.values())
        return table


def printed(table, minutes):
    """The table, the dearest crate first, with a line for all."""
    lines = ["| Crate | proof | tests | edits | all |", "|---|---|---|---|---|"]

    def row(name, of):
        each = [of[kind] / 60 for kind in KINDS[:3]]
        cells = ["%.1f" % it if it >= 0.05 else "" for it in each]
        return "| %s | %s | %.1f |" % (name, " | ".join(cells), sum(of.values()) / 60)

    names = sorted((it for it in table if it != OTHER), key=lambda it: -sum(table[it].values()))
    lines += [row(name, table[name]) for name in names]
    lines.append(row(OTHER, table[OTHER]))
    whole = {kind: sum(of[kind] for of in table.values()) for kind in KINDS}
    lines.append(row("**all**", whole))
    lines.append("")
    lines.append("%.1f processor minutes, %.1f by the clock" % (sum(whole.values()) / 60, minutes))
    return "\n".join(lines)


def watch(pid, log):
    seen = Watch(pid)
    while seen.look():
        if log:
            with open(log + ".new", "w") as file:
                json.dump({"minutes": (time.time() - seen.begun) / 60, "table": seen.rows()}, file)
            os.replace(log + ".new", log)
        time.sleep(0.5)
    return seen.rows(), (time.time() - seen.begun) / 60


def main():
    parser = argparse.ArgumentParser(description=__doc__, formatter_class=argparse.RawDescriptionHelpFormatter)
    parser.add_argument("what", metavar="PID-or-FILE")
    parser.add_argument("--log", metavar="FILE", help="where a watch writes what it has seen so far")
    given = parser.parse_args()
    if given.what.isdigit():
        table, minutes = watch(int(given.what), given.log)
    else:
        try:
            with open(given.what) as file:
                kept = json.load(file)
        except (OSError, ValueError) as error:
            sys.exit(f"gate_cost: {given.what} is no log of a watch: {error}")
        table, minutes = kept["table"], kept["minutes"]
    print(printed(table, minutes))


if __name__ == "__main__":
    main()
