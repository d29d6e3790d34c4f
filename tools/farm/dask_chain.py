#!/usr/bin/env python3
"""Runs a script over a chain of tables under Dask's distributed scheduler (Debian package python3-distributed), and
prints what `rdf chain run` prints, with its status:

    tools/farm/dask_chain.py [OPTIONS] SCRIPT TABLE..

The scheduler is one that runs already (--scheduler tcp://HOST:PORT), whose workers see the same folders, or is started
here with workers on this machine. Each table is a step of its own; parts are joined in groups, and groups of groups,
until one is left. docs/FARM.md tells more. A step that ends otherwise than with 0 is tried again, and so is one whose
worker is lost; after the last try no other step begins. Then this ends with the step's status, and standard error
names the step and has the program's line. Progress stands on standard error.
"""
import argparse
import contextlib
import importlib.util
import os
import signal
import subprocess
import sys
import tempfile
import uuid

SYSTEM = "/usr/bin/python3"

# A Python of the user's own may lack Dask where the system's has it.
if importlib.util.find_spec("distributed") is None and sys.executable != SYSTEM and os.access(SYSTEM, os.X_OK):
    os.execv(SYSTEM, [SYSTEM, *sys.argv])

FARM = os.path.dirname(os.path.abspath(__file__))
sys.path.insert(0, FARM)
sys.dont_write_bytecode = True

from plan import plan  # noqa: E402

ENGINE_FAILED = 70                      # no program, no scheduler, no worker, or a step whose workers were lost
WAIT_FOR_WORKER = 60                    # seconds


class Stopped(Exception):
    """A status, and the line that says why."""

    def __init__(self, status, line):
        super().__init__(status, line)
        self.status, self.line = status, line


# ---- on a worker

def do_step(name, words, environment, halt, parts):
    """Runs step.sh, which keeps the part; `parts` are there for the order of steps alone.

    This function goes to workers as it stands, with what it names: so it names what any Python has.
    """
    import os
    import subprocess
    from distributed import get_worker
    if os.path.exists(halt):
        raise RuntimeError(0, "%s isn't begun" % name)
    try:
        ran = subprocess.run(words, env={**os.environ, **environment}, stdin=subprocess.DEVNULL,
                             stdout=subprocess.DEVNULL, stderr=subprocess.PIPE)
    except OSError as found:
        raise RuntimeError(70, "farm: %s: %s" % (name, found)) from None
    if ran.returncode != 0:
        status = ran.returncode if ran.returncode > 0 else 128 - ran.returncode
        said = ran.stderr.decode(errors="replace").strip() or "farm: %s: status %d" % (name, status)
        get_worker().log_event("farm", said)
        raise RuntimeError(status, said)


# ---- here

def words_of():
    parser = argparse.ArgumentParser(description="Runs a script over a chain of tables under Dask.", allow_abbrev=False)
    parser.add_argument("script", metavar="SCRIPT")
    parser.add_argument("names", metavar="TABLE", nargs="*")
    parser.add_argument("--tables", metavar="FILE", help="names of more tables, one on a line")
    parser.add_argument("--work", metavar="FOLDER", default="farm-work",
                        help="where parts are kept, and found again by the next call; workers see it too (farm-work)")
    parser.add_argument("--scheduler", metavar="ADDRESS", help="of a scheduler that runs, as tcp://HOST:8786")
    parser.add_argument("--workers", metavar="N", type=number(1, 1024),
                        help="workers that are started here (as many as processors)")
    parser.add_argument("--slots", metavar="N", type=number(1, 16), default=1, help="slots of each step (1)")
    parser.add_argument("--group", metavar="N", type=number(2, 4096), default=64, help="parts that one step joins (64)")
    parser.add_argument("--tries", metavar="N", type=number(1, 1000), default=3, help="how often a step is tried (3)")
    parser.add_argument("--quiet", action="store_true", help="no progress")
    asked = parser.parse_args()
    if asked.scheduler and asked.workers:
        parser.error("--workers doesn't come with --scheduler, which has its own")
    asked.script = os.path.abspath(asked.script)
    asked.tables = tables_of(asked)
    if not asked.tables:
        parser.error("no table is named")
    return asked


def number(least, most):
    def read(word):
        if not (word.isascii() and word.isdigit() and least <= int(word) <= most):
            raise argparse.ArgumentTypeError("%r is no number from %d to %d" % (word, least, most))
        return int(word)
    return read


def tables_of(asked):
    """The tables' whole names; each of them is there."""
    names = list(asked.names)
    for needed in filter(None, [asked.script, asked.tables]):
        if not os.path.isfile(needed):
            raise Stopped(5, "farm: no file %s" % needed)
    if asked.tables:
        with open(asked.tables, encoding=sys.getfilesystemencoding(), errors="surrogateescape") as file:
            names += file.read().split("\n")
    names = [os.path.abspath(name) for name in names if name]
    missing = ["farm: no file %s" % name for name in names if not os.path.isfile(name)]
    if missing:
        raise Stopped(5, "\n".join(missing))
    return names


def need_program():
    """Without words it answers its usage: so one that has to be built first is built once, before the steps."""
    if os.environ.get("RDF_CHAIN"):
        os.environ["RDF_CHAIN"] = os.path.abspath(os.environ["RDF_CHAIN"])
    ran = subprocess.run([os.path.join(FARM, "chain.sh")], env={**os.environ, "RDF_HINTS": "0"},
                         stdin=subprocess.DEVNULL, stdout=subprocess.DEVNULL)
    if ran.returncode != 2:
        raise Stopped(ENGINE_FAILED, "farm: there is no program that runs")


@contextlib.contextmanager
def client_of(asked):
    """A client of the scheduler that is named, or of one with workers on this machine alone, which ends with it."""
    import dask
    from distributed import Client, LocalCluster
    with contextlib.ExitStack() as stack:
        if asked.scheduler is None:
            # A worker holds one step at a time: where it is lost, no other step counts as tried.
            stack.enter_context(dask.config.set({"distributed.scheduler.allowed-failures": asked.tries - 1,
                                                 "distributed.scheduler.worker-saturation": 1.0}))
            space = stack.enter_context(tempfile.TemporaryDirectory(prefix="rdf-farm-"))
            # No extensions: that for shuffling fails with a long message where a new worker ends soon.
            cluster = stack.enter_context(LocalCluster(
                n_workers=asked.workers or os.cpu_count(), threads_per_worker=1, host="127.0.0.1",
                dashboard_address="127.0.0.1:0", worker_dashboard_address="127.0.0.1:0",
                local_directory=space, silence_logs="ERROR", extensions={}))
            yield stack.enter_context(Client(cluster))
        else:
            try:
                client = stack.enter_context(Client(asked.scheduler, timeout=WAIT_FOR_WORKER))
                client.wait_for_workers(1, timeout=WAIT_FOR_WORKER)
            except (OSError, ValueError, TimeoutError) as found:
                raise Stopped(ENGINE_FAILED, "farm: %s: %s" % (asked.scheduler, found)) from None
            yield client


class Progress:
    """How many steps are done, as a line that is written anew on a terminal, else each time a tenth more is done."""

    def __init__(self, steps, quiet):
        self.quiet = quiet
        self.all = {kind: sum(step.name.startswith(kind) for step in steps) for kind in ("map", "join")}
        self.done = dict.fromkeys(self.all, 0)
        self.told = 0

    def note(self, kind):
        self.done[kind] += 1
        tenth = sum(self.done.values()) * 10 // sum(self.all.values())
        if not self.quiet and (sys.stderr.isatty() or tenth > self.told):
            self.told = tenth
            line = ", ".join("%d of %d %ss" % (self.done[kind], all, kind) for kind, all in self.all.items() if all)
            print("farm: " + line, end="\r" if sys.stderr.isatty() else "\n", file=sys.stderr, flush=True)

    def end(self):
        if sys.stderr.isatty() and self.told:
            print(file=sys.stderr)


def do_all(client, asked, steps):
    """Has all steps done; where one fails, no other begins, and what failed is told."""
    from distributed import as_completed
    token = uuid.uuid4().hex[:12]
    halt = os.path.join(asked.work, ".halt-" + token)
    environment = {"RDF_CHAIN": os.environ["RDF_CHAIN"]} if os.environ.get("RDF_CHAIN") else {}
    futures = {}
    for step in steps:
        words = [os.path.join(FARM, "step.sh"), step.part, *step.words(asked.script, asked.slots)]
        futures[step.part] = client.submit(
            do_step, step.name, words, environment, halt, [futures[part] for part in step.parts],
            key="%s-%s" % (step.name, token), retries=asked.tries - 1, pure=False)
    kinds = {future.key: step.name.split("-")[0] for step, future in zip(steps, futures.values())}
    progress, failed = Progress(steps, asked.quiet), {}
    try:
        for future in as_completed(futures.values()):
            if future.status == "finished":
                progress.note(kinds[future.key])
                continue
            open(halt, "w").close()
            status, line = why_failed(future)
            if status:
                failed[line] = status
    finally:
        progress.end()
        with contextlib.suppress(FileNotFoundError):
            os.remove(halt)
    if failed:
        raise Stopped(next(iter(failed.values())), "\n".join(failed))


def why_failed(future):
    """The status and the line of a step that failed, or of the one before it that did."""
    from distributed.scheduler import KilledWorker
    if future.status != "error":
        return ENGINE_FAILED, "farm: the scheduler is lost"
    found = future.exception()
    if isinstance(found, KilledWorker):
        return ENGINE_FAILED, "farm: %s: each worker that took it was lost" % found.task.rpartition("-")[0]
    if isinstance(found, RuntimeError) and len(found.args) == 2:
        return found.args
    return ENGINE_FAILED, "farm: %s: %s" % (future.key.rpartition("-")[0], found)


def main():
    asked = words_of()
    need_program()
    asked.work = os.path.abspath(asked.work)
    os.makedirs(asked.work, exist_ok=True)
    steps = plan(asked.script, asked.tables, asked.work, asked.group)
    with client_of(asked) as client:
        client.subscribe_topic("farm", lambda event: print("%s (of %d tries)" % (event[1], asked.tries),
                                                           file=sys.stderr, flush=True))
        do_all(client, asked, steps)
    printing = [os.path.join(FARM, "chain.sh"), "print", asked.script, str(len(asked.tables)), steps[-1].part]
    return subprocess.run(printing).returncode


if __name__ == "__main__":
    for ending in (signal.SIGTERM, signal.SIGHUP):
        if signal.getsignal(ending) != signal.SIG_IGN:
            signal.signal(ending, lambda number, _: sys.exit(128 + number))
    try:
        sys.exit(main())
    except Stopped as stopped:
        print(stopped.line, file=sys.stderr)
        sys.exit(stopped.status)
    except KeyboardInterrupt:
        sys.exit(130)
