"""A script over a chain of tables, of chains.sh: chains.py ENTRIES TABLES."""
import contextlib
import os
import shutil
import subprocess
import sys
import tempfile
import time

import race
from race import Runner, print_ratio

SCRIPT = os.path.join(race.BENCH, "generated.txt")
FARM = os.path.join(race.BENCH, "..", "tools", "farm")
TABLES, MOST_TABLES = 20, 16384
SLOTS, WORKERS = "4", (1, 2, 4)
TURNS = 3
GOAL_SECONDS, GOAL_MEMORY, GOAL_FARM = 1.1, 1.1, 1.5
WAIT = 60                               # seconds that a scheduler or its workers may take to begin
TICKS = os.sysconf("SC_CLK_TCK")        # of a second, in which the system tells processor time
# Runs a command, whose standard error is told only where it fails.
QUIETLY = 'log=$1; shift; "$@" 2>"$log" || { status=$?; cat "$log" >&2; exit $status; }'
# Prints a scheduler's address when its workers are there.
ADDRESS = """import sys
from distributed import Client
client = Client(scheduler_file=sys.argv[1])
client.wait_for_workers(int(sys.argv[2]), timeout=int(sys.argv[3]))
print(client.scheduler.address)
"""


# ---- tables

def make_tables(folder, entries, count):
    """The generator's tables of the seeds from 7 on."""
    names = [os.path.join(folder, "t%d.csv" % at) for at in range(count)]
    race.make_table(names[0], entries)
    for at in range(1, count, os.cpu_count()):
        together = [started_table(names[number], entries, race.SEED + number)
                    for number in range(at, min(at + os.cpu_count(), count))]
        if any(each.wait() != 0 for each in together):
            raise race.Stopped("make_table.awk failed")
    return names


def started_table(name, entries, seed):
    words = ["awk", "-v", "n=%d" % entries, "-v", "seed=%d" % seed, "-f", os.path.join(race.BENCH, "make_table.awk")]
    with open(name, "wb") as file:
        return subprocess.Popen(words, stdout=file)


# ---- recipes

def python_with_dask():
    for python in (sys.executable, "/usr/bin/python3"):
        has_dask = [python, "-c", "import distributed"]
        if os.access(python, os.X_OK) and subprocess.run(has_dask, stderr=subprocess.DEVNULL).returncode == 0:
            return python
    return None


@contextlib.contextmanager
def scheduler(python, folder, workers):
    """A scheduler on this machine with so many workers, which end with it: its address, and the numbers of all."""
    space = os.path.join(folder, "space%d" % workers)
    os.mkdir(space)
    found = os.path.join(space, "scheduler.json")
    common = ["--scheduler-file", found, "--host", "127.0.0.1", "--dashboard-address", "127.0.0.1:0"]
    with open(os.path.join(space, "log"), "wb") as log:
        def start(module, *words):
            words = [python, "-m", "distributed.cli." + module, *common, *words]
            return subprocess.Popen(words, stdout=log, stderr=log)
        started = [start("dask_scheduler", "--port", "0")]
        started += [start("dask_worker", "--nthreads", "1", "--local-directory", space) for _ in range(workers)]
        try:
            wait_for(found)
            address = subprocess.run([python, "-c", ADDRESS, found, str(workers), str(WAIT)],
                                     stdout=subprocess.PIPE, check=True).stdout.decode().strip()
            yield address, [each.pid for each in started]
        finally:
            for each in reversed(started):
                each.terminate()
                each.wait()


def wait_for(name):
    last = time.monotonic() + WAIT
    while not (os.path.exists(name) and os.path.getsize(name)):
        if time.monotonic() > last:
            raise race.Stopped("no scheduler begins within %d s" % WAIT)
        time.sleep(0.1)


def busy(number):
    """Processor seconds of a process, of those that it began, and of all that these have waited for."""
    of_process = os.path.join("/proc", str(number))
    with open(os.path.join(of_process, "stat")) as file:
        seconds = sum(map(int, file.read().rpartition(")")[2].split()[11:15])) / TICKS
    for task in os.listdir(os.path.join(of_process, "task")):
        with open(os.path.join(of_process, "task", task, "children")) as file:
            seconds += sum(map(busy, file.read().split()))
    return seconds


class FarmRunner(Runner):
    """A recipe, with no part of an earlier run. To its processor time comes that of a scheduler and its workers."""

    def __init__(self, folder, name, recipe, words, beside=()):
        output = os.path.join(folder, name)
        self.own, self.beside = output + ".work", beside
        quietly = ["sh", "-c", QUIETLY, "sh", output + ".log"]
        super().__init__(name, [*quietly, os.path.join(FARM, recipe), "--work", self.own, *words], output)

    def run(self):
        shutil.rmtree(self.own, ignore_errors=True)
        best, before = self.seconds, sum(map(busy, self.beside))
        super().run()
        if self.seconds != best:
            self.busy += sum(map(busy, self.beside)) - before
        return self


def farm_runners(folder, tables, stack):
    """The recipes whose engines are there: Dask's with schedulers that run before, and each as a user calls it."""
    there, alone = [], []
    all_steps = str(WORKERS[-1])
    python = python_with_dask()
    if python is None:
        print("left out: there is no Dask (Debian package python3-distributed)")
    else:
        for workers in WORKERS:
            address, numbers = stack.enter_context(scheduler(python, folder, workers))
            there.append(FarmRunner(folder, "Dask, %d workers" % workers, "dask_chain.py",
                                    ["--quiet", "--scheduler", address, SCRIPT, *tables], numbers))
        alone.append(FarmRunner(folder, "Dask by itself, %s workers" % all_steps, "dask_chain.py",
                                ["--quiet", "--workers", all_steps, SCRIPT, *tables]))
    for name, engine in ("GNU parallel", "parallel"), ("Snakemake", "snakemake"):
        if shutil.which(engine) is None:
            print("left out: there is no %s (Debian package %s)" % (name, engine))
        else:
            alone.append(FarmRunner(folder, "%s, %s steps" % (name, all_steps), engine + ".sh",
                                    ["--jobs", all_steps, SCRIPT, *tables]))
    return there, alone


# ---- all together

def work(words):
    entries = race.whole_number(words[0], race.MOST_ENTRIES) if words else race.MOST_ENTRIES
    count = race.whole_number(words[1], MOST_TABLES) if len(words) > 1 else TABLES
    chain = os.path.abspath(os.environ["RDF_CHAIN"])
    if not os.access(chain, os.X_OK):
        raise race.Stopped("no program at %s" % chain)
    os.environ["RDF_CHAIN"] = chain
    with tempfile.TemporaryDirectory() as folder, contextlib.ExitStack() as stack:
        tables = make_tables(folder, entries, count)
        print("%d tables of %d entries, together %.0f MB" % (count, entries, sum(map(os.path.getsize, tables)) / 1e6))

        def runner(name, words):
            return Runner(name, [*words, "--slots", SLOTS], os.path.join(folder, name))

        one = runner("rdf, one table", [race.rdf_program(), SCRIPT, tables[0]])
        run = ["env", "MALLOC_TRIM_THRESHOLD_=131072", chain, "run", SCRIPT]    # as ./rdf begins it
        alone = runner("run, one table", [*run, tables[0]])
        whole = runner("run, all tables", [*run, *tables])
        dask, recipes = farm_runners(folder, tables, stack)
        runners = [one, alone, whole, *dask, *recipes]
        race.race(runners, TURNS)
        race.print_times(runners, TURNS)
        wrong = [*race.unlike([one, alone]), *race.unlike([whole, *dask, *recipes])]
        for other in wrong:
            print("OTHER OUTPUT: %s" % other.name)
        if not wrong:
            print("the outputs over one table are alike, and so are those over all")
        print_ratios(one, whole, dask, recipes, count, (entries, count) == (race.MOST_ENTRIES, TABLES))
        return 1 if wrong else 0


def print_ratios(one, whole, dask, recipes, count, with_goals):
    def ratio(what, value, goal):
        print_ratio(what, value, goal if with_goals else None)

    ratio("run, seconds / %d times rdf's with one table" % count, whole.seconds / (one.seconds * count), GOAL_SECONDS)
    ratio("run, peak of memory / rdf's with one table", whole.peak / one.peak, GOAL_MEMORY)
    for each in dask + recipes:
        with_goal = GOAL_FARM if dask and each is dask[-1] else None
        ratio("%s, seconds / run's" % each.name, each.seconds / whole.seconds, with_goal)


if __name__ == "__main__":
    race.main(work)
