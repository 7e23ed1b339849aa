#!/usr/bin/env python3
"""costs.py rt ci [WORD..]: runs the gate, and says what it cost.

What it prints is passed on. Then comes a table: processor minutes (user and system, all processes below `rt`) by
crate and by kind: the crate's own proof, the proof of its tests, its edits that must fail, and what is run. Below it
stand the sums, the time that passed, and the longest chain of crates, each of which waits for the proof of the one
before it. The status is the gate's.

costs.py --functions CRATE.. [--over FOLDER]: proves these crates on one processor, over libraries that are built (`rt
ci` leaves them in out/, here or in another clone, FOLDER), says what was spent on the borrow checker's
part, on goals that are searched, on answers, lemmas and statements, and names the ten functions that took longest, each
with what took most of it. So it is seen whether a proof is slow, which an answer mends, or the code, whose paths the
borrow checker goes through: fewer values that are owned while calls may fail, and smaller functions. The seconds are
those that pass, on a machine with little else at work, and the start of the check isn't among them.

Each process is looked at four times a second, so the last quarter of a second of each is not seen: the line `not seen`
says how much that is.
"""
import argparse
import collections
import os
import re
import resource
import subprocess
import sys
import tempfile
import threading
import time

sys.dont_write_bytecode = True
from layout import libraries, rattle_words  # noqa: E402

ROOT = os.path.dirname(os.path.dirname(os.path.abspath(__file__)))
TICK = os.sysconf("SC_CLK_TCK")
PAUSE = 0.25
KEPT = ".oantt"
# What a module does that the kit makes of a function, by its name.
PARTS = {"Lts": "borrow checker", "Tie": "borrow checker", "Reads": "borrow checker", "Kinds": "borrow checker",
         "Layout": "borrow checker", "Proof": "goals", "Goals": "goals", "Answers": "answers", "Invariants": "answers",
         "Code": "code", "Mir": "code", "Statement": "statements", "Named": "statements", "Met": "statements"}
KINDS = ("proof", "tests", "edits", "runs", "rt")
HEADS = ("proof", "tests", "edits", "runs", "rt itself")


class Process:
    """A process as /proc shows it."""

    def __init__(self, pid):
        with open(f"/proc/{pid}/stat", encoding="utf-8", errors="replace") as file:
            fields = file.read().rpartition(")")[2].split()
        self.pid, self.parent, self.began = pid, int(fields[1]), fields[19]
        self.own = (int(fields[11]) + int(fields[12])) / TICK
        self.ended = (int(fields[13]) + int(fields[14])) / TICK  # of its children that have ended

    def kind(self):
        """The crate that the process works for, and what it does for it."""
        try:
            with open(f"/proc/{self.pid}/cmdline", "rb") as file:
                words = file.read().decode(errors="replace").split("\0")
            folder = os.readlink(f"/proc/{self.pid}/cwd")
        except OSError:
            return None
        named = words[words.index("--crate-name") + 1] if "--crate-name" in words[:-1] else None
        if named:
            if "/rt-edit-" in folder:
                return named, "edits"
            return named, "tests" if "--test" in words else "proof"
        run = next((found for word in words if (found := re.search(r"/rt-run-\d+-[^/]*/bin/(\w+)", word))), None)
        if run:
            return re.sub(r"_tests$", "", run[1]), "runs"
        linked = next((found for word in words if (found := re.search(r"/crates/(\w+)/out/", word))), None)
        return (linked[1], "proof") if linked else None


def processes():
    found = {}
    for name in os.listdir("/proc"):
        if name.isdigit():
            try:
                found[int(name)] = Process(int(name))
            except (OSError, IndexError, ValueError):
                pass
    return found


class Watch:
    """What the processes below one process have used so far, by crate and kind."""

    def __init__(self, top):
        self.top, self.used, self.kinds, self.seen = top, {}, {}, {}
        self.ended = threading.Event()
        self.thread = threading.Thread(target=self.run, daemon=True)
        self.thread.start()

    def run(self):
        while not self.ended.wait(PAUSE):
            self.look()

    def look(self):
        now, found = time.time(), processes()
        below = collections.defaultdict(list)
        for process in found.values():
            below[process.parent].append(process)

        def whole(process):
            return process.own + process.ended + sum(whole(it) for it in below[process.pid])

        if self.top in found:
            self.note((self.top, "rt"), ("", "rt"), found[self.top].own, now)
        for process in below[self.top]:
            key = process.pid, process.began
            kind = self.kinds.get(key) or process.kind()
            if kind:
                self.kinds[key] = kind
                self.note(key, kind, whole(process), now)

    def note(self, key, kind, seconds, now):
        self.used[key] = kind, max(seconds, self.used.get(key, (kind, 0))[1])
        first, _ = self.seen.get(kind, (now, now))
        self.seen[kind] = first, now

    def sums(self):
        sums = collections.defaultdict(float)
        for kind, seconds in self.used.values():
            sums[kind] += seconds
        return sums


def longest_chain(direct, seconds):
    """The crates of the chain that takes longest if each waits for the one before it, and its seconds."""
    made = {}

    def chain(name):
        if name not in made:
            below = max((chain(it) for it in direct[name] if it in direct), key=lambda it: it[1], default=([], 0))
            made[name] = below[0] + [name], below[1] + seconds.get(name, 0)
        return made[name]

    return max((chain(name) for name in direct), key=lambda it: it[1], default=([], 0))


def table(watch, passed, total):
    direct, sums = libraries(), watch.sums()
    names = [*direct, *sorted({name for name, _ in sums if name not in direct})]
    rows = [f"{'processor minutes':<20}" + "".join(f"{head:>10}" for head in HEADS) + f"{'together':>10}"]
    for name in names:
        row = [sums.get((name, kind), 0) / 60 for kind in KINDS]
        if sum(row) >= 0.05:
            rows.append(f"{name or 'rt':<20}" + "".join(f"{it:>10.1f}" for it in [*row, sum(row)]))
    whole = [sum(seconds for (_, kind), seconds in sums.items() if kind == it) / 60 for it in KINDS]
    rows.append(f"{'together':<20}" + "".join(f"{it:>10.1f}" for it in [*whole, sum(whole)]))
    rows.append(f"{'not seen':<20}" + " " * 10 * len(KINDS) + f"{total / 60 - sum(whole):>10.1f}")
    walls = {name: last - first for (name, kind), (first, last) in watch.seen.items() if kind == "proof"}
    chain, most = longest_chain(direct, walls)
    alone, used = longest_chain(direct, {name: sums.get((name, "proof"), 0) for name in direct})
    rows.append(f"{passed / 60:.1f} minutes passed, {total / 60:.1f} processor minutes, {os.cpu_count()} processors")
    rows.append(f"longest chain as it ran: {most / 60:.1f} minutes: {' '.join(chain)}")
    rows.append(f"longest chain in processor minutes: {used / 60:.1f}: {' '.join(alone)}")
    return "\n".join(rows)


def measure(command):
    began = time.time()
    gate = subprocess.Popen(command, cwd=ROOT, env={**os.environ, "PYTHONUNBUFFERED": "1"})
    watch = Watch(gate.pid)
    status = gate.wait()
    watch.ended.set()
    watch.thread.join()
    usage = resource.getrusage(resource.RUSAGE_CHILDREN)
    try:
        print(table(watch, time.time() - began, usage.ru_utime + usage.ru_stime), flush=True)
    except Exception as error:  # the gate decides, whatever becomes of its measure
        print(f"costs: no table: {error!r}", flush=True)
    return status


def part_of(module):
    """The function, or the file of lemmas or definitions, that a module is a part of, and what that part does."""
    words = module.split(".")
    at = next((at for at in range(len(words) - 1, 0, -1) if words[at].split("-")[0] in PARTS), None)
    return (".".join(words[1:at]), PARTS[words[at].split("-")[0]]) if at else (".".join(words[1:]), "statements")


def times_of(kept):
    """The seconds that each module took, by when each was kept: one job checks one after another."""
    files = sorted((os.stat(os.path.join(at, name)).st_mtime_ns, name[:-len(KEPT)]) for at, _, names in os.walk(kept)
                   for name in names if name.endswith(KEPT) and not name.endswith(f".decls{KEPT}"))
    return [((then - before) / 1e9, name) for (before, _), (then, name) in zip(files, files[1:])]


def slowest(name, over):
    """Prints what the proofs of a crate cost by kind, and its ten slowest functions, each with the part that takes most
    of it, over the libraries that stand in a clone."""
    folder = os.path.join(ROOT, "crates", name)
    words = rattle_words("check", name, lambda it: os.path.join(over, "crates", it, "out", "rlib", f"{it}.rlib"))
    is_tests = not re.search(r"^\s*pub fn ", source_of(folder), re.M)
    with tempfile.TemporaryDirectory(prefix="monitor-costs-") as kept:
        words += ["--jobs", "1", "--incremental", kept, *["--test"] * is_tests]
        ran = subprocess.run(words, cwd=folder, text=True, stdout=subprocess.PIPE, stderr=subprocess.STDOUT, check=False)
        times = times_of(kept)
    if ran.returncode:
        print("".join(ran.stdout.splitlines(True)[-20:]), end="")
    kinds, functions = collections.Counter(), collections.defaultdict(collections.Counter)
    for seconds, module in times:
        function, kind = part_of(module)
        kinds[kind] += seconds
        functions[function][kind] += seconds
    parts = ", ".join(f"{seconds:.0f} s {kind}" for kind, seconds in kinds.most_common())
    print(f"{name}: {sum(kinds.values()):.0f} s: {parts}")
    for function in sorted(functions, key=lambda it: -functions[it].total())[:10]:
        kind, most = functions[function].most_common(1)[0]
        print(f"{functions[function].total():8.1f} s  {function}: {most:.1f} s {kind}")
    return ran.returncode


def source_of(folder):
    texts = []
    for at, _, names in os.walk(os.path.join(folder, "src")):
        for name in names:
            with open(os.path.join(at, name), encoding="utf-8") as file:
                texts.append(file.read())
    return "\n".join(texts)


def main():
    parser = argparse.ArgumentParser(description=__doc__, formatter_class=argparse.RawDescriptionHelpFormatter)
    parser.add_argument("--functions", nargs="+", metavar="CRATE")
    parser.add_argument("--over", metavar="FOLDER", default=ROOT)
    parser.add_argument("command", nargs=argparse.REMAINDER)
    given = parser.parse_args()
    if given.functions:
        sys.exit(max(slowest(name, os.path.abspath(given.over)) for name in given.functions))
    if given.command[:2] != ["rt", "ci"]:
        parser.error("the gate is `rt ci`")
    sys.exit(measure(given.command))


if __name__ == "__main__":
    main()
