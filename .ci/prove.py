#!/usr/bin/env python3
"""prove.py [-j N] [CRATE..]: proves crates side by side, N at once and one more (N is how many processors there are),
each with one job: each job reads all of a crate's libraries, and two took longer than one.

All crates are proved if none is named. A line comes for each crate that is proved, with its seconds and how many are
left. Runs of `rt` in one folder wait for each other, so each works in a copy of the repository, over the libraries that
are built here; what it builds, and what it keeps for the next time, comes back into the crate's folder `out`. So a
second call proves only what has changed. It decides nothing: the gate is `rt ci`.
"""
import argparse
import contextlib
import os
import shutil
import subprocess
import sys
import tempfile
import threading
import time

sys.dont_write_bytecode = True
import layout  # noqa: E402

ROOT = os.path.dirname(os.path.dirname(os.path.abspath(__file__)))


def lines_of(name):
    """How many lines of code a crate has: its proof takes about as long as that says."""
    count = 0
    for at, _, names in os.walk(os.path.join(ROOT, "crates", name, "src")):
        for file in names:
            with open(os.path.join(at, file), "rb") as lines:
                count += lines.read().count(b"\n")
    return count


def copy_files(to):
    files = subprocess.run(["git", "ls-files", "-co", "--exclude-standard", "crates", "crates.txt", "HANDLES"],
                           cwd=ROOT, check=True, capture_output=True, text=True).stdout.splitlines()
    for file in files:
        if os.path.isfile(os.path.join(ROOT, file)):
            os.makedirs(os.path.dirname(os.path.join(to, file)), exist_ok=True)
            shutil.copy2(os.path.join(ROOT, file), os.path.join(to, file))


def link_or_copy(source, to):
    try:
        os.link(source, to)
    except OSError:
        shutil.copy2(source, to)


def bring(name, part, source, to):
    """Gives a crate in one copy of the repository what stands in its folder `out` in another."""
    source, to = (os.path.join(folder, "crates", name, "out", part) for folder in (source, to))
    if os.path.isdir(source):
        shutil.rmtree(to, ignore_errors=True)
        os.makedirs(os.path.dirname(to), exist_ok=True)
        shutil.copytree(source, to, symlinks=True, copy_function=link_or_copy)


class Run:
    """Which crates are proved, which are at work, and the copies that are free."""

    def __init__(self, folder, names, below, jobs):
        self.below = below
        self.waiting, self.proved, self.failed, self.working = set(names), set(below) - set(names), {}, set()
        self.free = [os.path.join(folder, f"copy{i}") for i in range(jobs + 1)]
        self.changed = threading.Condition()
        weights = {name: lines_of(name) for name in below}
        above = {name: [other for other in names if name in below[other]] for name in below}
        ranks = {}
        for name in sorted(below, key=lambda it: -len(below[it])):
            ranks[name] = weights[name] + max((ranks[other] for other in above[name] if other in ranks), default=0)
        self.ranks = ranks

    def prove(self, name, copy):
        start = time.time()
        try:
            fault = self.prove_in(name, copy)
        except OSError as error:
            fault = str(error)
        with self.changed:
            self.working.remove(name)
            if fault is None:
                self.proved.add(name)
            else:
                self.failed[name] = fault
            left = len(self.waiting) + len(self.working)
            said = "proved" if fault is None else "NOT PROVED"
            print(f"{name}: {said} in {time.time() - start:.0f} s, {left} left", flush=True)
            self.free.append(copy)
            self.changed.notify_all()

    def prove_in(self, name, copy):
        """What `rt` says of a crate that isn't proved, or nothing."""
        for other in self.below[name]:
            if not os.path.isdir(os.path.join(copy, "crates", other, "out", "rlib")):
                bring(other, "rlib", ROOT, copy)
        bring(name, "incremental", ROOT, copy)
        is_program = os.path.isfile(os.path.join(ROOT, "crates", name, "src", "main.rt"))
        ran = subprocess.run(["rt", "check" if is_program else "lib", "--jobs", "1"],
                             cwd=os.path.join(copy, "crates", name), stdout=subprocess.PIPE, stderr=subprocess.STDOUT,
                             text=True, errors="replace", check=False)
        if ran.returncode:
            return ran.stdout
        for part in ("rlib", "incremental"):
            bring(name, part, copy, ROOT)
        shutil.rmtree(os.path.join(copy, "crates", name, "out", "incremental"), ignore_errors=True)
        return None

    def start_next(self):
        """Starts what can be proved. What has the longest chain above it comes first, since what is above it waits for
        it. One crate more than there are processors keeps them busy while a check begins and ends."""
        ready = [name for name in self.waiting if self.below[name] <= self.proved]
        for name in sorted(ready, key=lambda it: -self.ranks[it])[:len(self.free)]:
            self.waiting.remove(name)
            self.working.add(name)
            threading.Thread(target=self.prove, args=(name, self.free.pop())).start()

    def all(self):
        with self.changed:
            self.start_next()
            while self.working:
                self.changed.wait()
                self.start_next()
        return not self.failed and not self.waiting


def main():
    parser = argparse.ArgumentParser(description=__doc__, formatter_class=argparse.RawDescriptionHelpFormatter)
    parser.add_argument("-j", type=int, default=len(os.sched_getaffinity(0)), metavar="N")
    parser.add_argument("crates", nargs="*")
    given = parser.parse_args()
    direct = layout.libraries()
    below = {name: set(layout.below(name, direct)) for name in direct}
    unknown = [name for name in given.crates if name not in below]
    if unknown:
        sys.exit(f"prove: crates.txt has no crate {' '.join(unknown)}")
    names = given.crates or list(below)
    with tempfile.TemporaryDirectory(prefix="monitor-prove-") as folder, contextlib.suppress(KeyboardInterrupt):
        run = Run(folder, names, below, max(1, given.j))
        for copy in run.free:
            copy_files(copy)
        is_good = run.all()
        for name, log in sorted(run.failed.items()):
            print(f"== {name}\n{log}")
        for name in sorted(run.waiting):
            print(f"{name}: not tried")
        sys.exit(0 if is_good else 1)
    sys.exit(130)


if __name__ == "__main__":
    main()
