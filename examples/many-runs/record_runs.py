#!/usr/bin/env python3
"""record_runs.py FOLDER [--runs N] [--seed S] [--mended]: records N runs (1000, if it isn't given) of three workers
that share a lock, each in a new folder FOLDER/run-0001 and so on, as `monitor test` reads it. FOLDER must not be there.

A run is simulated by a clock of its own, so the same seed (1, if it isn't given) records the same bytes, and a run's
bytes don't depend on how many there are. With --mended the server asks whose release it is. The last line says how many
runs were recorded, in how many the clock sees two workers inside, and in how many a worker was killed."""
import argparse
import heapq
import json
import os
import random
import sys

sys.path.insert(0, os.path.join(os.path.dirname(os.path.abspath(__file__)), "..", "..", "recorders", "python"))
from monitor_recorder import Recorder  # noqa: E402

WORKERS = ("east", "west", "north")
SUM = " + ".join(f"{name}.inside" for name in WORKERS)
DOCUMENT = {"processes": [*({"name": name, "vars": {"inside": 0}} for name in WORKERS), {"name": "lock", "vars": {}}],
            "predicates": [{"name": "two_inside", "text": f"{SUM} > 1"}]}
TURNS = 2
# Milliseconds: a message takes so long, and a late one, of which there is one in so many; a worker waits so long for
# the answer to its release before it sends it again. One worker in so many is killed.
QUICK, LATE, ONE_IN = (1, 4), (15, 60), 100
PATIENCE = 12
KILLED_ONE_IN = 750


class Run:
    """The simulated clock, the messages on their way, and whether two workers were inside at one time."""

    def __init__(self, folder, seed, mended):
        self.random, self.now, self.due, self.count = random.Random(seed), 0.0, [], 0
        self.inside, self.seen, self.killed = set(), False, False
        self.lock = Lock(self, folder, mended)
        self.workers = {name: Worker(self, name, folder) for name in WORKERS}

    def after(self, milliseconds, act, *words):
        self.count += 1
        heapq.heappush(self.due, (self.now + milliseconds, self.count, act, words))

    def send(self, act, *words):
        """Has a message come after a while, seldom a long one."""
        is_late = self.random.randrange(ONE_IN) == 0
        self.after(self.random.uniform(*(LATE if is_late else QUICK)), act, *words)

    def go(self):
        for worker in self.workers.values():
            self.after(self.random.uniform(0, 5), worker.ask)
        while self.due:
            self.now, _, act, words = heapq.heappop(self.due)
            act(*words)
        self.lock.recorder.close()
        for worker in self.workers.values():
            worker.end()


class Lock:
    """The server, which gives the lock to one worker after the other."""

    def __init__(self, run, folder, mended):
        self.run, self.mended = run, mended
        self.recorder = recorder_of("lock", folder)
        self.free, self.waiting, self.turn, self.released = True, [], 0, set()

    def asked(self, name, message):
        self.recorder.receive(message)
        self.waiting.append(name)
        self.give()

    def give(self):
        if self.free and self.waiting:
            worker = self.run.workers[self.waiting.pop(0)]
            self.free, self.turn = False, self.turn + 1
            self.run.send(worker.granted, self.recorder.send(), self.turn)

    def given_back(self, name, message, turn):
        """A release has come, perhaps for the second time."""
        if message in self.released:
            self.recorder.event()              # the second copy of a message that was received
        else:
            self.released.add(message)
            self.recorder.receive(message)
        self.run.send(self.run.workers[name].answered, self.recorder.send(), turn)
        if turn == self.turn or not self.mended:
            self.free = True                   # the bug: it may be another worker's by now
        self.give()


class Worker:
    """It asks for the lock, is inside for a while, and gives it back until it is told that this has come."""

    def __init__(self, run, name, folder):
        self.run, self.name = run, name
        self.recorder = recorder_of(name, folder)
        self.turns, self.open, self.is_killed = 0, None, False
        self.dies = run.random.randrange(KILLED_ONE_IN) == 0

    def ask(self):
        self.turns += 1
        self.run.send(self.run.lock.asked, self.name, self.recorder.send())

    def granted(self, message, turn):
        self.recorder.receive(message, inside=1)
        self.run.inside.add(self.name)
        self.run.seen |= len(self.run.inside) > 1
        self.run.after(self.run.random.uniform(0.5, 2), self.give_back, turn)

    def give_back(self, turn):
        if self.dies and self.turns == TURNS:
            self.is_killed = self.run.killed = True
            return
        self.run.inside.discard(self.name)
        self.open = turn
        self.tell(self.recorder.send(inside=0), turn)

    def tell(self, message, turn):
        """Sends the release, and again as long as there is no answer. It stays the same message."""
        if self.open == turn:
            self.run.send(self.run.lock.given_back, self.name, message, turn)
            self.run.after(PATIENCE, self.tell, message, turn)

    def answered(self, message, turn):
        self.recorder.receive(message)
        if self.open == turn:
            self.open = None
            if self.turns < TURNS:
                self.run.after(self.run.random.uniform(0, 5), self.ask)

    def end(self):
        if self.is_killed:
            self.recorder.abandon()            # what a process that was killed leaves: a stream without its end
        else:
            self.recorder.close()


def recorder_of(name, folder):
    return Recorder.to_file(name, os.path.join(folder, f"{name}.stream"))


def record(folder, seed, mended):
    """Records a run in the folder, which gets its name once it is whole."""
    part = folder + ".part"
    os.mkdir(part)
    with open(os.path.join(part, "session.json"), "w", encoding="utf-8") as file:
        json.dump(DOCUMENT, file, separators=(",", ":"))
        file.write("\n")
    run = Run(part, seed, mended)
    run.go()
    os.rename(part, folder)
    return run


def main():
    parser = argparse.ArgumentParser(description=__doc__, formatter_class=argparse.RawDescriptionHelpFormatter)
    parser.add_argument("folder")
    parser.add_argument("--runs", type=int, default=1000)
    parser.add_argument("--seed", type=int, default=1)
    parser.add_argument("--mended", action="store_true")
    given = parser.parse_args()
    try:
        os.mkdir(given.folder)
    except OSError as error:
        parser.error(f"{given.folder} is to be a new folder: {error.strerror}")
    seen = killed = 0
    for number in range(1, given.runs + 1):
        run = record(os.path.join(given.folder, f"run-{number:04}"), f"{given.seed} {number}", given.mended)
        seen, killed = seen + run.seen, killed + run.killed
    print(f"{given.runs} runs, two inside by the clock in {seen}, a worker killed in {killed}")


if __name__ == "__main__":
    main()
