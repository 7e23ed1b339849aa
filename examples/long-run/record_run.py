#!/usr/bin/env python3
"""record_run.py FOLDER [--phases N] [--seed S] [--mended]: records a long run of 64 ranks into a new folder: FOLDER
must not be there. It has N phases (450, if it isn't given, which are over a million events).

In each phase every rank works step by step, and hands its edge to the next rank after each. One of four ranks writes
what the phase computed, in turn: it leads while it does. At the end of a phase all ranks wait for all, up and down a
tree. Who leads has to have written before it says that it is at the end. In one phase, which the seed chooses (1, if it
isn't given), writing is slow, and the rank goes on to the barrier meanwhile; with --mended it waits. The ranks are
simulated one after the other, so the same seed records the same bytes. The last line says how many events there are."""
import argparse
import json
import os
import random

RANKS, STEPS = 64, 10
LEADERS = (0, 16, 32, 48)
NAMES = [f"rank{number:02}" for number in range(RANKS)]


def document():
    leads, phases = ([f"{NAMES[rank]}.{name}" for rank in LEADERS] for name in ("leads", "phase"))
    apart = " or ".join(f"{phases[0]} - {phase} > 1 or {phase} - {phases[0]} > 1" for phase in phases[1:])
    return {"processes": [{"name": name, "vars": {"work": 0, "phase": 0, **({"leads": 0} if rank in LEADERS else {})}}
                          for rank, name in enumerate(NAMES)],
            "predicates": [{"name": "two_lead", "text": f"{' + '.join(leads)} > 1"}, {"name": "apart", "text": apart}]}


class Ranks:
    """The streams of the ranks, which are written side by side, a step after the other."""

    def __init__(self, folder, seed):
        self.random, self.messages, self.events = random.Random(seed), [0] * RANKS, 0
        self.files = [open(os.path.join(folder, f"{name}.stream"), "x", encoding="utf-8") for name in NAMES]
        for name, file in zip(NAMES, self.files):
            file.write(f'{{"process":"{name}"}}\n')

    def set(self, rank, name, value):
        self.files[rank].write(f'{{"set":{{"{name}":{value}}}}}\n')
        self.events += 1

    def send(self, rank):
        self.messages[rank] += 1
        self.events += 1
        message = f"{NAMES[rank]}-{self.messages[rank]}"
        self.files[rank].write(f'{{"send":"{message}"}}\n')
        return message

    def receive(self, rank, message):
        self.files[rank].write(f'{{"recv":"{message}"}}\n')
        self.events += 1

    def close(self):
        for file in self.files:
            file.write('{"end":true}\n')
            file.close()

    def work(self):
        """Each rank works, and then has the edge of the one before it."""
        for _ in range(STEPS):
            edges = []
            for rank in range(RANKS):
                self.set(rank, "work", self.random.randrange(1_000))
                edges.append(self.send(rank))
            for rank in range(RANKS):
                self.receive(rank, edges[rank - 1])

    def meet(self, late=None):
        """All wait for all: each rank waits for the two below it, says so to the one above it, and waits for its word.
        One that is late is done with writing only when it has gone on."""
        said, told = {}, {}
        for rank in reversed(range(RANKS)):
            for below in (2 * rank + 1, 2 * rank + 2):
                if below < RANKS:
                    self.receive(rank, said[below])
            if rank:
                said[rank] = self.send(rank)
        for rank in range(RANKS):
            if rank:
                self.receive(rank, told[rank])
            for below in (2 * rank + 1, 2 * rank + 2):
                if below < RANKS:
                    told[below] = self.send(rank)
            if rank == late:
                self.set(rank, "leads", 0)

    def phase(self, number, is_slow):
        leader = LEADERS[number % len(LEADERS)]
        for rank in range(RANKS):
            self.set(rank, "phase", number)
        self.set(leader, "leads", 1)
        self.work()
        if not is_slow:
            self.set(leader, "leads", 0)
        self.meet(leader if is_slow else None)


def main():
    parser = argparse.ArgumentParser(description=__doc__, formatter_class=argparse.RawDescriptionHelpFormatter)
    parser.add_argument("folder", metavar="FOLDER")
    parser.add_argument("--phases", type=int, default=450)
    parser.add_argument("--seed", type=int, default=1)
    parser.add_argument("--mended", action="store_true")
    given = parser.parse_args()
    os.makedirs(given.folder)
    with open(os.path.join(given.folder, "session.json"), "x", encoding="utf-8") as file:
        file.write(json.dumps(document()) + "\n")
    slow = random.Random(given.seed).randrange(given.phases // 2, given.phases)
    ranks = Ranks(given.folder, given.seed)
    for number in range(1, given.phases + 1):
        ranks.phase(number, number == slow and not given.mended)
    ranks.close()
    print(f"{RANKS} ranks, {ranks.events} events")


if __name__ == "__main__":
    main()
