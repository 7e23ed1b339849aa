#!/usr/bin/env python3
"""jobs.py NAME FOLDER --postgres SOCKETS --since POSITION [--locked]: a worker that takes jobs of a table in PostgreSQL,
one after the other, does them, and records itself in FOLDER/NAME.stream. It says when it is ready, and waits for a line
on its standard input.

It selects a job that nobody has taken, and then updates its row. With --locked it does both in one transaction, and
selects FOR UPDATE SKIP LOCKED."""
import argparse
import os
import sys
import time

from postgres import POSITION, Postgres, marked, quoted

HERE = os.path.dirname(os.path.abspath(__file__))
sys.path.insert(0, os.path.join(HERE, "..", "..", "recorders", "python"))
from monitor_recorder import Recorder  # noqa: E402
from monitor_stores import StoreClient  # noqa: E402

FREE = "SELECT id FROM jobs WHERE worker IS NULL ORDER BY id LIMIT 1"
PAUSE_SECONDS = 0.05
WORK_SECONDS = {"one": 0.1, "two": 0.17}


class Worker:
    def __init__(self, postgres, recorder, since, is_locked):
        self.postgres = postgres
        self.name = recorder.process
        self.client = StoreClient(recorder, "postgres", since)
        self.is_locked = is_locked
        self.done = 0

    def find(self):
        """The number of a job that nobody has taken, or None. It is a read, so it sends nothing."""
        query = ["BEGIN", f"{FREE} FOR UPDATE SKIP LOCKED"] if self.is_locked else [FREE]
        *found, [position] = self.postgres.ask(*query, POSITION)
        self.client.learned(int(position))
        return int(found[0][0]) if found else None

    def commit(self, statements, then, **before):
        """Commits these statements, and records what is so before they leave, and once the answer has come."""
        mark = self.client.write(**before)
        *_, [position] = self.postgres.ask(*statements, marked(mark), "COMMIT", POSITION)
        self.client.learned(int(position), **then)

    def work(self):
        while (job := self.find()) is not None:
            time.sleep(PAUSE_SECONDS)  # it looks whether it can do this job
            taking = f"UPDATE jobs SET worker = {quoted(self.name)} WHERE id = {job}"
            self.commit([taking] if self.is_locked else ["BEGIN", taking], {"job": job})
            print(f"{self.name}: does job {job}", flush=True)
            time.sleep(WORK_SECONDS[self.name])
            self.done += 1
            self.commit(["BEGIN", f"UPDATE jobs SET done = true WHERE id = {job}"], {"done": self.done}, job=0)


def main():
    parser = argparse.ArgumentParser(description=__doc__, formatter_class=argparse.RawDescriptionHelpFormatter)
    parser.add_argument("name", choices=WORK_SECONDS)
    parser.add_argument("folder")
    parser.add_argument("--postgres", required=True)
    parser.add_argument("--since", type=int, required=True)
    parser.add_argument("--locked", action="store_true")
    given = parser.parse_args()
    postgres = Postgres(given.postgres)
    with Recorder.to_file(given.name, os.path.join(given.folder, f"{given.name}.stream"), replace=True) as recorder:
        print(f"{given.name}: ready", flush=True)
        sys.stdin.readline()
        Worker(postgres, recorder, given.since, given.locked).work()


if __name__ == "__main__":
    main()
