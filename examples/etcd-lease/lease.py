#!/usr/bin/env python3
"""lease.py NAME FOLDER --etcd PORT --since REVISION [--fenced] [--stop]: a worker that takes a lock in etcd by a lease
of two seconds, writes three values, gives the lock back, and records itself in FOLDER/NAME.stream.

With --stop it stops itself once it has the lock, as a process does while its machine sleeps; record.py has it go on.
With --fenced it writes under the condition that the lock is still the one that it took."""
import argparse
import os
import signal
import sys
import time

from etcd import MARK, Etcd, delete, is_revision, put

HERE = os.path.dirname(os.path.abspath(__file__))
sys.path.insert(0, os.path.join(HERE, "..", "..", "recorders", "python"))
from monitor_recorder import Recorder  # noqa: E402
from monitor_stores import StoreClient  # noqa: E402

LEASE_SECONDS = 2
WRITES = 3
PAUSE_SECONDS = 0.15


class Worker:
    def __init__(self, etcd, recorder, since):
        self.etcd = etcd
        self.name = recorder.process
        self.client = StoreClient(recorder, "etcd", since)
        self.fence = []

    def transaction(self, conditions, write, then, **before):
        """Writes, and records what it learns by the answer; `then` is set if it has written."""
        mark = self.client.write(**before)
        done, revision = self.etcd.transaction(conditions, write, put(MARK, mark))
        self.client.learned(revision, **(then if done else {}))
        return done, revision

    def take_lock(self):
        """Waits for the lock. From then on `fence` is the condition that it is still held."""
        taken = False
        while not taken:
            lease = self.etcd.lease(LEASE_SECONDS)
            taken, revision = self.transaction([is_revision("lock", 0)], put("lock", self.name, lease), {"holds": 1})
            if not taken:
                time.sleep(0.25)
        self.fence = [is_revision("lock", revision)]

    def write(self, is_fenced):
        for count in range(1, WRITES + 1):
            conditions = self.fence if is_fenced else []
            done, _ = self.transaction(conditions, put("value", self.name), {"written": count})
            print(f"{self.name}: {'writes' if done else 'is refused'}", flush=True)
            time.sleep(PAUSE_SECONDS)

    def give_back(self):
        self.transaction(self.fence, delete("lock"), {}, holds=0)


def main():
    parser = argparse.ArgumentParser(description=__doc__, formatter_class=argparse.RawDescriptionHelpFormatter)
    parser.add_argument("name")
    parser.add_argument("folder")
    parser.add_argument("--etcd", type=int, required=True)
    parser.add_argument("--since", type=int, required=True)
    parser.add_argument("--fenced", action="store_true")
    parser.add_argument("--stop", action="store_true")
    given = parser.parse_args()
    etcd = Etcd(given.etcd)
    with Recorder.to_file(given.name, os.path.join(given.folder, f"{given.name}.stream"), replace=True) as recorder:
        worker = Worker(etcd, recorder, given.since)
        worker.take_lock()
        if given.stop:
            os.kill(os.getpid(), signal.SIGSTOP)
        worker.write(given.fenced)
        worker.give_back()


if __name__ == "__main__":
    main()
