#!/usr/bin/env python3
"""gossip.py FOLDER: six replicas at two sites gossip who leads them, in six processes that talk by datagrams; each
records itself in FOLDER, and writes a log there.

All of them answer readers, and the leader of epoch N sells the seats of row N. `north1` leads in epoch 1, and stands
still for a while. `north2` and `south1` stand by: whichever has heard nothing new of the leader leads in the next
epoch. Row 1 is sold out before it begins."""
import contextlib
import json
import os
import random
import socket
import subprocess
import sys
import time

HERE = os.path.dirname(os.path.abspath(__file__))
sys.path.insert(0, os.path.join(HERE, "..", "..", "recorders", "python"))
from monitor_recorder import Recorder  # noqa: E402

NORTH, SOUTH = ["north1", "north2", "north3"], ["south1", "south2", "south3"]
REPLICAS = NORTH + SOUTH
STANDBYS = ("north2", "south1")
VARIABLES = ["leads", "follows", "epoch", "sold", "reads"]
ROW = 8
# Seconds between two rounds of gossip, between two readers, and between two customers; when the standbys look, and how
# long they must have heard nothing new then; when `north1` stands still; the end of sending, and of receiving.
ROUND, READER, CUSTOMER = 0.15, 0.04, 0.04
LOOK, SILENCE, STILL = 0.9, 0.3, (0.25, 1.2)
LAST_SENT, LAST_RECEIVED = 1.55, 1.7


class Replica:
    """What it knows: who leads in which epoch, in which of its rounds the leader said so, and when that was heard."""

    def __init__(self, name, folder, mailbox, start, ports):
        self.name, self.mailbox, self.start, self.ports = name, mailbox, start, ports
        self.recorder = Recorder.to_file(name, os.path.join(folder, f"{name}.stream"), VARIABLES, replace=True)
        self.log = open(os.path.join(folder, f"{name}.log"), "w", encoding="utf-8")
        self.random = random.Random(name)
        self.epoch, self.leader, self.beat, self.heard = 1, "north1", 0, 0
        self.sold = self.reads = self.rounds = 0

    def now(self):
        return time.time() - self.start

    def say(self, text):
        print(f"{self.now():.3f} {text}", file=self.log, flush=True)

    def lead(self):
        """Leads from now on, in the next epoch. No other replica is asked: that is the bug."""
        self.epoch, self.leader, self.beat = self.epoch + 1, self.name, 0
        self.recorder.event(leads=self.epoch, follows=number_of(self.name), epoch=self.epoch)
        self.say(f"hears nothing of the leader, and leads in epoch {self.epoch}")

    def look(self):
        if self.name in STANDBYS and self.now() - self.heard > SILENCE:
            self.lead()

    def gossip(self):
        """Tells another replica what it knows: one of its own site, and in every third round one of the other."""
        self.rounds += 1
        if self.leader == self.name:
            self.beat += 1
        is_far = self.rounds % 3 == number_of(self.name) % 3
        site = NORTH if self.name in NORTH else SOUTH
        other = self.random.choice([name for name in REPLICAS if (name in site) != is_far and name != self.name])
        message = self.recorder.send()                     # before it leaves
        text = json.dumps({"id": message, "epoch": self.epoch, "leader": self.leader, "beat": self.beat})
        self.mailbox.sendto(text.encode(), ("127.0.0.1", self.ports[other]))

    def hear(self, message):
        """Follows the leader of the highest epoch, and of two leaders in one epoch the one whose name comes first."""
        known, told = (self.epoch, self.leader), (message["epoch"], message["leader"])
        changes = {}
        if known == told:
            self.hear_beat(message["beat"])
        elif told[0] > known[0] or told[0] == known[0] and told[1] < known[1]:
            changes = {"epoch": told[0], "follows": number_of(told[1])}
            if self.leader == self.name:
                changes["leads"] = 0
            (self.epoch, self.leader), self.beat, self.heard = told, message["beat"], self.now()
            self.say(f"follows {self.leader} in epoch {self.epoch}")
        self.recorder.receive(message["id"], **changes)    # after it has come

    def hear_beat(self, beat):
        if beat > self.beat:
            self.beat, self.heard = beat, self.now()

    def serve_reader(self):
        self.reads += 1
        self.recorder.event(reads=self.reads)

    def serve_customer(self):
        if self.leader == self.name and self.epoch == 2 and self.sold < ROW:
            self.sold += 1
            self.recorder.event(sold=self.sold)
            self.say(f"sells seat {self.sold} of row {self.epoch}")

    def stand_still(self):
        if self.name == "north1":
            time.sleep(max(0, STILL[1] - self.now()))

    def run(self):
        """Does what is due, each thing at its times, and hears what comes meanwhile."""
        shift = 0.01 * number_of(self.name)
        due = [(shift + ROUND * n, self.gossip) for n in range(100) if shift + ROUND * n < LAST_SENT]
        due += [(shift / 2 + READER * n, self.serve_reader) for n in range(100) if READER * n < LAST_SENT]
        due += [(LOOK + CUSTOMER * n, self.serve_customer) for n in range(1, ROW + 1)]
        due += [(LOOK, self.look), (STILL[0], self.stand_still), (LAST_RECEIVED, lambda: None)]
        for seconds, act in sorted(due, key=lambda pair: pair[0]):
            self.hear_until(seconds)
            act()
        self.recorder.close()

    def hear_until(self, seconds):
        while (rest := seconds - self.now()) > 0:
            self.mailbox.settimeout(rest)
            with contextlib.suppress(TimeoutError):
                self.hear(json.loads(self.mailbox.recv(1000)))


def number_of(name):
    """The replicas are numbered from 1."""
    return REPLICAS.index(name) + 1


def run_replica(name, folder):
    with socket.socket(socket.AF_INET, socket.SOCK_DGRAM) as mailbox:
        mailbox.bind(("127.0.0.1", 0))
        print(mailbox.getsockname()[1], flush=True)
        given = json.loads(sys.stdin.readline())
        Replica(name, folder, mailbox, given["start"], given["ports"]).run()


def run_all(folder):
    """Starts the replicas, and tells each of them the ports of all once they are up."""
    words = [sys.executable, os.path.abspath(__file__), folder]
    replicas = {name: subprocess.Popen([*words, name], stdin=subprocess.PIPE, stdout=subprocess.PIPE, text=True)
                for name in REPLICAS}
    ports = {name: int(replica.stdout.readline()) for name, replica in replicas.items()}
    given = json.dumps({"start": time.time() + 0.1, "ports": ports})
    for replica in replicas.values():
        print(given, file=replica.stdin, flush=True)
    return max(replica.wait() for replica in replicas.values())


def main():
    if len(sys.argv) == 3 and sys.argv[2] in REPLICAS:
        return run_replica(sys.argv[2], sys.argv[1])
    if len(sys.argv) != 2:
        sys.exit(__doc__)
    return run_all(sys.argv[1])


if __name__ == "__main__":
    sys.exit(main())
