#!/usr/bin/env python3
"""tickets.py FOLDER --redis PORT [--fenced] [--pause SECONDS]: the last ticket is sold, in three processes that record
themselves in FOLDER, each with a stream and a log.

`web` and `phone` each have a customer. Who sells a ticket has the lock in the Redis server on that port, asks `store`
how many are left, and tells it how many are left then. In between `web` stands still for longer than its lease, or as
long as is said. With --fenced each holder of the lock has a higher number than the one before, and `store` refuses the
lower ones."""
import argparse
import json
import os
import socket
import subprocess
import sys
import threading
import time

from redis_lock import Lock, Redis

HERE = os.path.dirname(os.path.abspath(__file__))
sys.path.insert(0, os.path.join(HERE, "..", "..", "recorders", "python"))
from monitor_recorder import Recorder  # noqa: E402


class Log:
    """What a process says of itself, in a file of its own."""

    def __init__(self, name, folder):
        self.file = open(os.path.join(folder, f"{name}.log"), "w", encoding="utf-8")

    def say(self, text):
        print(text, file=self.file, flush=True)


class Desk:
    """`web` or `phone`: sells tickets."""

    def __init__(self, recorder, log, redis, store, is_fenced):
        self.recorder, self.log, self.redis, self.store = recorder, log, redis, store
        self.lock = Lock(redis)
        self.is_fenced = is_fenced
        self.number = 0

    def take_lock(self):
        given_back = self.lock.take()
        if self.is_fenced:
            self.number = self.redis.ask("INCR", "number")
        if given_back is None:
            self.recorder.event(holds=1)
        else:
            self.recorder.receive(given_back, holds=1)     # a message of the last holder, through the server
        self.log.say("has the lock")

    def give_back_lock(self):
        self.log.say("gives the lock back")
        self.lock.give_back(self.recorder.send(holds=0))

    def ask(self, **request):
        """How many tickets are left, as the store answers; None, if it refuses."""
        message = self.recorder.send()                     # before the request leaves
        self.store.write(json.dumps({"id": message, "number": self.number, **request}) + "\n")
        self.store.flush()
        answer = json.loads(self.store.readline())
        self.recorder.receive(answer["id"])                # after the answer has come
        return answer["left"]

    def sell(self, pause):
        """Sells a ticket. False, if the store refuses, since another has the lock meanwhile."""
        self.take_lock()
        left = self.ask()
        time.sleep(pause)                                  # as it collects garbage, or has no processor
        if left:
            left = self.ask(left=left - 1)
            if left is not None:
                self.recorder.event(sold=1)
                self.log.say("has sold a ticket")
        elif left == 0:
            self.log.say("has no ticket left")
        if left is None:
            self.recorder.event(holds=0)
            self.log.say("has lost the lock, and begins again")
            return False
        self.give_back_lock()
        return True


class Store:
    """Knows how many tickets are left, and nothing of locks."""

    def __init__(self, recorder, log):
        self.recorder, self.log = recorder, log
        self.left = 1
        self.number = 0                                    # the highest that has come
        self.is_asked = threading.Event()

    def answer(self, request):
        with self.recorder.lock:                           # one request at a time
            if request["number"] < self.number:
                self.recorder.receive(request["id"])
                self.log.say(f"refuses number {request['number']}")
                return {"id": self.recorder.send(), "left": None}
            self.number = request["number"]
            self.left = request.get("left", self.left)
            self.recorder.receive(request["id"], left=self.left)
            self.log.say(f"{self.left} left")
            return {"id": self.recorder.send(), "left": self.left}

    def serve(self, connection):
        stream = connection.makefile("rw", encoding="utf-8")
        for line in stream:
            self.is_asked.set()
            stream.write(json.dumps(self.answer(json.loads(line))) + "\n")
            stream.flush()


def recorder_of(name, folder):
    return Recorder.to_file(name, os.path.join(folder, f"{name}.stream"), replace=True)


def run_desk(given):
    store = socket.create_connection(("127.0.0.1", given.store), timeout=60).makefile("rw", encoding="utf-8")
    with recorder_of(given.desk, given.folder) as recorder:
        desk = Desk(recorder, Log(given.desk, given.folder), Redis(given.redis), store, given.fenced)
        pause = given.pause if given.desk == "web" else 0
        while not desk.sell(pause):
            pause = 0
    return 0


def run_all(given):
    """What the store does: it starts `web`, and `phone` once `web` has the lock and asks, and answers both."""
    threads, desks = [], []
    with recorder_of("store", given.folder) as recorder, socket.create_server(("127.0.0.1", 0)) as listener:
        listener.settimeout(60)
        store = Store(recorder, Log("store", given.folder))
        words = [*sys.argv, "--store", str(listener.getsockname()[1])]
        for name in ("web", "phone"):
            desks.append(subprocess.Popen([sys.executable, *words, "--desk", name]))
            threads.append(threading.Thread(target=store.serve, args=[listener.accept()[0]]))
            threads[-1].start()
            store.is_asked.wait(60)
        for thread in threads:
            thread.join()
    return max(desk.wait() for desk in desks)


def main():
    parser = argparse.ArgumentParser(description=__doc__, formatter_class=argparse.RawDescriptionHelpFormatter)
    parser.add_argument("folder")
    parser.add_argument("--redis", type=int, required=True)
    parser.add_argument("--fenced", action="store_true")
    parser.add_argument("--pause", type=float, default=3)
    parser.add_argument("--desk", help=argparse.SUPPRESS)
    parser.add_argument("--store", type=int, help=argparse.SUPPRESS)
    given = parser.parse_args()
    return run_desk(given) if given.desk else run_all(given)


if __name__ == "__main__":
    sys.exit(main())
