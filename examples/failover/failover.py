#!/usr/bin/env python3
"""failover.py FOLDER [--wait]: the leadership of a store moves from one site to another, in three processes that talk
over TCP on 127.0.0.1; each records itself in FOLDER.

`east` leads and takes writes. `manager` orders `east` to step down and `west` to take over. With --wait it first waits
until `east` has stepped down."""
import argparse
import json
import os
import socket
import subprocess
import sys
import time

HERE = os.path.dirname(os.path.abspath(__file__))
sys.path.insert(0, os.path.join(HERE, "..", "..", "recorders", "python"))
from monitor_recorder import Recorder  # noqa: E402


class Peer:
    """Another process, at the end of a connection. Each message carries the id under which it is recorded."""

    def __init__(self, recorder, connection):
        self.recorder = recorder
        self.stream = connection.makefile("rw", encoding="utf-8")

    def tell(self, text):
        message = self.recorder.send()                # before the message leaves
        self.stream.write(json.dumps({"id": message, "text": text}) + "\n")
        self.stream.flush()

    def hear(self):
        """Waits for a message."""
        message = json.loads(self.stream.readline())
        self.recorder.receive(message["id"])          # after it has come
        return message["text"]


class Log:
    """Prints what happens and when, as each process of a real store would."""

    def __init__(self, name, start):
        self.name = name
        self.start = start

    def say(self, text):
        print(f"{time.time() - self.start:.3f} {self.name}: {text}", flush=True)


def run_manager(recorder, log, east, west, waits):
    log.say("orders east to step down")
    east.tell("step down")
    if waits:
        east.hear()
    # Without --wait this is the bug: nothing keeps west from leading while east still leads.
    log.say("orders west to take over")
    west.tell("take over")
    if not waits:
        east.hear()
    west.hear()
    log.say("east has stepped down, and west has taken over")


def run_east(recorder, log, manager):
    recorder.event(written=1)
    manager.hear()
    time.sleep(0.05)                                  # it finishes the write in hand
    recorder.event(written=2)
    recorder.event(leader=0)
    log.say("steps down after 2 writes")
    manager.tell("stepped down")


def run_west(recorder, log, manager):
    manager.hear()
    time.sleep(0.3)                                   # it warms its cache; east has stepped down long since
    recorder.event(leader=1)
    log.say("leads")
    recorder.event(written=1)
    log.say("has taken its first write")
    manager.tell("took over")


def recorder_of(name, folder):
    return Recorder.to_file(name, os.path.join(folder, f"{name}.stream"), variables=["leader", "written"])


def start_all(folder, waits):
    """What the manager does: it starts the sites, and then runs."""
    start = time.time()
    processes, connections = [], []
    for name in ("east", "west"):
        with socket.create_server(("127.0.0.1", 0)) as listener:
            port = listener.getsockname()[1]
            words = [folder, "--site", name, "--port", str(port), "--start", str(start)]
            processes.append(subprocess.Popen([sys.executable, os.path.abspath(__file__), *words]))
            listener.settimeout(60)
            connections.append(listener.accept()[0])
    with recorder_of("manager", folder) as recorder:
        east, west = (Peer(recorder, connection) for connection in connections)
        run_manager(recorder, Log("manager", start), east, west, waits)
    return max(process.wait() for process in processes)


def run_site(name, folder, port, start):
    run = {"east": run_east, "west": run_west}[name]
    with recorder_of(name, folder) as recorder:
        run(recorder, Log(name, start), Peer(recorder, socket.create_connection(("127.0.0.1", port))))
    return 0


def main():
    parser = argparse.ArgumentParser(description=__doc__, formatter_class=argparse.RawDescriptionHelpFormatter)
    parser.add_argument("folder")
    parser.add_argument("--wait", action="store_true")
    for option, kind in (("--site", str), ("--port", int), ("--start", float)):
        parser.add_argument(option, type=kind, help=argparse.SUPPRESS)
    given = parser.parse_args()
    if given.site:
        return run_site(given.site, given.folder, given.port, given.start)
    return start_all(given.folder, given.wait)


if __name__ == "__main__":
    sys.exit(main())
