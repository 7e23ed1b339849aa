#!/usr/bin/env python3
"""record.py FOLDER: has two workers of lease.py hold one lock in FOLDER/etcd-lease, and fenced ones in
FOLDER/etcd-lease-fenced, each time with an etcd of three members of its own, on ports that the system gives. The stream
of etcd is made of the feed of its changes. It needs the command etcd, which is in Debian's package etcd-server."""
import argparse
import contextlib
import os
import signal
import socket
import subprocess
import sys
import tempfile
import time

from etcd import MARK, Etcd

HERE = os.path.dirname(os.path.abspath(__file__))
sys.path.insert(0, os.path.join(HERE, "..", "..", "recorders", "python"))
from monitor_recorder import Recorder  # noqa: E402
from monitor_stores import Change, record_store  # noqa: E402

MEMBERS = 3
NUMBERS = {None: 0, "one": 1, "two": 2}


def free_ports(count):
    with contextlib.ExitStack() as stack:
        listeners = [stack.enter_context(socket.create_server(("127.0.0.1", 0))) for _ in range(count)]
        return [listener.getsockname()[1] for listener in listeners]


def member_words(number, folder, ports, peers):
    def url(port):
        return f"http://127.0.0.1:{port}"

    cluster = ",".join(f"m{each}={url(peer)}" for each, peer in enumerate(peers))
    return ["etcd", "--name", f"m{number}", "--data-dir", os.path.join(folder, f"m{number}"),
            "--listen-client-urls", url(ports[number]), "--advertise-client-urls", url(ports[number]),
            "--listen-peer-urls", url(peers[number]), "--initial-advertise-peer-urls", url(peers[number]),
            "--initial-cluster", cluster, "--logger", "zap", "--log-outputs", os.path.join(folder, f"log{number}")]


def wait_for(port):
    """Waits until the member answers."""
    for _ in range(200):
        with contextlib.suppress(OSError):
            return Etcd(port).revision()
        time.sleep(0.1)
    sys.exit("record.py: etcd doesn't answer: another program may have taken a port, so try again")


@contextlib.contextmanager
def etcd_cluster():
    """The ports of the members of an etcd, which ends with the block."""
    free = free_ports(2 * MEMBERS)
    ports, peers = free[:MEMBERS], free[MEMBERS:]
    with tempfile.TemporaryDirectory() as folder:
        members = [subprocess.Popen(member_words(number, folder, ports, peers), stderr=subprocess.DEVNULL)
                   for number in range(MEMBERS)]
        try:
            for port in ports:
                wait_for(port)
            yield ports
        finally:
            for member in members:
                member.terminate()
            for member in members:
                member.wait()


def run_workers(ports, folder, since, words):
    """`one` takes the lock and stops; once its lease has run out and `two` has written, it goes on."""
    def started(name, port, *more):
        command = [sys.executable, os.path.join(HERE, "lease.py"), name, folder, "--etcd", str(port)]
        return subprocess.Popen([*command, "--since", str(since), *words, *more])

    one = started("one", ports[0], "--stop")
    os.waitpid(one.pid, os.WUNTRACED)
    two = started("two", ports[1])
    two.wait()
    one.send_signal(signal.SIGCONT)
    if one.wait() != 0 or two.returncode != 0:
        sys.exit("record.py: a worker has failed")


def set_by(keys):
    """What a change of these keys sets."""
    found = {"holder": NUMBERS[keys["lock"]]} if "lock" in keys else {}
    return {**found, "value_by": NUMBERS[keys["value"]]} if "value" in keys else found


def record(folder, words):
    os.makedirs(folder, exist_ok=True)
    with etcd_cluster() as ports:
        store = Etcd(ports[2])
        since = store.revision()
        run_workers(ports, folder, since, words)
        changes = [Change(revision, keys.get(MARK), set_by(keys)) for revision, keys in
                   store.changes(since, Etcd(ports[0]).revision())]
    with Recorder.to_file("etcd", os.path.join(folder, "etcd.stream"), replace=True) as recorder:
        record_store(recorder, "etcd", changes)


def main():
    parser = argparse.ArgumentParser(description=__doc__, formatter_class=argparse.RawDescriptionHelpFormatter)
    parser.add_argument("folder")
    given = parser.parse_args()
    for name, words in (("etcd-lease", []), ("etcd-lease-fenced", ["--fenced"])):
        record(os.path.join(given.folder, name), words)


if __name__ == "__main__":
    main()
