#!/usr/bin/env python3
"""rotation.py FOLDER [--accept-first]: a shop at three sites gets a new key by a broadcast, in four processes that talk
by datagrams; each records itself in FOLDER.

A user who logs in at one site gets a token, signed with a key, which the other sites accept if they have the key.
`keys` sends key 2 to `north`, `south` and `west` in one message, and each of them signs with it as soon as it has come.
With --accept-first they only accept it then, and sign with it by a second message, once all of them have answered."""
import argparse
import json
import os
import socket
import subprocess
import sys
import threading
import time

HERE = os.path.dirname(os.path.abspath(__file__))
sys.path.insert(0, os.path.join(HERE, "..", "..", "recorders", "python"))
from monitor_recorder import Recorder  # noqa: E402

SITES = ("north", "south", "west")
# When a user logs in at each site and goes on to the next one, before and after the keys change at 0.5 seconds.
LOGINS = {"north": (0.2, 0.8), "south": (0.3, 0.9), "west": (0.4, 1.0)}
SECONDS = 60


class Process:
    """A process with its recorder and its mailbox, a socket of datagrams that has its name in the folder."""

    def __init__(self, name, folder, start, mailbox, variables):
        self.name, self.folder, self.start, self.mailbox = name, folder, start, mailbox
        self.recorder = Recorder.to_file(name, os.path.join(folder, f"{name}.stream"), variables)

    def tell(self, receivers, kind, key):
        """Sends one message to all of these."""
        message = self.recorder.send()       # once, before the first copy leaves; the id is in each of them
        text = json.dumps({"id": message, "from": self.name, "kind": kind, "key": key}).encode()
        for receiver in receivers:
            self.mailbox.sendto(text, path_of(receiver, self.folder))

    def hear(self):
        """Waits for a message, and leaves it to its reader to record the receipt."""
        return json.loads(self.mailbox.recv(1000))

    def say(self, text):
        print(f"{time.time() - self.start:.3f} {self.name}: {text}\n", end="", flush=True)

    def wait_until(self, seconds):
        time.sleep(max(0, self.start + seconds - time.time()))


def path_of(name, folder):
    return os.path.join(folder, f"{name}.mailbox")


def new_mailbox(name, folder):
    mailbox = socket.socket(socket.AF_UNIX, socket.SOCK_DGRAM)
    mailbox.settimeout(SECONDS)
    mailbox.bind(path_of(name, folder))
    return mailbox


def run_keys(keys, accept_first):
    keys.wait_until(0.5)
    for kind in ("accept", "sign") if accept_first else ("use",):
        keys.say(f"tells all sites to {kind} key 2")
        keys.tell(SITES, kind, 2)
        for _ in SITES:
            keys.recorder.receive(keys.hear()["id"])
        keys.say("all sites have answered")


class Site:
    """A site of the shop: the key with which it signs, and the last one that it accepts."""

    def __init__(self, process):
        self.process, self.signs, self.accepts = process, 1, 1

    def log_in(self):
        """At each time a user logs in, and goes on to the next site with a token."""
        name = self.process.name
        following = SITES[(SITES.index(name) + 1) % len(SITES)]
        for seconds in LOGINS[name]:
            self.process.wait_until(seconds)
            with self.process.recorder.lock:      # the key is the one that is recorded
                self.process.say(f"a user logs in, whose token is signed with key {self.signs}")
                self.process.tell([following], "token", self.signs)

    def serve(self, orders):
        """Serves until all orders of `keys` and a user of each time have come."""
        for _ in range(orders + len(LOGINS[self.process.name])):
            message = self.process.hear()
            if message["kind"] == "token":
                self.look_at(message)
            else:
                self.obey(message)

    def look_at(self, message):
        self.process.recorder.receive(message["id"])
        verb = "accepts" if message["key"] <= self.accepts else "REFUSES"
        self.process.say(f"{verb} the token of {message['from']}, signed with key {message['key']}")

    def obey(self, message):
        changes = {"use": ("accepts", "signs"), "accept": ("accepts",), "sign": ("signs",)}[message["kind"]]
        with self.process.recorder.lock:          # the change and its line stay together
            for change in changes:
                setattr(self, change, message["key"])
            self.process.recorder.receive(message["id"], **dict.fromkeys(changes, message["key"]))
        self.process.say(" and ".join(f"{change} key {message['key']}" for change in changes))
        self.process.tell([message["from"]], "done", message["key"])


def run_site(process, orders):
    site = Site(process)
    users = threading.Thread(target=site.log_in)
    users.start()
    site.serve(orders)
    users.join()


def start_all(folder, accept_first):
    """What `keys` does: it starts the sites, waits until all of them are up, and then runs."""
    mailbox = new_mailbox("keys", folder)
    words = [sys.executable, os.path.abspath(__file__), folder, *(["--accept-first"] if accept_first else [])]
    sites = [subprocess.Popen([*words, "--site", name], stdin=subprocess.PIPE, text=True) for name in SITES]
    for _ in sites:
        mailbox.recv(1)
    start = time.time()
    for site in sites:
        print(start, file=site.stdin, flush=True)
    keys = Process("keys", folder, start, mailbox, [])
    run_keys(keys, accept_first)
    keys.recorder.close()
    status = max(site.wait() for site in sites)
    for name in ("keys", *SITES):
        os.unlink(path_of(name, folder))
    return status


def start_site(name, folder, accept_first):
    mailbox = new_mailbox(name, folder)
    mailbox.sendto(b"!", path_of("keys", folder))
    start = float(sys.stdin.readline())
    process = Process(name, folder, start, mailbox, ["signs", "accepts"])
    run_site(process, 2 if accept_first else 1)
    process.recorder.close()
    return 0


def main():
    parser = argparse.ArgumentParser(description=__doc__, formatter_class=argparse.RawDescriptionHelpFormatter)
    parser.add_argument("folder")
    parser.add_argument("--accept-first", action="store_true")
    parser.add_argument("--site", choices=SITES, help=argparse.SUPPRESS)
    given = parser.parse_args()
    if given.site:
        return start_site(given.site, given.folder, given.accept_first)
    return start_all(given.folder, given.accept_first)


if __name__ == "__main__":
    sys.exit(main())
