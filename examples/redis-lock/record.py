#!/usr/bin/env python3
"""record.py FOLDER [--pause SECONDS]: has the last ticket sold by tickets.py in FOLDER/redis-lock, and by fenced
holders in FOLDER/redis-lock-fenced, each time with a Redis server of its own, on a port that the system gives. It needs
the command redis-server, 6.2 or later, which is in Debian's package of that name."""
import argparse
import contextlib
import os
import socket
import subprocess
import sys
import tempfile
import time

from redis_lock import Redis

TICKETS = os.path.join(os.path.dirname(os.path.abspath(__file__)), "tickets.py")


def free_port():
    with socket.create_server(("127.0.0.1", 0)) as listener:
        return listener.getsockname()[1]


def wait_for(server, port):
    """Waits until the server answers."""
    while server.poll() is None:
        with contextlib.suppress(OSError):
            if Redis(port).ask("PING") == "PONG":
                return
        time.sleep(0.05)
    sys.exit("record.py: the server has ended at once: another program may have taken its port, so try again")


@contextlib.contextmanager
def redis_server():
    """The port of a server that keeps nothing on disk, and ends with the block."""
    port = free_port()
    with tempfile.TemporaryDirectory() as folder:
        words = ["--bind", "127.0.0.1", "--port", str(port), "--save", "", "--dir", folder]
        server = subprocess.Popen(["redis-server", *words], stdout=subprocess.DEVNULL)
        try:
            wait_for(server, port)
            yield port
        finally:
            server.terminate()
            server.wait()


def main():
    parser = argparse.ArgumentParser(description=__doc__, formatter_class=argparse.RawDescriptionHelpFormatter)
    parser.add_argument("folder")
    parser.add_argument("--pause", default="3")
    given = parser.parse_args()
    for name, words in (("redis-lock", []), ("redis-lock-fenced", ["--fenced"])):
        folder = os.path.join(given.folder, name)
        os.makedirs(folder, exist_ok=True)
        with redis_server() as port:
            words += ["--redis", str(port), "--pause", given.pause]
            subprocess.run([sys.executable, TICKETS, folder, *words], check=True)


if __name__ == "__main__":
    main()
