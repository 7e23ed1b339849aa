"""Ports for servers that a test starts, and connections to them and to nobody else.

A port that was free a moment ago may be another program's by now: whoever connects to it blindly sends its stream to
the server of another test, which takes it for one of its own. So a connection is made only once the socket that listens
on the port, by the table of the system, is one of the server's own.

`listening.py` prints two free ports. `listening.py PID PORT` waits until that process listens on that port of
127.0.0.1; the status is 1 if it ends before, or doesn't in a minute."""
import os
import random
import re
import socket
import sys
import time

SECONDS = 60
PAUSE = 0.002
# The ports lie below those that the system gives to connections, so none of them is taken by a connection.
PORTS = range(10_000, 30_000)
HOST = "127.0.0.1"
# How the system's table has the addresses to which a connection to HOST goes, and a socket that listens.
ADDRESSES = {f"{int.from_bytes(socket.inet_aton(host), sys.byteorder):08X}" for host in (HOST, "0.0.0.0")}
LISTENS = "0A"


def listening():
    """The address, the port and the inode of each socket that listens."""
    with open("/proc/net/tcp", encoding="ascii") as table:
        for row in table:
            words = row.split()
            if words[3] == LISTENS:
                address, _, port = words[1].partition(":")
                yield address, int(port, 16), words[9]


def sockets_of(process):
    """The inodes of a process's sockets; none, if it has ended."""
    folder, found = f"/proc/{process}/fd", set()
    try:
        for name in os.listdir(folder):
            match = re.fullmatch(r"socket:\[(\d+)\]", link_of(os.path.join(folder, name)))
            found.update(match.groups() if match else ())
    except OSError:
        pass
    return found


def link_of(path):
    """What a file of a process is; nothing, if it has been closed meanwhile."""
    try:
        return os.readlink(path)
    except FileNotFoundError:
        return ""


def listens(process, port):
    """Whether the process with this number listens on this port."""
    inodes = {inode for address, number, inode in listening() if address in ADDRESSES and number == port}
    return bool(inodes) and bool(inodes & sockets_of(process))


def wait_for(server, port, seconds=SECONDS):
    """Whether the server, which was started as a Popen, listens on this port before it ends, and within so long."""
    last = time.monotonic() + seconds
    while not listens(server.pid, port):
        if server.poll() is not None or time.monotonic() >= last:
            return False
        time.sleep(PAUSE)
    return True


def connect(server, port, seconds=SECONDS):
    """A connection to this port, on which the server listens within so long. If it doesn't, or ends before, that is a
    ConnectionError."""
    if not wait_for(server, port, seconds):
        raise ConnectionError(f"the server doesn't listen on port {port}")
    return socket.create_connection((HOST, port), SECONDS)


def free_ports(count):
    """The first of so many ports in a row on which nobody listens. They are kept for nobody, so a server that is
    started on them may find them taken."""
    taken = {number for _, number, _ in listening()}
    while True:
        first = random.choice(PORTS)
        if taken.isdisjoint(range(first, first + count)):
            return first


class Running:
    """A process that this one hasn't started, as far as `wait_for` asks."""

    def __init__(self, process):
        self.pid = process

    def poll(self):
        return None if os.path.exists(f"/proc/{self.pid}/exe") else 1


if __name__ == "__main__":
    if len(sys.argv) == 3:
        sys.exit(0 if wait_for(Running(int(sys.argv[1])), int(sys.argv[2])) else 1)
    found = free_ports(2)
    print(found, found + 1)
