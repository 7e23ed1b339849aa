#!/usr/bin/env python3
"""left.py MONITOR_PORT LOCK_PORT: it has the lock, goes inside, and hands the lock to `right`."""
import socket
import sys
import time

from live import Stream

peer = socket.create_server(("127.0.0.1", int(sys.argv[2])))
stream = Stream("left", int(sys.argv[1]))
right, _ = peer.accept()

stream.event(inside=1)
time.sleep(0.2)                     # it works inside
stream.send("lock")
right.sendall(b"lock\n")            # the bug: the lock goes before `left` is outside
stream.event(inside=0)
stream.end()
