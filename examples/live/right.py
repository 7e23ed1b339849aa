#!/usr/bin/env python3
"""right.py MONITOR_PORT LOCK_PORT: it waits for the lock, and goes inside."""
import sys
import time

from live import Stream, connect

stream = Stream("right", int(sys.argv[1]))
left = connect(int(sys.argv[2]))

left.makefile().readline()          # it waits for the lock
stream.receive("lock")
time.sleep(0.2)                     # it makes ready, and `left` is outside long since
stream.event(inside=1)
time.sleep(0.2)                     # it works inside
stream.event(inside=0)
stream.end()
