"""A lock in a Redis server, and the few lines of the server's protocol that it takes."""
import secrets
import socket
import time

LEASE_MILLISECONDS = 500
# The usual script: the lock is deleted only if it is still ours. It also leaves the id of the message by which this is
# recorded, for whoever takes the lock next.
GIVE_BACK = """
if redis.call('get', KEYS[1]) ~= ARGV[1] then return 0 end
redis.call('set', KEYS[2], ARGV[2])
return redis.call('del', KEYS[1])"""


class Redis:
    """A connection to a server on this machine."""

    def __init__(self, port):
        self.stream = socket.create_connection(("127.0.0.1", port), timeout=60).makefile("rwb")

    def ask(self, *words):
        """The answer to a command: a text, a number, or None for no value."""
        parts = [str(word).encode() for word in words]
        self.stream.write(b"*%d\r\n" % len(parts) + b"".join(b"$%d\r\n%s\r\n" % (len(part), part) for part in parts))
        self.stream.flush()
        line = self.stream.readline()
        kind, rest = line[:1], line[1:-2].decode()
        if kind == b"$":
            return None if rest == "-1" else self.stream.read(int(rest) + 2)[:-2].decode()
        if kind not in (b"+", b":"):
            raise RuntimeError(f"the server says {line!r}")
        return int(rest) if kind == b":" else rest


class Lock:
    """The lock `lock`. Whoever takes it has it for the time of its lease."""

    def __init__(self, redis):
        self.redis = redis
        self.token = None

    def take(self):
        """Waits until the lock is free, and takes it. Gives the id that the last holder left as it gave the lock back;
        None, if nobody did."""
        self.token = secrets.token_hex(8)
        while self.redis.ask("SET", "lock", self.token, "NX", "PX", LEASE_MILLISECONDS) is None:
            time.sleep(0.05)
        return self.redis.ask("GETDEL", "given-back")

    def give_back(self, message):
        self.redis.ask("EVAL", GIVE_BACK, 2, "lock", "given-back", self.token, message)
