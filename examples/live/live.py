"""Sends the events of one process to `monitor serve` while the process runs, and connects to it as to a peer."""
import json
import socket
import time


def connect(port):
    """A connection to a port of this machine, which may not be bound yet."""
    for _ in range(200):
        try:
            return socket.create_connection(("127.0.0.1", port))
        except ConnectionRefusedError:
            time.sleep(0.05)
    raise SystemExit(f"nobody listens on port {port}")


class Stream:
    def __init__(self, process, port):
        self.connection = connect(port)
        self.line({"process": process})

    def line(self, record):
        self.connection.sendall(json.dumps(record, separators=(",", ":")).encode() + b"\n")

    def event(self, **variables):
        self.line({"set": variables})

    def send(self, message):
        """Call this BEFORE the message leaves."""
        self.line({"send": message})

    def receive(self, message):
        """Call this AFTER the message has come."""
        self.line({"recv": message})

    def end(self):
        self.line({"end": True})
        self.connection.close()
