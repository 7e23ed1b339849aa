"""A recorder: writes one stream, the events of one process in their order."""
import json
import threading


class Recorder:
    def __init__(self, process, path):
        self.process = process
        self.sent = 0
        self.lock = threading.RLock()
        self.file = open(path, "w", encoding="utf-8")
        self.line({"process": process})

    def line(self, record):
        with self.lock:
            self.file.write(json.dumps(record) + "\n")
            self.file.flush()

    def event(self, **variables):
        """Something happened in this process; its variables have these values from now on."""
        self.line({"set": variables} if variables else {})

    def send(self, **variables):
        """Call this BEFORE the message leaves, and let the id that it gives travel with the message."""
        with self.lock:
            self.sent += 1
            message = f"{self.process}-{self.sent}"
            self.line({"send": message, **({"set": variables} if variables else {})})
        return message

    def receive(self, message, **variables):
        """Call this AFTER the message has come, with the id that came with it."""
        self.line({"recv": message, **({"set": variables} if variables else {})})

    def end(self):
        self.line({"end": True})
        self.file.close()
