"""Makes the calls that it is told on its standard input by the recorder for Python: see recorders/cases/README.md."""
import collections
import contextlib
import json
import os
import signal
import sys
import threading
from urllib.parse import unquote

from monitor_recorder import CURRENT, NotRecorded, RecordedLock, RecordedQueue, Recorder, current

# What a refusal's text has, for each word of the cases. The first that is found counts.
REFUSALS = {"process-name": "no name of a process", "variable-name": "no name of a variable",
            "value": "must be a whole", "variables": "16 variables", "events": "10000 events", "id": "the id",
            "id-twice": "before", "ended": "is closed", "broken": "is broken off",
            "name-twice": "another process of this recording", "processes": "16 processes",
            "not-ended": "no strand that has ended", "running": "still runs", "again": "again: ", "long": "long: ",
            "place": "MONITOR_TO is", "token": "token: "}


def text_of(word):
    """The text for which a word stands."""
    return "" if word == "%" else unquote(word, errors="strict")


def settings_of(words):
    pairs = [word.rpartition("=") for word in words]
    return {text_of(name): json.loads(value) for name, _, value in pairs}


class Player:
    def __init__(self):
        self.recorder = None
        self.recorders = {}
        self.text = {}
        self.refusal = ""

    def file(self, process, path):
        self.begin(process, Recorder.to_file(text_of(process), text_of(path)))

    def noted(self, process, path):
        self.begin(process, Recorder.to_file(text_of(process), text_of(path), notes=True))

    def replaced(self, process, path):
        self.begin(process, Recorder.to_file(text_of(process), text_of(path), replace=True))

    def again(self, process, path):
        self.begin(process, Recorder.to_file(text_of(process), text_of(path), again=True))

    def noted_again(self, process, path):
        self.begin(process, Recorder.to_file(text_of(process), text_of(path), again=True, notes=True))

    def long(self, process, path):
        self.begin(process, Recorder.to_file(text_of(process), text_of(path), long=True))

    def place(self, process, place):
        os.environ["MONITOR_TO"] = text_of(place)
        self.begin(process, Recorder.from_environment(text_of(process)))

    def long_at(self, process, place):
        os.environ["MONITOR_TO"] = text_of(place)
        self.begin(process, Recorder.from_environment(text_of(process), long=True))

    def again_at(self, process, place):
        os.environ["MONITOR_TO"] = text_of(place)
        self.begin(process, Recorder.from_environment(text_of(process), again=True))

    def port(self, process, port, seconds):
        self.begin(process, Recorder.to_port(text_of(process), int(port), seconds=float(seconds)))

    def token_port(self, process, port, seconds, token):
        self.begin(process, Recorder.to_port(text_of(process), int(port), seconds=float(seconds), token=text_of(token)))

    def begin(self, process, recorder):
        self.recorder, self.recorders = recorder, {process: recorder}
        self.locks = collections.defaultdict(RecordedLock)
        self.queues = collections.defaultdict(RecordedQueue)

    def lock(self, name):
        self.with_current(lambda: self.locks[name].acquire())

    def unlock(self, name):
        self.with_current(lambda: self.locks[name].release())

    def put(self, name):
        self.with_current(lambda: self.queues[name].put(name))

    def take(self, name):
        self.with_current(lambda: self.queues[name].get_nowait())

    def with_current(self, call):
        """Makes the call as in a block of the recorder."""
        token = CURRENT.set(self.recorder)
        try:
            call()
        finally:
            CURRENT.reset(token)

    def strand(self, name):
        self.recorders[name] = self.recorder.strand(text_of(name))

    def join(self, name, *settings):
        self.recorder.join(self.recorders[name], **self.text, **settings_of(settings))

    def note(self, text, call, *words):
        """Makes the call with a text for its note."""
        self.text = {"note": text_of(text)}
        try:
            return self.make(call, *words)
        finally:
            self.text = {}

    def in_(self, name, call, *words):
        """Makes the call by the recorder of a strand."""
        process, self.recorder = self.recorder, self.recorders[name]
        try:
            return self.make(call, *words)
        finally:
            self.recorder = process

    def event(self, *settings):
        self.recorder.event(**self.text, **settings_of(settings))

    def send(self, *settings):
        return self.recorder.send(**self.text, **settings_of(settings))

    def send_as(self, message, *settings):
        self.recorder.send_as(text_of(message), **self.text, **settings_of(settings))

    def send_text(self, message, *settings):
        return self.recorder.send(text_of(message), **settings_of(settings))

    def receive(self, message, *settings):
        self.recorder.receive(text_of(message), **self.text, **settings_of(settings))

    def events(self):
        return str(self.recorder.events)

    def said(self):
        return self.refusal

    def end(self):
        self.recorder.close()

    def close(self):
        if self.recorder:
            self.recorder.abandon()

    def threads(self, count, turns):
        self.total = 0
        self.run(int(count), lambda number: self.take_turns(number, int(turns)))

    def take_turns(self, number, turns):
        for turn in range(turns):
            message = self.recorder.send(**{f"x{number}": turn})
            self.recorder.event(**{f"y{number}": int(message.rpartition("-")[2])})
            self.recorder.receive(f"m{number}-{turn}")
            with self.recorder.lock:
                self.total += 1
                self.recorder.event(total=self.total)

    def signals(self):
        signal.signal(signal.SIGWINCH, lambda *_: None)

    def flood(self, count):
        self.run(int(count), self.send_all)

    def send_all(self, _number):
        try:
            while True:
                message = self.recorder.send()
                print(f"sent {message}\n", end="", flush=True)
        except NotRecorded:
            pass

    def run(self, count, work):
        threads = [threading.Thread(target=work, args=(number,)) for number in range(count)]
        for thread in threads:
            thread.start()
        for thread in threads:
            thread.join()

    def strands(self, count, turns):
        strands = [self.recorder.strand(f"strand{number}") for number in range(int(count))]
        self.run(int(count), lambda number: self.take_strand(strands[number], int(turns)))
        for strand in strands:
            self.recorder.join(strand)

    def locked(self, count, turns):
        self.contend(int(count), int(turns), RecordedLock())

    def unlocked(self, count, turns):
        self.contend(int(count), int(turns), contextlib.nullcontext())

    def contend(self, count, turns, lock):
        """Strands that go inside by turns, by this lock."""
        strands = [self.recorder.strand(f"strand{number}") for number in range(count)]
        self.run(count, lambda number: self.go_inside(strands[number], turns, lock))
        for strand in strands:
            self.recorder.join(strand)

    def go_inside(self, strand, turns, lock):
        with strand:
            for _ in range(turns):
                with lock:
                    strand.event(x=1)
                    strand.event(x=0)

    def take_strand(self, strand, turns):
        with strand:
            for turn in range(turns):
                current().event(x=turn)

    def make(self, call, *words):
        return getattr(self, "in_" if call == "in" else call.replace("-", "_"))(*words)

    def answer(self, call, *words):
        try:
            given = self.make(call, *words)
        except NotRecorded as refusal:
            self.refusal = str(refusal)
            return "refused " + next(word for word, text in REFUSALS.items() if text in str(refusal))
        except OSError:
            return "failed"
        return f"recorded {given}" if given else "recorded"


def main():
    sys.stdin.reconfigure(encoding="utf-8", newline="\n")
    player = Player()
    for line in sys.stdin:
        print(player.answer(*line.rstrip("\n").split(" ")), flush=True)


if __name__ == "__main__":
    main()
