"""Reads files of cases, whose lines README.md explains."""
import glob
import os
import re
from urllib.parse import unquote_to_bytes

HERE = os.path.dirname(os.path.abspath(__file__))
REPEATED = re.compile(r"\{(\d+)\*([^{}]*)\}")
NUMBER = re.compile(r"\{n(?::0(\d+))?\}")


class Call:
    """A call that a process makes, as its player is given it, the answer, and the lines that it must write, each with
    the process in whose stream it stands."""

    def __init__(self, where, process, words, times):
        self.where, self.process, self.words, self.times = where, process, words, times
        self.answer, self.lines, self.notes = "recorded", [], []

    def numbered(self, number):
        """The words, the answer and, by processes, the bytes of this turn, counted from 1, and its notes."""
        def put(text):
            return NUMBER.sub(lambda found: str(number).zfill(int(found[1] or 0)), text)

        written = {}
        for process, line in self.lines:
            written[process] = written.get(process, b"") + unquote_to_bytes(put(f"{line}\n"))
        notes = [(process, unquote_to_bytes(put(note)).decode()) for process, note in self.notes]
        return put(self.words), put(self.answer), written, notes


class Case:
    """Calls in their order, and the document with the report of what they record, if there is one."""

    def __init__(self, name, where):
        self.name, self.where, self.calls, self.document, self.report = name, where, [], None, ""


class Reader:
    """Reads the lines of one file."""

    def __init__(self, name):
        self.name, self.cases, self.times, self.last = name, [], 1, None

    def read(self, where, line):
        word, _, rest = line.partition(" ")
        if word == "case":
            self.cases.append(Case(rest, where))
        elif word == "session":
            self.cases[-1].document = rest
        elif word == "report":
            self.cases[-1].report += f"{rest}\n"
        elif word == "times":
            self.times = int(rest)
        elif word.endswith(">"):
            self.last_call().lines.append([word[:-1] or self.last_call().process, rest])
        elif word.endswith("!"):
            self.last_call().notes.append([word[:-1] or self.last_call().process, rest])
        elif word == "gives":
            self.last_call().answer = f"recorded {rest}"
        elif word in ("refused", "failed", "says"):
            self.last_call().answer = line
        elif word == "+":
            self.go_on(rest)
        else:
            self.cases[-1].calls.append(Call(where, word, rest, self.times))
            self.times = 1
        if word != "+":
            self.last = word

    def last_call(self):
        return self.cases[-1].calls[-1]

    def go_on(self, rest):
        """More text of the document or of a line that is written, or more words of a call."""
        if self.last == "session":
            self.cases[-1].document += rest
        elif self.last.endswith(">"):
            self.last_call().lines[-1][1] += rest
        elif self.last.endswith("!"):
            self.last_call().notes[-1][1] += rest
        else:
            self.last_call().words += f" {rest}"


def cases_of(path):
    reader = Reader(os.path.basename(path))
    with open(path, encoding="utf-8") as file:
        for number, line in enumerate(file, 1):
            line = REPEATED.sub(lambda found: found[2] * int(found[1]), line.rstrip("\n"))
            if line and not line.startswith("#"):
                reader.read(f"{reader.name}:{number}", line)
    return reader.cases


def all_cases():
    return [case for path in sorted(glob.glob(os.path.join(HERE, "*.txt"))) for case in cases_of(path)]
