"""What the program makes of recordings."""
import json
import os
import subprocess

from players import Wrong

HERE = os.path.dirname(os.path.abspath(__file__))
TOP = os.path.dirname(os.path.dirname(HERE))
PROGRAM = os.path.abspath(os.environ.get("MONITOR", os.path.join(TOP, "crates", "monitor", "out", "monitor")))


def has_program():
    return os.access(PROGRAM, os.X_OK)


def report_of(folder, document, streams):
    """The report of the session, as text; the streams are the paths of their files."""
    path = os.path.join(folder, "session.json")
    with open(path, "w", encoding="utf-8") as file:
        file.write(document)
    done = subprocess.run([PROGRAM, "judge", path, *streams], stdout=subprocess.PIPE, stderr=subprocess.PIPE)
    if done.returncode not in (0, 1):
        raise Wrong(f"the program ends with status {done.returncode}: {done.stderr.decode()}")
    return done.stdout.decode()


def see_report(folder, document, streams, wanted):
    """Sees that the report begins with these lines."""
    report = report_of(folder, document, streams)
    if not report.startswith(wanted):
        raise Wrong(f"the report is\n{report}and not\n{wanted}")


class Plain:
    """Recordings of which no document is given, and one that fits: with their processes and variables and, if they
    received what none of them sent, with one process more, which has sent that."""

    def __init__(self, paths):
        self.paths, self.processes, self.sent, self.received = paths, {}, set(), set()
        self.events, self.unended = 0, None
        for number, path in enumerate(paths, 1):
            with open(path, encoding="utf-8", newline="\n") as file:
                self.read(number, [json.loads(line) for line in file])
        self.from_outside = sorted(self.received - self.sent)
        if self.from_outside:
            self.processes["outside"] = {}

    def read(self, number, lines):
        names = self.processes.setdefault(lines[0]["process"], {})
        events = [line for line in lines[1:] if "end" not in line]
        for line in events:
            names.update(dict.fromkeys(line.get("set", {}), 0))
            self.sent.update([line["send"]] if "send" in line else [])
            self.received.update([line["recv"]] if "recv" in line else [])
        self.events += len(events)
        if self.unended is None and lines[-1] != {"end": True}:
            self.unended = f"refused stream {number} line {len(lines) + 1} unended\n"

    def document(self):
        processes = [{"name": name, "vars": names} for name, names in self.processes.items()]
        return json.dumps({"processes": processes, "predicates": [{"name": "never", "text": "false"}], "width": 1})

    def see(self, folder):
        """Sees that the program takes the recordings, with the events and messages that they have."""
        wanted = self.unended or (f"session {len(self.processes)} processes "
                                  f"{self.events + len(self.from_outside)} events {len(self.received)} messages\n")
        see_report(folder, self.document(), [*self.paths, *self.outside(folder)], wanted)

    def outside(self, folder):
        """The path of the stream of the process more, if there is one."""
        if not self.from_outside:
            return []
        path = os.path.join(folder, "outside.stream")
        lines = [{"process": "outside"}, *({"send": message} for message in self.from_outside), {"end": True}]
        with open(path, "w", encoding="utf-8") as file:
            file.writelines(f"{json.dumps(line)}\n" for line in lines)
        return [path]
