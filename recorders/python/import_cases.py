"""For the tests of the importers: each in a folder of its own, and a plain judge of small sessions."""
import collections
import contextlib
import io
import itertools
import json
import os
import tempfile
import unittest


class ImportCase(unittest.TestCase):
    """A case has the module of an importer, and the ending of the names of the files that it reads."""
    importer = None
    ending = None

    def setUp(self):
        folder = tempfile.TemporaryDirectory()
        self.addCleanup(folder.cleanup)
        self.addCleanup(os.chdir, os.getcwd())
        os.chdir(folder.name)
        self.out = "out"

    def run_on(self, texts, *words):
        """The status, the output and the errors of the program for files with these texts."""
        names = []
        for number, text in enumerate(texts, 1):
            names.append(f"{number}.{self.ending}")
            with open(names[-1], "wb") as file:
                file.write(text if isinstance(text, bytes) else text.encode())
        words = ["--out", self.out, "--predicate", "none", "false", *words, *names]
        with contextlib.redirect_stdout(io.StringIO()) as out, contextlib.redirect_stderr(io.StringIO()) as errors:
            try:
                status = self.importer.main(words)
            except SystemExit as end:
                status = end.code
        return status, out.getvalue(), errors.getvalue()

    def written_file(self, name):
        with open(os.path.join(self.out, name), encoding="utf-8") as file:
            return file.read()

    def imported(self, texts, *words):
        """The document and, without their first and last lines, the streams that are made of the texts."""
        status, written, errors = self.run_on(texts, *words)
        self.assertEqual((status, errors), (0, ""))
        self.written = written
        document = json.loads(self.written_file("session.json"))
        streams = {}
        for name in (process["name"] for process in document["processes"]):
            lines = [json.loads(line) for line in self.written_file(f"{name}.stream").split("\n") if line]
            self.assertEqual((lines[0], lines[-1]), ({"process": name}, {"end": True}))
            streams[name] = lines[1:-1]
        return document, streams

    def refused(self, errors, texts, *words):
        """The texts are refused with this line, and nothing is written."""
        self.assertEqual(self.run_on(texts, *words), (1, "", f"refused: {errors}\n"))
        self.assertFalse(os.path.exists(self.out))


# The plain judge: of each process the events as (clock, settings), the clock as one count for each process.

def happened(process_events):
    """All consistent cuts, and what gives the state at one: the value of x in each process."""
    processes = range(len(process_events))
    values = [[0] + [None] * len(events) for events in process_events]
    for process in processes:
        for number, (_, settings) in enumerate(process_events[process], 1):
            values[process][number] = settings.get("x", values[process][number - 1])

    def is_cut(counts):
        return all(count == 0 or all(process_events[process][count - 1][0][other] <= counts[other]
                                     for other in processes)
                   for process, count in zip(processes, counts))

    cuts = {counts for counts in itertools.product(*(range(len(events) + 1) for events in process_events))
            if is_cut(counts)}
    return cuts, lambda counts: tuple(values[process][count] for process, count in zip(processes, counts))


def answers(process_events, states):
    """Possibly and Definitely of the predicate that holds in these states, by all cuts; and the states of all cuts."""
    cuts, state = happened(process_events)
    possibly = any(state(cut) in states for cut in cuts)
    full = tuple(len(events) for events in process_events)
    reached = {cut for cut in [(0,) * len(full)] if state(cut) not in states}
    todo = collections.deque(reached)
    while todo:
        cut = todo.popleft()
        for process in range(len(full)):
            following = cut[:process] + (cut[process] + 1,) + cut[process + 1:]
            if following in cuts and following not in reached and state(following) not in states:
                reached.add(following)
                todo.append(following)
    return possibly, full not in reached, {state(cut) for cut in cuts}


def with_clocks(streams):
    """The streams' events as (clock, settings)."""
    place = {line["send"]: (process, number) for process, lines in enumerate(streams)
             for number, line in enumerate(lines) if "send" in line}
    clocks = {}

    def clock(process, number):
        if number < 0:
            return (0,) * len(streams)
        if (process, number) not in clocks:
            parts = [clock(process, number - 1)]
            if "recv" in streams[process][number]:
                parts.append(clock(*place[streams[process][number]["recv"]]))
            counts = [max(column) for column in zip(*parts)]
            counts[process] = number + 1
            clocks[process, number] = tuple(counts)
        return clocks[process, number]

    return [[(clock(process, number), line.get("set", {})) for number, line in enumerate(lines)]
            for process, lines in enumerate(streams)]
