"""Judges what a test records, at the test's end: for pytest, unittest and whatever else fails by an AssertionError.

    from monitor_testing import MonitoredRun

    def test_they_take_turns():
        with MonitoredRun("take turns", "session.json", never=["both"]) as run:
            take_turns(run.recorder("left"), run.recorder("right"))

At the end of the block the recordings are judged by `monitor`. The test fails if a predicate that must never hold may
have held (`possibly yes`), if that isn't settled, or if the recordings are refused or empty. The failure has the
report's line and the path of a picture, and the run's folder stays, with all that was judged; that of a run that
passes is deleted. docs/IN-TESTS.md goes through it.

The program is the one that the environment's MONITOR names, or else `monitor` on the path. Runs are kept in the folder
that MONITOR_RUNS names, or else in `monitor-runs` where the tests are run.
"""
import json
import os
import re
import shutil
import subprocess
import sys

from monitor_recorder import Recorder

FOLDER = "monitor-runs"
SECONDS = 60


class MonitoredRun:
    """One run of a test. `name` is that of the run's folder, with a number behind it. `document` is the path of a
    session document, or one as a dictionary. `never` are the predicates that must never hold: all of them, if it isn't
    given. `folder` has the run's files."""

    def __init__(self, name, document, never=None, seconds=SECONDS):
        self.folder = None
        self.report = None
        self._explained = []
        self._name = re.sub(r"[^A-Za-z0-9_.-]+", "_", name).strip("_.") or "run"
        self._document = document
        self._never = never
        self._seconds = seconds
        self._recorders = []
        self._program = None

    def path(self, process):
        """Where the stream of a process belongs, for one that records by itself."""
        return os.path.join(self.folder, f"{process}.stream")

    def recorder(self, process, variables=None):
        """A recorder for a process, which is closed at the block's end if the test hasn't closed it before."""
        recorder = Recorder.to_file(process, self.path(process), variables)
        self._recorders.append(recorder)
        return recorder

    def __enter__(self):
        self._program = found_program()
        text = document_text(self._document)
        self.folder = new_folder(os.environ.get("MONITOR_RUNS", FOLDER), self._name)
        with open(os.path.join(self.folder, "session.json"), "w", encoding="utf-8") as file:
            file.write(text)
        return self

    def __exit__(self, kind, error, trace):
        __tracebackhide__ = True
        if kind is not None:
            for recorder in self._recorders:
                recorder.abandon()
            print(f"monitor: what was recorded until then is in {self.folder}", file=sys.stderr)
            return
        for recorder in self._recorders:
            recorder.close()
        self._judge()
        shutil.rmtree(self.folder)

    def _judge(self):
        __tracebackhide__ = True
        streams = sorted(name for name in os.listdir(self.folder) if name.endswith(".stream"))
        if not streams:
            self._fail("nothing was recorded: there is no stream")
        done = self._run("judge", "session.json", *streams)
        if done.returncode not in (0, 1):
            self._fail(f"judging ended with status {done.returncode}: {done.stderr.strip()}")
        self.report, self._explained = done.stdout, done.stderr.splitlines()
        with open(os.path.join(self.folder, "report"), "w", encoding="utf-8") as file:
            file.write(self.report)
        head, *answers = self.report.splitlines()
        if done.returncode == 1:
            self._fail("the recordings are refused:", head + named_stream(head, streams), *self._explained)
        if " 0 events " in head:
            self._fail("nothing was recorded:", head)
        self._look_at(answers, streams)

    def _look_at(self, answers, streams):
        __tracebackhide__ = True
        possibly = {line.split()[0]: line for line in answers if line.split()[1] == "possibly"}
        never = list(possibly) if self._never is None else list(self._never)
        for name in never:
            if name not in possibly:
                self._fail(f"the document has no predicate {name}, which must never hold")
        held = [name for name in never if possibly[name].split()[2] == "yes"]
        unknown = [name for name in never if possibly[name].split()[2] == "unknown"]
        if held:
            lines = [line for name in held for line in (possibly[name], self._picture(name, streams))]
            self._fail("what must never hold may have held:", *lines, *self._explained)
        if unknown:
            self._fail("not settled, since the document's width is too small:", *(possibly[name] for name in unknown),
                       *self._explained)

    def _picture(self, name, streams):
        done = self._run("draw", "session.json", "report", *streams, "--predicate", name)
        if done.returncode != 0:
            return f"no picture: {done.stderr.strip()}"
        path = os.path.join(self.folder, f"{name}.svg")
        with open(path, "w", encoding="utf-8") as file:
            file.write(done.stdout)
        return f"picture: {path}"

    def _run(self, *words):
        __tracebackhide__ = True
        try:
            return subprocess.run([self._program, *words], cwd=self.folder, stdout=subprocess.PIPE,
                                  stderr=subprocess.PIPE, encoding="utf-8", timeout=self._seconds, check=False)
        except subprocess.TimeoutExpired:
            return self._fail(f"monitor {words[0]} took over {self._seconds} seconds")

    def _fail(self, *lines):
        __tracebackhide__ = True
        raise AssertionError("\n  ".join([*lines, f"all of the run: {self.folder}"])) from None


def found_program():
    """The path of the program. A test that can't be judged is an error, and isn't passed over."""
    given = os.environ.get("MONITOR")
    program = shutil.which(given or "monitor")
    if program is None:
        what = f"MONITOR is {given}, which is no program" if given else "there is no program monitor on the path"
        raise FileNotFoundError(f"{what}: set MONITOR to the path of monitor")
    return os.path.abspath(program)


def document_text(document):
    if isinstance(document, dict):
        return json.dumps(document)
    with open(document, encoding="utf-8") as file:
        return file.read()


def new_folder(base, name):
    """A folder for a run that no other run has, also of tests that go on at the same time."""
    number = 1
    while True:
        folder = os.path.join(os.path.abspath(base), f"{name}-{number}")
        try:
            os.makedirs(folder)
            return folder
        except FileExistsError:
            number += 1


def named_stream(refusal, streams):
    """The name of the stream that is refused, which the report counts."""
    match = re.match(r"refused stream (\d+) ", refusal)
    return f" ({streams[int(match[1]) - 1]})" if match else ""
