"""Tests of monitor_testing: python3 -m unittest discover -s recorders/python"""
import contextlib
import io
import json
import os
import subprocess
import sys
import tempfile
import unittest
from unittest import mock

from judging import FOLDER, PROGRAM, needs_program
from monitor_recorder import NotRecorded
from monitor_testing import MonitoredRun

JUDGE = os.path.abspath(PROGRAM)
DOCUMENT = {"processes": [{"name": "left", "vars": {"inside": 0}}, {"name": "right", "vars": {"inside": 0}}],
            "predicates": [{"name": "both", "text": "left.inside == 1 and right.inside == 1"},
                           {"name": "left_in", "text": "left.inside == 1"}]}


def take_turns(left, right, early):
    """Left is inside and hands the turn on: too early, while it is still inside, or not."""
    left.event(inside=1)
    if not early:
        left.event(inside=0)
    right.receive(left.send(), inside=1)
    right.event(inside=0)
    if early:
        left.event(inside=0)


class Case(unittest.TestCase):
    def setUp(self):
        folder = tempfile.TemporaryDirectory()
        self.addCleanup(folder.cleanup)
        self.addCleanup(os.chdir, os.getcwd())
        os.chdir(folder.name)
        patch = mock.patch.dict(os.environ, {"MONITOR": JUDGE})
        patch.start()
        self.addCleanup(patch.stop)
        os.environ.pop("MONITOR_RUNS", None)
        self.runs = os.path.join(os.path.realpath(folder.name), "monitor-runs")

    def failure(self, test, document=None, name="turns", **options):
        """What the failure of a test says; the test is a function of its run."""
        with self.assertRaises(AssertionError) as caught:
            with MonitoredRun(name, document or DOCUMENT, **options) as run:
                test(run)
        return str(caught.exception)

    def kept(self, number=1, name="turns"):
        """The files of a run."""
        return sorted(os.listdir(os.path.join(self.runs, f"{name}-{number}")))

    def text(self, *path):
        with open(os.path.join(self.runs, *path), encoding="utf-8") as file:
            return file.read()


def early(run):
    take_turns(run.recorder("left"), run.recorder("right"), early=True)


@needs_program
class Judged(Case):
    def test_strands_are_judged_with_their_process(self):
        document = {"processes": [{"name": "main", "vars": {}}, *DOCUMENT["processes"]],
                    "predicates": [DOCUMENT["predicates"][0]]}

        def both_in_strands(run):
            main = run.recorder("main")
            for name in ("left", "right"):
                with main.strand(name) as strand:
                    strand.event(inside=1)
                    strand.event(inside=0)

        self.assertIn("both possibly yes 2,2,2", self.failure(both_in_strands, document))
        self.assertIn("left.stream", self.kept())

    def test_a_run_that_passes(self):
        with MonitoredRun("turns", DOCUMENT, never=["both"]) as run:
            take_turns(run.recorder("left"), run.recorder("right"), early=False)
            self.assertEqual(self.kept(), ["left.stream", "right.stream", "session.json"])
        self.assertEqual(run.report, "session 2 processes 5 events 1 messages\n"
                                     "both possibly no\nboth definitely no left,left,left,right,right\n"
                                     "left_in possibly yes 1,0\nleft_in definitely yes 1\n")
        self.assertEqual(os.listdir(self.runs), [])

    def test_a_run_that_fails(self):
        self.assertEqual(self.failure(early, never=["both"]),
                         "what must never hold may have held:\n"
                         "  both possibly yes 2,1\n"
                         f"  picture: {self.runs}/turns-1/both.svg\n"
                         f"  all of the run: {self.runs}/turns-1")
        self.assertEqual(self.kept(), ["both.svg", "left.stream", "report", "right.stream", "session.json"])
        self.assertEqual(json.loads(self.text("turns-1", "session.json")), DOCUMENT)
        self.assertEqual(self.text("turns-1", "report").splitlines()[1], "both possibly yes 2,1")
        self.assertIn("<title id=\"title\">both possibly yes, definitely ", self.text("turns-1", "both.svg"))

    def test_without_more_all_predicates_must_never_hold(self):
        self.assertEqual(self.failure(early).splitlines()[1:5],
                         ["  both possibly yes 2,1", f"  picture: {self.runs}/turns-1/both.svg",
                          "  left_in possibly yes 1,0", f"  picture: {self.runs}/turns-1/left_in.svg"])
        for name in ("both", "left_in"):
            self.assertIn(f">{name} possibly yes, definitely ", self.text("turns-1", f"{name}.svg"))
        with MonitoredRun("turns", DOCUMENT, never=[]) as run:
            early(run)

    def test_a_message_that_two_receive(self):
        document = {"processes": [{"name": name, "vars": {"new": 0}} for name in ("main", "left", "right")],
                    "predicates": [{"name": "early", "text": "left.new + right.new > 0 and main.new == 0"}]}

        def broadcast(run):
            message = run.recorder("main").send(new=1)
            for name in ("left", "right"):
                run.recorder(name).receive(message, new=1)

        with MonitoredRun("turns", {**document, "version": 2}) as run:
            broadcast(run)
        self.assertEqual(run.report.splitlines()[:2], ["session 3 processes 3 events 1 messages", "early possibly no"])
        self.assertEqual(self.failure(broadcast, document).splitlines()[:2],
                         ["the recordings are refused:", "  refused receivedtwice right#1"])

    def test_what_is_not_settled(self):
        self.assertEqual(self.failure(early, {**DOCUMENT, "width": 1}, never=["both"]),
                         "not settled, since the document's width is too small:\n"
                         "  both possibly unknown 3\n"
                         f"  all of the run: {self.runs}/turns-1")

    def test_what_is_refused(self):
        def broken(run):
            run.recorder("left").event(inside=1)
            run.recorder("right").abandon()

        self.assertEqual(self.failure(broken), "the recordings are refused:\n"
                                               "  refused stream 2 line 2 unended (right.stream)\n"
                                               f"  all of the run: {self.runs}/turns-1")
        self.assertEqual(self.failure(lambda run: run.recorder("left")), "the recordings are refused:\n"
                                                                         "  refused absent right\n"
                                                                         f"  all of the run: {self.runs}/turns-2")
        self.assertIn("  refused predicate 1 expected at 1\n", self.failure(
            early, {**DOCUMENT, "predicates": [{"name": "both", "text": ""}]}))

    def test_what_recorded_nothing(self):
        self.assertEqual(self.failure(lambda run: None), "nothing was recorded: there is no stream\n"
                                                         f"  all of the run: {self.runs}/turns-1")
        self.assertEqual(self.failure(lambda run: [run.recorder("left"), run.recorder("right")]),
                         "nothing was recorded:\n  session 2 processes 0 events 0 messages\n"
                         f"  all of the run: {self.runs}/turns-2")

    def test_a_predicate_that_is_not_there(self):
        self.assertEqual(self.failure(early, never=["bot"]),
                         "the document has no predicate bot, which must never hold\n"
                         f"  all of the run: {self.runs}/turns-1")

    def test_processes_that_record_by_themselves(self):
        program = ("import sys; from monitor_recorder import Recorder\n"
                   "with Recorder.to_file(sys.argv[1], sys.argv[2]) as recorder: recorder.event(inside=1)\n")

        def processes(run):
            for name in ("left", "right"):
                subprocess.run([sys.executable, "-c", program, name, run.path(name)], check=True, cwd=FOLDER)

        self.assertIn("  both possibly yes 1,1\n", self.failure(processes))

    def test_a_document_in_a_file(self):
        with open("session.json", "w", encoding="utf-8") as file:
            json.dump(DOCUMENT, file)
        self.assertIn("  both possibly yes 2,1\n", self.failure(early, "session.json"))

    def test_an_answer_that_is_explained(self):
        with mock.patch.dict(os.environ, {"MONITOR_EXPLAIN": "1"}):
            failure = self.failure(early)
        self.assertIn("\n  `both` can happen, when these processes have come this far:\n", failure)
        self.assertNotIn("can happen", self.failure(early))

    def test_many_runs(self):
        for number in range(1, 6):
            with contextlib.suppress(AssertionError), MonitoredRun("turns", DOCUMENT, never=["both"]) as run:
                take_turns(run.recorder("left"), run.recorder("right"), early=number % 2 == 0)
        self.assertEqual(sorted(os.listdir(self.runs)), ["turns-1", "turns-2"])

    def test_recorders_that_the_test_has_closed(self):
        with MonitoredRun("turns", DOCUMENT, never=["both"]) as run:
            with run.recorder("left") as left:
                left.event()
            run.recorder("right", variables=["inside"]).close()


class Runs(Case):
    """What is done around the program, for which another one stands here."""

    def program(self, text):
        path = os.path.abspath("program")
        with open(path, "w", encoding="utf-8") as file:
            file.write(f"#!/bin/sh\n{text}\n")
        os.chmod(path, 0o755)
        os.environ["MONITOR"] = path

    def test_a_test_that_fails_by_itself(self):
        self.program("exit 0")
        with contextlib.redirect_stderr(io.StringIO()) as errors, self.assertRaises(KeyError):
            with MonitoredRun("turns", DOCUMENT) as run:
                recorder = run.recorder("left")
                recorder.event(inside=1)
                raise KeyError
        with self.assertRaisesRegex(NotRecorded, "closed"):
            recorder.event()
        self.assertEqual(errors.getvalue(), f"monitor: what was recorded until then is in {self.runs}/turns-1\n")
        self.assertEqual(self.kept(), ["left.stream", "session.json"])
        self.assertEqual(self.text("turns-1", "left.stream"), '{"process":"left"}\n{"set":{"inside":1}}\n')

    def test_programs_that_are_not_there(self):
        for given, why in (("none", "MONITOR is none, which is no program"),
                           ("", "there is no program monitor on the path")):
            with mock.patch.dict(os.environ, {"MONITOR": given, "PATH": "/nowhere"}):
                with self.assertRaisesRegex(FileNotFoundError, f"^{why}: set MONITOR to the path of monitor$"):
                    with MonitoredRun("turns", DOCUMENT):
                        self.fail("the test ran")
        self.assertFalse(os.path.exists(self.runs))

    def test_a_program_on_the_path(self):
        self.program("echo session 1 processes 1 events 0 messages")
        os.rename("program", "monitor")
        for given, path in (("", os.getcwd()), ("./monitor", "/nowhere")):
            with mock.patch.dict(os.environ, {"MONITOR": given, "PATH": path}):
                with MonitoredRun("turns", DOCUMENT) as run:
                    run.recorder("left")
            self.assertEqual(run.report, "session 1 processes 1 events 0 messages\n")

    def test_a_program_that_ends_otherwise(self):
        self.program("echo monitor: memory >&2; exit 4")
        self.assertEqual(self.failure(early), "judging ended with status 4: monitor: memory\n"
                                              f"  all of the run: {self.runs}/turns-1")

    def test_no_picture(self):
        self.program("[ $1 = draw ] && { echo monitor: memory >&2; exit 4; }\n"
                     "echo session 1 processes 1 events 0 messages; echo both possibly yes 1")
        self.assertEqual(self.failure(early), "what must never hold may have held:\n  both possibly yes 1\n"
                                              "  no picture: monitor: memory\n"
                                              f"  all of the run: {self.runs}/turns-1")

    def test_a_program_that_takes_too_long(self):
        self.program("exit 0")
        with mock.patch("subprocess.run", side_effect=subprocess.TimeoutExpired("monitor", 7)):
            self.assertEqual(self.failure(early, seconds=7), "monitor judge took over 7 seconds\n"
                                                             f"  all of the run: {self.runs}/turns-1")

    def test_names_and_folders(self):
        self.program("exit 0")
        os.environ["MONITOR_RUNS"] = os.path.abspath("other")
        for name, folder in (("test_turns[3-a b]", "test_turns_3-a_b-1"), ("../é", "run-1"), ("", "run-2"),
                             ("a/b", "a_b-1")):
            with contextlib.redirect_stderr(io.StringIO()), contextlib.suppress(KeyError):
                with MonitoredRun(name, DOCUMENT) as run:
                    raise KeyError
            self.assertEqual(run.folder, os.path.join(os.getcwd(), "other", folder))


if __name__ == "__main__":
    unittest.main()
