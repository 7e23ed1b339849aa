"""That the program of examples/failover records what is stored, that of examples/key-rotation what has the stored
answers, and that the traces of examples/traces and examples/traces-by-sdk make what is stored; where PostgreSQL is,
also that examples/postgres-jobs can be recorded again: python3 -m unittest discover -s recorders/python"""
import contextlib
import io
import os
import subprocess
import sys
import tempfile
import unittest

import import_opentelemetry
from judging import FOLDER, needs_program, report_of

EXAMPLES = os.path.join(FOLDER, "..", "..", "examples")


def text_of(*path):
    with open(os.path.join(*path), encoding="utf-8") as file:
        return file.read()


def recorded(program, *words):
    """The streams of a run of an example's program, by their names."""
    with tempfile.TemporaryDirectory() as folder:
        words = [sys.executable, os.path.join(EXAMPLES, program), folder, *words]
        subprocess.run(words, check=True, capture_output=True, timeout=60)
        return {name: text_of(folder, name) for name in os.listdir(folder)}


def without_evidence(report):
    """The first line of a report, and of each answer its first three words."""
    head, *answers = report.splitlines()
    return [head, *(answer.split()[:3] for answer in answers)]


class Failover(unittest.TestCase):
    def check(self, example, *words):
        streams = recorded("failover/failover.py", *words)
        self.assertEqual(sorted(streams), ["east.stream", "manager.stream", "west.stream"])
        for name, text in streams.items():
            self.assertEqual(text, text_of(EXAMPLES, example, name))
        return streams

    def test_without_waiting(self):
        self.check("failover")

    def test_waiting(self):
        self.check("failover-waiting", "--wait")

    @needs_program
    def test_the_reports(self):
        for example in ("failover", "failover-waiting"):
            streams = [text_of(EXAMPLES, example, f"{name}.stream") for name in ("east", "manager", "west")]
            self.assertEqual(report_of(text_of(EXAMPLES, example, "session.json"), streams),
                             text_of(EXAMPLES, example, "report"))


class Rotation(unittest.TestCase):
    """What comes first differs between two runs, and neither how much is recorded nor the answers do."""

    @classmethod
    def setUpClass(cls):
        cls.streams = {"key-rotation": recorded("key-rotation/rotation.py"),
                       "key-rotation-accepted": recorded("key-rotation/rotation.py", "--accept-first")}

    def test_the_streams(self):
        for example, streams in self.streams.items():
            self.assertEqual(sorted(streams), ["keys.stream", "north.stream", "south.stream", "west.stream"])
            for name, text in streams.items():
                stored = text_of(EXAMPLES, example, name)
                self.assertEqual(text.count("\n"), stored.count("\n"))
                self.assertEqual(text.count('"keys-'), stored.count('"keys-'))

    @needs_program
    def test_the_reports(self):
        for example, streams in self.streams.items():
            report = report_of(text_of(EXAMPLES, example, "session.json"), [streams[name] for name in sorted(streams)])
            self.assertEqual(without_evidence(report), without_evidence(text_of(EXAMPLES, example, "report")))


class Traces(unittest.TestCase):
    WORDS = ["--name", "worker/blue=blue", "--name", "worker/green=green", "--name", "lock/main=lock",
             "--when", "^start write", "writing=1", "--when", "^end write", "writing=0",
             "--predicate", "two_writers", "blue.writing == 1 and green.writing == 1"]

    def check(self, example, events):
        traces = os.path.join(EXAMPLES, example, "traces.json")
        with tempfile.TemporaryDirectory() as folder, contextlib.redirect_stdout(io.StringIO()) as written:
            self.assertEqual(import_opentelemetry.main(["--out", folder, *self.WORDS, traces]), 0)
            for name in ("session.json", "blue.stream", "green.stream", "lock.stream"):
                self.assertEqual(text_of(folder, name), text_of(EXAMPLES, example, name))
        self.assertEqual(written.getvalue().splitlines()[0],
                         f"3 processes, {events} events, 8 messages, 0 events written as several")

    def test_the_session_is_that_of_the_traces(self):
        self.check("traces", 24)

    def test_the_session_is_that_of_the_spans_of_the_sdk(self):
        self.check("traces-by-sdk", 26)


class Jobs(unittest.TestCase):
    """How far the workers come before each other differs between two runs: only with locks the answers are certain."""

    @needs_program
    def test_it_can_be_recorded(self):
        with tempfile.TemporaryDirectory() as folder:
            program = os.path.join(EXAMPLES, "postgres-jobs", "record.py")
            done = subprocess.run([sys.executable, program, folder], check=True, capture_output=True, timeout=300,
                                  encoding="utf-8")
            if done.stdout.startswith("record.py: left out"):
                self.skipTest(done.stdout.strip())
            reports = [self.report(folder, example) for example in ("postgres-jobs", "postgres-jobs-locked")]
        self.assertTrue(reports[0].startswith("session 3 processes "), reports[0])
        self.assertIn("same_job possibly no\n", reports[1])
        self.assertIn("done_twice possibly no\n", reports[1])

    def report(self, folder, example):
        streams = [text_of(folder, example, f"{name}.stream") for name in ("one", "postgres", "two")]
        return report_of(text_of(EXAMPLES, example, "session.json"), streams)


if __name__ == "__main__":
    unittest.main()
