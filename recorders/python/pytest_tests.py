#!/usr/bin/env python3
"""Tests of monitor_pytest, which run pytest on tests of their own: python3 recorders/python/pytest_tests.py"""
import json
import os
import re
import subprocess
import tempfile
import unittest

from judging import FOLDER, PROGRAM, needs_program

DOCUMENT = {"processes": [{"name": "left", "vars": {"inside": 0}}, {"name": "right", "vars": {"inside": 0}}],
            "predicates": [{"name": "both", "text": "left.inside == 1 and right.inside == 1"}]}
TESTS = """
import pytest

def take_turns(left, right, early):
    left.event(inside=1)
    if not early:
        left.event(inside=0)
    right.receive(left.send(), inside=1)

def test_early(monitored):
    with monitored("session.json") as run:
        take_turns(run.recorder("left"), run.recorder("right"), True)

@pytest.mark.parametrize("number", range(4))
def test_many(monitored, number):
    with monitored("session.json", never=["both"]) as run:
        take_turns(run.recorder("left"), run.recorder("right"), number == 2)

def test_by_itself(monitored):
    with monitored({"processes": [], "predicates": []}) as run:
        run.recorder("left")
        assert 1 == 2
"""


@needs_program
class InPytest(unittest.TestCase):
    def setUp(self):
        folder = tempfile.TemporaryDirectory()
        self.addCleanup(folder.cleanup)
        self.folder = os.path.realpath(folder.name)
        os.mkdir(os.path.join(self.folder, "tests"))
        for name, text in (("conftest.py", "from monitor_pytest import monitored\n"), ("test_turns.py", TESTS),
                           ("session.json", json.dumps(DOCUMENT))):
            with open(os.path.join(self.folder, "tests", name), "w", encoding="utf-8") as file:
                file.write(text)

    def pytest(self, *words):
        """The status and the output of pytest, started above the folder of the tests."""
        environment = {**os.environ, "MONITOR": os.path.abspath(PROGRAM), "PYTHONPATH": FOLDER, "COLUMNS": "200"}
        environment.pop("MONITOR_RUNS", None)
        done = subprocess.run(["pytest", "-q", "-p", "no:cacheprovider", *words], cwd=self.folder, env=environment,
                              capture_output=True, encoding="utf-8", timeout=60, check=False)
        return done.returncode, done.stdout

    def kept(self):
        return sorted(os.listdir(os.path.join(self.folder, "monitor-runs")))

    def test_a_failure_has_the_line_and_the_picture(self):
        status, written = self.pytest("-k", "early")
        run = os.path.join(self.folder, "monitor-runs", "test_early-1")
        self.assertEqual(status, 1)
        self.assertIn("E       AssertionError: what must never hold may have held:\n"
                      "E         both possibly yes 2,1\n"
                      f"E         picture: {run}/both.svg\n"
                      f"E         all of the run: {run}\n", written)
        self.assertIn("FAILED tests/test_turns.py::test_early - AssertionError: what must", written)
        self.assertNotIn("monitor_testing.py", written.partition("test_early - ")[0])
        self.assertEqual(sorted(os.listdir(run)), ["both.svg", "left.stream", "report", "right.stream", "session.json"])

    def test_of_many_runs_those_that_fail_are_kept(self):
        status, written = self.pytest("-k", "many")
        self.assertEqual((status, written.splitlines()[-1].split(" in ")[0]), (1, "1 failed, 3 passed, 2 deselected"))
        self.assertEqual(re.findall("^FAILED .*::(\\S+)", written, re.M), ["test_many[2]"])
        self.assertEqual(self.kept(), ["test_many_2-1"])

    def test_a_test_that_fails_by_itself(self):
        status, written = self.pytest("-k", "itself")
        self.assertEqual(status, 1)
        self.assertRegex(written, "(?m)^E +assert 1 == 2$")
        self.assertIn(f"monitor: what was recorded until then is in {self.folder}/monitor-runs/test_by_itself-1\n",
                      written)
        self.assertEqual(self.kept(), ["test_by_itself-1"])


if __name__ == "__main__":
    unittest.main()
