#!/usr/bin/env python3
"""Tests of monitor_junit, whose files are read by xmllint: python3 recorders/python/junit_tests.py"""
import contextlib
import io
import os
import subprocess
import tempfile
import unittest
import xml.etree.ElementTree as tree

import monitor_junit as junit
from judging import FOLDER, PROGRAM, needs_program
from test_monitor_summary import tested

RUNS = [("runs/1", "pass"), ("runs/2", "fail: both possibly yes, odd definitely unknown"),
        ("runs/3", "refused cycle a#1,b#2"), ("runs/4", "unread runs/4/a.stream"), ("runs/5", "unnamed both"),
        ("a: pass", "fail: both possibly yes"), ("b: fail: x", "pass"), ("c: unread d", "unread c: unread d/a.stream"),
        ("<&\"'>\x01\ufffe ü", "refused spec json"), ("e/", "unread e/session.json")]


def cases_in(path):
    """By xmllint and by ElementTree: the numbers of the file, and the name and what came of each case."""
    subprocess.run(["xmllint", "--noout", path], check=True, timeout=60)
    suite = tree.parse(path).getroot()
    return [int(suite.get(key)) for key in ("tests", "failures", "errors")], [
        (case.get("name"), [(child.tag, child.get("type"), child.get("message")) for child in case]) for case in suite]


class JUnit(unittest.TestCase):
    def setUp(self):
        folder = tempfile.TemporaryDirectory()
        self.addCleanup(folder.cleanup)
        self.folder, self.out = folder.name, os.path.join(folder.name, "junit.xml")

    def made(self, data):
        """The status and the errors of the script on these lines."""
        path = os.path.join(self.folder, "tested")
        with open(path, "wb") as file:
            file.write(data)
        with contextlib.redirect_stderr(io.StringIO()) as errors:
            status = junit.main(["--out", self.out, path])
        return status, errors.getvalue()

    def test_each_kind_of_line(self):
        self.assertEqual(self.made(tested(RUNS[:4])[0] + tested(RUNS[4:])[0]), (0, ""))
        numbers, cases = cases_in(self.out)
        self.assertEqual(numbers, [10, 2, 6])
        self.assertEqual(cases, [
            ("runs/1", []), ("runs/2", [("failure", "fail", "both possibly yes, odd definitely unknown")]),
            ("runs/3", [("error", "refused", "refused cycle a#1,b#2")]),
            ("runs/4", [("error", "unread", "unread runs/4/a.stream")]),
            ("runs/5", [("error", "unnamed", "unnamed both")]),
            ("a: pass", [("failure", "fail", "both possibly yes")]), ("b: fail: x", []),
            ("c: unread d", [("error", "unread", "unread c: unread d/a.stream")]),
            ("<&\"'>\\x01\\xfffe ü", [("error", "refused", "refused spec json")]),
            ("e/", [("error", "unread", "unread e/session.json")])])

    def test_no_run(self):
        self.assertEqual(self.made(b""), (0, ""))
        self.assertEqual(cases_in(self.out), ([0, 0, 0], []))

    def test_lines_that_are_cut_short_or_odd_leave_the_file_as_it_is(self):
        self.made(tested(RUNS)[0])
        before = cases_in(self.out)
        for data in (tested(RUNS)[0][:-1], b"x: pass\n", b"x\nruns: 1, pass: 0, fail: 0, not judged: 1\n  x\n"):
            status, errors = self.made(data)
            self.assertEqual((status, errors.startswith("monitor_junit: ")), (2, True))
            self.assertEqual(cases_in(self.out), before)
        self.assertEqual(sorted(os.listdir(self.folder)), ["junit.xml", "tested"])

    def test_a_folder_that_is_not_there(self):
        self.out = os.path.join(self.folder, "none", "junit.xml")
        self.assertEqual(self.made(b"")[0], 2)

    @needs_program
    def test_runs_of_the_program(self):
        examples = os.path.join(FOLDER, "..", "..", "examples")
        names = ["redis-lock", "key-rotation-accepted", "refused-cycle", "none"]
        done = subprocess.run([PROGRAM, "test", *names], cwd=examples, stdout=subprocess.PIPE, timeout=60, check=False)
        self.assertEqual((done.returncode, self.made(done.stdout)), (5, (0, "")))
        numbers, cases = cases_in(self.out)
        self.assertEqual(numbers[0], 4)
        self.assertEqual([(name, [tag for tag, _, _ in found]) for name, found in cases][::3],
                         [("redis-lock", ["failure"]), ("none", ["error"])])


if __name__ == "__main__":
    unittest.main()
