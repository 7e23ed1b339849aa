"""Tests of monitor_matcher: python3 -m unittest discover -s recorders/python"""
import json
import os
import re
import subprocess
import sys
import tempfile
import unittest

import monitor_matcher as matcher
from judging import FOLDER, PROGRAM, needs_program

SCRIPT = os.path.join(FOLDER, "monitor_matcher.py")
GOLDEN = os.path.join(FOLDER, "..", "..", "cases", "explanations.md")
# The form that docs/MANY-RUNS.md gives to a server of CI.
LINE = re.compile(r"(.+):(\d+):(\d+): error: (.+)")
PROCESSES = '{"processes":[{"name":"a","vars":{"x":0}}],\n "predicates":['


def written(explanations, *names):
    done = subprocess.run([sys.executable, SCRIPT, *names], input=explanations, capture_output=True, timeout=60,
                          check=False)
    return done.stdout.decode(), done.returncode


class Places(unittest.TestCase):
    def test_each_golden_explanation_gives_a_line_for_each_place(self):
        with open(GOLDEN, encoding="utf-8") as file:
            explanations = re.findall(r"^```\n(.*?)^```", file.read(), re.M | re.S)
        places = 0
        for text in explanations:
            lines = matcher.lines_of(text)
            self.assertEqual(len(lines), sum(matcher.is_place(line) for line in text.split("\n")), text)
            self.assertTrue(all(LINE.fullmatch(line) for line in lines), lines)
            places += len(lines)
        self.assertGreater(places, 80)

    def test_several_explanations_may_follow_one_another(self):
        first = "Stream 1, a.stream, is refused at line 2: this\n  is wrong.\nIn a.stream, line 2, byte 9:\n    {}\n"
        second = "Event 1 is sent twice.\nIt is sent here too. In stream 2, line 3 (line 7 of the bundle):\n    {}\n"
        advice = "What to do: name each message\n  once.\n"
        self.assertEqual(written((first + advice + second).encode())[0],
                         "a.stream:2:9: error: Stream 1, a.stream, is refused at line 2: this is wrong.\n"
                         "stream 2:3:1: error: Event 1 is sent twice. It is sent here too.\n")

    def test_no_place_no_line(self):
        self.assertEqual(written(b"Both answers are unknown.\nWhat to do: give a width.\n"), ("", 0))

    def test_a_file_that_is_not_there(self):
        self.assertEqual(written(b"", "/nonexistent/explanation"), ("", 2))


class Predicates(unittest.TestCase):
    def at(self, document, number, byte):
        with tempfile.NamedTemporaryFile("w", encoding="utf-8") as file:
            file.write(document)
            file.flush()
            return matcher.place_in_text(file.name, number, byte)

    def test_a_byte_of_the_second_text_stands_in_its_line(self):
        second = '\n  {"name":"q", "text": "a.x = 1"}]}'
        document = PROCESSES + '{"name":"p","text":"a.x == 1"},' + second
        self.assertEqual(self.at(document, 2, 5), (3, second.index("=")))

    def test_an_escape_is_one_byte_of_the_text(self):
        text = r"\u0061.x\t= 1"
        document = PROCESSES + f'{{"name":"p","text":"{text}"}}]}}'
        line = document.split("\n")[1]
        self.assertEqual(self.at(document, 1, 5), (2, line.index(text) + text.index("=") + 1))

    def test_what_is_not_there_is_the_first_byte(self):
        self.assertEqual(self.at(PROCESSES + "]}", 1, 5), (1, 1))
        self.assertEqual(matcher.place_in_text("/nonexistent", 1, 5), (1, 1))


@needs_program
class Judged(unittest.TestCase):
    def marked(self, document, stream):
        """What is marked of a session of one process."""
        with tempfile.TemporaryDirectory() as folder:
            for name, text in (("session.json", document), ("a.stream", stream)):
                with open(os.path.join(folder, name), "w", encoding="utf-8") as file:
                    file.write(text)
            done = subprocess.run([os.path.abspath(PROGRAM), "judge", "--explain", "session.json", "a.stream"], cwd=folder,
                                  capture_output=True, timeout=60, check=False)
            made = subprocess.run([sys.executable, SCRIPT], input=done.stderr, cwd=folder, capture_output=True,
                                  timeout=60, check=False)
            return [LINE.fullmatch(line).groups()[:3] for line in made.stdout.decode().splitlines()]

    def document(self, text):
        return json.dumps({"processes": [{"name": "a", "vars": {"x": 0}}], "predicates": [{"name": "p", "text": text}]})

    def test_a_line_of_a_stream(self):
        stream = '{"process":"a"}\n{"set":{"z":1}}\n{"end":true}\n'
        self.assertEqual(self.marked(self.document("a.x == 1"), stream), [("a.stream", "2", "9")])

    def test_a_predicate(self):
        document = self.document("a.x = 1")
        self.assertEqual(self.marked(document, ""), [("session.json", "1", str(document.index("= 1") + 1))])

    def test_a_session_that_is_judged(self):
        self.assertEqual(self.marked(self.document("a.x == 1"), '{"process":"a"}\n{"end":true}\n'), [])


if __name__ == "__main__":
    unittest.main()
