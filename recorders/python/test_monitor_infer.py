"""Tests of monitor_infer: python3 -m unittest discover -s recorders/python"""
import contextlib
import glob
import io
import json
import os
import subprocess
import tempfile
import unittest

import monitor_infer as infer
from judging import FOLDER, PROGRAM, needs_program, report_of
from monitor_recorder import Recorder

END = '{"end":true}\n'
A = '{"process":"a"}\n'
B = '{"process":"b"}\n'


class Case(unittest.TestCase):
    def setUp(self):
        folder = tempfile.TemporaryDirectory()
        self.addCleanup(folder.cleanup)
        self.folder = folder.name

    def file(self, name, text):
        path = os.path.join(self.folder, name)
        with open(path, "w", encoding="utf-8") as file:
            file.write(text)
        return path

    def run_on(self, *words):
        out, errors = io.StringIO(), io.StringIO()
        with contextlib.redirect_stdout(out), contextlib.redirect_stderr(errors):
            status = infer.main([str(word) for word in words])
        return status, out.getvalue(), errors.getvalue()

    def document(self, *words):
        status, out, errors = self.run_on(*words)
        self.assertEqual((status, errors), (0, ""))
        return json.loads(out)

    def refused(self, *words):
        status, out, errors = self.run_on(*words)
        self.assertEqual((status, out), (1, ""))
        self.assertTrue(errors.startswith("refused: "))
        return errors[len("refused: "):].strip()


class Documents(Case):
    def test_names_in_their_order(self):
        left = self.file("left.stream", '{"process":"left"}\n{"set":{"y":1,"x":2}}\n\n{"set":{"x":3}}\n' + END)
        right = self.file("right.stream", '{"process":"right"}\n{"recv":"m"}\n')
        status, out, _ = self.run_on(right, left)
        self.assertEqual(status, 0)
        self.assertEqual(out, '{"processes":[\n  {"name":"right","vars":{}},\n  {"name":"left","vars":{"y":0,"x":0}}],\n'
                              ' "predicates":[\n  {"name":"replace_this","text":"false"}]}\n')

    def test_a_folder_and_initial_values(self):
        self.file("b.stream", B + '{"set":{"x":1,"y":1}}\n' + END)
        self.file("a.stream", A + '{"set":{"x":1}}\n' + END)
        self.file("other", "no stream")
        found = self.document(self.folder, "--initial", "x=7", "--initial", "b.x=-1")
        self.assertEqual(found["processes"],
                         [{"name": "a", "vars": {"x": 7}}, {"name": "b", "vars": {"x": -1, "y": 0}}])
        self.assertNotIn("version", found)

    def test_a_message_with_two_receipts(self):
        streams = [self.file("a.stream", A + '{"send":"m"}\n' + END),
                   self.file("b.stream", B + '{"recv":"m"}\n' + END),
                   self.file("c.stream", '{"process":"c"}\n{"recv":"m"}\n' + END)]
        self.assertEqual(self.document(*streams)["version"], 2)
        self.assertNotIn("version", self.document(*streams[:2]))

    def test_a_stream_that_was_cut_short(self):
        path = self.file("a.stream", A + '{"set":{"x":1}}\n{"set":{"y')
        self.assertEqual(self.document(path)["processes"], [{"name": "a", "vars": {"x": 0}}])

    def test_a_file_is_replaced_once_it_is_whole(self):
        path = self.file("a.stream", A + END)
        out = self.file("session.json", "before")
        self.assertEqual(self.run_on(path, "--out", out), (0, "", ""))
        with open(out, encoding="utf-8") as file:
            self.assertEqual(json.load(file)["processes"], [{"name": "a", "vars": {}}])
        self.refused(path, path + ".", "--out", out)
        with open(out, encoding="utf-8") as file:
            self.assertEqual(json.load(file)["processes"], [{"name": "a", "vars": {}}], "as before")

    @needs_program
    def test_the_document_is_one_of_the_monitor(self):
        for name, values in (("left", [1, 0]), ("right", [0, 1])):
            with Recorder.to_file(name, os.path.join(self.folder, name + ".stream")) as recorder:
                for value in values:
                    recorder.event(inside=value)
        texts = []
        for name in ("left", "right"):
            with open(os.path.join(self.folder, name + ".stream"), encoding="utf-8") as file:
                texts.append(file.read())
        self.assertEqual(report_of(self.run_on(self.folder)[1], texts),
                         "session 2 processes 4 events 0 messages\nreplace_this possibly no\n"
                         "replace_this definitely no right,right,left,left\n")


def inferred(paths):
    """What the program infers of the streams: its status, its output and its errors."""
    done = subprocess.run([PROGRAM, "infer", *paths], capture_output=True, encoding="utf-8", timeout=60)
    return done.returncode, done.stdout, done.stderr


@needs_program
class Program(Case):
    """The program's command `infer` writes the same bytes."""

    def test_the_examples(self):
        found = 0
        for folder in sorted(glob.glob(os.path.join(FOLDER, "..", "..", "examples", "*"))):
            streams = sorted(glob.glob(os.path.join(folder, "*.stream")))
            if not 1 <= len(streams) <= infer.PROCESS_LIMIT:
                continue
            with self.subTest(folder=folder):
                self.assertEqual(inferred(streams), self.run_on(*streams))
            found += 1
        self.assertGreater(found, 10)

    def test_streams_in_another_order_and_cut_short(self):
        left = self.file("left.stream", '{"process":"left"}\n{"set":{"y":1,"x":2}}\n \t\r\n{"set":{"x":3}}\n' + END)
        right = self.file("right.stream", '{"process":"right"}\n{"recv":"m"}\n{"recv":"\\u006d"}\n{"set":{"y')
        for paths in ([left, right], [right, left]):
            status, out, errors = self.run_on(*paths)
            self.assertEqual((status, errors), (0, ""))
            self.assertIn('"version":2', out)
            self.assertEqual(inferred(paths), (status, out, errors))

    def test_what_is_refused(self):
        a = self.file("a.stream", A + END)
        for name, text in (("empty", ""), ("event", "{}\n"), ("field", A + '{"sett":{"x":1}}\n'),
                           ("name", A + '{"set":{"a-b":1}}\n'), ("who", '{"process":"or"}\n'),
                           ("float", A + '{"set":{"x":1.0}}\n'), ("zero", A + '{"set":{"x":-0}}\n'),
                           ("torn", A + '{"set":\n{}\n'), ("again", A)):
            path = self.file(name + ".stream", text)
            self.refused(a, path)
            status, out, errors = inferred([a, path])
            self.assertEqual((status, out), (1, ""))
            self.assertTrue(errors.startswith(f"monitor: no document: {path}"), errors)


class Refusals(Case):
    def test_each_says_where(self):
        a = self.file("a.stream", A + END)
        self.assertEqual(self.refused(self.folder + "/none"), self.folder + "/none: there is no such file")
        self.assertIn("is a stream of a too", self.refused(a, self.file("again.stream", A + END)))
        self.assertIn("it is given twice", self.refused(a, a))
        self.assertIn("it has no line", self.refused(self.file("empty.stream", "")))
        self.assertIn("line 1: the first line isn't", self.refused(self.file("event.stream", "{}\n")))
        self.assertIn("line 2: 'sett' is no field", self.refused(self.file("field.stream", A + '{"sett":{"x":1}}\n')))
        self.assertIn("is no name of a variable", self.refused(self.file("name.stream", A + '{"set":{"a-b":1}}\n')))
        self.assertIn("is no name of a process", self.refused(self.file("who.stream", '{"process":"or"}\n')))
        many = ",".join(f'"v{number}":1' for number in range(17))
        self.assertIn("sets 17 variables", self.refused(self.file("many.stream", A + '{"set":{' + many + '}}\n')))
        self.assertEqual(self.refused(a, "--initial", "x=1"), "--initial: no stream sets x")
        self.assertEqual(self.refused(a, "--initial", "a.x=1"), "--initial: no stream sets a.x")
        names = [self.file(f"p{number}.stream", f'{{"process":"p{number}"}}\n') for number in range(17)]
        self.assertIn("there are 17 streams", self.refused(*names))

    def test_the_command_line(self):
        for words in ([], ["--initial", "x", "file"], ["--initial", "a.x=one", "file"]):
            with self.assertRaises(SystemExit) as ended, contextlib.redirect_stderr(io.StringIO()):
                infer.main(words)
            self.assertEqual(ended.exception.code, 2)


if __name__ == "__main__":
    unittest.main()
