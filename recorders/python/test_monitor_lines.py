"""Tests of monitor_lines: python3 -m unittest discover -s recorders/python"""
import json
import os
import subprocess
import sys
import tempfile
import unittest

from judging import FOLDER

SCRIPT = os.path.join(FOLDER, "monitor_lines.py")
ONE = b'{"processes":[]}\n---\n{"process":"a"}\n{"end":true}\n---\n{"process":"b"}\n{"end":true}\n'
PARTS = {"document": '{"processes":[]}\n', "streams": ['{"process":"a"}\n{"end":true}\n', '{"process":"b"}\n{"end":true}\n']}


def said(text=b"", *files):
    """The objects of the lines that are written of this input, or of these files, and the status."""
    with tempfile.TemporaryDirectory() as folder:
        for name, content in files:
            with open(os.path.join(folder, name), "wb") as file:
                file.write(content)
        done = subprocess.run([sys.executable, SCRIPT, *[name for name, _ in files]], input=text, cwd=folder,
                              capture_output=True, timeout=60, check=False)
    return [json.loads(line) for line in done.stdout.splitlines()], done.returncode


class Lines(unittest.TestCase):
    def test_one_bundle_has_its_document_and_its_streams(self):
        self.assertEqual(said(ONE), ([{**PARTS, "id": "1"}], 0))
        self.assertEqual(said(b"", ("run.bundle", ONE)), ([{**PARTS, "id": "run.bundle"}], 0))

    def test_several_bundles_are_divided_and_numbered(self):
        for divider in (b"===\n", b"===\r\n"):
            for last in (b"", divider):
                lines, status = said(ONE + divider + b"{}\n---\nx" + last.join([b"\n", b""]))
                self.assertEqual((lines[0], status), ({**PARTS, "id": "1"}, 0))
                self.assertEqual(lines[1], {"document": "{}\n", "id": "2", "streams": ["x\n"]})
                self.assertEqual(len(lines), 2)
        self.assertEqual([it["id"] for it in said(b"", ("a", ONE), ("b", ONE + b"===\n" + ONE))[0]], ["a", "b:1", "b:2"])

    def test_an_empty_bundle_between_others_is_a_line_too(self):
        lines, status = said(ONE + b"===\n===\n" + ONE)
        self.assertEqual(lines[1], {"document": "", "id": "2", "streams": []})
        self.assertEqual(([it["id"] for it in lines], status), (["1", "2", "3"], 0))

    def test_an_empty_input_holds_no_bundle_and_an_empty_file_is_one(self):
        self.assertEqual(said(), ([], 0))
        self.assertEqual(said(b"===\n")[0], [{"document": "", "id": "1", "streams": []}])
        self.assertEqual(said(b"", ("run.bundle", b""))[0], [{"document": "", "id": "run.bundle", "streams": []}])

    def test_only_a_whole_line_divides(self):
        text = b'{"name":"==="}\n====\n--\n---x\n'
        self.assertEqual(said(text)[0], [{"document": text.decode(), "id": "1", "streams": []}])

    def test_the_last_line_may_lack_its_end(self):
        self.assertEqual(said(b"{}\n---\nx\n---")[0], [{"document": "{}\n", "id": "1", "streams": ["x\n", ""]}])

    def test_a_bundle_that_is_not_utf_8_is_a_line_with_an_error_and_stops_nothing(self):
        lines, status = said(ONE + b"===\n\xff\n===\n" + ONE)
        self.assertEqual(lines[1], {"error": "no UTF-8", "id": "2"})
        self.assertEqual(([it["id"] for it in lines], status), (["1", "2", "3"], 1))

    def test_a_file_that_is_not_there_is_named(self):
        done = subprocess.run([sys.executable, SCRIPT, "/none"], capture_output=True, text=True, timeout=60, check=False)
        self.assertEqual((done.returncode, done.stderr), (2, "monitor_lines: /none: No such file or directory\n"))


if __name__ == "__main__":
    unittest.main()
