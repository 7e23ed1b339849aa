"""Tests of monitor_mend: python3 -m unittest discover -s recorders/python"""
import collections
import contextlib
import io
import itertools
import json
import os
import random
import re
import resource
import select
import shutil
import signal
import stat
import subprocess
import sys
import tempfile
import time
import unittest

import monitor_mend as mend
from import_cases import answers, with_clocks
from judging import FOLDER, needs_program, report_of
from monitor_recorder import EVENT_LIMIT, Recorder

WHOLE = b'{"process":"left"}\n{"set":{"x":1}}\n{"send":"left-1","set":{"x":2}}\n{"recv":"\xc3\xa9"}\n{}\n{"end":true}\n'
LEFT = b'{"process":"left"}\n'
ENDED = LEFT + b'{"end":true}\n'


def long_stream(size):
    """A stream of this many bytes, without an event and an end line, with the longest lines that are blank."""
    lines = LEFT + (b" " * mend.LINE_BYTE_LIMIT + b"\n") * (size // (mend.LINE_BYTE_LIMIT + 1) - 1)
    return lines + b" " * (mend.LINE_BYTE_LIMIT - 100) + b"\n" * (size - len(lines) - mend.LINE_BYTE_LIMIT + 100)


class Case(unittest.TestCase):
    def setUp(self):
        folder = tempfile.TemporaryDirectory()
        self.addCleanup(folder.cleanup)
        self.addCleanup(os.chdir, os.getcwd())
        os.chdir(folder.name)

    def write(self, name, data):
        with open(name, "wb") as file:
            file.write(data)

    def read(self, name):
        with open(name, "rb") as file:
            return file.read()

    def run_with(self, *words):
        """The status, the output and the errors of the program."""
        with contextlib.redirect_stdout(io.StringIO()) as out, contextlib.redirect_stderr(io.StringIO()) as errors:
            try:
                status = mend.main(list(words))
            except SystemExit as end:
                status = end.code
        return status, out.getvalue(), errors.getvalue()

    def mended(self, data, *words):
        """What is made of a stream with these bytes, and what is said of it."""
        self.write("left.stream", data)
        with contextlib.suppress(FileNotFoundError):
            os.remove("left.stream.mended")
        status, written, errors = self.run_with(*words, "left.stream")
        self.assertEqual((status, errors), (0, ""))
        self.assertEqual(self.read("left.stream"), data)
        return self.read("left.stream.mended"), written

    def refused(self, errors, *words):
        """It is refused by this line, and nothing is written."""
        before = sorted(os.listdir("."))
        self.assertEqual(self.run_with(*words), (1, "", f"refused: {errors}\n"))
        self.assertEqual(sorted(os.listdir(".")), before)


class Mended(Case):
    def test_a_stream_that_is_whole(self):
        for data in (WHOLE, WHOLE[:-1], WHOLE + b"what comes after the end\n", WHOLE.replace(b"\n", b"\r\n"),
                     b"\n \t\r\n" + WHOLE):
            self.assertEqual(self.mended(data), (data, "left.stream: 4 events, whole\n"))

    def test_a_stream_without_an_end_line(self):
        self.assertEqual(self.mended(LEFT + b"{}\n"),
                         (LEFT + b'{}\n{"end":true}\n', "left.stream: 1 events, mended:\n  the end line is added\n"))

    def test_a_line_that_was_cut_short(self):
        for torn in (b'{"set":{"x":1}', b'{"set":{"x":1}\n', b"{", b'{"recv":"\xc3', b"\0" * 70_000, b'{"en',
                     b'{"set":{"x":1}\n\n  \n'):
            self.assertEqual(self.mended(LEFT + b"{}\n" + torn),
                             (LEFT + b'{}\n{"end":true}\n',
                              "left.stream: 1 events, mended:\n  line 3 was cut short and is dropped\n"
                              "  the end line is added\n"))

    def test_a_whole_line_without_its_line_feed(self):
        self.assertEqual(self.mended(LEFT + b'{"set":{"x":1}}'),
                         (LEFT + b'{"set":{"x":1}}\n{"end":true}\n',
                          "left.stream: 1 events, mended:\n  the line feed of the last line is added\n"
                          "  the end line is added\n"))

    def test_a_stream_without_its_first_line(self):
        for data in (b"", b"\n", b'{"proc'):
            self.assertRegex(self.mended(data)[1], "(?s)^left.stream: 0 events, .*\n  the first line is added, by the "
                                                   "name of the file, for left\n  the end line is added\n$")
            self.assertEqual(self.read("left.stream.mended").lstrip(), ENDED)
        for name in ("left", "1.stream", "and.stream"):
            self.write(name, b"")
            self.refused(f"{name}: it has no line, so nobody knows whose stream it is: name the file as its process, "
                         "NAME.stream, or take it out", name)

    def test_a_cut_at_each_byte(self):
        whole = [line for line in WHOLE.splitlines(keepends=True)]
        for size in range(len(WHOLE)):
            text, _ = self.mended(WHOLE[:size])
            ends = itertools.accumulate(len(line) for line in whole)
            kept = sum(size >= end - 1 for end in ends)
            self.assertEqual(text, WHOLE[:size] if kept == len(whole) else b"".join(whole[:kept or 1]) + whole[-1])

    @needs_program
    def test_reports_of_what_was_cut_at_each_byte(self):
        document = {"processes": [{"name": "left", "vars": {"x": 0}}, {"name": "right", "vars": {}}],
                    "predicates": [{"name": "two", "text": "left.x == 2"}]}
        right = '{"process":"right"}\n{"send":"é"}\n{"end":true}\n'
        for size in range(len(WHOLE)):
            text, _ = self.mended(WHOLE[:size])
            events = len(text.splitlines()) - 2
            self.assertEqual(report_of(document, [text.decode(), right]).splitlines()[:2],
                             [f"session 2 processes {events + 1} events {int(events > 2)} messages",
                              "two possibly yes 2,0" if events >= 2 else "two possibly no"])


class Refused(Case):
    def test_a_stream_that_is_damaged_in_its_middle(self):
        why = ("it isn't JSON, and isn't the last line: the stream is damaged there, and what came after it can't be "
               "trusted")
        for middle in (b'{"set":{"x":1', b"\xff", b"\0" * 100, b'{"set":{"x"{"process":"left"}'):
            for rest in (b"{}", b'{"end":true}\n', b'{"set'):
                self.write("left.stream", LEFT + b"\n{}\n" + middle + b"\n" + rest)
                self.refused(f"left.stream line 4: {why}", "left.stream")

    def test_lines_that_no_stream_has(self):
        for line, why in (
                (b"7", "it isn't an object"), (b"[]", "it isn't an object"),
                (b'{"end":1}', "'end' is no field that it can have"),
                (b'{"end":true,"set":{}}', "'end' is no field that it can have"),
                (b'{"process":7}', "'process' is no field that it can have"),
                (b'{"sent":"m"}', "'sent' is no field that it can have"),
                (b'{"send":"m","recv":"n"}', "an event either sends or receives"),
                (b'{"send":7}', "the id of a message is a text of 1 to 64 bytes"),
                (b'{"recv":""}', "the id of a message is a text of 1 to 64 bytes"),
                (b'{"recv":null}', "the id of a message is a text of 1 to 64 bytes"),
                (b'{"recv":"' + b"m" * 65 + b'"}', "the id of a message is a text of 1 to 64 bytes"),
                (b'{"set":7}', "'set' isn't an object"),
                (b'{"set":{"x":1.0}}', "the value of 'x' is no whole number of 64 bits"),
                (b'{"set":{"x":-0}}', "the value of 'x' is no whole number of 64 bits"),
                (b'{"set":{"x":true}}', "the value of 'x' is no whole number of 64 bits"),
                (b'{"set":{"x":9223372036854775808}}', "the value of 'x' is no whole number of 64 bits"),
                (b'{"set":{"x":' + b"1" * 5000 + b"}}", "the value of 'x' is no whole number of 64 bits"),
                (b'{"set":{"x":1e400}}', "the value of 'x' is no whole number of 64 bits"),
                (b'{"set":{"x":NaN}}', "NaN is no value of JSON"),
                (b'{"set":{"x":1,"x":2}}', "a field stands there twice"),
                (b'{"send":"\\ud800"}', "half of a pair of surrogates"),
                (b"[" * 100_000, "it nests too deep"),
                (b'{"set":{"x":1}}' + b" " * 65_536, "it has over 65536 bytes"),
                (LEFT.strip(), "a second run begins here")):
            for rest in (b"", b"\n", b"\n{}\n"):
                self.write("left.stream", LEFT + line + rest)
                self.refused(f"left.stream line 2: {why}", "left.stream")
        self.write("left.stream", b"{}\n")
        self.refused('left.stream line 1: the first line isn\'t {"process":NAME}', "left.stream")

    def test_limits(self):
        for count in (EVENT_LIMIT, EVENT_LIMIT + 1):
            self.write("left.stream", LEFT + b"{}\n" * count)
            if count == EVENT_LIMIT:
                self.assertRegex(self.run_with("left.stream")[1], f": {EVENT_LIMIT} events, mended:\n")
                os.remove("left.stream.mended")
        self.refused("left.stream line 10002: the process would have over 10000 events", "left.stream")
        self.write("left.stream", LEFT + b" " * 65_537)
        self.refused("left.stream line 2: it has over 65536 bytes", "left.stream")
        self.write("left.stream", long_stream(mend.STREAM_BYTE_LIMIT + 1))
        self.refused("left.stream: it has over 16777216 bytes, and no stream has: often the wrong file", "left.stream")
        self.write("left.stream", long_stream(mend.STREAM_BYTE_LIMIT - 12))
        self.refused("left.stream: with an end line it has over 16777216 bytes, and no stream has", "left.stream")

    @needs_program
    def test_the_longest_that_can_be_mended(self):
        self.write("left.stream", long_stream(mend.STREAM_BYTE_LIMIT - 13))
        self.assertEqual(self.run_with("left.stream")[0], 0)
        self.assertEqual(os.path.getsize("left.stream.mended"), mend.STREAM_BYTE_LIMIT)
        document = {"processes": [{"name": "left", "vars": {}}], "predicates": [{"name": "none", "text": "false"}]}
        self.assertEqual(report_of(document, [self.read("left.stream.mended").decode()]).splitlines()[0],
                         "session 1 processes 0 events 0 messages")

    def test_time_for_the_length(self):
        signal.signal(signal.SIGALRM, lambda *_: self.fail("a stream takes too long"))
        signal.alarm(60)
        self.addCleanup(signal.alarm, 0)
        size = 2_000_000
        for part in (b"\n", b"[", b"{", b'{"a":', b'"', b"1", b"\0", b"\\", b'{"set":{"x":', b"x\n", b" ", b"\xff"):
            self.write("left.stream", LEFT + part * (size // len(part)))
            with contextlib.suppress(FileNotFoundError):
                os.remove("left.stream.mended")
            self.assertIn(self.run_with("left.stream")[0], (0, 1))


class Files(Case):
    def two(self):
        os.mkdir("run")
        self.write("run/left.stream", LEFT + b"{}\n{")
        self.write("run/right.stream", ENDED.replace(b"left", b"right"))
        self.write("run/session.json", b"{}")

    def test_copies_beside(self):
        self.two()
        said = ("run/left.stream: 1 events, mended:\n  line 3 was cut short and is dropped\n"
                "  the end line is added\nrun/right.stream: 0 events, whole\n")
        self.assertEqual(self.run_with("run"), (0, said, ""))
        self.assertEqual(sorted(os.listdir("run")), ["left.stream", "left.stream.mended", "right.stream",
                                                     "right.stream.mended", "session.json"])
        self.assertEqual(self.read("run/left.stream"), LEFT + b"{}\n{")
        self.refused("run/left.stream.mended is there already, and isn't written over", "run")

    def test_copies_in_a_folder(self):
        self.two()
        os.mkdir("empty")
        for out in ("a/b", "empty"):
            self.assertEqual(self.run_with("--out", out, "run")[0], 0)
            self.assertEqual(sorted(os.listdir(out)), ["left.stream", "right.stream"])
            self.assertEqual(self.read(f"{out}/left.stream"), LEFT + b'{}\n{"end":true}\n')
            status, _, errors = self.run_with("--out", out, "run")
            self.assertEqual((status, errors.splitlines()[-1].partition("error: ")[2]),
                             (2, f"{out} is no empty folder"))
        os.mkdir("other")
        self.write("other/left.stream", LEFT)
        self.refused("other/left.stream: a second file of this name can't stand in new", "--out", "new", "run", "other")

    def test_in_place(self):
        self.two()
        os.chmod("run/left.stream", 0o640)
        os.symlink("run/left.stream", "link.stream")
        before = os.stat("run/right.stream")
        self.assertEqual(self.run_with("--in-place", "link.stream", "run/right.stream")[0], 0)
        self.assertTrue(os.path.islink("link.stream"))
        self.assertEqual(self.read("run/left.stream"), LEFT + b'{}\n{"end":true}\n')
        self.assertEqual(stat.S_IMODE(os.stat("run/left.stream").st_mode), 0o640)
        self.assertEqual(os.stat("run/right.stream").st_ino, before.st_ino)
        self.assertEqual(sorted(os.listdir("run")), ["left.stream", "right.stream", "session.json"])

    def test_nothing_is_written_if_one_is_refused(self):
        self.two()
        self.write("run/other.stream", b"7\n")
        for words in ([], ["--out", "new"], ["--in-place"]):
            self.refused("run/other.stream line 1: it isn't an object", *words, "run")
        self.assertEqual(sorted(os.listdir("run")), ["left.stream", "other.stream", "right.stream", "session.json"])
        self.assertEqual(self.read("run/left.stream"), LEFT + b"{}\n{")

    def test_nothing_is_written_if_a_file_cannot_be(self):
        self.two()
        self.write("run/big.stream", LEFT.replace(b"left", b"big") + b"{}\n" * 5000)
        before = {name: self.read(f"run/{name}") for name in os.listdir("run")}
        for words in ([], ["--out", "new"], ["--in-place"]):
            done = subprocess.run([sys.executable, os.path.join(FOLDER, "monitor_mend.py"), *words, "run"],
                                  capture_output=True, encoding="utf-8", timeout=60, preexec_fn=lambda: (
                                      signal.signal(signal.SIGXFSZ, signal.SIG_IGN),
                                      resource.setrlimit(resource.RLIMIT_FSIZE, (10_000, 10_000))))
            self.assertEqual((done.returncode, done.stdout), (1, ""))
            self.assertRegex(done.stderr, "^refused: .*File too large")
            self.assertEqual({name: self.read(f"run/{name}") for name in os.listdir("run")}, before)
            self.assertEqual(os.listdir("."), ["run"])

    def test_what_is_no_stream(self):
        os.mkdir("none")
        os.mkfifo("pipe")
        self.write("left.stream", LEFT)
        self.refused("none: there is no file *.stream in it", "none")
        self.refused("nowhere: there is no such file", "nowhere")
        self.refused("pipe: this is no file", "pipe")
        self.refused("./left.stream: it is given twice", "left.stream", ".")


def note(event, text="", process="left", **others):
    fields = {"process": process, "event": event, "text": text, "place": "main.py:7", "clock": 1700000000.25}
    return json.dumps({**fields, **others}, ensure_ascii=False).encode() + b"\n"


class Notes(Case):
    def test_of_a_stream_that_is_whole(self):
        for notes in (b"", note(1, "\u2028") + note(2) + note(4), note(3)):
            self.write("left.notes.jsonl", notes)
            self.assertEqual(self.mended(WHOLE), (WHOLE, "left.stream: 4 events, whole\n"))
            self.assertEqual(self.read("left.notes.jsonl.mended"), notes)
            os.remove("left.notes.jsonl.mended")

    def test_of_a_stream_that_was_cut_short(self):
        self.write("left.notes.jsonl", note(1, "first") + note(2, "second \x1b") + note(3, "third") + note(4)[:-10])
        _, says = self.mended(LEFT + b'{}\n{"send":"left-')
        self.assertEqual(says, (
            "left.stream: 1 events, mended:\n  line 3 was cut short and is dropped\n"
            "  event 2 isn't in it, and its note is dropped: 'second \\x1b' at 'main.py:7'\n"
            "  event 3 isn't in it, and its note is dropped: 'third' at 'main.py:7'\n"
            "  line 4 of its notes was cut short and is dropped\n  the end line is added\n"))
        self.assertEqual(self.read("left.notes.jsonl.mended"), note(1, "first"))

    def test_many_that_were_cut(self):
        self.write("left.notes.jsonl", b"".join(note(event, "x" * 1000) for event in range(1, 10_001)))
        _, says = self.mended(LEFT)
        self.assertIn("\n  notes of 9992 more events that aren't in it are dropped\n", says)
        self.assertLess(len(says), 2000)
        self.assertEqual(self.read("left.notes.jsonl.mended"), b"")

    def test_a_cut_at_each_byte(self):
        notes = note(1, "é\u2028") + note(2)
        for size in range(len(notes)):
            self.write("left.notes.jsonl", notes[:size])
            _, says = self.mended(LEFT + b"{}\n{}\n")
            whole = notes[:size].rpartition(b"\n")
            self.assertEqual(self.read("left.notes.jsonl.mended"), whole[0] + whole[1])
            self.assertEqual("of its notes was cut short" in says, whole[2] != b"")
            os.remove("left.notes.jsonl.mended")

    def test_what_is_refused(self):
        self.write("left.stream", LEFT + b"{}\n{}\n")
        for notes, line, why in (
                (note(1) + b"{\n" + note(2), 2, "it isn't JSON in UTF-8"), (b"\xff\n", 1, "it isn't JSON in UTF-8"),
                (b"[" * 100_000 + b"\n", 1, "it nests too deep"), (b"[]\n", 1, "this is no note of an event of left"),
                (b"\n", 1, "it isn't JSON in UTF-8"), (note(1, process="right"), 1, "this is no note of an event of left"),
                (note("1"), 1, "this is no note of an event of left"),
                (note(True), 1, "this is no note of an event of left"),
                (note(0), 1, "the note of event 0 stands after that of event 0"),
                (note(2) + note(1), 2, "the note of event 1 stands after that of event 2"),
                (b'{"event":1,"event":2,"process":"left"}\n', 1, "a field stands there twice")):
            self.write("left.notes.jsonl", notes)
            self.refused(f"left.notes.jsonl line {line}: {why}; without this file the stream is mended alone",
                         "left.stream")
        os.remove("left.notes.jsonl")
        os.mkdir("left.notes.jsonl")
        self.refused("left.notes.jsonl: this is no file", "left.stream")

    def test_in_place_and_in_a_folder(self):
        self.write("left.notes.jsonl", note(1) + note(2))
        self.write("left.stream", LEFT + b"{}\n")
        self.write("right.stream", b'{"process":"right"}\n{}\n{"end":true}\n')
        self.write("right.notes.jsonl", note(1, process="right") + b"{")
        self.assertEqual(self.run_with("--out", "mended", ".")[0], 0)
        names = ["left.notes.jsonl", "left.stream", "right.notes.jsonl", "right.stream"]
        self.assertEqual(sorted(os.listdir("mended")), names)
        self.assertEqual(self.run_with("--in-place", "left.stream", "right.stream")[0], 0)
        for name in names:
            self.assertEqual(self.read(name), self.read(os.path.join("mended", name)))
        self.assertEqual((self.read(names[0]), self.read(names[2])), (note(1), note(1, process="right")))

    def test_of_incarnations(self):
        self.write("left.stream", LEFT + b"{}\n")
        self.write("left.notes.jsonl", note(1, "first") + note(2, "cut"))
        self.write("left_2.stream", b'{"process":"left_2"}\n{"recv":"left-ended"}\n{}\n{"end":true}\n')
        other = b'{ "event":2,"process":"left_2", "text":"\\u2028"}\n'
        self.write("left_2.notes.jsonl", note(1, "again \u2028", process="left_2", clock=0.5) + other)
        self.assertEqual(self.run_with("--one-process", "--out", "one", "left.stream", "left_2.stream")[0], 0)
        self.assertEqual(sorted(os.listdir("one")), ["left.notes.jsonl", "left.stream"])
        self.assertEqual(self.read("one/left.stream").count(b"\n"), 6)
        self.assertEqual(self.read("one/left.notes.jsonl"),
                         note(1, "first") + note(3, "again \u2028", clock=0.5)
                         + b'{"event": 4, "process": "left", "text": "\\u2028"}\n')


class Orphans(Case):
    def test_receipts_of_what_nobody_sends(self):
        lost = b'{"recv":"lost","set":{"x":1,"\xc3\xa9":2}}\n{"recv":"b"}\n'
        self.write("left.stream", LEFT + b'{"send":"a"}\n' + lost + b'{"recv"')
        self.write("right.stream", b'{"process":"right"}\n{"recv":"a"}\n{"recv":"gone"}')
        status, said, _ = self.run_with("--orphans-as-local", "left.stream", "right.stream")
        self.assertEqual(status, 0)
        self.assertEqual(self.read("left.stream.mended").splitlines()[1:-1],
                         [b'{"send":"a"}', b'{"set":{"x":1,"\xc3\xa9":2}}', b"{}"])
        self.assertEqual(self.read("right.stream.mended").splitlines()[1:-1], [b'{"recv":"a"}', b"{}"])
        self.assertEqual(said.splitlines()[:4], [
            "left.stream: 3 events, mended:", "  line 5 was cut short and is dropped",
            "  what none of these streams sends was received in line 3, 4, which is a local event now",
            "  the end line is added"])
        self.assertEqual(said.splitlines()[8][:40], "receipts that are local events now: 3. O")

    def test_a_send_in_the_line_that_is_dropped(self):
        self.write("left.stream", LEFT + b'{"send":"a"')
        self.write("right.stream", b'{"process":"right"}\n{"recv":"a"}\n' + b'{"end":true}\n')
        self.run_with("--orphans-as-local", "--in-place", "left.stream", "right.stream")
        self.assertEqual(self.read("right.stream"), b'{"process":"right"}\n{}\n{"end":true}\n')

    def test_many(self):
        self.write("left.stream", LEFT + b"".join(b'{"recv":"%d"}\n' % number for number in range(10)))
        self.assertRegex(self.run_with("--orphans-as-local", "left.stream")[1],
                         "in line 2, 3, 4, 5, 6, 7, 8, 9 and 2 more, which")


def random_streams(generator):
    """The lines of three or four processes. The last one hands on what it hears of the others, and sets nothing."""
    names = "abcd"[:generator.randrange(3, 5)]
    last = names[-1]
    streams = {name: [] for name in names}
    sent = {name: [] for name in names}
    for number in range(generator.randrange(6, 10)):
        name = generator.choice(names + last)
        line = {} if name == last else {"set": {"x": generator.randrange(3)}}
        heard = [other for other in names if other != name and sent[other]]
        if heard and generator.random() < 0.8:
            line["recv"] = sent[last if last in heard else generator.choice(heard)].pop(0)
            streams[name].append(line)
            line = {} if name == last else None
        if line is not None:
            line["send"] = f"{name}-{number}"
            sent[name].append(line["send"])
            streams[name].append(line)
    return streams


class Certain(Case):
    """That what is left out with the orders of orphans adds cuts and observations, and takes none away."""

    def kept(self, streams, lost):
        """The streams as they are mended if of the last process all but so many events is lost."""
        for name, lines in streams.items():
            end = lost if name == list(streams)[-1] else len(lines)
            self.write(f"{name}.stream", b"".join(map(mend.line_of, [{"process": name}, *lines[:end]])))
        read = [mend.read_stream(f"{name}.stream") for name in streams]
        for stream in read:
            mend.end_stream(stream)
        mend.make_orphans_local(read)
        return [[json.loads(line) for line in stream.text().splitlines()[1:-1]] for stream in read]

    def test_possibly_no_and_definitely_yes_still_hold(self):
        generator = random.Random(3)
        counts = collections.Counter()
        for _ in range(250):
            streams = random_streams(generator)
            whole = list(streams.values())
            kept = self.kept(streams, generator.randrange(len(whole[-1]) // 2 + 1))
            all_states = [(*state, 0) for state in itertools.product(range(3), repeat=len(whole) - 1)]
            for _ in range(5):
                states = set(generator.sample(all_states, generator.choice([1, 1, 2, 5])))
                (possibly, definitely, _), (possibly_now, definitely_now, _) = (
                    answers(with_clocks(lines), states) for lines in (whole, kept))
                self.assertLessEqual(possibly, possibly_now)
                self.assertLessEqual(definitely_now, definitely)
                counts += collections.Counter(
                    only_possible_now=possibly != possibly_now, no_more_definite=definitely != definitely_now,
                    still_impossible=not possibly_now, still_definite=definitely_now)
        self.assertEqual(len(counts), 4)
        self.assertGreater(min(counts.values()), 5, counts)


@needs_program
class Strictness(Case):
    """What is taken is what the monitor takes."""

    PARTS = ['"process"', '"left"', '"set"', '"x"', '"recv"', '"send"', '"m"', '"end"', "true", "1", "-0", "2.5", "{",
             "}", "{", "}", ":", ":", ",", "[", "]", '"\\ud83d\\ude00"', "\t", "9223372036854775807", "null", '""',
             "+1", "01"]
    LINES = ["{}", '{"set":{"x":1}}', '{"set":{}}', '{"send":"m"}', '{"recv":"n","set":{"x":-5}}', '{"process":"left"}',
             '{"end":true}', "7", '{"set":{"x":-9223372036854775808}}', '{"set":{"x":1e2}}', '{"set": {"x" : 3 } }']

    def line(self, generator):
        parts = re.findall(r'"[^"]*"|[^"]', generator.choice(self.LINES))
        for _ in range(generator.choice([0, 1, 1, 2])):
            place = generator.randrange(len(parts))
            parts[place:place + generator.randrange(2)] = [generator.choice(self.PARTS)]
        return "".join(parts)

    def test_lines_at_random(self):
        document = {"processes": [{"name": "left", "vars": {"x": 0}}, {"name": "other", "vars": {}}],
                    "predicates": [{"name": "none", "text": "false"}]}
        other = '{"process":"other"}\n{"recv":"m"}\n{"send":"n"}\n{"end":true}\n'
        generator = random.Random(5)
        taken = torn = faulty = 0
        for line in [*self.LINES, *(self.line(generator) for _ in range(400))]:
            stream = LEFT.decode() + '{"recv":"n"}\n' + line + '\n{"end":true}\n'
            report = report_of(document, [stream, other])
            word = report.split()[5] if report.startswith("refused stream 1") else "taken"
            parsed = mend.Stream("left")
            try:
                for number, text in enumerate(stream.encode().splitlines(keepends=True)[:3], 1):
                    parsed.take(number, text)
                found = "taken"
            except mend.Torn:
                found = "torn"
            except mend.Faulty as fault:
                found = "twice" if "twice" in str(fault) else "faulty"
            if found == "taken":
                self.assertIn(word, ("taken", "unknownvar"), line)
            elif found == "torn":
                self.assertEqual(word, "json", line)
            elif found == "faulty":
                self.assertNotEqual(word, "taken", line)
            taken, torn, faulty = taken + (found == "taken"), torn + (found == "torn"), faulty + (found == "faulty")
        self.assertGreater(min(taken, torn, faulty), 30)


class Incarnations(Case):
    def lines(self, path):
        return [json.loads(line) for line in self.read(path).splitlines()]

    def written(self, *streams):
        for process, *lines in streams:
            self.write(f"{process}.stream", b"".join(map(mend.line_of, [{"process": process}, *lines])))

    def made(self, *words):
        status, self.said, errors = self.run_with(*words, "--out", "out", ".")
        self.assertEqual((status, errors), (0, ""))
        return {name[:-7]: self.lines(f"out/{name}")[1:-1] for name in sorted(os.listdir("out"))}

    def test_they_are_joined(self):
        self.written(["left", {"set": {"x": 1}}], ["left_2", {"recv": "left-ended"}, {}, {"end": True}],
                     ["left_3", {"recv": "left_2-ended"}], ["right", {"end": True}])
        self.assertEqual(self.made("--killed", "x=0", "--killed", "left_3.x=7"), {
            "left": [{"set": {"x": 1}}, {"send": "left-ended", "set": {"x": 0}}],
            "left_2": [{"recv": "left-ended"}, {}, {"send": "left_2-ended"}],
            "left_3": [{"recv": "left_2-ended"}, {"set": {"x": 7}}], "right": []})
        self.assertEqual(self.said.splitlines()[:4], [
            "./left.stream: 2 events, mended:", "  an event is added after which left_2 begins",
            "  it is added that x=0", "  the end line is added"])
        os.rename("out", "again")
        self.assertEqual(self.run_with("again", "--out", "out")[1].count("events, whole\n"), 4)

    def test_as_one_process(self):
        self.written(["left", {"send": "a"}, {"recv": "m"}, {"end": True}],
                     ["left_2", {"recv": "left-ended"}, {"recv": "m", "set": {"x": 1}}, {"send": "a"}, {"recv": "a"}],
                     ["left_3", {"recv": "left_2-ended"}, {"send": "b", "set": {"x": 2}}, {"recv": "n"}],
                     ["right", {"recv": "a"}, {"send": "m"}, {"send": "n"}, {"recv": "b"}])
        self.assertEqual(self.made("--one-process", "--killed", "x=0"), {
            "left": [{"send": "a"}, {"recv": "m"}, {}, {}, {"set": {"x": 1}}, {}, {}, {"set": {"x": 0}}, {},
                     {"send": "b", "set": {"x": 2}}, {"recv": "n"}, {"set": {"x": 0}}],
            "right": [{"recv": "a"}, {"send": "m"}, {"send": "n"}, {"recv": "b"}, {"set": {"x": 0}}]})
        self.assertEqual(self.said.splitlines()[:5], [
            "./left.stream: 12 events, mended:", "  an event is added after which left_2 begins",
            "  what ./left_2.stream has follows", "  what ./left_3.stream has follows", "  the end line is added"])

    def test_what_cannot_be_one_process(self):
        self.written(["left"], ["left_2", {"recv": "left-ended"}], ["left_3", {"recv": "left-ended"}])
        self.refused("./left_3.stream: it comes after left, as ./left_2.stream does", "--one-process", ".")
        self.written(["left", {"recv": "left_3-ended"}], ["left_3", {"recv": "left-ended"}])
        os.remove("left_2.stream")
        self.refused("./left.stream: it comes after left_3, and that after it", "--one-process", ".")
        status, _, errors = self.run_with("--one-process", "--in-place", ".")
        self.assertEqual((status, errors.splitlines()[-1].partition("error: ")[2]),
                         (2, "with --one-process a stream is made of several files, so none can be replaced"))

    def test_no_room(self):
        self.written(["left", *[{}] * EVENT_LIMIT], ["left_2", {"recv": "left-ended"}])
        self.refused("./left.stream: left has 10000 events, and can't have {'send': 'left-ended'} too", ".")


class Killed(Case):
    """A process is killed at random moments and started again. What it and another one recorded is never refused."""

    RUNS, KILLS = 10, 5

    def start(self):
        """The number of a process, a fork of this one, that is `left`, and pipes from and to it."""
        from_left, to_right = os.pipe()
        from_right, to_left = os.pipe()
        process = os.fork()
        if process:
            os.close(to_right)
            os.close(from_right)
            return process, from_left, to_left
        try:
            self.be_left(from_right, to_right)
        finally:
            os._exit(0)

    def be_left(self, from_right, to_right):
        recorder = Recorder.to_file("left", "left.stream", again=True)
        recorder.event(x=1)
        for number in itertools.count():
            os.write(to_right, f"{recorder.send(x=number % 3)}\n".encode())
            recorder.event(x=2)
            recorder.receive(os.read(from_right, 100).decode().strip(), x=1)

    def talk(self, right, from_left, to_left, seconds):
        """Takes what left sends and answers it, until this time has passed or left has ended."""
        until = time.monotonic() + seconds
        while (left_over := until - time.monotonic()) > 0:
            if select.select([from_left], [], [], left_over)[0]:
                message = os.read(from_left, 100).decode().strip()
                if not message:
                    return
                right.receive(message, x=1)
                os.write(to_left, right.send(x=2).encode())

    def one_run(self, generator):
        """Every other time left is killed while it starts, and else once it has sent something."""
        with Recorder.to_file("right", "right.stream") as right:
            for number in range(self.KILLS):
                process, from_left, to_left = self.start()
                if number % 2 == 0:
                    self.assertTrue(select.select([from_left], [], [], 60)[0])
                self.talk(right, from_left, to_left, generator.choice([0.002, 0.01, 0.03]) * generator.random())
                os.kill(process, signal.SIGKILL)
                os.waitpid(process, 0)
                os.close(from_left)
                os.close(to_left)

    def judged(self, *words):
        status, said, errors = self.run_with(*words, "--out", "out", ".")
        self.assertEqual((status, errors), (0, ""))
        names = sorted(os.listdir("out"))
        document = {"processes": [{"name": name[:-7], "vars": {"x": 0}} for name in names],
                    "predicates": [{"name": "none", "text": "false"}], "width": 1}
        report = report_of(document, [self.read(f"out/{name}").decode() for name in names])
        shutil.rmtree("out")
        return len(names), report

    @needs_program
    def test_a_process_that_is_killed_and_started_again(self):
        generator = random.Random(9)
        incarnations = messages = 0
        for number in range(self.RUNS):
            os.mkdir(str(number))
            os.chdir(str(number))
            self.one_run(generator)
            streams = [name for name in os.listdir(".") if name.startswith("left") and name.endswith(".stream")]
            for name in generator.sample(streams, len(streams) // 2):
                with open(name, "ab") as file:
                    file.write(b'{"set":{"x":1}}'[:generator.randrange(15)])
            count, report = self.judged("--killed", "x=0")
            self.assertEqual(count, len(streams) + 1)
            self.assertRegex(report, "^session")
            messages += int(report.split()[5])
            count, report = self.judged("--one-process")
            self.assertEqual(count, 2)
            self.assertRegex(report, "^session 2 processes ")
            incarnations += len(streams)
            os.chdir("..")
        self.assertGreaterEqual(incarnations, self.RUNS * 3)
        self.assertGreater(messages, incarnations)

    def test_the_program(self):
        with Recorder.to_file("left", "left.stream") as recorder:
            recorder.event(x=1)
            recorder.abandon()
        done = subprocess.run([sys.executable, os.path.join(FOLDER, "monitor_mend.py"), "left.stream"],
                              capture_output=True, encoding="utf-8", timeout=60)
        self.assertEqual((done.returncode, done.stdout),
                         (0, "left.stream: 1 events, mended:\n  the end line is added\n"))


if __name__ == "__main__":
    unittest.main()
