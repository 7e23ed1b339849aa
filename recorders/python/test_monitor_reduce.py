"""Tests of monitor_reduce: python3 -m unittest discover -s recorders/python

MONITOR_REDUCE_RUNS says how many runs are drawn, if not 100, and MONITOR_REDUCE_SEED with which seed."""
import collections
import json
import os
import random
import re
import resource
import signal
import subprocess
import sys
import tempfile
import tomllib
import unittest
from unittest import mock

import long_sessions
import long_streams
import monitor_reduce
import predicates
import reduce_cases as cases
from judging import FOLDER, PROGRAM, needs_program

RUNS = int(os.environ.get("MONITOR_REDUCE_RUNS", "100"))
SEED = int(os.environ.get("MONITOR_REDUCE_SEED", "1978"))
DOCUMENT = {"processes": [{"name": "a", "vars": {"x": 0}}, {"name": "b", "vars": {"x": 0}}],
            "predicates": [{"name": "p", "text": "a.x == 1 and b.x == 1"}]}
A, B, END = '{"process":"a"}\n', '{"process":"b"}\n', '{"end":true}\n'


class Case(unittest.TestCase):
    def setUp(self):
        folder = tempfile.TemporaryDirectory()
        self.addCleanup(folder.cleanup)
        self.addCleanup(os.chdir, os.getcwd())
        os.chdir(folder.name)

    def write(self, files):
        for name, text in files.items():
            with open(name, "wb") as file:
                file.write(text if isinstance(text, bytes) else (
                    text if isinstance(text, str) else json.dumps(text)).encode("utf-8", "surrogatepass"))

    def refused(self, said, files, *words):
        """The run is refused, with a line that has this text, and nothing is left."""
        self.write(files)
        streams = sorted(name for name in files if name.endswith(".stream"))
        before = sorted(os.listdir("."))
        status, out, errors = cases.run_with("session.json", *streams, "--to", "refused", *words)
        self.assertEqual((status, out, errors.count("\n")), (1, "", 1), errors)
        self.assertIn(said, errors)
        self.assertTrue(errors.startswith("refused: "), errors)
        self.assertEqual(sorted(os.listdir(".")), before)

    def taken(self, files, *words):
        """What is said of a run that is taken, by the lines of each file that is made."""
        self.write(files)
        streams = sorted(name for name in files if name.endswith(".stream"))
        status, out, errors = cases.run_with("session.json", *streams, "--to", "to", *words)
        self.assertEqual((status, errors), (0, ""))
        return out

    def read(self, path):
        with open(path, "rb") as file:
            return file.read()

    def lines(self, *path):
        return cases.lines_of(os.path.join("to", *path))


class Runs(Case):
    def test_drawn_runs_have_the_answers_of_what_is_made_of_them(self):
        windows, answers, versions = collections.Counter(), collections.Counter(), collections.Counter()
        for number in range(RUNS):
            with self.subTest(number=number), tempfile.TemporaryDirectory() as folder:
                whole, count = cases.try_run(random.Random(f"{SEED} {number}"), folder)
                windows[min(count, 3)] += 1
                answers.update(whole.answers.values())
                versions[whole.session.version] += 1
        least = RUNS // 20
        self.assertTrue(all(windows[count] > least for count in (1, 2, 3)), windows)
        self.assertTrue(all(answers[it] > least for it in ((True, True), (True, False), (False, False))), answers)
        self.assertTrue(all(versions[version] > least for version in (1, 2)), versions)

    def test_the_order_of_the_streams_changes_nothing(self):
        def made(folder, files, *words):
            cases.reduce_to(folder, files, *words)
            paths = [os.path.join(at, name) for at, _, names in os.walk(folder) for name in names]
            return {os.path.relpath(path, folder): self.read(path) for path in paths}
        for number in range(12):
            draw = random.Random(f"order {SEED} {number}")
            document, *streams = cases.write(cases.draw_run(draw), draw, f"run-{number}")
            for words in ((), ("--windows", "2")):
                folders = [made(f"{kind}-{number}-{len(words)}", [document, *given], *words)
                           for kind, given in (("one", sorted(streams)), ("other", sorted(streams, reverse=True)))]
                self.assertEqual(*folders)

    @needs_program
    def test_the_program_says_the_same_of_the_run_and_of_its_windows(self):
        for number in range(12):
            draw = random.Random(f"program {SEED} {number}")
            document, *streams = cases.write(cases.draw_run(draw), draw, f"run-{number}")
            whole = subprocess.run([PROGRAM, "judge", document, *streams, "--width", "65536"], capture_output=True,
                                   encoding="utf-8", check=True).stdout
            wanted = [line.split()[:3] for line in whole.splitlines()[1:]]
            for words in ((), ("--windows", "1")):
                folder = f"to-{number}-{len(words)}"
                cases.reduce_to(folder, [document, *streams], *words)
                status, out, errors = cases.run_with("--answers", folder, "--program", PROGRAM)
                self.assertEqual((status, errors), (0, ""))
                self.assertEqual([line.split()[:3] for line in out.splitlines() if line[0] != " "], wanted)


def skip_some(real):
    return lambda self, stream: real(self, stream) if stream.number_of(stream.at) % 3 else None


def lose_order(real):
    def receive(self, stream, message):
        now = stream.now
        is_taken = real(self, stream, message)
        if stream.kept is None:
            stream.now = now
        return is_taken
    return receive


def send_without_itself(real):
    def send(self, stream, message):
        now = stream.now
        if stream.kept is not None:
            counts = list(now[0])
            counts[stream.kept] = max(counts[stream.kept] - 1, 0)
            stream.now = tuple(counts), stream
        real(self, stream, message)
        stream.now = now
    return send


def begin_at_first(real):
    first = {}

    def document_of(self, window, is_shared):
        before = first.setdefault(self, window.before)
        return real(self, long_sessions.Window(window.begin, before, window.events), is_shared)
    return document_of


def receive_late(real):
    def lines_of(self, *words):
        lines = list(real(self, *words))
        for at in range(1, len(lines)):
            if lines[at][2] and not lines[at - 1][2]:
                lines[at - 1:at + 1] = lines[at], lines[at - 1]
        return iter(lines)
    return lines_of


def send_to_last(real):
    """Has the first event of each process send to the last one of each other one, whether it happened before or not."""
    def causes(self, kept):
        found = list(real(self, kept))
        for other, events in enumerate(self.events):
            cause = other, self.begin[other] + 1
            if events and found and other != kept and all(cause not in it for it in found):
                found[-1] = [*found[-1], cause]
        return iter(found)
    return causes


# What is planted: where, and what is made of what stands there.
PLANTS = {
    "an event that is seen is dropped": (monitor_reduce.Reduction, "see", skip_some),
    "order through a process that isn't kept is lost": (monitor_reduce.Reduction, "receive", lose_order),
    "a message doesn't carry the event that sends it": (monitor_reduce.Reduction, "send", send_without_itself),
    "a run is cut at a cut that is only consistent": (
        long_sessions.Writer, "known", lambda real: lambda self, clock, kept: self.total),
    "a window begins with the values of the run's start": (long_sessions.Writer, "document_of", begin_at_first),
    "one of several causes is left out": (
        long_sessions.Window, "causes", lambda real: lambda self, kept: (it[:1] for it in real(self, kept))),
    "a message orders what has no order": (long_sessions.Window, "causes", send_to_last),
    "a receipt comes after the event that needs it": (long_sessions.Writer, "lines_of", receive_late),
    "only the first comparison is looked at": (
        monitor_reduce, "view_of", lambda real: lambda process, comparisons: (
            real(process, comparisons)[0], lambda *values: real(process, comparisons)[1](*values)[:1])),
    "a clock forgets what came before": (monitor_reduce, "later", lambda real: lambda clock, other: other),
}


class Plants(unittest.TestCase):
    def test_what_is_planted_is_noticed(self):
        for name, (owner, attribute, change) in PLANTS.items():
            with self.subTest(name), mock.patch.object(owner, attribute, change(getattr(owner, attribute))):
                self.assertTrue(any(self.is_noticed(number) for number in range(80)))

    def is_noticed(self, number):
        with tempfile.TemporaryDirectory() as folder:
            try:
                cases.try_run(random.Random(f"plants {SEED} {number}"), folder)
            except (cases.Differs, ValueError):
                return True
        return False


class Predicates(unittest.TestCase):
    def test_texts_are_refused_as_the_program_refuses_them(self):
        with open(os.path.join(FOLDER, "..", "..", "cases", "predicates.toml"), "rb") as file:
            sessions = tomllib.load(file)["session"]
        count = 0
        for session in sessions:
            if not isinstance(session["document"], str):
                continue
            document, wanted = json.loads(session["document"]), re.match(
                r"refused predicate (\d+) (\w+ at \d+)\n", session["report"])
            variables = {process["name"]: process["vars"] for process in document["processes"]}
            said = []
            for number, predicate in enumerate(document["predicates"], 1):
                try:
                    predicates.comparisons_of(predicate["text"], variables)
                except predicates.NoPredicate as fault:
                    said.append((str(number), str(fault)))
            self.assertEqual(said[:1], [wanted.groups()] if wanted else [], session["name"])
            count += 1
        self.assertGreater(count, 40)

    def test_what_is_seen_of_a_process(self):
        variables = {"a": {"x": 0, "y": 0, "z": 0}, "b": {"x": 0}}
        for text, names, seen in (("a.x > 2 or not a.y == 1", ["x", "y"],
                                   {(0, 0): (False, False), (3, 1): (True, True)}),
                                  ("a.x + 2 * a.y < 3 - a.x", ["x", "y"], {(1, 0): (True,), (1, 1): (False,)}),
                                  ("a.x + b.x == 2 and a.y > 0", ["x", "y"], {(7, 1): (7, True)}),
                                  ("0 * a.z == b.x", ["z"], {(5,): (5,)}), ("b.x == 1 or true", [], {(): ()})):
            found, look = predicates.view_of("a", predicates.comparisons_of(text, variables))
            self.assertEqual(found, names)
            for values, view in seen.items():
                self.assertEqual(look(*values), view)


class Written(Case):
    def test_order_through_processes_that_are_not_kept(self):
        document = {**DOCUMENT, "processes": [*DOCUMENT["processes"], {"name": "c", "vars": {"y": 5}}], "width": 7}
        said = self.taken({
            "session.json": document, "a.stream": A + '{"set":{"x":1}}\n{"send":"1","set":{"x":2}}\n' + END,
            "b.stream": B + '{}\n{"recv":"2"}\n\n{"set":{"x":1}}\n' + END + "what follows",
            "c.stream": '{"process":"c"}\n{"recv":"1","set":{"y":6}}\n{"send":"2"}\n' + END})
        self.assertEqual(said, "3 processes, 7 events, of which 3 of 2 processes are seen\n"
                               "1 session, 3 events, 1 messages\n")
        self.assertEqual(sorted(os.listdir("to")), ["a.stream", "b.stream", "map.jsonl", "session.json"])
        self.assertEqual(self.lines("session.json"), [{**DOCUMENT, "width": 7}])
        self.assertEqual(self.lines("a.stream")[1:-1], [{"set": {"x": 1}}, {"send": "a-2", "set": {"x": 2}}])
        self.assertEqual(self.lines("b.stream")[1:-1], [{"recv": "a-2", "set": {"x": 1}}])
        self.assertEqual([(row["process"], row["event"], row["stream"], row["number"], row["line"])
                          for row in self.lines("map.jsonl")],
                         [("a", 0, "a.stream", 0, 1), ("a", 1, "a.stream", 1, 2), ("a", 2, "a.stream", 2, 3),
                          ("b", 0, "b.stream", 0, 1), ("b", 1, "b.stream", 3, 5)])

    def test_predicates_that_name_no_process(self):
        self.taken({"session.json": {**DOCUMENT, "predicates": [{"name": "p", "text": "1 + 1 == 2"}]},
                    "a.stream": A + '{"set":{"x":1}}\n' + END, "b.stream": B + END})
        self.assertEqual(self.lines("session.json")[0]["processes"], [{"name": "a", "vars": {}}])
        self.assertEqual(self.lines("a.stream"), [{"process": "a"}, {"end": True}])

    def test_several_that_need_one_event(self):
        self.taken({
            "session.json": {"version": 2, "processes": [{"name": name, "vars": {"x": 0}} for name in "abc"],
                             "predicates": [{"name": "p", "text": "a.x + b.x + c.x == 3"}]},
            "a.stream": A + '{"send":"1","set":{"x":1}}\n' + END, "b.stream": B + '{"recv":"1","set":{"x":1}}\n' + END,
            "c.stream": '{"process":"c"}\n{"recv":"1"}\n{"set":{"x":1}}\n' + END})
        self.assertEqual(self.lines("session.json")[0]["version"], 2)
        self.assertEqual(self.lines("c.stream")[1], {"recv": "a-1", "set": {"x": 1}})

    def test_windows_end_where_there_is_a_cut(self):
        token = "".join(f'{{"recv":"b{number}"}}\n{{"set":{{"x":{number}}}}}\n{{"send":"a{number}"}}\n'
                        for number in range(1, 6))
        other = "".join(f'{{"send":"b{number}","set":{{"x":{number}}}}}\n{{"recv":"a{number}"}}\n'
                        for number in range(1, 6))
        self.taken({"session.json": {**DOCUMENT, "predicates": [{"name": "p", "text": "a.x == b.x"}]},
                    "a.stream": A + token + END, "b.stream": B + other + END}, "--windows", "4")
        self.assertEqual(sorted(os.listdir("to")), ["window-0001", "window-0002", "window-0003"])
        self.assertEqual(self.lines("window-0002", "session.json")[0]["processes"],
                         [{"name": "a", "vars": {"x": 2}}, {"name": "b", "vars": {"x": 2}}])
        self.assertEqual(self.lines("window-0002", "a.stream")[1:3],
                         [{"recv": "b-5"}, {"send": "a-8", "set": {"x": 3}}])
        self.assertEqual(self.lines("window-0003", "map.jsonl")[0]["number"], 11)

    def test_more_windows_than_names_have_digits(self):
        token = "".join(f'{{"set":{{"x":{number % 2}}}}}\n' for number in range(1, 106))
        with mock.patch.object(long_sessions, "digits", lambda number: len(str(number))):
            self.taken({"session.json": {**DOCUMENT, "predicates": [{"name": "p", "text": "a.x == 1"}]},
                        "a.stream": A + token + END, "b.stream": B + END}, "--windows", "1")
        names = sorted(os.listdir("to"))
        self.assertEqual((len(names), names[0], names[-1]), (105, "window-001", "window-105"))
        self.assertEqual([self.lines(name, "map.jsonl")[-1]["number"] for name in names], list(range(1, 106)))

    def test_the_folder_is_new_or_empty(self):
        files = {"session.json": DOCUMENT, "a.stream": A + END, "b.stream": B + END}
        os.mkdir("to")
        self.taken(files)
        status, _, errors = cases.run_with("session.json", "a.stream", "b.stream", "--to", "to")
        self.assertEqual(status, 2)
        self.assertIn("to is no empty folder", errors)
        os.mkdir("runs")
        for name in files:
            os.rename(name, os.path.join("runs", name))
        self.assertEqual(cases.run_with("runs/session.json", "runs", "--to", "new/to")[0], 0)
        self.assertEqual(sorted(os.listdir("new")), ["to"])


class Faults(Case):
    def streams(self, a, b="", document=DOCUMENT):
        return {"session.json": document, "a.stream": A + a + END, "b.stream": B + b + END}

    def test_messages(self):
        send, receive = '{"send":"m"}\n', '{"recv":"m"}\n'
        twice = "b.stream line 2: 'm' is sent here, and in a.stream line 2: give each message an id of its own"
        self.refused(twice, self.streams(send, send))
        self.refused("a.stream line 4: 'm' is sent here, and in a.stream line 2",
                     self.streams(send + '{"recv":"n"}\n' + send, receive + '{"send":"n"}\n'))
        self.refused("b.stream line 3: nobody has sent 'm': add the stream of its sender",
                     self.streams("", "\n" + receive))
        self.refused("a.stream line 3: a receives what it sent itself", self.streams(send + receive))
        self.refused("a.stream line 2: a receives what it sent itself", self.streams(receive + send))
        self.refused("b.stream line 4: 'm' is received here, and in b.stream line 2: print the first receipt alone; if "
                     'several processes may receive it, write "version":2',
                     self.streams(send, receive + "{}\n" + receive))
        self.refused("b.stream line 3: 'm' is received here, and in b.stream line 2: print the first receipt alone",
                     self.streams(send, receive + receive, {**DOCUMENT, "version": 2}))
        self.refused("each of these comes before the next, and the last before the first, which can't have happened: "
                     "a.stream line 2 receives 'n', which b.stream line 3 sends; b.stream line 2 receives 'm', which "
                     "a.stream line 3 sends", self.streams('{"recv":"n"}\n' + send, receive + '{"send":"n"}\n'))

    def test_ids_that_come_twice_are_found_however_many_there_are(self):
        ids = [f"m{number}" for number in range(500)]
        sends, receipts = ["".join(f'{{"{kind}":"{it}"}}\n' for it in ids) for kind in ("send", "recv")]
        with mock.patch.object(long_streams.Hashes, "LIMIT", 100):
            self.taken(self.streams(sends, receipts))
            self.refused("a.stream line 503: 'm7' is sent here, and in a.stream line 9",
                         self.streams(f'{sends}{{"recv":"n"}}\n{{"send":"m7"}}\n', f'{receipts}{{"send":"n"}}\n'))
            self.refused("b.stream line 502: 'm7' is received here, and in b.stream line 9", self.streams(
                sends, f'{receipts}{{"recv":"m7"}}\n', {**DOCUMENT, "version": 2}))

    def test_lines(self):
        number = "the value of x is no whole number of 64 bits"
        for line, said in {
                "{": "it isn't JSON in UTF-8", "[]": "it isn't an object", '{"set":{"x":1.0}}': number,
                '{"set":{"x":-0}}': number, '{"set":{"x":true}}': number, '{"set":{"x":9223372036854775808}}': number,
                '{"set":{"x":NaN}}': number, '{"set":{"x":' + "9" * 5_000 + "}}": "", '{"at":NaN}': "'at' is no field",
                '{"set":[]}': "'set' isn't an object", '{"set":null}': "'set' isn't an object",
                '{"set":0}': "'set' isn't an object", '{"set":"x"}': "'set' isn't an object",
                '{"set":{"y":1}}': "it sets 'y', and the document has no such", '{"send":""}': "the id of a message is",
                '{"send":7}': "the id of a message is", '{"recv":[]}': "the id of a message is",
                '{"recv":null}': "the id of a message is", '{"send":"' + "é" * 513 + '"}': "the id of a message is",
                '{"send":"m","recv":"n"}': "an event either sends or receives",
                '{"end":false}': "'end' is no field", '{"end":true,"set":{}}': "'end' is no field",
                '{"end":1}': "'end' is no field", '{"process":"a"}': "a second run begins here",
                '{"send":"\\ud800"}': "half of a pair of surrogates", "{},{}": "it isn't JSON in UTF-8",
                '{"a":' * 2_000 + "1" + "}" * 2_000: "", '{"set":{"x":1}} {}': "it isn't JSON in UTF-8",
                '{"send":"\n"}': "it isn't JSON in UTF-8", '{"a":[{}\n{}]}': "it isn't JSON in UTF-8",
                '{"set":{"x":' + " " * 65_536 + "1}}": "it has over 65,536 bytes"}.items():
            self.refused(f"a.stream line 3: {said}", self.streams(f"{{}}\n{line}\n{{}}\n"))
        self.refused("a.stream line 2: it isn't JSON in UTF-8",
                     {**self.streams(""), "a.stream": A.encode() + b'{"send":"\xff"}\n'})

    def test_lines_that_are_just_short_enough(self):
        for line in ('{"send":"' + "é" * 512 + '"}\n', '{"set":{"x":1}' + " " * 65_521 + "}\n",
                     '{"set":{"x":1},"set":{}}\n', '{"set":{"x":-9223372036854775808}}\n{"set":{}}\n'):
            with tempfile.TemporaryDirectory(dir=".") as folder:
                self.write(self.streams(line + " \t{}\r\n\n"))
                self.assertEqual(cases.run_with("session.json", "a.stream", "b.stream", "--to", f"{folder}/to")[0::2],
                                 (0, ""))

    def test_streams_that_are_not_whole(self):
        for rest in ("", "{}\n", "{}", "\n\n"):
            self.refused("the stream isn't whole, for it has no end line", {**self.streams(""), "a.stream": A + rest})
        self.refused("a.stream line 1: the stream isn't whole", {**self.streams(""), "a.stream": ""})
        self.refused("a.stream line 3: it isn't JSON in UTF-8: a line that two writers mixed, or that was cut short",
                     {**self.streams(""), "a.stream": A + '{}\n{"se'})
        self.refused('a.stream line 1: the first line isn\'t {"process":NAME}',
                     {**self.streams(""), "a.stream": "{}\n"})

    def test_streams_of_other_processes(self):
        self.refused("c.stream line 2: the document has no process 'c'", {
            **self.streams(""), "c.stream": '\n{"process":"c"}\n' + END})
        os.remove("c.stream")
        self.refused("there is no stream of b: add it", {"session.json": DOCUMENT, "a.stream": A + END})
        self.refused("c.stream line 1: a.stream is a stream of a too", {**self.streams(""), "c.stream": A + END})
        os.remove("c.stream")
        os.mkdir("c.stream")
        self.assertIn("there is no file *.stream in it",
                      cases.run_with("session.json", "c.stream", "--to", "to")[2])
        self.assertIn("d: there is no such file", cases.run_with("session.json", "d", "--to", "to")[2])

    def test_documents(self):
        def with_(**fields):
            return {**DOCUMENT, **fields}
        many = [{"name": f"p{number}", "vars": {"x": 0}} for number in range(4_097)]
        text = " + ".join(f"p{number}.x" for number in range(17))
        for document, said in (
                ("{", "it isn't JSON in UTF-8"), ([], "it isn't an object"), (with_(more=1), "'more' is no field"),
                (with_(processes={}), "'processes' isn't there, or isn't a list"),
                (with_(processes=[]), "there are 0 processes, and a run has 1 to 4,096"),
                (with_(processes=many), "there are 4097 processes"),
                (with_(processes=[{"name": "a"}]),
                 "number 1 of 'processes' isn't an object with 'name' and 'vars' alone"),
                (with_(processes=[{"name": "a~2", "vars": {}}]), "a~2"),
                (with_(processes=[{"name": "a", "vars": {}}] * 2), "two processes have the name a"),
                (with_(processes=[{"name": "a", "vars": {"x": 1.5}}]), "the initial value of a.x is no whole number"),
                (with_(processes=[{"name": "a", "vars": {f"x{it}": 0 for it in range(17)}}]), "a has 17 variables"),
                (with_(predicates=[]), "there are 0 predicates"),
                (with_(width=0), "the width is a whole number from 1"),
                (with_(version=3), "the version is 1 or 2"), (with_(version=True), "the version is 1 or 2"),
                (with_(predicates=[{"name": "p", "text": "a.x = 1"}]), "predicate 1, p: character at byte 5"),
                (with_(predicates=[{"name": "p", "text": "a.x == c.x"}]), "predicate 1, p: unknownname at byte 8"),
                (with_(predicates=[{"name": "p", "text": "\ud800"}]), "predicate 1, p: character at byte 1"),
                (with_(processes=many[:20], predicates=[{"name": "p", "text": f"{text} == 3"}]),
                 "the predicates name 17 processes, and a session has 16")):
            self.refused(f"session.json: {said}" if "a~2" not in said else said, self.streams("", document=document))
        self.refused("there is no predicate q", self.streams(""), "--predicate", "q")

    def test_runs_of_which_too_much_is_seen(self):
        busy = "".join(f'{{"set":{{"x":{number % 2}}}}}\n' for number in range(1, 10_002))
        self.refused("a.stream line 10002: up to here over 10,000 events of a are seen, and a session has no more: cut "
                     "the run by --windows, or reduce it for one predicate", self.streams(busy))
        document = {**DOCUMENT, "predicates": [{"name": "p", "text": "a.x == b.x"}]}
        self.refused("it can't be cut before, for nowhere there has all that was seen happened before", self.streams(
            busy, busy, document), "--windows", "100")

    def test_a_file_that_changes_while_it_is_read(self):
        self.write(self.streams('{"send":"m"}\n' * 3))
        stream = long_streams.Stream("a.stream", 20)
        stream.join()
        with open("a.stream", "a", encoding="utf-8") as file:
            file.write("{}\n")
        with self.assertRaisesRegex(monitor_reduce.Refused, "a.stream: it changed while it was read"):
            stream.fill()

    def test_a_full_disk(self):
        self.write(self.streams("".join(f'{{"set":{{"x":{number % 2}}}}}\n' for number in range(1, 3_000))))

        def limit():
            signal.signal(signal.SIGXFSZ, signal.SIG_IGN)
            resource.setrlimit(resource.RLIMIT_FSIZE, (20_000, 20_000))
        for words in ((), ("--windows", "2000")):
            done = subprocess.run([sys.executable, os.path.join(FOLDER, "monitor_reduce.py"), "session.json",
                                   "a.stream", "b.stream", "--to", "to", *words], capture_output=True,
                                  encoding="utf-8", preexec_fn=limit, check=False)
            self.assertEqual((done.returncode, done.stdout, done.stderr),
                             (1, "", "refused: to: it can't be written: File too large\n"))
            self.assertEqual(sorted(os.listdir(".")), ["a.stream", "b.stream", "session.json"])

    def test_command_lines(self):
        for words in ([], ["session.json", "--to", "to"], ["session.json", "a", "--to", "to", "--windows", "0"],
                      ["session.json", "a", "--to", "to", "--windows", "10001"], ["a", "b", "--answers", "to"]):
            self.assertEqual(cases.run_with(*words)[0], 2)
        self.assertEqual(cases.run_with("--help")[0], 0)

    def test_answers_of_no_folder(self):
        os.mkdir("empty")
        self.assertIn("missing: there is no such folder", cases.run_with("--answers", "missing")[2])
        self.assertIn("empty: there is no session in it", cases.run_with("--answers", "empty")[2])
        self.taken(self.streams(""))
        self.assertIn("no-program: it can't be run", cases.run_with("--answers", "to", "--program", "./no-program")[2])

    @needs_program
    def test_answers_say_where(self):
        self.taken(self.streams('{"set":{"x":1}}\n{"send":"m","set":{"x":0}}\n', '\n{"set":{"x":1}}\n{"recv":"m"}\n'))
        self.assertEqual(cases.run_with("--answers", "to", "--program", PROGRAM),
                         (0, "p possibly yes\n  a after event 1: a.stream line 2\n  b after event 1: b.stream line 3\n"
                             "p definitely no\n", ""))
        with open("to/a.stream", "a", encoding="utf-8") as file:
            file.truncate(20)
        self.assertIn("status 1, refused stream 1 line 2 ",
                      cases.run_with("--answers", "to", "--program", PROGRAM)[2])


class Long(Case):
    def test_4096_processes(self):
        names = [f"p{number}" for number in range(4_096)]
        os.mkdir("run")
        for name, before, number in zip(names, [None, *names], range(4_096)):
            with open(f"run/{name}.stream", "w", encoding="utf-8") as file:
                received = f'{{"recv":"{before}{"x" * 1_000}"}}\n' if before else ""
                file.write(f'{{"process":"{name}"}}\n{received}{{"set":{{"x":1}}}}\n{{"send":"{name}{"x" * 1_000}",'
                           f'"set":{{"x":2}}}}\n{END}')
        self.write({"session.json": {"processes": [{"name": name, "vars": {"x": 0}} for name in names], "predicates": [
            {"name": "both", "text": "p0.x == 1 and p4095.x == 1"}]}})
        status, out, errors = cases.run_with("session.json", "run", "--to", "to")
        self.assertEqual((status, errors), (0, ""))
        self.assertEqual(out.split("\n")[0], "4096 processes, 12287 events, of which 4 of 2 processes are seen")
        self.assertEqual(self.lines("p4095.stream")[1], {"recv": "p0-2", "set": {"x": 1}})

    def test_a_long_run_takes_no_more_memory_than_a_short_one(self):
        program = ("import resource, sys, monitor_reduce\nassert not monitor_reduce.main(sys.argv[1:])\n"
                   "print(resource.getrusage(resource.RUSAGE_SELF).ru_maxrss)")
        taken = []
        for count in (800, 4_000):
            names = [f"p{number}" for number in range(5)]
            os.mkdir(f"run-{count}")
            for at, name in enumerate(names):
                waits = "".join(f'{{{{"recv":"{it} {{0}}"}}}}\n' for it in range(1, 5)) + "".join(
                    f'{{{{"send":"to {it} {{0}}"}}}}\n' for it in range(1, 5))
                waits = waits if at == 0 else f'{{{{"send":"{at} {{0}}"}}}}\n{{{{"recv":"to {at} {{0}}"}}}}\n'
                turns = "".join(f'{{"set":{{"x":{turn % 2}}}}}\n' + waits.format(turn) for turn in range(1, count))
                with open(f"run-{count}/{name}.stream", "w", encoding="utf-8") as file:
                    file.write(f'{{"process":"{name}"}}\n{turns}{END}')
            self.write({"session.json": {"processes": [{"name": name, "vars": {"x": 0}} for name in names],
                                         "predicates": [{"name": "all", "text": " + ".join(
                                             f"{name}.x" for name in names) + " == 6"}]}})
            done = subprocess.run([sys.executable, "-c", program, "session.json", f"run-{count}", "--to", f"to-{count}",
                                   "--windows", "500"], cwd=".", env={**os.environ, "PYTHONPATH": FOLDER},
                                  capture_output=True, encoding="utf-8", check=True)
            taken.append(int(done.stdout.split()[-1]))
        self.assertLess(taken[1], taken[0] + 12_000, taken)


if __name__ == "__main__":
    unittest.main()
