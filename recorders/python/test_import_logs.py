"""Tests of import_logs: python3 -m unittest discover -s recorders/python"""
import json
import os
import random
import signal
import subprocess
import sys
import unittest
from unittest import mock

import import_logs as importer
import import_vector_clocks
import importing
import test_import_vector_clocks as clocks
from import_cases import ImportCase
from judging import FOLDER, needs_program, report_of

RULES = os.path.join(FOLDER, "rules")
TALK = {"rules": [
    {"match": "^tells (?<peer>\\S+) (?<key>\\S+)", "send": "{key}", "to": "{peer}"},
    {"match": "^hears (?<peer>\\S+) (?<key>\\S+)", "receive": "{key}", "from": "{peer}"},
    {"match": "^says (?<key>\\S+)", "send": "{key}"},
    {"match": "^gets (?<key>\\S+)", "receive": "{key}"},
    {"match": "^x is (?<x>\\S+)", "set": {"x": "{x}"}}]}


class Case(ImportCase):
    importer = importer
    ending = "log"

    def run_by(self, rules, texts, *words):
        """Whether logs of processes a, b and so on are imported by these rules."""
        names = [f"{name}.log" for name, _ in zip("abcdef", texts)]
        for name, text in zip(names, texts):
            self.write(name, text)
        self.write("rules.json", json.dumps(rules))
        self.status, self.said, self.errors = self.run_on([], "--rules", "rules.json", *words, *names)
        return self.status == 0

    def lines(self, rules, texts, *words):
        """The streams that are made of them, without their first and last lines."""
        self.assertTrue(self.run_by(rules, texts, *words), self.errors)
        return self.streams()

    def streams(self, folder=""):
        self.document = json.loads(self.written_file(os.path.join(folder, "session.json")))
        return {process["name"]: [json.loads(line) for line in self.written_file(
            os.path.join(folder, f"{process['name']}.stream")).splitlines()[1:-1]]
            for process in self.document["processes"]}

    def write(self, name, text):
        with open(name, "wb") as file:
            file.write(text if isinstance(text, bytes) else text.encode())

    def is_refused(self, why, rules, texts, *words):
        self.assertFalse(self.run_by(rules, texts, *words))
        self.assertEqual((self.status, self.said, self.errors), (1, "", f"refused: {why}\n"))
        self.assertFalse(os.path.exists(self.out))


class Sessions(Case):
    def test_messages_and_variables(self):
        streams = self.lines(TALK, ["begins\ntells b m\nx is 1\n", "hears a m\r\nx is true\n"])
        self.assertEqual(streams, {"a": [{"send": "a-1"}, {"set": {"x": 1}}],
                                   "b": [{"recv": "a-1"}, {"set": {"x": 1}}]})
        self.assertEqual(self.document, {
            "processes": [{"name": "a", "vars": {"x": 0}}, {"name": "b", "vars": {"x": 0}}],
            "predicates": [{"name": "none", "text": "false"}]})
        self.assertEqual(self.said, "2 processes, 4 events, 1 messages, 0 events written as several\n"
                                    "entries by rules: 1: 1, 2: 1, 3: 0, 4: 0, 5: 2; by none: 1\n")
        self.assertEqual([json.loads(line) for line in self.written_file("notes.jsonl").splitlines()], [
            {"process": "a", "event": 1, "text": "tells b m", "place": "a.log:2"},
            {"process": "a", "event": 2, "text": "x is 1", "place": "a.log:3"},
            {"process": "b", "event": 1, "text": "hears a m", "place": "b.log:1"},
            {"process": "b", "event": 2, "text": "x is true", "place": "b.log:2"}])

    def test_keys_that_come_again_are_numbered_by_pairs(self):
        streams = self.lines(TALK, [
            "tells b m\ntells c m\ntells b m\nhears c m\n", "hears a m\ntells c m\nhears a m\n",
            "hears b m\ntells a m\nhears a m\n"])
        self.assertEqual(streams, {
            "a": [{"send": "a-1"}, {"send": "a-2"}, {"send": "a-3"}, {"recv": "c-1"}],
            "b": [{"recv": "a-1"}, {"send": "b-1"}, {"recv": "a-3"}],
            "c": [{"recv": "b-1"}, {"send": "c-1"}, {"recv": "a-2"}]})

    def test_keys_without_peers(self):
        streams = self.lines(TALK, ["says m\nsays n\nsays m\n", "gets m\ngets n\ngets m\n"])
        self.assertEqual(streams["b"], [{"recv": "a-1"}, {"recv": "a-2"}, {"recv": "a-3"}])
        self.assertNotIn("version", self.document)

    def test_a_broadcast(self):
        streams = self.lines(TALK, ["says m\nsays m\n", "gets m\nhears a m\n", "gets m\n"])
        self.assertEqual(streams, {"a": [{"send": "a-1"}, {"send": "a-2"}], "b": [{"recv": "a-1"}, {"recv": "a-2"}],
                                   "c": [{"recv": "a-1"}]})
        self.assertEqual(self.document["version"], 2)

    def test_what_a_process_sends_to_itself_is_no_message(self):
        streams = self.lines(TALK, ["tells a m\nhears a m\nsays n\ngets n\n", "x is 2\n"])
        self.assertEqual(streams["a"], [{}, {}, {}, {}])

    def test_a_send_that_nobody_received(self):
        self.assertEqual(self.lines(TALK, ["tells b m\ntells c m\n", "x is 2\n"])["a"], [{}, {}])

    def test_an_event_that_receives_and_sends(self):
        rules = {"rules": [*TALK["rules"], {"match": "^hands (\\S+) from (?<a>\\S+) on to (?<b>\\S+)", "receive": "k",
                                            "from": "{a}", "send": "k", "to": "{b}", "set": {"x": 3}}]}
        streams = self.lines(rules, ["tells b k\n", "hands k from a on to c\n", "hears b k\n"])
        self.assertEqual(streams["b"], [{"recv": "a-1", "set": {"x": 3}}, {"send": "b-1"}])
        self.assertEqual(len(self.written_file("notes.jsonl").splitlines()), 4)

    def test_one_log_of_all_processes(self):
        rules = {"process": "{who}", "rules": [
            {"match": "^(?<who>\\S+) tells (?<peer>\\S+)", "send": "m", "to": "{peer}"},
            {"match": "^(?<who>\\S+) hears", "receive": "m", "text": "{who} of {file}"}]}
        self.assertEqual(self.lines(rules, ["n.1 tells n.2\nn.2 hears\n"], "--name", "n.2=other"),
                         {"n_1": [{"send": "n_1-1"}], "other": [{"recv": "n_1-1"}]})
        self.assertIn('"text": "n.2 of a"', self.written_file("notes.jsonl"))

    def test_the_first_rule_that_matches_counts(self):
        rules = {"rules": [{"file": "a", "match": "x", "set": {"x": 1}}, {"match": "x", "set": {"x": 2, "y": True}}]}
        self.assertEqual(self.lines(rules, ["x\n", "x\n", "z\nx\n"]),
                         {"a": [{"set": {"x": 1}}], "b": [{"set": {"x": 2, "y": 1}}], "c": [{"set": {"x": 2, "y": 1}}]})

    def test_a_rule_for_some_logs(self):
        rules = {"rules": [{"file": "a|b", "match": "x"}, {"match": "x", "set": {"x": 1}}]}
        self.write("rules.json", json.dumps(rules))
        for name in ("a.log", "ab.log", "b.c.log", "b.txt"):
            self.write(name, "x\n")
        self.assertEqual(self.run_on([], "--rules", "rules.json", "a.log", "ab.log", "b.c.log", "b.txt")[0], 0)
        self.assertEqual(self.streams(), {"a": [{}], "ab": [{"set": {"x": 1}}], "b_c": [{"set": {"x": 1}}], "b": [{}]})

    def test_groups_that_match_nothing_set_nothing(self):
        rules = {"rules": [{"match": "x(?<x>\\d)?", "set": {"x": "{x}", "y": "1{x}"}}]}
        self.assertEqual(self.lines(rules, ["x\nx7\n"]), {"a": [{}, {"set": {"x": 7, "y": 17}}]})
        self.out = "other"
        self.lines(rules, ["x\n"])
        self.assertEqual(self.said.splitlines()[-1], "variables that no event sets: x, y")

    def test_variables_of_the_command_line(self):
        streams = self.lines(TALK, ["x is 1 and y is 2\n"], "--variables", "y is (?<y>.)", "--when", "and", "z=3",
                             "--initial", "z=9", "--width", "7")
        self.assertEqual(streams, {"a": [{"set": {"x": 1, "y": 2, "z": 3}}]})
        self.assertEqual((self.document["width"], self.document["processes"][0]["vars"]), (7, {"x": 0, "y": 0, "z": 9}))

    def test_entries_of_several_lines(self):
        rules = {"begin": "^\\d+ ", "rules": [{"match": "^(?<n>\\d+) failed\n  at (?<line>\\d+)", "set": {"n": "{n}"}}]}
        log = "preface\n1 failed\n  at 7\n  at 8\n\n2 failed\n3 failed\n  at 9\n"
        self.assertEqual(self.lines(rules, [log]), {"a": [{"set": {"n": 1}}, {"set": {"n": 3}}]})
        self.assertIn('"text": "1 failed\\n  at 7\\n  at 8\\n", "place": "a.log:2"', self.written_file("notes.jsonl"))


class Json(Case):
    def test_fields(self):
        rules = {"lines": "json", "process": "{who.name}", "rules": [
            {"match": {"kind": "^send$", "to.host": "^h(?<host>\\d)$"}, "send": "{n}", "to": "p{host}",
             "set": {"x": "{v}"}},
            {"match": {"kind": "^get$"}, "receive": "{n}", "from": "{from}", "set": {"x": "{a.b}", "y": "{none}"}}]}
        logs = ['{"kind":"send","who":{"name":"p1"},"to":{"host":"h2"},"n":7,"v":true}\n'
                '{"kind":"get","who":{"name":"p2"},"from":"p1","n":7,"a.b":5,"a":{"b":6},"y":null}\n{"other":[]}\n']
        self.assertEqual(self.lines(rules, logs), {"p1": [{"send": "p1-1", "set": {"x": 1}}],
                                                   "p2": [{"recv": "p1-1", "set": {"x": 5}}]})
        self.assertEqual(self.said.splitlines()[1:],
                         ["entries by rules: 1: 1, 2: 1; by none: 1", "variables that no event sets: y"])

    def test_a_pattern_for_the_line(self):
        rules = {"lines": "json", "rules": [{"match": '"x": *(?<x>\\d)', "set": {"x": "{x}", "y": "{y}"}}]}
        self.assertEqual(self.lines(rules, ['{"x":  4, "y": 5}']), {"a": [{"set": {"x": 4, "y": 5}}]})

    def test_clocks(self):
        rules = {"lines": "json", "process": "{host}", "rules": [{"match": {"host": "."}, "clock": "{clock}"}]}
        logs = ['{"host":"a","clock":{"a":1}}\n{"host":"b","clock":{"a":1,"b":1}}\n']
        self.assertEqual(self.lines(rules, logs), {"a": [{"send": "a-1"}], "b": [{"recv": "a-1"}]})


class Clocks(Case):
    def test_it_is_what_the_other_importer_makes(self):
        generator = random.Random(11)
        for number in range(40):
            hosts, events = clocks.random_run(generator)
            self.write("1.log", clocks.log(*((host, clock, f"x={value}") for host, clock, value in events)))
            made = []
            for module, words in ((importer, ["--rules", os.path.join(RULES, "govector.toml")]),
                                  (import_vector_clocks, [])):
                self.importer, self.out = module, f"{number}-{len(made)}"
                self.assertEqual(self.run_on([], *words, "--variables", "x=(?<x>.)", "1.log")[0], 0)
                made.append((self.streams(), self.document))
            self.assertEqual(*made)

    def test_refused(self):
        rules = {"rules": [{"match": "^(?<host>.) (?<clock>.*)$", "process": "{host}", "clock": "{clock}"}]}
        self.is_refused("a.log:2: a's own count skips: it is 3, and the next is 2", rules, ['a {"a":1}\na {"a":3}\n'])
        self.is_refused("a.log:1: it knows of event 1 of b, of which the logs have 0 events", rules,
                        ['a {"a":1,"b":1}\n'])


class Runs(Case):
    RULES = {**TALK, "run": "^=== "}

    def test_runs(self):
        self.run_by(self.RULES, ["preface\n=== 1\ntells b m\n=== 2\ntells b m\nx is 1\n=== end\n",
                                 "hears a m\n=== \nhears a m\n=== \nx is 2\n"])
        self.assertEqual(sorted(os.listdir(self.out)), ["1", "2", "3"])
        self.assertEqual(self.said.splitlines()[:3], [
            "run 1: 2 processes, 2 events, 1 messages, 0 events written as several",
            "run 2: 2 processes, 3 events, 1 messages, 0 events written as several",
            "run 3: 2 processes, 1 events, 0 messages, 0 events written as several"])
        self.assertEqual(self.streams("2"), {"a": [{"send": "a-1"}, {"set": {"x": 1}}], "b": [{"recv": "a-1"}]})
        self.assertEqual(self.streams("3"), {"a": [], "b": [{"set": {"x": 2}}]})
        self.assertEqual(self.written_file("1/notes.jsonl").splitlines()[-1],
                         '{"process": "b", "event": 1, "text": "hears a m", "place": "b.log:1"}')

    def test_messages_stay_within_a_run(self):
        self.is_refused("b.log:2: it receives 'm', which a didn't send to it (--orphans-as-local makes a local event "
                        "of it)", self.RULES, ["x is 1\n=== \ntells b m\n", "x is 1\nhears a m\n"])

    def test_nothing_is_written_if_a_later_run_is_refused(self):
        rules = {"run": "^=== ", "process": "{p}", "rules": [{"match": "^(?<p>\\S+)"}]}
        self.is_refused("a.log:10003: with this event p has over 10000 events", rules, ["p\n=== \n" + "p\n" * 10_001])


class Refused(Case):
    def test_messages(self):
        local = "(--orphans-as-local makes a local event of it)"
        self.is_refused(f"b.log:2: it receives 'n', which a didn't send to it {local}", TALK,
                        ["tells b m\n", "hears a m\nhears a n\n"])
        self.is_refused(f"b.log:1: it receives 'm', which nobody sent to it {local}", TALK,
                        ["tells c m\n", "gets m\n"])
        self.is_refused(f"b.log:2: it receives 'm', as number 2 with this key, and a sent 1 {local}", TALK,
                        ["tells b m\n", "hears a m\nhears a m\n"])
        self.is_refused("c.log:1: it receives 'm', which was sent at a.log:1 and at b.log:2: put into the rules from "
                        "whom it is and to whom, or more into the key", TALK, ["says m\n", "\ntells c m\n", "gets m\n"])

    def test_orphans_as_local_events(self):
        streams = self.lines(TALK, ["tells b m\n", "hears a m\nhears a m\nhears z m\ngets q\n"], "--orphans-as-local")
        self.assertEqual(streams["b"], [{"recv": "a-1"}, {}, {}, {}])
        self.assertEqual(self.said.splitlines()[2],
                         "receipts that are local events, since nobody sent what they received: 3")

    def test_values(self):
        self.is_refused("a.log:1: the value of x is 'many', which is no whole number of 64 bits", TALK, ["x is many\n"])
        self.is_refused("a.log:1: it sets x to 1 and to 2", {"rules": [{"match": "(?<x>.)", "set": {"x": 1}}]}, ["2\n"],
                        "--variables", "(?<x>.)")

    def test_lines(self):
        hint = "(--skip-unreadable leaves it out)"
        self.is_refused(f"a.log:2: this isn't UTF-8 {hint}", TALK, [b"x is 1\n\xff\n"])
        rules = {"lines": "json", "rules": [{"match": {"x": "."}, "set": {"x": "{x}"}}]}
        for line, why in (('{"x":1', "this isn't JSON"), ("7", "this is no object of JSON"), ("[" * 9999, "this isn't "
                                                                                              "JSON")):
            self.is_refused(f"a.log:2: {why} {hint}", rules, [f'{{"x":1}}\n{line}\n{{"x":2}}\n'])
            self.assertEqual(self.lines(rules, [f'{{"x":1}}\n{line}\n{{"x":2}}\n'], "--skip-unreadable"),
                             {"a": [{"set": {"x": 1}}, {"set": {"x": 2}}]})
            self.assertEqual(self.said.splitlines()[-1], f"left out: 1, of which the first is a.log:2: {why}")
            self.out += "+"
        self.is_refused("a.log, b.log: by the rules of rules.json there is no event", TALK, ["z\n", ""])
        self.is_refused("a.log:1: the rule wants 'p{q}', and not all of that is there",
                        {"lines": "json", "process": "p{q}", "rules": [{"match": "."}]}, ["{}\n"])

    def test_limits(self):
        rules = {"process": "{p}", "rules": [{"match": "^(?<p>\\S+)"}]}
        self.assertEqual(len(self.lines(rules, ["".join(f"p{n}\n" for n in range(16))])), 16)
        self.out = "other"
        self.is_refused("a.log:17: 'p16' would be process 17, and a session has at most 16", rules,
                        ["".join(f"p{n}\n" for n in range(17))])
        self.is_refused("a.log:10001: with this event p has over 10000 events", rules, ["p\n" * 10_002])
        self.is_refused("rules.json: a process has at most 16 variables, and not 17",
                        {"rules": [{"match": ".", "set": {f"x{n}": 1 for n in range(17)}}]}, ["z\n"])

    def test_rules(self):
        for rules, why in (
                ([], ": this isn't an object"), ({"rules": []}, ": there are no rules"),
                ({"rule": []}, ": there is no field 'rule'; there are lines, begin, run, process, rules"),
                ({"rules": 7}, ": rules has a value of another type"),
                ({"lines": "xml", "rules": []}, ': lines is "text" or "json"'),
                ({"begin": "(", "rules": []}, ": begin: missing ), unterminated subpattern at position 0 in '('"),
                ({"lines": "json", "begin": "x", "rules": []},
                 ": begin says where an entry of several lines begins, and one of JSON is one line"),
                ({"rules": [{}]}, ": rule 1: it has no match"), ({"rules": [7]}, ": rule 1: this isn't an object"),
                ({"rules": [{"match": "x"}, {"match": {"x": "y"}}]},
                 ': rule 2: match has fields, and only lines of JSON have: say lines = "json"'),
                ({"lines": "json", "rules": [{"match": {"x": 7}}]}, ": rule 1: a pattern is a text"),
                ({"rules": [{"match": "x", "to": "y"}]}, ": rule 1: to stands without send"),
                ({"rules": [{"match": "x", "from": "y", "send": "z"}]}, ": rule 1: from stands without receive"),
                ({"rules": [{"match": "x", "clock": "y", "send": "z"}]},
                 ": rule 1: a clock says what was sent and received, so neither stands beside it"),
                ({"rules": [{"match": "x", "clock": "y"}, {"match": "x"}]}, ": either each rule has a clock, or none"),
                ({"rules": [{"match": "x", "send": "{y}"}]}, ": rule 1: send wants {y}, and match has no such group"),
                ({"rules": [{"match": "x", "set": {"z": "{y}"}}]},
                 ": rule 1: z wants {y}, and match has no such group"),
                ({"rules": [{"match": "x", "set": {"z": 1.5}}]},
                 ": rule 1: z is set to what is neither a text nor a whole number")):
            self.is_refused(f"rules.json{why}", rules, ["x\n"])
        self.assertFalse(self.run_by({"rules": [{"match": "x", "set": {"and": 1}}]}, ["x\n"]))
        self.assertRegex(self.errors, "^refused: rules.json: rule 1: 'and' is no name of a variable")

    def test_files_of_rules(self):
        for text, why in (('{"rules":[],"rules":[]}', "a field stands twice"), ("{", "Expecting")):
            self.write("r.json", text)
            self.assertRegex(self.run_on(["x"], "--rules", "r.json")[2], f"^refused: r.json: {why}")
        self.write("r.toml", "rules = [")
        self.assertRegex(self.run_on(["x"], "--rules", "r.toml")[2], "^refused: r.toml: ")
        with mock.patch.dict(sys.modules, {"tomllib": None}):
            self.assertEqual(self.run_on(["x"], "--rules", "r.toml")[2], "refused: r.toml: this Python reads no TOML, "
                             "3.11 is the first that does: write it as JSON\n")
        self.assertRegex(self.run_on(["x"], "--rules", "none")[2], "^refused: .*No such file")


class Long(Case):
    """A log is read in time for its length: lines have a limit, and so has the time for one."""

    def setUp(self):
        super().setUp()
        signal.signal(signal.SIGALRM, lambda *_: self.fail("a log takes too long"))
        signal.alarm(120)
        self.addCleanup(signal.alarm, 0)

    def test_a_line_of_a_million_bytes(self):
        for rules, line in ((TALK, "x" * 10 ** 6), (TALK, "x is " + " " * 10 ** 6),
                            ({"lines": "json", "rules": [{"match": {"x": "1"}}]}, '{"x":' * (10 ** 6 // 5))):
            event = '{"x":1}' if "lines" in rules else "x is 1"
            self.is_refused("a.log:2: the line has over 16384 bytes (--skip-unreadable leaves it out)", rules,
                            [f"{event}\n{line}\n{event}\n"])
            for end in (f"\n{event}\n", ""):
                self.assertEqual(len(self.lines(rules, [f"{event}\n{line}{end}"], "--skip-unreadable")["a"]),
                                 2 if end else 1)
                self.assertEqual(self.said.splitlines()[-1],
                                 "left out: 1, of which the first is a.log:2: the line has over 16384 bytes")
                self.out += "+"

    def test_the_limit(self):
        for size, is_taken in ((16_384, True), (16_385, False)):
            for end in ("", "\n", "\r\n"):
                self.assertEqual(self.run_by({"rules": [{"match": "^z+$"}]}, ["z" * size + end]), is_taken)
                self.out += "+"

    def test_an_entry_of_many_lines(self):
        rules = {"begin": "^e", "rules": [{"match": "^event"}]}
        log = "event\n" + "\n" * 100_000 + "event\n"
        self.is_refused("a.log:1: the entry has over 16384 bytes (--skip-unreadable leaves it out)", rules, [log])
        self.assertEqual(self.lines(rules, [log], "--skip-unreadable"), {"a": [{}]})

    def test_patterns_that_take_more_than_time_for_the_length(self):
        self.assertEqual(importing.PATTERN_SECONDS, 1)
        shorter = mock.patch.object(importing, "PATTERN_SECONDS", 0.2)
        shorter.start()
        self.addCleanup(shorter.stop)
        why = "a.log:2: the patterns take over 0.2 seconds here"
        slow = "(z+)+y"
        for rules, words in (({"rules": [{"match": slow}]}, []), ({"rules": [{"match": "(z|z)*y"}]}, []),
                             ({"rules": [{"match": "z*z*z*z*y"}]}, []), ({"run": slow, "rules": [{"match": "z"}]}, []),
                             ({"begin": slow, "rules": [{"match": "z"}]}, []),
                             ({"rules": [{"match": "z"}]}, ["--when", slow, "x=1"])):
            self.is_refused(why, rules, ["x\n" + "z" * 16_384 + "\n"], *words)
            self.assertEqual(signal.getitimer(signal.ITIMER_VIRTUAL), (0, 0))


class Given(Case):
    """The files of rules that stand beside the importer."""

    def made(self, rules, *words):
        self.status, self.said, self.errors = self.run_on([], "--rules", os.path.join(RULES, rules), *words)
        self.assertEqual((self.status, self.errors), (0, ""))
        return self.streams()

    def report(self, predicate):
        names = [process["name"] for process in self.document["processes"]]
        self.document["predicates"] = [{"name": "asked", "text": predicate}]
        return report_of(self.document, [self.written_file(f"{name}.stream") for name in names]).splitlines()

    def test_all_of_them_are_tried_here(self):
        self.assertEqual(sorted(os.listdir(RULES)), ["govector.toml", "journal.json", "mosquitto.toml", "trace.toml"])

    def test_govector(self):
        self.write("client.log", clocks.CLIENT)
        self.write("server.log", clocks.SERVER)
        self.assertEqual(self.made("govector.toml", "--variables", r"waiting=(?<waiting>\d+)", "client.log",
                                   "server.log"), {
            "client": [{}, {"send": "client-1", "set": {"waiting": 1}}, {"recv": "server-1", "set": {"waiting": 0}}],
            "server": [{}, {"recv": "client-1"}, {"send": "server-1"}]})
        self.assertEqual(self.written_file("notes.jsonl").splitlines()[1],
                         '{"process": "client", "event": 2, "text": "asking, waiting=1", "place": "client.log:3"}')

    def test_govector_with_times(self):
        self.write("a.log", '1546300800000000000 a {"a":1}\nINFO begins {\n1546300800000000001 a {"a":2}\nn=7 {}\n')
        self.assertEqual(self.made("govector.toml", "--variables", "n=(?<n>.)", "a.log"),
                         {"a": [{}, {"set": {"n": 7}}]})

    @needs_program
    def test_mosquitto(self):
        self.write("boss.log", "Client boss sending CONNECT\nClient boss received CONNACK (0)\n" + "".join(
            f"Client boss sending PUBLISH (d0, q1, r0, m{n}, 'leader', ... (1 bytes))\n"
            f"Client boss received PUBACK (Mid: {n}, RC:0)\n" for n in (1, 1)))
        self.write("broker.log", "1795815533: mosquitto version 2.0.11 starting\n" + "".join(
            f"1795815533: Received PUBLISH from boss (d0, q1, r0, m1, 'leader', ... (1 bytes))\n"
            f"1795815533: Sending PUBLISH to c1 (d0, q1, r0, m{n}, 'leader', ... (1 bytes))\n"
            f"1795815533: Sending PUBLISH to c2 (d0, q1, r0, m{n}, 'leader', ... (1 bytes))\n"
            f"1795815533: Sending PUBACK to boss (m1, rc0)\n"
            f"1795815533: Received PUBACK from c2 (Mid: {n}, RC:0)\n"
            f"1795815533: Received PUBACK from c1 (Mid: {n}, RC:0)\n" for n in (1, 2)))
        for client in ("c1", "c2"):
            self.write(f"{client}.log", f"Client {client} sending CONNECT\nSubscribed (mid: 1): 1\n" + "".join(
                f"Client {client} received PUBLISH (d0, q1, r0, m{n}, 'leader', ... (1 bytes))\n"
                f"Client {client} sending PUBACK (m{n}, rc0)\n{n}\n" for n in (1, 2)))
        self.made("mosquitto.toml", "boss.log", "broker.log", "c1.log", "c2.log")
        self.assertEqual(self.said.splitlines()[0], "4 processes, 28 events, 12 messages, 0 events written as several")
        self.assertEqual(self.report("c1.seen == 1 and c2.seen == 2")[:2],
                         ["session 4 processes 28 events 12 messages", "asked possibly yes 3,9,3,6"])

    @needs_program
    def test_a_trace_of_json_lines(self):
        self.write("trace.ndjson", '{"N":2}\n' + "".join(json.dumps(line) + "\n" for line in (
            {"event": "d", "node": 1, "active": False},
            {"event": ">", "node": 0, "pkt": {"snd": 0, "rcv": 1, "msg": {"type": "tok"}}},
            {"event": "<", "node": 1, "active": True, "pkt": {"snd": 0, "rcv": 1, "msg": {"type": "tok"}}},
            {"event": ">", "node": 0, "pkt": {"snd": 0, "rcv": 1, "msg": {"type": "tok"}}},
            {"event": "d", "node": 0, "active": False},
            {"event": "<", "node": 1, "active": False, "pkt": {"snd": 0, "rcv": 1, "msg": {"type": "tok"}}})))
        self.assertEqual(self.made("trace.toml", "--variables", '"active": (?<active>true|false)', "--initial",
                                   "active=1", "trace.ndjson"), {
            "node1": [{"set": {"active": 0}}, {"recv": "node0-1", "set": {"active": 1}},
                      {"recv": "node0-2", "set": {"active": 0}}],
            "node0": [{"send": "node0-1"}, {"send": "node0-2"}, {"set": {"active": 0}}]})
        self.assertEqual(self.report("node0.active == 0 and node1.active == 1")[1], "asked possibly yes 0,3")

    @needs_program
    def test_a_journal(self):
        def line(unit, message):
            return json.dumps({"__REALTIME_TIMESTAMP": "1795815533000000", "_PID": "7", "PRIORITY": "6",
                               "_SYSTEMD_UNIT": unit, "MESSAGE": message}) + "\n"

        self.write("journal.json", "".join((
            line("init.scope", "Started worker."), line("worker@a.service", "active=1"),
            line("worker@a.service", "sends 7 to b"), line("worker@a.service", "active=0"),
            line("cron.service", [1, 2]), line("worker@b.service", "received 7 from a"),
            line("worker@b.service", "active=1"))))
        self.assertEqual(self.made("journal.json", "--name", "worker@a.service=a", "--name", "worker@b.service=b",
                                   "journal.json"), {
            "a": [{"set": {"active": 1}}, {"send": "a-1"}, {"set": {"active": 0}}],
            "b": [{"recv": "a-1"}, {"set": {"active": 1}}]})
        self.assertEqual(self.report("a.active == 1 and b.active == 1")[1], "asked possibly yes 2,2")

    def test_the_program(self):
        self.write("client.log", clocks.CLIENT.replace("server", "other").replace('"other":3', '"client2":0'))
        done = subprocess.run([sys.executable, os.path.join(FOLDER, "import_logs.py"), "--out", "out", "--predicate",
                               "none", "false", "--rules", os.path.join(RULES, "govector.toml"), "client.log"],
                              capture_output=True, encoding="utf-8", timeout=60)
        self.assertEqual((done.returncode, done.stderr), (0, ""))


if __name__ == "__main__":
    unittest.main()
