"""Tests of import_vector_clocks: python3 -m unittest discover -s recorders/python"""
import collections
import itertools
import json
import os
import random
import subprocess
import sys
import unittest

import import_vector_clocks as importer
from import_cases import ImportCase, answers, with_clocks
from judging import FOLDER, needs_program, report_of

CLIENT = """\
client {"client":1}
Initialization Complete
client {"client":2}
asking, waiting=1
client {"client":3, "server":3}
got the lock, waiting=0
"""
SERVER = """\
server {"server":1}
Initialization Complete
server {"client":2, "server":2}
asked
server {"client":2, "server":3}
granting
"""


def log(*events):
    """A log of (host, clock, text) in the published form."""
    return "".join(f"{host} {json.dumps(clock)}\n{text}\n" for host, clock, text in events)


class Case(ImportCase):
    importer = importer
    ending = "log"


class Sessions(Case):
    def test_a_request_and_its_answer(self):
        document, streams = self.imported([CLIENT, SERVER], "--variables", r"waiting=(?<waiting>\d+)")
        self.assertEqual(document, {
            "processes": [{"name": "client", "vars": {"waiting": 0}}, {"name": "server", "vars": {"waiting": 0}}],
            "predicates": [{"name": "none", "text": "false"}]})
        self.assertEqual(streams, {
            "client": [{}, {"send": "client-1", "set": {"waiting": 1}}, {"recv": "server-1", "set": {"waiting": 0}}],
            "server": [{}, {"recv": "client-1"}, {"send": "server-1"}]})
        self.assertEqual(self.written, "2 processes, 6 events, 2 messages, 0 events written as several\n")
        self.assertEqual(self.written_file("events.tsv").splitlines()[:3],
                         ["client#1\t1.log line 1\tInitialization Complete",
                          "client#2\t1.log line 3\tasking, waiting=1",
                          "client#3\t1.log line 5\tgot the lock, waiting=0"])

    def test_one_log_of_all_hosts(self):
        mixed = "\n".join(SERVER.splitlines()[:2] + CLIENT.splitlines() + SERVER.splitlines()[2:])
        _, apart = self.imported([SERVER, CLIENT])
        self.out = "other"
        _, together = self.imported([mixed])
        self.assertEqual(apart, together)

    def test_lines_that_end_with_cr_lf_and_blank_lines(self):
        self.imported(["\n \n" + CLIENT.replace("\n", "\r\n"), SERVER.replace("asked\n", "asked\n\n")])

    def test_events_without_text(self):
        _, streams = self.imported(['a {"a":1}\n\na {"a":2}\n'])
        self.assertEqual(streams, {"a": [{}, {}]})

    def test_hosts_with_other_names(self):
        hosts = ["node-1", "127.0.0.1:80", "z"]
        document, _ = self.imported([log(*((host, {host: 1}, "") for host in hosts))], "--name", "z=last")
        self.assertEqual([process["name"] for process in document["processes"]], ["node_1", "_127_0_0_1_80", "last"])

    def test_a_clock_with_zeros_is_that_without(self):
        _, streams = self.imported([log(("a", {"a": 1, "b": 0, "c": 0}, ""), ("b", {"b": 1, "a": 0}, ""))])
        self.assertEqual(streams, {"a": [{}], "b": [{}]})

    def test_a_pattern_of_ones_own(self):
        text = '17 [INFO] a - begins {"a":1}\n18 [WARN] a - n is 7 {"a":2}\n'
        pattern = r"^\d+ \[\w+\] (?<host>\w+) - (?<event>.*) (?<clock>{.*})$"
        _, streams = self.imported([text], "--pattern", pattern, "--variables", r"n is (?P<n>\d+)")
        self.assertEqual(streams, {"a": [{}, {"set": {"n": 7}}]})

    def test_a_pattern_with_times(self):
        pattern = r"(?<timestamp>\d*) (?<host>\S*) (?<clock>{.*})\n(?<event>.*)"
        text = '1546300800000000000 a {"a":1}\nINFO begins\n1546300800000000001 a {"a":2}\nINFO n=7\n'
        _, streams = self.imported([text], "--pattern", pattern, "--variables", "n=(?<n>.*)")
        self.assertEqual(streams, {"a": [{}, {"set": {"n": 7}}]})
        self.out = "other"
        self.refused("1.log line 1: by the pattern this belongs to no event: '1546300800000000000'", [text])

    def test_other_lines_can_be_skipped(self):
        text = '== run 1 ==\na {"a":1}\nbegins\n  at main.go:7\na {"a":2}\nends\nbye\n'
        _, streams = self.imported([text], "--skip-other-lines")
        self.assertEqual(streams, {"a": [{}, {}]})
        self.assertEqual(self.written_file("events.tsv"), "a#1\t1.log line 2\tbegins\na#2\t1.log line 5\tends\n")

    def test_width(self):
        self.assertEqual(self.imported([CLIENT, SERVER], "--width", "65536")[0]["width"], 65536)


class Messages(Case):
    def test_knowledge_that_came_through_another_host_is_no_message(self):
        _, streams = self.imported([log(
            ("a", {"a": 1}, ""), ("b", {"a": 1, "b": 1}, ""), ("c", {"a": 1, "b": 1, "c": 1}, ""))])
        self.assertEqual(streams, {"a": [{"send": "a-1"}], "b": [{"recv": "a-1"}, {"send": "b-1"}],
                                   "c": [{"recv": "b-1"}]})

    def test_knowledge_that_came_before_is_no_message(self):
        _, streams = self.imported([log(
            ("a", {"a": 1}, ""), ("b", {"a": 1, "b": 1}, ""), ("b", {"a": 1, "b": 2}, ""),
            ("a", {"a": 2, "b": 1}, ""))])
        self.assertEqual(streams, {"a": [{"send": "a-1"}, {"recv": "b-1"}],
                                   "b": [{"recv": "a-1"}, {"send": "b-1"}, {}]})

    def test_a_broadcast_is_a_send_with_several_receipts(self):
        document, streams = self.imported([log(
            ("a", {"a": 1}, "x=1"), ("b", {"a": 1, "b": 1}, ""), ("c", {"a": 1, "c": 1}, ""), ("a", {"a": 2}, "x=2"))],
            "--variables", "x=(?<x>.)")
        self.assertEqual(streams, {"a": [{"send": "a-1", "set": {"x": 1}}, {"set": {"x": 2}}],
                                   "b": [{"recv": "a-1"}], "c": [{"recv": "a-1"}]})
        self.assertEqual(document["version"], 2)
        self.assertEqual(self.written, "3 processes, 4 events, 1 messages, 0 events written as several\n"
                                       "messages with several receivers: 1, so the document is of version 2\n")

    def test_without_a_broadcast_a_document_has_no_version(self):
        document, _ = self.imported([log(("a", {"a": 1}, ""), ("b", {"a": 1, "b": 1}, ""), ("c", {"c": 1}, ""),
                                         ("a", {"a": 2}, ""), ("c", {"a": 2, "c": 2}, ""))], "--width", "9")
        self.assertEqual(sorted(document), ["predicates", "processes", "width"])

    def test_who_hears_of_an_event_by_another_host_is_no_receiver(self):
        document, streams = self.imported([log(
            ("a", {"a": 1}, ""), ("b", {"a": 1, "b": 1}, ""), ("c", {"a": 1, "c": 1}, ""),
            ("d", {"a": 1, "b": 1, "d": 1}, ""))])
        self.assertEqual(streams, {"a": [{"send": "a-1"}], "b": [{"recv": "a-1"}, {"send": "b-1"}],
                                   "c": [{"recv": "a-1"}], "d": [{"recv": "b-1"}]})
        self.assertEqual(document["version"], 2)

    def test_two_messages_that_come_at_once(self):
        _, streams = self.imported([log(
            ("a", {"a": 1}, ""), ("b", {"b": 1}, ""), ("c", {"a": 1, "b": 1, "c": 1}, "x=1"))],
            "--variables", "x=(?<x>.)")
        self.assertEqual(streams["c"], [{"recv": "a-1"}, {"recv": "b-1", "set": {"x": 1}}])
        self.assertEqual(self.written_file("events.tsv").splitlines()[2:],
                         ["c#1\t1.log line 5\tx=1", "c#2\t1.log line 5\tx=1"])

    def test_a_receipt_that_is_a_send_too(self):
        _, streams = self.imported([log(
            ("a", {"a": 1}, ""), ("b", {"a": 1, "b": 1}, "x=1"), ("a", {"a": 2, "b": 1}, ""),
            ("c", {"a": 1, "b": 1, "c": 1}, ""))], "--variables", "x=(?<x>.)")
        self.assertEqual(streams, {"a": [{"send": "a-1"}, {"recv": "b-1"}],
                                   "b": [{"recv": "a-1", "set": {"x": 1}}, {"send": "b-1"}], "c": [{"recv": "b-1"}]})
        self.assertEqual(self.written_file("events.tsv").splitlines()[2:4],
                         ["b#1\t1.log line 3\tx=1", "b#2\t1.log line 3\tx=1"])


class Variables(Case):
    def test_several_patterns_and_conditions(self):
        document, streams = self.imported(
            [log(("a", {"a": 1}, "term=3 lead=true"), ("a", {"a": 2}, "lead=False load=-7"), ("b", {"b": 1}, "in"))],
            "--variables", r"term=(?<term>\d+)", "--variables", r"lead=(?<lead>\w+)(?: load=(?<load>-?\d+))?",
            "--when", "^in$", "inside=1", "--when", "^out$", "inside=0", "--initial", "b.inside=-5",
            "--initial", "term=1", "--initial", "inside=9")
        self.assertEqual(document["processes"], [
            {"name": "a", "vars": {"inside": 9, "lead": 0, "load": 0, "term": 1}},
            {"name": "b", "vars": {"inside": -5, "lead": 0, "load": 0, "term": 1}}])
        self.assertEqual(streams, {"a": [{"set": {"term": 3, "lead": 1}}, {"set": {"lead": 0, "load": -7}}],
                                   "b": [{"set": {"inside": 1}}]})

    def test_refused_values(self):
        for text, why in (("x=", "''"), ("x=1.5", "'1.5'"), ("x=seven", "'seven'"), ("x=１", "'１'")):
            self.refused(f"1.log line 3: the value of x is {why}, which is no whole number of 64 bits",
                         [log(("a", {"a": 1}, "x=1"), ("a", {"a": 2}, text))], "--variables", "x=(?<x>.*)")
        self.refused("1.log line 1: x must be a whole number of 64 bits, from -9223372036854775808 to 9223372036854775807",
                     [log(("a", {"a": 1}, "x=9223372036854775808"))], "--variables", "x=(?<x>.*)")

    def test_two_values_of_one_variable(self):
        self.refused("1.log line 1: it sets x to 1 and to 0", [log(("a", {"a": 1}, "x=1"))],
                     "--variables", "x=(?<x>.*)", "--when", "x", "x=0")

    def test_refused_initial_values(self):
        self.refused("--initial: there is no process b", [log(("a", {"a": 1}, ""))], "--initial", "b.x=1")
        self.refused("--initial: neither --variables nor --when names x", [log(("a", {"a": 1}, ""))],
                     "--initial", "x=1")


class RefusedLogs(Case):
    def test_own_counts(self):
        self.refused("1.log line 1: a's own count skips: it is 2, and the next is 1", [log(("a", {"a": 2}, ""))])
        self.refused("1.log line 1: a's own count goes back or stands still: it is 0, and the next is 1",
                     [log(("a", {"b": 1}, ""))])
        first = ("a", {"a": 1}, "")
        self.refused("1.log line 3: a's own count skips: it is 3, and the next is 2",
                     [log(first, ("a", {"a": 3}, ""))])
        for count in (0, 1):
            self.refused(f"1.log line 3: a's own count goes back or stands still: it is {count}, and the next is 2",
                         [log(first, ("a", {"a": count}, ""))])
        self.refused("2.log line 1: a's own count goes back or stands still: it is 1, and the next is 2",
                     [log(first), log(first)])

    def test_counts_that_go_back(self):
        self.refused("1.log line 7: the count of b goes back from 2 to 1", [log(
            ("b", {"b": 1}, ""), ("b", {"b": 2}, ""), ("a", {"a": 1, "b": 2}, ""), ("a", {"a": 2, "b": 1}, ""))])
        self.refused("1.log line 5: the count of b goes back from 1 to 0", [log(
            ("b", {"b": 1}, ""), ("a", {"a": 1, "b": 1}, ""), ("a", {"a": 2}, ""))])

    def test_events_that_are_not_there(self):
        self.refused("1.log line 3: it knows of event 2 of b, of which the logs have 1 events",
                     [log(("b", {"b": 1}, ""), ("a", {"a": 1, "b": 2}, ""))])
        self.refused("1.log line 1: it knows of event 1 of b, of which the logs have 0 events",
                     [log(("a", {"a": 1, "b": 1}, ""))])

    def test_clocks_that_contradict(self):
        self.refused("1.log line 5: it knows of event 1 of b (1.log line 3), which knows of event 1 of a; "
                     "but its own clock has 0 there",
                     [log(("a", {"a": 1}, ""), ("b", {"a": 1, "b": 1}, ""), ("c", {"b": 1, "c": 1}, ""))])
        self.refused("1.log line 1: it knows of event 1 of b (1.log line 3), which knows of it or of a later event",
                     [log(("a", {"a": 1, "b": 1}, ""), ("b", {"a": 1, "b": 1}, ""))])

    def test_clocks_that_are_none(self):
        for clock in ("{1}", '{"a":1,"a":1}', '{"a":' + "1" * 5000 + "}"):
            status, _, errors = self.run_on([f"b {{\"b\":1}}\n\na {clock}\n\n"])
            self.assertEqual(status, 1)
            self.assertRegex(errors, "^refused: 1.log line 3: the clock isn't JSON: ")
        for clock in ("{}{}", '{"a":{"a":1,"a":2}}'):
            self.refused(f"1.log line 3: by the pattern this belongs to no event: {f'a {clock}'!r}",
                         [f"b {{\"b\":1}}\n\na {clock}\n\n"])
        for clock in ('{"a":1.0}', '{"a":"1"}', '{"a":true}', '{"a":1,"b":-1}', '{"a":null}', '{"a":1e3}'):
            self.refused("1.log line 3: a clock has a whole number for each host, 0 or more",
                         [f"b {{\"b\":1}}\n\na {clock}\n\n"])
        with self.assertRaises(importer.Refused):
            importer.read_clock("1.log line 1", "[" * 100_000)

    def test_lines_that_belong_to_no_event(self):
        self.refused("1.log line 1: by the pattern this belongs to no event: 'hello'", ["hello\n" + CLIENT])
        self.refused("1.log line 4: by the pattern this belongs to no event: 'world'",
                     ["\n" + CLIENT.replace("Complete\n", "Complete\n world\n")])
        self.refused("1.log line 8: by the pattern this belongs to no event: 'client {\"client\":4}'",
                     [CLIENT + "\n" + 'client {"client":4}'])
        self.refused("1.log: there is no event", ["\n\n"])

    def test_bytes_that_are_not_utf_8(self):
        self.refused("1.log line 2: this isn't UTF-8", [b'a {"a":1}\n\xff\n'])

    def test_names(self):
        self.refused("1.log line 3: host 'a.b' would be a second process a_b; give it another name by --name",
                     [log(("a-b", {"a-b": 1}, ""), ("a.b", {"a.b": 1}, ""))])
        status, _, errors = self.run_on([log(("and", {"and": 1}, ""))])
        self.assertEqual((status, errors[:47]), (1, "refused: 1.log line 1: 'and' is no name of a pr"))
        self.refused("--name: there is no host 'b'", [log(("a", {"a": 1}, ""))], "--name", "b=c")

    def test_limits(self):
        hosts = [(f"h{n}", {f"h{n}": 1}, "") for n in range(17)]
        self.assertEqual(len(self.imported([log(*hosts[:16])])[1]), 16)
        self.out = "others"
        self.refused("1.log line 33: h16 would be host 17, and a session has at most 16", [log(*hosts)])
        events = [("a", {"a": n}, "") for n in range(1, 10_001)]
        self.assertEqual(len(self.imported([log(*events)])[1]["a"]), 10_000)
        self.out = "other"
        self.refused("1.log line 20001: with this event a has over 10000 events in its stream",
                     [log(*events, ("a", {"a": 10_001}, ""))])
        both = [("a", {"a": n, **({"b": 1} if n >= 5 else {})}, "") for n in range(1, 10_001)]
        self.refused("1.log line 19999: with this event a has over 10000 events in its stream",
                     [log(*both, ("b", {"b": 1}, ""), ("c", {"a": 5, "b": 1, "c": 1}, ""))])

    def test_files(self):
        status, _, errors = self.run_on([CLIENT, SERVER], "none.log")
        self.assertEqual((status, errors), (1, "refused: [Errno 2] No such file or directory: 'none.log'\n"))
        self.imported([CLIENT, SERVER])
        status, _, errors = self.run_on([CLIENT, SERVER])
        self.assertEqual(status, 2)
        self.assertRegex(errors, "error: out is no empty folder\n$")

    def test_the_program(self):
        words = ["--out", "out", "--predicate", "none", "false", "1.log"]
        for text, status in (('a {"a":1}\n\n', 0), ('a {"a":2}\n\n', 1)):
            with open("1.log", "w", encoding="utf-8") as file:
                file.write(text)
            done = subprocess.run([sys.executable, os.path.join(FOLDER, "import_vector_clocks.py"), *words],
                                  capture_output=True, timeout=60)
            self.assertEqual(done.returncode, status)
            words[1] = "other"

    def test_arguments(self):
        for words, why in (
                (["--pattern", "(?<host>.)"], "argument --pattern: it has no groups host, clock and event"),
                (["--pattern", "("], "argument --pattern: missing ), unterminated subpattern at position 0 in '('"),
                (["--pattern", "[[a"], "argument --pattern: unterminated character set at position 0 in '[[a'"),
                (["--variables", "x"], "argument --variables: 'x' has no named group"),
                (["--when", "x", "y"], "'y' isn't NAME=WHOLE NUMBER"),
                (["--name", "a"], "argument --name: 'a' isn't HOST=NAME"),
                (["--width", "65537"], "argument --width: it is a whole number from 1 to 65536"),
                (["--predicate", "a", "true"] * 16, "a session has at most 16 predicates"),
                (["--when", "x", "a=1"] + sum((["--when", "x", f"b{n}=1"] for n in range(16)), []),
                 "a process has at most 16 variables, and not 17")):
            status, _, errors = self.run_on([CLIENT], *words)
            self.assertEqual((status, errors.splitlines()[-1].partition("error: ")[2]), (2, why))
            self.assertNotIn("Warning", errors)


# Whether splitting changes an answer: small runs at random, judged as they are and as they are imported.

def random_run(generator):
    """(host, clock, value) for some events, of which many both send and receive, or receive twice, or are heard of by
    several hosts."""
    hosts = "abcd"[:generator.randrange(2, 5)]
    clocks = {host: collections.Counter() for host in hosts}
    events, heard = [], []
    for _ in range(generator.randrange(4, 10)):
        host = generator.choice(hosts)
        clock = clocks[host].copy()
        sources = generator.sample(events + heard, min(len(events), generator.randrange(3)))
        for _, source, _ in sources:
            clock |= source
        heard += sources
        clock[host] += 1
        clocks[host] = clock
        events.append((host, clock, generator.randrange(3)))
    return hosts, events


class Answers(Case):
    def runs(self, count):
        generator = random.Random(7)
        for number in range(count):
            hosts, events = random_run(generator)
            hosts = [host for host in hosts if any(event[0] == host for event in events)]
            events.sort(key=lambda event: hosts.index(event[0]))
            text = log(*((host, clock, f"x={value}") for host, clock, value in events))
            original = [[(tuple(clock[other] for other in hosts), {"x": value})
                         for host, clock, value in events if host == mine] for mine in hosts]
            all_states = list(itertools.product(range(3), repeat=len(hosts)))
            states = set(generator.sample(all_states, generator.randrange(1, 2 + len(all_states) // 4)))
            self.out = f"out{number}"
            yield hosts, self.imported([text], "--variables", "x=(?<x>.)")[1], original, states

    def test_splitting_changes_no_answer(self):
        split = yes = shared = 0
        for hosts, streams, original, states in self.runs(120):
            lines = [streams[host] for host in hosts]
            expected = answers(original, states)
            self.assertEqual(answers(with_clocks(lines), states), expected)
            split += sum(map(len, lines)) > sum(map(len, original))
            yes += sum(expected[:2])
            shared += json.loads(self.written_file("session.json")).get("version") == 2
        self.assertGreater(min(split, yes), 40)
        self.assertGreater(shared, 20)

    @needs_program
    def test_reports_of_what_is_imported(self):
        for hosts, _, original, states in self.runs(40):
            streams = [self.written_file(f"{host}.stream") for host in hosts]
            any_of = " or ".join("(" + " and ".join(f"{host}.x == {value}" for host, value in zip(hosts, state)) + ")"
                                 for state in sorted(states))
            document = {**json.loads(self.written_file("session.json")),
                        "predicates": [{"name": "state", "text": any_of}]}
            lines = report_of(document, streams).splitlines()
            found = tuple(line.split()[2] == "yes" for line in lines[1:])
            self.assertEqual(found, answers(original, states)[:2])


class Example(Case):
    @needs_program
    def test_the_report_of_a_broadcast(self):
        document, streams = self.imported([log(
            ("a", {"a": 1}, "x=1"), ("b", {"a": 1, "b": 1}, "x=1"), ("c", {"a": 1, "c": 1}, "x=1"))],
            "--variables", "x=(?<x>.)", "--predicate", "lag", "a.x == 1 and b.x + c.x == 1")
        lines = [self.written_file(f"{host}.stream") for host in streams]
        self.assertEqual(report_of(document, lines), "session 3 processes 3 events 1 messages\n"
                                                     "none possibly no\nnone definitely no a,c,b\n"
                                                     "lag possibly yes 1,0,1\nlag definitely yes 2\n")

    @needs_program
    def test_the_report_of_a_log(self):
        self.imported([CLIENT, SERVER], "--variables", r"waiting=(?<waiting>\d+)",
                      "--predicate", "unseen", "client.waiting == 1 and server.waiting == 0")
        streams = [self.written_file("client.stream"), self.written_file("server.stream")]
        self.assertEqual(report_of(self.written_file("session.json"), streams),
                         "session 2 processes 6 events 2 messages\n"
                         "none possibly no\n"
                         "none definitely no server,client,client,server,server,client\n"
                         "unseen possibly yes 2,0\n"
                         "unseen definitely yes 3\n")


if __name__ == "__main__":
    unittest.main()
