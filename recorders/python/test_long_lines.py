"""Tests of what the importers and the tools for streams do with long lines: python3 -m unittest discover -s
recorders/python

A line, or the text of an event, of a million bytes is taken or refused in time for its length, and patterns that take
longer are refused with their place."""
import ast
import contextlib
import io
import os
import re
import signal
import threading
from unittest import mock

import import_jaeger
import import_logs
import import_opentelemetry
import import_vector_clocks
import import_zipkin
import importing
import monitor_infer
import monitor_mend
import trace_forms
from import_cases import ImportCase
from judging import FOLDER
from test_import_opentelemetry import resource, span, traces

MILLION = 10 ** 6
# Patterns that take the square of a text's length, or far more.
SLOW = ("z*y", "(z+)+y", "(z|z)*y", "z*z*z*y")


class Case(ImportCase):
    def setUp(self):
        super().setUp()
        before = signal.signal(signal.SIGPROF, lambda *_: self.fail("a line takes too long"))
        self.addCleanup(signal.signal, signal.SIGPROF, before)
        signal.setitimer(signal.ITIMER_PROF, 60)  # seconds of the processor, which other programs may want too
        self.addCleanup(signal.setitimer, signal.ITIMER_PROF, 0)

    def shorter(self, name, value):
        patch = mock.patch.object(importing, name, value)
        patch.start()
        self.addCleanup(patch.stop)


class VectorClocks(Case):
    importer = import_vector_clocks
    ending = "log"
    LINES = ("x" * MILLION, " " * MILLION, "{ " * (MILLION // 2), "a {" * (MILLION // 3), "a {} " * (MILLION // 5),
             "a {" + "x" * MILLION, "a " + "{" * MILLION, "a {" + "}" * MILLION + " x", 'a {"a":' + "1" * MILLION + "}")

    def test_a_line_of_a_million_bytes(self):
        for line in self.LINES:
            for words in ((), ("--skip-other-lines",), ("--skip-other-lines", "--variables", "x=(?<x>z*y)")):
                self.refused("1.log line 3: it has over 16384 bytes: shorten it, as by cut -b -16384",
                             [f'a {{"a":1}}\nbegins\n{line}\n'], *words)

    def test_lines_at_the_limit(self):
        for line in (line[:importing.LINE_BYTE_LIMIT - 1] for line in self.LINES):
            self.out += "+"
            _, streams = self.imported([f'a {{"a":1}}\nbegins\n{line}\n'], "--skip-other-lines")
            self.assertEqual(streams, {"a": [{}]})
        text = "n=7 " + "y" * (importing.LINE_BYTE_LIMIT - 4)
        self.out += "+"
        _, streams = self.imported([f'a {{"a":1}}\r\n{text}'], "--variables", r"n=(?<n>\d+)")
        self.assertEqual(streams, {"a": [{"set": {"n": 7}}]})
        self.out = "other"
        self.refused("1.log line 2: it has over 16384 bytes: shorten it, as by cut -b -16384",
                     [f'a {{"a":1}}\n{text}y'])

    def test_many_lines_that_are_no_event(self):
        self.assertEqual(self.imported(['a {"a":1}\n\n' + "x {\n" * (MILLION // 4)], "--skip-other-lines")[1],
                         {"a": [{}]})

    def test_a_slow_pattern(self):
        self.assertEqual(importing.PATTERN_SECONDS, 1)
        self.shorter("PATTERN_SECONDS", 0.2)
        log = 'a {"a":1}\nb\n' + ("z" * importing.LINE_BYTE_LIMIT + "\n") * 3
        slow = r"(?<host>(z+)+\S*) (?<clock>{[^{}\n]*})\n(?<event>.*)"
        status, _, errors = self.run_on([log], "--skip-other-lines", "--pattern", slow)
        self.assertEqual(status, 1)
        self.assertRegex(errors, r"^refused: 1\.log from line 1: the patterns take over 0\.2\d* seconds here$")
        for pattern in SLOW[1:]:
            self.refused("1.log line 1: the patterns take over 0.2 seconds here",
                         ['a {"a":1}\n' + "z" * importing.LINE_BYTE_LIMIT + "\n"], "--when", pattern, "x=1")
        self.assertEqual(signal.getitimer(signal.ITIMER_VIRTUAL), (0, 0))
        self.assertEqual(signal.getsignal(signal.SIGVTALRM), signal.SIG_DFL)

    def test_in_a_thread(self):
        """A thread gets no signals, so patterns take what they take there."""
        done = []
        thread = threading.Thread(target=lambda: done.append(self.imported(['a {"a":1}\nx\n'], "--when", "x", "x=1")))
        thread.start()
        thread.join()
        self.assertEqual(done[0][1], {"a": [{"set": {"x": 1}}]})


class Traces(Case):
    ending = "json"
    PLACE = "1.json span 0000000000000001 (work)"

    def forms(self, size):
        """A trace of one span with an attribute of this size, all in one line, by each importer."""
        text = traces(resource(span(1, 1_000, 2_000, values={"z": "z" * size})))
        for importer, made, words in ((import_opentelemetry, text, []),
                                      (import_opentelemetry, trace_forms.protobuf(text), ["--protobuf"]),
                                      (import_jaeger, trace_forms.jaeger(text), []),
                                      (import_zipkin, trace_forms.zipkin(text), [])):
            self.importer = importer
            self.out += "+"
            yield made, words, {import_jaeger: "1.json span 1 (work)"}.get(importer, self.PLACE)

    def test_a_text_of_a_million_characters(self):
        for text, words, _ in self.forms(MILLION):
            self.assertEqual(list(self.imported([text], *words)[1].values()), [[{}, {}]])
        for question in (("--variables", "z=(?<z>1)"), ("--when", "y", "x=1")):
            for text, words, place in self.forms(MILLION):
                status, _, errors = self.run_on([text], *words, *question)
                self.assertEqual(status, 1)
                self.assertRegex(errors, f"^refused: 1.json span 0*1 .*: its text has over {importing.TEXT_LIMIT} "
                                         "characters, and patterns are held against no more: shorten it$")

    def test_slow_patterns(self):
        self.shorter("PATTERN_SECONDS", 0.2)
        for pattern in SLOW:
            for text, words, place in self.forms(100_000):
                status, _, errors = self.run_on([text], *words, "--when", pattern, "x=1")
                self.assertEqual(status, 1)
                self.assertRegex(errors, r"^refused: 1.json span 0*1 .*: the patterns take over 0.2 seconds here$")

    def test_a_document_that_is_one_token(self):
        for importer in (import_opentelemetry, import_jaeger, import_zipkin):
            for text in ("[" * MILLION, '{"x":' * (MILLION // 5), "1" * MILLION, '"' + "x" * MILLION, " " * MILLION,
                         "-" * MILLION, '{"a":' + "9" * MILLION + "}", "\\u0000" * (MILLION // 6)):
                self.importer = importer
                self.assertEqual(self.run_on([text])[0], 1)


class Streams(Case):
    """A line of a stream has at most 65,536 bytes."""

    def test_a_line_of_a_million_bytes(self):
        for line in ("x" * MILLION, " " * MILLION, "[" * MILLION, '{"set":{"x":' + "1" * MILLION + "}}",
                     '{"send":"' + "\\u0061" * (MILLION // 6) + '"}', '{"set":{' * (MILLION // 8)):
            with open("left.stream", "w", encoding="utf-8") as file:
                file.write(f'{{"process":"left"}}\n{line}\n{{"set":{{"x":1}}}}\n')
            for tool in (monitor_mend, monitor_infer):
                with contextlib.redirect_stdout(io.StringIO()), \
                        contextlib.redirect_stderr(io.StringIO()) as errors:
                    self.assertEqual(tool.main(["left.stream"]), 1)
                self.assertRegex(errors.getvalue(), "^refused: left.stream line 2: ")
            self.assertFalse(os.path.exists("left.stream.mended"))


class OwnPatterns(Case):
    """Each pattern of the tools here, and of the files of rules, takes time for a text's length, whatever the text."""
    TEXTS = [one * (MILLION // len(one)) for one in
             ("x", " ", "0", "{", "{x", "}", "\\", "a {", "_", "-", "\n", "x ", "x {\n", '1 x {"', "1: Received PUBLISH from ")]

    def hold(self, patterns):
        for pattern in patterns:
            for text in self.TEXTS:
                pattern.search(text.encode() if isinstance(pattern.pattern, bytes) else text)
        return len(patterns)

    def test_of_programs(self):
        names = [name for name in os.listdir(FOLDER) if name.endswith(".py") and not name.startswith("test_")]
        held = 0
        for name in names:
            with open(os.path.join(FOLDER, name), encoding="utf-8") as file:
                calls = [node for node in ast.walk(ast.parse(file.read())) if isinstance(node, ast.Call)]
            held += self.hold([re.compile(call.args[0].value) for call in calls
                               if isinstance(call.func, ast.Attribute) and isinstance(call.func.value, ast.Name)
                               and call.func.value.id == "re" and isinstance(call.args[0], ast.Constant)])
        self.assertGreater(held, 10)

    def test_of_rules(self):
        for name in os.listdir(os.path.join(FOLDER, "rules")):
            try:
                rules = import_logs.Rules(os.path.join(FOLDER, "rules", name))
            except importing.Refused as refusal:
                self.assertIn("reads no TOML", str(refusal))
                continue
            self.hold([pattern for rule in rules.rules for pattern in [rule.file, *rule.patterns.values()]]
                      + [pattern for pattern in (rules.begin, rules.run) if pattern])
