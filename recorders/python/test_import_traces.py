"""Tests of import_jaeger, import_zipkin and, for OTLP as protobuf, of import_opentelemetry:
python3 -m unittest discover -s recorders/python

The traces are made by hand after the published forms. Of the same spans all forms have to make the same session."""
import json
import os
import random
import unittest
from unittest import mock

import import_jaeger
import import_opentelemetry
import import_zipkin
import trace_forms
import tracing
from import_cases import ImportCase
from test_import_opentelemetry import (CALL_STREAMS, CLIENT, SERVER, TRACE, Answers, RandomRun, event, resource, span,
                                       traces)

OWN = "00000000000000a1"


class Case(ImportCase):
    ending = "json"

    def imported(self, texts, *words):
        """Each call writes to a folder of its own."""
        self.out += "+"
        return super().imported(texts, *words)

    def refused(self, errors, texts, *words):
        self.out += "+"
        super().refused(errors, texts, *words)


class Forms(Case):
    """Sessions of random runs, made of each form."""

    def session(self, importer, texts, *words):
        self.importer = importer
        return self.imported(texts, *Answers.WORDS, *words)

    def runs(self, count):
        generator = random.Random(5)
        for _ in range(count):
            run = RandomRun(generator)
            run.run()
            if any(run.events):
                yield run.texts()

    def test_jaeger(self):
        for texts in self.runs(30):
            expected = self.session(import_opentelemetry, texts)
            self.assertEqual(self.session(import_jaeger, [trace_forms.jaeger(text) for text in texts]), expected)

    def test_zipkin(self):
        for texts in self.runs(30):
            for line in [line for text in texts for line in text.splitlines()]:
                for _, each in trace_forms.spans_of(line):
                    each.pop("links", None)
            kept = ["\n".join(traces({"resource": {"attributes": attributes}, "scopeSpans": [{"spans": [{
                **each, "links": []}]}]}) for attributes, each in trace_forms.spans_of(text)) for text in texts]
            expected = self.session(import_opentelemetry, kept)
            self.assertEqual(self.session(import_zipkin, [trace_forms.zipkin(text) for text in kept]), expected)

    def test_protobuf(self):
        for number, texts in enumerate(self.runs(30)):
            expected = self.session(import_opentelemetry, texts)
            messages = [trace_forms.protobuf(text) for text in texts]
            if number % 2:
                messages = [b"".join(trace_forms.framed(trace_forms.protobuf(line)) for line in text.splitlines())
                            for text in texts]
            self.assertEqual(self.session(import_opentelemetry, messages, "--protobuf"), expected)

    def test_texts_of_protobuf(self):
        text = traces(resource(
            span(1, 1, 9, name="x y", events=[event(3, "now", k="v")], status={"code": 2, "message": "no way"},
                 values={"text": "two words", "yes": True, "n": -3, "half": 0.5, "three": 3.0, "none": float("nan"),
                         "all": {"arrayValue": {"values": [{"stringValue": "a"}, {}, {"intValue": "7"}]}},
                         "map": {"kvlistValue": {"values": [{"key": "k", "value": {"boolValue": False}}]}}})))
        made = []
        for texts, words in (([text.replace("3.0", "3").replace("NaN", '"NaN"')], []),
                             ([trace_forms.protobuf(text)], ["--protobuf"])):
            self.importer = import_opentelemetry
            self.imported(texts, *words)
            made.append(self.written_file("events.tsv"))
        self.assertEqual(made[0], made[1])
        self.assertIn('all=["a",null,7] map={"k":false} otel.status_code=ERROR otel.status_description="no way"',
                      made[0])


# Jaeger

def jaeger_span(own=OWN, start=5, duration=4, **others):
    return {"traceID": TRACE, "spanID": own, "operationName": "work", "startTime": start, "duration": duration,
            "processID": "p1", **others}


def jaeger(*spans, **others):
    processes = {"p1": {"serviceName": "a"}, "p2": {"serviceName": "b", "tags": [tag("host", "h")]}}
    return json.dumps({"data": [{"traceID": TRACE, "spans": list(spans), "processes": processes, **others}]})


def tag(key, value, kind="string"):
    return {"key": key, "type": kind, "value": value}


def child(parent, kind="CHILD_OF", trace=TRACE):
    return {"refType": kind, "traceID": trace, "spanID": parent}


class Jaeger(Case):
    importer = import_jaeger

    def refused_span(self, why, **others):
        self.refused(f"1.json span {OWN} (work): {why}", [jaeger(jaeger_span(**others))])

    def test_two_services(self):
        streams = self.imported([jaeger(
            jaeger_span("1", tags=[tag("span.kind", "client")]),
            jaeger_span("2", 1, 9, processID="p2", tags=[tag("span.kind", "server")], references=[child("1")]))])[1]
        self.assertEqual(streams, CALL_STREAMS)
        self.assertEqual(self.written_file("events.tsv").splitlines()[2],
                         "b#1\t1.json span 0000000000000002 (work)\tstart work")

    def test_texts(self):
        self.imported([jaeger(jaeger_span(
            tags=[tag("n", 3, "int64"), tag("half", 0.5, "float64"), tag("yes", True, "bool"), tag("n", 3, "int64"),
                  tag("error", True, "bool")],
            logs=[{"timestamp": 6, "fields": [tag("event", "now"), tag("k", "v w")]},
                  {"timestamp": 7, "fields": [tag("event", 1, "int64")]}]))])
        self.assertEqual([line.split("\t")[2] for line in self.written_file("events.tsv").splitlines()],
                         ["start work n=3 half=0.5 yes=true", 'event now in work k="v w"', "event  in work event=1",
                          "end work n=3 half=0.5 yes=true otel.status_code=ERROR"])
        self.imported([jaeger(jaeger_span(tags=[tag("otel.status_code", "ERROR"), tag("error", True, "bool"),
                                                tag("otel.status_description", "late")]))])
        self.assertIn("end work error=true otel.status_code=ERROR otel.status_description=late",
                      self.written_file("events.tsv"))

    def test_which_reference_is_the_parent(self):
        kinds = [tag("span.kind", "producer")], [tag("span.kind", "consumer")]
        for references in ([child("9", "FOLLOWS_FROM", "77"), child("1", "FOLLOWS_FROM")],
                           [child("2", "FOLLOWS_FROM"), child("1")]):
            streams = self.imported([jaeger(
                jaeger_span("1", tags=kinds[0]),
                jaeger_span("3", processID="p2", tags=kinds[1], references=references))])[1]
            self.assertEqual(streams, {"a": [{"send": "a-1"}, {}], "b": [{"recv": "a-1"}, {}]})
        self.assertNotIn("parent", self.written)

    def test_refused_documents(self):
        for text, why in (
                ("{", "line 1: this isn't JSON: Expecting property name enclosed in double quotes"),
                (jaeger(jaeger_span())[:-1], "line 1: this isn't JSON: Expecting ',' delimiter"),
                ("[]", "line 1: it has no data, so it is no JSON of Jaeger"),
                ('{"resourceSpans":[]}', "line 1: it has no data, so it is no JSON of Jaeger"),
                ('{"data":[1]}', "line 1: data is no array of objects"),
                ('{"data":null,"errors":[{"code":404}]}', "line 1: it tells of errors: [{'code': 404}]"),
                (jaeger(processes=[]), "there is no span"), (jaeger(processes={"p1": 1}),
                                                             "line 1: processes is no object of objects")):
            mark = "" if why.startswith("line") else ":"
            self.refused(f"1.json{mark} {why}", [text])

    def test_refused_spans(self):
        for others, why in (
                ({"duration": -1}, "its duration is -1, and no number of microseconds, so when it ended isn't known"),
                ({"startTime": 0}, "its startTime is 0, and no time in microseconds"),
                ({"startTime": 2**64 // 1000 + 1}, f"its startTime is {2**64 // 1000 + 1}, and no time in "
                                                   "microseconds"),
                ({"processID": "p3"}, "its processID is 'p3', which its trace doesn't have"),
                ({"processID": ["p1"]}, "its processID is ['p1'], which its trace doesn't have"),
                ({"tags": [{"key": "x", "value": 1}]}, "a tag has no key, or another type than string, bool, int64, "
                                                       "float64, binary: {'key': 'x', 'value': 1}"),
                ({"tags": [tag("x", 1.5, "int64")]}, "attribute x: its intValue isn't known, or not of its type"),
                ({"tags": [tag("x", "1"), tag("x", "2")]}, "its tag x has two values"),
                ({"tags": [tag("span.kind", "both")]}, "its kind is 'SPAN_KIND_BOTH', which isn't known"),
                ({"tags": [tag("otel.status_code", "X")]}, "its status is 'STATUS_CODE_X', which isn't known"),
                ({"references": [child("g")]}, "its spanID is 'g', and not 1 to 16 hexadecimal digits"),
                ({"logs": [{"fields": []}]}, "its timestamp is None, and no time in microseconds"),
                ({"references": [child(OWN)]}, "by the parents it is inside itself")):
            self.refused_span(why, **others)
        self.refused("1.json line 1: a span: its traceID is 'x', and not 1 to 32 hexadecimal digits",
                     [jaeger(jaeger_span(traceID="x"))])
        self.refused(f"1.json span {OWN} (work): another span has the same ids and other content",
                     [jaeger(jaeger_span(), jaeger_span(duration=5))])
        self.refused(f"1.json span {OWN} (work): its resource has no service.name",
                     [jaeger(jaeger_span(), processes={"p1": {}})])


# Zipkin

def zipkin_span(own=OWN, service="a", start=5, duration=4, **others):
    return {"traceId": TRACE, "id": own, "name": "work", "timestamp": start, "duration": duration,
            "localEndpoint": {"serviceName": service}, **others}


# What Debian's py_zipkin 0.15.0 and zipkin-go 0.1.5 wrote of a client and its server, without their traces' ids.
PY_ZIPKIN = """[{"traceId": "3a5b", "id": "c76ac9dda6e4d71d", "name": "hold", "parentId": "cb7c87c718f357e6", \
"timestamp": 1795917694539931, "duration": 39, "shared": true, "kind": "SERVER", "localEndpoint": {"serviceName": \
"right", "ipv4": "127.0.0.1"}, "tags": {"n": "7"}}]
[{"traceId": "3a5b", "id": "cb7c87c718f357e6", "name": "ask", "parentId": "4733eb06a270f0e5", "timestamp": \
1795917694532677, "duration": 8111, "kind": "CLIENT", "localEndpoint": {"serviceName": "left", "ipv4": "127.0.0.1"}},\
{"traceId": "3a5b", "id": "4733eb06a270f0e5", "name": "work", "timestamp": 1795917694532634, "duration": 8190, "kind": \
"SERVER", "localEndpoint": {"serviceName": "left", "ipv4": "127.0.0.1"}}]
"""
ZIPKIN_GO = """[{"timestamp":1795917697153950,"duration":1036,"traceId":"171c","id":"171ca342b7fbd3b7","name":"hold",\
"kind":"SERVER","shared":true,"localEndpoint":{"serviceName":"right"},"annotations":[{"timestamp":1795917697153950,\
"value":"inside"}]},{"timestamp":1795917697152831,"duration":2174,"traceId":"171c","id":"171ca342b7fbd3b7",\
"name":"ask","kind":"CLIENT","localEndpoint":{"serviceName":"left"}}]
"""


class Zipkin(Case):
    importer = import_zipkin

    def test_what_programs_wrote(self):
        self.assertEqual(self.imported([PY_ZIPKIN], "--when", "^start hold n=7", "inside=1")[1], {
            "left": [{}, {"send": "left-1"}, {"recv": "right-1"}, {}],
            "right": [{"recv": "left-1", "set": {"inside": 1}}, {"send": "right-1"}]})
        self.assertEqual(self.imported([ZIPKIN_GO], "--when", "^event inside", "inside=1")[1], {
            "left": [{"send": "left-1"}, {"recv": "right-1"}],
            "right": [{"recv": "left-1"}, {"set": {"inside": 1}}, {"send": "right-1"}]})

    def refused_span(self, why, **others):
        self.refused(f"1.json span {OWN} (work): {why}", [json.dumps([zipkin_span(**others)])])

    def test_two_services(self):
        client, server = zipkin_span("1", kind="CLIENT"), zipkin_span("2", "b", 1, 9, kind="SERVER", parentId="1")
        for document in ([client, server], [[client], [server]], [[client, server]]):
            self.assertEqual(self.imported([json.dumps(document)])[1], CALL_STREAMS)
        self.assertEqual(self.imported([json.dumps([client]), json.dumps([server]) + "\n[]\n"])[1], CALL_STREAMS)

    def test_a_server_with_the_ids_of_its_client(self):
        client = zipkin_span("1", kind="CLIENT")
        for shared in ({"shared": True}, {}):
            server = zipkin_span("1", "b", 1, 9, kind="SERVER", **shared)
            for document in ([client, server], [server, client, server]):
                streams = self.imported([json.dumps(document)])[1]
                self.assertEqual(dict(sorted(streams.items())), CALL_STREAMS)
        # What the server calls is the child of the server, and what else is in the client that of the client.
        spans = [client, server, zipkin_span("2", "b", 2, 3, parentId="1", kind="CLIENT"),
                 zipkin_span("2", "c", 7, 1, parentId="1", kind="SERVER", shared=True),
                 zipkin_span("3", "a", 6, 1, parentId="1"), zipkin_span("4", "c", 20, 1, parentId="1")]
        self.assertEqual(self.imported([json.dumps(spans)])[1], {
            "a": [{"send": "a-1"}, {}, {}, {"recv": "b-3"}],
            "b": [{"recv": "a-1"}, {"send": "b-1"}, {"send": "b-2"}, {"recv": "c-1"}, {"send": "b-3"}],
            "c": [{"recv": "b-2"}, {"send": "c-1"}, {"recv": "b-1"}, {}]})

    def test_a_shared_span_without_its_client(self):
        self.assertEqual(self.imported([json.dumps([zipkin_span(kind="SERVER", shared=True)])])[1], {"a": [{}, {}]})
        self.assertIn("1 spans have a parent that the traces don't have\n", self.written)
        self.assertEqual(self.imported([json.dumps([zipkin_span(kind="SERVER")])])[1], {"a": [{}, {}]})
        self.assertNotIn("parent", self.written)

    def test_a_shared_span_with_ids_of_its_own(self):
        client = zipkin_span("1", kind="CLIENT")
        server = zipkin_span("2", "b", kind="SERVER", parentId="1", shared=True)
        self.assertEqual(self.imported([json.dumps([client, server])])[1], CALL_STREAMS)
        self.assertNotIn("parent", self.written)

    def test_texts(self):
        self.imported([json.dumps([zipkin_span(
            tags={"n": "3", "error": "too late"}, remoteEndpoint={"serviceName": "b", "port": 80, "ipv4": None},
            annotations=[{"timestamp": 6, "value": "now k=v"}])])])
        self.assertEqual([line.split("\t")[2] for line in self.written_file("events.tsv").splitlines()],
                         ["start work n=3 remote.service.name=b remote.port=80", "event now k=v in work",
                          'end work n=3 remote.service.name=b remote.port=80 otel.status_code=ERROR '
                          'otel.status_description="too late"'])
        self.imported([json.dumps([zipkin_span(tags={"otel.status_code": "OK"})])])
        self.assertIn("end work otel.status_code=OK", self.written_file("events.tsv"))

    def test_instances(self):
        spans = [zipkin_span(str(number), localEndpoint={"serviceName": "a", "ipv4": address})
                 for number, address in enumerate(("10.0.0.1", "10.0.0.2", "10.0.0.1"), 1)]
        self.refused("1.json span 0000000000000002 (work): its resource has ipv4=10.0.0.2, and another of instance "
                     "'a' has 10.0.0.1 there: name what tells instances apart by --instance", [json.dumps(spans)])
        streams = self.imported([json.dumps(spans)], "--instance", "service.name", "--instance", "ipv4")[1]
        self.assertEqual({name: len(events) for name, events in streams.items()}, {"a_1": 4, "a_2": 2})

    def test_refused_documents(self):
        for text, why in (
                ("[", "line 1: this isn't JSON: Expecting value"),
                (json.dumps([zipkin_span()])[:-2], "line 1: this isn't JSON: Expecting ',' delimiter"),
                ("\n{}", "line 2: it is no list, so it is no JSON of Zipkin of version 2"),
                ("[[], 1]", "line 1: entry 2 is 1, and no span"), ("[[[]]]", "line 1: entry 1 is [], and no span")):
            self.refused(f"1.json {why}", [text])
        self.refused("1.json: there is no span", ["[]"])

    def test_refused_spans(self):
        for others, why in (
                ({"duration": None},
                 "its duration is None, and no number of microseconds, so when it ended isn't known"),
                ({"duration": -5}, "its duration is -5, and no number of microseconds, so when it ended isn't known"),
                ({"timestamp": "x"}, "its timestamp is 'x', and no time in microseconds"),
                ({"duration": 2**64 // 1000}, f"its endTimeUnixNano is {2**64 // 1000 * 1000 + 5000}, and no time in "
                                              "nanoseconds"),
                ({"tags": {"x": 1}}, "its tags are no object of texts"),
                ({"annotations": [{"timestamp": 6}]}, "an annotation has no value, or one that is no text"),
                ({"annotations": 1}, "annotations is no array of objects"),
                ({"localEndpoint": {}}, "its resource has no service.name"),
                ({"localEndpoint": [1]}, "its localEndpoint is no object"),
                ({"remoteEndpoint": {"port": [80]}}, "the port of its remoteEndpoint is [80]"),
                ({"kind": "BOTH"}, "its kind is 'SPAN_KIND_BOTH', which isn't known"),
                ({"parentId": "1" * 17}, f"its parentId is {'1' * 17!r}, and not 1 to 16 hexadecimal digits"),
                ({"parentId": OWN}, "by the parents it is inside itself")):
            self.refused_span(why, **others)
        self.refused("1.json line 1: a span has no traceId, no id, or a name that is no text",
                     [json.dumps([zipkin_span(id="")])])
        self.refused(f"1.json span {OWN} (work): another span has the same ids and other content",
                     [json.dumps([zipkin_span(), zipkin_span(service="b")])])


# OTLP as protobuf

PROTOBUF = trace_forms.protobuf(traces(resource(span(1, 10, 20, CLIENT)),
                                       resource(span(2, 7, 8, SERVER, parent=1), service="b")))


def with_span(content):
    """A message with one span of these bytes."""
    named = trace_forms.pairs(1, [{"key": "service.name", "value": {"stringValue": "a"}}])
    return trace_forms.part(1, trace_forms.part(1, named) + trace_forms.part(2, trace_forms.part(2, content)))


class Protobuf(Case):
    importer = import_opentelemetry

    def refused(self, errors, texts, *words):
        super().refused(errors, texts, "--protobuf", *words)

    def test_two_services(self):
        for data in (PROTOBUF, trace_forms.framed(PROTOBUF), trace_forms.framed(PROTOBUF) * 2,
                     trace_forms.framed(b"") + trace_forms.framed(PROTOBUF)):
            self.assertEqual(self.imported([data], "--protobuf")[1], CALL_STREAMS)

    def test_each_truncation(self):
        """No beginning of a file is taken for the whole, but one that ends with a message of the top."""
        wholes = {len(trace_forms.protobuf(traces(resource(span(1, 10, 20, CLIENT))))), len(PROTOBUF)}
        for length in range(len(PROTOBUF)):
            self.out += "+"
            status, _, errors = self.run_on([PROTOBUF[:length]], "--protobuf")
            self.assertEqual(status, 0 if length in wholes else 1)
            self.assertEqual(os.path.exists(self.out), length in wholes)
            if length not in wholes:
                self.assertRegex(errors, r"^refused: 1\.json( byte \d+: .*|: there is no span)\n$")
        data = trace_forms.framed(PROTOBUF)
        for length in range(1, len(data)):
            self.out += "+"
            self.assertEqual(self.run_on([data[:length]], "--protobuf")[0], 1)
            self.assertFalse(os.path.exists(self.out))

    def test_each_byte_changed(self):
        generator = random.Random(3)
        for place in range(len(PROTOBUF)):
            self.out += "+"
            changed = bytearray(PROTOBUF)
            changed[place] ^= generator.randrange(1, 256)
            status, _, errors = self.run_on([bytes(changed)], "--protobuf")
            self.assertEqual((status, os.path.exists(self.out)), (1, False) if errors else (0, True))
            self.assertRegex(errors, r"^(refused: (1\.json|--).*\n)?$")

    def test_refused_bytes(self):
        for data, why in (
                (b"\x0a\x05\x0a", "byte 3: 5 bytes are to follow, and 1 are there: the file is damaged, or its end is "
                                  "missing"),
                (b"\x0a" + b"\xff" * 10, "byte 2: a number has over 64 bits"),
                (b"\x0a\xff", "byte 2: a number has no end: the file is damaged, or its end is missing"),
                (b"\x0b", "byte 1: a field has the wire type 3, which OTLP has not"),
                (b"\0\0\0\2\2\0", "byte 5: there is no field 0: this is no protobuf"),
                (b"\0\0\0\1", "byte 5: 1 bytes are to follow, and 0 are there: the file is damaged, or its end is "
                              "missing"),
                (b"\x08\x01", "byte 1: field 1 is resourceSpans, and has the wire type 0 in place of 2: this is no "
                              "OTLP"),
                (b'{"resourceSpans":[]}', "byte 1: a field has the wire type 3, which OTLP has not"),
                (with_span(trace_forms.part(5, b"a\xff")), "byte 33: this isn't UTF-8"),
                (with_span(trace_forms.part(5, "a") * 2), "byte 33: name stands twice")):
            self.refused(f"1.json {why}", [data])
        self.refused("1.json byte 1: a span: its traceId is 'ab', and not 32 hexadecimal digits",
                     [with_span(trace_forms.part(1, b"\xab"))])
        self.refused("1.json: there is no span", [b""])

    def test_fields_that_are_not_known(self):
        more = trace_forms.number(500, 1) + trace_forms.part(501, "x") + trace_forms.fixed(502, 1)
        self.assertEqual(self.imported([PROTOBUF + more], "--protobuf")[1], CALL_STREAMS)

    def test_values_that_nest(self):
        for depth, status in ((40, 0), (60, 1), (10_000, 1)):
            value = trace_forms.part(1, "x")
            for _ in range(depth):
                value = trace_forms.part(5, trace_forms.part(1, value))
            attribute = trace_forms.part(9, trace_forms.part(1, "k") + trace_forms.part(2, value))
            self.out += "+"
            found, _, errors = self.run_on([with_span(trace_forms.span_message(span(1, 1, 2)) + attribute)],
                                           "--protobuf")
            self.assertEqual(found, status)
            if status:
                self.assertRegex(errors, r"^refused: 1\.json byte \d+: it nests over 100 deep\n$")


# Files that are meant to do harm

def hostile(size):
    """What makes files of about this many bytes, and what is said of them."""
    long, deep = "x" * size, size // 2
    ids = [number_id(number) for number in range(1, size // 100)]
    return [
        (import_zipkin, lambda: zipkin(name=long), f"span {OWN}: its name has over 1024 characters"),
        (import_zipkin, lambda: zipkin(service=long), "the name of its instance has over 1024 characters"),
        (import_zipkin, lambda: zipkin(kind=long), "which isn't known"),
        (import_zipkin, lambda: zipkin(parentId=long), "and not 1 to 16 hexadecimal digits"),
        (import_zipkin, lambda: zipkin(annotations=[{"timestamp": 1, "value": ""}] * (size // 40)),
         "with this event a has over 10000 events in its stream"),
        (import_zipkin, lambda: "[" * deep + "]" * deep, "line 1: this isn't JSON"),
        (import_zipkin, lambda: json.dumps([zipkin_span(own, parentId=ids[number - 1])
                                            for number, own in enumerate(ids)]), "by the parents it is inside itself"),
        (import_zipkin, lambda: json.dumps([zipkin_span()] * len(ids) + [zipkin_span(start=6)]),
         "another span has the same ids and other content"),
        (import_jaeger, lambda: jaeger(*map(jaeger_span, ids),
                                       processes={"p1": {"serviceName": "a", "tags": [tag("x", long)]}}),
         "with this "),
        (import_jaeger, lambda: jaeger(jaeger_span(tags=[*(tag(own, "") for own in ids), tag(ids[0], "1")])),
         f"its tag {number_id(1)} has two values"),
        (import_jaeger, lambda: jaeger(jaeger_span(references=[child("1")] * len(ids), startTime=long)),
         "and no time in microseconds"),
        (import_opentelemetry, lambda: traces(resource(span(1, 1, 2, traceId=long))), "and not 32 hexadecimal digits"),
        (import_opentelemetry, lambda: b"\x0a\x80\x80\x80\x40" + bytes(size), "the file is damaged"),
        (import_opentelemetry, lambda: with_span(trace_forms.number(500, 1) * (size // 3) + b"\0"),
         "there is no field 0"),
    ]


def zipkin(**others):
    return json.dumps([zipkin_span(**others)])


def number_id(number):
    return f"{number:016x}"


class Hostile(Case):
    def check(self, importer, text, why):
        self.importer = importer
        self.out += "+"
        words = ["--protobuf"] if isinstance(text, bytes) else []
        status, written, errors = self.run_on([text], *words)
        self.assertEqual((status, written), (1, ""))
        self.assertRegex(errors, r"^refused: 1\.json( |: )")
        self.assertIn(why, errors)
        self.assertLess(len(errors), 5_100)
        self.assertEqual([name for name in os.listdir(".") if name != "1.json"], [])

    def test_named_refusals_of_large_files(self):
        for importer, text, why in hostile(1_000_000):
            with self.subTest(why):
                self.check(importer, text(), why)

    def test_limits(self):
        with mock.patch.object(tracing, "FILE_LIMIT", 1_000):
            self.check(import_zipkin, json.dumps([zipkin_span()] * 100), "it has over 1000 bytes: give it as several "
                                                                         "files")
        with mock.patch.object(tracing, "MOMENT_LIMIT", 7):
            self.check(import_zipkin, json.dumps([zipkin_span(number_id(n)) for n in range(1, 6)]),
                       "span 0000000000000004 (work): with this span the traces have over 7 starts, events and ends: "
                       "import fewer of them")


if __name__ == "__main__":
    unittest.main()
