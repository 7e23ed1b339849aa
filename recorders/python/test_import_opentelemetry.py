"""Tests of import_opentelemetry: python3 -m unittest discover -s recorders/python

The traces are made by hand after the published form of OTLP as JSON; no SDK made them."""
import itertools
import json
import os
import random
import subprocess
import sys
import unittest

import import_opentelemetry as importer
from import_cases import ImportCase, answers, with_clocks
from judging import FOLDER, needs_program, report_of

TRACE = "4bf92f3577b34da6a3ce929d0e0e4736"
INTERNAL, SERVER, CLIENT, PRODUCER, CONSUMER = 1, 2, 3, 4, 5


def value(held):
    for kind, field in ((bool, "boolValue"), (float, "doubleValue"), (dict, None)):
        if isinstance(held, kind):
            return {field: held} if field else held
    return {"intValue": str(held)} if isinstance(held, int) else {"stringValue": held}


def attributes(values):
    return [{"key": key, "value": value(held)} for key, held in values.items()]


def span(number, start, end, kind=INTERNAL, parent=None, name="work", values=(), **others):
    """A span with the id `number`, and the parent of that id."""
    made = {"traceId": TRACE, "spanId": f"{number:016x}", "name": name, "kind": kind,
            "startTimeUnixNano": str(start), "endTimeUnixNano": str(end), "attributes": attributes(dict(values))}
    return {**made, **({"parentSpanId": f"{parent:016x}"} if parent else {}), **others}


def event(time, name, **values):
    return {"timeUnixNano": str(time), "name": name, "attributes": attributes(values)}


def link(number):
    return {"traceId": TRACE, "spanId": f"{number:016x}"}


def resource(*spans, service="a", **values):
    """The spans of an instance."""
    named = {"service.name": service, **{key.replace("_", "."): held for key, held in values.items()}}
    return {"resource": {"attributes": attributes(named)}, "scopeSpans": [{"scope": {}, "spans": list(spans)}]}


def traces(*resources, **options):
    return json.dumps({"resourceSpans": list(resources)}, **options)


CLIENT_SPAN = span(1, 10, 20, CLIENT, name="POST /lock")
SERVER_SPAN = span(2, 7, 8, SERVER, parent=1, name="POST /lock")
CALL = traces(resource(CLIENT_SPAN), resource(SERVER_SPAN, service="b"))
CALL_STREAMS = {"a": [{"send": "a-1"}, {"recv": "b-1"}], "b": [{"recv": "a-1"}, {"send": "b-1"}]}


class Case(ImportCase):
    importer = importer
    ending = "json"

    def refused(self, errors, texts, *words):
        self.out += "+"
        super().refused(errors, texts, *words)

    def refused_span(self, why, *resources, words=(), number=1):
        """One document of these resources is refused with the span of that number, whose name is `work`."""
        self.refused(f"1.json span {number:016x} (work): {why}", [traces(*resources)], *words)

    def streams(self, *resources, words=()):
        """The streams of one document. Each call writes to a folder of its own."""
        self.out += "+"
        return self.imported([traces(*resources)], *words)[1]

    def texts(self, *resources):
        """The texts of all events, from the table."""
        self.streams(*resources)
        return [line.split("\t")[2] for line in self.written_file("events.tsv").splitlines()]


class Sessions(Case):
    def test_a_request_and_its_answer(self):
        document, streams = self.imported([CALL])
        self.assertEqual(document, {"processes": [{"name": "a", "vars": {}}, {"name": "b", "vars": {}}],
                                    "predicates": [{"name": "none", "text": "false"}]})
        self.assertEqual(streams, CALL_STREAMS)
        self.assertEqual(self.written, "2 processes, 4 events, 2 messages, 0 events written as several\n")
        self.assertEqual(self.written_file("events.tsv").splitlines(),
                         ["a#1\t1.json span 0000000000000001 (POST /lock)\tstart POST /lock",
                          "a#2\t1.json span 0000000000000001 (POST /lock)\tend POST /lock",
                          "b#1\t1.json span 0000000000000002 (POST /lock)\tstart POST /lock",
                          "b#2\t1.json span 0000000000000002 (POST /lock)\tend POST /lock"])

    def test_forms_of_a_file(self):
        each = [traces(resource(CLIENT_SPAN)), traces(resource(SERVER_SPAN, service="b"))]
        one = {"resource": {"attributes": attributes({"service.name": "a"})},
               "scopeSpans": [{"spans": []}, {}, {"spans": [CLIENT_SPAN]}]}
        for texts in (each, ["\n".join(each)], ["\n\n" + "\r\n".join(each) + "\r\n"], ["".join(each)],
                      [traces(resource(CLIENT_SPAN), resource(SERVER_SPAN, service="b"), indent=2)],
                      ["\ufeff" + each[0], each[1]], [json.dumps({"resourceSpans": [one]}), each[1]],
                      [each[0], '{"resourceMetrics":[]}\n' + each[1] + '\n{"resourceLogs":[{}]}']):
            self.out += "+"
            self.assertEqual(self.imported(texts)[1], CALL_STREAMS)

    def test_forms_of_ids_kinds_and_times(self):
        client = {**CLIENT_SPAN, "kind": "SPAN_KIND_CLIENT", "traceId": TRACE.upper(), "parentSpanId": "",
                  "startTimeUnixNano": 10, "unknown": [1]}
        server = {**SERVER_SPAN, "kind": "SPAN_KIND_SERVER", "links": None, "flags": 257}
        self.assertEqual(self.streams(resource(client), resource(server, service="b")), CALL_STREAMS)
        plain = {key: held for key, held in span(1, 1, 2).items() if key not in ("kind", "name", "attributes")}
        for others in ({}, {"kind": 0}, {"kind": "SPAN_KIND_UNSPECIFIED", "parentSpanId": "0" * 16}):
            self.assertEqual(self.streams(resource({**plain, **others})), {"a": [{}, {}]})
            self.assertEqual(self.written.count("\n"), 1)

    def test_all_fields_of_the_form(self):
        more = {"traceState": "a=b", "flags": 257, "droppedAttributesCount": 0, "droppedEventsCount": 0, "links": [],
                "droppedLinksCount": 0, "events": [{**event(12, "sent"), "droppedAttributesCount": 0}], "status": {}}
        made = resource({**CLIENT_SPAN, **more})
        made["resource"]["droppedAttributesCount"] = 0
        made["scopeSpans"][0].update({"scope": {"name": "net", "version": "1.0", "attributes": attributes({"x": 1})},
                                      "schemaUrl": "https://opentelemetry.io/schemas/1.21.0"})
        made["schemaUrl"] = "https://opentelemetry.io/schemas/1.21.0"
        self.assertEqual(self.streams(made, resource(SERVER_SPAN, service="b")),
                         {"a": [{"send": "a-1"}, {}, {"recv": "b-1"}], "b": CALL_STREAMS["b"]})

    def test_a_span_that_was_exported_twice(self):
        self.assertEqual(self.streams(resource(CLIENT_SPAN), resource(SERVER_SPAN, service="b"),
                                      resource(CLIENT_SPAN)), CALL_STREAMS)

    def test_spans_without_their_parents(self):
        streams = self.streams(resource(span(1, 1, 4, SERVER, parent=9), span(2, 2, 3, CLIENT, parent=1)))
        self.assertEqual(streams, {"a": [{}, {}, {}, {}]})
        self.assertEqual(self.written, "1 processes, 4 events, 0 messages, 0 events written as several\n"
                                       "1 spans have a parent that the traces don't have\n")

    def test_events_that_do_nothing_can_be_left_out(self):
        spans = resource(span(1, 1, 9, values={"x": 1}), span(2, 2, 3, CLIENT, parent=1)), resource(
            span(3, 1, 2, SERVER, parent=2, events=[event(1, "tells")]), service="b")
        words = ["--when", "^end .*x=1", "x=1"]
        self.assertEqual(self.streams(*spans, words=words),
                         {"a": [{}, {"send": "a-1"}, {"recv": "b-1"}, {"set": {"x": 1}}],
                          "b": [{"recv": "a-1"}, {}, {"send": "b-1"}]})
        self.assertEqual(self.streams(*spans, words=[*words, "--skip-plain-events"]),
                         {"a": [{"send": "a-1"}, {"recv": "b-1"}, {"set": {"x": 1}}],
                          "b": [{"recv": "a-1"}, {"send": "b-1"}]})
        self.assertEqual(self.streams(resource(span(1, 1, 2)), words=["--skip-plain-events"]), {"a": []})

    def test_width(self):
        self.assertEqual(self.imported([CALL], "--width", "65536")[0]["width"], 65536)


class Order(Case):
    def test_by_the_times_of_one_instance(self):
        self.assertEqual(self.texts(
            resource(span(1, 5, 40, name="x", events=[event(30, "late"), event(6, "early"), event(4, "before")]),
                     span(2, 100, 200, name="y")), resource(span(3, 3, 35, name="z"))),
            ["start z", "event before in x", "start x", "event early in x", "event late in x", "end z", "end x",
             "start y", "end y"])

    def test_times_that_are_long(self):
        time = 1_700_000_000_000_000_000
        self.assertEqual(self.texts(resource(span(1, time + 1, time + 2, name="x"), span(2, time, 2**64 - 1, name="y"),
                                             span(3, 9, 10, name="z"))),
                         ["start z", "end z", "start y", "start x", "end x", "end y"])

    def test_at_one_time_a_span_keeps_its_order(self):
        self.assertEqual(self.texts(resource(span(1, 5, 5, name="x", events=[event(5, "one"), event(5, "two")]))),
                         ["start x", "event one in x", "event two in x", "end x"])
        self.assertEqual(self.texts(resource(span(1, 5, 7, name="x", events=[event(7, "two"), event(5, "one")]))),
                         ["start x", "event one in x", "event two in x", "end x"])

    def test_at_one_time_a_span_is_inside_its_parent(self):
        inside = [span(1, 5, 9, parent=2, name="inner"), span(2, 5, 9, parent=3, name="middle"),
                  span(3, 5, 9, name="outer")]
        for spans in itertools.permutations(inside):
            self.assertEqual(self.texts(resource(*spans)), ["start outer", "start middle", "start inner",
                                                            "end inner", "end middle", "end outer"])
        spans = [{**each, "endTimeUnixNano": "5"} for each in inside]
        self.assertEqual(self.texts(resource(*spans)), ["start outer", "start middle", "start inner",
                                                        "end inner", "end middle", "end outer"])

    def test_at_one_time_events_in_any_order_follow_a_start_that_has_to_wait(self):
        inner = span(1, 5, 9, parent=2, name="inner", events=[event(9, "late"), event(5, "early")])
        self.assertEqual(self.texts(resource(inner, span(2, 5, 9, name="outer"))),
                         ["start outer", "start inner", "event early in inner", "event late in inner", "end inner",
                          "end outer"])

    def test_at_one_time_the_files_decide_what_is_left(self):
        first, second = span(1, 1, 5, parent=3, name="first"), span(2, 5, 9, parent=3, name="second")
        around = span(3, 1, 9, name="around")
        middle = ["start around", "start first", "end first", "start second", "end second", "end around"]
        self.assertEqual(self.texts(resource(first, second, around)), middle)
        middle[2:4] = reversed(middle[2:4])
        self.assertEqual(self.texts(resource(second, first, around)), middle)
        self.assertEqual(self.texts(resource(span(1, 5, 5, name="first"), span(2, 5, 5, name="second"))),
                         ["start first", "end first", "start second", "end second"])

    def test_clocks_of_instances_are_not_compared(self):
        late = [{**SERVER_SPAN, "startTimeUnixNano": str(9 * 10**18), "endTimeUnixNano": str(9 * 10**18 + 1)}]
        self.assertEqual(self.streams(resource(CLIENT_SPAN), resource(*late, service="b")), CALL_STREAMS)

    @needs_program
    def test_an_order_that_contradicts_itself_is_for_the_program_to_refuse(self):
        self.imported([traces(
            resource(span(1, 5, 6, PRODUCER), span(3, 3, 4, CONSUMER, parent=2)),
            resource(span(2, 5, 6, PRODUCER), span(4, 3, 4, CONSUMER, parent=1), service="b"))])
        streams = [self.written_file("a.stream"), self.written_file("b.stream")]
        self.assertEqual(report_of(self.written_file("session.json"), streams), "refused cycle a#1,b#1\n")


class Messages(Case):
    def test_within_one_instance_there_is_none(self):
        self.assertEqual(self.streams(resource(CLIENT_SPAN), resource(SERVER_SPAN)), {"a": [{}] * 4})

    def test_a_client_or_a_server_alone(self):
        self.assertEqual(self.streams(resource(CLIENT_SPAN)), {"a": [{}, {}]})
        self.assertEqual(self.streams(resource(SERVER_SPAN)), {"a": [{}, {}]})

    def test_a_call_in_a_call(self):
        streams = self.streams(
            resource(span(1, 1, 9, SERVER), span(2, 2, 8, CLIENT, parent=1)),
            resource(span(3, 1, 9, SERVER, parent=2), span(4, 2, 3, parent=3), span(5, 4, 8, CLIENT, parent=3),
                     service="b"),
            resource(span(6, 1, 2, SERVER, parent=5), service="c"))
        self.assertEqual(streams, {
            "a": [{}, {"send": "a-1"}, {"recv": "b-2"}, {}],
            "b": [{"recv": "a-1"}, {}, {}, {"send": "b-1"}, {"recv": "c-1"}, {"send": "b-2"}],
            "c": [{"recv": "b-1"}, {"send": "c-1"}]})

    def test_a_producer_and_its_consumer(self):
        for others in ({"parent": 1}, {"links": [link(1)]}, {"parent": 1, "links": [link(1), link(1), link(9)]}):
            self.assertEqual(
                self.streams(resource(span(1, 1, 2, PRODUCER)), resource(span(2, 1, 2, CONSUMER, **others),
                                                                         service="b")),
                {"a": [{"send": "a-1"}, {}], "b": [{"recv": "a-1"}, {}]})

    def test_a_consumer_of_several_messages(self):
        streams = self.streams(
            resource(span(1, 1, 2, PRODUCER), span(2, 3, 4, PRODUCER)),
            resource(span(3, 1, 2, PRODUCER), service="b"),
            resource(span(4, 1, 2, CONSUMER, links=[link(3), link(2), link(1)], values={"x": 7}), service="c"),
            words=["--variables", "^start .*x=(?<x>.)"])
        self.assertEqual(streams, {"a": [{"send": "a-1"}, {}, {"send": "a-2"}, {}], "b": [{"send": "b-1"}, {}],
                                   "c": [{"recv": "b-1"}, {"recv": "a-2"}, {"recv": "a-1", "set": {"x": 7}}, {}]})
        self.assertEqual(self.written, "3 processes, 8 events, 3 messages, 1 events written as several\n")

    def test_links_of_others_order_nothing(self):
        self.assertEqual(self.streams(resource(span(1, 1, 2, PRODUCER)),
                                      resource(span(2, 1, 2, INTERNAL, links=[link(1)]), service="b")),
                         {"a": [{}, {}], "b": [{}, {}]})

    def test_who_waits_for_messages_has_them_at_the_end(self):
        for key, kind in (("messaging.operation.type", CLIENT), ("messaging.operation", CONSUMER)):
            self.assertEqual(
                self.streams(resource(span(1, 1, 2, PRODUCER)), resource(
                    span(2, 1, 5, kind, links=[link(1)], values={key: "receive"}),
                    span(3, 6, 7, CONSUMER, parent=2, links=[link(1)], values={key: "process"}), service="b")),
                {"a": [{"send": "a-1"}, {}], "b": [{}, {"recv": "a-1"}, {}, {}]})

    def test_the_first_of_an_instance_receives(self):
        for times in ((1, 3), (3, 1)):
            consumers = [span(number, time, time + 1, CONSUMER, parent=1) for number, time in enumerate(times, 2)]
            self.assertEqual(self.streams(resource(span(1, 1, 2, PRODUCER)), resource(*consumers, service="b")),
                             {"a": [{"send": "a-1"}, {}], "b": [{"recv": "a-1"}, {}, {}, {}]})

    def test_the_first_to_end_answers(self):
        streams = self.streams(resource(CLIENT_SPAN), resource(
            span(2, 1, 9, SERVER, parent=1), span(3, 5, 7, SERVER, parent=1), service="b"))
        self.assertEqual(streams, {"a": [{"send": "a-1"}, {"recv": "b-1"}],
                                   "b": [{"recv": "a-1"}, {}, {"send": "b-1"}, {}]})

    def test_a_parent_of_another_kind_sent_its_context(self):
        # It may have reached several instances, by messages that have no spans.
        streams = self.streams(
            resource(span(1, 1, 9, values={"x": 1}), span(2, 2, 3, parent=1)),
            resource(span(3, 1, 2, SERVER, parent=1), span(4, 3, 4, SERVER, parent=1), service="b"),
            resource(span(5, 1, 2, INTERNAL, parent=1), service="c"), words=["--variables", "^start .*x=(?<x>.)"])
        self.assertEqual(streams, {"a": [{"send": "a-1", "set": {"x": 1}}, {}, {}, {}],
                                   "b": [{"recv": "a-1"}, {}, {}, {}], "c": [{"recv": "a-1"}, {}]})
        self.assertEqual(self.written, "3 processes, 10 events, 1 messages, 0 events written as several\n"
                                       "messages with several receivers: 1, so the document is of version 2\n")

    def test_a_client_is_answered_by_a_server_alone(self):
        for kind in (INTERNAL, CONSUMER, CLIENT):
            self.assertEqual(self.streams(resource(CLIENT_SPAN), resource(span(2, 1, 2, kind, parent=1), service="b")),
                             {"a": [{"send": "a-1"}, {}], "b": [{"recv": "a-1"}, {}]})

    def test_a_start_that_receives_and_sends(self):
        streams = self.streams(
            resource(CLIENT_SPAN), resource({**SERVER_SPAN, "attributes": attributes({"x": 1})}, service="b"),
            resource(span(3, 1, 2, SERVER, parent=2), service="c"), words=["--variables", "^start .*x=(?<x>.)"])
        self.assertEqual(streams["b"], [{"recv": "a-1", "set": {"x": 1}}, {"send": "b-1"}, {"send": "b-2"}])
        self.assertNotIn("version", json.loads(self.written_file("session.json")))

    def test_clients_without_an_answer(self):
        for others in ({"values": {"error.type": "timeout"}}, {"status": {"code": 2, "message": "timeout"}}):
            self.assertEqual(
                self.streams(resource(span(1, 1, 2, CLIENT, **others)), resource(SERVER_SPAN, service="b"),
                             words=["--unanswered", "status_code=OK", "--unanswered", "^end .*=timeout$"]),
                {"a": [{"send": "a-1"}, {}], "b": [{"recv": "a-1"}, {}]})

    def test_a_message_with_several_consumers(self):
        for receivers in (CONSUMER, INTERNAL):
            streams = self.streams(resource(span(1, 1, 2, PRODUCER)),
                                   resource(span(2, 1, 2, receivers, parent=1), service="b"),
                                   resource(span(3, 1, 2, receivers, parent=1), service="c"))
            self.assertEqual(streams, {"a": [{"send": "a-1"}, {}], "b": [{"recv": "a-1"}, {}],
                                       "c": [{"recv": "a-1"}, {}]})
            self.assertEqual(self.written, "3 processes, 6 events, 1 messages, 0 events written as several\n"
                                           "messages with several receivers: 1, so the document is of version 2\n")
            self.assertEqual(json.loads(self.written_file("session.json"))["version"], 2)

    def test_a_consumer_by_its_parent_and_one_by_a_link(self):
        streams = self.streams(
            resource(span(1, 1, 2, PRODUCER), span(4, 3, 4, PRODUCER)),
            resource(span(3, 1, 2, CONSUMER, parent=1), service="c"),
            resource(span(2, 1, 2, CONSUMER, links=[link(4), link(1)], values={"x": 7}), service="b"),
            words=["--variables", "^start .*x=(?<x>.)"])
        self.assertEqual(streams, {"a": [{"send": "a-1"}, {}, {"send": "a-2"}, {}], "c": [{"recv": "a-1"}, {}],
                                   "b": [{"recv": "a-1"}, {"recv": "a-2", "set": {"x": 7}}, {}]})

    def test_consumers_of_one_instance_are_one_receiver(self):
        streams = self.streams(
            resource(span(1, 1, 2, PRODUCER)),
            resource(span(2, 1, 2, CONSUMER, parent=1), span(3, 3, 4, CONSUMER, parent=1), service="b"),
            resource(span(4, 1, 2, CONSUMER, parent=1), service="c"), words=["--leave-out", "c"])
        self.assertEqual(streams, {"a": [{"send": "a-1"}, {}], "b": [{"recv": "a-1"}, {}, {}, {}]})
        self.assertNotIn("version", json.loads(self.written_file("session.json")))

    def test_a_request_with_several_receivers(self):
        for others in ({"parent": 1}, {"parent": 1, "links": [link(1)]}):
            self.refused_span("it is a second receiver of the request of 1.json span 0000000000000001 (work), and a "
                              "request has one",
                              resource(span(1, 1, 2, CLIENT)), resource(span(2, 1, 2, SERVER, parent=1), service="b"),
                              resource(span(3, 1, 2, SERVER, **others), service="c"), number=3)


class Variables(Case):
    def test_texts_of_attributes(self):
        long = {"arrayValue": {"values": [value("a b"), {}, {"arrayValue": {}}]}}
        self.assertEqual(self.texts(resource(span(1, 1, 2, name="GET\t/x y", values={
            "text": "two", "blank": "two words", "quote": 'a"b', "lines": "a\nb", "empty": "", "no": {}, "yes": True,
            "n": -3, "plain": {"intValue": 4}, "half": 0.5, "none": {"doubleValue": "NaN"}, "all": long,
            "map": {"kvlistValue": {"values": [{"key": "k", "value": {"intValue": "1"}}]}},
            "bytes": {"bytesValue": "AAE="}, "a key": "é"}))), [
            f'{head} GET\\t/x y text=two blank="two words" quote="a\\"b" lines="a\\nb" empty="" no= yes=true n=-3 '
            'plain=4 half=0.5 none=NaN all=["a b",null,[]] map={"k":1} bytes=AAE= "a key"=é'
            for head in ("start", "end")])

    def test_texts_of_events_and_of_the_status(self):
        self.assertEqual(self.texts(resource(span(1, 1, 9, name="x", values={"n": 1}, events=[
            event(3, "now", k="v"), {"timeUnixNano": "4"}], status={"code": "STATUS_CODE_ERROR", "message": "no way"})),
            resource(span(2, 10, 11, name="y", status={"code": 1}), span(3, 12, 13, name="z", status={}))), [
            "start x n=1", "event now in x k=v", "event  in x",
            'end x n=1 otel.status_code=ERROR otel.status_description="no way"',
            "start y", "end y otel.status_code=OK", "start z", "end z"])

    def test_half_of_a_pair_of_surrogates(self):
        self.assertEqual(self.texts(resource(span(1, 1, 2, name="\ud800"))), ["start \\ud800", "end \\ud800"])

    def test_several_patterns_and_conditions(self):
        document, streams = self.imported([traces(
            resource(span(1, 1, 9, name="hold", values={"term": 3, "lead": True}, events=[event(5, "load", load=-7)])),
            resource(span(2, 1, 2, name="hold"), service="b"))],
            "--variables", r"^start hold .*term=(?<term>\d+)", "--variables", r"^start hold .*lead=(?<lead>\w+)",
            "--variables", r"load in hold load=(?<load>-?\d+)", "--when", "^start hold", "inside=1",
            "--when", "^end hold", "inside=0", "--initial", "b.inside=-5", "--initial", "term=1")
        self.assertEqual(document["processes"], [
            {"name": "a", "vars": {"inside": 0, "lead": 0, "load": 0, "term": 1}},
            {"name": "b", "vars": {"inside": -5, "lead": 0, "load": 0, "term": 1}}])
        self.assertEqual(streams, {
            "a": [{"set": {"term": 3, "lead": 1, "inside": 1}}, {"set": {"load": -7}}, {"set": {"inside": 0}}],
            "b": [{"set": {"inside": 1}}, {"set": {"inside": 0}}]})

    def test_what_matches_at_both_ends(self):
        for words, shown in ((["--variables", "n=(?<n>.)"], "n=(?<n>.)"), (["--when", "work", "n=1"], "work")):
            self.refused_span(f"'{shown}' matches at its start and at its end, and the trace doesn't tell when an "
                              "attribute was set: begin the pattern with ^start, ^event or ^end",
                              resource(span(1, 1, 2, values={"n": 1})), words=words)

    def test_refused_values(self):
        for held in ("", "seven", "1.5"):
            shown = '\'""\'' if not held else repr(held)
            self.refused_span(f"the value of x is {shown}, which is no whole number of 64 bits",
                              resource(span(1, 1, 2, values={"x": held})), words=["--variables", "^end .*x=(?<x>.*)"])
        self.refused_span("it sets x to 1 and to 0", resource(span(1, 1, 2, values={"x": 1})),
                          words=["--variables", "^end .*x=(?<x>.*)", "--when", "^end", "x=0"])

    def test_refused_initial_values(self):
        for given, why in (("c.x=1", "there is no process c"), ("x=1", "neither --variables nor --when names x")):
            self.refused(f"--initial: {why}", [CALL], "--initial", given)


class Names(Case):
    def names(self, *resources, words=()):
        self.out += "+"
        return [process["name"] for process in self.imported([traces(*resources)], *words)[0]["processes"]]

    def test_instances_of_a_service(self):
        resources = [resource(span(number, 1, 2), **values) for number, values in enumerate((
            {"service": "a-b", "service_instance_id": "x"}, {"service": "c"},
            {"service": "a-b", "service_instance_id": "y"}, {"service": "a-b", "service_instance_id": "x"},
            {"service": "d", "service_namespace": "n", "service_instance_id": "z"}), 1)]
        self.assertEqual(self.names(*resources), ["a_b_1", "c", "a_b_2", "d"])
        self.assertEqual(self.written.splitlines()[1:], ["a_b_1 is instance a-b/x", "a_b_2 is instance a-b/y",
                                                         "d is instance n/d/z"])
        self.assertEqual(self.names(*resources, words=["--name", "a-b/y=second", "--name", "c=k"]),
                         ["a_b_1", "k", "second", "d"])
        self.assertEqual(self.names(*resources, words=["--leave-out", "a-b/x", "--leave-out", "c"]), ["a_b", "d"])

    def test_what_tells_instances_apart(self):
        resources = [resource(span(number, 1, 2), process_pid=pid) for number, pid in enumerate((7, 8, 7), 1)]
        self.refused_span("its resource has process.pid=8, and another of instance 'a' has 7 there: name what tells "
                          "instances apart by --instance", *resources, number=2)
        self.assertEqual(self.names(*resources, words=["--instance", "service.name", "--instance", "process.pid"]),
                         ["a_1", "a_2"])
        self.assertEqual(self.names(*resources, words=["--instance", "process.pid", "--name", "7=seven"]),
                         ["seven", "a_2"])
        self.assertEqual(self.names(*resources, words=["--instance", "service.name"]), ["a"])
        self.refused_span("its resource has no host.name", *resources, words=["--instance", "host.name"])

    def test_a_later_resource_may_say_more(self):
        resources = [resource(span(number, 1, 2), **values) for number, values in enumerate((
            {}, {"process_pid": 7}, {"process_pid": 8}), 1)]
        self.assertEqual(self.names(*resources[:2]), ["a"])
        self.refused_span("its resource has process.pid=8, and another of instance 'a' has 7 there: name what tells "
                          "instances apart by --instance", *resources, number=3)

    def test_names_that_no_process_can_have(self):
        self.refused("1.json span 0000000000000002 (work): instance 'a.b' would be a second process a_b; give it "
                     "another name by --name",
                     [traces(resource(span(1, 1, 2), service="a-b"), resource(span(2, 1, 2), service="a.b"))])
        status, _, errors = self.run_on([traces(resource(span(1, 1, 2), service="and"))])
        self.assertEqual(status, 1)
        self.assertRegex(errors, r"^refused: 1.json span 0000000000000001 \(work\): 'and' is no name of a process: ")
        self.refused("--name: there is no instance 'b'", [traces(resource(span(1, 1, 2)))], "--name", "b=c")

    def test_instances_that_are_left_out(self):
        resources = resource(CLIENT_SPAN), resource(SERVER_SPAN, service="b"), resource(span(3, 1, 2), service="c")
        self.assertEqual(self.streams(*resources, words=["--leave-out", "b"]), {"a": [{}, {}], "c": [{}, {}]})
        self.assertEqual(self.streams(*resources, words=["--leave-out", "a"]), {"b": [{}, {}], "c": [{}, {}]})
        self.refused("--leave-out: there is no instance 'd'", [traces(*resources)], "--leave-out", "d")
        self.refused("--leave-out: no instance is left", [traces(resources[2])], "--leave-out", "c")


class RefusedTraces(Case):
    def test_files_that_are_no_traces(self):
        for text, why in (
                ("{", "line 1: this isn't JSON: Expecting property name enclosed in double quotes"),
                (CALL + "\n\n}", "line 3: this isn't JSON: Expecting value"), ("[]", "line 1: this is no JSON object"),
                (b"\n\xff", "line 2: this isn't UTF-8"),
                ('{"resourceMetrics":[]}\n{"batches":[]}',
                 "line 2: it has no resourceSpans, so it is no OTLP as JSON"),
                ('{"resourceSpans":{}}', "line 1: resourceSpans is no array of objects"),
                ('{"resourceSpans":[1]}', "line 1: resourceSpans is no array of objects"),
                ('{"resourceSpans":[{"scopeSpans":[{"spans":1}]}]}', "line 1: spans is no array of objects"),
                ('{"resourceSpans":[{"instrumentationLibrarySpans":[]}]}',
                 "line 1: a resource is no object, or has instrumentationLibrarySpans, an earlier form"),
                ('{"resourceSpans":[{"resource":1}]}',
                 "line 1: a resource is no object, or has instrumentationLibrarySpans, an earlier form")):
            self.refused(f"1.json {why}", [text])
        for text in ("", '{"resourceSpans":[]}', '{"resourceLogs":[]}'):
            self.refused("1.json: there is no span", [text])

    def test_files_that_nest_too_deep(self):
        # Which of the two it is depends on how deep this Python reads JSON.
        head, end = traces(resource(span(1, 1, 2, values={"x": "HERE"}))).split('{"stringValue": "HERE"}')
        for depth in (1_000, 100_000):
            status, _, errors = self.run_on([head + '{"arrayValue":{"values":[' * depth + "]}}" * depth + end])
            self.assertEqual(status, 1)
            self.assertRegex(errors, "^refused: 1.json line 1: (this isn't JSON: |it nests too deep)")

    def test_ids(self):
        for field, digits in (("traceId", 32), ("spanId", 16), ("parentSpanId", 16)):
            where = "span 0000000000000001 (work)" if field == "parentSpanId" else "line 1: a span"
            for held in ("0", "g" * digits, "S/kvNXezTaajzpKdDg5HNg==", "1" * (digits + 1), 7):
                self.refused(f"1.json {where}: its {field} is {held!r}, and not {digits} hexadecimal digits",
                             [traces(resource(span(1, 1, 2, **{field: held})))])
        for others in ({"traceId": ""}, {"spanId": "0" * 16}, {"name": 1}):
            self.refused("1.json line 1: a span has no traceId, no spanId, or a name that is no text",
                         [traces(resource(span(1, 1, 2, **others)))])
        self.refused_span("another span has the same ids and other content",
                          resource(span(1, 1, 2)), resource(span(1, 1, 3)))
        self.refused_span("another span has the same ids and other content",
                          resource(span(1, 1, 2)), resource(span(1, 1, 2), service="b"))

    def test_kinds_and_status(self):
        for held in (6, -1, True, "CLIENT", "3", 1.0, None):
            self.refused_span(f"its kind is {held!r}, which isn't known", resource(span(1, 1, 2, kind=held)))
        self.refused_span("its status is 3, which isn't known", resource(span(1, 1, 2, status={"code": 3})))
        for held in (1, {"message": 1}):
            self.refused_span("its status is no object, or its message no text", resource(span(1, 1, 2, status=held)))

    def test_times(self):
        for field in ("startTimeUnixNano", "endTimeUnixNano"):
            for held in (None, "", "0", 0, "1.5", 1.5, "1e3", str(2**64), "-1", "one", True):
                self.refused_span(f"its {field} is {held!r}, and no time in nanoseconds",
                                  resource(span(1, 1, 2, **{field: held})))
        self.refused_span("its timeUnixNano is None, and no time in nanoseconds",
                          resource(span(1, 1, 2, events=[{"name": "x"}])))
        self.refused_span("it ends before it starts", resource(span(1, 2, 1)))

    def test_attributes_and_events(self):
        for held, why in (({"intValue": "1.5"}, "its intValue isn't known, or not of its type"),
                          ({"intValue": True}, "its intValue isn't known, or not of its type"),
                          ({"boolValue": "true"}, "its boolValue isn't known, or not of its type"),
                          ({"newValue": 1}, "its newValue isn't known, or not of its type"),
                          ({"kvlistValue": {"values": 1}}, "it: values is no array of objects"),
                          ({"stringValue": "a", "intValue": 1}, "its value is no object of one field")):
            self.refused_span(f"attribute x: {why}", resource(span(1, 1, 2, values={"x": held})))
        for pairs in ([{"value": {}}], [{"key": 1}], [{"key": "x"}, {"key": "x"}]):
            shown = repr(pairs[-1].get("key"))
            self.refused_span(f"the key of an attribute is no text, or stands twice: {shown}",
                              resource(span(1, 1, 2, **{"attributes": pairs})))
        self.refused_span("an event's name is no text",
                          resource(span(1, 1, 2, events=[{"name": 1, "timeUnixNano": "1"}])))

    def test_what_was_dropped(self):
        for others in ({"droppedAttributesCount": 2}, {"droppedEventsCount": 2}, {"droppedLinksCount": 2},
                       {"events": [{**event(1, "x"), "droppedAttributesCount": 2}]}):
            field = next(key for key in [*others, "droppedAttributesCount"] if key.startswith("dropped"))
            self.refused_span(f"it has {field} 2, so what it was to set may be missing (--accept-dropped takes it as "
                              "it is)", resource(span(1, 1, 2, **others)))
            self.streams(resource(span(1, 1, 2, **others)), words=["--accept-dropped"])
            self.streams(resource(span(1, 1, 2, droppedEventsCount=0)))

    def test_spans_inside_themselves(self):
        for parents in ((1,), (2, 1), (2, 3, 1)):
            spans = [span(number, number, 9, parent=parent) for number, parent in enumerate(parents, 1)]
            self.refused_span("by the parents it is inside itself", resource(*spans))
        self.refused_span("by the parents it is inside itself", resource(
            span(4, 1, 9, parent=1), span(1, 1, 9, parent=2), span(2, 1, 9, parent=1)))

    def test_limits(self):
        spans = [resource(span(number, 1, 2), service=f"s{number}") for number in range(1, 18)]
        self.refused_span("'s17' would be instance 17, and a session has at most 16: leave some out by --leave-out",
                          *spans, number=17)
        self.assertEqual(len(self.streams(*spans, words=["--leave-out", "s3"])), 16)
        many = [span(number, number, number) for number in range(1, 5002)]
        self.assertEqual(len(self.streams(resource(*many[:-1]))["a"]), 10_000)
        self.refused_span("with this event a has over 10000 events in its stream", resource(*many), number=5001)


class Program(Case):
    def test_files(self):
        status, _, errors = self.run_on([CALL], "none.json")
        self.assertEqual((status, errors), (1, "refused: [Errno 2] No such file or directory: 'none.json'\n"))
        self.imported([CALL])
        status, _, errors = self.run_on([CALL])
        self.assertEqual(status, 2)
        self.assertRegex(errors, "error: out is no empty folder\n$")

    def test_the_program(self):
        words = ["--out", "out", "--predicate", "none", "false", "1.json"]
        for text, status in ((CALL, 0), ("{}", 1)):
            with open("1.json", "w", encoding="utf-8") as file:
                file.write(text)
            done = subprocess.run([sys.executable, os.path.join(FOLDER, "import_opentelemetry.py"), *words],
                                  capture_output=True, timeout=60)
            self.assertEqual(done.returncode, status)
            words[1] = "other"

    def test_arguments(self):
        for words, why in (
                (["--variables", "x"], "argument --variables: 'x' has no named group"),
                (["--unanswered", "("],
                 "argument --unanswered: missing ), unterminated subpattern at position 0 in '('"),
                (["--name", "a"], "argument --name: 'a' isn't INSTANCE=NAME"),
                (["--predicate", "a", "true"] * 16, "a session has at most 16 predicates")):
            status, _, errors = self.run_on([CALL], *words)
            self.assertEqual((status, errors.splitlines()[-1].partition("error: ")[2]), (2, why))


# Runs at random, which know their own clocks, against the streams that are made of their spans.

class RandomRun:
    """Instances that call each other and send messages, each by a clock of its own that only it goes by."""

    def __init__(self, generator):
        self.generator = generator
        self.count = generator.randrange(2, 4)
        self.times = [generator.randrange(1, 10**6) for _ in range(self.count)]
        self.events = [[] for _ in range(self.count)]
        self.spans = [[] for _ in range(self.count)]
        self.open = []
        self.requests = []
        self.messages = []
        self.numbers = itertools.count(1)

    def happens(self, instance, source=None):
        """An event of the instance, after those in `source`, its clock and its time."""
        before = [events[-1][0] if mine == instance and events else (0,) * self.count
                  for mine, events in enumerate(self.events)]
        counts = [max(column) for column in zip(*before, source or (0,) * self.count)]
        counts[instance] += 1
        number = self.generator.randrange(3)
        self.events[instance].append((tuple(counts), {"x": number}))
        self.times[instance] += self.generator.randrange(1, 9)
        return tuple(counts), self.times[instance], number

    def start(self, instance, kind, parent=None, source=None, **others):
        clock, time, number = self.happens(instance, source)
        inside = [each for each in self.open if each["instance"] == instance and self.generator.random() < 0.7]
        parent = parent or (inside[-1]["number"] if inside and kind != SERVER else None)
        one = {"number": next(self.numbers), "instance": instance, "kind": kind, "clock": clock, "answer": None,
               "takers": [],
               "span": span(0, time, time, kind, parent=parent, values={"at_start": number}, **others)}
        one["span"]["spanId"] = f"{one['number']:016x}"
        self.open.append(one)
        return one

    def tell(self, one):
        _, time, number = self.happens(one["instance"])
        one["span"].setdefault("events", []).append(event(time, "tells", told=number))

    def end(self, one):
        clock, time, number = self.happens(one["instance"], one["answer"])
        one["span"]["endTimeUnixNano"] = str(time)
        one["span"]["attributes"] += attributes({"at_end": number})
        if one["kind"] == SERVER:
            one["client"]["answer"] = clock
        self.open.remove(one)
        self.spans[one["instance"]].append(one["span"])

    def can_end(self, one):
        return one["kind"] != CLIENT or one["answer"] is not None or one in self.requests

    def serve(self, instance):
        client = next((each for each in self.requests if each["instance"] != instance and each in self.open), None)
        if client:
            self.requests.remove(client)
            self.start(instance, SERVER, client["number"], client["clock"])["client"] = client

    def consume(self, instance):
        others = [each for each in self.messages if instance not in (each["instance"], *each["takers"])]
        taken = others[:self.generator.choice((1, 2, 2))]
        if not taken:
            return
        for each in taken:
            each["takers"].append(instance)
            if self.generator.random() < 0.5:
                self.messages.remove(each)
        source = [max(column) for column in zip(*(each["clock"] for each in taken))]
        linked = [link(each["number"]) for each in taken]
        parent = taken[0]["number"] if self.generator.random() < 0.5 else None
        if parent and self.generator.random() < 0.5:
            linked = linked[1:]
        self.start(instance, CONSUMER, parent, source, links=linked)

    def step(self):
        instance = self.generator.randrange(self.count)
        action = self.generator.randrange(7)
        if action == 0:
            self.requests.append(self.start(instance, CLIENT))
        elif action in (1, 6):
            self.messages.append(self.start(instance, PRODUCER))
        elif action == 2:
            self.serve(instance)
        elif action == 3:
            self.consume(instance)
        elif self.open:
            one = self.generator.choice(self.open)
            (self.end if action == 4 and self.can_end(one) else self.tell)(one)

    def run(self):
        for _ in range(self.generator.randrange(5, 12)):
            self.step()
        while self.open:
            self.end(next(one for one in reversed(self.open) if self.can_end(one)))

    def texts(self):
        """The spans in two files, in any order."""
        spans = [(instance, each) for instance, own in enumerate(self.spans) for each in own]
        self.generator.shuffle(spans)
        lines = [traces(resource(each, service=f"s{instance}")) for instance, each in spans]
        half = self.generator.randrange(len(lines) + 1)
        return ["\n".join(lines[:half]), "\n".join(lines[half:])]


class Answers(Case):
    WORDS = ["--variables", r"^start .* at_start=(?<x>\d)", "--variables", r"^event .* told=(?<x>\d)",
             "--variables", r"^end .* at_end=(?<x>\d)"]

    def runs(self, count):
        generator = random.Random(11)
        for number in range(count):
            run = RandomRun(generator)
            run.run()
            self.out = f"out{number}"
            if not any(run.events):
                continue
            used = [instance for instance, events in enumerate(run.events) if events]
            original = [[(tuple(clock[other] for other in used), settings) for clock, settings in run.events[instance]]
                        for instance in used]
            names = [f"s{instance}" for instance in used]
            streams = self.imported(run.texts(), *self.WORDS)[1]
            all_states = list(itertools.product(range(3), repeat=len(names)))
            states = set(generator.sample(all_states, generator.randrange(1, 2 + len(all_states) // 4)))
            yield names, [streams[name] for name in names], original, states

    def test_the_streams_have_the_order_of_the_run(self):
        same = messages = yes = split = shared = 0
        for _, lines, original, states in self.runs(150):
            found = with_clocks(lines)
            if sum(map(len, lines)) == sum(map(len, original)):
                self.assertEqual(found, original)
                same += 1
            else:
                split += 1
            expected = answers(original, states)
            self.assertEqual(answers(found, states), expected)
            messages += sum("recv" in line for own in lines for line in own)
            yes += sum(expected[:2])
            shared += json.loads(self.written_file("session.json")).get("version") == 2
        self.assertGreater(min(same, messages, yes), 50)
        self.assertGreater(min(split, shared), 3)

    @needs_program
    def test_reports_of_what_is_imported(self):
        for names, _, original, states in self.runs(40):
            streams = [self.written_file(f"{name}.stream") for name in names]
            any_of = " or ".join("(" + " and ".join(f"{name}.x == {held}" for name, held in zip(names, state)) + ")"
                                 for state in sorted(states))
            document = {**json.loads(self.written_file("session.json")),
                        "predicates": [{"name": "state", "text": any_of}]}
            lines = report_of(document, streams).splitlines()
            found = tuple(line.split()[2] == "yes" for line in lines[1:])
            self.assertEqual(found, answers(original, states)[:2])


if __name__ == "__main__":
    unittest.main()
