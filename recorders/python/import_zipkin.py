#!/usr/bin/env python3
"""Makes a session of `monitor` from traces in the JSON of Zipkin, version 2, as reporters send it and its server gives
it:

    [{"traceId":"..","id":"..","name":"hold","timestamp":1,"duration":2,"localEndpoint":{"serviceName":"left"}},..]

    python3 import_zipkin.py --out FOLDER --when '^start hold' inside=1 --when '^end hold' inside=0 \\
        --predicate both 'left.inside == 1 and right.inside == 1' traces.json

A file has one such list, of spans or of lists of spans, or several. FOLDER, which must be new or empty, then has the
session document `session.json`, a stream for each service instance, and `events.tsv`, which says for each event of the
streams from which span it is. Processes, events, messages and patterns are those that import_opentelemetry.py makes of
the same spans: a tag is an attribute, an annotation an event, and the local endpoint the resource. A server's span may
have the ids of its client's. What can't be brought into a session is refused with its span, and then nothing is
written. recorders/README.md says what is found, what is refused, and what a trace doesn't tell.

The status is 0 if the session is written, 1 if the traces are refused, and 2 if the command line is."""
import sys

from importing import Refused, shown
from tracing import (JOINS, documents, duration, identity, import_traces, key_value, kind_by_name, microseconds,
                     objects, span_place, status_by_name)

ENDPOINT = {"serviceName": "service.name", "ipv4": "ipv4", "ipv6": "ipv6", "port": "port"}


def texts_of(place, span):
    """The tags."""
    tags = span.get("tags") or {}
    if not isinstance(tags, dict) or not all(isinstance(text, str) for text in tags.values()):
        raise Refused(f"{place}: its tags are no object of texts")
    return dict(tags)


def endpoint(place, span, field, head=""):
    """What an endpoint says, as attributes whose keys begin with `head`."""
    found = span.get(field) or {}
    if not isinstance(found, dict):
        raise Refused(f"{place}: its {field} is no object")
    attributes = []
    for part, key in ENDPOINT.items():
        held = found.get(part)
        if type(held) not in (str, int, type(None)):
            raise Refused(f"{place}: the {part} of its {field} is {shown(held)}")
        if held:
            attributes.append(key_value(head + key, str(held)))
    return attributes


def event_of(place, annotation):
    value = annotation.get("value")
    if not isinstance(value, str):
        raise Refused(f"{place}: an annotation has no value, or one that is no text")
    return {"name": value, "timeUnixNano": microseconds(place, annotation, "timestamp")}


def status_of(tags):
    is_error = "error" in tags
    status, error = tags.pop("otel.status_code", None), tags.pop("error", "")
    return status_by_name("ERROR" if status is None and is_error else status, error)


def span_data(path, document_place, span):
    """A span in the form of OTLP, and the resource of its local endpoint."""
    place = f"{document_place}: a span"
    trace, own = identity(place, span, "traceId", 32, 1), identity(place, span, "id", 16, 1)
    name = span.get("name") or ""
    if trace is None or own is None or not isinstance(name, str):
        raise Refused(f"{document_place}: a span has no traceId, no id, or a name that is no text")
    place = span_place(path, own, name)
    start = microseconds(place, span, "timestamp")
    tags = texts_of(place, span)
    status = status_of(tags)
    data = {"traceId": trace, "spanId": own, "parentSpanId": identity(place, span, "parentId", 16, 1), "name": name,
            "kind": kind_by_name(span.get("kind")), "status": status, "startTimeUnixNano": start,
            "endTimeUnixNano": start + duration(place, span),
            "attributes": [*(key_value(key, text) for key, text in tags.items()),
                           *endpoint(place, span, "remoteEndpoint", "remote.")],
            "events": [event_of(place, annotation) for annotation in objects(place, span, "annotations")]}
    if span.get("kind") == "SERVER":
        data[JOINS] = span.get("shared") is True
    return {"attributes": endpoint(place, span, "localEndpoint")}, data


def spans_of(path, place, document):
    if not isinstance(document, list):
        raise Refused(f"{place}: it is no list, so it is no JSON of Zipkin of version 2")
    for number, entry in enumerate(document, 1):
        for span in entry if isinstance(entry, list) else [entry]:
            if not isinstance(span, dict):
                raise Refused(f"{place}: entry {number} is {shown(span)}, and no span")
            yield span_data(path, place, span)


def read(path, _):
    """Each document of a file as its place and what yields its spans."""
    for line, document in documents(path):
        place = f"{path} line {line}"
        yield place, spans_of(path, place, document)


def main(words):
    return import_traces(words, __doc__, read)


if __name__ == "__main__":
    sys.exit(main(sys.argv[1:]))
