#!/usr/bin/env python3
"""Makes a session of `monitor` from OpenTelemetry traces, in the form of OTLP as JSON or, with --protobuf, as
protobuf. As JSON they are:

    {"resourceSpans":[{"resource":{"attributes":[..]},"scopeSpans":[{"spans":[..]}]}]}

    python3 import_opentelemetry.py --out FOLDER --when '^start hold' inside=1 --when '^end hold' inside=0 \\
        --predicate both 'left.inside == 1 and right.inside == 1' traces.json

A file has one such document or several, as one on each line; as protobuf it has one message, or several, each after
its length in four bytes. FOLDER, which must be new or empty, then has the session document `session.json`, a stream for
each service instance, and `events.tsv`, which says for each event of the streams from which span it is.
The starts and ends of an instance's spans and the events in them are its events, in the order of its own clock. Spans
whose parent is of another instance, and consumers that link to one, make the messages; clocks of different instances
are never compared.
Patterns are held against one text for each event, of which the attributes stand in those of the start and of the end:

    start NAME KEY=VALUE ..
    event EVENT in NAME KEY=VALUE ..
    end NAME KEY=VALUE .. otel.status_code=ERROR

Each variable that --variables or --when names is one of each process, 0 at first unless --initial says otherwise.
What can't be brought into a session is refused with its span, and then nothing is written.
recorders/README.md says what is found, what is refused, and what a trace doesn't tell.

The status is 0 if the session is written, 1 if the traces are refused, and 2 if the command line is."""
import sys

import otlp_protobuf
from importing import Refused
from tracing import documents, import_traces, objects, whole_file

OTHER_SIGNALS = ("resourceMetrics", "resourceLogs", "resourceProfiles")


def spans_of(place, document):
    """Each span of a document with its resource, both as the objects that they are in JSON."""
    if not isinstance(document, dict):
        raise Refused(f"{place}: this is no JSON object")
    if "resourceSpans" not in document:
        if not any(field in document for field in OTHER_SIGNALS):
            raise Refused(f"{place}: it has no resourceSpans, so it is no OTLP as JSON")
        return
    for entry in objects(place, document, "resourceSpans"):
        resource = entry.get("resource") or {}
        if not isinstance(resource, dict) or "instrumentationLibrarySpans" in entry:
            raise Refused(f"{place}: a resource is no object, or has instrumentationLibrarySpans, an earlier form")
        for scope in objects(place, entry, "scopeSpans"):
            for data in objects(place, scope, "spans"):
                yield resource, data


def read(path, given):
    """Each document of a file as its place and what yields its spans."""
    if given.protobuf:
        for byte, document in otlp_protobuf.documents(path, whole_file(path)):
            place = f"{path} byte {byte}"
            yield place, spans_of(place, document)
    else:
        for line, document in documents(path):
            place = f"{path} line {line}"
            yield place, spans_of(place, document)


def add_options(parser):
    parser.add_argument("--protobuf", action="store_true", help="the files are OTLP as protobuf, and not as JSON")


def main(words):
    return import_traces(words, __doc__, read, add_options)


if __name__ == "__main__":
    sys.exit(main(sys.argv[1:]))
