#!/usr/bin/env python3
"""Makes a session of `monitor` from traces in the JSON of Jaeger, as its query service and its pages give them:

    {"data":[{"traceID":"..","spans":[..],"processes":{"p1":{"serviceName":"left","tags":[..]}}}]}

    python3 import_jaeger.py --out FOLDER --when '^start hold' inside=1 --when '^end hold' inside=0 \\
        --predicate both 'left.inside == 1 and right.inside == 1' traces.json

A file has one such document or several. FOLDER, which must be new or empty, then has the session document
`session.json`, a stream for each service instance, and `events.tsv`, which says for each event of the streams from
which span it is. Processes, events, messages and patterns are those that import_opentelemetry.py makes of the same
spans: a tag is an attribute, a log an event that is called as its field `event` says, and a reference the parent or a
link. What can't be brought into a session is refused with its span, and then nothing is written.
recorders/README.md says what is found, what is refused, and what a trace doesn't tell.

The status is 0 if the session is written, 1 if the traces are refused, and 2 if the command line is."""
import sys

from importing import Refused, shown
from tracing import (documents, duration, identity, import_traces, key_value, kind_by_name, microseconds, objects,
                     span_place, status_by_name)

TYPES = {"string": "stringValue", "bool": "boolValue", "int64": "intValue", "float64": "doubleValue",
         "binary": "bytesValue"}


def tags_of(place, holder, field="tags"):
    """The values of tags by their keys, each in the form of OTLP. One that stands twice with one value is one tag."""
    tags = {}
    for tag in objects(place, holder, field):
        key, kind = tag.get("key"), tag.get("type")
        if not isinstance(key, str) or not isinstance(kind, str) or kind not in TYPES:
            raise Refused(f"{place}: a tag has no key, or another type than {', '.join(TYPES)}: {shown(tag)}")
        value = {TYPES[kind]: tag.get("value")}
        if tags.setdefault(key, value) != value:
            raise Refused(f"{place}: its tag {key[:80]} has two values")
    return tags


def attributes(tags):
    return [{"key": key, "value": value} for key, value in tags.items()]


def taken(tags, key):
    """The value of a tag, which is taken out; None if there is none."""
    return next(iter(tags.pop(key, {"": None}).values()))


def event_of(place, log):
    tags = tags_of(place, log, "fields")
    name = taken(tags, "event") if "stringValue" in tags.get("event", {}) else ""
    return {"name": name, "timeUnixNano": microseconds(place, log, "timestamp"), "attributes": attributes(tags)}


def references_of(place, span, trace):
    """The parent's id, of the first reference to a span that this one is a child of or, without any, that it follows
    from in the same trace; and the other references as links."""
    found = [(reference.get("refType") != "CHILD_OF", identity(place, reference, "traceID", 32, 1),
              identity(place, reference, "spanID", 16, 1)) for reference in objects(place, span, "references")]
    parent = min((one for one in found if one[1] == trace), key=lambda one: one[0], default=None)
    links = [{"traceId": other, "spanId": own} for follows, other, own in found if (follows, other, own) != parent]
    return parent and parent[2], links


def status_of(tags):
    status = taken(tags, "otel.status_code")
    description = taken(tags, "otel.status_description")
    if status is None and tags.get("error") == {"boolValue": True}:
        status = "ERROR"
        del tags["error"]
    return status_by_name(status, description)


def span_data(path, document_place, span):
    """A span in the form of OTLP."""
    place = f"{document_place}: a span"
    trace, own = identity(place, span, "traceID", 32, 1), identity(place, span, "spanID", 16, 1)
    name = span.get("operationName", "")
    if trace is None or own is None or not isinstance(name, str):
        raise Refused(f"{document_place}: a span has no traceID, no spanID, or an operationName that is no text")
    place = span_place(path, own, name)
    start = microseconds(place, span, "startTime")
    tags = tags_of(place, span)
    parent, links = references_of(place, span, trace)
    return place, {
        "traceId": trace, "spanId": own, "parentSpanId": parent, "links": links, "name": name,
        "kind": kind_by_name(taken(tags, "span.kind")), "status": status_of(tags), "startTimeUnixNano": start,
        "endTimeUnixNano": start + duration(place, span), "attributes": attributes(tags),
        "events": [event_of(place, log) for log in objects(place, span, "logs")]}


def resources_of(place, trace):
    """The resources of a trace's processes."""
    processes = trace.get("processes") or {}
    if not isinstance(processes, dict) or not all(isinstance(one, dict) for one in processes.values()):
        raise Refused(f"{place}: processes is no object of objects")
    named = {key: [key_value("service.name", process["serviceName"])] if process.get("serviceName") else []
             for key, process in processes.items()}
    return {key: {"attributes": named[key] + attributes(tags_of(f"{place}: process {shown(key)}", process))}
            for key, process in processes.items()}


def spans_of(path, place, document):
    if not isinstance(document, dict) or "data" not in document:
        raise Refused(f"{place}: it has no data, so it is no JSON of Jaeger")
    if document.get("errors"):
        raise Refused(f"{place}: it tells of errors: {shown(document['errors'])}")
    for trace in objects(place, document, "data"):
        resources = resources_of(place, trace)
        for span in objects(place, trace, "spans"):
            where, data = span_data(path, place, span)
            process = span.get("processID")
            if not isinstance(process, str) or process not in resources:
                raise Refused(f"{where}: its processID is {shown(process)}, which its trace doesn't have")
            yield resources[process], data


def read(path, _):
    """Each document of a file as its place and what yields its spans."""
    for line, document in documents(path):
        place = f"{path} line {line}"
        yield place, spans_of(path, place, document)


def main(words):
    return import_traces(words, __doc__, read)


if __name__ == "__main__":
    sys.exit(main(sys.argv[1:]))
