"""For the tests of the importers of traces: OTLP as JSON in the other forms. The numbers of nanoseconds become those of
microseconds, so that no two times become one."""
import json
import struct

TAG_TYPES = {"stringValue": "string", "boolValue": "bool", "intValue": "int64", "doubleValue": "float64"}


def spans_of(text):
    """The attributes of the resource of each span of a file, and the span."""
    for line in text.splitlines():
        for entry in json.loads(line)["resourceSpans"]:
            for scope in entry["scopeSpans"]:
                for span in scope["spans"]:
                    yield entry["resource"]["attributes"], span


def length_of(span):
    return int(span["endTimeUnixNano"]) - int(span["startTimeUnixNano"])


# Jaeger

def tags(attributes):
    made = []
    for each in attributes:
        (field, held), = each["value"].items()
        made.append({"key": each["key"], "type": TAG_TYPES[field], "value": int(held) if field == "intValue" else held})
    return made


def text_tag(key, text):
    return {"key": key, "type": "string", "value": text}


def jaeger_span(span, process):
    kind = ["unspecified", "internal", "server", "client", "producer", "consumer"][span.get("kind", 0)]
    references = [{"refType": "FOLLOWS_FROM", **ids} for ids in (
        {"traceID": link["traceId"], "spanID": link["spanId"]} for link in span.get("links", []))]
    if "parentSpanId" in span:
        references.append({"refType": "CHILD_OF", "traceID": span["traceId"], "spanID": span["parentSpanId"]})
    return {"traceID": span["traceId"].lstrip("0"), "spanID": span["spanId"].lstrip("0"), "flags": 1,
            "operationName": span["name"], "references": references, "startTime": int(span["startTimeUnixNano"]),
            "duration": length_of(span), "tags": [text_tag("span.kind", kind), *tags(span["attributes"])],
            "logs": [{"timestamp": int(event["timeUnixNano"]),
                      "fields": [text_tag("event", event["name"]), *tags(event["attributes"])]}
                     for event in span.get("events", [])], "processID": process, "warnings": None}


def jaeger(text):
    """One trace with a process for each span."""
    spans, processes = [], {}
    for number, (attributes, span) in enumerate(spans_of(text), 1):
        others = [each for each in attributes if each["key"] != "service.name"]
        service, = (each["value"]["stringValue"] for each in attributes if each["key"] == "service.name")
        processes[f"p{number}"] = {"serviceName": service, "tags": tags(others)}
        spans.append(jaeger_span(span, f"p{number}"))
    return json.dumps({"data": [{"traceID": "1", "spans": spans, "processes": processes, "warnings": None}],
                       "total": 0, "limit": 0, "offset": 0, "errors": None})


# Zipkin

def plain_text(value):
    (field, held), = value.items()
    return json.dumps(held) if field == "boolValue" else str(held)


def zipkin_span(attributes, span):
    names = {each["key"]: plain_text(each["value"]) for each in attributes}
    made = {"traceId": span["traceId"], "id": span["spanId"], "name": span["name"],
            "timestamp": int(span["startTimeUnixNano"]), "duration": length_of(span),
            "localEndpoint": {"serviceName": names["service.name"]},
            "tags": {each["key"]: plain_text(each["value"]) for each in span["attributes"]},
            "annotations": [{"timestamp": int(event["timeUnixNano"]), "value": " ".join([event["name"], *(
                f"{each['key']}={plain_text(each['value'])}" for each in event["attributes"])])}
                            for event in span.get("events", [])]}
    if span.get("kind", 0) > 1:
        made["kind"] = [None, None, "SERVER", "CLIENT", "PRODUCER", "CONSUMER"][span["kind"]]
    return {**made, **({"parentId": span["parentSpanId"]} if "parentSpanId" in span else {})}


def zipkin(text):
    return json.dumps([zipkin_span(attributes, span) for attributes, span in spans_of(text)])


# OTLP as protobuf

def varint(number):
    made = bytearray()
    while number >= 0x80:
        made.append(number & 0x7f | 0x80)
        number >>= 7
    return bytes([*made, number])


def number(field, held):
    return varint(field << 3) + varint(held % 2**64)


def fixed(field, held):
    return varint(field << 3 | 1) + int(held).to_bytes(8, "little")


def part(field, held):
    held = held.encode() if isinstance(held, str) else held
    return varint(field << 3 | 2) + varint(len(held)) + held


def value_message(value):
    """An attribute's value in the form of JSON, as protobuf."""
    (field, held), = value.items() or [(None, None)]
    if field == "stringValue":
        return part(1, held)
    if field == "boolValue":
        return number(2, held)
    if field == "intValue":
        return number(3, int(held))
    if field == "doubleValue":
        return varint(4 << 3 | 1) + struct.pack("<d", float(held))
    if field == "arrayValue":
        return part(5, b"".join(part(1, value_message(each)) for each in held["values"]))
    return part(6, pairs(1, held["values"])) if field else b""


def pairs(field, attributes):
    return b"".join(part(field, part(1, each["key"]) + part(2, value_message(each["value"]))) for each in attributes)


def event_message(event):
    return fixed(1, event["timeUnixNano"]) + part(2, event["name"]) + pairs(3, event["attributes"])


def span_message(span):
    made = [part(1, bytes.fromhex(span["traceId"])), part(2, bytes.fromhex(span["spanId"])), part(5, span["name"]),
            number(6, span.get("kind", 0)), fixed(7, span["startTimeUnixNano"]), fixed(8, span["endTimeUnixNano"]),
            pairs(9, span["attributes"]), *(part(11, event_message(each)) for each in span.get("events", []))]
    if "parentSpanId" in span:
        made.append(part(4, bytes.fromhex(span["parentSpanId"])))
    for link in span.get("links", []):
        made.append(part(13, part(1, bytes.fromhex(link["traceId"])) + part(2, bytes.fromhex(link["spanId"]))))
    if "status" in span:
        made.append(part(15, part(2, span["status"].get("message", "")) + number(3, span["status"]["code"])))
    return b"".join([*made, varint(16 << 3 | 5) + b"\1\1\0\0"])


def protobuf(text):
    """One message, with a resource for each span."""
    return b"".join(part(1, part(1, pairs(1, attributes)) + part(2, part(1, part(1, "scope")) + part(2, span_message(
        span)))) for attributes, span in spans_of(text))


def framed(message):
    return len(message).to_bytes(4, "big") + message
