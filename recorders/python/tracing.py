"""What the importers of traces share: spans, the order of their starts, ends and events, and the messages between them.
What an importer reads it gives as OpenTelemetry's JSON has it, an object for each span and one for the resource that it
is of, and all else is done here. recorders/README.md says what is found, what is refused, and what a trace doesn't
tell."""
import argparse
import collections
import heapq
import json
import re

from importing import (PROCESS_LIMIT, Event, Refused, add_arguments, as_name, compiled, decoded, find_settings,
                       name_processes, parsed, run, searching, shown, write_session)

SERVER, CLIENT, PRODUCER, CONSUMER = 2, 3, 4, 5
KINDS = {f"SPAN_KIND_{name}": number for number, name in enumerate(
    ["UNSPECIFIED", "INTERNAL", "SERVER", "CLIENT", "PRODUCER", "CONSUMER"])}
STATUS_CODES = {f"STATUS_CODE_{name}": number for number, name in enumerate(["UNSET", "OK", "ERROR"])}
INSTANCE = ("service.namespace", "service.name", "service.instance.id")
DROPPED = ("droppedAttributesCount", "droppedEventsCount", "droppedLinksCount")
GREATEST_TIME = 2**64 - 1
NAME_LIMIT = 1_024
MOMENT_LIMIT = 1_000_000
FILE_LIMIT = 2**27
# A field that no JSON can have: that a server's span has the ids of its client's span, True if it says so itself.
JOINS = ("joins",)
BLANKS = re.compile(r"[ \t\r\n]*")
PLAIN_TEXT = re.compile(r"[^\s\"\x00-\x1f]+")
VALUE_TYPES = {"stringValue": str, "bytesValue": str, "boolValue": bool, "doubleValue": (int, float, str)}


class Moment(Event):
    """The start or the end of a span, or an event in it: an event of the instance's process. `number` is its place
    among those of its instance."""

    def __init__(self, place, time, text):
        super().__init__(place, text)
        self.time = time
        self.number = 0


class Span:
    """A span, with its moments from its start over its events to its end. The identity of a span is its trace's id and
    its own, and whether it is a server's that may have those of its client. `parent` and `linked` are other spans, as
    far as the traces have them."""

    def __init__(self, place, identity):
        self.place = place
        self.identity = identity
        self.instance = None
        self.data = None
        self.kind = 0
        self.waits = False
        self.parent_identity = None
        self.link_identities = []
        self.parent = None
        self.linked = []
        self.moments = []

    @property
    def start(self):
        return self.moments[0]

    @property
    def end(self):
        return self.moments[-1]

    @property
    def receipt(self):
        """The moment at which a message to this span has come for sure: a span that waits for messages has begun
        before."""
        return self.end if self.waits else self.start

    def senders(self):
        """The spans from which it has its context: its parent, and of one that takes messages those that it links
        to."""
        linked = self.linked if self.kind == CONSUMER or self.waits else []
        return list(dict.fromkeys([*([self.parent] if self.parent else []), *linked]))

    def refused(self, why):
        return Refused(f"{self.place}: {why}")


# Reading JSON

def documents(path):
    """Each JSON document of a file, with the line at which it begins."""
    text = decoded(path, whole_file(path))
    decoder = json.JSONDecoder()
    end = 0
    line = 1
    while True:
        start = BLANKS.match(text, end).end()
        line += text.count("\n", end, start)
        if start == len(text):
            return
        try:
            document, end = decoder.raw_decode(text, start)
        except json.JSONDecodeError as error:
            raise Refused(f"{path} line {error.lineno}: this isn't JSON: {error.msg}") from None
        except (ValueError, RecursionError) as error:
            raise Refused(f"{path} line {line}: this isn't JSON: {error}") from None
        yield line, document
        line += text.count("\n", start, end)


def whole_file(path):
    with open(path, "rb") as file:
        data = file.read(FILE_LIMIT + 1)
    if len(data) > FILE_LIMIT:
        raise Refused(f"{path}: it has over {FILE_LIMIT} bytes: give it as several files")
    return data


def objects(place, holder, field):
    """The objects in an array; a field that is absent has none."""
    found = holder.get(field)
    if found is None:
        return []
    if not isinstance(found, list) or not all(isinstance(one, dict) for one in found):
        raise Refused(f"{place}: {field} is no array of objects")
    return found


# Fields

def identity(place, data, field, digits, least=None):
    """An id in lower case; None if it is absent, empty or all zeros, which stands for none. With `least` it may have
    that number of digits and more, and zeros are put before them."""
    text = data.get(field) or ""
    if not isinstance(text, str) or not re.fullmatch(f"([0-9a-fA-F]{{{least or digits},{digits}}})?", text):
        few = f"{least} to " if least else ""
        raise Refused(f"{place}: its {field} is {shown(text)}, and not {few}{digits} hexadecimal digits")
    return text.lower().rjust(digits, "0") if text.strip("0") else None


def whole_number(value):
    """A number that JSON has as such or, as OTLP has those of 64 bits, as a text of digits; None for all else."""
    if isinstance(value, str) and re.fullmatch("-?[0-9]{1,20}", value):
        return int(value)
    return value if type(value) is int else None


def time_of(place, data, field):
    time = whole_number(data.get(field))
    if time is None or not 1 <= time <= GREATEST_TIME:
        raise Refused(f"{place}: its {field} is {shown(data.get(field))}, and no time in nanoseconds")
    return time


def microseconds(place, data, field):
    """A time in microseconds, as one in nanoseconds."""
    time = whole_number(data.get(field))
    if time is None or not 1 <= time <= GREATEST_TIME // 1000:
        raise Refused(f"{place}: its {field} is {shown(data.get(field))}, and no time in microseconds")
    return time * 1000


def duration(place, data):
    """How long a span was, in nanoseconds."""
    length = whole_number(data.get("duration"))
    if length is None or not 0 <= length <= GREATEST_TIME // 1000:
        raise Refused(f"{place}: its duration is {shown(data.get('duration'))}, and no number of microseconds, so when "
                      "it ended isn't known")
    return length * 1000


def code_of(place, value, codes, what):
    """The number of a code, for which its name may stand too."""
    number = codes.get(value) if isinstance(value, str) else value
    if type(number) is not int or number not in codes.values():
        raise Refused(f"{place}: its {what} is {shown(value)}, which isn't known")
    return number


# Texts

def one_line(text):
    return re.sub(r"[\x00-\x1f]", lambda match: json.dumps(match[0])[1:-1], text)


def text_of(value):
    """A value in a text: as it is, or as JSON if it is empty, has blanks or quotes, or is no single value."""
    if value is None or isinstance(value, str) and PLAIN_TEXT.fullmatch(value):
        return value or ""
    return json.dumps(value, ensure_ascii=False, separators=(",", ":"))


def plain(value):
    """The value of an attribute as Python's: a text, a number, a truth, a list, a dictionary or None."""
    if not isinstance(value, dict) or len(value) > 1:
        raise ValueError("its value is no object of one field")
    for field, held in value.items():
        if field in VALUE_TYPES and isinstance(held, VALUE_TYPES[field]):
            return held
        if field == "intValue" and whole_number(held) is not None:
            return whole_number(held)
        if field == "arrayValue" and isinstance(held, dict):
            return [plain(each) for each in held.get("values") or []]
        if field == "kvlistValue" and isinstance(held, dict):
            return {each.get("key"): plain(each.get("value", {})) for each in objects("it", held, "values")}
        raise ValueError(f"its {field} isn't known, or not of its type")
    return None


def attributes_of(place, holder):
    """The attributes, each as a text."""
    texts = {}
    for pair in objects(place, holder, "attributes"):
        key = pair.get("key")
        if not isinstance(key, str) or key in texts:
            raise Refused(f"{place}: the key of an attribute is no text, or stands twice: {shown(key)}")
        try:
            texts[key] = text_of(plain(pair.get("value", {})))
        except (ValueError, Refused) as error:
            raise Refused(f"{place}: attribute {key[:80]}: {error}") from None
    return texts


def joined(head, attributes):
    return " ".join([head, *(f"{text_of(key)}={text}" for key, text in attributes.items())])


def status_of(place, data):
    """The status by the names that OpenTelemetry has for it where it is an attribute; none if it isn't set."""
    status = data.get("status") or {}
    if not isinstance(status, dict) or not isinstance(status.get("message") or "", str):
        raise Refused(f"{place}: its status is no object, or its message no text")
    code = code_of(place, status.get("code", 0), STATUS_CODES, "status")
    texts = {"otel.status_code": ["", "OK", "ERROR"][code], "otel.status_description": status.get("message")}
    return {key: text_of(text) for key, text in texts.items() if text}


# Reading spans

class Traces:
    """What is read: the spans by their identities, in the order of the files, and the attributes of each instance.
    `keys` are the attributes that tell instances apart, None for the usual ones."""

    def __init__(self, keys=None, accepts_dropped=False):
        self.keys = keys
        self.accepts_dropped = accepts_dropped
        self.spans = {}
        self.resources = {}
        self.moments = 0

    def read(self, path, documents_of_file):
        """Reads the documents of a file, each as its place, and its spans with their resources."""
        for place, entries in documents_of_file:
            known = {}
            try:
                for resource, data in entries:
                    span = read_span(path, place, data)
                    # A resource is looked at once for all its spans, and is kept here so that its id is its own.
                    if id(resource) not in known:
                        known[id(resource)] = resource, self.instance_of(span, resource)
                    span.instance = known[id(resource)][1]
                    self.keep(span)
            except RecursionError:
                raise Refused(f"{place}: it nests too deep") from None

    def instance_of(self, span, resource):
        """The name of the instance that has this resource: the values of the attributes that tell instances apart. One
        instance has one resource, so what contradicts an earlier resource of it is of another instance."""
        attributes = attributes_of(span.place, resource)
        for key in self.keys or ["service.name"]:
            if key not in attributes:
                raise span.refused(f"its resource has no {key}")
        instance = "/".join(attributes[key] for key in self.keys or INSTANCE if key in attributes)
        if len(instance) > NAME_LIMIT:
            raise span.refused(f"the name of its instance has over {NAME_LIMIT} characters")
        known = self.resources.setdefault(instance, {})
        for key, text in attributes.items():
            if known.setdefault(key, text) != text and (not self.keys or key in self.keys):
                raise span.refused(f"its resource has {key[:80]}={text[:80]}, and another of instance {instance!r} has "
                                   f"{known[key][:80]} there: name what tells instances apart by --instance")
        return instance

    def keep(self, span):
        """Puts a span to the others, unless it is there already, as one that was exported twice is."""
        for holder in [span.data, *objects(span.place, span.data, "events")]:
            for field in DROPPED:
                if holder.get(field) and not self.accepts_dropped:
                    raise span.refused(f"it has {field} {holder[field]}, so what it was to set may be missing "
                                       "(--accept-dropped takes it as it is)")
        known = self.spans.setdefault(span.identity, span)
        if known is not span:
            if known.data != span.data or known.instance != span.instance:
                raise span.refused("another span has the same ids and other content")
            return
        self.moments += len(span.moments)
        if self.moments > MOMENT_LIMIT:
            raise span.refused(f"with this span the traces have over {MOMENT_LIMIT} starts, events and ends: import "
                               "fewer of them")


def span_place(path, own, name):
    return f"{path} span {own} ({one_line(name[:NAME_LIMIT])})"


def read_span(path, document_place, data):
    """A span, still without its instance."""
    place = f"{document_place}: a span"
    trace, own = identity(place, data, "traceId", 32), identity(place, data, "spanId", 16)
    name = data.get("name", "")
    if trace is None or own is None or not isinstance(name, str):
        raise Refused(f"{document_place}: a span has no traceId, no spanId, or a name that is no text")
    place = span_place(path, own, name)
    if len(name) > NAME_LIMIT:
        raise Refused(f"{path} span {own}: its name has over {NAME_LIMIT} characters")
    span = Span(place, (trace, own, JOINS in data))
    attributes = attributes_of(place, data)
    span.data = data
    span.kind = code_of(place, data.get("kind", 0), KINDS, "kind")
    span.waits = "receive" in (attributes.get("messaging.operation.type"), attributes.get("messaging.operation"))
    parent = identity(place, data, "parentSpanId", 16)
    span.parent_identity = (trace, parent) if parent else None
    span.link_identities = [(identity(place, link, "traceId", 32), identity(place, link, "spanId", 16))
                            for link in objects(place, data, "links")]
    span.moments = read_moments(place, one_line(name), attributes, data)
    return span


def read_moments(place, name, attributes, data):
    """The start, the events and the end of a span, with their times and texts."""
    start, end = time_of(place, data, "startTimeUnixNano"), time_of(place, data, "endTimeUnixNano")
    if end < start:
        raise Refused(f"{place}: it ends before it starts")
    moments = [Moment(place, start, joined(f"start {name}", attributes))]
    for event in objects(place, data, "events"):
        if not isinstance(event.get("name", ""), str):
            raise Refused(f"{place}: an event's name is no text")
        head = f"event {one_line(event.get('name', ''))} in {name}"
        moments.append(Moment(place, time_of(place, event, "timeUnixNano"), joined(head, attributes_of(place, event))))
    moments.append(Moment(place, end, joined(f"end {name}", {**attributes, **status_of(place, data)})))
    return moments


# Order

def relate(spans):
    """Finds the parents and linked spans, and gives how many spans have a parent that the traces don't have."""
    missing = 0
    for span in spans.values():
        span.parent, is_missing = parent_of(spans, span)
        found = (span_of(spans, link, span.instance) for link in span.link_identities)
        span.linked = [other for other in found if other]
        missing += is_missing
    refuse_circles(spans.values())
    return missing


def parent_of(spans, span):
    """The span's parent, and whether it has one that the traces don't have. That of a server is the client with its
    ids, if there is one: some say that they join a client and still have ids of their own."""
    parent = spans.get((*span.identity[:2], False)) if JOINS in span.data else None
    if parent is None and span.parent_identity:
        parent = span_of(spans, span.parent_identity, span.instance)
    has_one = span.parent_identity or span.data.get(JOINS)
    return parent, parent is None and bool(has_one)


def span_of(spans, ids, instance):
    """The span that another one, of this instance, names by these ids; None if there is none. If a server has those of
    its client, it is the one of this instance or, if neither is, the server."""
    found = [spans[(*ids, joins)] for joins in (True, False) if (*ids, joins) in spans]
    return next((span for span in found if span.instance == instance), found[0] if found else None)


def refuse_circles(spans):
    cleared = set()
    for span in spans:
        way = []
        while span is not None and span not in cleared:
            cleared.add(span)
            way.append(span)
            span = span.parent
        if span in way:
            raise span.refused("by the parents it is inside itself")


def same_time_pairs(spans):
    """Of moments at one time, those of which one comes before another: by the order within a span, and since a span
    begins after the one that it is inside, and ends before it."""
    for span in spans:
        own = sorted(span.moments, key=lambda moment: moment.time)
        pairs = list(zip(own, own[1:]))
        if span.parent and span.parent.instance == span.instance:
            pairs += [(span.parent.start, span.start), (span.end, span.parent.end)]
        yield from (pair for pair in pairs if pair[0].time == pair[1].time)


def ordered(spans):
    """The moments of one instance's spans by their times; those at one time by the pairs above and, where these leave
    it open, as they stand in the files."""
    moments = [moment for span in spans for moment in span.moments]
    for number, moment in enumerate(moments):
        moment.number = number
    following = collections.defaultdict(list)
    waiting = collections.Counter()
    for before, after in same_time_pairs(spans):
        following[before].append(after)
        waiting[after] += 1
    ready = [(moment.time, moment.number) for moment in moments if not waiting[moment]]
    heapq.heapify(ready)
    found = []
    while ready:
        moment = moments[heapq.heappop(ready)[1]]
        found.append(moment)
        for after in following[moment]:
            waiting[after] -= 1
            if not waiting[after]:
                heapq.heappush(ready, (after.time, after.number))
    for number, moment in enumerate(found):
        moment.number = number
    return found


def in_order(spans, left_out):
    """The moments of each instance in their order, without the instances that are left out."""
    instances = {}
    for span in spans:
        instances.setdefault(span.instance, []).append(span)
    for instance in left_out:
        if instance not in instances:
            raise Refused(f"--leave-out: there is no instance {instance!r}")
    kept = {instance: own for instance, own in instances.items() if instance not in left_out}
    for number, (instance, own) in enumerate(kept.items(), 1):
        if number > PROCESS_LIMIT:
            raise own[0].refused(f"{instance!r} would be instance {number}, and a session has at most {PROCESS_LIMIT}: "
                                 "leave some out by --leave-out")
    if not kept:
        raise Refused("--leave-out: no instance is left")
    return {instance: ordered(own) for instance, own in kept.items()}


# Messages

def find_messages(spans, left_out, unanswered):
    """Finds the messages between instances. Of several spans that one instance began on one message, the first to
    receive it did, since the others come later by the instance's own clock; and the first to end answered."""
    receiving = {}
    for span in spans:
        for sender in span.senders():
            if sender.instance != span.instance and not left_out.intersection([sender.instance, span.instance]):
                receiving.setdefault(sender, {}).setdefault(span.instance, []).append(span)
    for sender, instances in receiving.items():
        refuse_second(sender, instances)
        for receivers in instances.values():
            connect(sender.start, first_of(span.receipt for span in receivers))
            answers = [span.end for span in receivers if span.kind == SERVER and span.parent is sender]
            if sender.kind == CLIENT and answers and not any(matches(pattern, sender.end) for pattern in unanswered):
                connect(first_of(answers), sender.end)


def matches(pattern, moment):
    with searching(moment):
        return pattern.search(moment.text) is not None


def refuse_second(sender, instances):
    """A request has one receiver. What a producer sends may have several, and so has a context that has reached
    several instances."""
    if sender.kind == CLIENT and len(instances) > 1:
        _, (second, *_), *_ = instances.values()
        raise second.refused(f"it is a second receiver of the request of {sender.place}, and a request has one")


def first_of(moments):
    return min(moments, key=lambda moment: moment.number)


def connect(sender, receiver):
    sender.receivers.append(receiver)
    receiver.sources.append(sender)


# Variables and names

def refuse_unsure(spans, patterns):
    """No pattern may take an attribute both at a span's start and at its end."""
    for span in spans if patterns else ():
        for pattern in patterns:
            if matches(pattern, span.start) and matches(pattern, span.end):
                shown = pattern.pattern.replace("(?P<", "(?<")
                raise span.refused(f"{shown!r} matches at its start and at its end, and the trace doesn't tell when an "
                                   "attribute was set: begin the pattern with ^start, ^event or ^end")


def usual_names(instances, resources):
    """For each instance the name of its service; with a number if several instances have it, in the files' order."""
    services = {instance: resources[instance].get("service.name", instance) for instance in instances}
    counts = collections.Counter(services.values())
    seen = collections.Counter()
    names = {}
    for instance, service in services.items():
        seen[service] += 1
        names[instance] = as_name(service) + (f"_{seen[service]}" if counts[service] > 1 else "")
    return names


# Formats with tags

def key_value(key, text):
    return {"key": key, "value": {"stringValue": text}}


def status_by_name(name, message):
    """A status in the form of OTLP, by what tags say: its name, None if it isn't set."""
    return {} if name is None else {"code": f"STATUS_CODE_{name}", "message": message}


def kind_by_name(name):
    """A kind in the form of OTLP, by its name in any case; 0 if there is none."""
    return f"SPAN_KIND_{str(name)[:80].upper()}" if name else 0


# The command line

def arguments(words, description, add_options=None):
    parser = argparse.ArgumentParser(description=description, formatter_class=argparse.RawDescriptionHelpFormatter)
    add = parser.add_argument
    add("traces", nargs="+", metavar="TRACES", help="a file of traces")
    add_arguments(parser, "INSTANCE")
    add("--instance", action="append", metavar="ATTRIBUTE",
        help="an attribute of resources that tells instances apart, if not " + ", ".join(INSTANCE))
    add("--leave-out", action="append", default=[], metavar="INSTANCE", help="an instance that is no process")
    add("--unanswered", type=compiled, action="append", default=[], metavar="PATTERN",
        help="a client's span whose end matches has had no answer, as after a deadline")
    add("--skip-plain-events", action="store_true", help="leave out events without message that set nothing")
    add("--accept-dropped", action="store_true", help="take spans of which attributes, events or links were dropped")
    if add_options:
        add_options(parser)
    return parsed(parser, words)


def read_traces(given, read):
    traces = Traces(given.instance, given.accept_dropped)
    for path in given.traces:
        traces.read(path, read(path, given))
    if not traces.spans:
        raise Refused(f"{', '.join(given.traces)}: there is no span")
    return traces


def imported(given, read):
    """Writes the session, and gives lines on what was found."""
    traces = read_traces(given, read)
    spans = traces.spans.values()
    without_parent = relate(traces.spans)
    left_out = set(given.leave_out)
    instances = in_order(spans, left_out)
    find_messages(spans, left_out, given.unanswered)
    refuse_unsure([span for span in spans if span.instance in instances],
                  given.variables + [pattern for pattern, _, _ in given.when])
    for moments in instances.values():
        find_settings(moments, given.variables, given.when)
    names = name_processes("instance", instances, usual_names(instances, traces.resources), dict(given.name))
    if given.skip_plain_events:
        instances = {instance: [moment for moment in moments if moment.sources or moment.receivers or moment.settings]
                     for instance, moments in instances.items()}
    lines = [write_session(given, {names[instance]: moments for instance, moments in instances.items()})]
    lines += [f"{name} is instance {instance}" for instance, name in names.items() if name != instance]
    if without_parent:
        lines.append(f"{without_parent} spans have a parent that the traces don't have")
    return "\n".join(lines)


def import_traces(words, description, read, add_options=None):
    """What an importer does with its command line. `read` gives the documents of a file, each as its place and what
    yields its spans, as (resource, span)."""
    return run(lambda given: imported(given, read), arguments(words, description, add_options))
