"""Reads OTLP as protobuf, by its wire format alone, and gives what OTLP as JSON would have.

A file has one message, TracesData or the request of an export, which have the same bytes; or several, each after its
length in four bytes, as the Collector's `file` exporter writes them. No length may lead out of what it is in, values
nest 100 deep at most, and each byte is read a fixed number of times."""
import base64
import collections
import struct

from importing import Refused

VARINT, EIGHT_BYTES, LENGTH, FOUR_BYTES = 0, 1, 2, 5
DEPTH_LIMIT = 100
GREATEST_NUMBER = 2**29 - 1

# A field by its number: its name as JSON has it, how its bytes are read, and whether it may stand more than once.
Field = collections.namedtuple("Field", "name wire read repeated", defaults=[False])


class Part:
    """A part of a file, from a byte to that before another one. `depth` is how many messages it is in."""

    def __init__(self, path, data, start, end, depth=0):
        self.path = path
        self.data = data
        self.start = start
        self.end = end
        self.depth = depth

    def refused(self, at, why):
        return Refused(f"{self.path} byte {at + 1}: {why}")

    def inner(self, start, length):
        if length > self.end - start:
            raise self.refused(start, f"{length} bytes are to follow, and {self.end - start} are there: the file is "
                                      "damaged, or its end is missing")
        return Part(self.path, self.data, start, start + length, self.depth + 1)

    @property
    def bytes(self):
        return self.data[self.start:self.end]

    def varint(self, at):
        """A number of 64 bits, seven in each byte, and where it ends."""
        if at < self.end and self.data[at] < 0x80:
            return self.data[at], at + 1
        number = 0
        for place in range(10):
            if at + place >= self.end:
                raise self.refused(at, "a number has no end: the file is damaged, or its end is missing")
            byte = self.data[at + place]
            number |= (byte & 0x7f) << 7 * place
            if byte < 0x80:
                break
        if byte >= 0x80 or number >= 2**64:
            raise self.refused(at, "a number has over 64 bits")
        return number, at + place + 1

    def fields(self):
        """Each field as where it begins, its number, its wire type, and its number or part."""
        at = self.start
        while at < self.end:
            begin = at
            key, at = self.varint(at)
            number, wire = key >> 3, key & 7
            if not 1 <= number <= GREATEST_NUMBER:
                raise self.refused(begin, f"there is no field {number}: this is no protobuf")
            if wire == VARINT:
                held, at = self.varint(at)
            elif wire in (EIGHT_BYTES, FOUR_BYTES):
                held = self.inner(at, 8 if wire == EIGHT_BYTES else 4)
                at = held.end
            elif wire == LENGTH:
                length, at = self.varint(at)
                held = self.inner(at, length)
                at = held.end
            else:
                raise self.refused(begin, f"a field has the wire type {wire}, which OTLP has not")
            yield begin, number, wire, held


# What is read of the bytes of a field

def whole(held):
    return held


def signed(held):
    return held - 2**64 if held >= 2**63 else held


def truth(held):
    return held != 0


def fixed(held):
    return int.from_bytes(held.bytes, "little")


def double(held):
    number = struct.unpack("<d", held.bytes)[0]
    # JSON has a whole number without a point.
    return int(number) if number.is_integer() and abs(number) < 2**53 else number


def text(held):
    try:
        return held.bytes.decode()
    except UnicodeDecodeError as error:
        raise held.refused(held.start + error.start, "this isn't UTF-8") from None


def hexadecimal(held):
    return held.bytes.hex()


def base_64(held):
    return base64.b64encode(held.bytes).decode()


def message(part, schema):
    """The message as JSON has it. Fields that the schema doesn't have are passed over."""
    if part.depth > DEPTH_LIMIT:
        raise part.refused(part.start, f"it nests over {DEPTH_LIMIT} deep")
    found = {}
    for begin, number, wire, held in part.fields():
        field = schema.get(number)
        if field is None:
            continue
        if wire != field.wire:
            raise part.refused(begin, f"field {number} is {field.name}, and has the wire type {wire} in place of "
                                      f"{field.wire}: this is no OTLP")
        value = message(held, field.read) if isinstance(field.read, dict) else field.read(held)
        if field.repeated:
            found.setdefault(field.name, []).append(value)
        elif field.name in found:
            raise part.refused(begin, f"{field.name} stands twice")
        else:
            found[field.name] = value
    return found


# The messages, by the numbers of the published .proto files

VALUE = {1: Field("stringValue", LENGTH, text), 2: Field("boolValue", VARINT, truth),
         3: Field("intValue", VARINT, signed), 4: Field("doubleValue", EIGHT_BYTES, double),
         7: Field("bytesValue", LENGTH, base_64)}
KEY_VALUE = {1: Field("key", LENGTH, text), 2: Field("value", LENGTH, VALUE)}
VALUE[5] = Field("arrayValue", LENGTH, {1: Field("values", LENGTH, VALUE, True)})
VALUE[6] = Field("kvlistValue", LENGTH, {1: Field("values", LENGTH, KEY_VALUE, True)})


def attributes(number):
    """The attributes, and how many were dropped."""
    return {number: Field("attributes", LENGTH, KEY_VALUE, True),
            number + 1: Field("droppedAttributesCount", VARINT, whole)}


EVENT = {1: Field("timeUnixNano", EIGHT_BYTES, fixed), 2: Field("name", LENGTH, text), **attributes(3)}
LINK = {1: Field("traceId", LENGTH, hexadecimal), 2: Field("spanId", LENGTH, hexadecimal), **attributes(4)}
STATUS = {2: Field("message", LENGTH, text), 3: Field("code", VARINT, whole)}
SPAN = {1: Field("traceId", LENGTH, hexadecimal), 2: Field("spanId", LENGTH, hexadecimal),
        4: Field("parentSpanId", LENGTH, hexadecimal), 5: Field("name", LENGTH, text),
        6: Field("kind", VARINT, whole), 7: Field("startTimeUnixNano", EIGHT_BYTES, fixed),
        8: Field("endTimeUnixNano", EIGHT_BYTES, fixed), **attributes(9),
        11: Field("events", LENGTH, EVENT, True), 12: Field("droppedEventsCount", VARINT, whole),
        13: Field("links", LENGTH, LINK, True), 14: Field("droppedLinksCount", VARINT, whole),
        15: Field("status", LENGTH, STATUS)}
SCOPE_SPANS = {2: Field("spans", LENGTH, SPAN, True)}
RESOURCE_SPANS = {1: Field("resource", LENGTH, attributes(1)), 2: Field("scopeSpans", LENGTH, SCOPE_SPANS, True),
                  1000: Field("instrumentationLibrarySpans", LENGTH, whole)}
TRACES = {1: Field("resourceSpans", LENGTH, RESOURCE_SPANS, True)}


def documents(path, data):
    """Each message of a file, with the byte at which it begins. A message begins with the number of a field, which is
    8 at least, and a length that is as great in its first byte leads out of every file that is read."""
    whole_file = Part(path, data, 0, len(data))
    if data and data[0] >= 8:
        yield 1, {"resourceSpans": [], **message(whole_file, TRACES)}
        return
    at = 0
    while at < len(data):
        length = whole_file.inner(at, 4)
        part = whole_file.inner(length.end, int.from_bytes(length.bytes, "big"))
        yield part.start + 1, {"resourceSpans": [], **message(part, TRACES)}
        at = part.end
