"""Reads recorded streams of any length, a block of lines at a time, and says of a message where all of its sends and
receipts stand. For monitor_reduce."""
import array
import json
import os
import re
import tempfile

from importing import Refused, shown
from monitor_mend import LINE_BYTE_LIMIT, Faulty, number_of, refuse_constant
from monitor_recorder import GREATEST_VALUE, LEAST_VALUE

ID_BYTE_LIMIT = 1_024
# So many bytes of all streams together are kept as lines that weren't taken yet, and at least so many of each.
BLOCKS_BYTES, BLOCK_LEAST = 8 * 1_048_576, 2_048
# What Python and the monitor take differently, if it stands in lines: -0, a part of a pair of surrogates; and what
# would have a value of JSON go over two lines.
MINUS_ZERO = re.compile(rb"[\s:]-0[\s,}]")
SURROGATE = re.compile("[\ud800-\udfff]")
BLANK = b" \t\r\n"


def value_of_line(line):
    """The value for which the bytes of a line stand as JSON. Of a field that comes twice the last one counts."""
    if len(line.rstrip(b"\n")) > LINE_BYTE_LIMIT:
        raise Faulty(f"it has over {LINE_BYTE_LIMIT:,} bytes: often the wrong file")
    try:
        value = json.loads(line.decode(), parse_constant=refuse_constant, parse_int=number_of)
    except ValueError:
        raise Faulty("it isn't JSON in UTF-8: a line that two writers mixed, or that was cut short") from None
    except RecursionError:
        raise Faulty("it nests too deep") from None
    if not isinstance(value, dict):
        raise Faulty("it isn't an object")
    if any(isinstance(text, str) and SURROGATE.search(text) for text in value.values()):
        raise Faulty("half of a pair of surrogates")
    return value


def values_together(data):
    """The values of whole lines, read as one array, or None unless that is sure to be as each line by itself: each
    begins an object, no array can hold two of them together, and a text holds no line feed."""
    body = data[:-1]
    count = body.count(b"\n") + 1
    if (not body.startswith(b"{") or body.count(b"\n{") != count - 1 or b"[" in body or b"\\u" in body
            or b"-0" in body and MINUS_ZERO.search(body)):
        return None
    try:
        values = json.loads(f"[{body.decode()}]".replace("\n", ",\n"))
    except (ValueError, RecursionError):
        return None
    return values if len(values) == count and set(map(type, values)) == {dict} else None


def is_id(text):
    return type(text) is str and 0 < len(text) and (len(text) <= 256 or len(text.encode()) <= ID_BYTE_LIMIT)


def is_end(value):
    return value == {"end": True} and value["end"] is True


def fault_of(value, variables):
    """What is wrong with a line that isn't the first: a text, or None if it is an event, or the end line."""
    if is_end(value):
        return None
    if "process" in value:
        return "a second run begins here: judge each by itself"
    for field in value:
        if field not in ("send", "recv", "set"):
            return f"{shown(field)} is no field that it can have"
    if "send" in value and "recv" in value:
        return "an event either sends or receives: write two lines"
    if not is_id(value.get("send", value.get("recv", "none"))):
        return f"the id of a message is a text of 1 to {ID_BYTE_LIMIT:,} bytes: record a hash or a counter"
    if not isinstance(value.get("set", {}), dict):
        return "'set' isn't an object"
    for name, number in value.get("set", {}).items():
        if name not in variables:
            return f"it sets {shown(name)}, and the document has no such variable of this process: add it there"
        if type(number) is not int or not LEAST_VALUE <= number <= GREATEST_VALUE:
            return f"the value of {name} is no whole number of 64 bits"
    return None


class Stream:
    """A stream in a file, of which a block of lines is kept: `values` has what they say, from the line `first` on, or
    each from the line in `lines` if some are blank. `at` is the place of the next one that is to be taken, and `before`
    counts the events before the block. The file is open only while a block is read, so there can be any number."""

    def __init__(self, path, block=LINE_BYTE_LIMIT):
        self.path, self.block = path, block
        self.process, self.join_line, self.variables = None, 1, {}
        self.offset, self.line, self.identity = 0, 0, None
        self.values, self.lines, self.first, self.at, self.before = [], None, 1, 0, 0
        self.fault, self.is_ended = None, False

    def line_of(self, at):
        return self.first + at if self.lines is None else self.lines[at]

    def number_of(self, at):
        """The number of the event at this place of the block, from 1."""
        return self.before + at + 1

    def refused(self, line, why):
        return Refused(f"{self.path} line {line}: {why}")

    def refuse(self, at):
        """Refuses the line at this place, of which something is wrong."""
        why = fault_of(self.values[at], self.variables) or "this is no line of a stream"
        raise self.refused(self.line_of(at), why)

    def read_block(self):
        """The bytes of the next lines, none at the end of the file: a block, less the last line if it goes on."""
        try:
            with open(self.path, "rb") as file:
                self.look_whether_same(os.fstat(file.fileno()))
                file.seek(self.offset)
                data = file.read(self.block)
                end = data.rfind(b"\n") + 1
                if len(data) == self.block and end:
                    data = data[:end]
                elif len(data) == self.block:
                    data += file.readline(LINE_BYTE_LIMIT + 2 - len(data))
        except OSError as error:
            raise Refused(f"{self.path}: it can't be read: {error.strerror}") from None
        self.offset += len(data)
        return data

    def look_whether_same(self, status):
        identity = status.st_dev, status.st_ino, status.st_size, status.st_mtime_ns
        if self.identity not in (None, identity):
            raise Refused(f"{self.path}: it changed while it was read: wait until its process has ended")
        self.identity = identity

    def fill(self):
        """Reads the next lines, once all of the block are taken."""
        self.before += len(self.values)
        self.at = 0
        if self.fault is not None:
            raise self.fault
        data = self.read_block()
        if not data:
            raise self.refused(self.line + 1, "the stream isn't whole, for it has no end line: if its process has "
                               "ended, and nothing is missing, add the line {\"end\":true}")
        self.first, self.lines = self.line + 1, None
        values = values_together(data) if data.endswith(b"\n") else None
        if values is None:
            self.values, self.lines = self.one_by_one(data)
        else:
            self.values = values
        self.line += data.count(b"\n") + (not data.endswith(b"\n"))

    def one_by_one(self, data):
        """The values of lines, and the number of each, up to the end line or one that is at fault."""
        values, lines = [], []
        for number, line in enumerate(data.split(b"\n"), self.line + 1):
            if not line.strip(BLANK):
                continue
            try:
                values.append(value_of_line(line))
            except Faulty as fault:
                self.fault = self.refused(number, fault)
                break
            lines.append(number)
            if is_end(values[-1]):
                break
        return values, lines

    def join(self):
        """Takes the first line."""
        while not self.values:
            self.fill()
        value, line = self.values.pop(0), self.line_of(0)
        if self.lines is None:
            self.first += 1
        else:
            del self.lines[0]
        if value.keys() != {"process"} or not isinstance(value["process"], str):
            raise self.refused(line, 'the first line isn\'t {"process":NAME}')
        self.process, self.join_line = value["process"], line

    def rest(self):
        """What is left, as (event's number, line, what it says), up to the end line."""
        while not self.is_ended:
            if self.at == len(self.values):
                self.fill()
                continue
            value = self.values[self.at]
            if fault_of(value, self.variables):
                self.refuse(self.at)
            self.is_ended = is_end(value)
            self.at += 1
            if not self.is_ended:
                yield self.number_of(self.at - 1), self.line_of(self.at - 1), value


class Hashes:
    """Numbers of 64 bits, of which is asked at the end which came twice. Each is added to the part of `parts` that its
    last bits name. Of more than LIMIT the others stand in a file without a name in the folder."""

    LIMIT, PARTS = 1 << 20, 256

    def __init__(self, folder):
        self.folder, self.file = folder, None
        self.parts = [array.array("q") for _ in range(self.PARTS)]
        self.places = [[] for _ in range(self.PARTS)]

    def keep_few(self):
        if sum(map(len, self.parts)) > self.LIMIT:
            self.put_away()

    def put_away(self):
        if self.file is None:
            self.file = tempfile.TemporaryFile(dir=self.folder)
        for part, places in zip(self.parts, self.places):
            places.append((self.file.tell(), len(part)))
            part.tofile(self.file)
            del part[:]

    def close(self):
        if self.file is not None:
            self.file.close()

    def twice(self):
        """Those that came twice."""
        found = set()
        for part, places in zip(self.parts, self.places):
            numbers = array.array("q", part)
            for offset, count in places:
                self.file.seek(offset)
                numbers.fromfile(self.file, count)
            if len(set(numbers)) < len(numbers):
                seen = set()
                found |= {number for number in numbers if number in seen or seen.add(number)}
        return found


class Places:
    """Where a message is sent and received: (stream, line) of each."""

    def __init__(self):
        self.sends, self.receipts = [], []


def places_of(streams, is_wanted):
    """The places of all messages that are wanted, by ids: all streams are read once more. `is_wanted` is given a stream
    and the id of a message that it sends or receives."""
    found = {}
    for stream in streams:
        again = Stream(stream.path)
        again.identity, again.variables = stream.identity, stream.variables
        again.join()
        for _, line, value in again.rest():
            for field in ("send", "recv"):
                if field in value and is_wanted(stream, value[field]):
                    places = found.setdefault(value[field], Places())
                    (places.sends if field == "send" else places.receipts).append((stream, line))
    return found
