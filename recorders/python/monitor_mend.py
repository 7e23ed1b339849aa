#!/usr/bin/env python3
"""Mends the streams of processes that were killed, so that `monitor` takes them:

    python3 monitor_mend.py --out MENDED FOLDER
    monitor judge session.json MENDED/*.stream

Of a folder each file `*.stream` is a stream. A stream without an end line gets one, and a last line that was cut short
is dropped before it. What was done is printed for each stream, with the line. A stream that is damaged elsewhere is
refused with its line, as is one with a line that no recorder writes; then nothing is written.

MENDED, which must be new or empty, then has a copy of each stream, also of one that was whole. Without --out each copy
stands beside its stream, as `left.stream.mended`; with --in-place the streams that were not whole are replaced. Each
copy is written under another name and renamed once it is whole.

Of a process that was started again, which recorded by `again`, the streams are joined by a message from the end of each
incarnation to the beginning of the next. With --one-process they become one stream of the process. --killed sets a
variable at the end of each stream that had no end line.

If a stream has notes beside it, as `left.notes.jsonl`, the copy has those of its events. A last note that was cut short
is dropped, and so is one of an event that isn't in the stream; what it says is printed.

With --orphans-as-local a receipt of a message that none of these streams sends becomes a local event, so all streams of
the session have to be given. recorders/python/README.md says what a report still shows then.

The status is 0 if all streams are whole or mended, 1 if one is refused, and 2 if the command line is."""
import argparse
import io
import json
import os
import re
import sys

from importing import Refused, initial, replaced_files, shown, written_folder
from monitor_recorder import (EVENT_LIMIT, GREATEST_VALUE, ID_BYTE_LIMIT, LEAST_VALUE, NOTES_ENDING, NotRecorded,
                              checked_name, ending_of)

LINE_BYTE_LIMIT = 65_536
STREAM_BYTE_LIMIT = 16_777_216
ENDING = ".stream"
# So many bytes has no file of notes: 10,000 of them, and the texts and places as long as can be.
NOTES_BYTE_LIMIT = 10 * STREAM_BYTE_LIMIT
# So many numbers of lines are named of those of which the same is said.
SHOWN = 8
JOIN, EVENT, END = "join", "event", "end"


class Torn(Exception):
    """The line isn't JSON, as one that was cut short."""


class Faulty(Exception):
    """The line is JSON, and no line of a stream: the text says why."""


# A line

def fields_of(pairs):
    """The fields of an object. What no recorder writes, and Python and the monitor might take differently, is refused:
    a field twice, and half of a pair of surrogates."""
    if len(dict(pairs)) < len(pairs):
        raise Faulty("a field stands there twice")
    for field, value in pairs:
        for text in (field, value):
            if isinstance(text, str) and re.search("[\ud800-\udfff]", text):
                raise Faulty("half of a pair of surrogates")
    return dict(pairs)


def refuse_constant(text):
    raise Faulty(f"{text} is no value of JSON")


def number_of(text):
    """The number, which is an int only if it is a whole number of 64 bits that the monitor takes."""
    return int(text) if text != "-0" and len(text) <= 20 else float(text)


def value_of_line(line):
    """The value for which the bytes of a line stand as JSON."""
    try:
        return json.loads(line.decode(), object_pairs_hook=fields_of, parse_constant=refuse_constant,
                          parse_int=number_of)
    except ValueError:
        raise Torn("it isn't JSON in UTF-8") from None
    except RecursionError:
        raise Faulty("it nests too deep") from None


def kind_of(line):
    """The kind of a line by its fields, which are looked at too."""
    if not isinstance(line, dict):
        raise Faulty("it isn't an object")
    if line.keys() == {"process"} and isinstance(line["process"], str):
        return JOIN
    if line == {"end": True} and line["end"] is True:
        return END
    for field in line:
        if field not in ("send", "recv", "set"):
            raise Faulty(f"{field[:40]!r} is no field that it can have")
    if "send" in line and "recv" in line:
        raise Faulty("an event either sends or receives")
    check_id(line.get("send", line.get("recv", "none")))
    check_settings(line.get("set", {}))
    return EVENT


def check_length(line):
    if len(line.rstrip(b"\n")) > LINE_BYTE_LIMIT:
        raise Faulty(f"it has over {LINE_BYTE_LIMIT} bytes")


def check_id(message):
    if not isinstance(message, str) or not 1 <= len(message.encode()) <= ID_BYTE_LIMIT:
        raise Faulty(f"the id of a message is a text of 1 to {ID_BYTE_LIMIT} bytes")


def check_settings(settings):
    if not isinstance(settings, dict):
        raise Faulty("'set' isn't an object")
    for name, value in settings.items():
        if type(value) is not int or not LEAST_VALUE <= value <= GREATEST_VALUE:
            raise Faulty(f"the value of {name[:40]!r} is no whole number of 64 bits")


def line_of(value):
    return json.dumps(value, ensure_ascii=False, separators=(",", ":")).encode() + b"\n"


# A stream

class Stream:
    """What a file has of a stream: its lines up to the end line, as they are to be written, and what follows that.
    `events` has the number of the line, its place in `lines` and its fields for each event, and `done` says what was
    done to mend it."""

    def __init__(self, path):
        self.path = path
        self.process = None
        self.lines = []
        self.events = []
        self.is_ended = False
        self.rest = b""
        self.notes = None
        self.done = []

    def refused(self, number, why):
        return Refused(f"{self.path} line {number}: {why}")

    def take(self, number, line, is_blank=False):
        """Takes the next line, if it is one that the monitor takes there."""
        value = None if is_blank else value_of_line(line)
        check_length(line)
        if not is_blank:
            self.take_value(number, value)
        self.lines.append(line)

    def take_value(self, number, value):
        kind = kind_of(value)
        if (kind == JOIN) != (self.process is None):
            raise Faulty("a second run begins here" if kind == JOIN else 'the first line isn\'t {"process":NAME}')
        if kind == JOIN:
            self.process = value["process"]
        elif kind == END:
            self.is_ended = True
        elif len(self.events) == EVENT_LIMIT:
            raise Faulty(f"the process would have over {EVENT_LIMIT} events")
        else:
            self.events.append((number, len(self.lines), value))

    def add(self, value):
        """Adds an event at the end."""
        if len(self.events) == EVENT_LIMIT:
            raise Refused(f"{self.path}: {self.process} has {EVENT_LIMIT} events, and can't have {value} too")
        place = len(self.lines) - self.is_ended
        self.events.append((None, place, value))
        self.lines.insert(place, line_of(value))

    def replace(self, place, value):
        """Puts this in place of an event, which is given by its place among the events."""
        number, line, _ = self.events[place]
        self.events[place] = number, line, value
        self.lines[line] = line_of(value)

    def text(self):
        return b"".join(self.lines) + self.rest

    def says(self):
        head = f"{self.path}: {len(self.events)} events, "
        return head + ("mended:" + "".join(f"\n  {what}" for what in self.done) if self.done else "whole")


def bytes_of(path, limit=STREAM_BYTE_LIMIT, none_has="no stream has"):
    if not os.path.isfile(path):
        raise Refused(f"{path}: there is no such file" if not os.path.exists(path) else f"{path}: this is no file")
    with open(path, "rb") as file:
        data = file.read(limit + 1)
    if len(data) > limit:
        raise Refused(f"{path}: it has over {limit} bytes, and {none_has}: often the wrong file")
    return data


def read_stream(path):
    """What the file has, up to a last line that was cut short."""
    stream = Stream(path)
    file = io.BytesIO(bytes_of(path))
    torn = None
    for number, line in enumerate(file, 1):
        is_blank = not line.strip(b" \t\r\n")
        if torn is not None and not is_blank:
            raise stream.refused(torn, "it isn't JSON, and isn't the last line: the stream is damaged there, and what "
                                       "came after it can't be trusted")
        if torn is None:
            try:
                stream.take(number, line, is_blank)
            except Torn:
                torn = number
            except Faulty as fault:
                raise stream.refused(number, fault) from None
        if stream.is_ended:
            break
    stream.rest = file.read()
    if torn is not None:
        stream.done.append(f"line {torn} was cut short and is dropped")
    return stream


def name_of_file(stream):
    """The process of a stream that has no line: that which its file is named for."""
    name, ending = os.path.splitext(os.path.basename(stream.path))
    try:
        if ending != ENDING:
            raise NotRecorded
        return checked_name("process", name)
    except NotRecorded:
        raise Refused(f"{stream.path}: it has no line, so nobody knows whose stream it is: name the file as its "
                      f"process, NAME{ENDING}, or take it out") from None


def begin_stream(stream):
    """Adds the first line, or the line feed of the last one, if it is missing."""
    if stream.process is None:
        stream.process = name_of_file(stream)
        stream.lines.append(line_of({"process": stream.process}))
        stream.done.append(f"the first line is added, by the name of the file, for {stream.process}")
    elif not stream.is_ended and stream.lines[-1][-1:] != b"\n":
        stream.lines[-1] += b"\n"
        stream.done.append("the line feed of the last line is added")


def end_stream(stream):
    if stream.is_ended:
        return
    stream.lines.append(line_of({"end": True}))
    if sum(map(len, stream.lines)) > STREAM_BYTE_LIMIT:
        raise Refused(f"{stream.path}: with an end line it has over {STREAM_BYTE_LIMIT} bytes, and no stream has")
    stream.is_ended = True
    stream.done.append("the end line is added")


def join_incarnations(streams):
    """Adds the sends of the messages that incarnations have received from the ones before them, and gives (before,
    after) for each."""
    of_ending = {ending_of(stream.process): stream for stream in streams}
    joined = []
    for after in streams:
        message = after.events[0][2].get("recv") if after.events else None
        before = of_ending.get(message)
        if before in (None, after):
            continue
        joined.append((before, after))
        if not any(value.get("send") == message for _, _, value in before.events):
            before.add({"send": message})
            before.done.append(f"an event is added after which {after.process} begins")
    return joined


def set_at_end(streams, settings):
    """Adds what is set since a process was killed: (process or None, variable, value), those of one process last."""
    for stream in streams:
        values = {name: value for process, name, value in sorted(settings, key=lambda entry: entry[0] is not None)
                  if process in (None, stream.process)}
        if not values or stream.is_ended:
            continue
        number, _, value = stream.events[-1] if stream.events else (1, None, None)
        if number is None and "send" in value:
            stream.replace(-1, {**value, "set": values})
        else:
            stream.add({"set": values})
        stream.done.append("it is added that " + ", ".join(f"{name}={values[name]}" for name in values))


def make_orphans_local(streams):
    """Makes local events of the receipts of messages that no stream sends, and gives their number."""
    sent = {value["send"] for stream in streams for _, _, value in stream.events if "send" in value}
    count = 0
    for stream in streams:
        orphans = [place for place, (_, _, value) in enumerate(stream.events)
                   if "recv" in value and value["recv"] not in sent]
        for place in orphans:
            make_local(stream, place)
        if orphans:
            numbers = ", ".join(str(stream.events[place][0]) for place in orphans[:SHOWN])
            more = f" and {len(orphans) - SHOWN} more" if len(orphans) > SHOWN else ""
            stream.done.append(f"what none of these streams sends was received in line {numbers}{more}, "
                               "which is a local event now")
        count += len(orphans)
    return count


def as_one(streams, joined):
    """The streams, with one for all incarnations of a process."""
    following = {}
    for before, after in joined:
        if before in following:
            raise Refused(f"{after.path}: it comes after {before.process}, as {following[before].path} does")
        following[before] = after
    later = set(following.values())
    firsts = [stream for stream in streams if stream not in later]
    for first in firsts:
        ids = ids_of(first)
        after = following.pop(first, None)
        while after is not None:
            go_on(first, after, ids)
            ids |= ids_of(after)
            after = following.pop(after, None)
    for before, after in following.items():
        raise Refused(f"{after.path}: it comes after {before.process}, and that after it")
    return firsts


def ids_of(stream):
    return {value[field] for _, _, value in stream.events for field in ("send", "recv") if field in value}


def go_on(first, after, ids):
    """Adds the events of a later incarnation. A copy of a message that an earlier one received or sent, of which these
    are the ids, is a local event, as is what joined the two."""
    if first.is_ended:
        first.lines.pop()
        first.is_ended, first.rest = False, b""
    message = after.events[0][2]["recv"]
    add_notes(first, after, len(first.events))
    make_local(first, next(place for place in reversed(range(len(first.events)))
                           if first.events[place][2].get("send") == message))
    for _, _, value in after.events:
        first.add(value)
        if value.get("send", value.get("recv")) in ids:
            make_local(first, len(first.events) - 1)
    first.done.append(f"what {after.path} has follows")


def make_local(stream, place):
    value = stream.events[place][2]
    stream.replace(place, {"set": value["set"]} if "set" in value else {})


ORPHANS = """\
receipts that are local events now: {}. Order is left out with them, so of the recorded events 'possibly no' and
'definitely yes' still hold, and 'possibly yes' and 'definitely no' only say that it may be so."""


# Notes

def notes_path(path):
    """The file of the notes of a stream, or None if there can be none beside it."""
    return path[:-len(ENDING)] + NOTES_ENDING if path.endswith(ENDING) else None


def read_notes(stream):
    """Reads the notes of a stream, if there are some beside it, as long as nothing is added to the stream. Those of
    events that aren't in it are dropped, and it is said what they say."""
    path = notes_path(stream.path)
    if path is None or not os.path.lexists(path):
        return
    *lines, torn = bytes_of(path, NOTES_BYTE_LIMIT, "no notes have").split(b"\n")
    stream.notes, cut = [], []
    last = 0
    for number, line in enumerate(lines, 1):
        note = note_in(path, number, line, stream.process, last)
        last = note["event"]
        (stream.notes if last <= len(stream.events) else cut).append((note, line + b"\n"))
    stream.done += [f"event {note['event']} isn't in it, and its note is dropped: "
                    f"{shown(note.get('text'))} at {shown(note.get('place'))}" for note, _ in cut[:SHOWN]]
    if len(cut) > SHOWN:
        stream.done.append(f"notes of {len(cut) - SHOWN} more events that aren't in it are dropped")
    if torn:
        stream.done.append(f"line {len(lines) + 1} of its notes was cut short and is dropped")


def note_in(path, number, line, process, last):
    """The note in a line, if it is one of this process, of an event after the last one."""
    try:
        note = value_of_line(line)
        if not isinstance(note, dict) or note.get("process") != process or type(note.get("event")) is not int:
            raise Faulty(f"this is no note of an event of {process}")
        if note["event"] <= last:
            raise Faulty(f"the note of event {note['event']} stands after that of event {last}")
        return note
    except (Torn, Faulty) as fault:
        raise Refused(f"{path} line {number}: {fault}; without this file the stream is mended alone") from None


def add_notes(first, after, count):
    """Adds the notes of a later incarnation, as those of events that come after so many."""
    if after.notes is not None:
        later = [renumbered(note, line, first.process, note["event"] + count) for note, line in after.notes]
        first.notes = [*(first.notes or []), *later]


def renumbered(note, line, process, event):
    """The note and its line, as that of another event."""
    changed = {**note, "process": process, "event": event}
    head = f'{{"process": "{note["process"]}", "event": {note["event"]}, '.encode()
    if not line.startswith(head):
        return changed, json.dumps(changed).encode() + b"\n"
    return changed, f'{{"process": "{process}", "event": {event}, '.encode() + line[len(head):]


def copies_of(stream, ending=""):
    """The paths of the stream and of its notes, with this ending, and what is to be written there."""
    copies = {stream.path + ending: stream.text()}
    if stream.notes is not None:
        copies[notes_path(stream.path) + ending] = b"".join(line for _, line in stream.notes)
    return copies


# Files

def streams_in(paths):
    """The files that are given, and those of the folders."""
    found = []
    for path in paths:
        if os.path.isdir(path):
            names = sorted(name for name in os.listdir(path) if name.endswith(ENDING))
            if not names:
                raise Refused(f"{path}: there is no file *{ENDING} in it")
            found += [os.path.join(path, name) for name in names]
        else:
            found.append(path)
    refuse_second(found, os.path.realpath, "it is given twice")
    return found


def refuse_second(paths, key, why):
    seen = set()
    for path in paths:
        if key(path) in seen:
            raise Refused(f"{path}: {why}")
        seen.add(key(path))


def copied(streams, ending=""):
    return {path: text for stream in streams for path, text in copies_of(stream, ending).items()}


def write_streams(streams, given):
    """Writes the copies, all of them or none."""
    if given.out is not None:
        refuse_second([stream.path for stream in streams], os.path.basename,
                      f"a second file of this name can't stand in {given.out}")
        with written_folder(given.out) as folder:
            for path, text in copied(streams).items():
                with open(os.path.join(folder, os.path.basename(path)), "xb") as file:
                    file.write(text)
    elif given.in_place:
        replaced_files({os.path.realpath(path): text
                        for path, text in copied(stream for stream in streams if stream.done).items()})
    else:
        copies = copied(streams, ".mended")
        for path in copies:
            if os.path.lexists(path):
                raise Refused(f"{path} is there already, and isn't written over")
        replaced_files(copies)


def mended(given):
    """Mends the streams, and gives what is to be said of them."""
    streams = [read_stream(path) for path in streams_in(given.streams)]
    for stream in streams:
        begin_stream(stream)
        read_notes(stream)
    joined = join_incarnations(streams)
    set_at_end(streams, given.killed)
    orphans = make_orphans_local(streams) if given.orphans_as_local else 0
    if given.one_process:
        streams = as_one(streams, joined)
    for stream in streams:
        end_stream(stream)
    write_streams(streams, given)
    return "\n".join([*(stream.says() for stream in streams), *([ORPHANS.format(orphans)] if orphans else [])])


def arguments(words):
    parser = argparse.ArgumentParser(description=__doc__, formatter_class=argparse.RawDescriptionHelpFormatter)
    add = parser.add_argument
    add("streams", nargs="+", metavar="FOLDER|FILE", help="the file of a stream, or a folder of files *.stream")
    where = parser.add_mutually_exclusive_group()
    where.add_argument("--out", metavar="MENDED", help="the folder for the copies, new or empty")
    where.add_argument("--in-place", action="store_true", help="replace the streams that are mended")
    add("--killed", type=initial, action="append", default=[], metavar="[PROCESS.]NAME=VALUE",
        help="what a variable is once a process was killed: of each stream without an end line, or of one process")
    add("--one-process", action="store_true",
        help="make one stream of the incarnations of a process that was started again")
    add("--orphans-as-local", action="store_true",
        help="make a local event of each receipt of a message that none of these streams sends")
    given = parser.parse_args(words)
    if given.one_process and given.in_place:
        parser.error("with --one-process a stream is made of several files, so none can be replaced")
    if given.out is not None and os.path.exists(given.out) and (not os.path.isdir(given.out) or os.listdir(given.out)):
        parser.error(f"{given.out} is no empty folder")
    return given


def main(words):
    given = arguments(words)
    try:
        print(mended(given))
    except (Refused, OSError) as error:
        print(f"refused: {error}", file=sys.stderr)
        return 1
    return 0


if __name__ == "__main__":
    sys.exit(main(sys.argv[1:]))
