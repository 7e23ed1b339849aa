#!/usr/bin/env python3
"""Makes a session that `monitor` can judge of a run that is too long or too wide for it, with the same answers:

    python3 monitor_reduce.py session.json STREAM.. --to reduced
    monitor judge --beyond-width reduced/session.json reduced/*.stream

The run may have up to 4,096 processes, any number of events, and ids of messages of up to 1,024 bytes; each STREAM is a
file or a folder of files *.stream. Of its events those are kept that change what a predicate can see of their process,
and of the order of all events that of these. So the session has the same answers as the run, to Possibly and to
Definitely of each predicate. --predicate keeps what one of them can see, which is less.

With --windows N there is a session in each of the folders reduced/window-0001, reduced/window-0002 and so on, of at
most N kept events each, or of more where the run can't be cut: it is cut where all that comes before happened before
all that comes after. An answer of the run is yes if that of a window is, and no if those of all windows are.

    python3 monitor_reduce.py --answers reduced --program monitor

has the sessions in the folder judged with --beyond-width and their evidence checked, and prints the run's answers, with
the events of the run after which a predicate holds. map.jsonl beside each session says of each of its events which one
of the run it is: its stream, its number and its line.

The folder is new, or empty; it is written under another name and renamed once it is whole. The status is 0; or 1 if the
run is refused, or the program refuses a session; or 2 if the command line is."""
import argparse
import collections
import os
import random
import re
import sys

import long_answers
from importing import ERROR_LIMIT, Refused, shown
from long_document import read_document
from long_sessions import WINDOW_LIMIT, Seen, Writer, new_folder
from long_streams import BLOCK_LEAST, BLOCKS_BYTES, Hashes, Stream, is_end, is_id, places_of
from monitor_mend import LINE_BYTE_LIMIT, streams_in
from monitor_recorder import GREATEST_VALUE, LEAST_VALUE
from predicates import view_of

OWN = "{} receives what it sent itself: print {{}} for both"


def later(clock, other):
    """The greatest counts of two clocks. One of them is given if it has these, so that equal clocks are often one."""
    if clock == other:
        return clock
    both = tuple(map(max, clock, other))
    return clock if both == clock else other if both == other else both


class Recorded(Stream):
    """The stream of a process, with what is known after the events that were taken. A process that is kept has a number
    in `kept`, its state as far as predicates name it, and what they can see of that; other ones only hand on `now`,
    which is the clock that their messages carry, and the process itself. A clock has the number of events seen of each
    kept process that happened before, or now."""

    def __init__(self, path, block):
        super().__init__(path, block)
        self.kept, self.state, self.look, self.view, self.now = None, {}, None, None, None
        self.salt = random.getrandbits(63)

    def begin(self, variables, clock):
        self.variables, self.now = variables, (clock, self)

    def keep(self, number, comparisons):
        self.kept = number
        names, self.look = view_of(self.process, comparisons)
        self.state = {name: self.variables[name] for name in names}
        self.view = self.look(*self.state.values())


class Reduction:
    """One pass over a run, in an order in which each receipt comes after its send."""

    def __init__(self, document, streams, writer, folder):
        self.streams, self.writer = streams, writer
        self.is_once = document.version == 1
        self.carried, self.waiting, self.ready = {}, {}, collections.deque(streams)
        # By these an id that is sent twice is found once all is read, and one that a process has received twice.
        self.sent, self.received = Hashes(folder), Hashes(folder)
        self.events = 0

    def run(self):
        try:
            self.take_all()
            if self.waiting:
                raise self.stuck()
            self.look_for_twice()
            self.writer.finish()
        finally:
            self.sent.close()
            self.received.close()

    def take_all(self):
        """Takes all events, a block of one stream after the other, but for what waits for messages."""
        while self.ready:
            stream = self.ready.popleft()
            if stream.at == len(stream.values):
                stream.fill()
                self.sent.keep_few()
                self.received.keep_few()
            if self.advance(stream):
                self.ready.append(stream)
            self.writer.write_windows()

    def advance(self, stream):
        """Takes the events of the block; gives whether that was all of it, and the stream goes on."""
        values, taken = stream.values, stream.at
        for at in range(taken, len(values)):
            value = values[at]
            stream.at = at
            left = len(value)
            if "recv" in value:
                left -= 1
                if not self.receive(stream, value["recv"]):
                    self.events += at - taken
                    return False
            if "set" in value:
                left -= 1
                if value["set"]:
                    self.settle(stream, value["set"])
                elif type(value["set"]) is not dict:
                    stream.refuse(at)
            if "send" in value:
                left -= 1
                self.send(stream, value["send"])
                if "recv" in value:
                    stream.refuse(at)
            if left:
                if not is_end(value):
                    stream.refuse(at)
                self.events += at - taken
                stream.is_ended = True
                return False
        stream.at = len(values)
        self.events += stream.at - taken
        return True

    def send(self, stream, message):
        if not is_id(message):
            stream.refuse(stream.at)
        if message in self.carried:
            raise self.fault_of(message)
        self.carried[message] = stream.now
        if self.is_once:
            number = hash(message)
            self.sent.parts[number & 255].append(number)
        if message in self.waiting:
            self.ready.extend(self.waiting.pop(message))

    def receive(self, stream, message):
        """Takes the message, if its send was taken. Of version 1 nobody else may have it then."""
        try:
            found = self.carried.pop(message, None) if self.is_once else self.carried.get(message)
        except TypeError:
            stream.refuse(stream.at)
        if found is None:
            if not is_id(message):
                stream.refuse(stream.at)
            self.waiting.setdefault(message, []).append(stream)
            return False
        clock, sender = found
        if sender is stream:
            raise stream.refused(stream.line_of(stream.at), OWN.format(stream.process))
        if not self.is_once:
            number = hash(message) ^ stream.salt
            self.received.parts[number & 255].append(number)
        if clock is not stream.now[0]:
            clock = later(stream.now[0], clock)
            if clock is not stream.now[0]:
                stream.now = clock, stream
        return True

    def settle(self, stream, settings):
        """Sets variables; if that changes what predicates can see of the process, the event is seen."""
        state, is_changed = stream.state, False
        if type(settings) is not dict:
            stream.refuse(stream.at)
        for name, value in settings.items():
            if type(value) is not int or not LEAST_VALUE <= value <= GREATEST_VALUE:
                stream.refuse(stream.at)
            if name in state:
                if state[name] != value:
                    state[name], is_changed = value, True
            elif name not in stream.variables:
                stream.refuse(stream.at)
        if is_changed:
            view = stream.look(*state.values())
            if view != stream.view:
                stream.view = view
                self.see(stream)

    def see(self, stream):
        clock, kept = stream.now[0], stream.kept
        self.writer.add(kept, Seen(stream.number_of(stream.at), stream.line_of(stream.at),
                                   tuple(stream.state.values()), clock))
        stream.now = (*clock[:kept], clock[kept] + 1, *clock[kept + 1:]), stream

    # What is wrong with messages.

    def fault_of(self, message, found=None):
        """What is wrong with a message, by its places, which are found by reading all streams again if they aren't
        given; nothing if nothing is."""
        places = (found or places_of(self.streams, lambda _, it: it == message))[message]
        said = [f"{stream.path} line {line}" for stream, line in places.sends]
        if len(said) > 1:
            return Refused(f"{said[1]}: {shown(message)} is sent here, and in {said[0]}: give each message an id of "
                           "its own, also after a process was started again")
        came = [f"{stream.path} line {line}" for stream, line in places.receipts]
        if not said:
            return Refused(f"{came[0]}: nobody has sent {shown(message)}: add the stream of its sender, or print {{}} "
                           "for what comes from outside")
        for place, (stream, _) in zip(came, places.receipts):
            if stream is places.sends[0][0]:
                return Refused(f"{place}: {OWN.format(stream.process)}")
        return self.received_twice(message, places, came)

    def received_twice(self, message, places, came):
        first = {}
        for place, (stream, _) in zip(came, places.receipts):
            before = first.setdefault(None if self.is_once else stream, place)
            if before is not place:
                more = '; if several processes may receive it, write "version":2 in the document' * self.is_once
                return Refused(f"{place}: {shown(message)} is received here, and in {before}: print the first receipt "
                               f"alone{more}")
        return None

    def look_for_twice(self):
        """Refuses an id that is sent again after its first message was received, or that one process receives twice:
        those are looked at whose hash came twice."""
        sends, receipts = self.sent.twice(), self.received.twice()
        if not sends and not receipts:
            return
        for message in places_of(self.streams, lambda stream, message: hash(message) in sends
                                 or hash(message) ^ stream.salt in receipts):
            fault = self.fault_of(message)
            if fault is not None:
                raise fault

    def stuck(self):
        """What is wrong if each stream that isn't at its end waits for a message that isn't there."""
        waits = {stream: message for message, streams in self.waiting.items() for stream in streams}
        found = places_of(self.streams, lambda _, message: message in self.waiting)
        for message in self.waiting:
            fault = self.fault_of(message, found)
            if fault is not None:
                return fault
        stream, passed = next(it for it in self.streams if it in waits), []
        while stream not in passed:
            passed.append(stream)
            stream = found[waits[stream]].sends[0][0]
        said = []
        for it in passed[passed.index(stream):]:
            sender, line = found[waits[it]].sends[0]
            said.append(f"{it.path} line {it.line_of(it.at)} receives {shown(waits[it])}, which {sender.path} line "
                        f"{line} sends")
        return Refused("each of these comes before the next, and the last before the first, which can't have happened: "
                       f"{'; '.join(said)}. Often two threads wrote lines in the wrong order")


def joined(paths, document):
    """The streams of all processes, in the order of the document, each with its first line taken."""
    block = min(LINE_BYTE_LIMIT, max(BLOCK_LEAST, BLOCKS_BYTES // len(paths)))
    found = {}
    for path in paths:
        if not os.path.isfile(path):
            raise Refused(f"{path}: there is no such file" if not os.path.exists(path) else f"{path}: this is no file")
        stream = Recorded(path, block)
        stream.join()
        if stream.process not in document.variables:
            raise stream.refused(stream.join_line, f"the document has no process {shown(stream.process)}: add it there")
        if stream.process in found:
            raise stream.refused(stream.join_line, f"{found[stream.process].path} is a stream of {stream.process} too")
        found[stream.process] = stream
    for name in document.variables:
        if name not in found:
            raise Refused(f"there is no stream of {name}: add it, or take the process out of the document")
    return [found[name] for name in document.variables]


def reduced(given):
    """Reduces the run, and gives what is to be said of it."""
    document = read_document(given.session, given.predicate)
    streams = joined(streams_in(given.streams), document)
    clock = (0,) * len(document.kept)
    for stream in streams:
        stream.begin(document.variables[stream.process], clock)
    kept = [next(stream for stream in streams if stream.process == name) for name in document.kept]
    for number, stream in enumerate(kept):
        stream.keep(number, document.comparisons)
    with new_folder(given.to) as folder:
        writer = Writer(folder, document, kept, given.windows)
        reduction = Reduction(document, streams, writer, folder)
        reduction.run()
    return (f"{len(streams)} processes, {reduction.events} events, of which {writer.total} of {len(kept)} processes "
            f"are seen\n{writer.count} session{'s' * (writer.count > 1)}, {writer.lines} events, "
            f"{writer.messages} messages")


# The command line

def count(text):
    if not re.fullmatch("[0-9]{1,5}", text) or not 1 <= int(text) <= WINDOW_LIMIT:
        raise argparse.ArgumentTypeError(f"it is a whole number from 1 to {WINDOW_LIMIT:,}")
    return int(text)


def arguments(words):
    parser = argparse.ArgumentParser(description=__doc__, formatter_class=argparse.RawDescriptionHelpFormatter)
    add = parser.add_argument
    add("session", nargs="?", metavar="SESSION", help="the session document")
    add("streams", nargs="*", metavar="STREAM", help="the file of a stream, or a folder of files *.stream")
    add("--to", metavar="FOLDER", help="the folder for what is written, new or empty")
    add("--predicate", metavar="NAME", help="reduce the run for this predicate alone")
    add("--windows", type=count, metavar="N", help="cut the run into sessions of about this many events that are seen")
    add("--answers", metavar="FOLDER", help="print the answers of the run that was reduced to this folder")
    add("--program", default="monitor", metavar="MONITOR", help="the program that judges for --answers: monitor")
    add("--jobs", type=count, default=os.cpu_count() or 1, metavar="N", help="how many sessions are judged at once")
    given = parser.parse_args(words)
    if given.answers is not None:
        if (given.session, given.to, given.predicate, given.windows) != (None,) * 4:
            parser.error("--answers is given a folder that was written, and no session")
    elif given.session is None or not given.streams or given.to is None:
        parser.error("a session, streams and --to are wanted, or --answers")
    elif os.path.lexists(given.to) and (not os.path.isdir(given.to) or os.listdir(given.to)):
        parser.error(f"{given.to} is no empty folder")
    return given


def main(words):
    given = arguments(words)
    try:
        print(reduced(given) if given.answers is None else long_answers.said(given.answers, given.program, given.jobs))
    except (Refused, OSError, MemoryError) as error:
        text = str(error) or "there isn't enough memory"
        print("refused:", text if len(text) <= ERROR_LIMIT else text[:ERROR_LIMIT] + " ..", file=sys.stderr)
        return 1
    return 0


if __name__ == "__main__":
    sys.exit(main(sys.argv[1:]))
