"""Writes what is seen of a long run as sessions: one, or one for each window. For monitor_reduce."""
import bisect
import contextlib
import json
import os
import shutil

from importing import Refused
from monitor_mend import STREAM_BYTE_LIMIT, line_of
from monitor_recorder import EVENT_LIMIT

# A window of no more seen events than this has no more events in any stream than a session may have: a receipt that is
# added to a process brings at least one event of another process that is new to it.
WINDOW_LIMIT = EVENT_LIMIT
SESSION, MAP, WINDOW = "session.json", "map.jsonl", "window-{:0{}}"
# What is to be done if too much is seen.
WHOLE = "cut the run by --windows, or reduce it for one predicate by --predicate"
UNCUT = ("it can't be cut before, for nowhere there has all that was seen happened before all that is seen after; "
         "reduce it for one predicate by --predicate, or judge a shorter run")


class Seen:
    """An event that is seen: its number in the run and its line, the values of its process's variables after it, and
    its clock: the number of events seen of each kept process that happened before it."""

    __slots__ = ("number", "line", "values", "clock")

    def __init__(self, number, line, values, clock):
        self.number, self.line, self.values, self.clock = number, line, values, clock


@contextlib.contextmanager
def new_folder(path):
    """A folder to write to, which becomes the one at `path`, new or empty, once all is written. After an error none is
    there, and what the system says names the path."""
    whole = os.path.abspath(path)
    part = f"{whole}.{os.getpid()}.part"
    try:
        os.makedirs(os.path.dirname(whole), exist_ok=True)
        os.mkdir(part)
        yield part
        os.rename(part, whole)
    except OSError as error:
        if error.filename is None or os.path.abspath(str(error.filename)).startswith(part):
            raise Refused(f"{path}: it can't be written: {error.strerror}") from None
        raise
    finally:
        shutil.rmtree(part, ignore_errors=True)


def digits(number):
    """How many digits the name of the window of this number has, if it is the last one."""
    return max(4, len(str(number)))


class Window:
    """The events of a session: those of each kept process between two cuts, of which `begin` counts the events up to
    the first. `before` has the last event of each process up to there, or one that says how it was at first."""

    def __init__(self, begin, before, events):
        self.begin, self.before, self.events = begin, before, events

    def event(self, kept, number):
        """The event of this number, from 1, among all that are seen of a process."""
        return self.events[kept][number - 1 - self.begin[kept]]

    def causes(self, kept):
        """For each event of a process those of others, as (process, number), that it comes right after: those that
        happened before it, and neither before the one of its process before it nor before another one of these."""
        before = self.begin
        for event in self.events[kept]:
            clock = event.clock
            new = [it for it, (count, known) in enumerate(zip(clock, before)) if count > known and it != kept]
            yield [(it, clock[it]) for it in new if not any(
                self.event(other, clock[other]).clock[it] >= clock[it] for other in new if other != it)]
            before = clock


class Writer:
    """Takes what is seen, in an order in which all that happened before an event comes before it, and writes it.

    A run is cut after the first n events in this order, for some n, if all of these happened before each later one.
    `cuts` has each n, greater than what is written, that no event speaks against so far."""

    def __init__(self, folder, document, kept, size):
        self.folder, self.document, self.kept, self.size = folder, document, kept, size
        self.before = [Seen(0, stream.join_line, tuple(stream.state.values()), None) for stream in kept]
        self.variables = [list(stream.state) for stream in kept]
        self.begin = (0,) * len(kept)
        self.events, self.places = [[] for _ in kept], [[] for _ in kept]
        self.cuts, self.total, self.written = [], 0, 0
        self.count, self.lines, self.messages = 0, 0, 0

    def add(self, kept, event):
        self.total += 1
        self.events[kept].append(event)
        if self.size is None:
            if len(self.events[kept]) > EVENT_LIMIT:
                raise self.too_many(kept, WHOLE)
            return
        self.places[kept].append(self.total)
        known = min(self.known(event.clock, kept), self.total - 1)
        while self.cuts and self.cuts[-1] > known:
            self.cuts.pop()
        self.cuts.append(self.total)

    def known(self, clock, kept):
        """How many of the first events are all among those that a clock counts, but for events of its own process."""
        first = self.total + 1
        for it, (places, count, begin) in enumerate(zip(self.places, clock, self.begin)):
            if it != kept and count - begin < len(places):
                first = min(first, places[count - begin])
        return first - 1

    def too_many(self, kept, advice):
        last = self.events[kept][-1]
        return Refused(f"{self.kept[kept].path} line {last.line}: up to here over {EVENT_LIMIT:,} events of "
                       f"{self.kept[kept].process} are seen, and a session has no more: {advice}")

    # The choice of cuts

    def write_windows(self):
        """Writes each window of which it is sure that no event still to come speaks against its end."""
        if self.size is None or self.total - self.written <= self.size:
            return
        sure = min([self.known(stream.now[0], stream.kept) for stream in self.kept if not stream.is_ended],
                   default=self.total)
        while self.write_next(sure):
            pass
        if self.cuts and self.cuts[0] - self.written > EVENT_LIMIT:
            self.refuse_uncut(self.cuts[0])

    def write_next(self, sure):
        """Writes the next window, if it can be chosen by the cuts that are sure: the greatest one of no more events
        than the size, or else the least one of more."""
        if self.total - self.written <= self.size:
            return False
        wanted = self.written + self.size
        at = bisect.bisect_right(self.cuts, wanted)
        if sure < wanted or not at and self.cuts[0] > sure:
            return False
        self.write_up_to(self.cuts[max(at - 1, 0)])
        del self.cuts[:max(at, 1)]
        return True

    def refuse_uncut(self, end):
        """Refuses a run of which the next window would end there at the earliest, with too many events."""
        for kept, places in enumerate(self.places):
            if bisect.bisect_right(places, end) > EVENT_LIMIT:
                raise self.too_many(kept, UNCUT)

    def finish(self):
        """Writes what is left, once all is read."""
        while self.size is not None and self.write_next(self.total):
            pass
        if self.written < self.total or not self.count:
            self.write_up_to(self.total)
        if self.size is not None:
            for number in range(1, 10 ** (digits(self.count) - 1)) if digits(self.count) > digits(1) else ():
                os.rename(self.path_of(number, digits(number)), self.path_of(number, digits(self.count)))

    def path_of(self, number, width):
        return os.path.join(self.folder, WINDOW.format(number, width))

    # The writing

    def write_up_to(self, end):
        """Writes a session of the events up to the end, and forgets them."""
        counts = [bisect.bisect_right(places, end) if self.size is not None else len(events)
                  for places, events in zip(self.places, self.events)]
        window = Window(self.begin, self.before, [events[:count] for events, count in zip(self.events, counts)])
        self.count += 1
        folder = self.folder
        if self.size is not None:
            folder = self.path_of(self.count, digits(self.count))
            os.mkdir(folder)
        self.write(folder, window)
        self.before = [events[-1] if events else before for events, before in zip(window.events, window.before)]
        self.begin = tuple(begin + count for begin, count in zip(self.begin, counts))
        for events, places, count in zip(self.events, self.places, counts):
            del events[:count]
            del places[:count]
        self.written = end

    def write(self, folder, window):
        causes = [list(window.causes(kept)) for kept in range(len(self.kept))]
        receivers = {}
        for cause in (it for of_process in causes for of_event in of_process for it in of_event):
            receivers[cause] = receivers.get(cause, 0) + 1
        self.messages += len(receivers)
        with open(os.path.join(folder, SESSION), "xb") as file:
            file.write(line_of(self.document_of(window, any(count > 1 for count in receivers.values()))))
        with open(os.path.join(folder, MAP), "x", encoding="utf-8") as rows:
            for kept, stream in enumerate(self.kept):
                lines = list(self.lines_of(window, kept, causes[kept], receivers))
                self.check_size(kept, lines)
                with open(os.path.join(folder, f"{stream.process}.stream"), "x", encoding="utf-8") as file:
                    file.write(f'{{"process":"{stream.process}"}}\n')
                    file.writelines(line for line, _, _ in lines)
                    file.write('{"end":true}\n')
                rows.writelines(self.rows_of(window.before[kept], kept, lines))

    def document_of(self, window, is_shared):
        """The document of a window, in which each process begins as it is at the window's begin."""
        value = {"processes": [{"name": stream.process, "vars": dict(zip(names, before.values))}
                               for stream, names, before in zip(self.kept, self.variables, window.before)],
                 "predicates": [{"name": name, "text": text} for name, text in self.document.predicates]}
        if self.document.width is not None:
            value["width"] = self.document.width
        return {**value, "version": 2} if is_shared else value

    def id_of(self, window, kept, number):
        return f"{self.kept[kept].process}-{window.event(kept, number).number}"

    def lines_of(self, window, kept, causes, receivers):
        """The lines of a process, each with the event that it is for, and whether it is that itself. A message is sent
        by the event that has to come first. It is received by an event of its own, before the one that needs it, or by
        that itself if this is the last such message and the event sends none."""
        values = window.before[kept].values
        for number, (event, of_event) in enumerate(zip(window.events[kept], causes), window.begin[kept] + 1):
            changed = ",".join(f'"{name}":{value}' for name, value, before in
                               zip(self.variables[kept], event.values, values) if value != before)
            *heads, last = [f'"recv":"{self.id_of(window, *cause)}"' for cause in of_event] or [None]
            if (kept, number) in receivers:
                heads += [last] if last else []
                last = f'"send":"{self.id_of(window, kept, number)}"'
            for head in heads:
                yield f"{{{head}}}\n", event, False
            yield f'{{{last + "," if last else ""}"set":{{{changed}}}}}\n', event, True
            values = event.values

    def check_size(self, kept, lines):
        self.lines += len(lines)
        name = self.kept[kept].process
        if len(lines) > EVENT_LIMIT or sum(len(line) for line, _, _ in lines) > STREAM_BYTE_LIMIT - 1_024:
            raise Refused(f"{name} would have {len(lines):,} events in a session, with the receipts that keep the "
                          f"order, and may have {EVENT_LIMIT:,}: {WHOLE if self.size is None else UNCUT}")

    def rows_of(self, before, kept, lines):
        """What the map says of each event of a process, and of its state before the first."""
        name, path = self.kept[kept].process, json.dumps(self.kept[kept].path)
        for number, (_, event, is_seen) in enumerate([(None, before, True), *lines]):
            yield (f'{{"process":"{name}","event":{number},"stream":{path},"number":{event.number},"line":{event.line},'
                   f'"seen":{"true" if is_seen else "false"}}}\n')
