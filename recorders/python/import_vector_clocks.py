#!/usr/bin/env python3
"""Makes a session of `monitor` from logs with vector clocks, in the form that GoVector writes and ShiViz reads:

    client {"client":3, "server":2}
    got the lock, waiting=0

    python3 import_vector_clocks.py --out FOLDER --variables 'waiting=(?<waiting>\\d+)' \\
        --predicate idle 'client.waiting == 0 and server.waiting == 0' client.log server.log

FOLDER, which must be new or empty, then has the session document `session.json`, a stream for each host, and
`events.tsv`, which says for each event of the streams where it stands in the logs. Sends and receipts are found from
the clocks.
Each variable that --variables or --when names is one of each process, 0 at first unless --initial says otherwise.
What can't be brought into a session is refused with its file and line, and then nothing is written.
recorders/README.md says what is found, what is refused, and why events may be split without changing an answer.

The status is 0 if the session is written, 1 if the logs are refused, and 2 if the command line is."""
import argparse
import json
import sys

from importing import (LINE_BYTE_LIMIT, PROCESS_LIMIT, WATCH, Event, Refused, add_arguments, as_name,
                       compiled, decoded, find_settings, name_processes, parsed, run, write_session)

PATTERN = r"(?<!\S)(?<host>\S*) (?<clock>{[^{}\n]*})\n(?<event>.*)"


class LogEvent(Event):
    """An event of the logs. Its number counts the events of its host from 1, and its clock has no host with 0."""

    def __init__(self, place, host, number, clock, text):
        super().__init__(place, text)
        self.host = host
        self.number = number
        self.clock = clock


def log_pattern(pattern):
    made = compiled(pattern)
    if not {"host", "clock", "event"} <= set(made.groupindex):
        raise argparse.ArgumentTypeError("it has no groups host, clock and event")
    return made


# Reading

def matches(path, pattern, skips_others):
    """Each place and match of the pattern in a log. Other lines that aren't blank are refused, unless skipped."""
    text = short_lines(path)
    end = 0
    line = 1
    found = pattern.finditer(text)
    while match := next_match(found, path, line, len(text)):
        if not skips_others:
            refuse_rest(path, line, text[end:match.start()])
        line += text.count("\n", end, match.start("clock"))
        yield f"{path} line {line}", match
        line += text.count("\n", match.start("clock"), match.end())
        end = match.end()
    if not skips_others:
        refuse_rest(path, line, text[end:])


def short_lines(path):
    """The text of a log, in which no line is too long for patterns, be it of an event or not."""
    with open(path, "rb") as file:
        data = file.read()
    for number, line in enumerate(data.split(b"\n"), 1):
        if len(line.rstrip(b"\r")) > LINE_BYTE_LIMIT:
            raise Refused(f"{path} line {number}: it has over {LINE_BYTE_LIMIT} bytes: shorten it, as by "
                          f"cut -b -{LINE_BYTE_LIMIT}")
    return decoded(path, data)


def next_match(found, path, line, size):
    """The next match. What lies before it may be much, so the pattern has a second more for each megabyte of the log,
    of whose text this is the size."""
    with WATCH(f"{path} from line {line}", size / 1e6):
        return next(found, None)


def refuse_rest(path, line, rest):
    for number, content in enumerate(rest.split("\n"), line):
        if content.strip():
            raise Refused(f"{path} line {number}: by the pattern this belongs to no event: {content.strip()[:60]!r}")


def without_twice(pairs):
    if len(dict(pairs)) < len(pairs):
        raise ValueError("a host stands twice")
    return dict(pairs)


def read_clock(place, text):
    """The clock, without the hosts of whose events it knows none."""
    try:
        clock = json.loads(text, object_pairs_hook=without_twice)
    except ValueError as error:
        raise Refused(f"{place}: the clock isn't JSON: {error}") from None
    except RecursionError:
        raise Refused(f"{place}: the clock nests too deep") from None
    if not isinstance(clock, dict) or any(type(count) is not int or count < 0 for count in clock.values()):
        raise Refused(f"{place}: a clock has a whole number for each host, 0 or more")
    return {host: count for host, count in clock.items() if count > 0}


def read_logs(paths, pattern, skips_others=False):
    """The events of each host, in their order; the hosts stand in the order in which they come."""
    hosts = {}
    for path in paths:
        for place, match in matches(path, pattern, skips_others):
            host = match.group("host")
            clock = read_clock(place, match.group("clock"))
            events = hosts.setdefault(host, [])
            if len(hosts) > PROCESS_LIMIT:
                raise Refused(f"{place}: {host} would be host {len(hosts)}, and a session has at most {PROCESS_LIMIT}")
            event = LogEvent(place, host, len(events) + 1, clock, match.group("event") or "")
            check_step(event, events[-1] if events else None)
            events.append(event)
    if not hosts:
        raise Refused(f"{', '.join(paths)}: there is no event")
    return hosts


def check_step(event, previous):
    """The clock follows that of the host's event before: its own count is one more, and no other went back."""
    own = event.clock.get(event.host, 0)
    if own != event.number:
        what = "goes back or stands still" if own < event.number else "skips"
        raise event.refused(f"{event.host}'s own count {what}: it is {own}, and the next is {event.number}")
    for host, count in previous.clock.items() if previous else ():
        if event.clock.get(host, 0) < count:
            raise event.refused(f"the count of {host} goes back from {count} to {event.clock.get(host, 0)}")


# Messages

def find_messages(hosts):
    """Finds for each event those from which messages came, and to which they went."""
    for events in hosts.values():
        before = {}
        for event in events:
            event.sources = direct_sources(hosts, event, before)
            before = event.clock
    for events in hosts.values():
        for event in events:
            for source in event.sources:
                source.receivers.append(event)


def direct_sources(hosts, event, before):
    """Of each other host the latest event of which this event is the first of its own host to know, without those of
    which it knows by another of them."""
    sources = []
    for host, count in event.clock.items():
        if host != event.host and count > before.get(host, 0):
            known = hosts.get(host, [])
            if count > len(known):
                raise event.refused(f"it knows of event {count} of {host}, of which the logs have {len(known)} events")
            check_source(event, known[count - 1])
            sources.append(known[count - 1])
    places = list(hosts)
    direct = [source for source in sources
              if not any(other.clock.get(source.host, 0) >= source.number for other in sources if other is not source)]
    return sorted(direct, key=lambda source: places.index(source.host))


def check_source(event, source):
    """Who knows of an event knows all that it knows, and it doesn't know of who knows of it."""
    for host, count in source.clock.items():
        what = f"it knows of event {source.number} of {source.host} ({source.place}), which knows of"
        if host == event.host and count >= event.number:
            raise event.refused(f"{what} it or of a later event")
        if count > event.clock.get(host, 0):
            own = event.clock.get(host, 0)
            raise event.refused(f"{what} event {count} of {host}; but its own clock has {own} there")


# The command line

def arguments(words):
    parser = argparse.ArgumentParser(description=__doc__, formatter_class=argparse.RawDescriptionHelpFormatter)
    add = parser.add_argument
    add("logs", nargs="+", metavar="LOG", help="a log; those of one host in the order of its events")
    add_arguments(parser, "HOST")
    add("--pattern", type=log_pattern, default=log_pattern(PATTERN),
        help=f"what an event looks like, with groups host, clock and event, if not {PATTERN.replace('%', '%%')}")
    add("--skip-other-lines", action="store_true", help="skip lines that belong to no event, in place of refusing them")
    return parsed(parser, words)


def imported(given):
    """Writes the session, and gives a line on what was found."""
    hosts = read_logs(given.logs, given.pattern, given.skip_other_lines)
    find_messages(hosts)
    for events in hosts.values():
        find_settings(events, given.variables, given.when)
    names = name_processes("host", hosts, {host: as_name(host) for host in hosts}, dict(given.name))
    return write_session(given, {names[host]: events for host, events in hosts.items()})


def main(words):
    return run(imported, arguments(words))


if __name__ == "__main__":
    sys.exit(main(sys.argv[1:]))
