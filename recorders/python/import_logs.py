#!/usr/bin/env python3
"""Makes a session of `monitor` from any logs, by rules that say which lines are events:

    python3 import_logs.py --out FOLDER --rules RULES --predicate both 'a.inside + b.inside == 2' a.log b.log

RULES is a file in JSON or, for Python 3.11 or later, in TOML, as the files in the folder `rules` beside this program. A
rule has patterns that are held against a line, or against fields of a line of JSON, and says by what they find whose
event it is, which message it sends or receives, and what it sets. recorders/python/README.md has all that can stand in
such a file.

FOLDER, which must be new or empty, then has the session document `session.json`, a stream for each process, and
`notes.jsonl`, which has the text and the place, `FILE:LINE`, of each event of the streams. If RULES say what a line
between two runs looks like, FOLDER has such a folder for each run: `1`, `2` and so on.
What can't be brought into a session is refused with its file and line, and then nothing is written.

The status is 0 if the session is written, 1 if the rules or the logs are refused, and 2 if the command line is."""
import argparse
import collections
import json
import os
import re
import sys

import import_vector_clocks
from importing import (LINE_BYTE_LIMIT, PROCESS_LIMIT, WATCH, Event, Refused, add_arguments, as_name, check_lengths,
                       compiled, find_settings, name_processes, parsed, put_setting, run, session_in, value_of,
                       written_folder)
from monitor_recorder import EVENT_LIMIT, NotRecorded, checked_name, checked_variables

HOLE = re.compile(r"\{([^{}]+)\}")
RULES_FIELDS = {"lines": str, "begin": str, "run": str, "process": str, "rules": list}
RULE_FIELDS = {"file": str, "match": (str, dict), "process": str, "text": str, "send": str, "to": str, "receive": str,
               "from": str, "clock": str, "set": dict}


class LogEvent(import_vector_clocks.LogEvent):
    """An event that an entry of a log says. `sends` is None or the message's key and, if it is known, the receiver;
    `receives` is None or the key and, if it is known, the sender."""

    def __init__(self, place, host, text):
        super().__init__(place, host, None, None, text)
        self.sends = None
        self.receives = None


# The rules

def without_twice(pairs):
    if len(dict(pairs)) < len(pairs):
        raise ValueError("a field stands twice")
    return dict(pairs)


def read_file(path):
    """What the file of rules says, as a value."""
    with open(path, "rb") as file:
        data = file.read()
    try:
        if not path.endswith(".toml"):
            return json.loads(data, object_pairs_hook=without_twice)
        import tomllib
        return tomllib.loads(data.decode())
    except ImportError:
        raise Refused(f"{path}: this Python reads no TOML, 3.11 is the first that does: write it as JSON") from None
    except (ValueError, RecursionError) as error:
        raise Refused(f"{path}: {error}") from None


def checked_fields(where, value, fields):
    """The value, if it is an object with no other fields than these, each of its type."""
    if not isinstance(value, dict):
        raise Refused(f"{where}: this isn't an object")
    for name, part in value.items():
        if name not in fields:
            raise Refused(f"{where}: there is no field {name!r}; there are {', '.join(fields)}")
        if not isinstance(part, fields[name]):
            raise Refused(f"{where}: {name} has a value of another type")
    return value


def pattern_of(where, text):
    if not isinstance(text, str):
        raise Refused(f"{where}: a pattern is a text")
    try:
        return compiled(text)
    except argparse.ArgumentTypeError as error:
        raise Refused(f"{where}: {error}") from None


class Rule:
    """A rule, with the patterns of its match by their fields; that with no field is held against the whole entry."""

    def __init__(self, where, fields, has_json):
        self.fields = checked_fields(where, fields, RULE_FIELDS)
        self.matched = 0
        match = fields.get("match")
        if not match:
            raise Refused(f"{where}: it has no match")
        if isinstance(match, dict) and not has_json:
            raise Refused(f'{where}: match has fields, and only lines of JSON have: say lines = "json"')
        self.patterns = {field: pattern_of(where, pattern) for field, pattern in
                         (match.items() if isinstance(match, dict) else [(None, match)])}
        self.file = pattern_of(where, fields.get("file", "(?s:.*)"))
        self.check_set(where)
        if not has_json:
            self.check_templates(where)
        for field, other in (("to", "send"), ("from", "receive")):
            if field in fields and other not in fields:
                raise Refused(f"{where}: {field} stands without {other}")
        if "clock" in fields and ("send" in fields or "receive" in fields):
            raise Refused(f"{where}: a clock says what was sent and received, so neither stands beside it")

    def check_set(self, where):
        for name, value in self.fields.get("set", {}).items():
            if not isinstance(value, (str, int)):
                raise Refused(f"{where}: {name} is set to what is neither a text nor a whole number")
            try:
                checked_name("variable", name)
            except NotRecorded as error:
                raise Refused(f"{where}: {error}") from None

    def check_templates(self, where):
        """A hole for what no pattern finds is a mistake, if there are no fields that may have it."""
        known = {"file", "process"}.union(*(pattern.groupindex for pattern in self.patterns.values()))
        templates = {name: value for name, value in self.fields.items() if name not in ("file", "match", "set")}
        for name, template in {**self.fields.get("set", {}), **templates}.items():
            for hole in HOLE.findall(template) if isinstance(template, str) else ():
                if hole not in known:
                    raise Refused(f"{where}: {name} wants {{{hole}}}, and match has no such group")

    def found_in(self, entry):
        """What the rule's patterns find, or None if one of them doesn't match."""
        if not self.file.fullmatch(entry.found["file"]):
            return None
        found = dict(entry.found)
        for field, pattern in self.patterns.items():
            text = entry.text if field is None else entry.field(field)
            match = None if text is None else pattern.search(text)
            if match is None:
                return None
            found.update(match.groupdict())
        return found


class Rules:
    def __init__(self, path):
        fields = checked_fields(path, read_file(path), RULES_FIELDS)
        self.path = path
        if fields.get("lines", "text") not in ("text", "json"):
            raise Refused(f'{path}: lines is "text" or "json"')
        self.has_json = fields.get("lines") == "json"
        if self.has_json and "begin" in fields:
            raise Refused(f"{path}: begin says where an entry of several lines begins, and one of JSON is one line")
        self.begin, self.run = (pattern_of(f"{path}: {name}", fields[name]) if name in fields else None
                                for name in ("begin", "run"))
        self.process = fields.get("process", "{file}")
        self.rules = [Rule(f"{path}: rule {number}", rule, self.has_json)
                      for number, rule in enumerate(fields.get("rules", []), 1)]
        if not self.rules:
            raise Refused(f"{path}: there are no rules")
        if len({"clock" in rule.fields for rule in self.rules}) > 1:
            raise Refused(f"{path}: either each rule has a clock, or none")
        self.has_clocks = "clock" in self.rules[0].fields
        self.variables = {name for rule in self.rules for name in rule.fields.get("set", {})}

    def kind_of(self, place, line):
        """Whether a line stands between two runs, and whether an entry begins with it."""
        if self.run is None and self.begin is None:
            return False, True
        with WATCH(place):
            return (self.run is not None and self.run.search(line) is not None,
                    self.begin is None or self.begin.search(line) is not None)


# The logs

class Entry:
    """A line of a log, or several that are one entry."""

    def __init__(self, place, file):
        self.place = place
        self.lines = []
        self.size = 0
        self.found = {"file": file}
        self.fields = None

    def add(self, line):
        self.size += len(line.encode()) + 1
        if self.size - 1 <= LINE_BYTE_LIMIT:
            self.lines.append(line)

    @property
    def text(self):
        return "\n".join(self.lines)

    def read_fields(self):
        try:
            self.fields = json.loads(self.text)
        except (ValueError, RecursionError):
            raise Refused(f"{self.place}: this isn't JSON") from None
        if not isinstance(self.fields, dict):
            raise Refused(f"{self.place}: this is no object of JSON")

    def field(self, name):
        """The text of a field, or None. `a.b` is the field a.b or the field b of a."""
        value = self.fields
        if value is not None and name in value:
            value = value[name]
        else:
            for part in name.split("."):
                value = value.get(part) if isinstance(value, dict) else None
        if value is None or isinstance(value, str):
            return value
        return json.dumps(value, ensure_ascii=False)

    def filled(self, template, found):
        """The template with what was found, or None if that isn't there."""
        values = {}
        for name in HOLE.findall(template):
            values[name] = found[name] if name in found else self.field(name)
            if values[name] is None:
                return None
        return HOLE.sub(lambda hole: values[hole[1]], template)

    def wanted(self, template, found):
        text = self.filled(template, found)
        if text is None:
            raise Refused(f"{self.place}: the rule wants {template!r}, and not all of that is there")
        return text


def lines_of(path, skipped):
    """The number and text of each line. One that is too long or no UTF-8 is refused or, if `skipped` is a list, left
    out: its place goes into the list."""
    with open(path, "rb") as file:
        number = 0
        while True:
            line = file.readline(LINE_BYTE_LIMIT + 2)
            if not line:
                return
            number += 1
            is_long = len(line.rstrip(b"\r\n")) > LINE_BYTE_LIMIT
            while line[-1:] != b"\n" and is_long and (more := file.readline(LINE_BYTE_LIMIT)):
                line = more
            try:
                if is_long:
                    raise Refused(f"{path}:{number}: the line has over {LINE_BYTE_LIMIT} bytes")
                yield number, line.decode("utf-8-sig" if number == 1 else "utf-8").rstrip("\r\n")
            except (Refused, UnicodeDecodeError) as error:
                skip(error if isinstance(error, Refused) else Refused(f"{path}:{number}: this isn't UTF-8"), skipped)


def skip(refusal, skipped):
    if skipped is None:
        raise Refused(f"{refusal} (--skip-unreadable leaves it out)")
    skipped.append(str(refusal))


def entries_of(path, rules, skipped):
    """The entries of a log, and None for each line between two runs."""
    stem = os.path.splitext(os.path.basename(path))[0]
    entry = None
    for number, line in lines_of(path, skipped):
        place = f"{path}:{number}"
        is_between, begins = rules.kind_of(place, line)
        if entry is None or is_between or begins:
            yield from whole(entry, skipped)
            entry = None if is_between else Entry(place, stem)
        if is_between:
            yield None
        else:
            entry.add(line)
    yield from whole(entry, skipped)


def whole(entry, skipped):
    if entry is not None:
        if entry.size - 1 > LINE_BYTE_LIMIT:
            skip(Refused(f"{entry.place}: the entry has over {LINE_BYTE_LIMIT} bytes"), skipped)
        else:
            yield entry


# Events

def event_of(entry, rules):
    """The event that the entry says by the first rule that matches, or None."""
    with WATCH(entry.place):
        for rule in rules.rules:
            found = rule.found_in(entry)
            if found is not None:
                rule.matched += 1
                return made_event(entry, rule.fields, rules, found)
    return None


def made_event(entry, fields, rules, found):
    found["process"] = entry.wanted(fields.get("process", rules.process), found)
    text = entry.filled(fields["text"], found) if "text" in fields else None
    event = LogEvent(entry.place, found["process"], entry.text if text is None else text)
    wanted = {name: entry.wanted(fields[name], found) for name in ("send", "to", "receive", "from") if name in fields}
    if "send" in fields:
        event.sends = wanted["send"], wanted.get("to")
    if "receive" in fields:
        event.receives = wanted["receive"], wanted.get("from")
    if "clock" in fields:
        event.clock = import_vector_clocks.read_clock(entry.place, entry.wanted(fields["clock"], found))
    for name, value in fields.get("set", {}).items():
        text = entry.filled(value, found) if isinstance(value, str) else str(int(value))
        if text is not None:
            put_setting(event, name, value_of(event, name, text))
    return event


def put_event(event, events, rules):
    """Puts the event to those of its process in its run."""
    if len(events) == EVENT_LIMIT:
        raise event.refused(f"with this event {event.host} has over {EVENT_LIMIT} events")
    event.number = len(events) + 1
    if rules.has_clocks:
        import_vector_clocks.check_step(event, events[-1] if events else None)
    events.append(event)


class Found:
    """What the logs say: of each run the events of each process, and what was left out."""

    def __init__(self):
        self.runs = []
        self.processes = {}
        self.others = 0
        self.skipped = []

    def read(self, path, rules, skips):
        number = 0
        has_events = False
        for entry in entries_of(path, rules, self.skipped if skips else None):
            if entry is None:
                # What stands before the first run is no run, if no event does.
                number += bool(number or has_events)
                continue
            event = self.event_of(entry, rules, skips)
            if event is None:
                continue
            has_events = True
            self.processes.setdefault(event.host, []).append(event)
            if len(self.processes) > PROCESS_LIMIT:
                raise event.refused(f"{event.host!r} would be process {len(self.processes)}, and a session has at most "
                                    f"{PROCESS_LIMIT}")
            while len(self.runs) <= number:
                self.runs.append(collections.defaultdict(list))
            put_event(event, self.runs[number][event.host], rules)

    def event_of(self, entry, rules, skips):
        try:
            if rules.has_json:
                entry.read_fields()
        except Refused as refusal:
            skip(refusal, self.skipped if skips else None)
            return None
        event = event_of(entry, rules)
        self.others += event is None
        return event


# Messages

def find_messages(processes, orphans_as_local):
    """Finds for each event those from which messages came, and to which they went, and gives how many receipts are
    local events since nobody sent what they received. What a process sends to itself is no message."""
    sent = collections.defaultdict(lambda: collections.defaultdict(list))
    for name, events in processes.items():
        for event in events:
            if event.sends:
                sent[event.sends[0]][name, event.sends[1]].append(event)
    received = collections.Counter()
    orphans = 0
    for name, events in processes.items():
        for event in events:
            if not event.receives or is_own(name, event.receives[1], sent[event.receives[0]]):
                continue
            source = source_of(event, name, sent[event.receives[0]], received)
            if isinstance(source, Event):
                event.sources.append(source)
                source.receivers.append(event)
            elif orphans_as_local:
                orphans += 1
            else:
                raise event.refused(f"it receives {event.receives[0]!r}, {source} (--orphans-as-local makes a local "
                                    "event of it)")
    return orphans


def is_own(name, sender, sent):
    """Whether what the process received is what it sent itself."""
    ways = {way[0] for way in sent if way[1] in (None, name)}
    return sender == name or sender is None and ways == {name}


def source_of(event, name, sent, received):
    """The event that sent what this one of the process `name` received: the n-th to it of those with its key, if this
    one is the n-th. If there is none, the text says why."""
    key, sender = event.receives
    ways = [way for way in sent if way[0] != name and way[1] in (None, name) and sender in (None, way[0])]
    if not ways:
        return "which nobody sent to it" if sender is None else f"which {sender} didn't send to it"
    if len(ways) > 1:
        places = " and at ".join(sent[way][0].place for way in ways[:2])
        raise event.refused(f"it receives {key!r}, which was sent at {places}: put into the rules from whom it is and "
                            "to whom, or more into the key")
    received[name, key, ways[0]] += 1
    count = received[name, key, ways[0]]
    return sent[ways[0]][count - 1] if count <= len(sent[ways[0]]) else (
        f"as number {count} with this key, and {ways[0][0]} sent {len(sent[ways[0]])}")


# The command line

def note(process, number, event):
    return json.dumps({"process": process, "event": number, "text": event.text, "place": event.place},
                      ensure_ascii=False) + "\n"


def written(given, rules, runs):
    """Writes the session of each run, and gives a line on each."""
    with written_folder(given.out) as folder:
        said = []
        for number, processes in enumerate(runs, 1):
            check_lengths(processes)
            place = folder if rules.run is None else os.path.join(folder, str(number))
            os.makedirs(place, exist_ok=True)
            line = session_in(place, given, processes, ("notes.jsonl", note))
            said.append(line if rules.run is None else f"run {number}: {line}")
        return said


def says(rules, found, orphans, runs):
    """What is to be said of the rules and of what they left out, and of variables that no event sets."""
    counts = ", ".join(f"{number}: {rule.matched}" for number, rule in enumerate(rules.rules, 1))
    yield f"entries by rules: {counts}; by none: {found.others}"
    if found.skipped:
        yield f"left out: {len(found.skipped)}, of which the first is {found.skipped[0]}"
    if orphans:
        yield f"receipts that are local events, since nobody sent what they received: {orphans}"
    settings = {name for processes in runs for events in processes.values() for event in events
                for name in event.settings}
    unset = sorted(rules.variables - settings)
    if unset:
        yield f"variables that no event sets: {', '.join(unset)}"


def imported(given):
    """Writes the session, and gives lines on what was found."""
    rules = Rules(given.rules)
    found = Found()
    for path in given.logs:
        found.read(path, rules, given.skip_unreadable)
    if not found.processes:
        raise Refused(f"{', '.join(given.logs)}: by the rules of {given.rules} there is no event")
    names = name_processes("process", found.processes, {source: as_name(source) for source in found.processes},
                           dict(given.name))
    try:
        given.all_variables = sorted(checked_variables({*given.all_variables, *rules.variables}))
    except NotRecorded as error:
        raise Refused(f"{given.rules}: {error}") from None
    orphans, runs = 0, []
    for processes in found.runs:
        for events in processes.values():
            find_settings(events, given.variables, given.when)
        if rules.has_clocks:
            import_vector_clocks.find_messages(processes)
        else:
            orphans += find_messages(processes, given.orphans_as_local)
        runs.append({names[source]: processes.get(source, []) for source in found.processes})
    said = written(given, rules, runs)
    return "\n".join([*said, *says(rules, found, orphans, runs)])


def arguments(words):
    parser = argparse.ArgumentParser(description=__doc__, formatter_class=argparse.RawDescriptionHelpFormatter)
    add = parser.add_argument
    add("logs", nargs="+", metavar="LOG", help="a log; those of one process in the order of its events")
    add("--rules", required=True, help="the file of the rules, in JSON or, if its name ends with .toml, in TOML")
    add_arguments(parser, "PROCESS")
    add("--orphans-as-local", action="store_true",
        help="make a local event of each receipt of a message that nobody sends, in place of refusing it")
    add("--skip-unreadable", action="store_true",
        help="leave out lines that are too long or no UTF-8 and, if they are to be JSON, those that are none")
    return parsed(parser, words)


def main(words):
    return run(imported, arguments(words))


if __name__ == "__main__":
    sys.exit(main(sys.argv[1:]))
