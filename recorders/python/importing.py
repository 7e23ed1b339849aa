"""What the importers share: events with what they set and the messages between them, how a session is made of them,
files that are written whole or not at all, and the part of the command line that says what the session asks."""
import argparse
import contextlib
import json
import os
import re
import shutil
import signal
import sys
import tempfile
import threading
import warnings

from monitor_recorder import EVENT_LIMIT, NotRecorded, Recorder, checked_name, checked_value, checked_variables

PROCESS_LIMIT = 16
PREDICATE_LIMIT = 16
WIDTH_LIMIT = 65_536
ERROR_LIMIT = 5_000
# So many bytes has a line of a log at most, and so many characters a text that patterns are held against.
LINE_BYTE_LIMIT = 16_384
TEXT_LIMIT = 262_144
# So many seconds of the processor patterns have for an entry of a log, or for the text of an event.
PATTERN_SECONDS = 1.0
WHOLE_NUMBER = re.compile(r"[+-]?[0-9]{1,30}")
TRUTHS = {"true": 1, "false": 0}


class Refused(Exception):
    """What was given is no session: the text says where and why."""


class Watch:
    """Refuses what patterns take too long for, as some do for the square of a text's length, or worse: within
    `with WATCH.on():` what stands in `with WATCH(place, more):` has PATTERN_SECONDS of the processor, and `more`. Where
    the system has no such timer, and in a thread that gets no signals, it takes what it takes."""

    def __init__(self):
        self.is_on = False
        self.place = None
        self.seconds = None

    @contextlib.contextmanager
    def on(self):
        if not hasattr(signal, "setitimer") or threading.current_thread() is not threading.main_thread():
            yield
            return
        before = signal.signal(signal.SIGVTALRM, self.refuse)
        self.is_on = True
        try:
            yield
        finally:
            self.is_on = False
            signal.signal(signal.SIGVTALRM, before)

    def refuse(self, *_):
        raise Refused(f"{self.place}: the patterns take over {self.seconds:g} seconds here")

    def __call__(self, place, more=0.0):
        self.place = place
        self.seconds = PATTERN_SECONDS + more
        return self

    def __enter__(self):
        if self.is_on:
            signal.setitimer(signal.ITIMER_VIRTUAL, self.seconds)

    def __exit__(self, *_):
        if self.is_on:
            signal.setitimer(signal.ITIMER_VIRTUAL, 0)


WATCH = Watch()


class Event:
    """Something that happened in one process. `place` says where the input has it, and `text` is what patterns are
    held against. `sources` are the events from which it received a message, `receivers` those that received the one
    that it sent: one of a process, and of one process no two."""

    def __init__(self, place, text):
        self.place = place
        self.text = text
        self.settings = {}
        self.sources = []
        self.receivers = []

    def refused(self, why):
        return Refused(f"{self.place}: {why}")

    def lines(self):
        """How many events of a stream stand for it."""
        return max(1, len(self.sources) + bool(self.receivers))


def compiled(pattern):
    """The pattern, in which a named group may also be written as in JavaScript, `(?<name>..)`. What Python warns of, as
    of `[[`, isn't said."""
    try:
        with warnings.catch_warnings():
            warnings.simplefilter("ignore")
            return re.compile(re.sub(r"\(\?<(?![=!])", "(?P<", pattern), re.MULTILINE)
    except re.error as error:
        raise argparse.ArgumentTypeError(f"{error} in {pattern!r}") from None


def explained(read):
    """The same for an argument, such that the parser says what is wrong with it."""
    def reads(text):
        try:
            return read(text)
        except NotRecorded as error:
            raise argparse.ArgumentTypeError(str(error)) from None
    return reads


def shown(value):
    """The value as Python writes it, cut if it is long."""
    text = repr(value[:100] if isinstance(value, (str, bytes)) else value)
    return text if len(text) <= 80 else text[:80] + " .."


def decoded(path, data=None):
    """The text of a file in UTF-8, in which each line ends with an LF alone. `data` is its bytes, if they were read."""
    if data is None:
        with open(path, "rb") as file:
            data = file.read()
    try:
        return data.decode("utf-8-sig").replace("\r\n", "\n")
    except UnicodeDecodeError as error:
        line = data[:error.start].count(b"\n") + 1
        raise Refused(f"{path} line {line}: this isn't UTF-8") from None


# Variables

def find_settings(events, patterns, conditions):
    """The settings of each event: by the groups of the first match of each pattern, and by conditions."""
    for event in events if patterns or conditions else ():
        with searching(event):
            set_by_patterns(event, patterns, conditions)


def searching(event):
    """What patterns are held against the text of the event in: it isn't too long, and they have their time."""
    if len(event.text) > TEXT_LIMIT:
        raise event.refused(f"its text has over {TEXT_LIMIT} characters, and patterns are held against no more: "
                            "shorten it")
    return WATCH(event.place)


def set_by_patterns(event, patterns, conditions):
    for pattern in patterns:
        match = pattern.search(event.text)
        for name, text in match.groupdict().items() if match else ():
            if text is not None:
                put_setting(event, name, value_of(event, name, text))
    for pattern, name, value in conditions:
        if pattern.search(event.text):
            put_setting(event, name, value)


def put_setting(event, name, value):
    if event.settings.setdefault(name, value) != value:
        raise event.refused(f"it sets {name} to {event.settings[name]} and to {value}")


def value_of(event, name, text):
    if text.lower() in TRUTHS:
        return TRUTHS[text.lower()]
    if not WHOLE_NUMBER.fullmatch(text):
        raise event.refused(f"the value of {name} is {text[:60]!r}, which is no whole number of 64 bits")
    try:
        return checked_value(name, int(text))
    except NotRecorded as error:
        raise event.refused(error) from None


# Names

def as_name(text):
    """The text with _ for each character that no name can have, and before a digit at its beginning."""
    return re.sub(r"^(?=[0-9])", "_", re.sub(r"[^A-Za-z0-9_]", "_", text))


def name_processes(word, events, names, given):
    """The names, a process name for each source of events, with those that are given in their places. `word` is what
    such a source is called: a host, an instance."""
    for source in given:
        if source not in names:
            raise Refused(f"--name: there is no {word} {source!r}")
    taken = {}
    for source, name in {**names, **given}.items():
        place = events[source][0].place
        try:
            checked_name("process", name)
        except NotRecorded as error:
            raise Refused(f"{place}: {error}; give {word} {source!r} another by --name") from None
        if name in taken.values():
            raise Refused(f"{place}: {word} {source!r} would be a second process {name}; "
                          "give it another name by --name")
        taken[source] = name
    return taken


def initial_values(names, variables, given):
    """The initial values of each process: `given` has (process or None, variable, value), those of one process last."""
    values = {name: dict.fromkeys(variables, 0) for name in names}
    for process, variable, value in sorted(given, key=lambda entry: entry[0] is not None):
        if process is not None and process not in values:
            raise Refused(f"--initial: there is no process {process}")
        if variable not in variables:
            raise Refused(f"--initial: neither --variables nor --when names {variable}")
        for name in [process] if process is not None else values:
            values[name][variable] = value
    return values


# Files

@contextlib.contextmanager
def written_folder(path):
    """A folder to write files to, which come to `path`, new or empty, once all of them are written. After an error
    none is there."""
    is_there = os.path.isdir(path)
    whole = os.path.abspath(path)
    os.makedirs(os.path.dirname(whole), exist_ok=True)
    part = f"{whole}/{os.getpid()}.part" if is_there else f"{whole}.{os.getpid()}.part"
    os.mkdir(part)
    try:
        yield part
        if is_there:
            for name in os.listdir(part):
                os.rename(os.path.join(part, name), os.path.join(whole, name))
        else:
            os.rename(part, whole)
    finally:
        shutil.rmtree(part, ignore_errors=True)


def replaced_files(texts):
    """Writes these bytes to these paths: all of them under other names first, which are then renamed."""
    made = {}
    try:
        for path, text in texts.items():
            descriptor, made[path] = tempfile.mkstemp(dir=os.path.dirname(path) or ".", suffix=".part")
            with open(descriptor, "wb") as file:
                file.write(text)
                if os.path.exists(path):
                    file.flush()
                    os.fsync(file.fileno())
            os.chmod(made[path], mode_for(path))
        for path in texts:
            os.replace(made[path], path)
            del made[path]
    finally:
        for part in made.values():
            os.unlink(part)


def mode_for(path):
    """The permissions of the file that is there, or else those that a new one gets."""
    if os.path.exists(path):
        return os.stat(path).st_mode & 0o7777
    mask = os.umask(0)
    os.umask(mask)
    return 0o666 & ~mask


# Writing

def check_lengths(processes):
    for name, events in processes.items():
        total = 0
        for event in events:
            total += event.lines()
            if total > EVENT_LIMIT:
                raise event.refused(f"with this event {name} has over {EVENT_LIMIT} events in its stream")


def message_ids(processes):
    """An id for each event that sends: the name of its process and a counter."""
    ids = {}
    for name, events in processes.items():
        senders = [event for event in events if event.receivers]
        ids.update((event, f"{name}-{number}") for number, event in enumerate(senders, 1))
    return ids


def table_row(process, number, event):
    return f"{process}#{number}\t{event.place}\t{event.text}\n"


def write_stream(recorder, events, ids, note):
    """Each event as one line, or as one for each of its receipts and then one for its send. What it sets stands with
    its last receipt or, if it has none, with its send: so no state is added and none is lost. `note` is called with the
    process, the number and the event of each line."""
    for event in events:
        for source in event.sources:
            recorder.receive(ids[source], **(event.settings if source is event.sources[-1] else {}))
        if event.receivers:
            recorder.send(ids[event], **({} if event.sources else event.settings))
        elif not event.sources:
            recorder.event(**event.settings)
        for number in range(recorder.events - event.lines() + 1, recorder.events + 1):
            note(recorder.process, number, event)


def write_files(folder, document, processes, ids, notes):
    table_name, row = notes
    # A text out of JSON may have half of a pair of surrogates, which UTF-8 can't.
    with open(os.path.join(folder, table_name), "x", encoding="utf-8", errors="backslashreplace") as table:
        for name, events in processes.items():
            with Recorder.to_file(name, os.path.join(folder, name + ".stream")) as recorder:
                write_stream(recorder, events, ids, lambda *of_line: table.write(row(*of_line)))
    with open(os.path.join(folder, "session.json"), "x", encoding="utf-8") as file:
        file.write(json.dumps(document, ensure_ascii=False) + "\n")


def write_session(given, processes):
    """Writes the session of these processes, each with its events in their order, and gives a line on it, and another
    one if its document is of version 2, since several processes received a message. `given` is what the command line
    says."""
    check_lengths(processes)
    with written_folder(given.out) as folder:
        return session_in(folder, given, processes, ("events.tsv", table_row))


def session_in(folder, given, processes, notes):
    """The same in a folder that is there. `notes` is the name of a file and what gives its row for an event."""
    values = initial_values(processes, given.all_variables, given.initial)
    document = {"processes": [{"name": name, "vars": values[name]} for name in processes],
                "predicates": [{"name": name, "text": text} for name, text in given.predicate]}
    if given.width is not None:
        document["width"] = given.width
    ids = message_ids(processes)
    shared = sum(len(event.receivers) > 1 for event in ids)
    if shared:
        document["version"] = 2
    write_files(folder, document, processes, ids, notes)
    events = [event for events in processes.values() for event in events]
    split = sum(event.lines() > 1 for event in events)
    line = f"{len(processes)} processes, {len(events)} events, {len(ids)} messages, {split} events written as several"
    return line + (f"\nmessages with several receivers: {shared}, so the document is of version 2" if shared else "")


# The command line

@explained
def variable_pattern(pattern):
    made = compiled(pattern)
    if not made.groupindex:
        raise argparse.ArgumentTypeError(f"{pattern!r} has no named group")
    for name in made.groupindex:
        checked_name("variable", name)
    return made


def setting(text):
    """NAME=VALUE, as (NAME, VALUE)."""
    name, sign, value = text.partition("=")
    if not sign or not WHOLE_NUMBER.fullmatch(value):
        raise NotRecorded(f"{text!r} isn't NAME=WHOLE NUMBER")
    return checked_name("variable", name), checked_value(name, int(value))


@explained
def initial(text):
    """[PROCESS.]NAME=VALUE, as (PROCESS or None, NAME, VALUE)."""
    head, dot, rest = text.partition("=")[0].partition(".")
    name, value = setting(text[len(head) + 1:] if dot else text)
    return (head if dot else None), name, value


def process_name(word):
    """A reader of WORD=NAME, as (WORD, NAME)."""
    @explained
    def read(text):
        source, sign, name = text.rpartition("=")
        if not sign:
            raise NotRecorded(f"{text!r} isn't {word}=NAME")
        return source, checked_name("process", name)
    return read


@explained
def width(text):
    if not re.fullmatch("[0-9]{1,5}", text) or not 1 <= int(text) <= WIDTH_LIMIT:
        raise NotRecorded(f"it is a whole number from 1 to {WIDTH_LIMIT}")
    return int(text)


def add_arguments(parser, word):
    """Adds what is asked of every importer; `word` is what the input calls the source of a process's events."""
    add = parser.add_argument
    add("--out", required=True, metavar="FOLDER", help="where the session is written")
    add("--predicate", nargs=2, action="append", required=True, metavar=("NAME", "TEXT"),
        help="a predicate of the session; may be given up to 16 times")
    add("--variables", type=variable_pattern, action="append", default=[], metavar="PATTERN",
        help="each named group that matches in an event's text is a variable, and what it matched its value: a whole "
             "number, or true or false")
    add("--when", nargs=2, action="append", default=[], metavar=("PATTERN", "NAME=VALUE"),
        help="an event whose text matches sets the variable")
    add("--initial", type=initial, action="append", default=[], metavar="[PROCESS.]NAME=VALUE",
        help="what a variable is at first, in all processes or in one")
    add("--name", type=process_name(word), action="append", default=[], metavar=f"{word}=NAME",
        help=f"the process name of the {word.lower()}")
    add("--width", type=width, help="the session's width")


def parsed(parser, words):
    """The arguments, of which those that add_arguments has added are checked together."""
    given = parser.parse_args(words)
    try:
        given.when = [(compiled(pattern), *setting(text)) for pattern, text in given.when]
        for name, _ in given.predicate:
            checked_name("predicate", name)
        if len(given.predicate) > PREDICATE_LIMIT:
            raise NotRecorded(f"a session has at most {PREDICATE_LIMIT} predicates")
        given.all_variables = sorted(checked_variables(
            [name for pattern in given.variables for name in pattern.groupindex] + [name for _, name, _ in given.when]))
        if os.path.exists(given.out) and (not os.path.isdir(given.out) or os.listdir(given.out)):
            raise NotRecorded(f"{given.out} is no empty folder")
    except (NotRecorded, argparse.ArgumentTypeError) as error:
        parser.error(str(error))
    return given


def run(imported, given):
    """Imports, prints what was found, and gives the exit status."""
    try:
        with WATCH.on():
            said = imported(given)
        print(said)
    except (Refused, OSError) as error:
        text = str(error)
        print("refused:", text if len(text) <= ERROR_LIMIT else text[:ERROR_LIMIT] + " ..", file=sys.stderr)
        return 1
    return 0
