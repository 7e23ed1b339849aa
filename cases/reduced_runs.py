#!/usr/bin/env python3
"""reduced_runs.py [PROGRAM] [--count N] [--seed S] [--only K]: draws recorded runs, has `reduce` make sessions of them,
and compares these with what the definition says.

Each run is a variant, drawn as in `orders.py`, of a small session: with events that no predicate sees, with messages
beside those that are there, or with a change by which it may be refused. One of three is made wide: it gets more
processes than a session has, 17 to 60 in all, among those that it has, in any order. No predicate names them, but for
some runs in which up to 18 processes are named. They have events and messages of their own, and relay some of the
messages of the small run, and some receive or send messages of the others, so that order comes through them.

Of a run that is refused `reduce` has to write the report that `judge` writes, and of a wide one that which the
definitions of `drawn.py` say, and to make no folder. Of any other the lines on the run and on the session have to say
what these have, the session's processes have to be those that predicates name, in the order of the document, or the
first one, and its events those of the reduction that `orders.py` makes by the rule in docs/LONG-RUNS.md. Its document
has to be the run's with these processes and with what is asked, of version 2, and `judge` has to take the session. If
predicates name more than 16 processes, there may be none.

The session's answers, by the plain judge of `drawn.py` that looks at all cuts, have to be those of the run, under the
names of the processes. Of a wide run no one can look at all cuts. The plain judge looks at those of the named processes
alone then, in the order of their events that all messages of the run make: an event leads from one to another by any
path. Of a run that isn't wide it has to find the same both ways.

Some runs are made longer than a session may be: a process has over 10,000 events more, which nobody sees, or a stream
has over 16 MiB. Then the session has to be the same, byte for byte. Then come runs of which one process keeps 10,000
events, which is a session, and one more, which is none, or that many with receipts; and if the system lets a program
have that many files open, one of 4,096 processes, each of which waits for the one before it.

PROGRAM is ../crates/monitor/out/monitor if it isn't given. What the drawing has to come to stands in WANTED. The last
line says how many runs there are, how often the program ran, and how many differ; the status is 1 if any does, or if
something is missing. With --only the run K is drawn alone."""
import argparse
import collections
import concurrent.futures
import copy
import filecmp
import json
import math
import os
import random
import resource
import subprocess
import sys
import tempfile

sys.dont_write_bytecode = True
from drawn import (Event, RELATIONS, Session, cycle, document_text, draw_value, first_fault,  # noqa: E402
                   happened_before, predicate_text)
from orders import Drawn, draw_base, kept_events, named_variables, order_of, reduction, truth, variant  # noqa: E402
from run import Differs, HERE, Place  # noqa: E402

RUNS = 420
WANTED = {"refused": 5, "judged": 240, "asked": 40, "smaller": 80, "empty": 5, "with receipts": 60, "longer": 15,
          "larger": 2, "processes left out": 25, "no process named": 3, "wide": 100, "wide, refused": 3,
          "wide, looked at by all cuts": 80, "wide, with receipts": 30, "wide, order through others": 25,
          "wide, of more than 8 processes": 5, "wide, no session": 3, "wide, longer": 5}
# Processes of a session, and the most that a drawn run has; events of a process, and bytes of a stream, of a session;
# processes of a run of any length.
PROCESSES, MOST, EVENTS, BYTES, RUN_PROCESSES = 16, 60, 10_000, 2 ** 24, 4_096
# How many counts of events the plain judge looks at.
COUNTS = 6_000


# Wide runs.

def renumbered(predicate, numbers):
    """The predicate with other numbers of its processes."""
    word, *parts = predicate
    if word not in RELATIONS:
        return (word, *[renumbered(part, numbers) for part in parts])
    return (word, *[[(sign, factor, reference and (numbers[reference[0]], reference[1]))
                     for sign, factor, reference in terms] for terms in parts])


def made(kind, identity):
    event = Event({})
    event.kind, event.id = kind, identity
    return event


def spoiled(draw, session):
    """The same run with one receipt more: of a message that nobody sends, or of any other one, which may be sent later,
    or by the same process, or may be received already."""
    events = [list(of) for of in session.events]
    sent = [event.id for of in events for event in of if event.kind == "send"]
    identity = draw.choice(sent) if sent and draw.random() < 0.7 else "of nobody"
    row = draw.choice(events)
    row.insert(draw.randint(0, len(row)), made("recv", identity))
    found = Session(session.names, session.initial, events, session.version, session.fields)
    found.predicates, found.width = session.predicates, session.width
    return found


class Widening:
    """A run that gets more processes, event by event, in an order in which each message is received after it was sent.
    The events of the small run come as they are, but for the ids of messages that are relayed."""

    def __init__(self, draw, session):
        self.draw, self.session = draw, session
        self.own, self.count = len(session.names), draw.randint(PROCESSES + 1, MOST)
        others = range(self.own, self.count)
        self.names = [*session.names, *(f"w{number}" for number in others)]
        self.initial = [*session.initial,
                        *({name: draw_value(draw) for name in draw.choice([[], ["x"], ["x", "n"]])} for _ in others)]
        self.rows = [[] for _ in self.names]
        # A message that may be received still, with the processes that can't receive it.
        self.flying, self.made = [], 0

    def other(self):
        return self.draw.randrange(self.own, self.count)

    def identity(self):
        self.made += 1
        return f"wide {self.made}"

    def add_local(self):
        process = self.other()
        self.rows[process].append(Event({name: draw_value(self.draw) for name in self.initial[process]
                                         if self.draw.random() < 0.6}))

    def add_send(self):
        process = self.other() if self.draw.random() < 0.7 else self.draw.randrange(self.own)
        self.flying.append((self.identity(), {process}))
        self.rows[process].append(made("send", self.flying[-1][0]))

    def add_receipt(self):
        """Has a process receive a message that is flying; in version 2 others may receive it, too."""
        process = self.other() if self.draw.random() < 0.7 else self.draw.randrange(self.own)
        able = [flight for flight in self.flying if process not in flight[1]]
        if able:
            flight = self.draw.choice(able)
            self.rows[process].append(made("recv", flight[0]))
            flight[1].add(process)
            if self.session.version == 1 or self.draw.random() < 0.5:
                self.flying.remove(flight)

    def add_own(self):
        """Adds events that the small run hasn't, or none."""
        for _ in range(self.draw.choice([0, 0, 1, 1, 2])):
            self.draw.choice([self.add_local, self.add_local, self.add_send, self.add_receipt])()

    def relays(self):
        """For some receipts of the small run the processes by which their messages come, and the ids that these send:
        no process receives one message twice."""
        found, taken = {}, set()
        for receipt in self.session.of_kind("recv"):
            identity = self.session.at(receipt).id
            sends = self.session.with_id_of(receipt, self.session.of_kind("send"))
            hops = min(self.draw.choice([1, 1, 2, 3]), self.count - self.own)
            chain = self.draw.sample(range(self.own, self.count), hops)
            if len(sends) == 1 and (chain[0], identity) not in taken and self.draw.random() < 0.7:
                taken.add((chain[0], identity))
                found[receipt] = [(process, self.identity()) for process in chain]
        return found

    def take(self, place, relays):
        """Adds the next event of the small run, and if it sends, all that hands its message on."""
        event = copy.copy(self.session.at(place))
        identity = event.id
        if place in relays:
            event.id = relays[place][-1][1]
        self.rows[place[0]].append(event)
        for receipt, chain in relays.items() if event.kind == "send" else []:
            if self.session.at(receipt).id != identity:
                continue
            comes = identity
            for process, goes in chain:
                self.rows[process].append(made("recv", comes))
                self.add_own()
                self.rows[process].append(made("send", goes))
                comes = goes

    def run(self, predicates):
        """The wide run, its processes in another order, and the predicates by their numbers there."""
        earlier = collections.Counter(later for _, later in happened_before(self.session))
        relays = self.relays()
        for place in sorted(self.session.places, key=lambda it: (earlier[it], it[1], self.draw.random())):
            self.add_own()
            self.take(place, relays)
        self.add_own()
        order = self.draw.sample(range(self.count), self.count)
        numbers = {process: number for number, process in enumerate(order)}
        wide = Session(*([of[process] for process in order] for of in (self.names, self.initial, self.rows)),
                       self.session.version, self.session.fields)
        wide.width = self.session.width

        def with_numbers(named):
            return [(name, renumbered(predicate, numbers)) for name, predicate in named]
        wide.predicates = with_numbers(self.session.predicates)
        return wide, with_numbers(predicates)


def draw_over(draw, session):
    """A comparison of a sum of about as many processes as a session has, if that many have a variable."""
    able = [process for process, variables in enumerate(session.initial) if variables]
    count = draw.randint(PROCESSES - 2, PROCESSES + 2)
    if len(able) < count:
        return None
    terms = [(1, 1, (process, draw.choice(list(session.initial[process])))) for process in draw.sample(able, count)]
    return draw.choice(["==", "<"]), terms, [(1, draw.randint(0, 2), None)]


# What is expected.

def named_processes(predicates):
    """The processes of the session: those that are named, in the order of the document, or the first one."""
    return sorted({process for process, _ in named_variables(predicates)}) or [0]


def refusal(session, before):
    """The report of a run that is refused, by the definitions, or none."""
    def said(place):
        return f"{session.names[place[0]]}#{place[1]}"
    fault = first_fault(session)
    if fault:
        return f"refused {fault[0]} {said(fault[1])}\n"
    around = cycle(session, before)
    return around and f"refused cycle {','.join(map(said, around))}\n"


def line_of_run(session):
    """The line on the run."""
    receipts = session.of_kind("recv")
    messages = sum(bool(session.with_id_of(send, receipts)) for send in session.of_kind("send"))
    return f"run {len(session.names)} processes {len(session.places)} events {messages} messages"


def part_of(session, named):
    """The named processes of a run with all of their events."""
    names, initial, events = ([of[process] for process in named]
                              for of in (session.names, session.initial, session.events))
    return Session(names, initial, events, 2, {})


def order_among(before, named):
    """What happened before what in the named processes, by their numbers among these."""
    numbers = {process: number for number, process in enumerate(named)}
    return {((numbers[first], one), (numbers[later], other)) for (first, one), (later, other) in before
            if first in numbers and later in numbers}


def is_small(session):
    return math.prod(len(events) + 1 for events in session.events) <= COUNTS


def session_of(document, folder):
    """The session in a folder, as the plain judge takes it, and its lines."""
    names = [process["name"] for process in document["processes"]]
    events, written = [], []
    for name in names:
        with open(os.path.join(folder, f"{name}.stream"), encoding="utf-8") as file:
            lines = [json.loads(line) for line in file]
        if lines[0] != {"process": name} or lines[-1] != {"end": True}:
            raise Differs(f"{name}.stream begins with {lines[0]} and ends with {lines[-1]}")
        written.append(lines[1:-1])
        events.append([])
        for line in lines[1:-1]:
            event = Event(line.get("set", {}))
            event.kind = "send" if "send" in line else "recv" if "recv" in line else "local"
            event.id = line.get(event.kind)
            events[-1].append(event)
    return Session(names, [process["vars"] for process in document["processes"]], events, 2, {}), written


def due_lines(run, predicates, named, before):
    """The lines of the streams by the rule: the kept events, each with what it changes, that send if their message is
    received, with the id of their rank, and before each its receipts, of which it is the last one itself if it doesn't
    send."""
    reduced = reduction(run.session, predicates, before)
    received = {line["recv"] for lines in reduced for line in lines if "recv" in line}
    ranks = {}
    for name, lines in zip(run.session.names, reduced):
        sends = [line["send"] for line in lines if "send" in line]
        ranks.update((send, f"{name}-{rank}") for rank, send in enumerate(sends, 1))
    due = []
    for process in named:
        values = {name: run.session.initial[process][name] for of, name in named_variables(predicates) if of == process}
        due.append([])
        for line in reduced[process]:
            if "recv" in line:
                due[-1].append({"recv": ranks[line["recv"]]})
                continue
            changed = {name: value for name, value in line["set"].items() if values[name] != value}
            values.update(changed)
            if line["send"] in received:
                due[-1].append({"send": ranks[line["send"]], "set": changed})
            elif due[-1] and due[-1][-1].keys() == {"recv"}:
                due[-1][-1]["set"] = changed
            else:
                due[-1].append({"set": changed})
    return due, len(received)


def look_at_events(due, names, written):
    """Compares the lines of the streams with those by the rule."""
    for name, wanted, given in zip(names, due, written):
        if wanted != given:
            raise Differs(f"{name}.stream has {given}, and should have {wanted}")


def look_at_notes(run, predicates, named, written, folder):
    """Compares the notes with the numbers that the kept events have in the run and in the session."""
    _, kept = kept_events(run.session, predicates)
    due = []
    for process, lines in zip(named, written):
        events = [at for at, line in enumerate(lines, 1) if "set" in line]
        name = run.session.names[process]
        due += [{"process": name, "event": event, "text": f"event {number} of the run", "place": ""}
                for number, event in zip(kept[process], events, strict=True)]
    with open(os.path.join(folder, "notes.jsonl"), encoding="utf-8") as file:
        given = [json.loads(line) for line in file]
    if given != due:
        raise Differs(f"the notes are {given}, and should be {due}")


def look_at_document(place, run, names, asked, document):
    """Compares the document with the run's."""
    with open(os.path.join(place.folder, "run", "session.json"), encoding="utf-8") as file:
        wanted = {**json.load(file), "version": 2}
    of = {process["name"]: process for process in wanted["processes"]}
    wanted["processes"] = [of[name] for name in names]
    if asked:
        wanted["predicates"] = [dict(zip(("name", "text"), text.split("=", 1))) for text in asked[1::2]]
    if document != wanted:
        raise Differs(f"the document is {document}, and should be {wanted}")


def look_at_answers(run, predicates, named, before, session):
    """Compares the answers of the session with those of the run, both by the plain judge; gives those of the session
    and whether the run was looked at: nothing, if it would be too much."""
    if not is_small(session):
        return None, False
    found, part = truth(session, session.predicates), part_of(run.session, named)
    ways = []
    if is_small(part):
        ways.append(truth(part, session.predicates, order_among(before, named)))
    if len(run.session.names) <= PROCESSES:
        ways.append(truth(run.session, predicates))
    for other in ways:
        if found != other:
            raise Differs(f"the session has {found}, and the run {other}")
    return found, bool(ways)


def look_at_judge(place, session, line, answers):
    """Has the program judge the session, and compares with the line on it, and with its answers if they are known."""
    reduced = Drawn(random.Random(0), session, "")
    status, output, errors = place.run(["judge", *paths_of(reduced, "reduced")])
    first, *lines = output.decode().splitlines()
    if status or first != line:
        raise Differs(f"judge of the session: status {status}: {errors.decode()}{output.decode()}")
    for name, modality, answer, *_ in map(str.split, lines):
        if answers and answer not in ("unknown", answers[name][modality == "definitely"]):
            raise Differs(f"judge says {name} {modality} {answer}, and the session has {answers}")


def hands_order_on(run, predicates, named, before):
    """Whether kept events come before each other only by way of processes that aren't named."""
    part, (_, kept) = part_of(run.session, named), kept_events(run.session, predicates)
    seen = {(number, at) for number, process in enumerate(named) for at in kept[process]}

    def among(order):
        return {pair for pair in order if seen.issuperset(pair)}
    return among(order_among(before, named)) != among(happened_before(part))


def paths_of(run, name):
    return [f"{name}/session.json", *(f"{name}/{of}.stream" for of in run.session.names)]


def words_of(run, name, asked, to):
    return ["reduce", *paths_of(run, name), *asked, "--to", to]


def expect_none(place, words, report):
    """Runs the program, which has to make no folder."""
    place.expect(" ".join(words), place.run(words), 1, report.encode())
    for name in ("reduced", "reduced.new"):
        if os.path.lexists(os.path.join(place.folder, name)):
            raise Differs(f"there is a folder {name}, and no session")


def look_at_run(place, run, asked, before):
    """The report of a refused run, or none, and the line on one that isn't, both by the definitions; and what `judge`
    says has to be the same of a run that it takes."""
    report, line = refusal(run.session, before), line_of_run(run.session)
    if len(run.session.names) <= PROCESSES:
        status, output, errors = place.run(["judge", *paths_of(run, "run"), *asked])
        first = output.decode().splitlines(keepends=True)[0]
        if first != (report or line.replace("run ", "session ", 1) + "\n") or status != bool(report) or errors:
            raise Differs(f"judge of the run says {first}, and the definitions {report or line}")
    return report, line


def compare(place, run, predicates, asked, counts):
    """Reduces the run in the folder `run`, and compares; gives whether there is a session."""
    is_wide, before = len(run.session.names) > PROCESSES, happened_before(run.session)
    counts["wide"] += is_wide
    named, words = named_processes(predicates), words_of(run, "run", asked, "reduced")
    report, first = look_at_run(place, run, asked, before)
    if report:
        counts["wide, refused" if is_wide else "refused"] += 1
        expect_none(place, words, report)
        return False
    if len(named) > PROCESSES:
        counts["wide, no session"] += 1
        expect_none(place, words, f"{first}\nno session\n")
        return False
    counts["judged"] += not is_wide
    names = [run.session.names[process] for process in named]
    due, messages = due_lines(run, predicates, named, before)
    line = f"session {len(named)} processes {sum(map(len, due))} events {messages} messages"
    place.expect(" ".join(words), place.run(words), 0, f"{first}\n{line}\n".encode())
    folder = os.path.join(place.folder, "reduced")
    if sorted(os.listdir(folder)) != sorted(["notes.jsonl", "session.json", *(f"{name}.stream" for name in names)]):
        raise Differs(f"the folder has {os.listdir(folder)}")
    with open(os.path.join(folder, "session.json"), encoding="utf-8") as file:
        document = json.load(file)
    look_at_document(place, run, names, asked, document)
    session, written = session_of(document, folder)
    look_at_events(due, names, written)
    look_at_notes(run, predicates, named, written, folder)
    numbers = {process: number for number, process in enumerate(named)}
    session.predicates = [(name, renumbered(predicate, numbers)) for name, predicate in predicates]
    answers, is_looked_at = look_at_answers(run, predicates, named, before, session)
    look_at_judge(place, session, line, answers)
    count(counts, run, predicates, named, before, is_looked_at, due)
    return True


def count(counts, run, predicates, named, before, is_looked_at, due):
    """Counts what is there of a run of which a session was made."""
    has_receipts = any("recv" in line for lines in due for line in lines)
    counts["processes left out"] += len(named) < len(run.session.names) <= PROCESSES
    counts["no process named"] += not named_variables(predicates)
    if len(run.session.names) > PROCESSES:
        counts["wide, looked at by all cuts"] += is_looked_at
        counts["wide, with receipts"] += has_receipts
        counts["wide, order through others"] += hands_order_on(run, predicates, named, before)
        counts["wide, of more than 8 processes"] += len(named) > 8
        return
    counts["smaller"] += sum(map(len, due)) < len(run.session.places)
    counts["empty"] += not any(due)
    counts["with receipts"] += has_receipts


def lengthen(draw, run, folder, counts):
    """Writes the run once more, with a stream of more than a session's."""
    os.mkdir(os.path.join(folder, "long"))
    place = draw.randrange(len(run.session.names))
    is_large = draw.random() < 0.2
    counts["larger" if is_large else "longer"] += 1
    counts["wide, longer"] += len(run.session.names) > PROCESSES
    for name in ["session.json", *(f"{of}.stream" for of in run.session.names)]:
        with open(os.path.join(folder, "run", name), encoding="utf-8", newline="") as file:
            text = file.read()
        if name == f"{run.session.names[place]}.stream":
            lines = [line + "\n" for line in text.split("\n")]
            joins = next(at for at, line in enumerate(lines) if line.strip()) + 1
            more = ["{}" + " " * 65_000 + "\n"] * 300 if is_large else ["{}\n"] * draw.randint(EVENTS, 3 * EVENTS)
            text = "".join(lines[:joins] + more + lines[joins:])
        with open(os.path.join(folder, "long", name), "w", encoding="utf-8", newline="") as file:
            file.write(text)


def compare_long(place, run, asked, has_session):
    """Reduces the longer form of a run, and compares with that of the run."""
    words = words_of(run, "long", asked, "again")
    status, output, errors = place.run(words)
    if not has_session:
        if status != 1 or not output.startswith(b"refused ") and not output.endswith(b"\nno session\n"):
            raise Differs(f"{' '.join(words)}: status {status}: {errors.decode()}{output.decode()}")
        return
    if status or errors:
        raise Differs(f"{' '.join(words)}: status {status}: {errors.decode()}{output.decode()}")
    folders = [os.path.join(place.folder, name) for name in ("reduced", "again")]
    names = sorted(os.listdir(folders[0]))
    same = [name for name in names if name != "notes.jsonl"]
    if names != sorted(os.listdir(folders[1])) or filecmp.cmpfiles(*folders, same, shallow=False)[0] != same:
        raise Differs("the longer run has another session")


def has_order(session):
    """Whether kept events of two processes come one before the other."""
    return any(first[0] != later[0] for first, later in order_of(session, session.predicates)[1])


def draw_run(draw):
    """A run, the predicates that count, and what is asked in their place."""
    is_wide = draw.random() < 0.3
    base = draw_base(draw, is_wide and draw.random() < 0.3)
    if is_wide and not has_order(base):
        base = draw_base(draw)
    predicates, asks = base.predicates, draw.random() < 0.25
    if asks:
        predicates = draw.sample(predicates, draw.randint(1, min(2, len(predicates))))
    session = variant(draw, base, predicates) if draw.random() < 0.9 else base
    if is_wide:
        session, predicates = Widening(draw, session).run(predicates)
        over = draw_over(draw, session) if draw.random() < 0.2 else None
        if over:
            asks, predicates = True, [*predicates[:draw.randint(0, 1)], ("over", over)]
    if draw.random() < 0.06:
        session = spoiled(draw, session)
    if draw.random() < 0.03:
        asks, predicates = True, [("none", draw.choice([("true",), ("==", [(1, 1, None)], [(1, 2, None)])]))]
    asked = [word for name, predicate in predicates if asks
             for word in ("--ask", f"{name}={predicate_text(draw, session, predicate)}")]
    return Drawn(draw, session, document_text(draw, session)), predicates, asked


def tried(program, seed, number):
    """How often the program ran for the run of this number, what is to be counted, and in what it differs, if so."""
    draw, counts = random.Random(f"{seed} {number}"), collections.Counter()
    run, predicates, asked = draw_run(draw)
    counts["asked"] += bool(asked)
    with tempfile.TemporaryDirectory() as folder:
        place = Place(program, folder)
        run.write(draw, folder, "run")
        try:
            has_session = compare(place, run, predicates, asked, counts)
            if draw.random() < 0.1:
                lengthen(draw, run, folder, counts)
                compare_long(place, run, asked, has_session)
        except Differs as error:
            return place.runs, counts, str(error)
        except subprocess.TimeoutExpired:
            return place.runs, counts, "no end"
        return place.runs, counts, None


# The ends of what can be made.

def write_counting(folder, name, kept, receipts):
    """Writes a run of which the process `a` keeps so many events, and learns of so many of the process `b` on the way,
    each between two of its own."""
    os.mkdir(os.path.join(folder, name))
    document = {"processes": [{"name": "a", "vars": {"x": 0}}, {"name": "b", "vars": {"y": 0}}],
                "predicates": [{"name": "p", "text": "a.x + b.y == -1"}]}
    a = [line for at in range(kept) for line in
         ([f'{{"recv":"{at}"}}'] if at < receipts else []) + [f'{{"set":{{"x":{at + 1}}}}}']]
    b = [f'{{"set":{{"y":{at + 1}}},"send":"{at}"}}' for at in range(receipts)]
    files = {"session.json": json.dumps(document)}
    for of, lines in (("a", a), ("b", b)):
        files[f"{of}.stream"] = "\n".join([f'{{"process":"{of}"}}', *lines, '{"end":true}', ""])
    for file, text in files.items():
        with open(os.path.join(folder, name, file), "w", encoding="utf-8") as out:
            out.write(text)


def write_chain(folder):
    """Writes a run of as many processes as a run may have, each of which waits for the one before it, sets `x` to 1 and
    tells the next one, and the document of one more; gives the names of the streams."""
    os.mkdir(os.path.join(folder, "chain"))
    predicate = {"name": "p", "text": f"p0.x == 0 and p{RUN_PROCESSES - 1}.x == 1"}
    for file, number in (("chain.json", RUN_PROCESSES), ("more.json", RUN_PROCESSES + 1)):
        processes = [{"name": f"p{process}", "vars": {"x": 0}} for process in range(number)]
        with open(os.path.join(folder, file), "w", encoding="utf-8") as out:
            json.dump({"processes": processes, "predicates": [predicate]}, out)
    names = []
    for process in range(RUN_PROCESSES):
        lines = [f'{{"process":"p{process}"}}', f'{{"recv":"{process - 1}"}}', '{"set":{"x":1}}',
                 f'{{"send":"{process}"}}', '{"end":true}', ""]
        names.append(f"chain/p{process}.stream")
        with open(os.path.join(folder, names[-1]), "w", encoding="utf-8") as out:
            out.write("\n".join(lines if process else lines[:1] + lines[2:]))
    return names


def look_at_chain(place):
    """Reduces a run of as many processes as a run may have, and looks at one more process, and at two streams of each,
    which are as many as may be. The system has to let the program have that many files open; if it doesn't, that is
    said."""
    needed = 2 * RUN_PROCESSES + 64
    soft, hard = resource.getrlimit(resource.RLIMIT_NOFILE)
    if hard != resource.RLIM_INFINITY and hard < needed:
        print(f"no run of {RUN_PROCESSES} processes: a program can't have {needed} files open here")
        return
    if soft != resource.RLIM_INFINITY and soft < needed:
        resource.setrlimit(resource.RLIMIT_NOFILE, (needed, hard))
    names, last = write_chain(place.folder), RUN_PROCESSES - 1
    run = f"run {RUN_PROCESSES} processes {3 * RUN_PROCESSES - 1} events {last} messages"
    place.expect("the longest chain", place.run(["reduce", "chain.json", *names, "--to", "end"]), 0,
                 f"{run}\nsession 2 processes 2 events 1 messages\n".encode())
    with open(os.path.join(place.folder, "end", f"p{last}.stream"), encoding="utf-8") as file:
        if json.loads(file.readlines()[1]) != {"recv": "p0-1", "set": {"x": 1}}:
            raise Differs("the session of the longest chain hasn't its order")
    place.expect("one process more", place.run(["reduce", "more.json", *names, "--to", "over"]), 1,
                 b"refused spec processes\n")
    place.expect("two streams of each", place.run(["reduce", "chain.json", *names, *names, "--to", "over"]), 1,
                 f"refused stream {RUN_PROCESSES + 1} line 1 taken\n".encode())
    place.expect("one stream more", place.run(["reduce", "chain.json", *names, *names, names[0], "--to", "over"]), 1,
                 b"refused streams\n")


def look_at_ends(program):
    """How often the program ran on runs at the ends of what can be made, and in what it differs, if it does."""
    with tempfile.TemporaryDirectory() as folder:
        place = Place(program, folder)
        try:
            for number, (kept, receipts) in enumerate(((EVENTS, 0), (EVENTS + 1, 0), (EVENTS, 3), (EVENTS + 1, 3))):
                write_counting(folder, str(number), kept, receipts)
                words = ["reduce", f"{number}/session.json", f"{number}/a.stream", f"{number}/b.stream", "--to", "to"]
                words[-1] += str(number)
                is_made = kept <= EVENTS
                made = f"session 2 processes {kept + receipts} events {receipts} messages" if is_made else "no session"
                place.expect(" ".join(words), place.run(words), int(not is_made),
                             f"run 2 processes {kept + 2 * receipts} events {receipts} messages\n{made}\n".encode())
                if is_made != os.path.exists(os.path.join(folder, f"to{number}")):
                    raise Differs(f"{' '.join(words)}: the folder is there: {not is_made}")
            look_at_chain(place)
        except (Differs, subprocess.TimeoutExpired) as error:
            return place.runs, str(error)
        return place.runs, None


def main():
    parser = argparse.ArgumentParser(description=__doc__, formatter_class=argparse.RawDescriptionHelpFormatter)
    parser.add_argument("program", nargs="?", default=os.path.join(HERE, "../crates/monitor/out/monitor"))
    parser.add_argument("--count", type=int, default=RUNS)
    parser.add_argument("--seed", default="0")
    parser.add_argument("--only", type=int)
    given = parser.parse_args()
    program = os.path.abspath(given.program)
    numbers = [given.only] if given.only is not None else range(given.count)
    counts, ran, wrong = collections.Counter(), 0, 0
    with concurrent.futures.ThreadPoolExecutor(os.cpu_count()) as pool:
        found = pool.map(lambda number: (number, tried(program, given.seed, number)), numbers)
        for number, (runs, counted, error) in found:
            ran += runs
            counts.update(counted)
            if error:
                wrong += 1
                print(f"run {number}: {error}")
    if given.only is None:
        runs, error = look_at_ends(program)
        ran += runs
        if error:
            wrong += 1
            print(error)
    missing = []
    if given.only is None and given.count >= RUNS:
        missing = [f"{what}: {counts[what]} of {least}" for what, least in WANTED.items() if counts[what] < least]
    for line in missing:
        print(f"too few: {line}")
    print(f"{len(numbers)} runs, {ran} runs of the program, {wrong} wrong")
    sys.exit(bool(wrong or missing))


if __name__ == "__main__":
    main()
