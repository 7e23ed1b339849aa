"""For the tests of monitor_reduce: runs that are drawn at random, and what a plain judge says of them and of what is
made of them. The judge is that of cases/drawn.py, which looks at all cuts."""
import contextlib
import glob
import io
import json
import os
import sys
from unittest import mock

import monitor_reduce
import reduce_facts
from judging import FOLDER

sys.path.insert(0, os.path.join(FOLDER, "..", "..", "cases"))
import drawn  # noqa: E402

NAMES = ["a", "b", "c", "_d", "left_2"]


class Differs(AssertionError):
    """What is made of a run says something else than the run."""


# The drawing of runs

class Drawing:
    """A run as it is drawn, step by step in an order of all events, so that there is no cycle."""

    def __init__(self, draw):
        self.draw, self.version = draw, draw.choice([1, 2])
        self.names = draw.sample(NAMES, draw.choice([2, 3, 3, 3, 4]))
        self.initial = [dict.fromkeys(draw.choice([["x"], ["x", "n"]]), draw.choice([0, 0, 1])) for _ in self.names]
        self.events, self.flying, self.messages = [[] for _ in self.names], [], 0

    def add(self, process, kind="local", message=None, chance=0.6):
        event = drawn.Event({name: self.draw.randint(0, 2) for name in self.initial[process]
                             if self.draw.random() < chance})
        event.kind, event.id = kind, message
        self.events[process].append(event)

    def send(self, process, chance=0.6):
        self.messages += 1
        message = self.draw.choice(["m", "é", "\"", ""]) + str(self.messages)
        self.add(process, "send", message, chance)
        return message

    def step(self):
        process, what = self.draw.randrange(len(self.names)), self.draw.random()
        able = [it for it in self.flying if process not in it[1]]
        if what < 0.3:
            self.flying.append((self.send(process), {process}))
        elif what < 0.7 and able:
            message, taken = self.draw.choice(able)
            self.add(process, "recv", message)
            taken.add(process)
            if self.version == 1:
                self.flying.remove((message, taken))
        else:
            self.add(process)

    def meet(self):
        """Has all wait for all: each hands a message on to the next, and the last one tells the others."""
        order = self.draw.sample(range(len(self.names)), len(self.names))
        for process, following in zip(order, order[1:]):
            self.add(following, "recv", self.send(process, 0.3), 0.1)
        if self.version == 2:
            told = [self.send(order[-1], 0.3)] * (len(order) - 1)
        else:
            told = [self.send(order[-1], 0.1) for _ in order[1:]]
        for process, message in zip(order, told):
            self.add(process, "recv", message, 0.3)

    def session(self):
        return drawn.Session(self.names, self.initial, self.events, self.version, {"version": self.version})


def cuts_of(session):
    count = 1
    for events in session.events:
        count *= len(events) + 1
    return count


def draw_predicates(draw, session):
    """Predicates of all kinds, often of some of the processes alone, with answers that are drawn, if they come."""
    cuts = [tuple(0 for _ in session.names)]
    cuts += [tuple(draw.randint(0, len(events)) for events in session.events) for _ in range(6)]
    able = draw.sample(range(len(session.names)), draw.randint(1, len(session.names)))
    consistent = drawn.consistent_cuts(session, drawn.happened_before(session))
    for name in draw.sample(["p", "q", "a", "both_1"], draw.choice([1, 1, 2, 3])):
        wanted = draw.choice([(True, False), (True, False), (True, True), (False, False)])
        for _ in range(draw.choice([1, 12, 12])):
            is_at = wanted == (True, False) and draw.random() < 0.7
            tree = draw_at(draw, session, consistent) if is_at else draw_tree(draw, session, cuts, able)
            if answers_of(session, consistent, tree) == wanted and not drawn.holds(session, cuts[0], tree):
                break
        yield name, tree


def answers_of(session, cuts, tree):
    """Whether the predicate possibly and whether it definitely holds, of all consistent cuts in their order."""
    found = {cut for cut in cuts if drawn.holds(session, cut, tree)}
    return bool(found), cuts[-1] not in drawn.avoiding_cuts(cuts, found)


def draw_at(draw, session, cuts):
    """That some variables of some processes have the values, or sums of these, that they have at some cut."""
    cut, named = draw.choice(cuts), draw.sample(range(len(session.names)), draw.randint(1, min(3, len(session.names))))
    leaves = []
    for process in named:
        name = draw.choice(sorted(session.initial[process]))
        leaves.append(((1, draw.choice([1, 1, 2]), (process, name)),))
    if draw.random() < 0.4:
        leaves = [[term for leaf in leaves for term in leaf]]
    return drawn.draw_row(draw, "and", [
        (draw.choice(["==", "==", ">=", "<="]), list(leaf),
         number_terms(drawn.excess(session, cut, ("==", list(leaf), []))))
        for leaf in leaves])


def number_terms(number):
    return [(1 if number >= 0 else -1, abs(number), None)]


def draw_tree(draw, session, cuts, able):
    kind = draw.choice(["any", "tree", "tree", "sum", "constant" if draw.random() < 0.2 else "tree"])
    if kind == "any":
        return drawn.draw_predicate(draw, session, cuts)
    if kind == "sum" and len(session.names) > 2:
        return drawn.draw_sums_and(draw, session, cuts, 1, draw.randint(0, 1))
    if kind == "constant":
        return drawn.draw_tree(draw, lambda: (draw.choice(["true", "false"]),))
    return drawn.draw_tree(draw, lambda: drawn.draw_comparison(draw, session, able))


def draw_run(draw):
    """A run of few cuts, often one in which all wait for all once or twice."""
    while True:
        drawing = Drawing(draw)
        for _ in range(draw.choice([1, 2, 2, 3])):
            for _ in range(draw.randint(1, 7)):
                drawing.step()
            if draw.random() < 0.7:
                drawing.meet()
        session = drawing.session()
        if cuts_of(session) <= 900:
            session.predicates = list(draw_predicates(draw, session))
            return session


# Runs as files

def write(session, draw, folder):
    """Writes the document and the streams, and gives the names of the files, in any order."""
    os.makedirs(folder)
    with open(os.path.join(folder, "session.json"), "w", encoding="utf-8") as file:
        file.write(drawn.document_text(draw, session))
    for process, name in enumerate(session.names):
        with open(os.path.join(folder, f"{name}.stream"), "w", encoding="utf-8", newline="") as file:
            file.write(drawn.stream_text(draw, session, process))
    streams = glob.glob(os.path.join(folder, "*.stream"))
    return [os.path.join(folder, "session.json"), *draw.sample(sorted(streams), len(streams))]


def lines_of(path):
    with open(path, encoding="utf-8") as file:
        return [json.loads(line) for line in file]


def event_of(line):
    event = drawn.Event(line.get("set", {}))
    for kind in ("send", "recv"):
        if kind in line:
            event.kind, event.id = kind, line[kind]
    return event


def read(folder, of):
    """The session in a folder that was made of another one, with its predicates; and for each of its events the event
    of the run, as (process, number), with whether it is that itself; and that before the first one of each process."""
    document, = lines_of(os.path.join(folder, "session.json"))
    names = [process["name"] for process in document["processes"]]
    events = []
    for name in names:
        first, *lines, last = lines_of(os.path.join(folder, f"{name}.stream"))
        if first != {"process": name} or last != {"end": True}:
            raise Differs(f"{folder}: the stream of {name} isn't whole")
        events.append([event_of(line) for line in lines])
    session = drawn.Session(names, [process["vars"] for process in document["processes"]], events,
                            document.get("version", 1), {})
    asked = [predicate["name"] for predicate in document["predicates"]]
    session.predicates = [(name, renumbered(tree, of.names, names)) for name, tree in of.predicates if name in asked]
    rows = {(row["process"], row["event"]): row for row in lines_of(os.path.join(folder, "map.jsonl"))}
    return session, rows


def renumbered(tree, names, others):
    """The predicate, whose references have the numbers of these processes, with those of the others."""
    word, *parts = tree
    if word not in drawn.RELATIONS:
        return (word, *[renumbered(part, names, others) for part in parts])
    return (word, *[[(sign, factor, reference and (others.index(names[reference[0]]), reference[1]))
                     for sign, factor, reference in terms] for terms in parts])


def run_with(*words):
    """The status, the output and the errors of the program."""
    with contextlib.redirect_stdout(io.StringIO()) as out, contextlib.redirect_stderr(io.StringIO()) as errors:
        try:
            status = monitor_reduce.main([str(word) for word in words])
        except SystemExit as end:
            status = end.code
    return status, out.getvalue(), errors.getvalue()


# What is compared

class Whole:
    """A session with its order, its consistent cuts, and its answers to each predicate: a pair of truths."""

    def __init__(self, session):
        fault = drawn.first_fault(session)
        self.session, self.before = session, drawn.happened_before(session)
        if fault or drawn.cycle(session, self.before):
            raise Differs(f"it isn't well formed: {fault or 'a cycle'}")
        self.cuts = drawn.consistent_cuts(session, self.before)
        self.pasts = {place: self.past(place) for place in session.places}
        self.satisfying = {name: {cut for cut in self.cuts if drawn.holds(session, cut, tree)}
                           for name, tree in session.predicates}
        self.answers = {name: answers_of(session, self.cuts, tree) for name, tree in session.predicates}

    def view(self, process, count, names):
        """What these predicates see of a process after so many of its events: the truth of each comparison that names
        it alone, and the values of its variables in the others."""
        cut = tuple(count if it == process else 0 for it in range(len(self.session.names)))
        seen = []
        for comparison in (it for name, tree in self.session.predicates if name in names
                           for it in drawn.comparisons(tree)):
            if drawn.named_by(comparison) == {process}:
                seen.append(drawn.holds(self.session, cut, comparison))
            else:
                seen += [self.session.value_at(process, count, reference[1]) for terms in comparison[1:]
                         for _, _, reference in terms if reference and reference[0] == process]
        return seen

    def seen(self, names):
        """The events that these predicates see, as places, by the definition: those that change the view."""
        return [place for place in self.session.places
                if self.view(place[0], place[1] - 1, names) != self.view(*place, names)]

    def boundaries(self, names):
        """How many sets of seen events there are of which each happened before each seen event that isn't in it, but
        for the set of none."""
        seen = self.seen(names)
        ordered = sorted(seen, key=lambda place: sum((other, place) in self.before for other in seen))
        return sum(all((first, later) in self.before for first in ordered[:count] for later in ordered[count:])
                   for count in range(1, len(seen) + 1))

    def past(self, place):
        """The least consistent cut with this event, as counts."""
        counts = [0] * len(self.session.names)
        for process, number in [place, *(first for first, later in self.before if later == place)]:
            counts[process] = max(counts[process], number)
        return tuple(counts)

    def least_cut(self, counts):
        """The least consistent cut with at least these counts."""
        pasts = [self.pasts[place] for place in enumerate(counts) if place[1]]
        return tuple(map(max, zip(*pasts))) if pasts else tuple(counts)


def compare(whole, folders, names):
    """Compares a run with the sessions in these folders, which are its windows, as to these predicates: the answers;
    the facts by which they have these; the events that are seen, and their order; and that a satisfying cut of a window
    is one of the run."""
    made = [(Whole(session), rows) for session, rows in (read(folder, whole.session) for folder in folders)]
    for name in names:
        joined = tuple(any(window.answers[name][question] for window, _ in made) for question in (0, 1))
        if joined != whole.answers[name]:
            raise Differs(f"{name}: {whole.answers[name]} is {joined} of {len(made)} sessions")
    places = {}
    for number, (window, rows) in enumerate(made):
        compare_cuts(whole, window, rows, names)
        for fault in reduce_facts.faults(whole, window, rows, names):
            raise Differs(fault)
        for process, count in window.session.places:
            row = rows[window.session.names[process], count]
            if row["seen"]:
                places[whole.session.names.index(row["process"]), row["number"]] = number, (process, count), window
    if sorted(places) != whole.seen(names):
        raise Differs(f"{sorted(places)} are seen, and are to be {whole.seen(names)}")
    for first, (number, place, window) in places.items():
        for later, (other, place_later, _) in places.items():
            is_before = number < other or number == other and (place, place_later) in window.before
            if is_before != ((first, later) in whole.before):
                raise Differs(f"{first} and {later} have another order")


def compare_cuts(whole, window, rows, names):
    for name in names:
        tree = dict(whole.session.predicates)[name]
        for cut in window.cuts:
            counts = [0] * len(whole.session.names)
            for process, count in zip(window.session.names, cut):
                last = max(it for it in range(count + 1) if rows[process, it]["seen"])
                counts[whole.session.names.index(process)] = rows[process, last]["number"]
            if drawn.holds(whole.session, whole.least_cut(counts), tree) != (cut in window.satisfying[name]):
                raise Differs(f"{name} isn't the same at the cut {cut} and at that of the run with {counts}")


def folders_in(folder):
    return sorted(glob.glob(os.path.join(folder, "window-*"))) or [folder]


def reduce_to(folder, files, *words):
    done = run_with(*files, "--to", folder, *words)
    if done[0] or done[2]:
        raise Differs(f"it ends with {done}")
    return folders_in(folder)


def try_run(draw, folder):
    """Draws a run and compares it with what is made of it: of all predicates, of one of them, and windows of each; and
    gives the run, what a plain judge says of it, and how many windows there were at most. The streams are read by one
    line or more at a time."""
    with mock.patch.multiple(monitor_reduce, BLOCK_LEAST=draw.choice([1, 20, 50, 100, 4096]), BLOCKS_BYTES=0):
        return try_blocks(draw, folder)


def try_blocks(draw, folder):
    session = draw_run(draw)
    files, whole = write(session, draw, os.path.join(folder, "run")), Whole(session)
    names = [name for name, _ in session.predicates]
    compare(whole, reduce_to(os.path.join(folder, "all"), files), names)
    least = reduce_to(os.path.join(folder, "least"), files, "--windows", 1)
    compare(whole, least, names)
    if len(least) != max(1, whole.boundaries(names)):
        raise Differs(f"there are {len(least)} windows, and {whole.boundaries(names)} cuts where one can end")
    compare(whole, reduce_to(os.path.join(folder, "more"), files, "--windows", draw.randint(2, 5)), names)
    one = draw.choice(names)
    compare(whole, reduce_to(os.path.join(folder, "one"), files, "--predicate", one), [one])
    compare(whole, reduce_to(os.path.join(folder, "ones"), files, "--predicate", one, "--windows", 1), [one])
    return whole, len(least)
