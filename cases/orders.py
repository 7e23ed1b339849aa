#!/usr/bin/env python3
"""orders.py [PROGRAM] [--count N] [--seed S] [--only K]: draws recorded runs of one document, of which many have one
order, and compares what `test` writes of them with what each run is alone, and with how many orders there are.

Each set has a small session that `drawn.py` draws, and some variants of it: with events that no predicate sees, with
messages beside those that are there, with other ids, and with variables set to the values that they have; and variants
in which something counts: a message less or more, another value, an event less. Some are refused. All are tested as
folders and as bundles, one after the other and four side by side, with each wish for each predicate, so that a line
says all answers.

The orders are counted from their definition in docs/SPECIFICATION.md: happened-before is closed as a relation, and an
order is the set of pairs of it among the events that set a named variable to another value, with these values. What a
run's own answers are says `judge --beyond-width`. They are expected in its line, unless one is unknown and an earlier
run of the same document and order has no unknown one, or its reduction has none, which is made here by the rule in
docs/LONG-RUNS.md and judged by `judge --beyond-width`: then those of the plain judge in `drawn.py` are, of whatever
width. With any number of jobs, and of folders and bundles, the text has to be the same, and the object of `--json`.

Then runs are tested that are made to have large orders, of which ten fit into the memory that the program has for them.
Of more than these it has to say the right answers, and no number.

PROGRAM is ../crates/monitor/out/monitor if it isn't given. What the drawing has to come to stands in WANTED, so that
it can't go empty. The last line says how many sets there are, how often the program ran, and how many sets differ; the
status is 1 if any does, or if something is missing. With --only the set K is drawn alone."""
import argparse
import collections
import concurrent.futures
import copy
import functools
import json
import math
import os
import random
import subprocess
import sys
import tempfile

sys.dont_write_bytecode = True
from drawn import (Event, Session, comparisons, consistent_cuts, cycle, definitely, document_text,  # noqa: E402
                   draw_session, draw_value, first_fault, happened_before, holds, possibly, predicate_text, stream_text)
from json_results import text_of  # noqa: E402
from run import Differs, HERE, Place  # noqa: E402

# How many events a drawn session has at most, and how many a variant has more.
EVENTS, MORE = 14, 8
# What 150 sets have, and how often at least.
SETS = 150
WANTED = {"runs": 600, "refused": 12, "of an order that came before": 250, "of a new order": 150,
          "unknown": 25, "unknown, and known by an earlier run": 3, "unknown in part": 20,
          "unknown, and known by its reduction": 5,
          "two documents": 10, "asked": 20}

# Of the runs with large orders: the processes, the variables of each and its events. An order has 8 bytes for each
# value after an event, and 2 for each count.
PROCESSES, VARIABLES, LARGE = 16, 16, 10_000
LIMIT = 2 ** 28
FIT = LIMIT // (PROCESSES * LARGE * (8 * VARIABLES + 2 * PROCESSES))


# The definition.

def named_variables(predicates):
    """The variables that predicates name, each with its process."""
    return {reference for _, predicate in predicates for comparison in comparisons(predicate)
            for terms in comparison[1:] for _, _, reference in terms if reference}


def kept_events(session, predicates):
    """The values of the named variables of a process after so many events, as a function, and for each process the
    numbers of the events that set one of them to another value."""
    named = named_variables(predicates)

    def values(process, count):
        return tuple(sorted((name, session.value_at(process, count, name)) for of, name in named if of == process))
    return values, [[number for number in range(1, len(events) + 1)
                     if values(process, number) != values(process, number - 1)]
                    for process, events in enumerate(session.events)]


def order_of(session, predicates):
    """What is seen of a run: for each process the values that an event sets a named variable to, and which of these
    events happened before each other."""
    values, kept = kept_events(session, predicates)
    seen = {(process, number): (process, at) for process, numbers in enumerate(kept)
            for at, number in enumerate(numbers)}
    before = frozenset((seen[first], seen[later]) for first, later in happened_before(session)
                       if first in seen and later in seen)
    changes = tuple(tuple(values(process, number) for number in numbers) for process, numbers in enumerate(kept))
    return changes, before


def reduction(session, predicates, before=None):
    """The events of the reduction of a run: each kept event sends a message and sets what is named to what it is worth
    then, after a receipt from each latest kept event of another process that happened before it, unless that one was
    known before or another kept event lies between. A process that isn't named has none."""
    values, kept = kept_events(session, predicates)
    before = happened_before(session) if before is None else before
    places = [(process, number) for process, numbers in enumerate(kept) for number in numbers]
    reduced = []
    for process, numbers in enumerate(kept):
        events, known = [], {}
        for number in numbers:
            here = process, number
            for other in range(len(kept)):
                earlier = [it for it in kept[other] if other != process and ((other, it), here) in before]
                if not earlier or known.get(other, 0) >= earlier[-1]:
                    continue
                last = other, earlier[-1]
                known[other] = earlier[-1]
                if not any((last, it) in before and (it, here) in before for it in places):
                    events.append({"recv": f"{last}"})
            events.append({"send": f"{here}", "set": dict(values(process, number))})
        reduced.append(events)
    return reduced


def truth(session, predicates, before=None):
    """The true answers, by all cuts: of the events in their order, or in another one that is given."""
    cuts = consistent_cuts(session, happened_before(session) if before is None else before)
    found = {}
    for name, predicate in predicates:
        satisfying = {cut for cut in cuts if holds(session, cut, predicate)}
        found[name] = (possibly(cuts, satisfying, math.inf).split()[0],
                       definitely(session, cuts, satisfying, math.inf).split()[0])
    return found


# The drawing.

def values_before(session, process, number):
    """What the variables are worth before the event that will be the one of this number, from 0."""
    return {name: session.value_at(process, number, name) for name in session.initial[process]}


def add_event(draw, events, session, named):
    """Adds an event that no predicate sees: it sets nothing, or what isn't named, or what has this value already."""
    process = draw.randrange(len(events))
    at = draw.randint(0, len(events[process]))
    now = values_before(Session(session.names, session.initial, events, 1, {}), process, at)
    unseen = [name for name in now if (process, name) not in named]
    sets = {}
    if draw.random() < 0.5:
        sets = {name: draw_value(draw) if name in unseen and draw.random() < 0.7 else now[name]
                for name in now if draw.random() < 0.6}
    events[process].insert(at, Event(sets))


def add_message(draw, events, identity):
    """Adds a message beside one that is there: it is sent earlier in that one's process and received later, so what
    happened before what is as it was."""
    pairs = [(send, p, i, q, j) for p, of_p in enumerate(events) for i, send in enumerate(of_p) if send.kind == "send"
             for q, of_q in enumerate(events) for j, receipt in enumerate(of_q)
             if p != q and receipt.kind == "recv" and receipt.id == send.id]
    if not pairs:
        return
    _, p, i, q, j = draw.choice(pairs)
    send, receipt = Event({}), Event({})
    send.kind, send.id, receipt.kind, receipt.id = "send", identity, "recv", identity
    events[p].insert(draw.randint(0, i), send)
    events[q].insert(draw.randint(j + 1, len(events[q])), receipt)


def change(draw, events):
    """Changes something that may count: a message less, a message more, another value, an event less, or a receipt of
    a message that nobody sends."""
    places = [(of, at) for of in events for at in range(len(of))]
    if not places:
        return
    of, at = draw.choice(places)
    event = of[at]
    kind = draw.choice(["less", "less", "more", "more", "value", "value", "value", "event", "orphan"])
    if kind == "less" and event.kind != "local":
        for other in [it for row in events for it in row if it.id == event.id and it is not event] + [event]:
            other.kind, other.id = "local", None
    elif kind == "more" and len(events) > 1:
        other = draw.choice(draw.choice([row for row in events if row is not of]) or [event])
        if other is not event and other.kind == event.kind == "local":
            event.kind, event.id, other.kind, other.id = "send", "more", "recv", "more"
    elif kind == "value" and event.sets:
        event.sets[draw.choice(sorted(event.sets))] = draw_value(draw)
    elif kind == "event" and event.kind == "local":
        del of[at]
    elif kind == "orphan" and event.kind == "local":
        event.kind, event.id = "recv", "of nobody"


def variant(draw, session, predicates):
    """The session with other events that aren't seen, and perhaps with a change that may count."""
    events, named = copy.deepcopy(session.events), named_variables(predicates)
    if draw.random() < 0.3:
        change(draw, events)
    if draw.random() < 0.1:
        change(draw, events)
    for number in range(draw.choice([0, 1, 3, MORE])):
        if draw.random() < 0.3:
            add_message(draw, events, f"beside {number}")
        else:
            add_event(draw, events, session, named)
    if draw.random() < 0.5:
        ids = {event.id: f"id {draw.random()}" for of in events for event in of if event.id is not None}
        for event in [event for of in events for event in of if event.id is not None]:
            event.id = ids[event.id]
    found = Session(session.names, session.initial, events, session.version, session.fields)
    found.predicates, found.width = session.predicates, session.width
    return found


def draw_base(draw, has_many=False):
    """A session that is judged, of not too many events, some of which `drawn.py` judges beyond the width."""
    while True:
        session = draw_session(draw, has_many, draw.random() < 0.5)
        fine = session.version is not None and len(session.places) <= EVENTS and not first_fault(session)
        if fine and not cycle(session, happened_before(session)):
            session.width = draw.choice([1, 2, 3, 3, 5, 8, 4096])
            return session


# The runs.

class Drawn:
    """A run: its session, its document and its streams as texts."""

    def __init__(self, draw, session, document):
        self.session, self.document = session, document
        self.streams = [stream_text(draw, session, process) for process in range(len(session.names))]
        fault = first_fault(session)
        self.refused = bool(fault or cycle(session, happened_before(session)))

    def write(self, draw, folder, name):
        """Writes the run as a folder and as a bundle, whose streams may stand in another order."""
        os.mkdir(os.path.join(folder, name))
        files = {"session.json": self.document}
        files.update((f"{of}.stream", text) for of, text in zip(self.session.names, self.streams))
        for file, text in files.items():
            with open(os.path.join(folder, name, file), "w", encoding="utf-8", newline="") as out:
                out.write(text)
        with open(os.path.join(folder, f"{name}.bundle"), "w", encoding="utf-8", newline="") as out:
            out.write("---\n".join([self.document, *draw.sample(self.streams, len(self.streams))]))


def own_report(place, run, name, asked, refused):
    """What `judge --beyond-width` says of a run alone: the answers of each predicate, or the refusal."""
    paths = [f"{name}/session.json", *(f"{name}/{of}.stream" for of in run.session.names)]
    status, output, errors = place.run(["judge", "--beyond-width", *paths, *asked])
    if errors or status != int(refused):
        raise Differs(f"judge of {name}: status {status}: {errors.decode()}{output.decode()}")
    lines = output.decode().splitlines()
    if refused:
        return lines[0]
    found = collections.defaultdict(list)
    for line in lines[1:]:
        of, _, answer = line.split(" ")[:3]
        found[of].append(answer)
    return {of: tuple(answers) for of, answers in found.items()}


def by_reduction(place, run, name, predicates, asked):
    """The answers of a run's reduction, if that has fewer events and none is unknown."""
    events = reduction(run.session, predicates)
    if sum(map(len, events)) >= len(run.session.places):
        return None
    folder = os.path.join(place.folder, f"{name}.reduced")
    os.mkdir(folder)
    with open(os.path.join(folder, "session.json"), "w", encoding="utf-8") as file:
        json.dump({**json.loads(run.document), "version": 2}, file)
    for of, lines in zip(run.session.names, events):
        with open(os.path.join(folder, f"{of}.stream"), "w", encoding="utf-8") as file:
            file.writelines(json.dumps(line) + "\n" for line in [{"process": of}, *lines, {"end": True}])
    answers = own_report(place, run, f"{name}.reduced", asked, False)
    return answers if is_known(answers) else None


def is_known(answers):
    return not any("unknown" in pair for pair in answers.values())


def outcome(answers):
    """What stands in a run's line if each wish is there for each predicate."""
    broken = [f"{name} possibly {one}" for name, (one, _) in answers.items() if one != "no"]
    broken += [f"{name} definitely {other}" for name, (_, other) in answers.items() if other != "yes"]
    broken += [f"{name} possibly {one}" for name, (one, _) in answers.items() if one != "yes"]
    return "fail: " + ", ".join(broken) if broken else "pass"


def noted(seen, key, answers):
    """What is to be counted of a run with this order and these answers of its own."""
    yield "of an order that came before" if key in seen else "of a new order"
    if is_known(answers):
        return
    yield "unknown"
    if any(answer != "unknown" for pair in answers.values() for answer in pair):
        yield "unknown in part"
    if seen.get(key):
        yield "unknown, and known by an earlier run"


def expected(place, runs, predicates, asked, counts):
    """What comes of each run, and how many orders there are."""
    outcomes, seen = [], {}
    for number, run in enumerate(runs):
        answers = own_report(place, run, str(number), asked, run.refused)
        counts["runs"] += 1
        if run.refused:
            counts["refused"] += 1
            outcomes.append(answers)
            continue
        key = run.document, order_of(run.session, predicates)
        counts.update(noted(seen, key, answers))
        if is_known(answers):
            outcomes.append(outcome(answers))
            seen[key] = True
            continue
        reduced = None if seen.get(key) else by_reduction(place, run, str(number), predicates, asked)
        if reduced or seen.get(key):
            true = truth(run.session, predicates)
            if reduced not in (None, true):
                raise Differs(f"the reduction of {number} has {reduced}, and the run {true}")
            counts["unknown, and known by its reduction"] += bool(reduced)
            outcomes.append(outcome(true))
            seen[key] = True
            continue
        outcomes.append(outcome(answers))
        seen[key] = False
    return outcomes, len(seen)


def lines_of(names, outcomes, orders):
    """The text of a test of these runs."""
    lines = [f"{name}: {text}" for name, text in zip(names, outcomes)]
    passing = sum(text == "pass" for text in outcomes)
    failing = sum(text.startswith("fail: ") for text in outcomes)
    again = [f"  {line}" for line, text in zip(lines, outcomes) if text != "pass"][:5]
    numbers = (f"runs: {len(lines)}, pass: {passing}, fail: {failing}, "
               f"not judged: {len(lines) - passing - failing}")
    status = 5 if failing else 1 if passing < len(lines) else 0
    return "".join(line + "\n" for line in [*lines, numbers, *again, f"orders: {orders}"]), status


def compare(place, runs, predicates, asked, counts):
    """Tests the runs in each way, and compares."""
    outcomes, orders = expected(place, runs, predicates, asked, counts)
    wishes = [word for name, _ in predicates for wish in ("--never", "--always", "--sometimes")
              for word in (wish, name)]
    for end in ("", ".bundle"):
        names = [f"{number}{end}" for number in range(len(runs))]
        text, status = lines_of(names, outcomes, orders)
        for jobs in ("1", "4"):
            words = ["test", *names, *wishes, *asked, "--jobs", jobs, "--json", "out.json"]
            place.expect(" ".join(words), place.run(words), status, text.encode())
            with open(os.path.join(place.folder, "out.json"), encoding="utf-8") as file:
                written = text_of(json.load(file))
            if written != text:
                raise Differs(f"{' '.join(words)}: the file of JSON says\n{written}and the lines\n{text}")


def drawn_set(draw, counts):
    """Runs of one document, or of two, the predicates that count, and what is asked in their place."""
    base = draw_base(draw)
    predicates, asked = base.predicates, []
    if draw.random() < 0.25:
        counts["asked"] += 1
        predicates = draw.sample(predicates, draw.randint(1, min(2, len(predicates))))
        asked = [word for name, predicate in predicates
                 for word in ("--ask", f"{name}={predicate_text(draw, base, predicate)}")]
    document = document_text(draw, base)
    documents = [document, " " + document if draw.random() < 0.15 else document]
    counts["two documents"] += documents[0] != documents[1]
    sessions = [base, *(variant(draw, base, predicates) for _ in range(draw.randint(2, 6)))]
    if draw.random() < 0.3:
        sessions.append(variant(draw, sessions[-1], predicates))
    draw.shuffle(sessions)
    return [Drawn(draw, session, draw.choice(documents)) for session in sessions], predicates, asked


def tried(program, seed, number):
    """How often the program ran for the set of this number, what is to be counted, and in what it differs, if so."""
    draw, counts = random.Random(f"{seed} {number}"), collections.Counter()
    runs, predicates, asked = drawn_set(draw, counts)
    with tempfile.TemporaryDirectory() as folder:
        place = Place(program, folder)
        for at, run in enumerate(runs):
            run.write(draw, folder, str(at))
        try:
            compare(place, runs, predicates, asked, counts)
        except Differs as error:
            return place.runs, counts, str(error)
        except subprocess.TimeoutExpired:
            return place.runs, counts, "no end"
        return place.runs, counts, None


def write_large(folder):
    """Writes runs with large orders, one more than fit, which differ in the last value of the first process alone; one
    of them has a value for which a predicate asks."""
    names = [f"p{process}" for process in range(PROCESSES)]
    processes = [{"name": name, "vars": {f"v{number}": 0 for number in range(VARIABLES)}} for name in names]
    sums = [" + ".join(f"{name}.v{number}" for number in range(VARIABLES)) for name in names]
    predicates = [{"name": name, "text": f"{total} == {LARGE + FIT}"} for name, total in zip(names, sums)]
    lines = "".join(f'{{"set":{{"v0":{count}}}}}\n' for count in range(1, LARGE))
    for run in range(FIT + 1):
        os.mkdir(os.path.join(folder, str(run)))
        with open(os.path.join(folder, str(run), "session.json"), "w", encoding="utf-8") as file:
            json.dump({"width": 1, "processes": processes, "predicates": predicates}, file)
        for name in names:
            path = os.path.join(folder, str(run), f"{name}.stream")
            if run and name != names[0]:
                os.link(os.path.join(folder, "0", f"{name}.stream"), path)
                continue
            with open(path, "w", encoding="utf-8") as file:
                file.write(f'{{"process":"{name}"}}\n{lines}{{"set":{{"v0":{LARGE + run}}}}}\n{{"end":true}}\n')


def look_at_large(program):
    """How often the program ran on runs whose orders fit, and on more, and in what it differs, if it does."""
    with tempfile.TemporaryDirectory() as folder:
        place = Place(program, folder)
        write_large(folder)
        fitting, last = [str(run) for run in range(FIT)], str(FIT)
        try:
            text, status = lines_of(fitting, ["pass"] * FIT, FIT)
            place.expect("large orders that fit", place.run(["test", *fitting]), status, text.encode())
            names = [*fitting, last, "0"]
            outcomes = [*["pass"] * FIT, "fail: p0 possibly yes", "pass"]
            text, status = lines_of(names, outcomes, 0)
            text = text.removesuffix("orders: 0\n")
            words = ["test", *names, "--json", "out.json"]
            place.expect("one large order more", place.run(words), status, text.encode())
            with open(os.path.join(folder, "out.json"), encoding="utf-8") as file:
                found = json.load(file)
            if found["orders"] is not None or text_of(found) != text:
                raise Differs(f"one large order more: the file of JSON says {found}")
        except Differs as error:
            return place.runs, str(error)
        return place.runs, None


def main():
    parser = argparse.ArgumentParser(description=__doc__, formatter_class=argparse.RawDescriptionHelpFormatter)
    parser.add_argument("program", nargs="?", default=os.path.join(HERE, "..", "crates", "monitor", "out", "monitor"))
    parser.add_argument("--count", type=int, default=SETS)
    parser.add_argument("--seed", type=int, default=1991)
    parser.add_argument("--only", type=int)
    given = parser.parse_args()
    program = os.path.abspath(given.program)
    if not os.access(program, os.X_OK):
        sys.exit(f"orders: no program {program}")
    numbers = range(given.count) if given.only is None else [given.only]
    counts, runs, differing, missing = collections.Counter(), 0, 0, 0
    with concurrent.futures.ProcessPoolExecutor(os.cpu_count()) as pool:
        found = pool.map(functools.partial(tried, program, given.seed), numbers, chunksize=5)
        for number, (count, of_set, why) in zip(numbers, found):
            runs += count
            counts += of_set
            if why:
                differing += 1
                print(f"orders: set {number} of seed {given.seed}: {why}")
    if given.only is None:
        count, why = look_at_large(program)
        runs += count
        if why:
            differing += 1
            print(f"orders: {why}")
    for what, least in WANTED.items() if given.only is None and not differing else []:
        if counts[what] < least * given.count // SETS:
            missing += 1
            print(f"orders: {counts[what]} {what}, and {least * given.count // SETS} are wanted")
    print(f"orders: {len(numbers)} sets, {runs} runs, {differing} differ")
    sys.exit(1 if differing or missing or not runs else 0)


if __name__ == "__main__":
    main()
