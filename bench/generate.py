#!/usr/bin/env python3
"""generate.py NAME [NUMBER] [--small] [--files=FOLDER]: writes a large bundle to standard output, or a small one of
the same kind; or writes its parts into a folder, as `session.json` and a file `NN.stream` for each process.

lattice   6 processes in 30 rounds: 7 local events each, then a message of each to one of them and back; levels of tens
          of thousands of cuts, and one conjunction that no cut satisfies
several   the same rounds, in which the one process answers all others by one message, as version 2 has it
terms     the same processes in 3 rounds of 5 local events; 16 predicates of nearly 4,096 bytes that no cut satisfies
streams   8 processes of 10,000 events each, every event setting 16 variables; one predicate that the empty cut
          satisfies
messages  8 processes of 10,000 events each, nearly all of them sends and receipts of a run without a cycle; the same
          predicate
avoiding  7 processes in 40 rounds of 4 local events; a sum that some cuts satisfy, and no observation has to
sums      7 processes in 20 rounds of 4 local events; an `or` of 40 sums that no cut satisfies
marked    the same with one part more, which the cut after p0's first event satisfies, so that nearly all levels are
          marked
heavy     6 processes in 8 rounds of 7 local events, levels of tens of thousands of cuts; an `or` of 46 sums that no cut
          satisfies
many      8 processes in 3 rounds of 3 local events; 16 predicates of 30 sums each that no cut satisfies
uneven    the same, with one sum in each predicate after the first four
wide      8 processes, or 2 to 16 if another number is given, in 8 rounds of as many local events as leave the levels
          within the width, with a message from each process to the next one and back after each round; a sum that no
          cut satisfies
lists     8 processes of 20 local events each and no messages; an `or` of 14 sums, which holds unless the processes
          are nearly level, so that the avoiding cuts stand in lists
leaders   16 processes of 10,000 events each, of which one in fifty is a send; 16 predicates, of which the first asks
          whether any two lead at once, by an `or` of 120 pairs, and each other one the same of a number that nobody has
followers the same streams, and 16 predicates that all ask of a number that nobody has
pairs     2 processes of 10,000 events each and no messages; a sum of both that has no such value
boxes     8 processes of 10,000 events each, of which one in fifty is a send; an `and` of a comparison of each process
          that an observation avoids, one that each passes through, and an `or` that each passes through
grid      the same of 4 processes and 5,000 events, of which two have two sums: an observation avoids the one, and each
          passes through the other
products  8 processes of 10,000 events each, of which one in fifty is a send; an `and` of 9 `or`s and of a comparison
          that nothing satisfies, so that it has 512 terms; and the same of one `or` of 160 comparisons
path      the streams of `messages`, and a comparison that no cut satisfies, so that the path of an observation is printed
narrow    8 processes of 9 local events each and no messages; few cuts of each level avoid, and a width of 1,000, so that
          whole levels with millions of cuts are left to the lists of those that do
ors       6 processes in 8 rounds of 6 local events; an `or` of 64 equalities of three terms, or of as many as another
          number says, which no cut satisfies
hub       8 processes in 700 rounds, in each of which seven send to the first and are answered; a comparison of two
          processes that no cut satisfies
ring      a token that goes 4,900 times round 8 processes, so that each level has one cut; the same comparison
everyone  16 processes that send a message to each other one, and then receive what all have sent, in 150 rounds; the
          same comparison, which the first wide level leaves unknown
locals    the same lines with each send and receipt replaced by a local event of the same length, for comparison with
          messages
shape     the session of the shape of `shapes.py` that the next word names, as "shape barriers 8"
"""
import json
import os
import random
import sys

from shapes import SHAPES

# Small forms have fewer rounds and events, so that a profiler that is fifty times slower gets through in a second.
SMALL = "--small" in sys.argv
FOLDERS = [word.removeprefix("--files=") for word in sys.argv if word.startswith("--files=")]


def size(large, small):
    return small if SMALL else large


def document(processes, predicates, width, version=1):
    return json.dumps({
        "processes": [{"name": name, "vars": {var: 0 for var in variables}} for name, variables in processes],
        "predicates": [{"name": name, "text": text} for name, text in predicates],
        "width": width,
        **({"version": version} if version > 1 else {}),
    })


def stream(process, events):
    yield json.dumps({"process": process})
    for event in events:
        yield json.dumps({"set": event})
    yield json.dumps({"end": True})


def files(folder, head, streams):
    os.makedirs(folder, exist_ok=True)
    with open(os.path.join(folder, "session.json"), "w") as out:
        out.write(head + "\n")
    for number, lines in enumerate(streams):
        with open(os.path.join(folder, f"{number:02}.stream"), "w") as out:
            out.writelines(line + "\n" for line in lines)


def bundle(head, streams):
    if FOLDERS:
        files(FOLDERS[0], head, streams)
        return
    out = sys.stdout
    out.write(head + "\n")
    for lines in streams:
        out.write("---\n")
        for line in lines:
            out.write(line + "\n")


def meeting(names, hub, number, version):
    """Of each process the events with which all send to one of them, and are answered by it: by a message for each or,
    in version 2, by one for all."""
    others = [name for name in names if name != hub]
    asked = {name: f"{name}-{number}" for name in others}
    answered = {name: f"{hub}-{number}" if version == 2 else f"{hub}-{name}-{number}" for name in others}
    events = {name: [{"send": asked[name]}, {"recv": answered[name]}] for name in others}
    events[hub] = [{"recv": asked[name]} for name in others]
    events[hub] += [{"send": message} for message in dict.fromkeys(answered.values())]
    return events


def rounds(processes, steps, count, predicates, version=1, meet=None):
    """In each round each process takes steps of its own, and then all of them meet. The seed is fixed."""
    rng = random.Random(2)
    names = [f"p{k}" for k in range(processes)]
    lists = {name: [] for name in names}
    for number in range(count):
        met = meet(names, number) if meet else meeting(names, names[number % processes], number, version)
        for name in names:
            lists[name] += [{"set": {"n": 2 * rng.randrange(1000)}} for _ in range(steps)] + met[name]
    head = document([(name, ["n"]) for name in names], predicates, 65536, version)
    bundle(head, [[json.dumps({"process": name}), *map(json.dumps, lists[name]), json.dumps({"end": True})]
                  for name in names])


def lattice(version=1):
    text = " and ".join([f"p{k}.n > 1200" for k in range(5)] + ["p5.n == 1"])
    rounds(6, size(7, 4), size(30, 3), [("never", text)], version)


def several():
    lattice(2)


def long_text(k):
    """A predicate that is false where all counters are even and small: a chain of sums, or of pairs of comparisons."""
    sums = [f"{1 + (k + i) % 9} * p{i % 6}.n + p{(i + 1) % 6}.n == {30001 + 2 * i}" for i in range(200)]
    pairs = [f"(p{i % 6}.n > {100 + i} or p{(i + k) % 6}.n > {150 + i})" for i in range(200)] + ["p0.n == 1"]
    parts, between = (sums, " or ") if k % 2 == 0 else (pairs[::-1], " and ")
    text = parts[0]
    for part in parts[1:]:
        if len(text) + len(between) + len(part) > 4096:
            break
        text += between + part
    return text


def terms():
    rounds(6, size(5, 3), size(3, 1), [(f"q{k}", long_text(k)) for k in range(16)])


def avoiding():
    rounds(7, size(4, 2), size(40, 4), [("sometimes", " + ".join(f"p{k}.n" for k in range(7)) + " == 7000")])


def sums(processes, count, seed):
    """Comparisons of sums over all processes that are false where all counters are even."""
    rng = random.Random(seed)
    parts = []
    for _ in range(count):
        sum_of = " + ".join(f"{2 * rng.randrange(1, 5)} * p{k}.n" for k in range(processes))
        parts.append(f"{sum_of} == {2 * rng.randrange(10000) + 1}")
    return parts


def open_sums():
    rounds(7, size(4, 2), size(20, 2), [("never", " or ".join(sums(7, 40, 3)))])


def marked_sums():
    rounds(7, size(4, 2), size(20, 3), [("early", " or ".join(["p0.n > 0 and p1.n == 0", *sums(7, 40, 3)]))])


def heavy_sums():
    rounds(6, size(7, 4), size(8, 1), [("never", " or ".join(sums(6, 46, 3)))])


def many_sums():
    rounds(8, size(3, 1), size(3, 1), [(f"q{k}", " or ".join(sums(8, 30, k))) for k in range(16)])


def uneven_sums():
    rounds(8, size(3, 1), size(3, 1), [(f"q{k}", " or ".join(sums(8, 30 if k < 4 else 1, k))) for k in range(16)])


def there_and_back(names, number):
    """Of each process the events by which a message goes from the first process to the next one and so on, and back."""
    way = [*names, *names[-2::-1]]
    events = {name: [] for name in names}
    for hop, (sender, receiver) in enumerate(zip(way, way[1:])):
        events[sender].append({"send": f"{number}-{hop}"})
        events[receiver].append({"recv": f"{number}-{hop}"})
    return events


def given_number(default):
    return next((int(word) for word in sys.argv[2:] if word.isdigit()), default)


def wide():
    processes = given_number(8)
    steps = max(steps for steps in range(1, 8) if (steps + 1) ** processes <= 500_000)
    text = " + ".join(f"p{k}.n" for k in range(processes))
    rounds(processes, steps, size(8, 1), [("never", f"{text} == {1000 * processes + 1}")], meet=there_and_back)


def listed_sums():
    """In each avoiding cut no process is more than two events ahead of the next one: some tens of thousands a level."""
    names = [f"p{k}" for k in range(8)]
    wide = [f"p{k}.n - p{(k + 1) % 8}.n > 4" for k in range(8)]
    head = document([(name, ["n"]) for name in names],
                    [("apart", " or ".join(wide + sums(8, 6, 5)))], 65536)
    bundle(head, [stream(name, ({"n": 2 * i} for i in range(1, size(21, 5)))) for name in names])


def streams():
    variables = [f"v{k:02}" for k in range(16)]
    names = [f"p{k}" for k in range(8)]
    head = document([(name, variables) for name in names], [("start", "p0.v00 == 0")], 4096)
    bundle(head, [stream(name, ({var: (i * 7919 + k) % 1000003 for k, var in enumerate(variables)}
                                for i in range(size(10000, 200)))) for name in names])


def talk(processes, events):
    """A run: while some process has room, one of them receives a message that has arrived, or sends one, or neither.

    A message is received only after it was sent, so that no event can happen before itself. The seed is fixed."""
    rng = random.Random(1)
    lists = [[] for _ in range(processes)]
    arrived = [[] for _ in range(processes)]
    running = list(range(processes))
    sent = 0
    while running:
        process = rng.choice(running)
        roll = rng.random()
        if arrived[process] and roll < 0.55:
            inbox = arrived[process]
            pick = rng.randrange(len(inbox))
            inbox[pick], inbox[-1] = inbox[-1], inbox[pick]
            event = {"recv": inbox.pop()}
        elif processes > 1 and roll < 0.99:
            other = rng.randrange(processes - 1)
            message = f"m{sent}"
            sent += 1
            arrived[other + (other >= process)].append(message)
            event = {"send": message}
        else:
            event = {"set": {"x": sent}}
        lists[process].append(event)
        if len(lists[process]) == events:
            running.remove(process)
    return lists


def local(event):
    """The line of a local event, with as many bytes as this one's. A few are too short to set anything: they are empty
    objects."""
    line = json.dumps(event)
    if "set" in event:
        return line
    digits = len(line) - len(json.dumps({"set": {"x": 0}})) + 1
    return json.dumps({"set": {"x": 10 ** (digits - 1)}}) if digits > 0 else "{}".ljust(len(line))


def rare_talk(processes, events, line_of, seed):
    """Runs in which one event in fifty is a send, and a message is received soon after; `line_of` makes the others."""
    rng = random.Random(seed)
    lists, arrived, sent = [[] for _ in range(processes)], [[] for _ in range(processes)], 0
    for _ in range(events):
        for process in range(processes):
            if arrived[process] and rng.random() < 0.5:
                lists[process].append({"recv": arrived[process].pop(0)})
            elif processes > 1 and rng.random() < 0.02:
                sent += 1
                arrived[(process + rng.randrange(1, processes)) % processes].append(f"m{sent}")
                lists[process].append({"send": f"m{sent}"})
            else:
                lists[process].append({"set": line_of(rng)})
    return lists


def ors():
    """Equalities of three terms that are false where all counters are even."""
    rng = random.Random(9)

    def term():
        return f"p{rng.randrange(6)}.n"
    parts = [f"{term()} + {term()} - {term()} == {2 * rng.randrange(900) + 1}" for _ in range(given_number(64))]
    rounds(6, size(6, 4), size(8, 1), [("never", " or ".join(parts))])


# A comparison that no cut satisfies where no process sets anything below 0.
NEGATIVE = [("never", "p0.n + p3.n == -1")]


def hub():
    rounds(8, 0, size(700, 20), NEGATIVE, meet=lambda names, number: meeting(names, names[0], number, 1))


def round_trip(names, number):
    """Of each process the events with which a token comes from the process before it and goes to the next one."""
    first = number * len(names)
    return {name: ([{"recv": f"{first + k}"}] if first + k else []) + [{"send": f"{first + k + 1}"}]
            for k, name in enumerate(names)}


def ring():
    rounds(8, 0, size(4900, 100), NEGATIVE, meet=round_trip)


def to_each_other(names, number):
    """Of each process the events with which it sends to all others, and then receives what they sent."""
    return {name: [{"send": f"{number}-{name}-{other}"} for other in names if other != name]
            + [{"recv": f"{number}-{other}-{name}"} for other in names if other != name] for name in names}


def everyone():
    rounds(16, 0, size(150, 3), NEGATIVE, meet=to_each_other)


def who_leads(first):
    """Few change their role, and all have other things to do. A predicate asks whether any two have a role at once, by
    its number, from `first` on; only role 1 is ever taken."""
    names = [f"p{k}" for k in range(16)]

    def asked(number):
        return " or ".join(f"{p}.l=={number} and {q}.l==1" for k, q in enumerate(names) for p in names[k + 1:])
    head = document([(name, ["l", "n"]) for name in names],
                    [(f"two{number}", asked(number)) for number in range(first, first + 16)], size(65536, 256))
    talks = rare_talk(16, size(10000, 200), lambda rng: {"l": rng.randrange(2)} if rng.random() < 0.1
                      else {"n": rng.randrange(10)}, 1)
    bundle(head, [[json.dumps({"process": name}), *map(json.dumps, events), json.dumps({"end": True})]
                  for name, events in zip(names, talks)])


def leaders():
    who_leads(1)


def followers():
    who_leads(2)


def pairs():
    names, rng = ["p0", "p1"], random.Random(1)
    head = document([(name, ["n"]) for name in names], [("sum", "p0.n + p1.n == 25")], 4096)
    bundle(head, [stream(name, ({"n": rng.randrange(10)} for _ in range(size(10000, 500)))) for name in names])


def turned(lists, name, part):
    """Sets the variable of this name to 1 in each list, once that part of its events has happened, for good."""
    for events in lists:
        events[int(len(events) * part)].setdefault("set", {})[name] = 1
    return lists


def talk_bundle(variables, predicates, lists):
    names = [f"p{k}" for k in range(len(lists))]
    head = document([(name, variables) for name in names], predicates, 256)
    bundle(head, [[json.dumps({"process": name}), *map(json.dumps, events), json.dumps({"end": True})]
                  for name, events in zip(names, lists)])


def boxes():
    lists = rare_talk(8, size(10000, 300), lambda rng: {"x": rng.randrange(2)}, 3)
    turned(turned(lists, "late", 0.75), "last", 0.9)
    talk_bundle(["x", "late", "last"], [("some", " and ".join(f"p{k}.x == 1" for k in range(8))),
                                        ("all", " and ".join(f"p{k}.late == 1" for k in range(8))),
                                        ("any", " or ".join(f"p{k}.last == 1" for k in range(8)))], lists)


def grid():
    lists = turned(rare_talk(4, size(5000, 500), lambda rng: {"n": rng.randrange(10)}, 4), "late", 0.75)
    talk_bundle(["n", "late"], [("some", "p0.n + p2.n == 3"), ("all", "p0.late + p2.late > 1")], lists)


def products():
    """Each `or` holds at some counts, and the last comparison at none."""
    lists = rare_talk(8, size(10000, 300), lambda rng: {"n": rng.randrange(20)}, 5)
    ors = [f"(p{k % 8}.n == {k} or p{(k + 3) % 8}.n == {k + 10})" for k in range(9)]
    either = " or ".join(f"p{k % 8}.n == {k // 8}" for k in range(160))
    talk_bundle(["n"], [("never", " and ".join([*ors, "p7.n == 99"])), ("no", f"({either}) and p7.n == 99")], lists)


def narrow():
    """In each avoiding cut no process is more than one event ahead of the next one."""
    names = [f"p{k}" for k in range(8)]
    wide = [f"p{k}.n - p{(k + 1) % 8}.n > 1" for k in range(8)]
    head = document([(name, ["n"]) for name in names], [("apart", " or ".join(wide))], 1000)
    bundle(head, [stream(name, ({"n": i} for i in range(1, size(10, 6)))) for name in names])


def talkers(line_of, predicate=("start", "p0.x == 0")):
    """Eight talking processes, each event written by `line_of`; a walk for the predicate ends at the empty cut."""
    names = [f"p{k}" for k in range(8)]
    head = document([(name, ["x"]) for name in names], [predicate], 4096)
    ends = [(json.dumps({"process": name}), json.dumps({"end": True})) for name in names]
    bundle(head, [[join, *map(line_of, events), end] for (join, end), events in zip(ends, talk(8, size(10000, 300)))])


def messages():
    talkers(json.dumps)


def path():
    talkers(json.dumps, ("never", "p0.x == -1"))


def locals_alone():
    talkers(local)


def shape():
    bundle(*SHAPES[sys.argv[2]](size, given_number(8)).parts())


{"lattice": lattice, "several": several, "terms": terms, "streams": streams, "messages": messages,
 "locals": locals_alone, "avoiding": avoiding, "sums": open_sums, "heavy": heavy_sums, "marked": marked_sums,
 "many": many_sums, "uneven": uneven_sums, "wide": wide, "lists": listed_sums, "leaders": leaders,
 "followers": followers, "pairs": pairs, "boxes": boxes, "grid": grid, "products": products, "path": path,
 "narrow": narrow, "ors": ors, "hub": hub, "ring": ring, "everyone": everyone, "shape": shape}[sys.argv[1]]()
