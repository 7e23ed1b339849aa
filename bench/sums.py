#!/usr/bin/env python3
"""sums.py PROGRAM [--width W] [--seconds S] [--seed N] [--only KIND] [--lines] [--large]: how many answers to what a
tester asks of a run stay unknown beyond the width, and how long the program takes.

Sessions of six kinds are made by the seed, a sound and a faulty one of each size:

ring         a token that goes round, also while it is on its way; the faulty one gets a second token
bank         money that goes from account to account; in the faulty one some of it comes from nowhere
termination  work that is handed on until all are idle; the faulty one counts some messages late
gossip       a lead that is handed on, and whose epoch all hear of; in the faulty one others take it by themselves
lock         a server that grants a lock; the faulty one grants it twice
quorum       a leader that commits what most have answered; the faulty one commits some of it early

PROGRAM judges each of them with --beyond-width, with this width (65,536 if it isn't given) and with no more than S
seconds of processor time (300 if they aren't given). The table has for each kind how many lines there are for Possibly
and how many of them are unknown, the same for Definitely, and the processor seconds of the slowest session. A session
that isn't judged in time is counted beside, and its lines are left out. With --lines those of the reports are printed
too.

With --large there are other sessions, judged with width 1, so that the walk costs nothing, unless a width is given. The
first are of the same kinds, 16 processes of up to 10,000 events and 16 predicates; their seconds stand beside those of
reading alone, which are those of the predicate `false`. The others are hard ones: values at random, values that change
at random, and values that drift upward, by up to 10 with each event, and a message for each 50th, 20th or 5th event;
their seconds are those of one predicate, without those of reading.
"""
import argparse
import json
import os
import random
import resource
import subprocess
import tempfile

SIZES = ((8, 40), (12, 60), (12, 300), (16, 60), (16, 300))
LARGE = (16, 10000)
EVENT_LIMIT = 10000
# How many events a process may still have after a run, to receive what is on its way and to come to rest.
SPARE = 200
DEFAULT_WIDTH = 65536


class Recording:
    """Processes that take steps: their variables, their events, and the messages that are on their way."""

    def __init__(self, count, events, rng, **variables):
        self.names = [f"p{number}" for number in range(count)]
        self.state = [dict(variables) for _ in self.names]
        self.events, self.on_way, self.sent = [[] for _ in self.names], [], 0
        self.rng, self.wanted, self.is_over = rng, count * events, False
        # In long runs a server has little to do, so that it doesn't come to the limit long before the others.
        self.quiet = 0.4 if events < 1000 else 0.87

    def begin(self):
        """Takes the present values of the variables for the initial ones."""
        self.initial = [dict(state) for state in self.state]

    def goes_on(self):
        """Whether the run isn't long enough yet."""
        return not self.is_over and sum(map(len, self.events)) < self.wanted

    def is_past(self, part):
        """Whether this part of the run is over."""
        return sum(map(len, self.events)) >= part * self.wanted

    def step(self, process, **sets):
        """Has the process set these variables."""
        self.state[process].update(sets)
        self.events[process].append({"set": sets} if sets else {})
        self.is_over = self.is_over or len(self.events[process]) >= EVENT_LIMIT - SPARE

    def add(self, variable, process, change=1):
        """What sets the variable of the process to this much more."""
        return {variable: self.state[process][variable] + change}

    def send(self, process, receiver, what=None, **sets):
        self.sent += 1
        self.step(process, **sets)
        self.events[process][-1]["send"] = f"m{self.sent}"
        self.on_way.append((f"m{self.sent}", receiver, what))

    def arrive(self):
        """A message that was on its way: its id, its receiver, and what it says."""
        return self.on_way.pop(self.rng.randrange(len(self.on_way)))

    def receive(self, message, process, **sets):
        self.step(process, **sets)
        self.events[process][-1]["recv"] = message

    def anyone(self, but=None):
        return self.rng.choice([process for process in range(len(self.names)) if process != but])


# Texts of predicates.

def total(names, variable, sign="+"):
    return f" {sign} ".join(f"{name}.{variable}" for name in names)


def on_way(names):
    """How many messages are sent and not yet received."""
    return f"{total(names, 'sent')} - {total(names, 'got', '-')}"


def each(names, text):
    return " and ".join(text.format(name) for name in names)


def some_two(names, text, most=12):
    """Whether some two of the first processes are as the text says."""
    first = names[:most]
    return " or ".join(text.format(p, q) for number, p in enumerate(first) for q in first[:number])


# The kinds of sessions. Each function has a recording go on and gives the predicates.

def move_token(record, holders):
    """Has a process that holds a token go in and out, or hand it on."""
    process = record.rng.choice(sorted(holders))
    if record.rng.random() < 0.5:
        record.step(process, inside=1)
        record.step(process, inside=0)
    holders.discard(process)
    record.send(process, (process + 1) % len(record.names), tok=0, **record.add("sent", process))


def ring(record, is_faulty):
    record.state[0]["tok"] = 1
    record.begin()
    holders = {0}
    while record.goes_on():
        roll, process = record.rng.random(), record.anyone()
        if is_faulty and record.is_past(0.5) and process not in holders:
            record.step(process, tok=1)
            holders.add(process)
            is_faulty = False
        elif roll < 0.6:
            record.step(process, work=record.rng.randrange(100))
        elif roll < 0.8 and holders:
            move_token(record, holders)
        elif record.on_way:
            message, receiver, _ = record.arrive()
            record.receive(message, receiver, tok=1, **record.add("got", receiver))
            holders.add(receiver)
    names, half = record.names, len(record.names) // 2
    return [("lost_or_doubled", f"{total(names, 'tok')} + {on_way(names)} != 1"),
            ("two_tokens", f"{total(names, 'tok')} > 1"), ("two_inside", f"{total(names, 'inside')} > 1"),
            ("nobody_has_it", f"{total(names, 'tok')} == 0"), ("one_has_it", f"{total(names, 'tok')} == 1"),
            ("first_half", f"{total(names[:half], 'tok')} == 1 and {total(names[half:], 'tok')} == 0"),
            ("any_two", some_two(names, "{}.inside == 1 and {}.inside == 1"))]


def bank(record, is_faulty):
    record.begin()
    while record.goes_on():
        roll, process = record.rng.random(), record.anyone()
        amount = record.rng.choice([5, 10, 10, 20, 35])
        if roll < 0.4:
            record.step(process)
        elif roll < 0.7 and record.state[process]["money"] >= amount:
            record.send(process, record.anyone(process), amount, **record.add("money", process, -amount),
                        **record.add("paid", process, amount))
        elif record.on_way:
            message, receiver, amount = record.arrive()
            more = 5 if is_faulty and record.rng.random() < 0.02 else 0
            record.receive(message, receiver, **record.add("money", receiver, amount + more),
                           **record.add("taken", receiver, amount))
    names, money = record.names, 100 * len(record.names)
    here = total(names, "money")
    whole = f"{here} + {total(names, 'paid')} - {total(names, 'taken', '-')}"
    return [("created", f"{whole} > {money}"), ("not_conserved", f"{whole} != {money}"),
            ("conserved", f"{whole} == {money}"), ("on_way", f"{here} < {money}"),
            ("half_on_way", f"{here} < {money // 2}"), ("just_50_on_way", f"{here} == {money - 50}"),
            ("three_poor", f"{total(names[:3], 'money')} < 60"),
            ("all_at_home", f"{here} == {money} and p0.money >= 50 and p1.money >= 50"),
            ("rich_and_poor", f"{total(names[:2], 'money')} > 300 and {total(names[2:4], 'money')} < 100")]


def hand_on(record, process, is_late):
    """Has a process hand on work, which it may count only after that, and perhaps come to rest."""
    counted = record.add("sent", process)
    record.send(process, record.anyone(process), **{} if is_late else counted)
    if is_late:
        record.step(process, **counted)
    if record.rng.random() < 0.5:
        record.step(process, idle=1)


def take_up(record):
    message, receiver, _ = record.arrive()
    record.receive(message, receiver, idle=0, **record.add("got", receiver))


def termination(record, is_faulty):
    record.state[0]["idle"] = 0
    record.begin()
    while record.goes_on():
        roll, active = record.rng.random(), [p for p, state in enumerate(record.state) if not state["idle"]]
        if active and roll < 0.4:
            record.step(record.rng.choice(active), done=record.rng.randrange(9))
        elif active and roll < 0.6:
            hand_on(record, record.rng.choice(active), is_faulty and record.rng.random() < 0.05)
        elif roll < 0.7 and len(active) + len(record.on_way) > 1 and active:
            record.step(record.rng.choice(active), idle=1)
        elif record.on_way:
            take_up(record)
    while record.on_way:
        take_up(record)
    for process in [process for process, state in enumerate(record.state) if not state["idle"]]:
        record.step(process, idle=1)
    names, all_idle, idle = record.names, each(record.names, "{}.idle == 1"), total(record.names, "idle")
    return [("terminated", f"{all_idle} and {on_way(names)} == 0"),
            ("quiet_too_soon", f"{all_idle} and {on_way(names)} > 0"),
            ("many_on_way", f"{on_way(names)} > {len(names)}"), ("negative", f"{on_way(names)} < 0"),
            ("most_idle", f"{idle} >= {len(names) - 1}"), ("two_active", f"{idle} == {len(names) - 2}"),
            ("none_idle", f"{idle} == 0"),
            ("idle_but_on_way", f"{idle} >= {len(names) - 1} and {on_way(names)} >= 2")]


def leading(process, epoch):
    """What a process sets that leads from now on."""
    return {"leads": 1, "epoch": epoch, "decided": epoch, "value": process}


def lead(record, process, is_faulty):
    """Has a process sell something if it leads, or hand the lead on; seldom a faulty one leads by itself."""
    roll, state = record.rng.random(), record.state[process]
    if state["leads"] and roll < 0.3:
        record.step(process, **record.add("sold", process))
    elif state["leads"] and roll < 0.4:
        record.send(process, record.anyone(process), {"resigned": state["epoch"]}, leads=0)
    elif is_faulty and roll < 0.005:
        record.step(process, **leading(process, state["epoch"] + 1))
    else:
        record.step(process)


def hear(record):
    """Has a process hear of an epoch, or that it leads."""
    message, receiver, told = record.arrive()
    if "resigned" in told:
        record.receive(message, receiver, **leading(receiver, told["resigned"] + 1))
    elif told["epoch"] > record.state[receiver]["epoch"]:
        record.receive(message, receiver, **told, decided=told["epoch"], leads=0)
    else:
        record.receive(message, receiver)


def gossip(record, is_faulty):
    record.state[0].update(leading(0, 1))
    record.begin()
    while record.goes_on():
        roll, process = record.rng.random(), record.anyone()
        if roll < 0.6:
            lead(record, process, is_faulty)
        elif roll < 0.8:
            told = {name: record.state[process][name] for name in ("epoch", "value")}
            record.send(process, record.anyone(process), told)
        elif record.on_way:
            hear(record)
    names, leads = record.names, total(record.names, "leads")
    return [("two_leaders", f"{leads} > 1"), ("one_leader", f"{leads} == 1"), ("no_leader", f"{leads} == 0"),
            ("oversold", f"{total(names, 'sold')} > {len(names)}"),
            ("disagree", some_two(names, "{0}.decided == {1}.decided and {0}.value != {1}.value", 6)),
            ("disagree_first", some_two(names, "{0}.decided == 1 and {1}.decided == 1 and {0}.value != {1}.value", 6)),
            ("ahead", some_two(names, "{}.epoch - {}.epoch > 2", 6)),
            ("one_epoch", " and ".join(f"{p}.epoch == {q}.epoch" for p, q in zip(names, names[1:]))),
            ("all_at_2", each(names, "{}.epoch == 2")),
            ("any_two_lead", some_two(names, "{}.leads == 1 and {}.leads == 1"))]


def serve_lock(record, message, asks, waiting, is_faulty):
    """Has the server hear of a process that it asks for the lock or gives it back, and grant the lock if it can."""
    server = record.state[0]
    record.receive(message, 0)
    if asks is not None:
        waiting.append(asks)
    is_free = asks is None or not server["held"]
    if waiting and (is_free or is_faulty and record.rng.random() < 0.05):
        record.send(0, waiting[0], granted=waiting.pop(0), held=1)
    elif asks is None:
        record.step(0, held=0)


def lock(record, is_faulty):
    record.begin()
    waiting = []
    while record.goes_on():
        roll, process = record.rng.random(), record.rng.randrange(1, len(record.names))
        state = record.state[process]
        if record.rng.random() < record.quiet:
            record.step(process, work=record.rng.randrange(9))
        elif roll < 0.3 and not state["inside"] and not state["waits"]:
            record.send(process, 0, process, waits=1)
        elif roll < 0.6 and state["inside"]:
            record.send(process, 0, inside=0)
        elif record.on_way:
            message, receiver, asks = record.arrive()
            if receiver:
                record.receive(message, receiver, inside=1, waits=0)
            else:
                serve_lock(record, message, asks, waiting, is_faulty)
    clients = record.names[1:]
    inside, waits = total(clients, "inside"), total(clients, "waits")
    return [("two_inside", f"{inside} > 1"), ("most_wait", f"{waits} >= {len(clients) - 1}"),
            ("two_wait", f"{waits} >= 2 and {inside} == 0"),
            ("all_wait", each(clients, "{}.waits == 1") + f" and {inside} == 0"), ("none_inside", f"{inside} == 0"),
            ("not_granted", f"p0.granted == 2 and {total(clients[2:], 'inside')} > 0"),
            ("held_by_none", f"p0.held == 1 and {inside} == 0"), ("nobody", f"{waits} == 0 and {inside} == 0")]


def send_all(record, what, **sets):
    """Has the leader set these variables and send to all others."""
    record.step(0, **sets)
    for process in range(1, len(record.names)):
        record.send(0, process, what)


def answer(record, message, process, index):
    """Has a process receive an entry, and answer if it is new."""
    is_new = index > record.state[process]["acked"]
    record.receive(message, process, **{"acked": index} if is_new else {})
    if is_new:
        record.send(process, 0, ("answer", index))


def quorum(record, is_faulty):
    record.begin()
    leader, others, answers = record.state[0], len(record.names) - 1, 0
    while record.goes_on():
        if record.rng.random() < record.quiet:
            record.step(record.anyone(0))
        elif record.rng.random() < 0.3 and leader["index"] == leader["committed"]:
            answers = 0
            send_all(record, ("entry", leader["index"] + 1), index=leader["index"] + 1)
        elif record.on_way:
            message, receiver, (word, index) = record.arrive()
            if word == "entry":
                answer(record, message, receiver, index)
                continue
            applied = max(index, record.state[receiver]["applied"])
            record.receive(message, receiver, **{"applied": applied} if word == "apply" else {})
            is_open = word == "answer" and leader["committed"] < leader["index"] == index
            answers += is_open
            wanted = len(record.names) // 2 - (is_faulty and record.rng.random() < 0.1)
            if is_open and answers >= wanted:
                send_all(record, ("apply", index), committed=index)
    names, half = record.names[1:], others // 2
    acked, applied = total(names, "acked"), total(names, "applied")
    return [("early", f"p0.committed >= 1 and {acked} < {len(record.names) // 2}"),
            ("behind", f"{others} * p0.committed - {total(names, 'applied', '-')} > {2 * len(record.names)}"),
            ("ahead_of_leader", " or ".join(f"{name}.applied > p0.committed" for name in names)),
            ("apart", some_two(names, "{0}.applied - {1}.applied > 2 or {1}.applied - {0}.applied > 2", 6)),
            ("all_applied", each(names, "{}.applied >= 2")),
            ("split", each(names[:half], "{}.acked >= 2") + f" and {applied} == 0"),
            ("acked", f"{acked} == {2 * len(record.names)}")]


# Of each kind what makes a run, the variables of each process, and the sum of which larger sessions ask more.
KINDS = {
    "ring": (ring, {"tok": 0, "inside": 0, "sent": 0, "got": 0, "work": 0}, "tok"),
    "bank": (bank, {"money": 100, "paid": 0, "taken": 0}, "money"),
    "termination": (termination, {"idle": 1, "sent": 0, "got": 0, "done": 0}, "idle"),
    "gossip": (gossip, {"leads": 0, "sold": 0, "epoch": 0, "decided": 0, "value": 0}, "sold"),
    "lock": (lock, {"inside": 0, "waits": 0, "granted": 0, "held": 0, "work": 0}, "waits"),
    "quorum": (quorum, {"index": 0, "acked": 0, "applied": 0, "committed": 0}, "acked"),
}


def recorded(kind, count, events, is_faulty, seed):
    """A recording of this kind, and its predicates."""
    run, variables, _ = KINDS[kind]
    record = Recording(count, events, random.Random(f"{seed} {kind} {count} {events} {is_faulty}"), **variables)
    return record, run(record, is_faulty)


def write(folder, record, predicates, width):
    """Writes the session into the folder, and gives the names of its files."""
    processes = [{"name": name, "vars": initial} for name, initial in zip(record.names, record.initial)]
    document = {"version": 2, "width": width, "processes": processes,
                "predicates": [{"name": name, "text": text} for name, text in predicates]}
    lines = {"session.json": [document]}
    for name, events in zip(record.names, record.events):
        lines[f"{name}.stream"] = [{"process": name}, *events, {"end": True}]
    for name, values in lines.items():
        with open(os.path.join(folder, name), "w", encoding="utf-8") as file:
            file.writelines(json.dumps(value) + "\n" for value in values)
    return [os.path.join(folder, name) for name in lines]


# The measures.

def judged(program, words, seconds):
    """The lines of the report, or nothing if it takes too long, and the processor seconds."""
    before = resource.getrusage(resource.RUSAGE_CHILDREN)
    ran = subprocess.run([program, "judge", *words, "--beyond-width"], capture_output=True, text=True, check=False,
                         preexec_fn=lambda: resource.setrlimit(resource.RLIMIT_CPU, (seconds, seconds + 5)))
    after = resource.getrusage(resource.RUSAGE_CHILDREN)
    if ran.returncode > 0:
        raise SystemExit(f"sums: status {ran.returncode}: {ran.stdout[:200]}{ran.stderr[:200]}")
    return ran.stdout.splitlines()[1:], after.ru_utime - before.ru_utime + after.ru_stime - before.ru_stime


def counted(lines):
    """How many lines there are for Possibly, and how many of these are unknown, and the same for Definitely."""
    found = []
    for modality in ("possibly", "definitely"):
        answers = [line.split()[2] for line in lines if line.split()[1] == modality]
        found += [len(answers), answers.count("unknown")]
    return found


def row(cells):
    print("| " + " | ".join(map(str, cells)) + " |", flush=True)


def head(*cells):
    row(cells)
    row(["---"] * len(cells))


def judge_kind(given, kind):
    """The row of the kind: what is counted in all of its sessions, how many weren't judged in time, and the seconds of
    the slowest."""
    sums, late, slowest = [0] * 4, 0, 0
    for count, events in SIZES:
        for is_faulty in (False, True):
            with tempfile.TemporaryDirectory() as folder:
                files = write(folder, *recorded(kind, count, events, is_faulty, given.seed), given.width)
                lines, seconds = judged(given.program, files, given.seconds)
            sums = [old + new for old, new in zip(sums, counted(lines))]
            late, slowest = late + (not lines), max(slowest, seconds)
            if given.lines:
                print("\n".join(f"{kind} {count} {events} {is_faulty}: {line[:100]}" for line in lines), flush=True)
    return [*sums, late, round(slowest, 2)]


def judge_sessions(given, kinds):
    head("kind", "Possibly", "unknown", "Definitely", "unknown", "not in time", "slowest, s")
    rows = []
    for kind in kinds:
        rows.append(judge_kind(given, kind))
        row([kind, *rows[-1]])
    *sums, seconds = zip(*rows)
    row(["all", *map(sum, sums), max(seconds)])


def more_predicates(kind, record, predicates):
    """The predicates and so many more of one sum that there are 16."""
    counts, least = total(record.names, KINDS[kind][2]), sum(state[KINDS[kind][2]] for state in record.initial)
    more = [(f"{word}_{number}", f"{counts} {relation} {least + number}") for number in range(1, 9)
            for word, relation in (("over", ">"), ("just", "=="))]
    return (predicates + more)[:16]


def judge_large(given, kinds):
    """The seconds of large sessions of each kind, beside those of reading alone."""
    head("large", "events", "Possibly unknown, of 16", "Definitely unknown", "reading, s", "judging, s", "times")
    for kind in kinds:
        with tempfile.TemporaryDirectory() as folder:
            record, predicates = recorded(kind, *LARGE, False, given.seed)
            files = write(folder, record, more_predicates(kind, record, predicates), given.width)
            _, reading = judged(given.program, [*files, "--ask", "false"], given.seconds)
            lines, seconds = judged(given.program, files, given.seconds)
        _, possibly, _, definitely = counted(lines)
        row([kind, sum(map(len, record.events)), possibly if lines else "late", definitely if lines else "late",
             round(reading, 2), round(seconds, 2), round(seconds / reading, 1)])


CHANGES = {"free": lambda rng, value: rng.randint(-10, 10), "walk": lambda rng, value: value + rng.randint(-10, 10),
           "drift": lambda rng, value: value + rng.randint(-8, 10)}


def talk(kind, every, seed):
    """A run in which each event changes the variable of its process in this way, and one of this many sends or receives
    a message; and the greatest sum that the variables have in it."""
    record = Recording(*LARGE, random.Random(f"{seed} {kind} {every}"), x=0)
    record.begin()
    inboxes, sum_of, greatest = [[] for _ in record.names], 0, 0
    while record.goes_on():
        process, roll = record.anyone(), record.rng.random() * every
        old = record.state[process]["x"]
        new = CHANGES[kind](record.rng, old)
        if roll < 0.5:
            record.send(process, record.anyone(process), x=new)
            message, receiver, _ = record.on_way.pop()
            inboxes[receiver].append(message)
        elif roll < 1 and inboxes[process]:
            record.receive(inboxes[process].pop(0), process, x=new)
        else:
            record.step(process, x=new)
        sum_of += new - old
        greatest = max(greatest, sum_of)
    return record, greatest


def judge_hard(given):
    """The seconds of one predicate on large sessions of values at random, without those of reading."""
    head("hard", "a message for each", "above all, s", "above this run's, s", "below it, s", "equal, s")
    for kind in CHANGES:
        for every in (50, 20, 5):
            record, greatest = talk(kind, every, given.seed)
            counts, cells = total(record.names, "x"), []
            with tempfile.TemporaryDirectory() as folder:
                files = write(folder, record, [("no", "false")], given.width)
                _, reading = judged(given.program, files, given.seconds)
                for test in (f"> {10 ** 9}", f"> {greatest}", f"< -{greatest}", f"== {greatest // 2 + 1}"):
                    lines, seconds = judged(given.program, [*files, "--ask", f"{counts} {test}"], given.seconds)
                    answer_word = lines[0].split()[2] if lines else "late"
                    cells.append(f"{seconds - reading:.2f} {answer_word}")
            row([kind, every, *cells])


def main():
    parser = argparse.ArgumentParser(description=__doc__, formatter_class=argparse.RawDescriptionHelpFormatter)
    parser.add_argument("program")
    parser.add_argument("--width", type=int)
    parser.add_argument("--seconds", type=int, default=300)
    parser.add_argument("--seed", type=int, default=1)
    parser.add_argument("--only", choices=KINDS)
    parser.add_argument("--large", action="store_true")
    parser.add_argument("--lines", action="store_true")
    given = parser.parse_args()
    given.program = os.path.abspath(given.program)
    given.width = given.width or (1 if given.large else DEFAULT_WIDTH)
    kinds = [given.only] if given.only else list(KINDS)
    if not given.large:
        judge_sessions(given, kinds)
        return
    judge_large(given, kinds)
    print()
    judge_hard(given)


if __name__ == "__main__":
    main()
