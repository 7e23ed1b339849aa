"""The sessions that `generate.py shape NAME [NUMBER]` writes: shapes of systems that the table of loads compares.

Each function gives one session. Its seed is fixed, so that it is the same on each machine, and its lines have no
spaces, as those of the recorders. NUMBER is that of the processes, where a shape has several.

wide             8 processes in rounds of 2 local events, after which all tell one of them and are told by it; a sum
                 that no cut satisfies
wide6            6 processes in rounds of 7 local events that end in the same way; a conjunction that no cut satisfies
there_and_back   4, 9, 12 or 14 processes in rounds of local events, and a message from each to the next one and back; a
                 sum that no cut satisfies
two              2 processes of local events and no messages; a sum that no cut satisfies
some             6 processes as in `wide6`; a conjunction that some cuts satisfy
avoid            7 processes in rounds of 4 local events, all told as in `wide`; a sum that some cuts satisfy
deep             3 processes that wait for each other after four events, so that levels are narrow; 3 predicates
definitely_path  4 processes that wait for their neighbours after nine events; a sum that a third of the cuts satisfy,
                 and that one observation avoids
small_predicates 5 processes in rounds of 4 local events; 16 predicates of two or three comparisons
barriers         4, 8 or 12 processes in rounds of local events, after which all tell the first one and are told by it
everyone         4 or 16 processes that send to each other one, and then receive from each; a sum that no cut satisfies
gossip           6, 8 or 10 processes that send to others at random, three messages on their way at a time
server           3, 7 or 15 clients, of which a random one asks the first process and is answered
bursts           a token that goes round 4 or 8 processes, and local events of all of them after each fifty hops
messages         two tokens that go round 8 processes, and a word from each holder to the other one, with ids of 36
                 bytes; levels of three cuts
messages_read    the same, with a predicate that the empty cut satisfies, so that no level is made
chains           the same lines with a cycle at the end, so that the session is refused
ingest           two tokens as in `messages`, and 16 variables with long names, set by each event
ingest_read      the same, with a predicate that the empty cut satisfies
short_lines      8 processes of local events that set one variable, with the same predicate
long_names       4 processes in rounds of a local event and a message to the next one; long names and ids of messages
variables        4 processes in the same rounds, of 16 variables, of which an event sets 4
predicates       6 processes in rounds of 6 local events; 16 predicates of nearly 4,096 bytes
equalities       6 processes in rounds of 6 local events; an `or` of 32 equalities of three terms that no cut satisfies
"""
import json
import random

LONGEST_PREDICATE = 4096


def joined(value):
    return json.dumps(value, separators=(",", ":"))


class Session:
    """A session as it is made: its processes, each with its variables, and the lines of the events of each."""

    def __init__(self, processes, predicates, width=None, variables=("x",), names="p{}"):
        self.names = [names.format(number) for number in range(processes)]
        self.head = {"processes": [{"name": name, "vars": dict.fromkeys(variables, 0)} for name in self.names],
                     "predicates": [{"name": name, "text": text} for name, text in predicates],
                     **({"width": width} if width else {}), **({"version": 2} if processes > 8 else {})}
        self.lists = [[] for _ in self.names]
        self.sent = 0

    def add(self, process, message=None, **values):
        self.lists[process].append(joined({**(message or {}), **({"set": values} if values else {})}))

    def send(self, process, message=None, **values):
        """Sends a message, with an id of its own if none is given, which is the result."""
        self.sent += 1
        message = message or f"m{self.sent}"
        self.add(process, {"send": message}, **values)
        return message

    def receive(self, process, message, **values):
        self.add(process, {"recv": message}, **values)

    def pass_on(self, sender, receiver):
        self.receive(receiver, self.send(sender))

    def meet(self, hub):
        """All others tell one process, and it tells all others."""
        others = [process for process in range(len(self.names)) if process != hub]
        told = [self.send(process) for process in others]
        for message in told:
            self.receive(hub, message)
        told = [self.send(hub) for _ in others]
        for process, message in zip(others, told):
            self.receive(process, message)

    def there_and_back(self):
        """A message goes from each process to the next one, and back."""
        last = len(self.names) - 1
        for process in range(last):
            self.pass_on(process, process + 1)
        for process in range(last, 0, -1):
            self.pass_on(process, process - 1)

    def to_next(self, ids="r{}.{}"):
        """Each process sends to the one before it, and then receives from the one after it."""
        count = len(self.names)
        sent = [self.send(process, ids.format(self.sent, process)) for process in range(count)]
        for process in range(count):
            self.receive(process, sent[(process + 1) % count])

    def parts(self):
        """The line of the document, and the lines of each stream."""
        return joined(self.head), [[joined({"process": name}), *lines, joined({"end": True})]
                                   for name, lines in zip(self.names, self.lists)]


def sum_of(processes, variable="x", names="p{}"):
    return " + ".join(f"{names.format(number)}.{variable}" for number in range(processes))


def even(rng):
    return 2 * rng.randrange(1000)


def in_rounds(session, seed, count, steps, value=even, meet=None):
    """In each round each process sets `x` as often as `steps` says, and then all meet at the next one of them."""
    rng, processes = random.Random(seed), len(session.names)
    for number in range(count):
        for _ in range(steps):
            for process in range(processes):
                session.add(process, x=value(rng))
        if meet:
            meet(session)
        else:
            session.meet(number % processes)
    return session


def wide(size, _):
    return in_rounds(Session(8, [("never", f"{sum_of(8)} == 77777")], 65536), 2, size(60, 2), 2)


def wide6(size, _):
    text = " and ".join([f"p{number}.x > 1200" for number in range(5)] + ["p5.x == 1"])
    return in_rounds(Session(6, [("never", text)], 65536), 2, size(40, 2), 7)


def there_and_back(size, processes):
    steps, count = {4: (12, size(100, 6)), 9: (2, size(20, 2)), 12: (1, size(10, 2)), 14: (1, size(4, 1))}[processes]
    session = Session(processes, [("never", f"{sum_of(processes)} == 77777")], 65536)
    return in_rounds(session, 14, count, steps, meet=Session.there_and_back)


def two(size, _):
    session, rng = Session(2, [("never", "p0.x + p1.x == -1")]), random.Random(15)
    for _ in range(size(4000, 800)):
        for process in range(2):
            session.add(process, x=rng.randrange(100))
    return session


def some(size, _):
    text = " and ".join(f"p{number}.x > 1000" for number in range(3))
    return in_rounds(Session(6, [("some", text)], 65536), 2, size(20, 1), 7)


def avoid(size, _):
    return in_rounds(Session(7, [("some", f"{sum_of(7)} == 7000")], 65536), 8, size(20, 2), 4)


def deep(size, _):
    count, rng = size(2000, 200), random.Random(6)
    session = Session(3, [("never", "p0.x + p1.x + p2.x == 1"),
                          ("late", f"p0.n >= {2 * count - 90} and p2.n >= {2 * count - 90}"),
                          ("gap", "p0.n == p1.n + 2 and p2.n > p0.n")], variables=("x", "n"))
    for number in range(0, 2 * count, 2):
        sent = []
        for process in range(3):
            session.add(process, x=even(rng), n=number)
            session.add(process, n=number + 1)
            sent.append(session.send(process, x=even(rng)))
            session.add(process, x=4)
        for process in range(3):
            session.receive(process, sent[process - 1], n=number + 2)
    return session


def definitely_path(size, _):
    """The events are made in the order of the observation that avoids the sum."""
    count, ahead, goal, rng = size(2500, 250), 9, 5, random.Random(4)
    session = Session(4, [("hit", f"{sum_of(4, 'h')} == {goal}")], 65536, ("h",))
    values, done, sent = [0] * 4, [0] * 4, {}
    while min(done) < count:
        free = [p for p in range(4) if done[p] < min(count, min(done) + ahead // 2 + 1)
                and (done[p] % ahead or done[p] <= min(done[p - 1], done[(p + 1) % 4]))]
        process = rng.choice(free)
        if done[process] % ahead == 0 and done[process]:
            for other in ((process + 1) % 4, (process - 1) % 4):
                session.receive(process, sent.pop((other, process, done[process])))
        rest = sum(values) - values[process]
        values[process] = rng.choice([value for value in range(3) if rest + value != goal])
        session.add(process, h=values[process])
        done[process] += 1
        if done[process] % ahead == 0 and done[process] < count:
            for other in ((process + 1) % 4, (process - 1) % 4):
                sent[process, other, done[process]] = session.send(process)
    return session


def small_predicate(rng, number):
    first, second, third = (rng.randrange(5) for _ in range(3))
    after = (first + 1) % 5
    return (f"p{first}.x + p{after}.x == {2001 + 2 * number}",
            f"p{first}.x > {900 + number} and p{(first + 2) % 5}.x < {2 * number}",
            f"p{first}.x == 1 or p{second}.x - p{third}.x > 1900",
            f"not (p{first}.x < 1990 or p{after}.x < 1990)")[number % 4]


def small_predicates(size, _):
    rng = random.Random(13)
    texts = [(f"q{number}", small_predicate(rng, number)) for number in range(16)]
    return in_rounds(Session(5, texts, 65536), 13, size(100, 6), 4)


def barriers(size, processes):
    steps, count = {4: (3, size(300, 60)), 8: (1, size(300, 12)), 12: (1, size(10, 1))}[processes]
    return in_rounds(Session(processes, [("never", f"{sum_of(processes)} == -1")]), 8, count, steps,
                     lambda rng: rng.randrange(100), lambda session: session.meet(0))


def everyone(size, processes):
    session = Session(processes, [("never", "p0.x + p3.x == -1")])
    for _ in range({4: size(600, 30), 16: size(60, 3)}[processes]):
        sent = {(sender, receiver): session.send(sender) for sender in range(processes)
                for receiver in range(processes) if sender != receiver}
        for receiver in range(processes):
            for sender in range(processes):
                if sender != receiver:
                    session.receive(receiver, sent[sender, receiver])
    return session


def gossip(size, processes):
    count = {6: size(8000, 200), 8: size(4000, 200), 10: size(500, 100)}[processes]
    session = Session(processes, [("never", f"{sum_of(processes)} == -1"),
                                  ("two", "p0.x > 500 and p1.x > 500 and p2.x < 3")])
    rng, on_their_way = random.Random(7), []
    for _ in range(count):
        sender, further = rng.randrange(processes), rng.randrange(1, processes)
        on_their_way.append(((sender + further) % processes, session.send(sender)))
        if len(on_their_way) == 3:
            session.receive(*on_their_way.pop(0))
        if rng.randrange(4) == 0:
            session.add(rng.randrange(processes), x=rng.randrange(1000))
    for receiver, message in on_their_way:
        session.receive(receiver, message)
    return session


def server(size, clients):
    count, rng = {3: size(3000, 500), 7: size(800, 30), 15: size(3000, 500)}[clients], random.Random(9)
    session = Session(clients + 1, [("never", "p0.x + p1.x == -1"), ("busy", "p0.x > 90 and p1.x > 90 and p2.x > 90")])
    for _ in range(count):
        client = rng.randrange(1, clients + 1)
        session.add(client, x=rng.randrange(100))
        session.pass_on(client, 0)
        session.add(0, x=rng.randrange(100))
        session.pass_on(0, client)
    return session


def bursts(size, processes):
    hops, steps = {4: (size(16000, 1500), 5), 8: (size(30000, 1000), 2)}[processes]
    last = processes - 1
    session, rng = Session(processes, [("never", "p0.x + p1.x == -1"), ("late", f"p0.x > 97 and p{last}.x > 97")]), \
        random.Random(10)
    message = None
    for hop in range(hops):
        if message:
            session.receive(hop % processes, message)
        if hop % 50 == 49:
            for process in range(processes):
                for _ in range(steps):
                    session.add(process, x=rng.randrange(100))
        message = session.send(hop % processes)
    session.receive(hops % processes, message)
    return session


def two_tokens(session, count, word, token, values=lambda process: {}, extra=lambda process: None):
    """Two tokens go round at opposite places. At each hop both holders receive, send a word to the other one and
    receive its word, do something of their own, and send."""
    processes, held = len(session.names), [None, None]
    for hop in range(count):
        holders = [hop % processes, (hop + processes // 2) % processes]
        words = []
        for number, process in enumerate(holders):
            if held[number]:
                session.receive(process, held[number], **values(process))
            words.append(session.send(process, word(number, hop), **values(process)))
        for number, process in enumerate(holders):
            session.receive(process, words[1 - number], **values(process))
            extra(process)
            held[number] = session.send(process, token(number, hop), **values(process))
    return session


def messages(size, _, predicates=None):
    count, rng = size(9880, 990), random.Random(3)

    def word(number, hop):
        return f"aside-{number}-{rng.getrandbits(32):08x}-{rng.getrandbits(32):08x}-{hop:06}"

    def token(_, hop):
        return f"msg-{rng.getrandbits(32):08x}-{rng.getrandbits(16):04x}-{rng.getrandbits(16):04x}-{hop:012x}"

    def extra(process):
        done = len(session.lists[process])
        if done % 100 == 3:
            session.add(process, x=2 * (done // 100))
    session = Session(8, predicates or [("never", "p0.x + p4.x == 1"), ("end", f"p7.x == {count // 100 * 2}")])
    return two_tokens(session, count, word, token, extra=extra)


START = [("start", "p0.x == 0")]  # what the empty cut satisfies


def messages_read(size, _):
    return messages(size, _, START)


def chains(size, _):
    session = messages(size, _, [("never", "p0.x == -1")])
    for process in range(8):
        session.receive(process, f"last{(process - 1) % 8}")
        session.send(process, f"last{process}")
        session.add(process, x=1)
    return session


STEMS = ("queue_depth", "bytes_in", "bytes_out", "open_connections", "cache_hits", "cache_misses", "retries", "epoch",
         "lease_counter", "checkpoint_sequence", "heartbeat_age_ms", "replication_lag", "pending_writes", "sessions",
         "errors", "load")
LONG_NAMES = [f"{stem}_total_by_shard_and_tenant_xy"[:24 + 2 * (number % 4)] for number, stem in enumerate(STEMS)]
DIGITS = (3, 8, 12, 4, 8, 5, 2, 4, 6, 8, 4, 5, 3, 10, 2, 3)  # how many digits the numbers of each have at most


def ingest(size, _, predicates=None):
    """The names of the variables have 24 to 30 bytes, and some numbers are negative."""
    names, rng = LONG_NAMES, random.Random(1)

    def values(process):
        numbers = {name: rng.randrange(10 ** digits) - (place % 5 == 4)
                   for place, (name, digits) in enumerate(zip(names, DIGITS))}
        return {**numbers, names[7]: len(session.lists[process])}
    session = Session(8, predicates or [
        ("overload", " and ".join(f"p{number}.{names[0]} > 999999999999" for number in range(8))),
        ("balance", f"p0.{names[1]} + p3.{names[4]} - p5.{names[9]} == 123456789012345"),
        ("late", f"p2.{names[7]} == {size(9990, 396)} and p6.{names[7]} != -1")], variables=names)
    return two_tokens(session, size(7900, 318), "aside-{}/hop-{:06}".format, "token-{}/hop-{:06}".format, values,
                      lambda process: session.add(process, **values(process)))


def ingest_read(size, _):
    return ingest(size, _, [("start", f"p0.{LONG_NAMES[0]} == 0")])


def short_lines(size, _):
    session = Session(8, START)
    for number in range(size(10000, 1000)):
        for process in range(8):
            session.add(process, x=number)
    return session


def long_names(size, _):
    names, variables = "process_with_a_long_name_{}", ("a_variable_with_a_long_name_", "another_variable_with_a_name")
    session, rng = Session(4, [("never", f"{sum_of(4, variables[0], names)} == -1")], None, variables, names), \
        random.Random(12)
    for _ in range(size(3000, 150)):
        for process in range(4):
            session.add(process, **dict(zip(variables, (rng.randrange(1000), rng.randrange(10)))))
        session.to_next("message-" + 36 * "x" + "-{:06}-{}")
    return session


def variables(size, _):
    names, rng = [f"v{number:02}" for number in range(16)], random.Random(11)
    text = " and ".join(f"p{number % 4}.{name} > 900" for number, name in enumerate(names))
    session = Session(4, [("never", f"{text} and p0.v00 == 1000")], variables=names)
    for number in range(size(3000, 100)):
        for process in range(4):
            session.add(process, **{names[(3 * number + 5 * place) % 16]: rng.randrange(1000) for place in range(4)})
        session.to_next()
    return session


def filled(parts, between):
    """As many of the parts as a predicate has room for."""
    text = next(parts)
    for part in parts:
        if len(text) + len(between) + len(part) > LONGEST_PREDICATE - 36:
            return text
        text += between + part
    return text


def large_texts(rng):
    """Texts of predicates: sums of hundreds of terms, and comparisons of one, two or four variables, joined."""
    def term():
        return f"p{rng.randrange(6)}.v{rng.randrange(8)}"

    def texts(make, between):
        return filled(iter(make, None), between)
    for end in ("== -5", "> 1250000", "< -1", "== 7"):
        yield texts(lambda: f"{rng.randrange(1, 10)}*{term()}", " + ") + f" {end}"
    for _ in range(4):
        yield texts(lambda: f"({term()} + {term()} > {1000 + rng.randrange(900)} or {term()} < {term()})", " and ")
    for _ in range(4):
        yield texts(lambda: f"{term()} + {term()} == {2001 + 2 * rng.randrange(50)} and "
                            f"{term()} > {990 + rng.randrange(9)}", " or ")
    for more in (150, 250):
        yield texts(lambda: f"({term()} > {100 + rng.randrange(150)} or {term()} > {100 + rng.randrange(more)})",
                    " and ")
    for _ in range(2):
        yield nested(lambda: f"{term()} + {term()} > {100 + rng.randrange(900)}")


def nested(comparison):
    """Comparisons in sixty pairs of brackets, every third of which is negated, and further ones after these."""
    text = comparison()
    for depth in range(45):
        text = f"{'not ' if depth % 3 == 0 else ''}({comparison()} {('and', 'or')[depth % 2]} {text})"
    return filled(iter([text, *(comparison() for _ in range(200))]), " and ")


def predicates(size, _):
    rng = random.Random(5)
    session = Session(6, [(f"q{number}", text) for number, text in enumerate(large_texts(rng))], 65536,
                      [f"v{number}" for number in range(8)])
    for number in range(size(8, 1)):
        for _ in range(6):
            for process in range(6):
                session.add(process, **{f"v{place}": 2 * rng.randrange(500) for place in range(8) if rng.randrange(2)})
        session.meet(0)
    return session


def equalities(size, _):
    rng = random.Random(9)

    def comparison():
        first, second, third = (f"p{rng.randrange(6)}.x" for _ in range(3))
        return f"{first} + {second} - {third} == {2 * rng.randrange(900) + 1}"
    text = " or ".join(comparison() for _ in range(32))
    return in_rounds(Session(6, [("never", text)], 65536), 9, size(8, 1), 6)


SHAPES = {shape.__name__: shape for shape in (
    wide, wide6, there_and_back, two, some, avoid, deep, definitely_path, small_predicates, barriers, everyone, gossip,
    server, bursts, messages, messages_read, chains, ingest, ingest_read, short_lines, long_names, variables,
    predicates, equalities)}
