#!/usr/bin/env python3
"""test_monitor_mpi.py messages|collectives FOLDER: looks at the streams that test_monitor_mpi has recorded.

messages: a receipt and a send of one id were one message of the program, which says so itself: its sender sets a number
of its own as `sent` with the send, and its receiver sets that number as `got` after the receipt.

collectives: of each collective, between the events that set `before` and `after`, exactly those ranks' calls come
before another one's return that have to. The status is 1 if anything is wrong."""
import collections
import glob
import json
import os
import sys


def streams_of(folder):
    """The events of each rank."""
    found = {}
    for path in glob.glob(os.path.join(folder, "*.stream")):
        with open(path, encoding="utf-8") as file:
            lines = [json.loads(line) for line in file]
        if lines[-1] != {"end": True}:
            sys.exit(f"mpi: {path} has no end line")
        found[int(lines[0]["process"][len("rank"):])] = lines[1:-1]
    if not found:
        sys.exit(f"mpi: there is no stream in {folder}")
    return found


def look_at_messages(streams):
    """How many messages were received as they were sent, or the end."""
    sent = {event["send"]: event["set"]["sent"] for events in streams.values() for event in events
            if event.get("send", "").startswith("m")}
    if len(set(sent.values())) != len(sent):
        sys.exit("mpi: two sends have one number")
    for rank, events in streams.items():
        recorded = [sent.get(event["recv"]) for event in events if event.get("recv", "").startswith("m")]
        got = [event["set"]["got"] for event in events if "got" in event.get("set", {})]
        if len(got) != len(recorded):
            sys.exit(f"mpi: rank {rank} has received {len(got)} messages, of which {len(recorded)} are recorded")
        for place, (one, other) in enumerate(zip(recorded, got)):
            if one != other:
                sys.exit(f"mpi: receipt {place} of rank {rank} is recorded as that of {one}, and was that of {other}")
    return len(sent)


def causes(streams):
    """For each event the number of events of each rank that come before it, itself counted."""
    senders = {event["send"]: (rank, place) for rank, events in streams.items() for place, event in enumerate(events)
               if "send" in event}
    known = {}
    ready = collections.deque((rank, 0) for rank in streams)
    waiting = collections.defaultdict(list)
    while ready:
        rank, place = ready.popleft()
        if place == len(streams[rank]):
            continue
        needed = senders.get(streams[rank][place].get("recv"))
        if needed is not None and needed not in known:
            waiting[needed].append((rank, place))
            continue
        before = known.get((rank, place - 1), {})
        other = known.get(needed, {})
        known[rank, place] = {each: max(before.get(each, 0), other.get(each, 0)) for each in streams}
        known[rank, place][rank] = place + 1
        ready.extend([(rank, place + 1), *waiting.pop((rank, place), [])])
    if len(known) != sum(map(len, streams.values())):
        sys.exit("mpi: the order contradicts itself")
    return known


def wanted_orders(ranks):
    """For each collective of the test the pairs of ranks (i, j) where the call of i comes before the return of j."""
    def pairs(holds):
        return {(i, j) for i in range(ranks) for j in range(ranks) if i != j and holds(i, j)}

    everyone = pairs(lambda i, j: True)
    late_give, late_get = pairs(lambda i, j: i >= 3), pairs(lambda i, j: j >= 3)
    next_one, earlier = pairs(lambda i, j: j == (i + 1) % ranks), pairs(lambda i, j: i < j)
    scatterv, halves = pairs(lambda i, j: i == 0 and j % 2 == 0), pairs(lambda i, j: i % 2 == j % 2)
    bcast, reduced = pairs(lambda i, j: i == 2), pairs(lambda i, j: j == 1)
    return [everyone, bcast, set(), reduced, pairs(lambda i, j: j == 3), pairs(lambda i, j: i % 2 == 1 and j == 0),
            pairs(lambda i, j: i == 4), scatterv, everyone, everyone, late_give, everyone, next_one, late_get, everyone,
            earlier, earlier, halves, everyone, bcast, reduced, scatterv, late_give, next_one, late_get, earlier,
            halves]


def look_at_collectives(streams):
    """How many collectives impose the order that they should, or the end."""
    known = causes(streams)
    places = {(rank, name, value): place for rank, events in streams.items() for place, event in enumerate(events)
              for name, value in event.get("set", {}).items()}
    wanted = wanted_orders(len(streams))
    for number, pairs in enumerate(wanted, 1):
        for name, expected in (("before", pairs), ("middle", set())):
            found = {(i, j) for i in streams for j in streams if i != j and (i, name, number) in places
                     and known[j, places[j, "after", number]][i] > places[i, name, number]}
            if found != expected:
                sys.exit(f"mpi: collective {number}: {name}: missing {expected - found}, and too many "
                         f"{found - expected}")
    return len(wanted)


def main():
    what, folder = sys.argv[1:]
    streams = streams_of(folder)
    if what == "messages":
        print(f"mpi: {look_at_messages(streams)} messages of {len(streams)} ranks are recorded as they were sent")
    else:
        print(f"mpi: {look_at_collectives(streams)} collectives impose the order that they should")


if __name__ == "__main__":
    main()
