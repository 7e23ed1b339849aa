"""For the tests of monitor_reduce: the facts on single events, processes and messages by which a session that is made
of a window of a run has the answers of that window. docs/LONG-RUNS.md says why they are enough."""


def faults(whole, window, rows, names):
    """What is wrong with a session that is made of a run, as to these predicates, by the rows of its map."""
    origins = {place: origin_of(whole, window, rows, place) for place in window.session.places
               if row_of(window, rows, place)["seen"]}
    yield from faults_of_messages(whole, window, origins)
    yield from faults_of_views(whole, window, rows, origins, names)


def row_of(window, rows, place):
    return rows[window.session.names[place[0]], place[1]]


def origin_of(whole, window, rows, place):
    """The place in the run of an event, or of the one before the first if the number is 0."""
    row = row_of(window, rows, place)
    return whole.session.names.index(row["process"]), row["number"]


def comes_to(receipt, place):
    """Whether a message that is received there comes to an event: it receives it, or an earlier one of its process."""
    return receipt[0] == place[0] and receipt[1] <= place[1]


def faults_of_messages(whole, window, origins):
    messages = [(send, receipt) for receipt in window.session.of_kind("recv")
                for send in window.session.with_id_of(receipt, window.session.of_kind("send"))]
    for send, receipt in messages:
        if send not in origins:
            yield f"{send} sends, and isn't kept"
    sent = {(send, place) for send, receipt in messages for place in origins if comes_to(receipt, place)}
    for first, later in sent:
        if (origins.get(first), origins[later]) not in whole.before:
            yield f"{first} sends to {later}, which it didn't happen before"
    for first in origins:
        for later in origins:
            if first[0] == later[0] and (first < later) != (origins[first] < origins[later]):
                yield f"{first} and {later} have another order in their process"
            if first[0] != later[0] and are_neighbors(whole, origins, first, later) and (first, later) not in sent:
                yield f"{first} doesn't send to its neighbor {later}"


def are_neighbors(whole, origins, first, later):
    first, later = origins[first], origins[later]
    return (first, later) in whole.before and not any(
        (first, it) in whole.before and (it, later) in whole.before for it in origins.values())


def faults_of_views(whole, window, rows, origins, names):
    processes = range(len(window.session.names))
    for place in [*((process, 0) for process in processes), *origins]:
        if window.view(*place, names) != whole.view(*origin_of(whole, window, rows, place), names):
            yield f"the predicates see something else after {place}"
    for place in window.seen(names):
        if place not in origins:
            yield f"{place} is seen, and isn't kept"
