#!/usr/bin/env python3
"""drawn.py [PROGRAM] [--count N] [--seed S] [--only K]: draws small sessions at random, has the program judge them, and
compares its reports with those of a plain judge.

The plain judge is written from the definitions in docs/SPECIFICATION.md, with no thought of speed: happened-before is
closed as a relation, cuts are all counts of events that are closed under it, and if a session has few observations,
Definitely is judged by all of them too. PROGRAM is ../crates/monitor/out/monitor if it isn't given. Each session is
judged as a bundle; one of four also from files, by 2 and 16 workers, and its report is checked, as it is and forged.
These are judged with --beyond-width too, with their own width, with width 1 and with 2 or 3, and those reports are
checked. With three processes or more they have up to ten predicates more for that, of sums over several processes and
of what holds near the full cut, judged from the definitions in crates/def_wide/specs: slices, excesses and steps are
looked at cut by cut, dead ends of the search back too, and if there are few observations by all lists of undone events,
gates are all counts around each event, and tried cuts the ends of these. Half of the sessions are of version 2, in which a message may have several
receivers. One of three has 7 to 16 processes, of which few have events. Each kind of line has to stand in the reports
and findings so often that the drawing can't go empty. The last line says how many sessions there are, how often the
program ran, and how many sessions differ; the status is 1 if any does, or if lines are missing. With --only the session
K is drawn alone.
"""
import argparse
import collections
import concurrent.futures
import functools
import itertools
import json
import math
import operator
import os
import random
import re
import subprocess
import sys
import tempfile

from run import Differs, HERE, Place, checked

# How many observations a session has at most if all of them are looked at.
FEW = 2600
# What stands in lines, and in how many lines of 600 sessions at least. One line for each session says how many
# receivers its messages have at most, and what came of it; one for each answer that was unknown says what it is with
# --beyond-width, and why, what the predicate is like if sums were asked, and for Definitely how many dead ends there
# are, and what the least gate is like; one for each predicate of which the first satisfying cut isn't the first by
# height says which of them it is; all others are the program's.
LINES_WANTED = {
    "session 1 ": 15, "session 2 ": 45, "session 3 ": 60, "session 4 ": 4,
    "session 7 ": 6, "session 8 ": 6, "session 9 ": 12, "session 15 ": 6, "session 16 ": 12,
    " 0 messages": 40, " [12] messages": 40, " [3-6] messages": 30,
    " possibly yes .*[1-9]": 80, " possibly no": 80, " possibly unknown ": 40,
    " definitely yes [1-9]": 40, " definitely no .*,": 80, " definitely unknown ": 40,
    "refused cycle .*,": 15, "refused cycle .*,.*,": 2, "refused sendtwice ": 4, "refused orphan ": 4,
    "refused selfmessage ": 2, "refused receivedtwice ": 4, "refused spec version": 2, "session bad": 3,
    "version 1, one receiver, judged": 80, "version 1, [2-9] receivers, refused": 4,
    "version 2, one receiver, judged": 50, "version 2, 2 receivers, judged": 18, "version 2, 3 receivers, judged": 1,
    "version 2, [2-9] receivers, cycle": 5, "version 2, [2-9] receivers, refused": 6,
    " possibly good": 20, " possibly bad": 40, " definitely good": 30, " definitely bad": 30,
    "width, of two, local: .* yes": 16, "width, of two, local: .* no": 30,
    "width, of two, mixed: .* yes": 3, "width, of two, mixed: .* no": 6,
    "width, conjunction: .* yes": 6, "width, conjunction: .* no": 15,
    "width, clause: .* yes": 3, "width, clause: .* no": 3,
    "width, terms: Possibly yes": 4, "width, terms: Possibly no": 2, "width, terms: Definitely no": 2,
    "width, parts: Possibly yes": 2, "width, parts: Possibly no": 2, "width, parts: Definitely no": 2,
    "width, undecided: Possibly unknown": 6, "width, undecided: Definitely unknown": 12,
    "width, sums: Possibly yes": 60, "width, sums: Possibly no": 40, "width, sums: Definitely no": 40,
    "first by height, which": 4, "first by level, which": 1,
    "sums: .*; of three; ": 100, "sums: .*; of many; ": 5, "sums: .*; weights; ": 40, "sums: .*; minus; ": 50,
    "sums: .*; not; ": 40, "sums: .*; by ones; ": 60, "sums: .*; beside local; ": 50, "sums: .*; or; ": 10,
    "sums: .*; no term": 1, "sums: .*; named for nothing; ": 8, "sums: .*; thousands; ": 1,
    "sums: .*; solved <(;|$)": 3, "sums: .*; solved <=(;|$)": 3, "sums: .*; solved >(;|$)": 5,
    "sums: .*; solved >=(;|$)": 5, "sums: .*; solved !=(;|$)": 6,
    "sums: .*; solved == never above(;|$)": 4, "sums: .*; solved == never below(;|$)": 2,
    "sums: .*; solved == least(;|$)": 1, "sums: .*; solved == rises by one(;|$)": 2,
    "sums: .*; solved == falls by one(;|$)": 1,
    "sums: .*; excluded ==(;|$)": 10, "sums: .*; excluded [^=o ]+(;|$)": 5, "sums: .*; excluded of [2-5](;|$)": 10,
    "sums: .*; no slice(;|$)": 20, "sums: .*; local(;|$)": 1,
    "undecided: Possibly .*; open ==(;|$)": 12, "undecided: Possibly .*; open of [2-5](;|$)": 10,
    "undecided: Possibly .*; open many": 1,
    "undecided: Possibly .*; (solved|excluded|no slice)": 1,
    "undecided: Possibly .*; in truth yes": 3, "undecided: Possibly .*; in truth no": 30,
    "width, tried: Possibly yes": 150, "tried: .*; tried: least; ": 60, "tried: .*; tried: greatest; ": 12,
    "tried: .*; tried: back; ": 10, "tried: .*; exact": 90, "tried: .*; not the first": 30,
    "tried: Possibly .*; open ==(;|$)": 60, "tried: Possibly .*; open == beside": 5,
    "tried: Possibly .*; open of [2-5](;|$)": 30, "tried: Possibly .*; open many": 1,
    "width, back: Definitely no": 150, "back: .*; dead ends: none": 120, "back: .*; dead ends: few": 3,
    "back: .*; dead ends: as many as the width": 8, "back: .*; too many cuts": 1,
    "width, gate: Definitely yes": 100, "gate: .*; right after;": 30, "gate: .*; right before;": 3,
    "gate: .*; right after and before;": 40, "gate: .*; exact": 60, "gate: .*; above": 20,
    "gate: .*; ends too": 60, "gate: .*; dead ends: (one too )?many": 20, "gate: .*; dead ends: [^n].*; ends too": 4,
    "width, end: Definitely yes": 50, "end: .*; dead ends: none": 40, "end: .*; dead ends: few": 1,
    "end: .*; dead ends: as many as the width": 2, "end: .*; too many cuts": 2,
    "undecided: Definitely .*; dead ends: one too many; in truth no": 2,
    "undecided: Definitely .*; dead ends: one too many; in truth yes": 2,
    "undecided: Definitely .*; in truth no": 8, "undecided: Definitely .*; in truth yes": 12,
}
RELATIONS = {"==": operator.eq, "!=": operator.ne, "<": operator.lt, "<=": operator.le, ">": operator.gt,
             ">=": operator.ge}
OPPOSITES = {"==": "!=", "!=": "==", "<": ">=", "<=": ">", ">": "<=", ">=": "<"}
# How many terms a predicate has at most that is decided by them.
TERM_LIMIT = 4096


class Event:
    """What an event does: its kind is `local`, `send` or `recv`; and what it sets."""

    def __init__(self, sets):
        self.kind, self.id, self.sets = "local", None, sets


class Session:
    """Processes with their variables and events, predicates, a width and a version, which is None if it is another one
    than 1 and 2; `fields` says it in the document. A place is the number of a process, from 0, and the number of its
    event, from 1."""

    def __init__(self, names, initial, events, version, fields):
        self.names, self.initial, self.events, self.version, self.fields = names, initial, events, version, fields
        self.places = [(process, number) for process, of_process in enumerate(events)
                       for number in range(1, len(of_process) + 1)]
        self.predicates, self.width = [], 4096
        self.value_at = functools.cache(self.value_at)

    def value_at(self, process, count, variable):
        """The value that the last of so many events of the process gave the variable, else the initial one."""
        for event in reversed(self.events[process][:count]):
            if variable in event.sets:
                return event.sets[variable]
        return self.initial[process][variable]

    def at(self, place):
        return self.events[place[0]][place[1] - 1]

    def of_kind(self, kind):
        return [place for place in self.places if self.at(place).kind == kind]

    def with_id_of(self, place, places):
        return [other for other in places if self.at(other).id == self.at(place).id]


# The plain judge.

def first_fault(session):
    """What is wrong with the messages, and where."""
    sends, receipts = session.of_kind("send"), session.of_kind("recv")
    for place in sends:
        if any(other < place for other in session.with_id_of(place, sends)):
            return "sendtwice", place
    for place in receipts:
        sent = session.with_id_of(place, sends)
        if not sent:
            return "orphan", place
        if sent[0][0] == place[0]:
            return "selfmessage", place
        earlier = [other for other in session.with_id_of(place, receipts) if other < place]
        if any(session.version == 1 or other[0] == place[0] for other in earlier):
            return "receivedtwice", place
    return None


def happened_before(session):
    """The least transitive relation that holds from an earlier to a later event of one process and from a message's
    send to its receipt."""
    relation = {(first, later) for first in session.places for later in session.places
                if first[0] == later[0] and first[1] < later[1]}
    for receipt in session.of_kind("recv"):
        relation |= {(send, receipt) for send in session.with_id_of(receipt, session.of_kind("send"))}
    while True:
        after = collections.defaultdict(set)
        for first, later in relation:
            after[first].add(later)
        longer = {(first, last) for first, middle in relation for last in after[middle]}
        if longer <= relation:
            return relation
        relation |= longer


def cycle(session, before):
    """The places of the cycle that is reported, if some event happened before itself."""
    cyclic = {place for place in session.places if (place, place) in before}
    stuck = cyclic | {place for first in cyclic for place in session.places if (first, place) in before}
    if not stuck:
        return None
    first_stuck = {process: min(place for place in stuck if place[0] == process) for process, _ in stuck}
    taken, place = [], first_stuck[min(first_stuck)]
    while place[0] not in [process for process, _ in taken]:
        taken.append(place)
        send, = session.with_id_of(place, session.of_kind("send"))
        place = first_stuck[send[0]]
    return taken[[process for process, _ in taken].index(place[0]):]


def counts_up_to(session):
    """All counts of events, one for each process."""
    return itertools.product(*[range(len(events) + 1) for events in session.events])


def consistent_cuts(session, before):
    """All consistent cuts, those of each level in lexicographic order."""
    def closed(cut):
        return all(first[1] <= cut[first[0]] for first, later in before if later[1] <= cut[later[0]])
    return sorted(filter(closed, counts_up_to(session)), key=by_level)


def holds(session, cut, predicate):
    """Whether the state at the cut satisfies the predicate."""
    word, *parts = predicate
    if word in ("true", "false"):
        return word == "true"
    if word == "not":
        return not holds(session, cut, parts[0])
    if word in ("and", "or"):
        return (all if word == "and" else any)(holds(session, cut, part) for part in parts)
    return RELATIONS[word](excess(session, cut, predicate), 0)


def excess(session, cut, comparison):
    """By how much the left sum of a comparison is more than the right one at a cut."""
    more = 0
    for side, terms in zip((1, -1), comparison[1:]):
        for sign, factor, reference in terms:
            value = session.value_at(reference[0], cut[reference[0]], reference[1]) if reference else 1
            more += side * sign * factor * value
    return more


def named_by(comparison):
    """The processes that a comparison names."""
    return {reference[0] for terms in comparison[1:] for _, _, reference in terms if reference}


def moving(comparison):
    """The processes whose variables make a difference to a comparison."""
    factors = collections.Counter()
    for side, terms in zip((1, -1), comparison[1:]):
        for sign, factor, reference in terms:
            factors[reference] += side * sign * factor
    return {reference[0] for reference, factor in factors.items() if reference and factor}


def comparisons(predicate):
    word, *parts = predicate
    return [predicate] if word in RELATIONS else [it for part in parts for it in comparisons(part)]


def pushed_down(predicate, negated=False):
    """The predicate with its negations pushed down: `or`s and `and`s alone, each other part being a leaf."""
    word, *parts = predicate
    if word == "not":
        return pushed_down(parts[0], not negated)
    if word not in ("and", "or"):
        return ("leaf",)
    word = word if not negated else "or" if word == "and" else "and"
    return (word, *[pushed_down(part, negated) for part in parts])


def term_count(tree):
    """How many terms the predicate with these `or`s and `and`s has once it is multiplied out."""
    word, *parts = tree
    return {"leaf": math.prod, "and": math.prod, "or": sum}[word](map(term_count, parts))


def is_or(tree):
    word, *parts = tree
    return word != "and" and all(map(is_or, parts))


def parts_of(predicate, negated=False):
    """The parts of the predicate as an `or`, or of its opposite: an `and` under a `not` is an `or`, too."""
    word, *parts = predicate
    if word == "not":
        return parts_of(parts[0], not negated)
    if word == ("and" if negated else "or"):
        return [it for part in parts for it in parts_of(part, negated)]
    return [("not", predicate) if negated else predicate]


def ways(session, predicate, satisfying):
    """Why Possibly of the predicate is decided without the levels, and why Definitely is: nothing if it isn't."""
    whole = whole_ways(session, predicate, satisfying)
    if whole[0] or not all(whole_ways(session, part, True)[0] for part in parts_of(predicate)):
        return whole
    return ["parts", None if satisfying else "parts"]


def whole_ways(session, predicate, satisfying):
    """The same without the parts of an `or`."""
    named_there, tree = [named_by(it) for it in comparisons(predicate)], pushed_down(predicate)
    is_local = all(len(processes) < 2 for processes in named_there)
    if len(session.names) > 1 and len(set().union(*named_there)) < 3:
        return ["of two, local" if is_local else "of two, mixed"] * 2
    if not is_local or term_count(tree) > TERM_LIMIT:
        return [None, None]
    if term_count(tree) == 1 or is_or(tree):
        return ["conjunction" if term_count(tree) == 1 else "clause"] * 2
    return ["terms", None if satisfying else "terms"]


def is_local(comparison):
    return len(named_by(comparison)) < 2


def terms_of(predicate, negated=False):
    """The predicate, or its opposite, as an `or` of terms, each of which is a list of comparisons that have to hold."""
    word, *parts = predicate
    if word == "not":
        return terms_of(parts[0], not negated)
    if word in ("true", "false"):
        return [[]] if (word == "true") != negated else []
    if word in RELATIONS:
        return [[(OPPOSITES[word] if negated else word, *map(tuple, parts))]]
    of_parts = [terms_of(part, negated) for part in parts]
    if word == ("and" if negated else "or"):
        return [term for terms in of_parts for term in terms]
    return [[it for term in terms for it in term] for terms in itertools.product(*of_parts)]


def is_excluded(relation, excesses):
    """Whether none of these excesses satisfies a comparison and, for `==`, all of them are on one side of 0."""
    if relation == "==":
        return all(it < 0 for it in excesses) or all(it > 0 for it in excesses)
    return not any(RELATIONS[relation](it, 0) for it in excesses)


def changes_by_ones(session):
    """Whether no event changes a variable by more than 1."""
    for initial, events in zip(session.initial, session.events):
        values = dict(initial)
        for event in events:
            if any(abs(value - values[name]) > 1 for name, value in event.sets.items()):
                return False
            values.update(event.sets)
    return True


class Sums:
    """What is decided by sums over several processes, by a look at all cuts of a session."""

    def __init__(self, session, cuts):
        self.session, self.cuts = session, cuts
        self.excesses, self.holding = functools.cache(self.excesses), functools.cache(self.holding)
        self.small_steps = functools.cache(self.small_steps)

    def excesses(self, comparison):
        """The excess at each consistent cut."""
        return {cut: excess(self.session, cut, comparison) for cut in self.cuts}

    def holding(self, comparison):
        """The consistent cuts at which the comparison holds."""
        return {cut for cut, more in self.excesses(comparison).items() if RELATIONS[comparison[0]](more, 0)}

    def slice_of(self, term):
        """The consistent cuts at which each comparison of the term holds that names one process at most."""
        return set(self.cuts).intersection(*[self.holding(it) for it in term if is_local(it)])

    def small_steps(self, comparison):
        """That the excess is below 0 at the empty cut and no event adds more than 1 to it, or that it is above 0 there
        and none takes more than 1 from it; whatever has happened when the event does, consistent or not."""
        at = {counts: excess(self.session, counts, comparison) for counts in counts_up_to(self.session)}
        changes = [at[counts] - at[undone(counts, process)]
                   for counts in at for process in range(len(counts)) if counts[process]]
        first = at[self.cuts[0]]
        if first < 0 and all(it <= 1 for it in changes):
            return "rises by one"
        return "falls by one" if first > 0 and all(it >= -1 for it in changes) else None

    def equality_as(self, term, comparison, cuts):
        """How `==` is decided over these cuts of the slice, where it is the only sum of the term."""
        row, least, steps = self.excesses(comparison), tuple(map(min, zip(*cuts))), self.small_steps(comparison)
        found = {"never above": all(row[cut] <= 0 for cut in cuts), "never below": all(row[cut] >= 0 for cut in cuts),
                 "least": least in cuts and row[least] == 0, steps: bool(steps) and term == [comparison]}
        reasons = " and ".join(reason for reason in found if found[reason])
        return f"solved == {reasons}" if reasons else "open ==" + (f" beside, {steps}" if steps else "")

    def decided_as(self, term):
        """How the term is decided; it begins with `open` if it isn't."""
        cuts, sums = self.slice_of(term), [it for it in term if not is_local(it)]
        if not cuts or not sums:
            return "local" if cuts else "no slice"
        excluded = [it[0] for it in sums if is_excluded(it[0], [self.excesses(it)[cut] for cut in cuts])]
        if excluded or len(sums) > 1:
            return f"{'excluded' if excluded else 'open'} {f'of {len(sums)}' if len(sums) > 1 else excluded[0]}"
        return self.equality_as(term, sums[0], cuts) if sums[0][0] == "==" else f"solved {sums[0][0]}"

    def decisions(self, predicate):
        """How each term of the predicate is decided, or that there are too many."""
        if term_count(pushed_down(predicate)) > TERM_LIMIT:
            return ["open many"]
        return [self.decided_as(term) for term in terms_of(predicate)]


def undone(cut, process):
    """The cut without the last event of this process."""
    return (*cut[:process], cut[process] - 1, *cut[process + 1:])


def by_level(cut):
    """The key of the order of levels, and within one in lexicographic order."""
    return sum(cut), cut


def by_height(cut):
    """The key of the order by greatest counts, and of one greatest count in lexicographic order."""
    return max(cut), cut


def has_not(predicate):
    word, *parts = predicate
    return word == "not" or word in ("and", "or") and any(map(has_not, parts))


def described(session, predicate, decisions):
    """What a line says of a predicate whose terms are decided so, or aren't."""
    sums = [it for it in comparisons(predicate) if not is_local(it)]
    references = [(sign, factor) for it in sums for terms in it[1:] for sign, factor, reference in terms if reference]
    most = max([len(named_by(it)) for it in sums], default=0)
    marks = {"of three": most > 2, "of many": most > 6, "by ones": changes_by_ones(session), "not": has_not(predicate),
             "weights": any(factor > 1 for _, factor in references), "minus": any(sign < 0 for sign, _ in references),
             "beside local": any(map(is_local, comparisons(predicate))), "no term": not decisions,
             "named for nothing": any(len(moving(it)) < len(named_by(it)) for it in sums),
             "or": len(decisions) > 1, "thousands": len(decisions) > 1000}
    said = [mark for mark in marks if marks[mark]] + sorted(set(decisions))
    return "; ".join(["", *said])


def possibly(cuts, satisfying, width):
    """The answer of all consistent cuts, in the order of their levels."""
    over = [level for level, count in collections.Counter(map(sum, cuts)).items() if count > width]
    found = [cut for cut in cuts if cut in satisfying]
    if over and not any(sum(cut) < over[0] for cut in found):
        return f"unknown {over[0]}"
    return "yes " + ",".join(map(str, found[0])) if found else "no"


def avoiding_cuts(cuts, satisfying):
    """The cuts that avoid, of all consistent cuts in the order of their levels: they don't satisfy, and are empty or
    have an event that can be undone so that a cut is left that avoids."""
    found = set()
    for cut in cuts:
        before = [undone(cut, process) for process in range(len(cut)) if cut[process]]
        if cut not in satisfying and (not before or found.intersection(before)):
            found.add(cut)
    return found


def printed_steps(full, avoiding):
    """The processes of the avoiding observation that is printed, if the full cut avoids."""
    steps, cut = [], full
    while sum(cut):
        process = min(process for process in range(len(cut)) if cut[process] and undone(cut, process) in avoiding)
        steps.insert(0, process)
        cut = undone(cut, process)
    return steps


def definitely(session, cuts, satisfying, width):
    """The answer of the avoiding cuts."""
    avoiding, full = avoiding_cuts(cuts, satisfying), cuts[-1]
    levels = collections.Counter(map(sum, avoiding))
    for level in range(sum(full) + 1):
        if levels[level] > width:
            return f"unknown {level}"
        if not levels[level]:
            return f"yes {level}"
    return "no " + named(session, printed_steps(full, avoiding))


def starts_before(full, steps):
    """The cuts in which a list of undone events ends that first differs there from the one of these steps, by a process
    that is less."""
    starts, cut = [], full
    for process in reversed(steps):
        starts += [undone(cut, other) for other in range(process) if cut[other]]
        cut = undone(cut, process)
    return starts


def led_back(open_cuts, starts):
    """The cuts to which one comes back from these, an event at a time, through open cuts alone: consistent cuts that
    don't satisfy."""
    found, left = set(), list(starts)
    while left:
        cut = left.pop()
        if cut in open_cuts and cut not in found:
            found.add(cut)
            left += [undone(cut, process) for process in range(len(cut)) if cut[process]]
    return found


def undone_lists(open_cuts, cut, processes=()):
    """The same, each cut with each list of the processes whose events are undone on a way to it."""
    if cut not in open_cuts:
        return
    yield processes, cut
    for process in range(len(cut)):
        if cut[process]:
            yield from undone_lists(open_cuts, undone(cut, process), (*processes, process))


def is_lex_below(processes, others):
    """Whether the first one in which these two lists differ is less in the first list; a list that the other one begins
    with isn't below it, nor that one below the list."""
    return next((one < other for one, other in zip(processes, others) if one != other), False)


def includes(counts, place):
    return place[1] <= counts[place[0]]


def is_surely(session, predicate, value, counts_there):
    """Whether the predicate has this value at all of these counts, as its comparisons tell, each by itself: one holds
    if its opposite is excluded, and doesn't hold if it is excluded itself."""
    word, *parts = predicate
    if word in ("true", "false"):
        return (word == "true") == value
    if word == "not":
        return is_surely(session, parts[0], not value, counts_there)
    if word in ("and", "or"):
        each = [is_surely(session, part, value, counts_there) for part in parts]
        return all(each) if (word == "and") == value else any(each)
    excesses = [excess(session, counts, predicate) for counts in counts_there]
    return is_excluded(OPPOSITES[word] if value else word, excesses)


class Late:
    """What is found of Definitely by a search back from the full cut, and by gates; and of Possibly by tried cuts."""

    def __init__(self, session, before, cuts, has_few):
        self.session, self.before, self.cuts, self.has_few = session, before, cuts, has_few
        self.around, self.tried = functools.cache(self.around), functools.cache(self.tried)

    def seen(self, predicate, cut):
        """The counts of a cut, with 0 in the place of each process that the predicate doesn't name."""
        processes = set().union(*map(named_by, comparisons(predicate)))
        return tuple(count if process in processes else 0 for process, count in enumerate(cut))

    def dead_ends(self, predicate, satisfying):
        """The dead ends of the search back that come before the printed path, or all if no observation avoids; and what
        the predicate sees of them."""
        full, avoiding = self.cuts[-1], avoiding_cuts(self.cuts, satisfying)
        steps = printed_steps(full, avoiding) if full in avoiding else None
        open_cuts = set(self.cuts) - satisfying
        found = led_back(open_cuts, [full] if steps is None else starts_before(full, steps)) - avoiding
        if self.has_few:
            listed = {cut for processes, cut in undone_lists(open_cuts, full)
                      if cut not in avoiding and (steps is None or is_lex_below(processes, steps[::-1]))}
            if listed != found:
                raise Differs(f"all lists of undone events lead to the dead ends {listed}, the cuts to {found}")
        return found, {self.seen(predicate, cut) for cut in found}

    def around(self, place, is_after):
        """All counts right after the event at this place, or right before it: they include all that happened before it,
        and nothing that it happened before, and the event itself or not."""
        past = [first for first, later in self.before if later == place]
        later = [later for first, later in self.before if first == place]
        return [counts for counts in counts_up_to(self.session)
                if all(includes(counts, it) for it in past) and not any(includes(counts, it) for it in later)
                and includes(counts, place) == is_after]

    def gates(self, predicate):
        """The level of each gate of the predicate, and the side of the event where it is: a gate is where it surely
        holds, and its level is the greatest number of events there."""
        for place, is_after in itertools.product(self.session.places, (False, True)):
            counts_there = self.around(place, is_after)
            if is_surely(self.session, predicate, True, counts_there):
                yield max(map(sum, counts_there)), "after" if is_after else "before"

    def way_back(self):
        """The cuts from the full one back, of which each next one is without the last event of the least process that
        leaves a consistent cut."""
        cuts, cut = set(self.cuts), self.cuts[-1]
        while cut is not None:
            yield cut
            less = (undone(cut, process) for process in range(len(cut)) if cut[process])
            cut = next((it for it in less if it in cuts), None)

    def tried(self):
        """The cuts that are tried, each with why it is: the least and the greatest of all counts right before and right
        after each event, and those on the way back."""
        found = collections.defaultdict(set)
        for cut in self.way_back():
            found[cut].add("back")
        for place, is_after in itertools.product(self.session.places, (False, True)):
            for why, choose in (("least", min), ("greatest", max)):
                counts_there = self.around(place, is_after)
                counts = tuple(map(choose, zip(*counts_there)))
                if counts in counts_there:
                    found[counts].add(why)
        return found

    def first_tried(self, satisfying):
        """The first tried cut that satisfies, and why it is tried; nothing if none does."""
        cut = min((cut for cut in self.tried() if cut in satisfying), key=by_level, default=None)
        return cut, self.tried().get(cut)


def named(session, steps):
    return ",".join(session.names[process] for process in steps) or "-"


def observation_count(cuts):
    """How many observations there are: one comes to the empty cut, and to another one all that come to a cut with one
    event less."""
    coming = {}
    for cut in cuts:
        less = [undone(cut, process) for process in range(len(cut)) if cut[process]]
        coming[cut] = sum(coming.get(before, 0) for before in less) if less else 1
    return coming[cuts[-1]]


def observations(cuts, full, cut):
    """All lists of consistent cuts from this one to the full one, each next one having exactly one event more."""
    if cut == full:
        yield [cut]
    for process in range(len(cut)):
        longer = (*cut[:process], cut[process] + 1, *cut[process + 1:])
        if longer in cuts:
            for rest in observations(cuts, full, longer):
                yield [cut, *rest]


def step_between(cut, longer):
    return next(process for process in range(len(cut)) if cut[process] != longer[process])


def undoing(passed):
    """The processes whose events an observation undoes, from the full cut backward."""
    return [step_between(cut, longer) for cut, longer in zip(passed, passed[1:])][::-1]


def definitely_observed(session, lists, satisfying, width):
    """The same answer of all observations, which are listed in the order of what they undo. The latest level at which
    one of them first has a satisfying cut is the least with no avoiding cut; of the observations without such a cut,
    the one is printed that undoes, from the full cut backward, the event of the first process at the first step in
    which it differs from another."""
    firsts = [min((sum(cut) for cut in passed if cut in satisfying), default=math.inf) for passed in lists]
    for level in range(len(session.places) + 1):
        if len({passed[level] for passed, first in zip(lists, firsts) if first > level}) > width:
            return f"unknown {level}"
    if max(firsts) < math.inf:
        return f"yes {max(firsts)}"
    return "no " + named(session, undoing(lists[firsts.index(math.inf)])[::-1])


def dead_ends_said(cuts, seen, width):
    """What a line says of this many dead ends, of which the predicate sees so many."""
    special = {0: "none", width: "as many as the width", width + 1: "one too many"}
    said = special.get(seen, "few" if seen < width else "many")
    return f"; dead ends: {said}" + ("; too many cuts" if seen <= width < cuts else "")


class Judged:
    """The report of a session, and for one that is judged its consistent cuts and which of them satisfy each
    predicate."""

    def __init__(self, session):
        fault, before = first_fault(session), happened_before(session)
        self.session, self.cuts, self.satisfying = session, None, []
        if session.version is None:
            self.report = "refused spec version\n"
        elif fault:
            self.report = f"refused {fault[0]} {self.place(fault[1])}\n"
        elif around := cycle(session, before):
            self.report = "refused cycle " + ",".join(map(self.place, around)) + "\n"
        else:
            self.cuts = consistent_cuts(session, before)
            receipts = session.of_kind("recv")
            messages = sum(bool(session.with_id_of(send, receipts)) for send in session.of_kind("send"))
            self.first_line = (f"session {len(session.names)} processes {len(session.places)} events "
                               f"{messages} messages\n")
            full, has_few = self.cuts[-1], observation_count(self.cuts) <= FEW
            lists = observations(set(self.cuts), full, self.cuts[0]) if has_few else []
            self.observations = sorted(lists, key=undoing)
            self.definite, self.ways = functools.cache(self.definite), functools.cache(self.ways)
            self.sums, self.late = Sums(session, self.cuts), Late(session, before, self.cuts, has_few)
            self.satisfying = [{cut for cut in self.cuts if holds(session, cut, predicate)}
                               for _, predicate in session.predicates]
            self.report = self.reported(session.width)

    def place(self, place):
        return f"{self.session.names[place[0]]}#{place[1]}"

    def summary(self):
        """A line on the receivers of the session's messages and on what came of it."""
        session, words = self.session, self.report.split()
        receipts = session.of_kind("recv")
        most = max([len(session.with_id_of(send, receipts)) for send in session.of_kind("send")], default=0)
        came = "judged" if self.cuts is not None else words[1] if words[1] in ("spec", "cycle") else "refused"
        return f"version {session.version}, {f'{most} receivers' if most > 1 else 'one receiver'}, {came}\n"

    def definite(self, number, width):
        """Definitely of the predicate of this number under this width."""
        session, satisfying, (name, _) = self.session, self.satisfying[number], self.session.predicates[number]
        definite = definitely(session, self.cuts, satisfying, width)
        if self.observations:
            observed = definitely_observed(session, self.observations, satisfying, width)
            if observed != definite:
                raise Differs(f"all observations say {name} definitely {observed}, the avoiding cuts {definite}")
        return definite

    def answers(self, number, widths):
        """Possibly and Definitely of the predicate of this number, each under a width of its own."""
        return [possibly(self.cuts, self.satisfying[number], widths[0]), self.definite(number, widths[1])]

    def reported(self, width):
        """The report if this is the width, without the option."""
        return self.of_answers([self.answers(number, [width] * 2) for number in range(len(self.satisfying))])

    def ways(self, number):
        """Why Possibly of the predicate of this number is decided without the levels, and why Definitely is: nothing
        if it isn't; and what is said of it, if sums are asked."""
        (_, predicate), satisfying = self.session.predicates[number], self.satisfying[number]
        found = ways(self.session, predicate, satisfying)
        if found[0]:
            return found, ""
        decisions = self.sums.decisions(predicate)
        if not any(how.startswith("open") for how in decisions):
            found = ["sums", None if satisfying else "sums"]
        return found, described(self.session, predicate, decisions)

    def possible_beyond(self, number, width, way):
        """Possibly with the option, if this is the width and this the way; in which way it is decided then, and what is
        said of that."""
        by_sums = way == "sums" and self.satisfying[number]
        possible = possibly(self.cuts, self.satisfying[number], math.inf if way and not by_sums else width)
        if by_sums and possible.startswith("unknown"):
            return "yes " + ",".join(map(str, min(self.satisfying[number], key=by_height))), way, ""
        if way or not possible.startswith("unknown"):
            return possible, way, ""
        cut, why = self.late.first_tried(self.satisfying[number])
        if cut is None:
            return possible, None, f"; in truth {'yes' if self.satisfying[number] else 'no'}"
        exact = cut == min(self.satisfying[number], key=by_level)
        said = f"; tried: {' and '.join(sorted(why))}; {'exact' if exact else 'not the first'}"
        return "yes " + ",".join(map(str, cut)), "tried", said

    def definite_beyond(self, number, width, way):
        """Definitely with the option, and the way in which it is decided, if there is one; and what is said of that."""
        exact, within = self.definite(number, math.inf), self.definite(number, width)
        if way:
            return exact, way, ""
        predicate = self.session.predicates[number][1]
        cuts, seen = self.late.dead_ends(predicate, self.satisfying[number])
        said = dead_ends_said(len(cuts), len(seen), width)
        if exact.startswith("no") and len(seen) <= width:
            return exact, "back", said
        if not within.startswith("unknown"):
            return within, None, ""
        return self.late_level(predicate, exact, within, len(seen) <= width, said)

    def late_level(self, predicate, exact, within, has_few, said):
        """The same where the levels under the width leave it unknown, and no path is found back."""
        gates, ends = list(self.late.gates(predicate)), exact.startswith("yes") and has_few
        if gates:
            level = min(gates)[0]
            sides = sorted({side for at, side in gates if at == level})
            said += f"; right {' and '.join(sides)}; {'exact' if exact == f'yes {level}' else 'above'}"
            return f"yes {level}", "gate", said + ("; ends too" if ends else "")
        if ends:
            return f"yes {len(self.session.places)}", "end", said
        return within, None, said + f"; in truth {exact.split()[0]}"

    def answers_beyond(self, number, width, why):
        """Possibly and Definitely with the option, if this is the width and these are the ways: for each the answer, in
        which way it is decided then, and what is said of that."""
        possible, definite = self.possible_beyond(number, width, why[0]), self.definite_beyond(number, width, why[1])
        if possible[0].startswith("yes") and definite[0].startswith("yes"):
            events, level = sum(map(int, possible[0][4:].split(","))), int(definite[0][4:])
            if events > level:
                raise Differs(f"a cut of {events} events is printed beside the level {level}")
        return possible, definite

    def reported_beyond(self, width):
        """The report if this is the width, with the option; and a line for each answer that is unknown without it."""
        if self.cuts is None:
            return self.report, ""
        rows, lines = [], []
        for number in range(len(self.satisfying)):
            why, said = self.ways(number)
            within = self.answers(number, [width] * 2)
            found = self.answers_beyond(number, width, why)
            rows.append([answer for answer, _, _ in found])
            for modality, old, (new, way, more) in zip(("Possibly", "Definitely"), within, found):
                if old.startswith("unknown"):
                    way = way or "undecided"
                    lines.append(f"beyond the width, {way}: {modality} {new.split()[0]}{said}{more}\n")
            lines += self.of_heights(number, within[0], rows[-1][0]) if why[0] == "sums" else []
        return self.of_answers(rows), "".join(lines)

    def of_heights(self, number, old, new):
        """A line if the first satisfying cut isn't the first by height, on which of them is given."""
        satisfying = self.satisfying[number]
        if not satisfying or min(satisfying, key=by_height) == min(satisfying, key=by_level):
            return []
        return [f"first by {'level' if old == new else 'height'}, which aren't the same\n"]

    def of_answers(self, rows):
        """The report with these answers."""
        return self.first_line + "".join(f"{name} possibly {possible}\n{name} definitely {definite}\n" for
                                         (name, _), (possible, definite) in zip(self.session.predicates, rows))


# The drawing of sessions.

# Of a hundred values two are wide: at the ends of 64 bits, or around those that events and states keep in 32 bits.
WIDE = [(2 ** 63 - 1, -2 ** 63), (2 ** 31 - 1, -2 ** 30 - 1), (2 ** 31, -2 ** 30)]
WIDE_PART = 0.02


def draw_value(draw):
    part = draw.random() / WIDE_PART
    return draw.choice(WIDE[int(part * len(WIDE))]) if part < 1 else draw.randint(-2, 2)


def draw_version(draw):
    """A version, and the fields of a document that say it."""
    version = None if draw.random() < 0.02 else draw.choice([1, 2])
    if version is None:
        return None, {"version": draw.choice([0, 3, -2, 1.0, 2.0, "1", "2", None, True, [2], {}, 2 ** 32 + 2])}
    return version, {} if version == 1 and draw.random() < 0.5 else {"version": version}


def draw_counts(draw, count):
    """How many events each of these processes has. Seldom one of few has as many as a word has bits, or about as many,
    since truths by count are kept as bits. Few of many have any: often the first and the last ones, and those
    before and after which eight are left, since a cut of more than eight counts is kept as two numbers."""
    if 2 < count < 5 and draw.random() < 0.05:
        return draw.sample([draw.choice([63, 64, 65, 66]), *draw.choices([0, 1, 1, 2], k=count - 1)], count)
    if count < 7:
        return [draw.choice([0, 1, 2, 3, 3, 4, 4, 4] if count < 4 else [1, 2, 2, 3]) for _ in range(count)]
    counts, cuts = [0] * count, draw.choice([40, 300, 1200])
    often = [process for process in (0, 1, 7, 8, count - 9, count - 8, count - 2, count - 1) if 0 <= process < count]
    while math.prod(number + 1 for number in counts) < cuts:
        counts[draw.choice(often) if draw.random() < 0.7 else draw.randrange(count)] += 1
    return counts


def draw_change(draw, value, kind):
    """What a variable with this value is set to."""
    if kind == "any":
        return draw_value(draw)
    return draw.choice({"flags": [0, 1], "rising": [value, value + 1], "counters": [value - 1, value, value + 1],
                        "saws": [value + 1, value + 1, 0], "great": [2 ** 63 - 1, -2 ** 63, 2 ** 62, 0]}[kind])


def draw_events(draw, initial, count, kind):
    """The events of a process that has these variables: they set them to any values, or to 0 and 1, or raise them by 1,
    or change them by 1, or raise them and take them back to 0, or set them to the greatest and least there are."""
    events, values = [], initial
    for _ in range(count):
        sets = {name: draw_change(draw, value, kind) for name, value in values.items() if draw.random() < 0.7}
        events.append(Event(sets))
        values = {**values, **sets}
    return events


def draw_processes(draw, has_many):
    version, fields = draw_version(draw)
    count = draw.choice([7, 8, 9, 9, 15, 16, 16] if has_many else
                        [1, 2, 2, 2, 3, 3, 3, 3, 3] if version == 1 else [2, 3, 3, 3, 3, 4])
    others = [f"p{number}" for number in range(10)] if has_many else []
    names = draw.sample(["a", "b", "c", "_d", "e2", "x", *others], count)
    kind = draw.choice(["any"] * 6 + ["flags", "rising", "counters", "saws"] * 2 + ["great"])
    initial = [{name: draw_value(draw) if kind == "any" else draw.choice([0, 0, 0, 1])
                for name in draw.choice([["x"], ["x", "n"]])} for _ in names]
    events = [draw_events(draw, variables, number, kind)
              for variables, number in zip(initial, draw_counts(draw, count))]
    return Session(names, initial, events, version, fields)


def draw_id(draw, number):
    return draw.choice(["m", "", "a message ", "é", "\U0001f600", "\"\\"]) + str(number)


def make_message(send, receipt, identity):
    send.kind, receipt.kind, send.id, receipt.id = "send", "recv", identity, identity


def add_receiver(draw, session, send, may_receive):
    """Has one process more receive a message, if one can, at a local event that may be its receipt."""
    taken = {send[0], *(place[0] for place in session.with_id_of(send, session.of_kind("recv")))}
    able = [place for place in session.of_kind("local") if place[0] not in taken and may_receive(place)]
    if able:
        make_message(session.at(send), session.at(draw.choice(able)), session.at(send).id)


def draw_messages(draw, session):
    """Makes pairs of local events of different processes messages, and in version 2 has others receive some of these
    too; in half of the sessions only if the send comes first in some order of all events, so that there is no cycle."""
    order = {}
    left = [list(range(1, len(events) + 1)) for events in session.events]
    while any(left):
        process = draw.choice([process for process, numbers in enumerate(left) if numbers])
        order[process, left[process].pop(0)] = len(order)
    ordered = draw.random() < 0.5
    for number in range(draw.choice([0, 2, 4, 8, 20, 60])):
        local = session.of_kind("local")
        if not local:
            break
        send, receipt = draw.choice(local), draw.choice(local)
        if send[0] != receipt[0] and not (ordered and order[receipt] < order[send]):
            make_message(session.at(send), session.at(receipt), draw_id(draw, number))
            while session.version == 2 and draw.random() < 0.5:
                add_receiver(draw, session, send, lambda place: not ordered or order[send] < order[place])
    for place in session.of_kind("local"):
        if draw.random() < 0.05:
            session.at(place).kind, session.at(place).id = "send", "in flight " + str(place)


def draw_ring(draw, session):
    """Has each of some processes receive a message of the next one before it sends its own to the one before, and
    another process wait for one of them; in version 2 others receive some of these messages too."""
    able = [process for process, events in enumerate(session.events) if len(events) > 1]
    if len(able) < 2:
        return
    ring = draw.choice([draw.sample(able, len(able)), draw.sample(able[-2:], 2)])
    pairs = [sorted(draw.sample(range(len(session.events[process])), 2)) for process in ring]
    receipts, sends = ([session.events[process][pair[end]] for process, pair in zip(ring, pairs)] for end in (0, 1))
    for number, receipt in enumerate(receipts):
        make_message(sends[(number + 1) % len(ring)], receipt, f"ring {number}")
    waiting = [event for process, events in enumerate(session.events) for event in events if process not in ring]
    later = [event for process, pair in zip(ring, pairs) for event in session.events[process][pair[0]:]
             if event.kind == "local"]
    if waiting and later:
        make_message(draw.choice(later), draw.choice(waiting), "to one that waits")
    for place in session.of_kind("send"):
        if session.version == 2 and draw.random() < 0.3:
            add_receiver(draw, session, place, lambda place: True)


def muddle(draw, session):
    """Gives some events the kinds of others, or makes them receipts of their messages."""
    for _ in range(draw.choice([1, 1, 2, 2, 6])):
        first, second = session.at(draw.choice(session.places)), session.at(draw.choice(session.places))
        second.kind, second.id = first.kind, first.id
        if first.kind == "send" and draw.random() < 0.5:
            second.kind = "recv"


def draw_sum(draw, session, processes):
    terms = []
    for _ in range(draw.choice([1, 1, 2, 2, 3])):
        process = draw.choice(processes)
        reference = (process, draw.choice(list(session.initial[process]))) if draw.random() < 0.8 else None
        factor = draw.choice([0, 1, 1, 1, 2, 3]) if draw.random() < 0.97 else 2 ** 31 - 1
        terms.append((draw.choice([1, 1, -1]), factor, reference))
    return terms


def draw_comparison(draw, session, processes):
    """A comparison that names none but these processes, or seldom a constant."""
    if draw.random() < 0.04:
        return (draw.choice(["true", "false"]),)
    right = [(draw.choice([1, -1]), draw.randint(0, 3), None)]
    if draw.random() < 0.4:
        right = draw_sum(draw, session, processes)
    return (draw.choice(["==", "==", *RELATIONS]), draw_sum(draw, session, processes), right)


def draw_tree(draw, leaf, depth=3):
    word = draw.choice(["and", "and", "or", "not", "", "", ""]) if depth else ""
    if word:
        parts = 1 if word == "not" else draw.choice([2, 2, 3])
        return (word, *[draw_tree(draw, leaf, depth - 1) for _ in range(parts)])
    return leaf()


def draw_literal(draw, session, processes, cuts, at):
    """A comparison that names none but these processes. As a rule it doesn't hold at the first of these cuts, and does
    at the one of this number; or, if there is no number, at few of them."""
    tries = [draw_comparison(draw, session, processes) for _ in range(draw.choice([1, 6, 6]))]
    held = [[holds(session, cut, tree) for cut in cuts] for tree in tries]
    return min(zip(tries, held), key=lambda it: (at is not None and not it[1][at], it[1][0], sum(it[1])))[0]


def draw_row(draw, word, leaves, negated=False):
    """An `and` or an `or` of these leaves, in groups as they come, and with negations that change the words; it isn't
    the same then, if leaves are negated."""
    if draw.random() < 0.1:
        return ("not", draw_row(draw, word, leaves, not negated))
    if len(leaves) == 1:
        return leaves[0]
    first = draw.randrange(1, len(leaves))
    parts = [draw_row(draw, word, part, negated) for part in (leaves[:first], leaves[first:])]
    return (word if not negated else "or" if word == "and" else "and", *parts)


def draw_product(draw, leaf):
    """An `and` of `or`s with about as many terms as there may be, or one with the words exchanged under a `not`."""
    sizes = draw.choice([[2] * 12, [2] * 12, [4] * 6, [2] * 11, [3, 3, 5, 7, 13], [2] * 13, [2] * 9 + [3, 3]])
    words = draw.choice([("and", "or"), ("or", "and")])
    product = (words[0], *[(words[1], *[leaf() for _ in range(size)]) for size in sizes])
    product = product if words[0] == "and" else ("not", product)
    return product if draw.random() < 0.5 else ("or", product, leaf())


def draw_predicate(draw, session, cuts):
    """A predicate as a tree: a word with its parts; a comparison's parts are sums of a sign, a factor and a reference,
    or the factor alone. Many name two processes, many have comparisons that name one each, and many are an `or` of
    comparisons that name two each."""
    everyone = range(len(session.names))
    two = draw.sample(everyone, min(2, len(everyone)))
    kind = draw.choice(["any", "any", "two", "two", "local", "local", "and", "and", "and", "or", "or", "or", "or",
                        "terms", "terms", "parts", "parts", "parts", "parts",
                        "product" if draw.random() < 0.3 else "any"])
    if kind in ("any", "two"):
        return draw_tree(draw, lambda: draw_comparison(draw, session, everyone if kind == "any" else two))
    if kind == "local":
        return draw_tree(draw, lambda: draw_comparison(draw, session, [draw.choice(everyone)]))

    def literals(processes):
        at = None if kind == "or" else draw.randrange(1, len(cuts))
        return [draw_literal(draw, session, [process], cuts, at) for process in processes]
    if kind == "product":
        return draw_product(draw, lambda: literals([draw.choice(everyone)])[0])
    busy = draw_busy(draw, session)[:6]

    def row():
        return literals(draw.sample(busy, min(len(busy), draw.choice([2, 3, 3, 3, 4]))))
    if kind == "parts":
        pairs = [draw.sample(everyone, min(2, len(everyone))) for _ in range(draw.choice([2, 3, 3, 4]))]
        parts = [draw_literal(draw, session, pair, cuts, None) for pair in pairs]
        if draw.random() < 0.3:
            parts[0] = draw_row(draw, "and", row())
        turned = draw.random() < 0.4
        return ("not", draw_row(draw, "or", parts, True)) if turned else draw_row(draw, "or", parts)
    if kind == "terms":
        return draw_row(draw, "or", [draw_row(draw, "and", row()) for _ in range(draw.choice([2, 3]))])
    return draw_row(draw, kind, row())


def draw_sum_of(draw, session, processes):
    """Terms of a sum over these processes, of which some may be weighted, taken off or named twice, and seldom all but
    one are named for nothing."""
    weights, signs = draw.choice([[1], [1], [1], [1, 1, 2, 3], [0, 1, 2]]), draw.choice([[1], [1], [1, 1, -1]])
    twice = [draw.choice(processes)] if draw.random() < 0.1 else []
    terms = [(draw.choice(signs), draw.choice(weights), (process, draw.choice(list(session.initial[process]))))
             for process in [*processes, *twice]]
    if draw.random() < 0.9:
        return terms
    idle = [draw.choice([[(1, 0, it[2])], [(1, 1, it[2]), (-1, 1, it[2])]]) for it in terms[1:]]
    return [terms[0], *itertools.chain(*idle)]


def compared(draw, terms, relation, number):
    """A comparison of this sum with this number, with some of its terms on the other side, or with its sides exchanged.
    """
    moved = draw.randrange(1, len(terms)) if draw.random() < 0.3 else len(terms)
    right = [(-sign, factor, reference) for sign, factor, reference in terms[moved:]]
    right.append((1 if number >= 0 else -1, min(abs(number), 2 ** 63 - 1), None))
    if draw.random() < 0.2:
        return (relation.translate(str.maketrans("<>", "><")), right, terms[:moved])
    return (relation, terms[:moved], right)


def draw_long_sum(draw, session):
    """A comparison of a sum of many great terms with what it is worth at some counts, as far as a number can say."""
    processes = draw.sample(draw_busy(draw, session)[:6], 3)
    terms = [(sign, draw.choice([factor, 2 ** 31 - 1]), reference)
             for sign, factor, reference in draw_sum_of(draw, session, processes)] * draw.choice([1, 9, 30])
    full = tuple(len(events) for events in session.events)
    return compared(draw, terms, draw.choice(list(RELATIONS)), excess(session, full, ("==", terms, [])))


def early_cut(session, local):
    """The least count of each process at which its own comparisons among these hold, if there is one."""
    counts = tuple(0 for _ in session.names)
    for process, events in enumerate(session.events):
        own = [it for it in local if named_by(it) == {process}]
        tries = [(*counts[:process], count, *counts[process + 1:]) for count in range(len(events) + 1)]
        counts = min(tries, key=lambda cut: not all(holds(session, cut, it) for it in own))
    return counts


def draw_busy(draw, session):
    """The processes, those that have events first."""
    return sorted(range(len(session.names)), key=lambda process: (not session.events[process], draw.random()))


def draw_sum_and(draw, session, cuts, terms, local):
    """A comparison of this sum with what it is worth at some cut, or nearly that; often with `==` and where these local
    comparisons hold, or first hold."""
    full, early = tuple(len(events) for events in session.events), early_cut(session, local)
    relation, near = draw.choice(["=="] * 5 + list(RELATIONS)), draw.choice([0, 0, 0, 1, -1, 3])
    at = draw.choice([cuts[0], full, early, *draw.sample(cuts, 2)])
    if local and draw.random() < 0.6:
        held = [cut for cut in cuts if all(holds(session, cut, it) for it in local)]
        relation, at, near = "==", draw.choice([early, early, draw.choice(held or cuts)]), 0
    return compared(draw, terms, relation, excess(session, at, ("==", terms, [])) + near)


def draw_sums_and(draw, session, cuts, sums, local):
    """An `and` of this many comparisons of sums over several processes, and of this many that name one each."""
    busy, at = draw_busy(draw, session)[:6], draw.randrange(1, len(cuts))
    leaves = [draw_literal(draw, session, [process], cuts, at) for process in draw.sample(busy, min(local, len(busy)))]
    of_local, terms = comparisons(("and", *leaves)), None
    for _ in range(sums):
        number = draw.randint(2 if local or sums > 1 else 3, min(len(busy), 5))
        processes = list(range(len(session.names))) if draw.random() < 0.15 else draw.sample(busy, number)
        terms = terms if terms and draw.random() < 0.3 else draw_sum_of(draw, session, processes)
        leaves.append(draw_sum_and(draw, session, cuts, terms, of_local))
    leaves = [("not", (OPPOSITES[leaf[0]], *leaf[1:])) if leaf[0] in OPPOSITES and draw.random() < 0.15 else leaf
              for leaf in leaves]
    return draw_row(draw, "and", draw.sample(leaves, len(leaves)))


def firsts_of_sums(draw, session):
    """Comparisons of sums of three processes, as a sum, a relation and a number, with the first counts by level and by
    height at which each holds, consistent or not; none that holds at the beginning."""
    found, orders = [], [sorted(counts_up_to(session), key=key) for key in (by_level, by_height)]
    for _ in range(3):
        terms = draw_sum_of(draw, session, draw.sample(draw_busy(draw, session)[:6], 3))
        worth = {counts: excess(session, counts, ("==", terms, [])) for counts in orders[0]}
        for relation, number in itertools.product(RELATIONS, sorted(set(worth.values()))):
            firsts = [next((it for it in order if RELATIONS[relation](worth[it], number)), None) for order in orders]
            if firsts[0] and sum(firsts[0]):
                found.append(((terms, relation, number), *firsts))
    return draw.sample(found, len(found))


def draw_apart(draw, session):
    """A comparison of a sum of which the first counts by level and by height differ, and an `or` of two of which these
    differ among the first counts of each by height; as far as there are any."""
    found = firsts_of_sums(draw, session)
    pairs = [(found[place - 1], found[place]) for place in range(1, len(found))]
    single = next((it for it in found if it[1] != it[2]), None)
    pair = next((pair for pair in pairs if min(pair, key=lambda it: by_level(it[2])) !=
                 min(pair, key=lambda it: by_height(it[2]))), None)
    drawn = [("apart", compared(draw, *single[0]))] if single else []
    return drawn + ([("either", ("or", *[compared(draw, *it[0]) for it in pair]))] if pair else [])


def draw_sums(draw, session, cuts):
    """A predicate with comparisons of sums over several processes, and with or without local ones beside them."""
    kind = draw.choice(["one"] * 10 + ["local"] * 18 + ["two"] * 6 + ["or"] * 8 + ["product", "never", "long"])
    if kind == "long":
        return draw_long_sum(draw, session)
    if kind in ("one", "never"):
        tree = draw_sums_and(draw, session, cuts, 1, 0)
        return tree if kind == "one" else ("and", tree, draw.choice([("false",), ("not", ("true",))]))
    if kind == "local":
        return draw_sums_and(draw, session, cuts, 1, draw.choice([1, 1, 2]))
    if kind == "two":
        return draw_sums_and(draw, session, cuts, 2, draw.choice([0, 0, 1]))
    if kind == "product":
        everyone = range(len(session.names))
        product = draw_product(draw, lambda: draw_literal(draw, session, [draw.choice(everyone)], cuts, None))
        return ("and", product, draw_sums_and(draw, session, cuts, 1, 0))
    counts = draw.choice([[1, 1], [1, 0], [1, 1, 1], [1, 2], [0, 0, 1]])
    return draw_row(draw, "or", [draw_sums_and(draw, session, cuts, sums, draw.choice([0, 0, 1, 2] if sums else [1, 2]))
                                 for sums in counts])


def draw_near(draw, session):
    """Counts that are few events before the full cut's, consistent or not, and seldom many."""
    counts = tuple(len(events) for events in session.events)
    for _ in range(draw.choice([1, 1, 2, 2, 3, 4, 9])):
        able = [process for process, count in enumerate(counts) if count]
        counts = undone(counts, draw.choice(able)) if able else counts
    return counts


def local_at(draw, session, process, counts):
    """A comparison of a variable of this process with its value at these counts."""
    name = draw.choice(list(session.initial[process]))
    value = session.value_at(process, counts[process], name)
    number = (1 if value >= 0 else -1, min(abs(value), 2 ** 63 - 1), None)
    return (draw.choice(["==", "==", "==", "<=", ">=", "!="]), [(1, 1, (process, name))], [number])


def draw_walls(draw, session, processes):
    """For each of some counts near the full cut's an `and` of comparisons that name one process each and hold there, as
    a rule."""
    for _ in range(draw.choice([2, 2, 3, 4])):
        at = draw_near(draw, session)
        named_there = draw.sample(processes, min(len(processes), draw.choice([1, 2, 2, 3])))
        yield draw_row(draw, "and", [local_at(draw, session, process, at) for process in named_there])


def draw_late(draw, session):
    """A predicate that holds near the full cut: a sum of three processes or more comes to a value there, or to one of
    several, or stays between two; or an `or` of `and`s of comparisons that name one process each, and seldom a sum."""
    busy, kind = draw_busy(draw, session)[:6], draw.choice(["sum", "sums", "sums", "between", "walls", "walls"])
    terms = draw_sum_of(draw, session, draw.sample(busy, draw.randint(3, min(len(busy), 5))))
    worths = [excess(session, draw_near(draw, session), ("==", terms, [])) for _ in range(draw.choice([2, 3, 4]))]
    if kind == "sum":
        return compared(draw, terms, draw.choice(["==", "==", *RELATIONS]), worths[0])
    if kind == "sums":
        return draw_row(draw, "or", [compared(draw, terms, "==", worth) for worth in worths])
    if kind == "between":
        least, most = min(worths), max(worths)
        return draw_row(draw, "and", [compared(draw, terms, ">=", least), compared(draw, terms, "<=", most)])
    walls = list(draw_walls(draw, session, busy))
    if draw.random() < 0.3:
        walls.append(compared(draw, terms, draw.choice(["==", ">", "<"]), worths[0]))
    return draw_row(draw, "or", walls)


def draw_settled(draw, session):
    """Of some predicates that hold near the full cut one that doesn't hold there, and not at the empty one, as far as
    there is any."""
    full = tuple(len(events) for events in session.events)
    empty, near = tuple(0 for _ in full), [draw_near(draw, session) for _ in range(6)]
    tries = [draw_late(draw, session) for _ in range(draw.choice([1, 8]))]
    return min(tries, key=lambda tree: (holds(session, full, tree), holds(session, empty, tree),
                                        not any(holds(session, cut, tree) for cut in near)))


def draw_few_dead(draw, session):
    """A predicate of which Definitely is no, with few dead ends of the search back before the path that is printed, and
    one of which it is yes, with few in all; as far as there are any."""
    before = happened_before(session)
    if session.version is None or first_fault(session) or cycle(session, before):
        return
    late, found = Late(session, before, consistent_cuts(session, before), False), {"back": [], "passed": []}
    for tree in [draw_late(draw, session) for _ in range(40)]:
        satisfying = {cut for cut in late.cuts if holds(session, cut, tree)}
        if not ways(session, tree, satisfying)[1] and 0 < len(late.dead_ends(tree, satisfying)[1]) < 4:
            found["back" if late.cuts[-1] in avoiding_cuts(late.cuts, satisfying) else "passed"].append(tree)
    for name in found:
        if found[name]:
            yield name, draw.choice(found[name])


def draw_session(draw, has_many, is_beyond):
    session = draw_processes(draw, has_many)
    if draw.random() < 0.25:
        draw_ring(draw, session)
    draw_messages(draw, session)
    if session.places and draw.random() < 0.3:
        muddle(draw, session)
    cuts = [tuple(0 for _ in session.names)]
    cuts += [tuple(draw.randint(0, len(events)) for events in session.events) for _ in range(8)]
    count = draw.choice([2, 3, 4] if is_beyond else [1, 2, 3])
    drawn = [(name, draw_predicate) for name in draw.sample(["p", "q", "a", "both_1"], count)]
    if is_beyond and len(session.names) > 2:
        drawn += [(name, draw_sums) for name in draw.sample(["total", "s", "x", "of_3", "P"], 5)]
        session.predicates += draw_apart(draw, session)
    for name, draw_tree_of in drawn:
        tries = [draw_tree_of(draw, session, cuts) for _ in range(draw.choice([1, 3, 6]))]
        session.predicates.append((name, min(tries, key=lambda tree: (
            holds(session, cuts[0], tree), not any(holds(session, cut, tree) for cut in cuts[1:])))))
    session.width = draw.choice([1, 2, 3, 5, 8, 20, 4096] if has_many else [1, 2, 3, 4, 5, 8, 4096, 4096, 4096])
    if is_beyond and len(session.names) > 2:
        session.predicates += [("settled", draw_settled(draw, session)), *draw_few_dead(draw, session)]
    return session


# Sessions as text.

def sum_tokens(session, terms):
    tokens = []
    for sign, factor, reference in terms:
        tokens += ["-"] if sign < 0 else ["+"] if tokens else []
        if reference is None or factor != 1:
            tokens.append(str(factor))
        if reference is not None:
            tokens += [*(["*"] if factor != 1 else []), session.names[reference[0]], ".", reference[1]]
    return tokens


def predicate_tokens(draw, session, predicate, within=""):
    """The tokens of a predicate that stands within another one, with parentheses if it needs them, and sometimes if it
    doesn't."""
    word, *parts = predicate
    if word in RELATIONS:
        tokens = [*sum_tokens(session, parts[0]), word, *sum_tokens(session, parts[1])]
    elif word in ("and", "or"):
        tokens = predicate_tokens(draw, session, parts[0], word)
        for part in parts[1:]:
            tokens += [word, *predicate_tokens(draw, session, part, word)]
    else:
        tokens = [word, *(predicate_tokens(draw, session, parts[0], word) if parts else [])]
    needs = word in ("and", "or") and within == "not" or word == "or" and within == "and"
    return ["(", *tokens, ")"] if needs or draw.random() < 0.05 else tokens


def predicate_text(draw, session, predicate):
    """The text of a predicate, in one of four with spaces as they come."""
    text, usual = "", draw.random() < 0.75
    for token in predicate_tokens(draw, session, predicate):
        parts = text and (text[-1].isalnum() or text[-1] == "_") and (token[0].isalnum() or token[0] == "_")
        near = token in ".*" or text.endswith(("*", ".")) if usual else draw.random() < 0.5
        text += ("" if not text or near and not parts else " " if usual else draw.choice([" ", "\t", "  "])) + token
    return text


def other_text(draw, value):
    """The JSON text of a value as it isn't usual: with spaces and escapes, in another order, with fields that come
    twice, of which the last one counts."""
    def space():
        return draw.choice(["", "", " ", "\t", " \r "])
    if isinstance(value, str):
        marks = [json.dumps(mark)[1:-1] if draw.random() < 0.7 or ord(mark) > 127 else f"\\u{ord(mark):04x}"
                 for mark in value]
        return '"' + "".join(marks) + '"'
    if not isinstance(value, dict):
        return json.dumps(value)
    fields = draw.sample(list(value.items()), len(value))
    if fields and draw.random() < 0.3:
        fields.insert(0, (draw.choice(fields)[0], draw.choice([None, False, 7, "k", {}, {"z": -1}, [{}]])))
    texts = [space() + other_text(draw, name) + space() + ":" + space() + other_text(draw, of_it) + space()
             for name, of_it in fields]
    return "{" + (",".join(texts) or space()) + "}"


def line_text(draw, value, odd):
    """A line of a stream, and sometimes an empty one before it."""
    if draw.random() >= odd:
        return json.dumps(value, separators=(",", ":"), ensure_ascii=False) + "\n"
    return draw.choice(["", "", "\n", " \t\r\n"]) + draw.choice(["", " "]) + other_text(draw, value) + "\r\n"


def document_text(draw, session):
    processes = [{"name": name, "vars": initial} for name, initial in zip(session.names, session.initial)]
    predicates = [{"name": name, "text": predicate_text(draw, session, predicate)}
                  for name, predicate in session.predicates]
    fields = {"processes": processes, "predicates": predicates}
    if session.width != 4096 or draw.random() < 0.5:
        fields["width"] = session.width
    return json.dumps({**fields, **session.fields} if draw.random() < 0.5 else {**session.fields, **fields}) + "\n"


def stream_text(draw, session, process):
    odd = draw.choice([0, 0.3, 1])
    lines = [line_text(draw, {"process": session.names[process]}, odd)]
    for event in session.events[process]:
        fields = {} if event.kind == "local" else {event.kind: event.id}
        if event.sets or draw.random() < 0.2:
            fields["set"] = event.sets
        lines.append(line_text(draw, fields, odd))
    after = draw.choice(["", "", "", " what follows\n"])
    return "".join(lines) + line_text(draw, {"end": True}, odd) + after


# Forged reports.

def forge_steps(draw, judged):
    """The processes of an observation, some of them in another order or changed."""
    steps, cut = [], tuple(0 for _ in judged.session.names)
    while sum(cut) < len(judged.session.places):
        longer = draw.choice([longer for longer in judged.cuts if sum(longer) == sum(cut) + 1
                              and all(count <= more for count, more in zip(cut, longer))])
        steps.append(step_between(cut, longer))
        cut = longer
    change = draw.random()
    if change < 0.2:
        draw.shuffle(steps)
    elif change < 0.3 and steps:
        steps[draw.randrange(len(steps))] = draw.randrange(len(cut))
    elif change < 0.35:
        steps = steps[:-1]
    return steps


def avoided_by(judged, steps, satisfying):
    """Whether these are the processes of an observation with no satisfying cut."""
    cuts = [tuple(steps[:level].count(process) for process in range(len(judged.session.names)))
            for level in range(len(steps) + 1)]
    return (sum(cuts[-1]) == len(judged.session.places) and all(cut in judged.cuts for cut in cuts)
            and not satisfying & set(cuts))


def forge(draw, judged):
    """A report with other evidence, and what a check of it finds."""
    first = draw.choice([judged.first_line] * 5 + ["session 4 processes 0 events 9 messages\n"])
    report, finding = first, f"session {'good' if first == judged.first_line else 'bad'}\n"
    for (name, _), satisfying in zip(judged.session.predicates, judged.satisfying):
        cut = tuple(draw.randint(0, len(events)) for events in judged.session.events)
        if satisfying and draw.random() < 0.4:
            cut = draw.choice(sorted(satisfying))
        steps = forge_steps(draw, judged)
        report += f"{name} possibly yes {','.join(map(str, cut))}\n"
        report += f"{name} definitely no {named(judged.session, steps)}\n"
        finding += f"{name} possibly {'good' if cut in satisfying else 'bad'}\n"
        finding += f"{name} definitely {'good' if avoided_by(judged, steps, satisfying) else 'bad'}\n"
    return report, finding


# The runs.

def stream_names(streams):
    return [f"stream-{number + 1}" for number in range(len(streams))]


def run_files(draw, place, judged, document, streams):
    """Has the session judged from files, and its report and a forged one checked; returns what is found."""
    names = stream_names(streams)
    place.write({"session.json": document, "report": judged.report, **dict(zip(names, streams))})
    status, report = int(judged.cuts is None), judged.report.encode()
    for workers in ("2", "16"):
        ran = place.run(["judge", "--workers", workers, "session.json", *names])
        place.expect(f"judge --workers {workers}", ran, status, report)
    place.expect("check", place.run(["check", "session.json", "report", *names]), 0, checked(report))
    if status:
        return ""
    forged, finding = forge(draw, judged)
    place.write({"forged": forged})
    ran = place.run(["check", "session.json", "forged", *names])
    place.expect(f"check of a forged report\n{forged}", ran, int("bad\n" in finding), finding.encode())
    return finding


def run_beyond(draw, place, judged, document, streams):
    """Has the session judged from files that are there with --beyond-width, with its own width, with width 1 and with 2
    or 3, and the reports checked; returns what was unknown without it."""
    names, found = stream_names(streams), ""
    for width in (judged.session.width, 1, draw.choice([2, 3])):
        own = width == judged.session.width
        text = document if own else json.dumps({**json.loads(document), "width": width})
        report, lines = judged.reported_beyond(width)
        place.write({"session.json": text, "report": report})
        words = ["session.json", *names]
        words.insert(draw.randint(0, len(words)), "--beyond-width")
        words = ["judge", "--workers", draw.choice(["1", "2", "16"]), *words]
        place.expect(" ".join(words) + f" of width {width}", place.run(words), int(judged.cuts is None),
                     report.encode())
        place.expect("check", place.run(["check", "session.json", "report", *names]), 0, checked(report.encode()))
        found += lines
    return found


def tried(program, seed, number):
    """How often the program ran for the session of this number, the lines that it wrote, and in what it differs, if it
    does."""
    draw = random.Random(f"{seed} {number}")
    session = draw_session(draw, number % 3 == 2, number % 4 == 0)
    document = document_text(draw, session)
    streams = [stream_text(draw, session, process) for process in range(len(session.names))]
    draw.shuffle(streams)
    bundle = "---\n".join([document, *streams])
    with tempfile.TemporaryDirectory() as folder:
        place = Place(program, folder)
        try:
            judged = Judged(session)
            status = int(judged.cuts is None)
            place.expect("as a bundle", place.run([], bundle.encode()), status, judged.report.encode())
            finding = ""
            for run in (run_files, run_beyond) if number % 4 == 0 else ():
                finding += run(draw, place, judged, document, streams)
        except Differs as error:
            return place.runs, "", f"{error}\n{bundle}"
        except subprocess.TimeoutExpired:
            return place.runs, "", f"no end\n{bundle}"
        return place.runs, judged.report + finding + judged.summary(), None


def main():
    parser = argparse.ArgumentParser(description=__doc__, formatter_class=argparse.RawDescriptionHelpFormatter)
    parser.add_argument("program", nargs="?", default=os.path.join(HERE, "..", "crates", "monitor", "out", "monitor"))
    parser.add_argument("--count", type=int, default=600)
    parser.add_argument("--seed", type=int, default=1978)
    parser.add_argument("--only", type=int)
    given = parser.parse_args()
    program = os.path.abspath(given.program)
    if not os.access(program, os.X_OK):
        sys.exit(f"drawn: no program {program}")
    numbers = range(given.count) if given.only is None else [given.only]
    lines, runs, differing, missing = [], 0, 0, 0
    with concurrent.futures.ProcessPoolExecutor(os.cpu_count()) as pool:
        found = pool.map(functools.partial(tried, program, given.seed), numbers, chunksize=10)
        for number, (count, text, why) in zip(numbers, found):
            runs += count
            lines += text.splitlines()
            if why:
                differing += 1
                print(f"drawn: session {number} of seed {given.seed}: {why}")
    for part, least in LINES_WANTED.items() if given.only is None and not differing else []:
        stood = sum(re.search(part, line) is not None for line in lines)
        if stood < least * given.count // 600:
            missing += 1
            print(f"drawn: {stood} lines with {part!r}, and {least * given.count // 600} are wanted")
    print(f"drawn: {len(numbers)} sessions, {runs} runs, {differing} differ")
    sys.exit(1 if differing or missing or not runs else 0)


if __name__ == "__main__":
    main()
