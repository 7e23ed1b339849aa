#!/usr/bin/env python3
"""batch.py PROGRAM [--beside OTHER] [--sessions N] [--rounds N] [--rows]: how many small sessions a second one process
of `batch` judges.

10,000 sessions, if N isn't given, are made by a seed: four processes of 20 events each, most of them sends and
receipts, and three predicates. All stand in one file, a line each, which one process reads, with one job and with 4.
Printed are the sessions a second, by the least seconds of some rounds, those of a processor for each session, and the
most memory; and the instructions for each session, of 200 sessions less those of 100, by callgrind (`valgrind`).

With --beside the first 500 sessions are given to another program too, which reads a bundle on standard input: each in a
process of its own, and beside each an empty bundle, whose time is taken off, and so are its instructions, of the first
10. So what is compared is the work on a session, without the start of a process. Its reports have to be the same. With
--rows the last lines are the rows of the table in docs/PERFORMANCE.md. The status is 1 if a report differs."""
import argparse
import json
import os
import random
import resource
import subprocess
import sys
import tempfile

import instructions
import peak

NAMES, EVENTS, SEED = ["client", "server", "store", "log"], 20, 80
PREDICATES = {"both": "client.x == 3 and server.x == 3", "sum": "client.x + server.x + store.x + log.x == 14",
              "ahead": "store.x > log.x + 3 or log.x > store.x + 3"}
BESIDE, COUNTED, COUNTED_BESIDE = 500, (100, 200), 10
JOBS = (1, 4)


def session(drawn):
    """A session: its document and its streams. Who is sent something mostly goes on next, and receives it first."""
    document = {"processes": [{"name": name, "vars": {"x": 0, "y": 0}} for name in NAMES],
                "predicates": [{"name": name, "text": text} for name, text in PREDICATES.items()]}
    events, sent, count = {name: [] for name in NAMES}, {name: [] for name in NAMES}, 0
    for _ in range(EVENTS * len(NAMES)):
        some = [name for name in NAMES if len(events[name]) < EVENTS]
        waiting = [name for name in some if sent[name]]
        name = drawn.choice(waiting if waiting and drawn.random() < 0.9 else some)
        event = {"set": {"x": drawn.randrange(5), **({"y": count} if drawn.random() < 0.3 else {})}}
        if sent[name]:
            event["recv"] = sent[name].pop(0)
        elif drawn.random() < 0.7:
            event["send"], count = f"m{count}", count + 1
            sent[drawn.choice([other for other in NAMES if other != name])].append(event["send"])
        events[name].append(event)
    lines = {name: [{"process": name}, *events[name], {"end": True}] for name in NAMES}
    return json.dumps(document) + "\n", ["".join(json.dumps(line) + "\n" for line in lines[name]) for name in NAMES]


def write_lines(path, sessions):
    with open(path, "w", encoding="ascii") as out:
        for number, (document, streams) in enumerate(sessions):
            out.write(json.dumps({"id": f"run-{number}", "document": document, "streams": streams}) + "\n")
    return path


def write_bundle(path, parts):
    with open(path, "w", encoding="ascii") as out:
        out.write("---\n".join(parts))
    return path


def processor_seconds(make):
    """The seconds of a processor that processes take which this starts, and what it gives."""
    before = resource.getrusage(resource.RUSAGE_CHILDREN)
    made = make()
    after = resource.getrusage(resource.RUSAGE_CHILDREN)
    return after.ru_utime - before.ru_utime + after.ru_stime - before.ru_stime, made


def batch(program, jobs, path, rounds):
    """The least seconds of some rounds, the least processor seconds, the most memory, and the output."""
    found = [processor_seconds(lambda: peak.run([program, "batch", "--jobs", str(jobs)], path)) for _ in range(rounds)]
    statuses, outputs = {run[0] for _, run in found}, {run[1] for _, run in found}
    if statuses != {0} or len(outputs) != 1:
        sys.exit(f"batch.py: statuses {statuses}, {len(outputs)} outputs")
    return (min(run[2] for _, run in found), min(seconds for seconds, _ in found), max(run[3] for _, run in found),
            outputs.pop())


def per_session(program, folder, sessions):
    """The instructions for each session."""
    few, many = (instructions.count(program, ["batch"], write_lines(os.path.join(folder, str(size)), sessions[:size]),
                                    folder)[0] for size in COUNTED)
    return (many - few) / (COUNTED[1] - COUNTED[0])


def reports_of(program, paths):
    """What the program writes of each of these bundles."""
    reports = []
    for path in paths:
        with open(path, "rb") as given:
            reports.append(subprocess.run([program], stdin=given, capture_output=True, check=False).stdout)
    return reports


def beside(program, folder, sessions, rounds):
    """The least processor seconds of another program for a session, its instructions, and its reports."""
    empty = write_bundle(os.path.join(folder, "empty"), [""])
    paths = [write_bundle(os.path.join(folder, f"bundle-{number}"), [document, *streams])
             for number, (document, streams) in enumerate(sessions[:BESIDE])]
    all_seconds = []
    for _ in range(rounds):
        nothing, _ = processor_seconds(lambda: reports_of(program, [empty] * len(paths)))
        seconds, reports = processor_seconds(lambda: reports_of(program, paths))
        all_seconds.append((seconds - nothing) / len(paths))
    counts = [instructions.count(program, [], path, folder)[0] for path in [empty, *paths[:COUNTED_BESIDE]]]
    return min(all_seconds), sum(counts[1:]) / COUNTED_BESIDE - counts[0], reports


def rows(found, count, ours, other):
    """The rows of the table: what is shown of the runs with each number of jobs, and of the other program."""
    shown = []
    for jobs, (seconds, processor, memory, _) in found.items():
        ratio = f"{processor / count / other[0]:.2f}" if other else ""
        shown.append(f"| `batch --jobs {jobs}` | {count / seconds:,.0f} | {processor / count * 1e6:,.0f} | {ratio} | "
                     f"{ours / 1e6:.2f} | {memory / 1e6:.1f} |")
    if other:
        shown.append(f"| the plain program, net of its start | | {other[0] * 1e6:,.0f} | 1 | {other[1] / 1e6:.2f} | |")
    return shown


def words_given():
    parser = argparse.ArgumentParser(description=__doc__, formatter_class=argparse.RawDescriptionHelpFormatter)
    parser.add_argument("program")
    parser.add_argument("--beside", metavar="OTHER")
    parser.add_argument("--sessions", type=int, default=10_000)
    parser.add_argument("--rounds", type=int, default=3)
    parser.add_argument("--rows", action="store_true")
    given = parser.parse_args()
    given.program, given.beside = (path and os.path.abspath(path) for path in (given.program, given.beside))
    return given


def main():
    given, drawn = words_given(), random.Random(SEED)
    sessions = [session(drawn) for _ in range(given.sessions)]
    with tempfile.TemporaryDirectory() as folder:
        path = write_lines(os.path.join(folder, "sessions"), sessions)
        found = {jobs: batch(given.program, jobs, path, given.rounds) for jobs in JOBS}
        size = os.path.getsize(path)
        ours = per_session(given.program, folder, sessions)
        other = beside(given.beside, folder, sessions, given.rounds) if given.beside else None
    outputs = {output for *_, output in found.values()}
    lines = [json.loads(line) for line in outputs.pop().splitlines()]
    wrong = len(outputs) + sum(line["report"]["report"].encode() != report
                               for line, report in zip(lines, other[2] if other else []))
    print(f"{given.sessions} sessions, {size / 1e6:.1f} MB")
    for jobs, (seconds, processor, memory, _) in found.items():
        print(f"{jobs} jobs: {given.sessions / seconds:,.0f} sessions a second, {processor / given.sessions * 1e6:.0f} "
              f"µs of a processor for each, peak {memory / 1e6:.1f} MB")
    print(f"{ours:,.0f} instructions for each session")
    if other:
        print(f"the other: {other[0] * 1e6:.0f} µs of a processor, {other[1]:,.0f} instructions; "
              f"ours to its: {ours / other[1]:.2f} of these")
    if given.rows:
        print("\n".join(rows(found, given.sessions, ours, other)))
    print(f"{wrong} reports differ")
    sys.exit(1 if wrong else 0)


if __name__ == "__main__":
    main()
