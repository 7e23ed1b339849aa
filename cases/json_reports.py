#!/usr/bin/env python3
"""json_reports.py [PROGRAM] [--schema]: judges each session of the cases and each example by `judge --format json`, as
it stands, and with a width of 1, --beyond-width and --fail-on, and compares that with what `judge` writes without it.
It has to be one line, in the one form that docs/SPECIFICATION.md gives it, with the report's text in its field `report`
and with the same status; and its other fields have to make that text again: the cut by its processes, the path by its
runs, the refusal. What stands in `at` beside a cut has to be what the streams have: the lines of the last events in it,
and the values there of the variables that the predicate names. Then all sessions in UTF-8 are judged by one `batch` for
each of these ways, which has to give each of them the same object, without `at`, and the same status; and all sessions
by one `batch --bundles`, which has to write what `batch` does of the lines that monitor_lines.py makes of the bundles.

With --schema it is looked instead whether docs/report.schema.json takes each line, of a path its first 50 runs, and
refuses faults that are put into short ones. That needs the module jsonschema, Debian's python3-jsonschema, which is
there for Debian's /usr/bin/python3.

PROGRAM is ../crates/monitor/out/monitor if it isn't given. The last line says how many reports were looked at; the
status is 1 if any is wrong, or if none has an answer or a refusal of some kind."""
import argparse
import collections
import concurrent.futures
import copy
import glob
import itertools
import json
import os
import re
import subprocess
import sys
import tempfile

sys.dont_write_bytecode = True
from run import HERE, Differs, Place, cases_of, data, differ  # noqa: E402

TOP = os.path.join(HERE, "..")
LINES = os.path.join(TOP, "recorders", "python", "monitor_lines.py")
WAYS = ([], ["--beyond-width", "--width", "1", "--fail-on", "unknown"])
# Of a path so many runs are looked at by the schema, and faults are put into lines of so few bytes.
RUNS, FAULTY = 50, 600
VARIABLE = re.compile(r"([A-Za-z_][A-Za-z0-9_]*)\s*\.\s*([A-Za-z_][A-Za-z0-9_]*)")
KINDS = {"possibly yes", "possibly no", "possibly unknown", "definitely yes", "definitely no", "definitely unknown",
         "document", "predicate", "streams", "stream", "absent", "match", "cycle"}


def sessions():
    """The name, the document and the streams of each session."""
    for path in sorted(glob.glob(os.path.join(HERE, "*.toml"))):
        for kind, case in cases_of(path):
            if kind == "session" and case["streams"]:
                yield f"{os.path.basename(path)}: {case['name']}", case["document"], case["streams"]
    for path in sorted(glob.glob(os.path.join(TOP, "examples", "*", "session.json"))):
        streams = sorted(glob.glob(os.path.join(glob.escape(os.path.dirname(path)), "*.stream")))
        yield os.path.relpath(path, TOP), *[held(path), [held(stream) for stream in streams]]


def held(path):
    with open(path, encoding="latin-1") as file:
        return {"bytes": file.read()}


def reports(program, session, with_text):
    """For each way the words, what `judge` gives as text, if that is wanted, and what it gives as JSON: each time the
    status, the output and the errors."""
    _, document, streams = session
    with tempfile.TemporaryDirectory() as folder:
        place, names = Place(program, folder), [f"stream-{number}" for number in range(1, len(streams) + 1)]
        place.write({"session.json": document, **dict(zip(names, streams))})
        for way in WAYS:
            words = ["judge", "session.json", *names, *way]
            yield words, with_text and place.run(words), place.run([*words, "--format", "json"])


def answers_of(predicate, names):
    """The two lines of a predicate, by its fields without the report's text."""
    possibly, definitely = predicate["possibly"], predicate["definitely"]
    line = f"{predicate['name']} possibly {possibly['answer']}"
    if possibly["answer"] == "yes":
        if sorted(possibly["cut"]) != sorted(names):
            raise Differs(f"the cut names {', '.join(possibly['cut'])}, and the processes are {', '.join(names)}")
        line += " " + ",".join(str(possibly["cut"][name]) for name in names)
    elif possibly["answer"] == "unknown":
        line += f" {possibly['level']}"
    other = f"{predicate['name']} definitely {definitely['answer']}"
    if definitely["answer"] == "no":
        runs = definitely["path"]
        if any(left[0] == right[0] for left, right in itertools.pairwise(runs)):
            raise Differs("two runs of the path that are neighbors are of one process")
        other += " " + (",".join(name for name, count in runs for _ in range(count)) or "-")
    else:
        other += f" {definitely['level']}"
    return [line, other]


def refusal_of(refusal):
    """The line of a refusal, by its fields."""
    def places(events):
        return ",".join(f"{name}#{number}" for name, number in events)
    made = {
        "document": "spec {word}", "predicate": "predicate {predicate} {word} at {at}", "streams": "streams",
        "stream": "stream {stream} line {line} {word}", "absent": "absent {process}",
        "match": "{word} {process}#{event}", "cycle": "cycle " + places(refusal.get("events", []))}
    return "refused " + made[refusal["family"]].format_map(refusal)


def text_of(found, document):
    """The report's text, by all fields but `report`."""
    if found["outcome"] == "refused":
        return refusal_of(found["refusal"]) + "\n"
    names = [process["name"] for process in json.loads(data(document))["processes"]]
    lines = [f"session {found['processes']} processes {found['events']} events {found['messages']} messages"]
    lines += [line for predicate in found["predicates"] for line in answers_of(predicate, names)]
    return "\n".join(lines) + "\n"


def kinds_of(found):
    """What kinds of answers the report has, or of which family its refusal is."""
    if found["outcome"] == "refused":
        return {found["refusal"]["family"]}
    return {f"{question} {predicate[question]['answer']}" for predicate in found["predicates"]
            for question in ("possibly", "definitely")}


def events_in(streams):
    """For each process that a stream joins, the stream's name, and the numbers and the texts of the lines after the
    join; the first of them are those of its events."""
    found = {}
    for number, stream in enumerate(streams, 1):
        lines = [(at, line) for at, line in enumerate(data(stream).split(b"\n"), 1) if line.strip()]
        process = json.loads(lines[0][1])["process"]
        found[process] = f"stream-{number}", lines[1:]
    return found


def known_at(document, streams, text, cut):
    """What is known of the processes at a cut of the predicate with this text."""
    events, named, known = events_in(streams), set(VARIABLE.findall(text)), {}
    for process in document["processes"]:
        name, values = process["name"], dict(process["vars"])
        file, lines = events[name]
        for _, line in lines[:cut[name]]:
            values.update(json.loads(line).get("set", {}))
        known[name] = {"values": {var: value for var, value in values.items() if (name, var) in named}}
        if cut[name]:
            known[name].update(file=file, line=lines[cut[name] - 1][0])
    return known


def look_at_cuts(found, session):
    """Takes what is known of cuts out of the object, and holds it against the streams."""
    if found["outcome"] == "refused":
        return
    document = json.loads(data(session[1]))
    for predicate, asked in zip(found["predicates"], document["predicates"]):
        if "cut" in predicate["possibly"]:
            wanted = known_at(document, session[2], asked["text"], predicate["possibly"]["cut"])
            given = predicate["possibly"].pop("at", None)
            if wanted != given:
                differ(f"`at` of {predicate['name']}", json.dumps(wanted).encode(), json.dumps(given).encode())


def without_at(report):
    """The same line without what is known of cuts."""
    found = json.loads(report)
    for predicate in found.get("predicates", []):
        predicate["possibly"].pop("at", None)
    return json.dumps(found, sort_keys=True, separators=(",", ":"), ensure_ascii=False).encode()


def look(session, text, as_json):
    """Compares the report as JSON with the one as text, and gives what it holds."""
    if (text[0], text[2]) != (as_json[0], as_json[2]):
        differ("the status and the errors", b"%d %b" % (text[0], text[2]), b"%d %b" % (as_json[0], as_json[2]))
    found = json.loads(as_json[1])
    # No space, the names in their order, none twice, one LF at the end.
    form = json.dumps(found, sort_keys=True, separators=(",", ":"), ensure_ascii=False) + "\n"
    look_at_cuts(found, session)
    for what, wanted, given in (("its form", form.encode(), as_json[1]),
                                ("`report`", text[1], found["report"].encode()),
                                ("the text of its fields", text[1], text_of(found, session[1]).encode())):
        if wanted != given:
            differ(what, wanted, given)
    return found


def faults_in(found):
    """The object with one fault each that no report has."""
    for name in found:
        yield {key: value for key, value in found.items() if key != name}
    yield {**found, "more": 1}
    yield {**found, "format": 2}
    yield {**found, "outcome": "unknown"}
    if found["outcome"] == "judged":
        yield {**found, "events": -1}
        yield {**found, "predicates": []}
        at = {"a": {"line": 1, "values": {}}}
        for question, answer in (("possibly", {"answer": "yes", "level": 1}), ("definitely", {"answer": "no"}),
                                 ("possibly", {"answer": "yes", "cut": {"a": 1}, "at": at})):
            changed = copy.deepcopy(found)
            changed["predicates"][0][question] = answer
            yield changed
    else:
        yield {**found, "refusal": {**found["refusal"], "family": "word"}}
        yield {**found, "refusal": {**found["refusal"], "more": 1}}


def shortened(found):
    """The object with the first runs of each path alone, since a validator takes long for many."""
    for predicate in found.get("predicates", []):
        if "path" in predicate["definitely"]:
            del predicate["definitely"]["path"][RUNS:]
    return found


def by_schema():
    """Looks at an object by the schema, and at its faults."""
    import jsonschema
    with open(os.path.join(TOP, "docs", "report.schema.json"), encoding="utf-8") as file:
        schema = json.load(file)
    jsonschema.Draft202012Validator.check_schema(schema)
    validator = jsonschema.Draft202012Validator(schema)

    def look_by(_, __, as_json):
        found = shortened(json.loads(as_json[1]))
        for error in validator.iter_errors(found):
            raise Differs(f"the schema refuses it: {error.message[:500]}")
        for fault in faults_in(found) if len(as_json[1]) <= FAULTY else ():
            if validator.is_valid(fault):
                raise Differs(f"the schema takes this too: {json.dumps(fault)[:500]}")
        return found
    return look_by


def tried(program, look_by, session):
    """The kinds of the session's reports, and what is wrong with any."""
    kinds, wrong = collections.Counter(), []
    for words, text, as_json in reports(program, session, look_by is look):
        try:
            kinds.update(kinds_of(look_by(session, text, as_json)))
        except (Differs, ValueError, KeyError, TypeError) as error:
            wrong.append(f"{session[0]}: {' '.join(words)} --format json: {type(error).__name__}: {error}")
    return kinds, wrong


def lines_of(all_sessions):
    """The sessions in UTF-8, and the lines that hold them for `batch`."""
    for session in all_sessions:
        try:
            document, *streams = [data(value).decode() for value in (session[1], *session[2])]
        except UnicodeDecodeError:
            continue
        yield session, json.dumps({"id": session[0], "document": document, "streams": streams})


def judged_by_batch(program, all_sessions):
    """How many sessions `batch` judges, and what differs from what `judge` writes of each alone."""
    held_lines, wrong = list(lines_of(all_sessions)), []
    text = "".join(line + "\n" for _, line in held_lines).encode()
    with concurrent.futures.ThreadPoolExecutor(os.cpu_count()) as pool:
        alone = list(pool.map(lambda held: [as_json for _, _, as_json in reports(program, held[0], False)], held_lines))
    for number, way in enumerate(WAYS):
        written = subprocess.run([program, "batch", *way, "--jobs", "4"], input=text, capture_output=True, check=False)
        answers = written.stdout.splitlines()
        if len(answers) != len(held_lines) or written.stderr:
            wrong.append(f"batch {' '.join(way)}: {len(answers)} lines of {len(held_lines)}, {written.stderr[:200]}")
        for (session, _), answer, (status, report, _) in zip(held_lines, answers, [ways[number] for ways in alone]):
            wanted = b'{"id":%b,"report":%b,"status":%d}' % (
                json.dumps(session[0], ensure_ascii=False).encode(), without_at(report), status)
            if answer != wanted:
                wrong.append(f"{session[0]}: batch {' '.join(way)}: {answer[:300]}, and wanted is {wanted[:300]}")
    return len(held_lines), wrong


def bundles_of(all_sessions):
    """The sessions as bundles with lines === between them, also those that aren't in UTF-8."""
    wholes = [[part if part.endswith(b"\n") else part + b"\n" for part in map(data, (session[1], *session[2]))]
              for session in all_sessions]
    return b"===\n".join(b"---\n".join(parts) for parts in wholes)


def judged_in_bundles(program, all_sessions):
    """What `batch` writes of bundles otherwise than of the lines that monitor_lines.py makes of them."""
    text, wrong = bundles_of(all_sessions), []
    for end in (b"", b"===\n", b"===\r\n{}", b"===\n===", b"\n\xff"):
        lines = subprocess.run([sys.executable, LINES], input=text + end, capture_output=True, check=False).stdout
        for words in ([], ["--jobs", "4", "--beyond-width"]):
            of_lines, of_bundles = (
                subprocess.run([program, "batch", *words, *more], input=given, capture_output=True, check=False)
                for more, given in (([], lines), (["--bundles"], text + end)))
            ends = [(it.returncode, it.stdout, it.stderr) for it in (of_lines, of_bundles)]
            if ends[0] != ends[1] or not ends[0][1]:
                wrong.append(f"batch --bundles {' '.join(words)}: {ends[1][1][:300]}, and wanted is {ends[0][1][:300]}")
    return wrong


def main():
    parser = argparse.ArgumentParser(description=__doc__, formatter_class=argparse.RawDescriptionHelpFormatter)
    parser.add_argument("program", nargs="?", default=os.path.join(TOP, "crates", "monitor", "out", "monitor"))
    parser.add_argument("--schema", action="store_true")
    given = parser.parse_args()
    program = os.path.abspath(given.program)
    if not os.access(program, os.X_OK):
        sys.exit(f"reports as JSON: no program {program}")
    look_by, all_sessions = by_schema() if given.schema else look, list(sessions())
    kinds, wrong = collections.Counter(), []
    with concurrent.futures.ThreadPoolExecutor(os.cpu_count()) as pool:
        for found, faults in pool.map(lambda session: tried(program, look_by, session), all_sessions):
            kinds.update(found)
            wrong += faults
    wrong += [f"no report has the answer or the refusal: {kind}" for kind in sorted(KINDS - set(kinds))]
    by_batch = ""
    if not given.schema:
        count, faults = judged_by_batch(program, all_sessions)
        by_batch, wrong = f", {count} of them by batch too", wrong + faults + judged_in_bundles(program, all_sessions)
    for fault in wrong:
        print(f"reports as JSON: {fault}")
    print(f"reports as JSON: {len(all_sessions)} sessions, each in {len(WAYS)} ways{by_batch}, {len(wrong)} wrong")
    sys.exit(1 if wrong else 0)


if __name__ == "__main__":
    main()
