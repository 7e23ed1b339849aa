#!/usr/bin/env python3
"""json_findings.py [PROGRAM] [--schema]: checks the report of each session of the cases and of each example by
`check --format json`, as `judge` writes it and with faults put in, and compares that with what `check` writes without
it. It has to be one line, in the one form that docs/SPECIFICATION.md gives it, with the same status; its fields have to
make that text again, and `good` has to be true exactly if the status is 0.

With --schema it is looked instead whether docs/check.schema.json takes each line, and refuses faults that are put in.
That needs the module jsonschema, Debian's python3-jsonschema, which is there for Debian's /usr/bin/python3.

PROGRAM is ../crates/monitor/out/monitor if it isn't given. The last line says how many findings were looked at; the
status is 1 if any is wrong, or if none is of some kind."""
import argparse
import collections
import concurrent.futures
import json
import os
import re
import sys
import tempfile

sys.dont_write_bytecode = True
from json_reports import TOP, sessions  # noqa: E402
from run import Differs, Place, differ  # noqa: E402

KINDS = {"unread", "refused good", "refused bad", "session good", "session bad", "names", "possibly good",
         "possibly bad", "possibly unchecked", "definitely good", "definitely bad", "definitely unchecked"}


def forged(report):
    """The report, and reports with a fault each: cut short, of other counts, names, cuts and paths, and a refusal."""
    text = report.decode("latin-1")
    yield text
    yield text[:-1]
    yield "refused streams\n"
    yield re.sub(r"messages$", "messages 1", text, count=1, flags=re.M)
    yield re.sub(r"(\d+) events", lambda it: f"{int(it[1]) + 1} events", text, count=1)
    yield re.sub(r"^(\w+)( possibly .*\n)\1", r"other\2other", text, count=1, flags=re.M)
    yield re.sub(r"(possibly yes )\d+", r"\g<1>99", text)
    yield re.sub(r"(definitely no )(\S+)", r"\1-", text)


def text_of(found):
    """The text of a finding, by the fields of its object."""
    if found["outcome"] == "unread":
        return f"report line {found['line']}\n"
    if found["outcome"] == "refused":
        return f"refused {'good' if found['good'] else 'bad'}\n"
    lines = [f"session {found['session']}"]
    if "names" in found:
        lines.append(f"names {found['names']}")
    for predicate in found.get("predicates", []):
        lines += [f"{predicate['name']} {question} {predicate[question]}" for question in ("possibly", "definitely")]
    return "\n".join(lines) + "\n"


def kinds_of(found):
    if found["outcome"] == "unread":
        return {"unread"}
    if found["outcome"] == "refused":
        return {f"refused {'good' if found['good'] else 'bad'}"}
    return {f"session {found['session']}"} | ({"names"} if "names" in found else set()) | {
        f"{question} {predicate[question]}" for predicate in found.get("predicates", [])
        for question in ("possibly", "definitely")}


def look(text, as_json):
    """Compares the finding as JSON with the one as text, and gives what it holds."""
    if (text[0], text[2]) != (as_json[0], as_json[2]):
        differ("the status and the errors", b"%d %b" % (text[0], text[2]), b"%d %b" % (as_json[0], as_json[2]))
    found = json.loads(as_json[1])
    form = json.dumps(found, sort_keys=True, separators=(",", ":"), ensure_ascii=False) + "\n"
    for what, wanted, given in (("its form", form.encode(), as_json[1]),
                                ("the text of its fields", text[1], text_of(found).encode())):
        if wanted != given:
            differ(what, wanted, given)
    if found["good"] != (as_json[0] == 0):
        raise Differs(f"`good` is {found['good']}, and the status is {as_json[0]}")
    return found


def faults_in(found):
    """The object with one fault each that no finding has."""
    for name in found:
        yield {key: value for key, value in found.items() if key != name}
    yield {**found, "more": 1}
    yield {**found, "format": 2}
    yield {**found, "good": "yes"}
    yield {**found, "outcome": "other"}
    if "predicates" in found:
        yield {**found, "predicates": []}
        yield {**found, "predicates": [{**found["predicates"][0], "possibly": "yes"}]}


def by_schema():
    """Looks at an object by the schema, and at its faults."""
    import jsonschema
    with open(os.path.join(TOP, "docs", "check.schema.json"), encoding="utf-8") as file:
        schema = json.load(file)
    jsonschema.Draft202012Validator.check_schema(schema)
    validator = jsonschema.Draft202012Validator(schema)

    def look_by(_, as_json):
        found = json.loads(as_json[1])
        for error in validator.iter_errors(found):
            raise Differs(f"the schema refuses it: {error.message[:500]}")
        for fault in faults_in(found):
            if validator.is_valid(fault):
                raise Differs(f"the schema takes this too: {json.dumps(fault)[:500]}")
        return found
    return look_by


def tried(program, look_by, session):
    """The kinds of the findings of the session's report and of forged ones, and what is wrong with any."""
    name, document, streams = session
    kinds, wrong, number = collections.Counter(), [], 0
    with tempfile.TemporaryDirectory() as folder:
        place, names = Place(program, folder), [f"stream-{number}" for number in range(1, len(streams) + 1)]
        place.write({"session.json": document, **dict(zip(names, streams))})
        report = place.run(["judge", "session.json", *names])[1]
        for text in dict.fromkeys(forged(report)):
            place.write({"report": {"bytes": text}})
            words = ["check", "session.json", "report", *names]
            number += 1
            try:
                kinds.update(kinds_of(look_by(look_by is look and place.run(words),
                                              place.run([*words, "--format", "json"]))))
            except (Differs, ValueError, KeyError, TypeError) as error:
                wrong.append(f"{name}: of {text[:200]!r}: {type(error).__name__}: {error}")
    return number, kinds, wrong


def main():
    parser = argparse.ArgumentParser(description=__doc__, formatter_class=argparse.RawDescriptionHelpFormatter)
    parser.add_argument("program", nargs="?", default=os.path.join(TOP, "crates", "monitor", "out", "monitor"))
    parser.add_argument("--schema", action="store_true")
    given = parser.parse_args()
    program = os.path.abspath(given.program)
    if not os.access(program, os.X_OK):
        sys.exit(f"findings as JSON: no program {program}")
    look_by, count, kinds, wrong = by_schema() if given.schema else look, 0, collections.Counter(), []
    with concurrent.futures.ThreadPoolExecutor(os.cpu_count()) as pool:
        for number, found, faults in pool.map(lambda session: tried(program, look_by, session), list(sessions())):
            count += number
            kinds.update(found)
            wrong += faults
    wrong += [f"no finding is of this kind: {kind}" for kind in sorted(KINDS - set(kinds))]
    print("\n".join(wrong + [f"findings as JSON: {count} looked at, {len(wrong)} wrong"]))
    return 1 if wrong else 0


if __name__ == "__main__":
    sys.exit(main())
