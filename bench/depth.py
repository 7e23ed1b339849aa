#!/usr/bin/env python3
"""depth.py PROGRAM: the deepest and longest inputs on stacks of several sizes.

Documents and lines that nest to their limit and one level more, predicates with 64 parentheses or `not`s inside one
another and with one more, the longest predicates, names, message ids, lines, document and report, each judged from files
and as a bundle, and each report checked. The stack of a run is limited: the system's first thread has that much, and so
has each thread that is started; with no limit these have 2 MB. Printed is for each case how it ends with 8 MB and with
no limit, which must be as stated, and the least stack with which it ends so too. The status is 1 if any isn't."""
import json
import os
import resource
import subprocess
import sys
import tempfile
import time

KIB = 1024
# From the greatest to the least. The last of them hold no more than what the system puts on a stack first.
STACKS = [resource.RLIM_INFINITY, 8192, 4096, 2048, 1024, 512, 256, 192, 128, 96, 64]
LONG = [letter * 32 for letter in "abcdefghijklmnop"]
X, JOIN, END = {"a": 0}, '{"process":"a"}', '{"end":true}'


def document(processes, texts, **more):
    """The document of these processes, with their variables, and of predicates with these texts."""
    return json.dumps({"processes": [{"name": name, "vars": variables} for name, variables in processes.items()],
                       "predicates": [{"name": f"q{k}", "text": text} for k, text in enumerate(texts)], **more})


def nested(levels):
    """A list in a list, and so on: this many in one another."""
    return "[" * levels + "]" * levels


def repeated(first, next_one, limit=4096):
    """A text of no more than `limit` bytes, with as many repetitions as there may be."""
    return first + next_one * ((limit - len(first)) // len(next_one))


def one(text):
    """A session of one process with this predicate and one event."""
    return document({"a": {"x": 0}}, [text]), [[JOIN, '{"set":{"x":1}}', END]]


def line(written):
    """A session of one process with this line."""
    return document({"a": {"x": 0}}, ["true"]), [[JOIN, written, END]]


def longest_report():
    """Sixteen processes, one after the other, with 10,000 events each, and 16 predicates that never hold."""
    streams = []
    for place, name in enumerate(LONG):
        events = ["{}"] * 10_000
        events[0] = f'{{"recv":"{place - 1}"}}' if place else "{}"
        events[-1] = f'{{"send":"{place}"}}'
        streams.append([f'{{"process":"{name}"}}', *events, END])
    texts = ["false"] * 16
    spec = json.loads(document({name: {"x": 0} for name in LONG}, texts))
    for k, predicate in enumerate(spec["predicates"]):
        predicate["name"] = f"{k:02}".join(["q" * 15] * 2)
    return json.dumps(spec), streams


def longest_document():
    """16 predicates of 4,096 bytes over 16 processes with 16 variables, all with the longest names, and then spaces."""
    processes = {name: {f"{k:02}".join("vw").ljust(32, "_"): 2**63 - 1 for k in range(16)} for name in LONG}
    variables = [f"{name}.{variable}" for name, own in processes.items() for variable in own]
    texts = [repeated(f"{variables[k]} < 0", f" or 2147483647 * {variables[-k]} < 0") for k in range(16)]
    streams = [[f'{{"process":"{name}"}}', json.dumps({"set": own}), END] for name, own in processes.items()]
    return document(processes, texts).ljust(262_143), streams


def cases():
    """Each case: its name, the document, the streams, the status, and what the report begins with."""
    judged, of_a = "session 1 processes 1 events 0 messages\n", {"a": {"x": 0}}
    yes = judged + "q0 possibly yes 1\nq0 definitely yes 1\n"
    found = judged + "q0 possibly yes"
    deep = [
        ("64 `not`s", one("not " * 64 + "a.x == 1"), 0, yes),
        ("65 `not`s", one("not " * 65 + "a.x == 1"), 1, "refused predicate 1 depth at 257\n"),
        ("64 parentheses", one("(" * 64 + "a.x == 1" + ")" * 64), 0, yes),
        ("65 parentheses", one("(" * 65 + "a.x == 1" + ")" * 65), 1, "refused predicate 1 depth at 65\n"),
        ("64 of both", one("not (" * 32 + "a.x == 1" + ")" * 32), 0, yes),
        ("65 of both", one("not (" * 32 + "not a.x == 1" + ")" * 32), 1, "refused predicate 1 depth at 161\n"),
        ("64 parentheses with an `or` in each", one("(a.x < 0 or " * 64 + "a.x == 1" + ")" * 64), 0, yes),
        ("4,096 parentheses", one("(" * 4096), 1, "refused predicate 1 depth at 65\n"),
    ]
    long = [
        ("the longest `or`", one(repeated("a.x == 1", " or a.x == 2")), 0, found),
        ("the longest `and`", one(repeated("a.x == 1", " and a.x < 2")), 0, found),
        ("the longest sum", one(repeated("1 == a.x", " + 0 * a.x")), 0, found),
        ("the longest predicate of `not`s", one(repeated("not a.x < 0", " or not a.x < 0")), 0, found),
        ("4,096 spaces", one(" " * 4095 + "("), 1, "refused predicate 1 expected at 4097\n"),
        ("4,097 bytes", one("true".ljust(4097)), 1, "refused predicate 1 long at 4097\n"),
    ]
    nesting = [
        ("a document that nests 127 deep", (document(of_a, ["true"], x=json.loads(nested(126))), []), 1,
         "refused spec shape\n"),
        ("a document that nests 128 deep", (document(of_a, ["true"], x=json.loads(nested(127))), []), 1,
         "refused spec json\n"),
        ("a document of brackets", ("[" * 262_143, []), 1, "refused spec json\n"),
        ("a line that nests 127 deep", line(f'{{"set":{nested(126)}}}'), 1, "refused stream 1 line 2 shape\n"),
        ("a line that nests 128 deep", line(f'{{"set":{nested(127)}}}'), 1, "refused stream 1 line 2 json\n"),
        ("a line of 65,536 brackets", line("[" * 65_536), 1, "refused stream 1 line 2 json\n"),
    ]
    name, variable, message = "n" * 32, "v" * 32, "m" * 64
    names = document({name: {variable: 0}}, [f"{name}.{variable} == 1"])
    lines = [
        ("names of 32 bytes and an id of 64", (names, [[f'{{"process":"{name}"}}', json.dumps(
            {"send": message, "set": {variable: 1}}), END]]), 0, yes),
        ("a name of 33 bytes", (document({name + "n": {}}, ["true"]), []), 1, "refused spec name\n"),
        ("an id of 65 bytes", line(f'{{"send":"{message}m"}}'), 1, "refused stream 1 line 2 messageid\n"),
        ("an id of 64 bytes, each written as an escape", line('{"send":"' + "\\u006d" * 64 + '"}'), 0, judged),
        ("a line of 65,536 bytes", line("{}".ljust(65_536)), 0, judged),
        ("a line of 65,537 bytes", line("{}".ljust(65_537)), 1, "refused stream 1 line 2 linetoolong\n"),
        ("the longest document", longest_document(), 0, "session 16 processes 16 events 0 messages\n"),
        ("the longest report", longest_report(), 0, "session 16 processes 160000 events 15 messages\n"),
    ]
    return deep + long + nesting + lines


def run(words, given, stack):
    """How a run ends with a stack of this many KiB: its status, its output and what it says of errors."""
    size = stack if stack == resource.RLIM_INFINITY else stack * KIB
    limit = lambda: resource.setrlimit(resource.RLIMIT_STACK, (size, resource.getrlimit(resource.RLIMIT_STACK)[1]))
    ended = subprocess.run(words, input=given, capture_output=True, preexec_fn=limit, timeout=600, check=False)
    return ended.returncode, ended.stdout, ended.stderr


def ends(program, folder, session, stack):
    """How a session is judged from files and as a bundle, and its report is checked: what the three runs give."""
    spec, streams = session
    paths = [os.path.join(folder, "spec"), *(os.path.join(folder, str(place)) for place in range(len(streams)))]
    parts = ["\n".join(lines).encode() + b"\n" for lines in [[spec], *streams]]
    for path, part in zip(paths, parts):
        with open(path, "wb") as out:
            out.write(part)
    # A session with no stream is judged as a bundle alone.
    bundled = run([program], b"---\n".join(parts), stack)
    if not streams:
        return [bundled]
    judged = run([program, "judge", *paths], b"", stack)
    report = os.path.join(folder, "report")
    with open(report, "wb") as out:
        out.write(judged[1])
    return [judged, bundled, run([program, "check", paths[0], report, *paths[1:]], b"", stack)]


def is_as_stated(given, status, beginning):
    """Whether the reports begin so, beside this status, and nothing bad is found in them."""
    *judged, checked = given if len(given) == 3 else [*given, (0, b"good\n", b"")]
    return (all(run[0] == status and run[1].startswith(beginning.encode()) and not run[2] for run in judged)
            and len({run[1] for run in judged}) == 1
            and checked[0] == 0 and b"bad" not in checked[1] and b"good\n" in checked[1] and not checked[2])


def least_stack(program, folder, session, status, beginning):
    """The least of the stacks with which a case ends as stated, or None if it doesn't with the greatest two."""
    least = None
    for place, stack in enumerate(STACKS):
        if not is_as_stated(ends(program, folder, session, stack), status, beginning):
            return least if place > 1 else None
        least = stack
    return least


def main():
    program, wrong = os.path.abspath(sys.argv[1]), 0
    with tempfile.TemporaryDirectory() as folder:
        for name, session, status, beginning in cases():
            start = time.perf_counter()
            least = least_stack(program, folder, session, status, beginning)
            wrong += least is None
            how = f"as stated down to {least} KiB" if least else "WRONG"
            print(f"{name}: {how}, {time.perf_counter() - start:.1f} s", flush=True)
            if not least:
                print([(run[0], run[1][:200], run[2]) for run in ends(program, folder, session, STACKS[1])])
    print(f"{wrong} not as stated")
    sys.exit(1 if wrong else 0)


if __name__ == "__main__":
    main()
