#!/usr/bin/env python3
"""explanations.py [PROGRAM] [--write]: causes each refusal, each fault, and answers of each kind, and compares what
the program explains of them with explanations.md, which is made of the same cases by --write. Each example of
docs/EXPLANATIONS.md has to stand there too.

PROGRAM is ../crates/monitor/out/monitor if it isn't given. Each case is run as it stands, where the errors have to hold
the fixed line and nothing else, and with `--explain` at three places of its arguments, where the output and the status
have to be the same, and the fixed line to stand last. A refusal or a fault without a case is missed. A case of another
explanation is printed with both. The last line says how many cases there are and how many differ; the status is 1 if
any does.
"""
import argparse
import collections
import concurrent.futures
import difflib
import gzip
import json
import os
import re
import resource
import shutil
import socket
import subprocess
import sys
import tempfile

import listening

HERE = os.path.dirname(os.path.abspath(__file__))
PAGE = os.path.join(HERE, "explanations.md")
EXAMPLES = os.path.join(HERE, "..", "docs", "EXPLANATIONS.md")
EXAMPLE = re.compile(r"^\*\*[^\n]+\*\*\n\n(?:    [^\n]*\n)+\n```\n.*?^```\n", re.M | re.S)
SPECS = os.path.join(HERE, "..", "crates", "def_format", "specs", "RefusalWords.antt")
SECONDS = 60
FIXED = ("read", "write", "memory", "network", "bundle too long")
COLUMNS = 116
# The variable of the environment that asks for explanations.
VARIABLE = "MONITOR_EXPLAIN"
# The columns of a line of an explanation.
ROW = 80
# How errors begin that have more than one fixed line.
FINDING = "monitor: no picture, for a check finds:\n"
# How a page begins, which is all of one that the golden file shows.
HTML = "<!doctype html>"
# What is told while a server runs, in an order that may change: `servers.py` has the cases.
TOLD = re.compile(r"^serve: .*\n(?:  .*\n)*", re.MULTILINE)

Case = collections.namedtuple("Case", "name files words input output memory peers",
                              defaults=({}, (), b"", None, None, ()))

A = '{"process":"a"}\n'
B = '{"process":"b"}\n'
END = '{"end":true}\n'
# The byte order mark of UTF-8.
MARK = b"\xef\xbb\xbf"


def document(text="a.x == 1 and b.y == 1", **fields):
    """A session document of two processes, with these fields in place of its own."""
    processes = [{"name": "a", "vars": {"x": 0}}, {"name": "b", "vars": {"y": 0}}]
    whole = {"processes": processes, "predicates": [{"name": "both", "text": text}], **fields}
    fields = (f"{json.dumps(name)}:{json.dumps(value, separators=(',', ':'))}" for name, value in whole.items())
    return "{" + ",\n ".join(fields) + "}\n"


def session(name, spec=None, a=A + '{"set":{"x":1}}\n' + END, b=B + '{"set":{"y":1}}\n' + END, words=(), c=None,
            **more):
    """A case that judges two streams, or three if the words name the third."""
    files = {"session.json": document() if spec is None else spec, "a.stream": a, "b.stream": b}
    if c is not None:
        files["c.stream"] = c
    return Case(name, files, ("judge", "session.json", "a.stream", "b.stream", *words), **more)


def paged(case):
    """The same session, of which a page is written."""
    return case._replace(words=("explore", *case.words[1:]))


def processes(*items):
    return document(processes=[{"name": name, "vars": variables} for name, variables in items])


def wide(name="an answer is unknown", text="a.x + b.x + c.x > 5", words=(), names="abcd", events=2, width=2):
    """A session of processes with no messages, that is unknown at this width."""
    spec = document(text, width=width, processes=[{"name": it, "vars": {"x": 0}} for it in names])
    lines = "".join(f'{{"set":{{"x":{number + 1}}}}}\n' for number in range(events))
    files = {f"{it}.stream": f'{{"process":"{it}"}}\n{lines}{END}' for it in names}
    return Case(name, {"session.json": spec, **files}, ("judge", "session.json", *files, *words))


def unknown():
    """Answers that are unknown, by the width alone and beyond it."""
    yield wide()
    yield wide_by_connections()
    equal, two = "2 * a.x + 2 * b.x + 2 * c.x == 5", "a.x + b.x + c.x > 4 and a.x + b.x + d.x < 1"
    many = " and ".join(f"(a.x + b.x + c.x > {n} or d.x == {n})" for n in range(6, 19))
    beyond = ("--beyond-width",)
    yield wide("an answer is unknown that is decided at any width", "a.x == 1 and b.x == 1 and c.x == 1")
    yield wide("an answer is unknown that may be decided at any width", two)
    yield wide("an answer is unknown that no rule decides", many)
    yield wide("two sums stand in an and", two, beyond)
    yield wide("sums are asked whether they are equal", equal, beyond)
    yield wide("two sums, and sums that may be equal", f"{two} or {equal}", beyond)
    yield wide("a predicate has too many terms", many, beyond)
    yield wide("a search back comes to too many dead ends", "a.x + b.x + c.x == 3", beyond)
    yield wide("a level is too wide for any width", "a.x + b.x + c.x > 5", (), "abcdefghijklmnop", 3, 60_000)
    late = "a.x + b.x + c.x > 8 and a.x + b.x + d.x < 4"
    named = f"{late} and {' + '.join(f'{it}.x' for it in 'efghijklmnop')} >= 0"
    yield wide("a level is too wide, and no rule decides", named, beyond, "abcdefghijklmnop", 3, 60_000)
    yield wide("a level is too wide, and the events that change what is named decide", late, beyond,
               "abcdefghijklmnop", 3, 60_000)
    yield reduced("possibly", "a.x + b.x + c.x == 1110", 8, {"a": (10, 0), "b": (100, 0), "c": (1000, 2000, 0)})
    yield reduced("definitely", "a.x + b.x + c.x == 4", 7, {name: (1, 2) for name in "abc"})
    yield wide("a level is too wide for the greatest width", late, (), "abcdefghijklmnop", 3, 65_536)


def reduced(question, text, width, values):
    """A session with these values that is unknown because of events that set another variable."""
    spec = document(text, width=width, processes=[{"name": it, "vars": {"n": 0, "x": 0}} for it in values])
    other = '{"set":{"n":1}}\n{"set":{"n":2}}\n'
    files = {f"{name}.stream": f'{{"process":"{name}"}}\n{other}'
             + "".join(f'{{"set":{{"x":{value}}}}}\n{other}' for value in of) + END for name, of in values.items()}
    return Case(f"what is unknown of {question} is decided by the events that change what is named",
                {"session.json": spec, **files}, ("judge", "session.json", *files, "--beyond-width"))


def wide_by_connections():
    """The same of streams that come by connections, so that it is judged once."""
    case = wide()
    peers = tuple(text for name, text in case.files.items() if name.endswith(".stream"))
    return Case("an answer about connections is unknown", {"session.json": case.files["session.json"]},
                ("serve", "session.json", "--port", "FREE"), peers=peers)


def large():
    """A session of 16 processes with 10,000 messages each, in too little memory."""
    names = [f"p{number}" for number in range(16)]
    spec = document("p0.x == 1", processes=[{"name": name, "vars": {"x": 0}} for name in names])
    files = {f"{name}.stream": f'{{"process":"{name}"}}\n'
             + "".join(f'{{"send":"{name}-{number:060}"}}\n' for number in range(10_000)) + END for name in names}
    return Case("memory is refused", {"session.json": spec, **files}, ("judge", "session.json", *files), memory=MEMORY)


def documents():
    yield session("the document is too long", document() + " " * 262_144)
    yield session("the document isn't JSON", document().replace('0}},{"name":"b"', '0},{"name":"b"'))
    yield session("the document ends too soon", document()[:-40])
    yield session("the document is empty", "")
    yield session("the document has a field too many", document(widht=5))
    yield session("the document has no predicates", '{"processes":[]}\n')
    yield session("a process has no variables", document(processes=[{"name": "a"}, {"name": "b", "vars": {}}]))
    yield session("the document has too many processes", processes(*((f"p{number}", {}) for number in range(17))))
    yield session("a name can't be one", processes(("a", {"x": 0}), ("b-1", {"y": 0})))
    yield session("a name can't be one, and a width is asked for", processes(("a", {"x": 0}), ("the b", {"y": 0})),
                  words=("--width", "5"))
    yield session("two processes have one name", processes(("a", {"x": 0}), ("a", {"y": 0})))
    yield session("an initial value isn't a whole number", processes(("a", {"x": 0}), ("b", {"y": 0.5})))
    yield session("the document has no predicate", document(predicates=[]))
    yield session("the width is too great", document(width=65_537))
    yield session("the version is unknown", document(version=3))
    yield session("a stream stands where the document belongs")._replace(
        words=("judge", "a.stream", "session.json", "b.stream"))
    yield session("the document begins with a byte order mark", MARK + document().encode())
    yield session("the document is UTF-16", document().encode("utf-16"))
    yield session("the document is compressed", gzip.compress(b"{}", mtime=0))
    yield session("the document is a ZIP archive", b"PK\x03\x04")
    yield session("the document is a picture", b"\x89PNG\r\n\x1a\n")


def predicates():
    yield session("a predicate is too long", document("a.x == 1" + " or a.x == 1" * 400))
    yield session("a predicate has a sign that means nothing", document("a.x = 1 and b.y == 1"))
    yield session("a number is too great", document("a.x == 1 and b.y == 9223372036854775808"))
    yield session("a predicate goes on as none can", document("a.x == 1 and and b.y == 1"))
    yield session("a predicate ends too soon", document("a.x == 1 and b."))
    yield session("a variable is unknown", document("a.x == 1 and b.yy == 1"))
    yield session("a process is unknown in a predicate", document("a.x == 1 and c.y == 1"))
    meant = {
        "two comparisons are joined without a word": "1 < a.x < 3", "and is written as in C": "a.x == 1 && b.y == 1",
        "or is written as in C": "a.x == 1 || b.y == 1", "not is written as in C": "!(a.x == 1)",
        "unequal is written as in Pascal": "a.x <> 1", "a sign has its parts in the other order": "a.x => 1",
        "a word stands in capital letters": "a.x == 1 AND b.y == 1", "a word is misspelled": "a.x == 1 adn b.y == 1",
        "not stands in capital letters": "NOT a.x == 1", "a value is a fraction": "a.x == 0.5",
        "a value is true": "a.x == true", "a value is a text": 'a.x == "yes"',
        "a variable is multiplied by another": "a.x * b.y == 1", "a variable stands without its process": "x == 1",
        "a variable is one of another process": "b.x == 1", "no name is near": "b.zzz == 1",
    }
    for name, text in meant.items():
        yield session(name, document(text))
    named = (("leader", {"term": 0, "is_open": 1}), ("follower", {"term": 0}))
    for name, text in (("a variable is misspelled", "leader.tern == 1"),
                       ("a process is misspelled", "leadre.term == 1"),
                       ("a variable of two processes stands without either", "term == 1")):
        yield session(name, document(text, processes=[{"name": it, "vars": variables} for it, variables in named]))
    yield session("a predicate is too deep", document("(" * 65 + "a.x == 1" + ")" * 65))


def asked():
    yield session("a predicate that is asked for names no variable", words=("--ask", "a.x == 1", "--ask", "b.z == 1"))
    yield session("a sign is missing in a predicate that is asked for", words=("--ask", "a.x = 1"))
    yield session("a sign is missing in a predicate that is asked for by a name", words=("--ask", "busy=a.x = 1"))
    yield session("two predicates that are asked for have one name",
                  words=("--ask", "busy=a.x == 1", "--ask", "busy=b.y == 1"))


def checks():
    """Reports of which something is bad."""
    report = "session 2 processes 2 events 0 messages\nboth possibly yes 1,1\nboth definitely no a,b\n"
    bad = {"a cut is bad, and a path": report.replace("1,1", "1,0"),
           "the numbers are bad": report.replace("2 events", "3 events"),
           "the names are bad": report.replace("both", "all"), "the report is no report": "both possibly yes 1,1\n",
           "the report refuses a session that isn't refused": "refused cycle a#1,b#1\n"}
    for name, text in bad.items():
        whole = session(name)
        yield whole._replace(files={**whole.files, "report": text},
                             words=("check", "session.json", "report", "a.stream", "b.stream"))
    yield session("a report that comes by a pipe", input=bad["a cut is bad, and a path"].encode())._replace(
        words=("check", "session.json", "-", "a.stream", "b.stream"))


def lines():
    long = A + '{"set":{"x":1}, "send":"' + "m" * 65_536 + '"}\n' + END
    yield session("a line is too long", a=long)
    yield session("a stream is too long", a=A + "{}\n" + (" " * 65_000 + "\n") * 260 + END)
    yield session("a line isn't JSON", a=A + '{"set":{"x":1}\n' + END)
    yield session("a line has a byte that isn't UTF-8", a=(A + '{"send":"m').encode() + b'\xff"}\n' + END.encode())
    yield session("a line has a field too many", a=A + '{"set":{"x":1},"at":12.5}\n' + END)
    yield session("a stream doesn't begin with its process", a='{"set":{"x":1}}\n' + END)
    yield session("a process is unknown", a='{"process":"c"}\n' + END)
    yield session("a line sets an unknown variable", a=A + '{"set":{"y":1}}\n' + END)
    yield session("a value isn't a whole number", a=A + '{"set":{"x":"yes"}}\n' + END)
    named = document("a.inside == 1", processes=[{"name": "a", "vars": {"inside": 0, "term": 0}},
                                                 {"name": "follower", "vars": {"y": 0}}])
    yield session("a variable in a line is misspelled", named, a=A + '{"set":{"insdie":1}}\n' + END)
    yield session("a process in a line is misspelled", named, a='{"process":"folower"}\n' + END)
    yield session("a field of a line is misspelled", a=A + '{"sned":"m1"}\n' + END)
    yield session("the document stands where a stream belongs")._replace(
        words=("judge", "session.json", "session.json", "b.stream"))
    yield session("a document of several lines stands where a stream belongs",
                  a=json.dumps({"processes": []}, indent=1))
    yield session("a stream begins with a byte order mark", a=MARK + (A + END).encode())
    yield session("a stream is compressed", a=gzip.compress(b"{}", mtime=0))
    yield session("the id of a message is too long", a=A + '{"send":"' + "m" * 65 + '"}\n' + END)
    yield session("a process has too many events", a=A + "{}\n" * 10_001 + END)
    yield session("a stream has no end line", a=A + '{"set":{"x":1}}\n')
    yield session("a stream is empty", a="")
    yield session("a stream is a folder", a=None)
    yield session("two streams are of one process", b=A + END)


def runs():
    """Runs of any length that are refused, or of which no session can be made or written."""
    yield recorded("a run's document has too many processes",
                   processes(*((f"p{number}", {}) for number in range(4_097))))
    yield recorded("a run's document is too long", document() + " " * 262_144)
    yield recorded("many streams of a run aren't there")._replace(
        words=("reduce", "session.json", *(f"{number}.stream" for number in range(120)), "--to", "made"))
    yield recorded("a process of a run has no stream")._replace(words=("reduce", "session.json", "a.stream", "--to",
                                                                       "made"))
    yield recorded("a value in a run isn't a whole number", a=A + '{"set":{"x":0.5}}\n' + END)
    yield recorded("each of two processes of a run waits for the other", a=A + '{"recv":"m2"}\n{"send":"m1"}\n' + END,
                   b=B + '{"recv":"m1"}\n{"send":"m2"}\n' + END)
    names = [f"p{number}" for number in range(17)]
    files = {f"{name}.stream": f'{{"process":"{name}"}}\n{END}' for name in names}
    spec = document(" + ".join(f"{name}.x" for name in names) + " > 1",
                    processes=[{"name": name, "vars": {"x": 0}} for name in names])
    yield Case("predicates name too many processes for a session", {"session.json": spec, **files},
               ("reduce", "session.json", *files, "--to", "made"))
    yield recorded("a process would have too many events in a session", a=A + "".join(
        f'{{"set":{{"x":{number % 2}}}}}\n' for number in range(1, 10_002)) + END)
    yield recorded("the folder for a session is the one in which the program runs", to=".")
    yield recorded("the folder for a session is a file", to="a.stream")
    full = recorded("the folder for a session has a file", to="kept")
    yield full._replace(files={**full.files, "kept": None, "kept/session.json": ""})
    yield recorded("a session is made of a run", to="kept")


def recorded(name, spec=None, a=A + '{"set":{"x":1}}\n' + END, to="made", **more):
    """A case that reduces a run of two streams."""
    case = session(name, spec, a, **more)
    return case._replace(words=("reduce", *case.words[1:], "--to", to))


def streams():
    yield Case("there are too many streams", {"session.json": document(), "a.stream": A + END},
               ("judge", "session.json", *["a.stream"] * 33))
    yield Case("a process has no stream", {"session.json": document(), "a.stream": A + END},
               ("judge", "session.json", "a.stream"))


def messages():
    yield session("two sends have one id", a=A + '{"send":"m1"}\n' + END, b=B + '{}\n{"send":"m1"}\n' + END)
    yield session("nobody sent what is received", b=B + '{"recv":"m1"}\n' + END)
    yield session("a process receives what it sent", a=A + '{"send":"m1"}\n{"recv":"m1"}\n' + END)
    yield session("a message is received twice", a=A + '{"send":"m1"}\n' + END,
                  b=B + '{"recv":"m1"}\n{"recv":"m1"}\n' + END)
    yield session("a message is received by two processes", spec=processes(("a", {"x": 0}), ("b", {"y": 0}), ("c", {})),
                  a=A + '{"send":"m1"}\n' + END, b=B + '{"recv":"m1"}\n' + END, words=("c.stream",),
                  c='{"process":"c"}\n{"recv":"m1"}\n' + END)
    yield session("each of two processes waits for the other", a=A + '{"recv":"m2"}\n{"send":"m1"}\n' + END,
                  b=B + '{"recv":"m1"}\n{"send":"m2"}\n' + END)


# One process hands a token on while it still has it, and one gives it up before.
EARLY = A + '{"set":{"x":1}}\n{"send":"m1"}\n{"set":{"x":0}}\n{"recv":"m2"}\n' + END
LATE = A + '{"set":{"x":1}}\n{"set":{"x":0}}\n{"send":"m1"}\n{"recv":"m2"}\n' + END
TAKES = B + '{"recv":"m1","set":{"y":1}}\n{"set":{"y":0}}\n{"send":"m2"}\n' + END


def answers():
    yield session("two processes can be so at one time", a=EARLY, b=TAKES)
    yield session("two processes can't be so at one time", a=LATE, b=TAKES)
    yield session("a state before a message is sent", document(
        "a.x == 0 and b.y - 2 * b.z > 3",
        processes=[{"name": "a", "vars": {"x": 1}}, {"name": "b", "vars": {"y": 0, "z": 2}}]),
        a=A + '\n{"recv":"m1"}\n\n{"set":{"x":0}}\n{"recv":"m2"}\n' + END,
        b=B + '{"send":"m1"}\n{"set":{"y":-3,"z":-9}}\n{"send":"m2"}\n' + END)
    yield session("a state of one process", document("a.x == 1"), a=EARLY, b=TAKES)
    yield session("a state that holds at the start", document("a.x + b.y == 0"), a=EARLY, b=TAKES)
    yield session("predicates that name no variable", document(
        predicates=[{"name": "all", "text": "true"}, {"name": "none", "text": "0 == 1"}]), a=EARLY, b=TAKES)
    yield session("several predicates, and messages by a third process", document(
        predicates=[{"name": "both", "text": "a.x == 1 and b.y == 1"}, {"name": "lost", "text": "a.x + b.y == 0"}],
        processes=[{"name": "a", "vars": {"x": 1}}, {"name": "b", "vars": {"y": 0}}, {"name": "c", "vars": {}}]),
        a=A + '{"set":{"x":0}}\n{"send":"m1"}\n' + END, b=B + '{"recv":"m2","set":{"y":1}}\n' + END,
        c='{"process":"c"}\n{"recv":"m1"}\n{"send":"m2"}\n' + END, words=("c.stream",))
    turns = "".join(f'{{"set":{{"x":{number % 2}}}}}\n{{"send":"a{number}"}}\n{{"recv":"b{number}"}}\n'
                    for number in range(3))
    yield session("an order of many turns", document("a.x == 1 and b.y == 1"), a=A + turns + END, b=B + "".join(
        f'{{"recv":"a{number}"}}\n{{"set":{{"y":{number % 2}}}}}\n{{"send":"b{number}"}}\n' for number in range(3)) + END)
    yield session("messages by turns prevent a state", a=A + "".join(
        f'{{"set":{{"x":1}}}}\n{{"set":{{"x":0}}}}\n{{"send":"a{number}"}}\n{{"recv":"b{number}"}}\n'
        for number in range(4)) + END, b=B + "".join(
        f'{{"recv":"a{number}","set":{{"y":1}}}}\n{{"set":{{"y":0}}}}\n{{"send":"b{number}"}}\n'
        for number in range(4)) + END)
    yield session("the states of one process prevent a state", document(
        "a.x == 1 and a.z == 0 and b.y == 0", processes=[
            {"name": "a", "vars": {"x": 0, "z": 0}}, {"name": "b", "vars": {"y": 0}}]),
        a=A + '{"set":{"z":1}}\n{"set":{"x":1}}\n' + END)
    yield session("a state is prevented, and it isn't decided by what", document(
        "a.x + b.y + c.z == 3", processes=[
            {"name": "a", "vars": {"x": 0}}, {"name": "b", "vars": {"y": 0}}, {"name": "c", "vars": {"z": 0}}]),
        a=A + '{"set":{"x":2}}\n' + END, b=B + '{"set":{"y":2}}\n' + END,
        c='{"process":"c"}\n{"set":{"z":2}}\n' + END, words=("c.stream",))
    yield session("no event sets a variable", b=B + "{}\n" + END)
    yield session("two runs stand in one file", a=EARLY + EARLY, b=TAKES)
    yield session("one line stands after an end line", a=EARLY + "\n" + END, b=TAKES)
    yield session("a stream ends at once", b=B + END)
    yield session("a condition is met", a=EARLY, b=TAKES, words=("--fail-on", "possibly"))
    two = document(predicates=[{"name": "both", "text": "a.x == 1 and b.y == 1"}, {"name": "seen", "text": "a.x == 1"},
                               {"name": "never", "text": "a.x == 2"}])
    yield session("several conditions are met, some by several predicates", two, a=EARLY, b=TAKES,
                  words=("--fail-on", "unknown,possibly,never:possibly-no,seen:definitely,definitely-no"))
    yield session("no condition is met", two, a=EARLY, b=TAKES, words=("--fail-on", "never:possibly,unknown"))
    unknown = wide()
    yield unknown._replace(name="a condition is met by what is unknown", words=(*unknown.words, "--fail-on", "unknown"))
    yield paged(session("answers of which a page is written", a=EARLY, b=TAKES))
    yield paged(session("a condition is met by what a page shows", a=EARLY, b=TAKES, words=("--fail-on", "possibly")))
    yield session("answers that are written as JSON", a=EARLY, b=TAKES, words=("--format", "json"))
    yield session("a recorded run fails", a=EARLY, b=TAKES)._replace(words=("test", "."))
    yield session("an answer about streams on standard input", input=TAKES.encode(), a=EARLY)._replace(
        words=("judge", "session.json", "a.stream", "-"))
    yield Case("an answer about a bundle", input=bundle(document(), EARLY, TAKES))
    yield Case("an answer about connections", {"session.json": document()},
               ("serve", "session.json", "--port", "FREE"), peers=(TAKES, EARLY))
    yield Case("an answer about connections that are kept", {"session.json": document()},
               ("serve", "session.json", "--port", "FREE", "--keep", "kept"), peers=(TAKES, EARLY))


def note(process, event, text, place=""):
    """A line of notes."""
    return json.dumps({"process": process, "event": event, "text": text, "place": place}) + "\n"


def with_notes(case, text, *words):
    """The same with a file of notes."""
    return case._replace(files={**case.files, "notes": text}, words=(*case.words, "--notes", "notes", *words))


def noted():
    """Events of which something was noted."""
    text = note("a", 1, "", "/src/worker.go:31") + note("a", 2, "hands the token on", "/src/worker.go:34") + note(
        "b", 1, "has it") + note("b", 2, "is f\u00fcll of it", "turn.py:9") + note("b", 1, "", "turn.py:7")
    can = session("notes on the events of a cut", a=EARLY, b=TAKES)
    yield with_notes(can, text)
    yield with_notes(paged(can._replace(name="notes on the events of a cut of which a page is written")), text)
    yield with_notes(session("notes on the events of messages that prevent a state", a=LATE, b=TAKES), text)
    yield with_notes(session("notes on the events of a cycle", a=A + '{"recv":"m2"}\n{"send":"m1"}\n' + END,
                             b=B + '{"recv":"m1"}\n{"send":"m2"}\n' + END), text)
    yield with_notes(session("notes on events that receive one message", a=A + '{"send":"m1"}\n' + END,
                             b=B + '{"recv":"m1"}\n{"recv":"m1"}\n' + END), text)
    yield with_notes(session("a note on the last event before a line that is refused",
                             a=A + '\n{"set":{"x":1}}\n\n{}\n{"set":{"z":1}}\n' + END), text)
    yield with_notes(session("a note on the last event of a stream without an end line", b=B + '{"set":{"y":1}}\n'), text)
    yield with_notes(session("notes on no event that is named", document("a.x == 2")), text)
    odd = note("b", 1, "has it") + "none\n\n[]\n" + note(1, 1, "x") + note("a", 0, "x") + note("a", 1.5, "x") + note(
        "a", 1, None) + note("a", 1, "x", None) + '{"process":"a","event":1,"text":"x","clock":"now"}\n'
    yield with_notes(session("lines that are no notes, and notes that aren't there", a=EARLY, b=TAKES), odd,
                     "--notes", "gone")
    for name, line in (("no object", "7"), ("no process", note(1, 1, "x")), ("no event", note("a", 0, "x")),
                       ("no text", note("a", 1, None)), ("no place", note("a", 1, "x", None)),
                       ("no clock", '{"process":"a","event":1,"text":"x","clock":"now"}')):
        yield with_notes(session(f"a line of notes has {name}", a=EARLY, b=TAKES), line)
    report = "session 2 processes 7 events 2 messages\nboth possibly yes 2,2\nboth definitely no a\n"
    yield with_notes(session("notes on the events of a cut that is bad", a=EARLY, b=TAKES)._replace(
        words=("check", "session.json", "report", "a.stream", "b.stream"),
        files={"session.json": document(), "report": report, "a.stream": EARLY, "b.stream": TAKES}), text)


def bundle(*parts):
    """A bundle of a document and streams."""
    return "---\n".join(parts).encode()


def bundles():
    yield Case("a document in a bundle", input=bundle(document(width=0), A))
    yield Case("a predicate in a bundle", input=bundle(document("a.x = 1"), A))
    yield Case("a stream in a bundle", input=bundle(document(), A + "{}\n", B))
    yield Case("a variable that there isn't, in a bundle",
               input=bundle(document(), A + END, B + '\n{"set":{"z":1}}\n' + END))
    yield Case("a line of a bundle that was written with carriage returns",
               input=bundle(document(), A + END, B + '{"set":{"z":1}}\n' + END).replace(b"\n", b"\r\n"))
    yield Case("two streams of one process in a bundle", input=bundle(document(), A + END, A + END))
    yield Case("a process has no stream in a bundle", input=bundle(document(), B + END))
    yield Case("a message is received twice in a bundle",
               input=bundle(document(), A + '{"send":"m1"}\n' + END, B + '{"recv":"m1"}\n{"recv":"m1"}\n' + END))
    yield Case("a causal cycle in a bundle", input=bundle(document(), A + '{"recv":"m2"}\n{"send":"m1"}\n' + END,
                                                         B + '{"recv":"m1"}\n{"send":"m2"}\n' + END))
    yield Case("an answer about a bundle is unknown", input=bundle(*wide().files.values()))
    yield Case("a bundle that is too long", input=b" " * 67_108_865)
    yield Case("bundles in place of lines", words=("batch",), input=bundle(document(), EARLY))


def faults():
    yield session("a file isn't there")._replace(words=("judge", "session.json", "a.stream", "c.stream"))
    yield session("several files aren't there")._replace(words=("judge", "doc.json", "c.stream", "a.stream", "d.stream"))
    yield session("a predicate stands in no quotes")._replace(
        words=("judge", "session.json", "a.stream", "b.stream", "--ask", "a.x", "==", "1"))
    yield session("the document is a folder")._replace(words=("judge", ".", "a.stream", "b.stream"))
    good = session("the report isn't there")
    yield good._replace(words=("check", "session.json", "report", "a.stream", "b.stream"))
    yield session("the output is full")._replace(output="/dev/full")
    yield session("the output of a test is full")._replace(words=("test", "."), output="/dev/full")
    yield good._replace(name="there is no predicate of that name", files={**good.files, "report": REPORT},
                        words=("draw", "session.json", "report", "a.stream", "b.stream", "--predicate", "bot"))
    yield session("there is no predicate of that name to fail on", words=("--fail-on", "bot:possibly"))
    yield session("there is no predicate of nearly that name to fail on", words=("--fail-on", "possibly,other:unknown"))
    yield session("there is none of that name among those that are asked for",
                  words=("--ask", "a.x == 1", "--fail-on", "both:possibly"))
    yield paged(session("there is no predicate of that name to wish for", words=("--never", "both", "--always", "bot")))
    notes = paged(session("notes aren't there, and a stream is", words=("--notes", "b.notes", "--notes", "a.stream")))
    yield notes
    yield notes._replace(name="notes are not UTF-8", files={**notes.files, "b.notes": b"\xff\n"})
    yield notes._replace(name="notes are too long", files={**notes.files, "b.notes": 67_108_865})
    yield good._replace(name="there is no picture of a bad report", files={**good.files, "report": "all possibly no\n"},
                        words=("draw", "session.json", "report", "a.stream", "b.stream"))
    yield good._replace(name="there is no evidence of that kind", files={**good.files, "report": REPORT},
                        words=("draw", "session.json", "report", "a.stream", "b.stream", "--evidence", "definitely"))
    yield good._replace(name="the report is too long", files={**good.files, "report": TOO_LONG},
                        words=("check", "session.json", "report", "a.stream", "b.stream"))
    yield good._replace(name="a port is taken", words=("serve", "session.json", "--port", "TAKEN"))
    yield large()


def connections():
    serve = ("serve", "session.json", "--port", "FREE")
    yield session("a stream that comes by a pipe", input=B.encode() + b"{}\n")._replace(
        words=("judge", "session.json", "a.stream", "/dev/stdin"))
    yield session("a stream on standard input", input=B.encode() + b'{"set":{"y":0.5}}\n')._replace(
        words=("judge", "session.json", "a.stream", "-"))
    yield session("a document that comes by a pipe", input=document(width=0).encode())._replace(
        words=("judge", "-", "a.stream", "b.stream"))
    files = {"session.json": document()}
    yield Case("a stream that comes by a connection", files, serve, peers=(A + "{}\n", B + END))
    unknown = A + '{"set":{"z":1}}\n' + END
    yield Case("a variable that there isn't, by a connection", files, serve, peers=(unknown, B + END))
    yield Case("a process that there isn't, by a connection", files, serve, peers=('{"process":"c"}\n' + END, B + END))
    yield Case("a message of a session that is kept", files, (*serve, "--keep", "kept"),
               peers=(A + '{"recv":"m9"}\n' + END, B + END))
    yield Case("a message of a session that isn't kept", files, serve, peers=(A + '{"recv":"m9"}\n' + END, B + END))
    yield Case("a connection of a browser", files, serve, peers=("GET / HTTP/1.1\r\nHost: a\r\n\r\n", B + END))
    yield Case("a connection that sends nothing", files, serve, peers=(A + END, ""))
    yield Case("two connections of one process", files, serve, peers=(B + END, B + END))
    yield Case("a connection that doesn't come in time", files, (*serve, "--wait", "2"), peers=(B + END,))
    folder = {**files, "kept": None, "kept/session.json": ""}
    yield Case("a session can't be kept", folder, (*serve, "--keep", "kept"), peers=None)
    yield Case("no connection comes in time", files, (*serve, "--wait", "1"), peers=None)


# So few bytes of memory that the ids of 160,000 messages have no room.
MEMORY = 14 << 20
# The length of a file that is one byte longer than a report may be.
TOO_LONG = 268_435_457
DATA = re.compile('<script type="application/json" id="data">(.*?)</script>', re.DOTALL)
REPORT = "session 2 processes 2 events 0 messages\nboth possibly yes 1,1\nboth definitely yes 2\n"
KINDS = {
    "The session document": documents, "The text of a predicate": predicates,
    "The text of a predicate that is asked for": asked, "A line of a stream": lines,
    "The list of streams": streams, "Messages": messages, "Answers": answers,
    "Notes": noted, "Unknown answers": unknown,
    "Reports that a check finds bad": checks,
    "Runs of any length": runs,
    "What comes by a pipe or a connection": connections, "A bundle": bundles, "Faults": faults,
}


def write(folder, files):
    for name, value in files.items():
        path = os.path.join(folder, name)
        if value is None:
            os.mkdir(path)
        elif isinstance(value, int):
            with open(path, "wb") as file:
                file.truncate(value)
        else:
            with open(path, "wb") as file:
                file.write(value.encode() if isinstance(value, str) else value)


def limited(memory):
    """Has a process have no more than this many bytes of memory."""
    def limit():
        resource.setrlimit(resource.RLIMIT_AS, (memory, memory))
    return limit


def send(server, port, peers):
    """Sends each of these streams by a connection of its own, which are made one after the other."""
    connections = [listening.connect(server, port) for _ in peers]
    for connection, peer in zip(connections, peers):
        with connection:
            connection.sendall(peer.encode())


def ran(program, folder, case, words):
    """The status, the output and the errors of the program."""
    path = os.path.join(folder, ".output")
    if "kept" not in case.files:
        shutil.rmtree(os.path.join(folder, "kept"), ignore_errors=True)
    options = {"preexec_fn": limited(case.memory)} if case.memory else {}
    with open(case.output or path, "wb") as out:
        with subprocess.Popen([program, *words], stdin=subprocess.PIPE, stdout=out, stderr=subprocess.PIPE, cwd=folder,
                              **options) as process:
            if case.peers:
                send(process, int(words[words.index("--port") + 1]), case.peers)
            _, errors = process.communicate(case.input, timeout=SECONDS)
    if case.output:
        return process.returncode, "", errors.decode()
    with open(path, "rb") as file:
        return process.returncode, file.read().decode(), errors.decode()


def paged_otherwise(program, folder, case, refusal):
    """What is wrong of the page of this refusal, the report and what explains it, where nobody asks for explanations."""
    status, output, errors = ran(program, folder, case, ["explore", *case.words[1:]])
    data = DATA.search(output)
    shown = json.loads(data[1]).get("refusal") if data else None
    return [] if (status, shown, errors) == (1, refusal, "") else [f"its page is of {status} {shown} {errors!r}"]


def explained(program, case):
    """How a case goes: its report or fixed line, and its explanation; and in what it goes wrong, if it does."""
    with tempfile.TemporaryDirectory() as folder, socket.socket() as taken:
        write(folder, case.files)
        taken.bind(("127.0.0.1", 0))
        taken.listen()
        port = str(taken.getsockname()[1])
        ports = {"TAKEN": port, "FREE": str(listening.free_ports(1)) if case.peers != () else ""}
        words = [ports.get(word, word) for word in case.words]
        plain = ran(program, folder, case, words)
        found = [ran(program, folder, case, [*words[:at], "--explain", *words[at:]])
                 for at in sorted({0, min(1, len(words)), len(words)})]
        found = [(*run[:2], re.sub(r"\b(127\.0\.0\.1):\d+", r"\1:40000", TOLD.sub("", run[2]))) for run in found]
        errors = found[0][2]
        wrong = []
        if any(other != found[0] for other in found):
            wrong.append("it goes otherwise where the word stands elsewhere")
        if plain[:2] != found[0][:2]:
            wrong.append(f"output or status change: {plain[:2]} and {found[0][:2]}")
        lines = 1 if not plain[2].startswith(FINDING) else plain[2].count("\n")
        if plain[2] and (plain[2].count("\n") != lines or not errors.endswith(plain[2])):
            wrong.append(f"the fixed line {plain[2]!r} isn't last of {errors!r}")
        explanation = errors.removesuffix(plain[2]) if plain[2] else errors
        if not explanation:
            wrong.append("nothing is explained")
        if any(len(line) > ROW for line in explanation.splitlines()):
            wrong.append(f"a line has more than {ROW} columns: {explanation!r}")
        if case.words[:1] == ("judge",) and re.match("refused (?!cycle)", plain[1]):
            wrong += paged_otherwise(program, folder, case, [plain[1], explanation])
        explanation = re.sub(rf"\b([Pp]ort) (?:{port}|{ports['FREE'] or port})\b", r"\1 7411", explanation)
        return plain[2] or (HTML if plain[1].startswith(HTML) else plain[1]), explanation, wrong


def closed_pipe(program):
    """What is wrong of a run whose output is a pipe that nobody reads any more."""
    with tempfile.TemporaryDirectory() as folder:
        case = session("a closed pipe")
        write(folder, case.files)
        read_end, write_end = os.pipe()
        os.close(read_end)
        with os.fdopen(write_end, "wb") as out:
            found = subprocess.run([program, *case.words, "--explain"], stdout=out, stderr=subprocess.PIPE, cwd=folder,
                                   timeout=SECONDS)
    if (found.returncode, found.stderr) != (3, b"monitor: write\n"):
        return [f"a closed pipe: {found.returncode} {found.stderr!r}"]
    return []


def by_environment(program):
    """What is wrong of runs of which the environment asks for explanations, or doesn't."""
    with tempfile.TemporaryDirectory() as folder:
        case = session("an environment")
        write(folder, case.files)

        def errors(value, *more):
            return subprocess.run([program, *case.words, *more], stdout=subprocess.DEVNULL, stderr=subprocess.PIPE,
                                  cwd=folder, timeout=SECONDS, env={**os.environ, VARIABLE: value}).stderr
        explained_so = errors("0", "--explain")
        found = {value: errors(value) for value in ("1", "", "0", "11", "yes, explain all of it")}
    return [f"{VARIABLE}={value}: {said!r}" for value, said in found.items()
            if said != (explained_so if value == "1" else b"")]


def wanted():
    """The words of refusals, by the definitions, and the fixed lines."""
    with open(SPECS, encoding="utf-8") as file:
        found = set(re.findall(r'codes "([a-z]+)"', file.read()))
    return found | {f"monitor: {line}" for line in FIXED}


def wrapped(line):
    """A line of an explanation, broken where it is wider than the page."""
    if line.startswith("    ") or len(line) <= COLUMNS:
        return [line]
    parts, rest = [], line
    while len(rest) > COLUMNS:
        at = rest.rfind(" ", 3, COLUMNS)
        at = COLUMNS if at < 0 else at
        parts.append(rest[:at])
        rest = "  " + rest[at:].lstrip()
    return [*parts, rest]


def page(cases, results):
    """The page of all explanations."""
    with open(os.path.join(HERE, "explanations.head"), encoding="utf-8") as file:
        out = [file.read().rstrip("\n"), ""]
    at = 0
    for kind, group in cases.items():
        out += [f"## {kind}", ""]
        for case in group:
            said, explanation, _ = results[at]
            at += 1
            out += [f"**{case.name[0].upper()}{case.name[1:]}**", ""]
            shown = said.splitlines()
            out += ["    " + part for line in shown for part in wrapped(line)] + [""]
            out += ["```"] + [part for line in explanation.splitlines() for part in wrapped(line)] + ["```", ""]
    return "\n".join(out).rstrip("\n") + "\n"


def other_examples(made):
    """The examples for readers that the page of all explanations hasn't."""
    with open(EXAMPLES, encoding="utf-8") as file:
        examples = EXAMPLE.findall(file.read())
    return [example.split("\n")[0] for example in examples if example not in made] if examples else ["no example"]


def main():
    parser = argparse.ArgumentParser(description=__doc__, formatter_class=argparse.RawDescriptionHelpFormatter)
    parser.add_argument("program", nargs="?", default=os.path.join(HERE, "..", "crates", "monitor", "out", "monitor"))
    parser.add_argument("--write", action="store_true")
    given = parser.parse_args()
    program = os.path.abspath(given.program)
    if not os.access(program, os.X_OK):
        sys.exit(f"explanations: no program {program}")
    cases = {kind: list(make()) for kind, make in KINDS.items()}
    flat = [case for group in cases.values() for case in group]
    with concurrent.futures.ThreadPoolExecutor(os.cpu_count()) as pool:
        results = list(pool.map(lambda case: explained(program, case), flat))
    differing = 0
    for case, (_, _, wrong) in zip(flat, results):
        for why in wrong:
            differing += 1
            print(f"explanations: {case.name}: {why}")
    for why in closed_pipe(program) + by_environment(program):
        differing += 1
        print(f"explanations: {why}")
    said = " ".join(result[0] for result in results)
    for word in sorted(wanted()):
        if not re.search(rf"\b{word}\b", said):
            differing += 1
            print(f"explanations: no case has {word}")
    made = page(cases, results)
    if given.write:
        with open(PAGE, "w", encoding="utf-8") as file:
            file.write(made)
    with open(PAGE, encoding="utf-8") as file:
        stored = file.read()
    if stored != made:
        differing += 1
        print("\n".join(difflib.unified_diff(stored.splitlines(), made.splitlines(), "the page", "made", lineterm="")))
    for name in other_examples(made):
        differing += 1
        print(f"explanations: docs/EXPLANATIONS.md has {name}, which isn't explained so")
    print(f"explanations: {len(flat)} cases, {differing} differ")
    sys.exit(1 if differing else 0)


if __name__ == "__main__":
    main()
