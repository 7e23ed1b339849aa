#!/usr/bin/env python3
"""refuse_each.py PROGRAM [INPUT..]: refuses each of the program's allocations, and of its calls of the system, in turn.

An input is a bundle, or a folder with `session.json`, `report` and files `NAME.stream`. A folder is judged from its
files, by one worker and by two, with --beyond-width and --fail-on, and as a bundle; its report is checked and drawn;
its run is explored; and its streams are served, with a watcher. Small sessions are run beside them: one that is judged,
one with messages, which is also reduced, served and kept, served to those who join with a token, and given as a bundle
with these commands, one with a causal cycle, one with wide levels, and one of sixteen processes; and one of width 1,
that is judged and served with these two options alone, has predicates for each way to answer, and is judged once with
others in their place. Some of them are given as lines and as recorded runs too, see refuse_lines.py. For each of these runs and
each N, counted upward until a run meets no refusal, the program runs with its Nth allocation refused; then with its Nth
read or receipt failing, its Nth write, what it sends to a watcher, its Nth opened file, accepted connection, folder
that is made and file that is renamed; and with the Nth of all these, and of its sleeps, failing as one does that a
signal interrupts. Before these it runs once with each allocation slow: a thread that asks for memory under a lock lets
the others wait for the lock meanwhile, so an unlock that wakes nobody leaves a run without an end.

It must end as a run that is refused nothing; or, for an allocation, with status 4, nothing on standard output and
`monitor: memory` on standard error; for a read, with status 3 and `monitor: read`, or with what is made of a stream
that can't be read, or with a page or a JSON object that lacks the lines of a file; for a write, a folder or a renamed
file, with status 3, a prefix of the output and `monitor: write`; for a connection with status 3 and `monitor: network`,
and so for each of these if a connection has to join first, since another is waited for then; and for a file in one of
these ways. A call that is interrupted is made again, so such a run ends as if nothing were refused. What is sent to a
watcher changes nothing. A server's watcher must be shown what one is shown then, or a prefix of it, but where a stream may fail, which
it may see; and each file that is kept must be a prefix of what was to be kept, of which a server may say `monitor:
write` too if an allocation is refused. One that has not ended after a minute is wrong, and is killed. The first
allocations are the C library's own, and so are those with which it starts threads: a thread that can't be started is no
failure. The last line says how many runs there were and how many ended otherwise; the status is 1 if any did. It needs
gcc.

Each server listens on an address of its own, so it makes no difference which ports other programs use meanwhile."""
import concurrent.futures
import json
import os
import random
import re
import shutil
import socket
import subprocess
import sys
import tempfile
import threading
import time

import refuse_lines
from refusals import address_of, asked_for, make_shim, surroundings

# The processes of a session with their variables, its predicates, and the events of each process.
TWO, BOTH = {"a": "x", "b": "y"}, {"both": "a.x == 1 and b.y == 1"}
# Of sixteen processes four have events: the first and the last, and those at which a cut's two numbers meet.
EVENTS = {0: ['"set":{"n":1}', '"set":{"n":0}'], 7: ['"send":"m"', '"recv":"k"'], 8: ['"send":"k"', '"recv":"m"'],
          15: ['"set":{"n":1}', '"set":{"n":0}']}
# The predicates of the session of width 1: of one term, clauses, of several terms, of two processes in one comparison,
# `or`s of such, sums of three, of which one has a first cut by height and one has none. The search back ends for
# `terms`, finds the path of `open` after a dead end, and gives `wide` up, which has no gate, as `gate` has.
WAYS = {"each": "a.x == 1 and b.x == 2 and c.x == 1", "always": "a.x >= 1 and b.x >= 1 and c.x >= 1",
        "never": "a.x == 2 and b.x == 1 and c.x == 3", "either": "a.x == 3 or b.x == 2 or c.x == 2",
        "neither": "not (a.x < 3 and b.x < 3 and c.x < 3)", "no": "a.x == 3 and b.x == 1 or c.x == 3",
        "terms": "(a.x == 2 or b.x == 2) and (b.x == 1 or c.x == 2)", "apart": "a.x - b.x == 2",
        "sum": "a.x + b.x == 3 or a.x > b.x + 1", "nine": "a.x + b.x == 9", "differ": "not (a.x == b.x and b.x == c.x)",
        "far": "a.x > b.x + 2 or c.x == 9 or b.x - c.x == 5", "wide": "a.x + b.x + c.x == 3",
        "over": "a.x + b.x + c.x > 6", "open": "a.x + b.x + c.x == 4 and a.x < 2", "gate": "a.x + b.x + c.x > 1"}
STEPS = [['"send":"m","set":{"x":1}', '"set":{"x":2}'], ['"recv":"m","set":{"x":1}', '"set":{"x":2}'],
         ['"set":{"x":1}', '"set":{"x":2}']]
# Those with the longest runs come first.
SESSIONS = {
    "sixteen processes": ({f"p{k}": "n" for k in range(16)}, {"ends": "p0.n == 1 and p15.n == 1"},
                          [EVENTS.get(k, []) for k in range(16)]),
    "width 1": ({"a": "x", "b": "x", "c": "x"}, WAYS, STEPS, 1),
    "one cut alone": (TWO, BOTH, [['"set":{"x":1}', '"set":{"x":0}'], ['"set":{"y":1}', '"set":{"y":0}']]),
    "messages": (TWO, BOTH, [['"send":"m","set":{"x":1}', '"recv":"k","set":{"x":0}'],
                             ['"send":"k","set":{"y":1}', '"recv":"m","set":{"y":0}']]),
    "a causal cycle": (TWO, BOTH, [['"recv":"k"', '"send":"m"'], ['"recv":"m"', '"send":"k"']]),
    "wide levels": ({"a": "n", "b": "n", "c": "n"}, {"top": "a.n + b.n + c.n == 30", "never": "a.n == 99"},
                    [[f'"set":{{"n":{value}}}' for value in range(1, 11)]] * 3),
}
KINDS = ("allocation", "read", "write", "send", "open", "accept", "mkdir", "rename", "interruption")
# Those after which a stream, or what stands in a file, may be unread; and those after which something may be unwritten.
READS, WRITES = ("read", "open"), ("write", "open", "mkdir", "rename")
# What is made of a stream that can't be read: the report, what a check finds, what a watcher is shown, and what stands
# against a picture.
UNREAD = re.compile(rb"refused stream \d+ line \d+ read\n|refused bad\n|")
SHOWN = re.compile(rb"(stream \d+ process \S+ events \d+ (fresh|joined|ended|faulted)\n)*")
# A refusal in a page, before its explanation, and the rest of its data.
REFUSAL = re.compile(rb'"refusal":\["(refused [^"\\]*)\\u000a","[^"]*"\]\}\n')
AGAINST = re.compile(rb"(monitor: no picture, for a check finds:\nrefused bad\n)?")
# How long a watcher waits for a server that may show it nothing before the streams are sent, and how long a run may
# take.
WATCHER_SECONDS, RUN_SECONDS = 5, 60
NO_END = f"no end after {RUN_SECONDS} seconds".encode()
# How often a server is started if another program has its port on all addresses, and what it reports then; the ports
# lie below those that the system gives to connections.
TRIES, NO_NETWORK, PORTS = 5, b"monitor: network\n", (10_000, 30_000)


def write_session(folder, variables, predicates, events, width=4096):
    """Writes the document and the streams of a session, but no report."""
    processes = ",".join(f'{{"name":"{name}","vars":{{"{variable}":0}}}}' for name, variable in variables.items())
    texts = ",".join(f'{{"name":"{name}","text":"{text}"}}' for name, text in predicates.items())
    with open(os.path.join(folder, "session.json"), "w") as out:
        out.write(f'{{"processes":[{processes}],"predicates":[{texts}],"width":{width}}}\n')
    for name, lines in zip(variables, events):
        with open(os.path.join(folder, f"{name}.stream"), "w") as out:
            out.writelines(f"{{{line}}}\n" for line in [f'"process":"{name}"', *lines, '"end":true'])


def run(arguments, bundle, folder, number, kind):
    """What a run with these arguments gives, and how many calls of the kind it made."""
    try:
        ended = subprocess.run(arguments, input=bundle, capture_output=True, env=surroundings(folder, number, kind),
                               timeout=RUN_SECONDS, check=False)
    except subprocess.TimeoutExpired:
        return (None, b"", NO_END), asked_for(folder)
    return (ended.returncode, ended.stdout, ended.stderr), asked_for(folder)


def connect(server, port):
    """A connection to the server, or nothing if it ends before it listens. Nobody else listens on its address."""
    while server.poll() is None:
        try:
            return socket.create_connection((address_of(server), port))
        except OSError:
            time.sleep(0.002)
    return None


def send(end, stream):
    """Sends a stream, until the server has ended."""
    try:
        end.sendall(stream)
        end.shutdown(socket.SHUT_WR)
    except OSError:
        pass


def play(server, port, streams, patience, shown):
    """The peers of a server: its streams connect, then its watcher, if it has one, which is shown something; then bytes
    are sent, all streams at once, since the server doesn't read one that has failed."""
    ends = [connect(server, port) for _ in streams]
    watcher = None if shown is None else connect(server, port + 1)
    try:
        if watcher:
            watcher.settimeout(patience)
        while watcher and (part := watcher.recv(4096)):
            shown.append(part)
    except OSError:
        pass
    senders = [threading.Thread(target=send, args=it) for it in zip(ends, streams) if it[0]]
    for sender in senders:
        sender.start()
    server.wait()
    for sender in senders:
        sender.join()
    for end in filter(None, [*ends, watcher]):
        end.close()


def serve(arguments, streams, folder, number, kind):
    """What a server gives, its watcher is shown and it keeps, and how many calls of the kind it made."""
    for _ in range(TRIES):
        shutil.rmtree(kept_in(arguments), ignore_errors=True)
        ended = serve_once(arguments, streams, folder, number, kind)
        if ended[2] != NO_NETWORK or number and kind == "accept":
            break
    return (*ended, kept_files(kept_in(arguments))), asked_for(folder)


def reduce(arguments, bundle, folder, number, kind):
    """What a reduction gives and which files each folder has then that was made, and how many calls of the kind it
    made."""
    made = arguments[arguments.index("--to") + 1]
    folders = (made, made + ".new")
    for name in folders:
        shutil.rmtree(name, ignore_errors=True)
    ended, calls = run(arguments, bundle, folder, number, kind)
    return (*ended, {name: kept_files(name) for name in folders if os.path.isdir(name)}), calls


def kept_in(arguments):
    """The folder in which a server keeps its session; no folder has this name if it keeps none."""
    return arguments[arguments.index("--keep") + 1] if "--keep" in arguments else ""


def kept_files(folder):
    names = os.listdir(folder) if os.path.isdir(folder) else []
    return {name: contents(os.path.join(folder, name)) for name in names}


def joins_first(arguments):
    """Whether a connection is a stream of the server once it has joined. Who breaks off before is waited for again, and
    a watcher would be shown what has come of the streams by chance."""
    return "--join-first" in arguments


def serve_once(arguments, streams, folder, number, kind):
    """What a server gives, and its watcher is shown."""
    port, shown = random.randrange(*PORTS), None if joins_first(arguments) else []
    # If nothing is refused, the watcher is shown something, however long it takes.
    patience = WATCHER_SECONDS if number else None
    watchers = ["--watchers", "0" if shown is None else "1"]
    server = subprocess.Popen([*arguments, "--port", str(port), *watchers], stdout=subprocess.PIPE,
                              stderr=subprocess.PIPE, env=surroundings(folder, number, kind))
    peers = threading.Thread(target=play, args=(server, port, streams, patience, shown))
    peers.start()
    try:
        output, errors = server.communicate(timeout=RUN_SECONDS)
        status = server.returncode
    except subprocess.TimeoutExpired:
        server.kill()
        output, errors = server.communicate()
        status, errors = None, errors + NO_END
    peers.join()
    return status, output, errors, b"".join(shown or [])


def contents(path):
    with open(path, "rb") as opened:
        return opened.read()


def runs_of(program, name, path):
    """Each run of an input, or of `width 1` those with --beyond-width alone: its name, what runs it, the program and
    its arguments, and the bytes that it is given."""
    if not os.path.isdir(path):
        return [("", run, [program], contents(path))]
    names = sorted(name for name in os.listdir(path) if name.endswith(".stream"))
    document, report = os.path.join(path, "session.json"), os.path.join(path, "report")
    streams = [os.path.join(path, name) for name in names]
    judge = [program, "judge", document, *streams]
    if not os.path.exists(report):
        with open(report, "wb") as out:
            out.write(subprocess.run(judge, capture_output=True, timeout=RUN_SECONDS, check=False).stdout)
    parts = [contents(part) for part in [document, *streams]]
    fail_on = ["--beyond-width", "--fail-on", "unknown,possibly,definitely-no"]
    beyond = ("judge beyond the width", run, [*judge, *fail_on], b"")
    if name == "width 1":
        asked = ["--width", "2", "--ask", "true", "--ask", "false"]
        return [beyond, ("serve beyond the width", serve, [program, "serve", *fail_on, document], parts[1:]),
                ("judge what is asked", run, [*judge, *asked], b"")]
    keep = [program, "serve", "--keep", os.path.join(path, "kept"), document]
    joins = [program, "serve", "--join-first", "--token", "x", "--idle", "60", "--wait", "1", document]
    said = [b"x\n" + part for part in parts[1:]]
    as_json = ["--format", "json"]
    kept = [("judge as JSON", run, [*judge, *as_json], b""),
            ("reduce", reduce, [program, "reduce", document, *streams, "--to", os.path.join(path, "reduced")], b""),
            ("check as JSON", run, [program, "check", document, report, *streams, *as_json], b""),
            ("serve as JSON", serve, [program, "serve", document, *as_json], parts[1:]),
            ("serve and keep", serve, keep, parts[1:]),
            ("serve those who join", serve, joins, said),
            ("judge a bundle", run, [program, "judge", "-"], b"---\n".join(parts)),
            ("check against a bundle", run, [program, "check", report, "-"], b"---\n".join(parts)),
            ("explore a bundle", run, [program, "explore", "-"], b"---\n".join(parts))] if name == "messages" else []
    return [("judge", run, judge, b""), ("judge by two workers", run, [*judge, "--workers", "2"], b""), beyond,
            ("a bundle", run, [program], b"---\n".join(parts)),
            ("check", run, [program, "check", document, report, *streams], b""),
            ("draw", run, [program, "draw", document, report, *streams], b""),
            ("explore", run, [program, "explore", document, *streams], b""),
            ("serve", serve, [program, "serve", document], parts[1:]), *kept]


def refusal_of(output):
    """The text of a refusal, also of one that a page or a JSON object shows."""
    if output.startswith(b"{"):
        found = json.loads(output)
        return found.get("report", "refused bad\n").encode()
    found = REFUSAL.search(output)
    return found[1] + b"\n" if found else output


def is_explained_less(ended, want):
    """Whether this is the page of the same refusal, of which less is explained."""
    shown = [REFUSAL.search(it[1]) for it in (ended, want)]
    return all(shown) and shown[0][1] == shown[1][1] and (ended[0], ended[2]) == (want[0], want[2])


def lacks_places(output, want):
    """Whether this is the same JSON object, but without the file and the line of some processes at cuts."""
    if not (output.startswith(b"{") and want.startswith(b"{")):
        return False
    found, whole = json.loads(output), json.loads(want)
    for predicate, other in zip(found.get("predicates", []), whole.get("predicates", [])):
        known = predicate["possibly"].get("at", {})
        for process, place in other["possibly"].get("at", {}).items():
            if known.get(process) == {"values": place["values"]}:
                known[process] = place
    return found == whole


def lacks_lines(ended, want):
    """Whether this is a page, or a JSON object, without the lines of a file that was read once and not a second time."""
    lacks = refuse_lines.lacks_lines(ended[1], want[1]) or lacks_places(ended[1], want[1])
    return (ended[0], ended[2]) == (want[0], want[2]) and lacks


def is_right(arguments, kind, ended, want):
    """Whether a run that was refused a call ended as it may; what it gives with no refusal is `want`."""
    if arguments[1:] and arguments[1] in refuse_lines.COMMANDS:
        return refuse_lines.is_right(arguments[1], kind, ended, want)
    if arguments[1:] and arguments[1] == "reduce":
        return is_reduced(kind, ended, want)
    if len(ended) > 3 and not (is_shown(kind, ended[3], want[3]) and is_kept(ended[4], want[4], ended[1])):
        return False
    if ended[:3] == want[:3]:
        return True
    if kind == "allocation" and is_explained_less(ended, want):
        return True
    if kind == "allocation":
        return ended[:3] == (4, b"", b"monitor: memory\n") or keeps(want) and is_unwritten(ended, want)
    if kind == "accept":
        return ended[:3] == (3, b"", NO_NETWORK)
    return kind in READS and is_unread(ended, want) or kind in WRITES and is_unwritten(ended, want)


def is_reduced(kind, ended, want):
    """Whether a reduction ended as it may: with a whole session, or with nothing made, whatever it says of that."""
    (*given, files), (*due, whole) = ended, want
    if given == due:
        return files == whole
    word, status = {"allocation": (b"memory", 4)}.get(kind, (b"read", 3) if kind in READS else (b"write", 3))
    said = {(status, b"monitor: " + word + b"\n"), *([(3, b"monitor: write\n")] if kind in WRITES else [])}
    is_said = (given[0], given[2]) in said
    return is_said and due[1].startswith(given[1]) and files in ({}, whole)


def is_unread(ended, want):
    """Whether this is made of a stream that can't be read, or of another file."""
    status, output, errors = ended[:3]
    is_of_stream = status == 1 and UNREAD.fullmatch(refusal_of(output)) and AGAINST.fullmatch(errors)
    return bool(is_of_stream) or ended[:3] == (3, b"", b"monitor: read\n") or lacks_lines(ended, want)


def is_unwritten(ended, want):
    """Whether this is a run that couldn't write, be it its output, what it keeps or its errors."""
    status, output, errors = ended[:3]
    if (status, errors) == (3, b"monitor: write\n"):
        return want[1].startswith(output) and (output != want[1] or keeps(want))
    return (status, output) == want[:2] and want[2].startswith(errors)


def keeps(want):
    """Whether the server keeps its session. What it has no memory to name, it couldn't write."""
    return len(want) > 4 and bool(want[4])


def is_shown(kind, shown, want):
    return bool(SHOWN.fullmatch(shown)) if kind in READS else want.startswith(shown)


def is_kept(kept, want, output):
    """Whether each kept file is a prefix: of the document, of what came of a stream, or of the report."""
    streams = [text for name, text in want.items() if name.endswith(".stream")]
    return all(output.startswith(text) if name == "report" else
               any(whole.startswith(text) for whole in streams) if name.endswith(".stream") else
               want.get(name, b"").startswith(text) and name in want for name, text in kept.items())


def refuse_each(name, take, arguments, given, folder):
    """How many runs there were, and those that ended otherwise than they may."""
    runs, wrong = 1, []
    want, _ = take(arguments, given, folder, 0, KINDS[0])
    if want[2] in (NO_NETWORK, NO_END):
        return runs, [f"{name}: with nothing refused: {want}"]
    slow, _ = take(arguments, given, folder, 0, "slow")
    if slow[:3] != want[:3]:
        return runs, [f"{name}: slow allocations: {slow}"]
    for kind in KINDS:
        want, made = take(arguments, given, folder, 0, kind)
        number = 0 if made else 1
        while number <= made:
            number += 1
            ended, made = take(arguments, given, folder, number, kind)
            runs += 1
            is_late = joins_first(arguments) and ended[:3] == (3, b"", NO_NETWORK)
            if not is_late and not is_right(arguments, kind, ended, want):
                wrong.append(f"{name}: {kind} {number}: {ended}")
    return runs, wrong


def main():
    program = os.path.abspath(sys.argv[1])
    with tempfile.TemporaryDirectory() as folder, concurrent.futures.ThreadPoolExecutor(os.cpu_count()) as pool:
        make_shim(folder)
        inputs = {path: path for path in sys.argv[2:]}
        for name, session in SESSIONS.items():
            inputs[name] = os.path.join(folder, name)
            os.mkdir(inputs[name])
            write_session(inputs[name], *session)
        found = []
        runs = [(name, *one) for name, path in inputs.items() for one in runs_of(program, name, path)]
        lines = os.path.join(folder, "lines")
        os.mkdir(lines)
        runs += [("lines", *one) for one in refuse_lines.runs_of(program, lines, inputs, run)]
        for name, how, *one in runs:
            own = tempfile.mkdtemp(dir=folder)
            os.link(os.path.join(folder, "shim.so"), os.path.join(own, "shim.so"))
            found.append(pool.submit(refuse_each, f"{name}: {how}".strip(": "), *one, own))
        results = [it.result() for it in found]
    wrong = [line for _, lines in results for line in lines]
    print("".join(line + "\n" for line in wrong), end="")
    print(f"refused: {sum(runs for runs, _ in results)} runs, {len(wrong)} ended otherwise than they may")
    sys.exit(1 if wrong else 0)


if __name__ == "__main__":
    main()
