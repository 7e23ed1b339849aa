#!/usr/bin/env python3
"""servers.py [PROGRAM]: sets clients and watchers on `serve`, and compares its output, its errors and its status with
what each case says, and what is shown to its watchers.

PROGRAM is ../crates/monitor/out/monitor if it isn't given. A case that ends otherwise is printed with both. The last
line says how many cases there are, how often the program ran, and how many cases differ; the status is 1 if any does.
After a server that hasn't ended in a minute no other is started. A server has two ports that nobody has bound. If
another program takes one of them before the server binds it, it is started again on others; and a client connects only
to the server itself (listening.py).
"""
import argparse
import contextlib
import errno
import fcntl
import json
import os
import re
import resource
import select
import socket
import struct
import subprocess
import sys
import tempfile
import termios
import time

import listening
from run import HERE, SECONDS, Differs, differ

TRIES = 5
ENDLESS = f"no end after {SECONDS} seconds, and no case after it was run"
DOCUMENT = (b'{"processes":[{"name":"a","vars":{"x":0}},{"name":"b","vars":{"y":0}}],'
            b'"predicates":[{"name":"both","text":"a.x == 1 and b.y == 1"}]}')
OF_A = b'{"process":"a"}\n{"set":{"x":1}}\n{"set":{"x":0}}\n{"end":true}\n'
OF_B = b'{"process":"b"}\n{"set":{"y":1}}\n{"set":{"y":0}}\n{"end":true}\n'
REPORT = b"session 2 processes 4 events 0 messages\nboth possibly yes 1,1\nboth definitely no b,b,a,a\n"
AS_JSON = (b'{"events":4,"format":1,"messages":0,"outcome":"judged","predicates":[{"definitely":{"answer":"no",'
           b'"path":[["b",2],["a",2]]},"name":"both","possibly":{"answer":"yes","at":{"a":{"values":{"x":1}},'
           b'"b":{"values":{"y":1}}},"cut":{"a":1,"b":1}}}],"processes":2,'
           b'"report":"session 2 processes 4 events 0 messages\\nboth possibly yes 1,1\\n'
           b'both definitely no b,b,a,a\\n"}\n')
# Of width 1, so that nothing is known without the option.
NARROW = DOCUMENT[:-1] + b',"width":1}'
UNKNOWN = b"session 2 processes 4 events 0 messages\nboth possibly unknown 1\nboth definitely unknown 1\n"
# A message that two processes receive, as version 2 has it.
BROADCAST = (b'{"processes":[{"name":"a","vars":{"x":0}},{"name":"b","vars":{"y":0}},{"name":"c","vars":{"z":0}}],'
             b'"predicates":[{"name":"lag","text":"a.x == 1 and b.y + c.z == 1"}],"version":2}')
OF_RECEIVERS = [b'{"process":"a"}\n{"send":"m","set":{"x":1}}\n{"end":true}\n',
                b'{"process":"b"}\n{"recv":"m","set":{"y":1}}\n{"end":true}\n',
                b'{"process":"c"}\n{"recv":"m","set":{"z":1}}\n{"end":true}\n']
OF_BROADCAST = b"session 3 processes 3 events 1 messages\nlag possibly yes 1,0,1\nlag definitely yes 2\n"
# As many processes as there may be, each with one event.
NAMES = [f"p{number}" for number in range(1, 17)]
SIXTEEN = json.dumps({"processes": [{"name": name, "vars": {"n": 0}} for name in NAMES],
                      "predicates": [{"name": "last", "text": "p16.n == 1 and p1.n == 0"}], "width": 16384}).encode()
OF_SIXTEEN = [f'{{"process":"{name}"}}\n{{"set":{{"n":1}}}}\n{{"end":true}}\n'.encode() for name in NAMES]
OF_LAST = (b"session 16 processes 16 events 0 messages\nlast possibly yes 0,0,0,0,0,0,0,0,0,0,0,0,0,0,0,1\n"
           b"last definitely no p1,p16,p15,p14,p13,p12,p11,p10,p9,p8,p7,p6,p5,p4,p3,p2\n")
NO_NETWORK = b"monitor: network\n"
FRESH = b"stream 1 process - events 0 fresh\nstream 2 process - events 0 fresh\n"
SHOWN = re.compile(rb"stream 1 process [-ab] events [012] (fresh|joined|ended|faulted)\n"
                   rb"stream 2 process [-ab] events [012] (fresh|joined|ended|faulted)\n")

# What the connections send, one after the other, the report, and the status.
SESSIONS = {
    "two streams": ([OF_A, OF_B], REPORT, 0),
    "the other order": ([OF_B, OF_A], REPORT, 0),
    "more connections than processes": ([OF_A, OF_B, OF_B], REPORT, 0),
    "a connection that ends within a line": ([b'{"process":"a"}\n{"set', OF_B], b"refused stream 1 line 2 json\n", 1),
    "a connection that ends at once": ([b"", OF_B], b"refused stream 1 line 1 unended\n", 1),
    "garbage": ([OF_A, b"\0\1\n"], b"refused stream 2 line 1 json\n", 1),
    "one stream twice": ([OF_A, OF_A], b"refused stream 2 line 1 taken\n", 1),
}
# How many watchers there are, and how many workers, if any are asked for.
OTHERS = [(0, None), (1, 1), (10, 4), (64, 16)]


def two_ports(taken):
    """A port that nobody had bound, as was the next one, and what listens on those that are to be taken."""
    while True:
        number = listening.free_ports(2)
        with contextlib.suppress(OSError), contextlib.ExitStack() as bound:
            for place in taken:
                bound.enter_context(socket.create_server(("127.0.0.1", number + place)))
            return number, bound.pop_all()


def limited(room, closed):
    """Has a process write no file with more than this many bytes, if a number is given: a write that goes on fails. And
    closes these descriptors of it."""
    def limit():
        if room:
            resource.setrlimit(resource.RLIMIT_FSIZE, (room, room))
        for descriptor in closed:
            os.close(descriptor)
    return limit


class Server(contextlib.ExitStack):
    """The program as a server on a free port, and the connections to it. All of it ends with the context."""

    def __init__(self, program, folder, document=DOCUMENT, watchers=0, workers=None, taken=(), beyond=False,
                 fail_on=None, asked=(), before=None, room=None, closed=()):
        super().__init__()
        self.folder = folder
        for name, content in (before or {}).items():
            path = os.path.join(folder, name)
            os.makedirs(path if content is None else os.path.dirname(path), exist_ok=True)
            if content is not None:
                with open(path, "wb") as file:
                    file.write(content)
        if document is not None:
            with open(os.path.join(folder, "session.json"), "wb") as file:
                file.write(document)
        self.port, bound = two_ports(taken)
        self.enter_context(bound)
        words = ["--port", str(self.port), "--watchers", str(watchers)]
        words += ["--workers", str(workers)] if workers else []
        words += ["--beyond-width"] if beyond else []
        words += ["--fail-on", fail_on] if fail_on else []
        words += asked
        self.began = time.monotonic()
        self.process = self.enter_context(subprocess.Popen(
            [program, "serve", "session.json", *words], cwd=folder, stdout=subprocess.PIPE, stderr=subprocess.PIPE,
            restore_signals=room is None, preexec_fn=limited(room, closed) if room or closed else None))
        self.callback(self.process.kill)

    def connect(self, place=0, seconds=SECONDS):
        """A connection to the streams' port, or to the one after it, as soon as the server listens there, if it does
        within so long."""
        return self.enter_context(listening.connect(self.process, self.port + place, seconds))

    def end(self):
        """Its status, its output and its errors."""
        try:
            output, errors = self.process.communicate(timeout=SECONDS)
        except subprocess.TimeoutExpired:
            raise Differs(ENDLESS) from None
        return self.process.returncode, output, errors

    def wait(self):
        """Waits until it has ended."""
        try:
            self.process.wait(SECONDS)
        except subprocess.TimeoutExpired:
            raise Differs(ENDLESS) from None


def send(connection, stream):
    """Sends a stream, and closes the connection once the other side has all of it: who connects after that is accepted
    later."""
    last = time.monotonic() + SECONDS
    with connection:
        connection.sendall(stream)
        while struct.unpack("i", fcntl.ioctl(connection, termios.TIOCOUTQ, bytes(4)))[0] and time.monotonic() < last:
            time.sleep(0.001)


def read(connection):
    with connection, connection.makefile("rb") as file:
        return file.read()


def nobody(_server):
    """No one connects."""


def clients(streams, watchers=0):
    """Those who send the streams, and then the watchers: the first is gone at once, the second never reads, the third
    reads, and so on."""
    def act(server):
        for stream in streams[:2]:
            send(server.connect(), stream)
        for stream in streams[2:]:
            with contextlib.suppress(OSError):
                send(server.connect(seconds=0), stream)
        connected = [server.connect(1) for _ in range(watchers)]
        for connection in connected[::3]:
            connection.close()
        for connection in connected[2::3]:
            shown = read(connection)
            if not SHOWN.fullmatch(shown):
                differ("what a watcher is shown", FRESH, shown)
    return act


def senders(streams):
    """Those who send the streams."""
    def act(server):
        for stream in streams:
            send(server.connect(), stream)
    return act


def watched_first(server):
    """All that the server waits for connect, and the streams are sent once the watcher has read."""
    senders = [server.connect(), server.connect()]
    shown = read(server.connect(1))
    if shown != FRESH:
        differ("what a watcher is shown", FRESH, shown)
    for sender, stream in zip(senders, (OF_A, OF_B)):
        send(sender, stream)


def other_addresses(server):
    """A stream and a watcher connect, and then others to another address of this machine, on which nobody listens."""
    sender = server.connect()
    server.connect(1)
    for place in (0, 1):
        with socket.socket() as other:
            found = other.connect_ex(("127.0.0.2", server.port + place))
        if found != errno.ECONNREFUSED:
            differ(f"port {server.port + place} of 127.0.0.2", b"refused", os.strerror(found).encode())
    send(sender, OF_A)
    send(server.connect(), OF_B)


def slow(server):
    """Two streams connect, and are sent once the server waits for no more connections."""
    senders = [server.connect(), server.connect()]
    time.sleep(3)
    for sender, stream in zip(senders, (OF_A, OF_B)):
        send(sender, stream)


def late(server):
    """One stream is sent, and the other one a second and a half later."""
    send(server.connect(), OF_A)
    time.sleep(1.5)
    send(server.connect(), OF_B)


def lasts(act, seconds):
    """Clients of a server that takes no fewer seconds than these."""
    def wait(server):
        act(server)
        server.wait()
        if time.monotonic() - server.began < seconds:
            raise Differs(f"it has ended before {seconds} seconds are over")
    return wait


def long_stream(server):
    """Two streams connect, of which the first one is long."""
    senders = [server.connect(), server.connect()]
    for sender, stream in zip(senders, (OF_PADDED, OF_B)):
        send(sender, stream)


def kept_files(folder):
    """What each file of a folder has; nothing, if there is no such folder. One that gets another name meanwhile may be
    left out."""
    found = {}
    for name in os.listdir(folder) if os.path.isdir(folder) else []:
        with contextlib.suppress(FileNotFoundError), open(os.path.join(folder, name), "rb") as file:
            found[name] = file.read()
    return found


def keeps(act, *wanted):
    """Clients of a server whose session is kept, and then what the folder has to have: one of these."""
    def keep(server):
        act(server)
        server.wait()
        found = kept_files(os.path.join(server.folder, "kept"))
        if found not in wanted:
            differ("what is kept", repr(wanted[0]).encode(), repr(found).encode())
    return keep


def comes_between(server):
    """Two streams connect, and a file of the name of one of them is there before they are sent."""
    senders = [server.connect(), server.connect()]
    until = time.monotonic() + SECONDS
    while not os.path.exists(os.path.join(server.folder, "kept", "1.stream")):
        if time.monotonic() > until:
            raise Differs("there is no file of the first stream")
        time.sleep(0.01)
    with open(os.path.join(server.folder, "kept", "a.stream"), "wb") as file:
        file.write(b"x")
    for sender, stream in zip(senders, (OF_A, OF_B)):
        send(sender, stream)


def ended_by_force(server):
    """Two streams begin, and the server is killed once both files have their names and what has come."""
    begun = {"b.stream": OF_B[:OF_B.index(b"\n") + 1], "a.stream": OF_A[:OF_A.index(b"\n") + 1]}
    senders = [server.connect(), server.connect()]
    for sender, stream in zip(senders, begun.values()):
        sender.sendall(stream)
    until = time.monotonic() + SECONDS
    while not begun.items() <= kept_files(os.path.join(server.folder, "kept")).items():
        if time.monotonic() > until:
            raise Differs("the files don't get their names")
        time.sleep(0.01)
    server.process.kill()


def tells(server, wanted):
    """Compares this with what comes next on the errors, as soon as that is as long."""
    found = b""
    until = time.monotonic() + SECONDS
    while len(found) < len(wanted):
        if not select.select([server.process.stderr], [], [], max(0, until - time.monotonic()))[0]:
            raise Differs(f"nothing more is told after {found!r}")
        more = os.read(server.process.stderr.fileno(), len(wanted) - len(found))
        if not more:
            break
        found += more
    if found != wanted:
        differ("what is told", wanted, found)


def told(server):
    """Two streams connect, and what is told of that."""
    tells(server, f"serve: port {server.port} of this machine waits for the streams of `a`, `b`.\n".encode())
    senders = []
    for number in (1, 2):
        sender = server.connect()
        port = sender.getsockname()[1]
        tells(server, f"serve: stream {number} of 2 has connected, from 127.0.0.1:{port}.\n".encode())
        senders.append(sender)
    return senders


def joins(server):
    """The streams begin one after the other, and what is told of that, before any of them has ended."""
    first, second = told(server)
    at = OF_B.index(b"\n") + 1
    first.sendall(OF_B[:at])
    tells(server, b"serve: stream 1 is the one of `b`. Missing: `a`.\n")
    second.sendall(OF_A[:at])
    tells(server, b"serve: stream 2 is the one of `a`. None is missing.\n")
    send(first, OF_B[at:])
    send(second, OF_A[at:])


def begins_otherwise(server):
    """A stream that isn't one of ours, and what is told of that before the other one has begun."""
    first, second = told(server)
    port = first.getsockname()[1]
    send(first, b"GET / HTTP/1.1\r\n\r\n")
    tells(server, b"serve: stream 1 hasn't said whose it is. It begins so:\n    GET / HTTP/1.1\\x0d\n")
    tells(server, f"serve: stream 1, from 127.0.0.1:{port}, is refused at line 1".encode())
    tells(server, b": this line isn't a\n  JSON text.\n" + NO_MORE)
    send(second, OF_B)
    tells(server, b"serve: stream 2 is the one of `b`. Missing: `a`.\n")
    tells(server, f"Stream 1, from 127.0.0.1:{port}, is refused at line 1".encode())


def refused_meanwhile(server):
    """A line of a stream is refused, which is told before the other stream has begun."""
    first, second = told(server)
    port = first.getsockname()[1]
    first.sendall(OF_A[:OF_A.index(b"\n") + 1])
    tells(server, b"serve: stream 1 is the one of `a`. Missing: `b`.\n")
    first.sendall(b'{"set":{"z":1}}\n')
    tells(server, f"serve: stream 1, from 127.0.0.1:{port}, of process `a`, is refused at line 2: the\n".encode())
    tells(server, b"  process has no variable of this name.\n"
          b'serve: stream 1, line 2, byte 9:\n    {"set":{"z":1}}\n            ^\n' + NO_MORE)
    send(second, OF_B)
    tells(server, b"serve: stream 2 is the one of `b`. None is missing.\n")
    tells(server, f"Stream 1, from 127.0.0.1:{port}, of process `a`, is refused at line 2".encode())


def full_meanwhile(server):
    """There is no room for a stream, which is told before any stream has ended."""
    first, second = told(server)
    first.sendall(LONG[:-len(END)])
    tells(server, b"serve: stream 1 is the one of `a`. Missing: `b`.\n" + STOPPED)
    send(first, END)
    second.sendall(OF_B[:OF_B.index(b"\n") + 1])
    tells(server, b"serve: stream 2 is the one of `b`. None is missing.\n")
    send(second, OF_B[OF_B.index(b"\n") + 1:])


# A stream that is longer than there is room for.
END = b'{"end":true}\n'
LONG = b'{"process":"a"}\n' + b'{"set":{"x":0}}\n' * 30 + END
OF_LONG = (b"session 2 processes 32 events 0 messages\nboth possibly no\n"
           b"both definitely no b,b" + b",a" * 30 + b"\n")
# A document of a process whose name is long, its streams, and a report that is longer than each of them.
NAMED = (b'{"processes":[{"name":"' + b"a" * 32 + b'","vars":{}},{"name":"b","vars":{}}],'
         b'"predicates":[{"name":"p","text":"false"}]}')
OF_NAMED = [b'{"process":"' + b"a" * 32 + b'"}\n' + b"{}\n" * 30 + END, b'{"process":"b"}\n' + END]
REPORT_NAMED = (b"session 2 processes 30 events 0 messages\np possibly no\n"
                b"p definitely no " + b",".join([b"a" * 32] * 30) + b"\n")
# A stream of which far more comes at once than one read takes.
OF_PADDED = b'{"process":"a"}\n' + (b'{"set":{"x":0}}'.ljust(65_000) + b"\n") * 48 + END
REPORT_PADDED = (b"session 2 processes 50 events 0 messages\nboth possibly no\n"
                 b"both definitely no b,b" + b",a" * 48 + b"\n")
# What is told of it at once, and at the end.
STOPPED = (b"serve: kept/a.stream can't be written: File too large (os error 27). What comes\n"
           b"  of that stream from here on isn't kept; the session is judged all the same.\n")
UNKEPT = (b"Not all of the session is kept. kept/a.stream: File too large (os error 27).\n"
          b"Expected: an empty folder, or a name that nothing has yet in a folder that there\n"
          b"  is; and room for all that comes.\n"
          b"What to do: give another folder after --keep, or make room.\nmonitor: write\n")


def kept():
    """The cases of sessions that are kept."""
    options = {"asked": ["--keep", "kept"]}
    document = {"session.json": DOCUMENT}
    files = {**document, "a.stream": OF_A, "b.stream": OF_B, "report": REPORT}
    yield "kept", keeps(clients([OF_B, OF_A]), files), options, (0, REPORT, b"")
    empty = {**options, "before": {"kept": None}}
    yield "kept, in an empty folder", keeps(clients([OF_B, OF_A]), files), empty, (0, REPORT, b"")
    files = {**document, "a.stream": OF_PADDED, "b.stream": OF_B, "report": REPORT_PADDED}
    yield "kept, and a stream is long", keeps(long_stream, files), options, (0, REPORT_PADDED, b"")
    files = {**document, "a.stream": OF_A, "report": b"refused stream 2 line 1 taken\n"}
    either = ({**files, name: OF_A} for name in ("2.stream", "1.stream"))
    yield "kept, one stream twice", keeps(clients([OF_A, OF_A]), *either), options, (1, files["report"], b"")
    files = {**document, "1.stream": b"GET /../x HTTP/1.1\r\n\r\n", "b.stream": OF_B,
             "report": b"refused stream 1 line 1 json\n"}
    streams = [files["1.stream"], OF_B]
    yield "kept, and no stream of ours", keeps(clients(streams), files), options, (1, files["report"], b"")
    unkept = (3, b"", b"monitor: write\n")
    for name in ("session.json", "...", "2.stream", "other"):
        before = {f"kept/{name}": b"x"}
        yield f"kept, and there is {name}", keeps(nobody, {name: b"x"}), {**options, "before": before}, unkept
    yield "kept, and it is a file", nobody, {**options, "before": {"kept": b"x"}}, unkept
    yield "kept, with no folder above", nobody, {"asked": ["--keep", "no/kept"]}, unkept
    yield "kept, with no name", nobody, {"asked": ["--keep", ""]}, unkept
    yield "kept, and there is no room for the document", keeps(nobody, {"session.json": DOCUMENT[:100]}), {
        **options, "room": 100}, unkept
    yield "kept, and the port is taken", keeps(nobody, {}), {**options, "taken": [0]}, (3, b"", NO_NETWORK)
    yield "kept, and the watchers' port is taken", keeps(nobody, {}), {**options, "taken": [1], "watchers": 1}, (
        3, b"", NO_NETWORK)
    refused = {**options, "document": b"{"}
    yield "kept, and the document is refused", keeps(nobody, {}), refused, (1, b"refused spec json\n", b"")
    files = {**document, "1.stream": b"", "2.stream": b""}
    waiting = {"asked": ["--keep", "kept", "--wait", "2"]}
    yield "kept, and one of two comes in time", keeps(senders([OF_A]), files), waiting, (3, b"", NO_NETWORK)
    files = {**document, "a.stream": LONG[:300], "b.stream": OF_B, "report": OF_LONG}
    full = (3, OF_LONG, b"monitor: write\n")
    yield "kept, and there is no room", keeps(clients([LONG, OF_B]), files), {**options, "room": 300}, full
    explained = {"asked": ["--keep", "kept", "--explain"], "room": 300}
    yield "kept, and there is no room, explained", keeps(full_meanwhile, files), explained, (3, OF_LONG, UNKEPT)
    files = {"session.json": NAMED, "a" * 32 + ".stream": OF_NAMED[0], "b.stream": OF_NAMED[1],
             "report": REPORT_NAMED[:300]}
    unkept_report = {**options, "room": 300, "document": NAMED}
    yield "kept, and there is no room for the report", keeps(clients(OF_NAMED), files), unkept_report, (
        3, REPORT_NAMED, b"monitor: write\n")
    files = {**document, "a.stream": b"x", "1.stream": OF_A, "b.stream": OF_B, "report": REPORT}
    yield "kept, and a process has a file already", keeps(comes_between, files), options, (0, REPORT, b"")
    files = {**document, "a.stream": OF_A[:OF_A.index(b"\n") + 1], "b.stream": OF_B[:OF_B.index(b"\n") + 1]}
    yield "kept, and the server is ended by force", keeps(ended_by_force, files), options, (-9, b"", b"")


# What is told at last of a stream that is refused.
NO_MORE = b"serve: no more of it is read; the report comes once the other streams have\n  ended.\n"
# What is explained of a stream that isn't one of ours, after where it came from.
NO_STREAM = (b": this line isn't a JSON\n  text.\nIn stream 1, line 1, byte 1:\n    GET / HTTP/1.1\\x0d\n    ^\n"
             b"Streams count in the order in which they connected.\n"
             b"Expected: one JSON object a line, in UTF-8, ended by a line feed.\n"
             b"What to do: look how the line was written: two writers may share the file; or a\n"
             b"  crash cut it off, then put {\"end\":true} in its place.\n")


# What is explained of a variable that there isn't, after where the stream came from.
NO_VARIABLE = (b": the\n  process has no variable of this name.\n"
               b'In stream 1, line 2, byte 9:\n    {"set":{"z":1}}\n            ^\n'
               b"Expected here: a variable of process `a`, which has `x`.\n"
               b"Streams count in the order in which they connected.\n"
               b"What to do: correct the name in the stream, or add the variable to the process\n"
               b"  in the document.\n")


# What is explained of the answers to a session that is judged.
ANSWERS = (b"`both` can happen, when these processes have come this far:\n"
           b"Process `a` after event 1 (stream 2, line 2), which is local: x=1.\n"
           b"Process `b` after event 1 (stream 1, line 2), which is local: y=1.\n"
           b"No message prevents it: each can come this far before another goes on.\n"
           b"Next: `a` has a local event, `b` has a local event.\n"
           b"`both` need not happen: in some order that fits the messages it never does.\n"
           b"One such order: 2 events of `b`, then 2 events of `a`.\n"
           b"Warning: no message leads between the processes that are named by `both`. Then\n"
           b"  nothing orders their events: look whether all messages are recorded.\n")


def at_once():
    """The cases of what is told while a server runs."""
    explained = {"asked": ["--explain"]}
    yield "told who joins", joins, explained, (0, REPORT, ANSWERS)
    yield "told who doesn't", begins_otherwise, explained, (1, b"refused stream 1 line 1 json\n", NO_STREAM)
    refused = (1, b"refused stream 1 line 2 unknownvar\n", NO_VARIABLE)
    yield "told what is refused", refused_meanwhile, explained, refused


def cases():
    """Of each case the name, who connects, what the server is started with, and its status, output and errors."""
    for name, (streams, report, status) in SESSIONS.items():
        for watchers, workers in OTHERS:
            options = {"watchers": watchers, "workers": workers}
            yield f"{name}, {watchers} watchers", clients(streams, watchers), options, (status, report, b"")
    three = senders(OF_RECEIVERS)
    yield "a message with two receivers", three, {"document": BROADCAST}, (0, OF_BROADCAST, b"")
    options = {"document": BROADCAST.replace(b":2}", b":1}")}
    yield "a message with two receivers, in version 1", three, options, (1, b"refused receivedtwice c#1\n", b"")
    options = {"document": BROADCAST.replace(b":2}", b":3}")}
    yield "another version", nobody, options, (1, b"refused spec version\n", b"")
    two = clients([OF_A, OF_B], 1)
    yield "width 1", two, {"document": NARROW, "watchers": 1}, (0, UNKNOWN, b"")
    options = {"document": NARROW, "watchers": 1, "beyond": True}
    yield "beyond width 1", two, options, (0, REPORT, b"")
    yield "beyond width 1, by 4 workers", two, {**options, "workers": 4}, (0, REPORT, b"")
    options = {"document": BROADCAST[:-1] + b',"width":1}', "beyond": True}
    yield "beyond width 1, by a tried cut", three, options, (0, OF_BROADCAST, b"")
    options = {"document": NARROW, "watchers": 1, "asked": ["--width", "9"]}
    yield "width 1, and another is asked", two, options, (0, REPORT, b"")
    options = {"document": NARROW, "watchers": 1, "asked": ["--width", "9", "--ask", "a.x == 1 and b.y == 1"]}
    yield "a predicate is asked", two, options, (0, REPORT.replace(b"both", b"ask1"), b"")
    options = {"asked": ["--ask", "a.x = 1"]}
    yield "a predicate is asked that is none", nobody, options, (1, b"refused predicate 1 character at 5\n", b"")
    options = {"watchers": 1, "fail_on": "both:definitely,possibly"}
    yield "a condition that is met", two, options, (5, REPORT, b"")
    yield "a condition that isn't met", two, {**options, "fail_on": "unknown,both:definitely"}, (0, REPORT, b"")
    options = {"watchers": 1, "fail_on": "both:possibly", "asked": ["--format", "json"]}
    yield "the report as JSON", two, options, (5, AS_JSON, b"")
    options = {"document": b"x", "asked": ["--format", "json"]}
    refusal = (b'{"format":1,"outcome":"refused","refusal":{"family":"document","word":"json"},'
               b'"report":"refused spec json\\n"}\n')
    yield "the document refused, as JSON", nobody, options, (1, refusal, b"")
    options, absent = {"fail_on": "both:possibly,other:possibly"}, (2, b"", b"monitor: no predicate of this name\n")
    yield "a condition on no predicate", nobody, options, absent
    yield "a condition on no predicate, and the port is taken", nobody, {**options, "taken": [0]}, absent
    options = {"document": NARROW, "watchers": 1, "fail_on": "unknown"}
    yield "width 1, and a condition that is met", two, options, (5, UNKNOWN, b"")
    yield "beyond width 1, and a condition that isn't met", two, {**options, "beyond": True}, (0, REPORT, b"")
    options = {"document": b"x", "fail_on": "possibly"}
    yield "a condition, and the document refused", nobody, options, (1, b"refused spec json\n", b"")
    options = {"document": b"x", "fail_on": "other:possibly"}
    yield "a condition on no predicate, and the document refused", nobody, options, (1, b"refused spec json\n", b"")
    yield "sixteen connections", senders(OF_SIXTEEN), {"document": SIXTEEN}, (0, OF_LAST, b"")
    options = {"document": SIXTEEN, "workers": 4}
    yield "sixteen connections in the other order", senders(OF_SIXTEEN[::-1]), options, (0, OF_LAST, b"")
    twice, refusal = [*OF_SIXTEEN[:15], OF_SIXTEEN[14]], b"refused stream 16 line 1 taken\n"
    yield "sixteen connections, the last two the same", senders(twice), options, (1, refusal, b"")
    yield "streams that nobody sends yet", watched_first, {"watchers": 1}, (0, REPORT, b"")
    yield "the port is taken", nobody, {"taken": [0]}, (3, b"", NO_NETWORK)
    yield "the watchers' port is taken", nobody, {"taken": [1], "watchers": 1}, (3, b"", NO_NETWORK)
    yield "the next port is taken, and there are no watchers", clients([OF_A, OF_B]), {"taken": [1]}, (0, REPORT, b"")
    options = {"taken": [0], "watchers": 1, "document": b"x"}
    yield "the port is taken, and the document refused", nobody, options, (1, b"refused spec json\n", b"")
    options = {"taken": [0], "document": None}
    yield "the port is taken, and there is no document", nobody, options, (3, b"", b"monitor: read\n")
    yield from kept()
    yield from at_once()
    yield from closed_descriptors()
    missed = (3, b"", NO_NETWORK)
    yield "nobody comes in a second", lasts(nobody, 1), {"asked": ["--wait", "1"]}, missed
    options = {"asked": ["--wait", "2"], "watchers": 1}
    yield "one of two comes in time", lasts(senders([OF_A]), 2), options, missed
    yield "two come in time", clients([OF_A, OF_B], 1), {"asked": ["--wait", "60"], "watchers": 1}, (0, REPORT, b"")
    yield "two come in time, the second one late", late, {"asked": ["--wait", "60"]}, (0, REPORT, b"")
    yield "two come in time, and send later", slow, {"asked": ["--wait", "2"]}, (0, REPORT, b"")
    yield "another address of this machine", other_addresses, {"watchers": 1}, (0, REPORT, b"")


def closed_descriptors():
    """A server that keeps its session, with each set of its standard descriptors closed: what it says then goes into no
    file that it makes."""
    files = {"session.json": DOCUMENT, "a.stream": OF_A, "b.stream": OF_B}
    for closed in [(0,), (1,), (2,), (0, 1), (0, 2), (1, 2), (0, 1, 2)]:
        # With no output the report can't be written, and then it isn't kept either.
        unwritten = 1 in closed
        keeping = files if unwritten else {**files, "report": REPORT}
        wanted = (3, b"", b"" if 2 in closed else b"monitor: write\n") if unwritten else (0, REPORT, b"")
        options = {"asked": ["--keep", "kept", *(["--explain"] if 2 in closed else [])], "closed": closed}
        yield f"closed descriptors {closed}", keeps(senders([OF_A, OF_B]), keeping), options, wanted


def ended(program, act, options):
    """The status, the output and the errors of a server, and what went wrong with a connection."""
    wrong = b""
    with tempfile.TemporaryDirectory() as folder, Server(program, folder, **options) as server:
        try:
            act(server)
        except OSError as error:
            wrong = str(error).encode()
        return *server.end(), wrong


def tried(program, act, options, wanted):
    """How often the program ran for a case, and in what it differs, if it does."""
    for run in range(1, TRIES + 1):
        try:
            status, output, errors, wrong = ended(program, act, options)
            if errors == NO_NETWORK != wanted[2] and run < TRIES:
                continue
            for what, want, given in (("the output", wanted[1], output), ("the errors", wanted[2], errors),
                                      ("the status", str(wanted[0]).encode(), str(status).encode()),
                                      ("the connections", b"", wrong)):
                if want != given:
                    differ(what, want, given)
        except Differs as error:
            return run, str(error)
        return run, None


def main():
    parser = argparse.ArgumentParser(description=__doc__, formatter_class=argparse.RawDescriptionHelpFormatter)
    parser.add_argument("program", nargs="?", default=os.path.join(HERE, "..", "crates", "monitor", "out", "monitor"))
    program = os.path.abspath(parser.parse_args().program)
    if not os.access(program, os.X_OK):
        sys.exit(f"servers: no program {program}")
    count = runs = differing = 0
    for name, act, options, wanted in cases():
        tries, why = tried(program, act, options, wanted)
        count, runs = count + 1, runs + tries
        if why:
            differing += 1
            print(f"servers: {name}: {why}")
        if why == ENDLESS:
            break
    print(f"servers: {count} cases, {runs} runs, {differing} differ")
    sys.exit(1 if differing else 0)


if __name__ == "__main__":
    main()
