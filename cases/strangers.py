#!/usr/bin/env python3
"""strangers.py [PROGRAM]: sets strangers on `serve --join-first`, `--token`, `--token-file` and `--idle`, beside those
who send the streams, and compares its output, its errors and its status with what each case says.

PROGRAM is ../crates/monitor/out/monitor if it isn't given. A case that ends otherwise is printed with both. The last
line says how many cases there are, how often the program ran, and how many cases differ; the status is 1 if any does.
"""
import argparse
import contextlib
import os
import socket
import struct
import sys
import time

from run import HERE, Differs
from servers import DOCUMENT, ENDLESS, NO_NETWORK, OF_A, OF_B, REPORT, keeps, lasts, nobody, tells, tried

FIRST = ["--join-first"]
TOKEN = ["--token", "open sesame"]
SAID = b"open sesame\n"
UNENDED = b"refused stream 1 line 3 unended\n"
# The beginning of a stream of a.
BEGUN = OF_A[:OF_A.index(b"\n", 20) + 1]
USAGE = (b"error: --token wants a text of 1 to 1,024 bytes without a line feed, and no --token-file beside it\n\n"
         b"Usage: monitor [OPTIONS] [COMMAND]\n\nFor more information, try '--help'.\n")


def sent(server, data, seconds=0.0):
    """A connection that sends this, stays open, and is left alone for so long."""
    connection = server.connect()
    connection.sendall(data)
    time.sleep(seconds)
    return connection


def is_closed(connection):
    """Whether the server has closed a connection, within five seconds and some more."""
    connection.settimeout(10)
    with contextlib.suppress(ConnectionResetError):
        return connection.recv(1) == b""
    return True


def has_closed(*connections):
    """Fails unless the server has closed each connection."""
    for number, connection in enumerate(connections):
        if not is_closed(connection):
            raise Differs(f"connection {number} isn't closed")


def reset(server):
    """A connection that breaks off."""
    connection = server.connect()
    connection.setsockopt(socket.SOL_SOCKET, socket.SO_LINGER, struct.pack("ii", 1, 0))
    connection.close()


def both(server, said=b""):
    """The two streams, after what each has to say first."""
    return [sent(server, said + OF_B), sent(server, said + OF_A)]


def after(*strangers, said=b""):
    """The streams after strangers that send these, each of whom is turned away before the next one comes."""
    def act(server):
        has_closed(*[sent(server, stranger) for stranger in strangers])
        both(server, said)
    return act


def gone(server):
    """Strangers that are gone at once, one of them by a reset, and then the streams."""
    for _ in range(3):
        server.connect().close()
        reset(server)
    both(server)


def silent(server):
    """Strangers that say nothing, or half a line, don't hold the streams up."""
    for said in (b"", b'{"process"', b"\x16\x03\x01\x02\x00"):
        sent(server, said)
    both(server)


def by_bytes(said=b""):
    """The streams, byte by byte as far as their first lines go, both at once."""
    def act(server):
        streams = [said + OF_A, said + OF_B]
        connections = [server.connect() for _ in streams]
        count = max(stream.index(b"}") for stream in streams) + 2
        for place in range(count):
            for connection, stream in zip(connections, streams):
                connection.sendall(stream[place:place + 1])
            time.sleep(0.002)
        for connection, stream in zip(connections, streams):
            connection.sendall(stream[count:])
    return act


def flood(server):
    """Three hundred silent strangers, and then the streams: 64 wait, and those that came first are closed."""
    strangers = [server.connect() for _ in range(300)]
    both(server)
    has_closed(*strangers[:200])


def second(server):
    """The first stream comes twice: who comes later is turned away."""
    first = sent(server, OF_A, 0.1)
    has_closed(sent(server, OF_A))
    sent(server, OF_B)
    server.wait()
    first.close()


def patient(server):
    """A stranger that says nothing is closed after five seconds, and no sooner, while the streams are waited for."""
    began = time.monotonic()
    stranger = server.connect()
    if not is_closed(stranger):
        raise Differs("the stranger isn't closed")
    if time.monotonic() - began < 4.5:
        raise Differs("the stranger is closed before five seconds are over")
    both(server)


def blank(server):
    """A stranger that sends blank lines alone is closed once they are too long, and not after five seconds."""
    began = time.monotonic()
    has_closed(sent(server, b"\n" * 65_537))
    if time.monotonic() - began > 4:
        raise Differs("the stranger is closed late")
    both(server)


def hidden(server):
    """A part of a token isn't shown of a stranger that ends after it, nor what stands in place of one."""
    tells(server, f"serve: port {server.port} of this machine waits for the streams of `a`, `b`.\n".encode())
    tells(server, b"serve: a connection is a stream once it joins one of these, after a line with\n"
                  b"  the token; each other one is closed.\n")
    for said, why in ((SAID[:6], b"it ended before it had said\n  whose stream it is.\n"),
                      (SAID[:6] + b"\n", b"its first line isn't the\n  token.\n")):
        stranger = sent(server, said)
        port = stranger.getsockname()[1]
        stranger.shutdown(socket.SHUT_WR)
        tells(server, f"serve: a connection from 127.0.0.1:{port} is closed: ".encode() + why)
    server.process.kill()


def listens(server):
    """What is told once the server listens."""
    tells(server, f"serve: port {server.port} of this machine waits for the streams of `a`, `b`.\n".encode())
    tells(server, b"serve: a connection is a stream once it joins one of these; each other one is\n  closed.\n")


def told(server):
    """What is told of each stranger, before any stream comes."""
    listens(server)
    for said, shown in ((b"GET / HTTP/1.1\r\n", b"GET / HTTP/1.1\\x0d"), (b'{"process":"c"}\n', b'{"process":"c"}')):
        port = sent(server, said).getsockname()[1]
        tells(server, f"serve: a connection from 127.0.0.1:{port} is closed: its first line joins no\n".encode())
        tells(server, b"  process of the document. It begins so:\n    " + shown + b"\n")
    server.process.kill()


def idle(server):
    """One stream says nothing any more, and the other one is sent."""
    sent(server, BEGUN)
    sent(server, OF_B)


def talks(server):
    """A stream that says something each half second isn't idle."""
    first = sent(server, OF_A[:1])
    sent(server, OF_B)
    for place in range(1, 5):
        time.sleep(0.5)
        first.sendall(OF_A[place:place + 1])
    first.sendall(OF_A[5:])


def waits(server):
    """One stream comes, one stranger is turned away, and another one says nothing."""
    sent(server, OF_A)
    has_closed(sent(server, b"x\n"))
    sent(server, b"")
    server.wait()


def waits_told(server):
    """The same, and what is told of it until the time is over."""
    listens(server)
    first = sent(server, OF_A).getsockname()[1]
    tells(server, f"serve: stream 1 of 2 has connected, from 127.0.0.1:{first}.\n".encode())
    port = sent(server, b"{}\n").getsockname()[1]
    tells(server, f"serve: a connection from 127.0.0.1:{port} is closed: its first line joins no\n".encode())
    tells(server, b"  process of the document. It begins so:\n    {}\n")
    sent(server, b"")
    tells(server, f"In 2 seconds 1 of 2 streams connected to port {server.port}:\n".encode())
    tells(server, f"    stream 1, from 127.0.0.1:{first}, is the one of `a`\n".encode())


# What is explained when the time is over, after who came.
MISSED = (b"Missing: `b`.\nExpected: a connection for each process of the document.\n"
          b"What to do: start what is missing, let it connect to that port of this machine,\n"
          b"  or wait longer by --wait.\n"
          b"Connections that were closed since they joined no process without a stream: 1.\n"
          b"Connections that hadn't said yet whose streams they are: 1.\n")


def cases():
    """Of each case the name, who connects, what the server is started with, and its status, output and errors."""
    good, first = (0, REPORT, b""), {"asked": FIRST}
    yield "nobody but the streams", both, first, good
    yield "strangers that are gone at once", gone, first, good
    http = b"GET / HTTP/1.1\r\nHost: x\r\n\r\n"
    yield "a browser, NUL bytes, a TLS hello", after(http, b"\0" * 99 + b"\n", b"\x16\x03\x01\n"), first, good
    yield "no process of the document", after(b'{"process":"c"}\n', b'{}\n', b'{"process":1}\n'), first, good
    yield "a first line that is too long", after(b"x" * 65_537), first, good
    yield "blank lines that are too long", blank, first, good
    yield "strangers that say nothing", silent, first, good
    yield "the streams, byte by byte", by_bytes(), first, good
    yield "a flood of strangers", flood, first, good
    yield "one stream twice", second, first, good
    yield "a stranger that says nothing for five seconds", patient, first, good
    yield "a stream that is refused later", after(b"x\n", b'{"process":"a"}x\n'), first, good
    yield "a token", after(OF_A, b"open\n" + OF_A, b"x" * 1_100, said=SAID), {"asked": TOKEN}, good
    yield "a token, byte by byte", by_bytes(SAID), {"asked": TOKEN}, good
    yield "a token with a carriage return", after(said=SAID[:-1] + b"\r\n"), {"asked": TOKEN}, good
    yield "a token in a file", after(OF_A, said=SAID), {
        "asked": ["--token-file", "token"], "before": {"token": SAID + b"more\n"}}, good
    for name, before in (("isn't there", {}), ("is empty", {"token": b""}), ("is too long", {"token": b"x" * 1_025})):
        yield f"a file of a token that {name}", nobody, {
            "asked": ["--token-file", "token"], "before": before, "taken": [0]}, (3, b"", NO_NETWORK)
    for name, words in (("empty", [""]), ("too long", ["x" * 1_025]), ("of two lines", ["a\nb"]),
                        ("and a file", ["a", "--token-file", "token"])):
        yield f"a token, {name}", nobody, {"asked": ["--token", *words]}, (2, b"", USAGE)
    files = {"session.json": DOCUMENT, "a.stream": BEGUN, "b.stream": OF_B, "report": UNENDED}
    for asked in (["--idle", "1"], ["--idle", "1", *FIRST]):
        options = {"asked": [*asked, "--keep", "kept"]}
        yield f"a stream that falls silent, {asked}", keeps(idle, files), options, (1, UNENDED, b"")
    yield "a stream that doesn't", talks, {"asked": ["--idle", "1"]}, good
    yield "one of two joins in time", lasts(waits, 2), {"asked": [*FIRST, "--wait", "2"]}, (3, b"", NO_NETWORK)
    yield "what is told of strangers", told, {"asked": [*FIRST, "--explain"]}, (-9, b"", b"")
    yield "what isn't told of a token", hidden, {"asked": [*TOKEN, "--explain"]}, (-9, b"", b"")
    options = {"asked": [*FIRST, "--explain", "--wait", "2"]}
    yield "what is told at the end", waits_told, options, (3, b"", MISSED + NO_NETWORK)


def main():
    parser = argparse.ArgumentParser(description=__doc__, formatter_class=argparse.RawDescriptionHelpFormatter)
    parser.add_argument("program", nargs="?", default=os.path.join(HERE, "..", "crates", "monitor", "out", "monitor"))
    program = os.path.abspath(parser.parse_args().program)
    if not os.access(program, os.X_OK):
        sys.exit(f"strangers: no program {program}")
    count = runs = differing = 0
    for name, act, options, wanted in cases():
        tries, why = tried(program, act, options, wanted)
        count, runs = count + 1, runs + tries
        if why:
            differing += 1
            print(f"strangers: {name}: {why}")
        if why == ENDLESS:
            break
    print(f"strangers: {count} cases, {runs} runs, {differing} differ")
    sys.exit(1 if differing else 0)


if __name__ == "__main__":
    main()
