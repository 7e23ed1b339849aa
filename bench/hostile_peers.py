#!/usr/bin/env python3
"""hostile_peers.py PROGRAM [SEED]: sets peers on `serve` that cut, break off, say nothing, say too much and never read.

Each peer is a process of its own. Printed is, for each case, whether the report, the status and the line on standard
error are those that docs/SPECIFICATION.md says. The status is 1 if any isn't."""
import multiprocessing
import os
import random
import socket
import subprocess
import sys
import tempfile
import time

HERE = os.path.dirname(os.path.abspath(__file__))
sys.path.append(os.path.join(HERE, "..", "cases"))
import listening  # noqa: E402

SESSION = os.path.join(HERE, "..", "examples", "mutual-exclusion")
MEBIBYTE = 1 << 20
# How often a server is started if another program takes its port first, and what it reports then.
TRIES, NO_NETWORK = 5, "monitor: network\n"
wrong = 0


def bytes_of(name):
    with open(os.path.join(SESSION, name), "rb") as file:
        return file.read()


LEFT, RIGHT = bytes_of("left.stream"), bytes_of("right.stream")
REPORT = bytes_of("report").decode()


# ---- peers: each is connected, and then does its part

def whole(end, data):
    end.sendall(data)


def cut_at_random(end, data, seed):
    """In pieces of 1 to 7 bytes, each sent by itself."""
    end.setsockopt(socket.IPPROTO_TCP, socket.TCP_NODELAY, 1)
    choice, place = random.Random(seed), 0
    while place < len(data):
        count = choice.randint(1, 7)
        end.sendall(data[place:place + count])
        time.sleep(choice.choice((0, 0, 0.002)))
        place += count


def late(end, data, seconds):
    """It says nothing while the others finish."""
    time.sleep(seconds)
    end.sendall(data)


def reset(end, data):
    """It breaks the connection off, so that the server's read fails."""
    end.sendall(data)
    time.sleep(1)
    end.setsockopt(socket.SOL_SOCKET, socket.SO_LINGER, b"\1\0\0\0\0\0\0\0")


def deaf(end, seconds):
    """It never reads."""
    time.sleep(seconds)


def gone(end):
    """It is gone at once."""


def talkative(end):
    """A watcher that sends what nobody reads, and reads nothing."""
    end.sendall(b"GET / HTTP/1.1\r\n\r\n")


def play(end, part, arguments):
    """One peer in a process of its own: what it meets after its connection harms nobody."""
    try:
        with end:
            part(end, *arguments)
    except OSError:
        pass


def start(server, port, part, *arguments):
    """A peer that is connected to the server; none, if it has ended."""
    try:
        end = listening.connect(server, port)
    except OSError:
        return []
    with end:
        peer = multiprocessing.Process(target=play, args=(end, part, arguments))
        peer.start()
    return [peer]


# ---- cases

def served(words, port, peers, watchers):
    """How a server ends to which the peers and the watchers connect, one after the other."""
    server = subprocess.Popen([*words, "--port", str(port)], stdout=subprocess.PIPE, stderr=subprocess.PIPE, text=True)
    started = [it for peer in peers for it in start(server, port, *peer)]
    started += [it for watcher in watchers for it in start(server, port + 1, *watcher)]
    try:
        output, errors = server.communicate(timeout=60)
    except subprocess.TimeoutExpired:
        server.kill()
        output, errors = server.communicate()
    for peer in started:
        peer.join()
    return output, server.returncode, errors


def case(program, name, peers, text, status=0, line="", watchers=(), asked=0, port=None, document=None):
    """Compares how a server ends with what is stated. Without a port it is one that is free."""
    global wrong
    words = [program, "serve", document or os.path.join(SESSION, "session.json"),
             "--watchers", str(asked or len(watchers))]
    for _ in range(TRIES):
        output, code, errors = served(words, port or listening.free_ports(2), peers, watchers)
        if errors != NO_NETWORK or port:
            break
    good = (output, code, errors) == (text, status, line)
    wrong += not good
    first = (output or errors).split("\n", maxsplit=1)[0]
    print(f"{'as stated' if good else 'WRONG'}: {name}: status {code}, {first}")


def long_stream():
    """16 MiB with no end line, in 256 lines."""
    lines = [RIGHT.split(b"\n")[0]] + [b"{}"] * 255
    return b"".join(line.ljust(16 * MEBIBYTE // 256 - 1) + b"\n" for line in lines)


def main():
    program = os.path.abspath(sys.argv[1])
    seed = int(sys.argv[2]) if len(sys.argv) > 2 else 1
    left, right = (whole, LEFT), (whole, RIGHT)
    case(program, "two streams", [left, right], REPORT)
    case(program, "bytes cut at random", [(cut_at_random, LEFT, seed), (cut_at_random, RIGHT, seed + 1)], REPORT)
    case(program, "one says nothing for a second", [(late, LEFT, 1), right], REPORT)
    case(program, "one is gone at once", [(gone,), right], "refused stream 1 line 1 unended\n", 1)
    case(program, "one closes within a line", [(whole, LEFT[:LEFT.index(b'"waiting":0')]), right],
         "refused stream 1 line 3 json\n", 1)
    case(program, "one breaks off", [(reset, LEFT.split(b"\n")[0] + b"\n"), right],
         "refused stream 1 line 2 read\n", 1)
    case(program, "garbage", [left, (whole, bytes(range(256)) * 16)], "refused stream 2 line 1 json\n", 1)
    case(program, "a line with no end", [left, (whole, b" " * (2 * MEBIBYTE))],
         "refused stream 2 line 1 linetoolong\n", 1)
    case(program, "16 MiB and one byte", [left, (whole, long_stream() + b" ")],
         "refused stream 2 line 257 streamtoolong\n", 1)
    case(program, "after the end line 8 MiB more", [(whole, LEFT + b"x" * (8 * MEBIBYTE)), right], REPORT)
    case(program, "one stream twice", [left, left], "refused stream 2 line 1 taken\n", 1)
    case(program, "watchers that never read", [left, right], REPORT, watchers=[(deaf, 1)] * 8)
    case(program, "watchers that are gone at once", [left, right], REPORT, watchers=[(gone,)] * 64)
    case(program, "watchers that send", [left, right], REPORT, watchers=[(talkative,)] * 3)
    case(program, "more connections than processes", [left, (late, RIGHT, 1), (gone,), (whole, LEFT)], REPORT)
    port = listening.free_ports(2)
    for turn in range(3):
        case(program, f"the same port again, {turn + 1}", [left, right], REPORT, port=port)
    with socket.create_server(("127.0.0.1", port)):
        case(program, "a port in use", [], "", 3, NO_NETWORK, port=port)
    with socket.create_server(("127.0.0.1", port + 1)):
        case(program, "a watchers' port in use", [], "", 3, NO_NETWORK, asked=1, port=port)
    with tempfile.NamedTemporaryFile("w") as document:
        case(program, "a refused document", [], "refused spec json\n", 1, document=document.name)
    print(f"{wrong} not as stated")
    sys.exit(1 if wrong else 0)


if __name__ == "__main__":
    main()
