#!/usr/bin/env python3
"""progress.py [PROGRAM]: sees what the program shows of long work on a terminal, and that it shows nothing elsewhere.

PROGRAM is ../crates/monitor/out/monitor if it isn't given. Its errors go to a terminal of this script's own. Bytes are
sent until a line is shown, so no time is waited for that a slow machine might not keep; and a walk begins only after
that, so that its levels are shown from the first one on. The last line says how many cases there are, and how many
differ; the status is 1 if any does.
"""
import argparse
import errno
import os
import pty
import re
import subprocess
import sys
import tempfile
import threading
import time
import tty

import listening
from run import HERE, SECONDS

DOCUMENT = b'{"processes":[{"name":"a","vars":{"x":0}}],"predicates":[{"name":"high","text":"a.x > 5000"}]}\n---\n'
OF_TWO = (b'{"processes":[{"name":"a","vars":{"x":0}},{"name":"b","vars":{"x":0}}],'
          b'"predicates":[{"name":"high","text":"a.x > 5000"}]}\n')
JOIN, EVENT, END = b'{"process":"a"}\n', b'{"set":{"x":1}}\n', b'{"end":true}\n'
LONG_EVENT = EVENT.strip().ljust(59_999) + b"\n"
GENERATE = os.path.join(HERE, "..", "bench", "generate.py")
LOAD, LAST, LAST_LINE = "heavy", 496, b'{"end": true}\n'
TRIES, PATIENCE = 5, 1.1
CLEARED = b"\r\x1b[K"
# A line that is longer than a row of the terminal ends with the row.
START, END_OF_LINE = CLEARED + b"\x1b[?7l", b"\x1b[?7h"
# What is explained of the answer about the bundle.
EXPLAINED = (b"`high` cannot happen, whatever the messages are: it is false for all values that\n"
             b"  `a` has at any time.\n")
BYTES = re.compile(re.escape(START) + rb"(reading: \d+\.\d(?: of \d+\.\d)? MB)" + re.escape(END_OF_LINE))
LEVEL = re.compile(re.escape(START) + rb"level (\d+) of (\d+): \d+ cuts" + re.escape(END_OF_LINE))
ASKED = re.compile(re.escape(START) + rb"beyond the width: predicate (\d+) of (\d+)" + re.escape(END_OF_LINE))
# Sums decide the second predicate, and its first cut is looked for once the walk, of one cut a level, has left it
# unknown.
UNDECIDED = b'{"processes":[%s],"predicates":[%s],"width":1}\n---\n%s' % (
    b",".join(b'{"name":"%c","vars":{"x":0}}' % name for name in b"abc"),
    b",".join(b'{"name":"%s","text":"%s"}' % pair for pair in (
        (b"one", b"a.x == 1 and b.x == 0"), (b"sum", b"a.x + b.x + c.x == 2"), (b"never", b"a.x > 1"))),
    b"---\n".join(b'{"process":"%c"}\n%s%s' % (name, EVENT, END) for name in b"abc"))


class Terminal:
    """A run of the program whose errors go to a terminal of this kind, and what is shown there."""

    def __init__(self, program, words, kind="xterm", **options):
        self.shown = b""
        here, there = pty.openpty()
        tty.setraw(there)
        self.run = subprocess.Popen([program, *words], stdin=subprocess.PIPE, stdout=subprocess.PIPE, stderr=there,
                                    env={**os.environ, "TERM": kind}, **options)
        os.close(there)
        self.reader = threading.Thread(target=self.read, args=(here,))
        self.reader.start()

    def read(self, here):
        try:
            while part := os.read(here, 4096):
                self.shown += part
        except OSError:  # the last one who had the terminal open has closed it
            pass
        os.close(here)

    def end(self, rest=b""):
        """What it wrote once it has been sent the rest, and its status."""
        output, _ = self.run.communicate(rest, timeout=SECONDS)
        self.reader.join()
        return output, self.run.returncode


def send_slowly(terminal, write, drop, is_over):
    """Writes these bytes again and again, until this is so, or for a minute. It gives how often."""
    began, count = time.time(), 0
    while not is_over() and time.time() - began < SECONDS and terminal.run.poll() is None:
        write(drop)
        count += 1
        time.sleep(0.02)
    return count


def is_cleared(terminal):
    """Whether nothing is left of the last line that showed progress; what is explained stands after it."""
    lines = [line.end() for pattern in (BYTES, LEVEL, ASKED) for line in pattern.finditer(terminal.shown)]
    return terminal.shown[max(lines, default=0):].startswith(CLEARED)


def to_input(terminal):
    """What writes to the program's input."""
    def write(part):
        terminal.run.stdin.write(part)
        terminal.run.stdin.flush()
    return write


def slow_bundle(program):
    """A bundle that comes slowly is shown while it is read."""
    terminal = Terminal(program, [])
    write = to_input(terminal)
    write(DOCUMENT + JOIN)
    count = send_slowly(terminal, write, EVENT, lambda: terminal.shown)
    output, status = terminal.end(END)
    yield "the status", status, 0
    yield "the report", output.splitlines()[:1], [b"session 1 processes %d events 0 messages" % count]
    yield "what is shown at first", bool(BYTES.match(terminal.shown)), True
    yield "what is left", is_cleared(terminal), True
    yield "what else is shown", re.sub(b"(" + LEVEL.pattern + b")", b"", BYTES.sub(b"", terminal.shown)).replace(
        CLEARED, b""), EXPLAINED


def counted_bytes(program):
    """Each byte that is read is counted once."""
    terminal = Terminal(program, [])
    write = to_input(terminal)
    write((DOCUMENT + JOIN).ljust(50_000, b"\n") + LONG_EVENT * 50)
    send_slowly(terminal, write, EVENT, lambda: any(line[-6:] >= b"3.0 MB" for line in shown_bytes(terminal)))
    _, status = terminal.end(END)
    yield "the status", status, 0
    yield "the bytes that are shown last", [line[-15:] for line in shown_bytes(terminal)[-1:]], [b"reading: 3.0 MB"]
    yield "their order", sorted(shown_bytes(terminal)), shown_bytes(terminal)


def shown_bytes(terminal):
    return [line[1] for line in BYTES.finditer(terminal.shown)]


def sizes_of_files(program):
    """Of files it is shown how many bytes they have, of each once. The first stream is refused and not read on."""
    with tempfile.TemporaryDirectory() as folder:
        document, first, second = (os.path.join(folder, name) for name in ("session.json", "a.stream", "b.stream"))
        for path, content in ((document, OF_TWO), (first, (JOIN + b"x\n").ljust(3_050_000))):
            with open(path, "wb") as file:
                file.write(content)
        os.mkfifo(second)
        terminal = Terminal(program, ["judge", document, first, second])
        with opened(second, terminal.run) as pipe:
            pipe.write(JOIN.replace(b"a", b"b"))
            send_slowly(terminal, pipe.write, EVENT, lambda: shown_bytes(terminal))
            pipe.write(END)
        output, status = terminal.end()
    yield "the status", status, 1
    yield "the report", output, b"refused stream 1 line 2 json\n"
    yield "what is shown", set(shown_bytes(terminal)), {b"reading: 0.0 of 3.0 MB"}


def opened(path, run):
    """A pipe to write to, once the program has opened it to read."""
    until = time.time() + SECONDS
    while True:
        try:
            place = os.open(path, os.O_WRONLY | os.O_NONBLOCK)
            os.set_blocking(place, True)
            return open(place, "wb", buffering=0)
        except OSError as error:
            if error.errno != errno.ENXIO or run.poll() is not None or time.time() > until:
                raise
        time.sleep(0.002)


def levels_of(terminal, status):
    """How the levels of a walk are shown."""
    levels = [tuple(map(int, level)) for level in LEVEL.findall(terminal.shown)]
    yield "the status", status, 0
    yield "the levels' order", sorted(levels), levels
    yield "the last level", {last for _, last in levels}, {LAST}
    yield "what is left", is_cleared(terminal), True


def long_walk(program):
    """A walk that takes some time is shown level by level. The last line of its last stream is sent only when a line is
    shown already, so the time is over for which nothing is shown; blank lines before it say nothing."""
    bundle = subprocess.run([sys.executable, GENERATE, LOAD], check=True, capture_output=True).stdout
    terminal = Terminal(program, [])
    write = to_input(terminal)
    write(bundle[:-len(LAST_LINE)])
    send_slowly(terminal, write, b"\n", lambda: shown_bytes(terminal))
    output, status = terminal.end(LAST_LINE)
    yield from levels_of(terminal, status)
    plain = subprocess.run([program], input=bundle, check=False, capture_output=True)
    yield "the report with no terminal", plain.stdout, output
    yield "what is shown with no terminal", plain.stderr, b""


def files_of_load(folder):
    """The document of the load, the files of its streams, and what the last of these has."""
    subprocess.run([sys.executable, GENERATE, LOAD, f"--files={folder}"], check=True)
    names = sorted(name for name in os.listdir(folder) if name.endswith(".stream"))
    streams = [os.path.join(folder, name) for name in names]
    with open(streams[-1], "rb") as file:
        return os.path.join(folder, "session.json"), streams, file.read()


def long_walk_of_files(program):
    """So is that of files, which are judged or explored. The last one is a pipe, by which that line comes late."""
    for command in ("judge", "explore"):
        with tempfile.TemporaryDirectory() as folder:
            document, streams, last = files_of_load(folder)
            os.remove(streams[-1])
            os.mkfifo(streams[-1])
            terminal = Terminal(program, [command, document, *streams])
            with opened(streams[-1], terminal.run) as pipe:
                pipe.write(last[:-len(LAST_LINE)])
                send_slowly(terminal, pipe.write, b"\n", lambda: shown_bytes(terminal))
                pipe.write(LAST_LINE)
            _, status = terminal.end()
        yield from levels_of(terminal, status)


def long_walk_of_connections(program):
    """So is that of a server, whose streams aren't shown. It says at once where it listens; from then on as long is
    waited as nothing is shown."""
    with tempfile.TemporaryDirectory() as folder:
        document, streams, _ = files_of_load(folder)
        terminal, senders = served(program, document, len(streams))
        time.sleep(PATIENCE)
        for sender, stream in zip(senders, streams):
            with sender, open(stream, "rb") as file:
                sender.sendall(file.read())
        _, status = terminal.end()
    yield from levels_of(terminal, status)


def served(program, document, count):
    """A server, and this many connections to it. If another program takes its port first, another one is tried."""
    for _ in range(TRIES):
        port = listening.free_ports(1)
        terminal = Terminal(program, ["serve", document, "--port", str(port)])
        try:
            return terminal, [listening.connect(terminal.run, port) for _ in range(count)]
        except ConnectionError:
            terminal.run.kill()
            terminal.end()
    sys.exit("progress: no server listens")


def beyond_the_width(program):
    """Each predicate that is answered beyond the width is shown at once, however quick the run is."""
    with tempfile.TemporaryDirectory() as folder:
        paths = [os.path.join(folder, name) for name in ("session.json", "a.stream", "b.stream", "c.stream")]
        for path, part in zip(paths, UNDECIDED.split(b"---\n")):
            with open(path, "wb") as file:
                file.write(part)
        for command in ("judge", "explore"):
            terminal = Terminal(program, [command, "--beyond-width", *paths])
            output, status = terminal.end()
            yield "the status", status, 0
            yield "the predicates", [tuple(map(int, asked)) for asked in ASKED.findall(terminal.shown)], [
                (1, 3), (2, 3), (3, 3), (2, 3)]
            yield "what is left", is_cleared(terminal), True
            plain = subprocess.run([program, command, "--beyond-width", *paths], check=False, capture_output=True)
            yield "the output with no terminal", plain.stdout, output
            yield "what is shown with no terminal", plain.stderr, b""
        terminal = Terminal(program, ["judge", *paths])
        terminal.end()
        yield "what is shown within the width", ASKED.findall(terminal.shown), []


def dumb_terminal(program):
    """A terminal whose lines can't be written over shows nothing but what is explained."""
    for kind in ("dumb", ""):
        terminal = Terminal(program, [], kind)
        write = to_input(terminal)
        write(DOCUMENT + JOIN)
        until = time.time() + PATIENCE + 0.2
        send_slowly(terminal, write, EVENT, lambda: time.time() > until)
        _, status = terminal.end(END)
        yield "the status", status, 0
        yield "what is shown", terminal.shown, EXPLAINED


def short_run(program):
    """A run that takes less than a second shows nothing."""
    terminal = Terminal(program, ["--version"])
    _, status = terminal.end()
    yield "the status", status, 0
    yield "what is shown", terminal.shown, b""


def main():
    parser = argparse.ArgumentParser(description=__doc__, formatter_class=argparse.RawDescriptionHelpFormatter)
    parser.add_argument("program", nargs="?", default=os.path.join(HERE, "..", "crates", "monitor", "out", "monitor"))
    program = os.path.abspath(parser.parse_args().program)
    if not os.access(program, os.X_OK):
        sys.exit(f"progress: no program {program}")
    cases = (slow_bundle, counted_bytes, sizes_of_files, long_walk, long_walk_of_files, long_walk_of_connections,
             beyond_the_width, dumb_terminal, short_run)
    differing = 0
    for case in cases:
        found = [(what, given, wanted) for what, given, wanted in case(program) if given != wanted]
        for what, given, wanted in found:
            print(f"progress: {case.__name__}: {what}: {given!r} in place of {wanted!r}")
        differing += bool(found)
    print(f"progress: {len(cases)} cases, {differing} differ")
    sys.exit(1 if differing else 0)


if __name__ == "__main__":
    main()
