#!/usr/bin/env python3
"""places.py [PROGRAM]: sets clients and watchers on `serve` at addresses, at sockets and at free ports, and compares
its output, its errors and its status with what each case says, and the files that it makes and leaves.

PROGRAM is ../crates/monitor/out/monitor if it isn't given. A case that ends otherwise is printed with both. The last
line says how many cases there are, and how many differ; the status is 1 if any does. After a server that hasn't ended
in a minute no other is started. A port is one that the server found free, and a socket stands in a folder of the case's
own, so no other test can have either. Without IPv6 the cases of `::1` are left out, which is said.
"""
import argparse
import contextlib
import os
import socket
import stat
import subprocess
import sys
import tempfile
import time

import listening
from run import HERE, SECONDS, Differs, differ
from servers import DOCUMENT, ENDLESS, FRESH, NO_NETWORK, OF_A, OF_B, REPORT, TRIES, read

SOCKET, FILE = "streams", "port"
UNWRITTEN = b"monitor: write\n"
FREE = ["--port", "0", "--port-file", FILE]
AT_SOCKET = ["--socket", SOCKET]


def has_ipv6():
    """Whether a port of ::1 can be bound here."""
    with contextlib.suppress(OSError), socket.socket(socket.AF_INET6) as tried:
        tried.bind(("::1", 0))
        return True
    return False


class Server(contextlib.ExitStack):
    """The program as a server at a place, and the connections to it. All of it ends with the context."""

    def __init__(self, program, folder, words, document=DOCUMENT, before=None, umask=None):
        super().__init__()
        self.folder = folder
        for name, content in {"session.json": document, **(before or {})}.items():
            if content is None:
                os.mkdir(self.path(name))
            else:
                with open(self.path(name), "wb") as file:
                    file.write(content)
        self.process = self.enter_context(subprocess.Popen(
            [program, "serve", "session.json", *words], cwd=folder, stdout=subprocess.PIPE, stderr=subprocess.PIPE,
            umask=-1 if umask is None else umask))
        self.callback(self.process.kill)

    def path(self, name):
        return os.path.join(self.folder, name)

    def wait_for(self, what, test):
        """Waits until the test gives something, while the server runs."""
        until = time.monotonic() + SECONDS
        while not (found := test()):
            if self.process.poll() is not None or time.monotonic() > until:
                raise Differs(f"there is no {what}")
            time.sleep(0.005)
        return found

    def ports(self):
        """The ports that the server has written into its file."""
        def lines():
            with contextlib.suppress(FileNotFoundError), open(self.path(FILE), encoding="ascii") as file:
                return file.read().splitlines()
        return [int(line) for line in self.wait_for("port file", lines)]

    def to_port(self, place=0, host=listening.HOST):
        """A connection to one of these ports."""
        return self.enter_context(socket.create_connection((host, self.ports()[place]), SECONDS))

    def to_socket(self, name=SOCKET):
        """A connection to a socket, as soon as the server listens there."""
        def connect():
            other = socket.socket(socket.AF_UNIX)
            try:
                other.connect(self.path(name))
                return other
            except OSError:
                other.close()
                return None
        connection = self.enter_context(self.wait_for(f"socket {name}", connect))
        connection.settimeout(SECONDS)
        return connection

    def end(self):
        """Its status, its output and its errors."""
        try:
            output, errors = self.process.communicate(timeout=SECONDS)
        except subprocess.TimeoutExpired:
            raise Differs(ENDLESS) from None
        return self.process.returncode, output, errors


def see(what, wanted, found):
    if wanted != found:
        differ(what, repr(wanted).encode(), repr(found).encode())


def nobody(_server):
    """No one connects."""


def see_private(path):
    """Sees that this is a socket for its owner alone."""
    mode = os.stat(path).st_mode
    see(f"whether {path} is a socket", True, stat.S_ISSOCK(mode))
    see(f"the mode of {path}", "0o600", oct(stat.S_IMODE(mode)))


def sends(connection, stream):
    with connection:
        connection.sendall(stream)


def by_ports(host=listening.HOST, watchers=0):
    """Two streams and some watchers, by the ports of the file."""
    def act(server):
        see("how many ports there are", 1 + (watchers > 0), len(server.ports()))
        connected = [server.to_port(0, host), server.to_port(0, host)]
        for _ in range(watchers):
            see("what a watcher is shown", FRESH, read(server.to_port(1, host)))
        for connection, stream in zip(connected, (OF_A, OF_B)):
            sends(connection, stream)
    return act


def by_socket(watchers=0):
    """The same by a socket, whose files are for their owner alone, and are gone once all have connected."""
    def act(server):
        connected = [server.to_socket()]
        see_private(server.path(SOCKET))
        if watchers:
            other = server.path(SOCKET + ".watchers")
            server.wait_for("socket of the watchers", lambda: os.path.exists(other))
            server.wait_for("socket for its owner alone", lambda: stat.S_IMODE(os.stat(other).st_mode) == 0o600)
            see_private(other)
        connected.append(server.to_socket())
        server.wait_for("end of the socket's file", lambda: not os.path.exists(server.path(SOCKET)))
        for _ in range(watchers):
            see("what a watcher is shown", FRESH, read(server.to_socket(SOCKET + ".watchers")))
        for connection, stream in zip(connected, (OF_A, OF_B)):
            sends(connection, stream)
    return act


def next_ports(server):
    """The ports are neighbours; then two streams and a watcher connect."""
    first, second = server.ports()
    see("the port after the first one", first + 1, second)
    by_ports(watchers=1)(server)


def here_alone(server):
    """Nobody listens on 127.0.0.1; then two streams connect to 127.0.0.2."""
    with socket.socket() as other:
        if not other.connect_ex(("127.0.0.1", server.ports()[0])):
            raise Differs("127.0.0.1 is bound too")
    by_ports("127.0.0.2")(server)


def one_comes(server):
    """One of two streams connects, and begins."""
    server.to_socket().sendall(OF_A[:OF_A.index(b"\n") + 1])


def stale(folder):
    """Leaves a socket that nobody listens on, as a server does that is killed."""
    with socket.socket(socket.AF_UNIX) as left:
        left.bind(os.path.join(folder, SOCKET))


def chosen():
    """A port that nobody had a moment ago, as was the next one."""
    return ["--port", str(listening.free_ports(2)), "--port-file", FILE, "--watchers", "1"]


def places():
    """The cases of places that are bound: of each the name, the clients, the words, the options, the status with the
    output and the errors, and the files that are left beside the document."""
    judged = (0, REPORT, b"")
    yield "a socket", by_socket(), AT_SOCKET, {}, judged, {}
    yield "a socket, and watchers", by_socket(2), [*AT_SOCKET, "--watchers", "2"], {}, judged, {}
    yield "a socket, for all by the umask", by_socket(1), [*AT_SOCKET, "--watchers", "1"], {"umask": 0}, judged, {}
    yield "a socket, and a wait", by_socket(), [*AT_SOCKET, "--wait", "60"], {}, judged, {}
    yield "a free port", by_ports(), FREE, {}, judged, {FILE: None}
    yield "free ports", by_ports(watchers=2), [*FREE, "--watchers", "2"], {}, judged, {FILE: None}
    yield "a free port, and a file from before", by_ports(), FREE, {"before": {FILE: b""}}, judged, {FILE: None}
    yield "127.0.0.1 by its name", by_ports(), [*FREE, "--bind", "127.0.0.1"], {}, judged, {FILE: None}
    yield "another address of this machine", here_alone, [*FREE, "--bind", "127.0.0.2"], {}, judged, {FILE: None}
    if has_ipv6():
        words = [*FREE, "--bind", "::1", "--watchers", "1"]
        yield "::1", by_ports("::1", 1), words, {}, judged, {FILE: None}
    yield "a chosen port, and its file", next_ports, chosen, {}, judged, {FILE: None}


def taken():
    """The cases of places that can't be bound."""
    missed, there = (3, b"", NO_NETWORK), {SOCKET: b"x"}
    yield "a file at the socket's path", nobody, AT_SOCKET, {"before": there}, missed, there
    yield "a folder at the socket's path", nobody, AT_SOCKET, {"before": {SOCKET: None}}, missed, {SOCKET: None}
    there = {SOCKET + ".watchers": b"x"}
    words = [*AT_SOCKET, "--watchers", "1"]
    yield "a file at the watchers' path", nobody, words, {"before": there}, missed, there
    yield "no watchers, and a file at their path", by_socket(), AT_SOCKET, {"before": there}, (0, REPORT, b""), there
    yield "a socket with no folder above", nobody, ["--socket", "no/streams"], {}, missed, {}
    yield "a socket with a long path", nobody, ["--socket", "s" * 108], {}, missed, {}
    yield "a socket, and one of two comes in time", one_comes, [*AT_SOCKET, "--wait", "1"], {}, missed, {}
    yield "an address that isn't here", nobody, [*FREE, "--bind", "192.0.2.1"], {}, missed, {}
    refused = {"document": b"x"}
    yield "a socket, and the document refused", nobody, AT_SOCKET, refused, (1, b"refused spec json\n", b""), {}
    yield "a free port, and the document refused", nobody, FREE, refused, (1, b"refused spec json\n", b""), {}
    words = [*AT_SOCKET, "--keep", "kept"]
    before = {"before": {"kept": b"x"}}
    yield "a socket, and a session that can't be kept", nobody, words, before, (3, b"", UNWRITTEN), {"kept": b"x"}


def unwritten():
    """The cases of port files that can't be written."""
    failed = (3, b"", UNWRITTEN)
    yield "a port file with no folder above", nobody, [*FREE[:-1], "no/port"], {}, failed, {}
    yield "a port file that is a folder", nobody, FREE, {"before": {FILE: None}}, failed, {FILE: None}
    there = {FILE + ".new": b"x"}
    yield "a port file that another writes", nobody, FREE, {"before": there}, failed, there
    before = {"kept": b"x"}
    words = [*FREE, "--keep", "kept"]
    yield "a port file, and a session that can't be kept", nobody, words, {"before": before}, failed, before


BUSY = (b"The socket streams can't be made: Address already in use (os error 98). If\n"
        b"  something of that name is there, as a server leaves it that was stopped by\n"
        b"  force, remove it unless another server uses it; or give another path after\n"
        b"  --socket, in a folder that there is.\n")
NO_FILE = (b"The file of the port can't be written. no/port: No such file or directory (os\n"
           b"  error 2).\n"
           b"What to do: give a file after --port-file in a folder that there is and into\n"
           b"  which you may write.\n")
NOT_HERE = (b"Address 192.0.2.1:7411 can't be used: Cannot assign requested address (os error\n"
            b"  99). Give an address of this machine after --bind; if a program has that port,\n"
            b"  end that, or choose another port after --port.\n")
LATE = (b"serve: streams waits for the streams of `a`, `b`.\n"
        b"serve: stream 1 of 2 has connected.\n"
        b"In 1 second 1 of 2 streams connected to streams:\n"
        b"    stream 1 is the one of `a`\n"
        b"Missing: `b`.\n"
        b"Expected: a connection for each process of the document.\n"
        b"What to do: start what is missing, let it connect to that socket, or wait longer\n"
        b"  by --wait.\n")


def explained():
    """The cases of what is explained."""
    words = [*AT_SOCKET, "--explain"]
    there = {SOCKET: b"x"}
    yield "a socket is taken, explained", nobody, words, {"before": there}, (3, b"", BUSY + NO_NETWORK), there
    words = [*AT_SOCKET, "--wait", "1", "--explain"]
    yield "a socket, and one comes in time, explained", one_comes, words, {}, (3, b"", LATE + NO_NETWORK), {}
    words = [*FREE[:-1], "no/port", "--explain"]
    yield "no port file, explained", nobody, words, {}, (3, b"", NO_FILE + UNWRITTEN), {}
    words = ["--port", "7411", "--bind", "192.0.2.1", "--explain"]
    yield "an address that isn't here, explained", nobody, words, {}, (3, b"", NOT_HERE + NO_NETWORK), {}


def warned():
    """The cases of addresses that others can reach: what is warned has the port in it."""
    for host, to in (("0.0.0.0", "127.0.0.1"), *([("::", "::1")] if has_ipv6() else [])):
        def act(server, host=host, to=to):
            shown = f"[{host}]" if ":" in host else host
            open_to = f"{shown}:{server.ports()[0]}"
            server.warning = f"serve: warning: {open_to} isn't for this machine alone, and there is".encode()
            by_ports(to)(server)
        yield f"all addresses, {host}", act, [*FREE, "--bind", host], {}, (0, REPORT, None), {FILE: None}


WRONG = ([], ["--port", "0"], ["--port", "65535"], ["--port", "7411", *AT_SOCKET], [*AT_SOCKET, "--port-file", FILE],
         [*AT_SOCKET, "--bind", "127.0.0.1"], ["--port", "7411", "--bind", ""],
         ["--port", "7411", "--bind", "localhost"], ["--port", "7411", "--bind", "127.0.0.1:80"])


def cases():
    yield from places()
    yield from taken()
    yield from unwritten()
    yield from explained()
    yield from warned()
    for words in WRONG:
        yield f"refused: {' '.join(words)}", nobody, words, {}, (2, b"", None), {}


def left_files(folder):
    """What is left in a folder beside the document: what each file has, and nothing of a folder."""
    found = {}
    for name in os.listdir(folder):
        path = os.path.join(folder, name)
        if name != "session.json":
            found[name] = open(path, "rb").read() if os.path.isfile(path) else None
    return found


def warning_of(server, errors):
    """The errors without the warning of the case, if it has one and that stands there once, in its rows."""
    joined = errors.replace(b"\n  ", b" ")
    if joined.count(server.warning) != 1 or not joined.endswith(b".\n") or joined.count(b"\n") != 1:
        differ("the warning", server.warning, errors)


def tried(program, act, words, options, wanted, files):
    """In what a case differs, if it does. One with a chosen port is tried again if another program has taken that."""
    for _ in range(TRIES if callable(words) else 1):
        why = tried_once(program, act, words() if callable(words) else words, options, wanted, files)
        if not why:
            break
    return why


def tried_once(program, act, words, options, wanted, files):
    with tempfile.TemporaryDirectory() as folder:
        try:
            with Server(program, folder, words, **options) as server:
                act(server)
                status, output, errors = server.end()
                if wanted[2] is not None:
                    see("the errors", wanted[2], errors)
                elif wanted[0] == 0:
                    warning_of(server, errors)
                see("the output", wanted[1], output)
                see("the status", wanted[0], status)
            found = left_files(folder)
            for name, content in files.items():
                if content is None and name == FILE and found.get(name):
                    found[name] = None
            see("the files that are left", files, found)
        except (Differs, OSError) as error:
            return str(error)
    return None


def stale_socket(program):
    """A socket that nobody listens on is as taken as any file, and is left."""
    with tempfile.TemporaryDirectory() as folder:
        stale(folder)
        try:
            with Server(program, folder, AT_SOCKET) as server:
                see("the end", (3, b"", NO_NETWORK), server.end())
            see("whether it is left", True, os.path.exists(os.path.join(folder, SOCKET)))
        except Differs as error:
            return str(error)
    return None


def main():
    parser = argparse.ArgumentParser(description=__doc__, formatter_class=argparse.RawDescriptionHelpFormatter)
    parser.add_argument("program", nargs="?", default=os.path.join(HERE, "..", "crates", "monitor", "out", "monitor"))
    program = os.path.abspath(parser.parse_args().program)
    if not os.access(program, os.X_OK):
        sys.exit(f"places: no program {program}")
    if not has_ipv6():
        print("places: no address ::1 here, so its cases are left out")
    tries = [(name, lambda row=row: tried(program, *row)) for name, *row in cases()]
    tries.append(("a socket that nobody listens on", lambda: stale_socket(program)))
    count = differing = 0
    for name, attempt in tries:
        count, why = count + 1, attempt()
        if why:
            differing += 1
            print(f"places: {name}: {why}")
        if why == ENDLESS:
            break
    print(f"places: {count} cases, {differing} differ")
    sys.exit(1 if differing else 0)


if __name__ == "__main__":
    main()
