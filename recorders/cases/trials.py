"""Trials of a recorder by its player, with threads, a process that is killed or gets signals, files and connections
that end or wait: what lines alone can't say. Each is given the players and a folder, and its first words say what it
tries. Those that leave out a call give how many."""
import contextlib
import json
import os
import random
import resource
import select
import signal
import socket
import subprocess
import sys
import threading
import time
from urllib.parse import quote

import judged
import noted
from players import Player, Stream, see, see_text

sys.path.append(os.path.join(judged.TOP, "cases"))
import listening  # noqa: E402

THREADS, TURNS = 6, 50
STRANDS, MANY_STRANDS = 15, 17
CONTENDING, ENTRIES = 3, 40
SEEN = 300
KILLS = 6
BURST = 4000
FILE_LIMIT = 1000
JOIN, INSIDE, END = b'{"process":"left"}\n', b'{"set":{"inside":1}}\n', b'{"end":true}\n'
SECONDS = 60
# Tokens of connections: of MONITOR_TOKEN, which Java reads by the locale; one that a call is given; and the longest.
TOKEN, OWN_TOKEN, LONGEST_TOKEN = 'the token: {"of":"all"} ', "été: {\"process\":\"left\"}", 1024 * "x"
NO_TOKENS = ("secret\nof two", "secret\rof two", "secret\n", 205 * "secret", "secret" + 509 * "é" + "x")
DOCUMENT = json.dumps({"processes": [{"name": "left", "vars": {"inside": 0}}, {"name": "right", "vars": {"inside": 0}}],
                       "predicates": [{"name": "both", "text": "left.inside == 1 and right.inside == 1"}]})
STRANDED = json.dumps({"processes": [{"name": "left", "vars": {"x": 0}}, {"name": "worker", "vars": {"x": 0}}],
                       "predicates": [{"name": "both", "text": "left.x == 1 and worker.x == 1"}]})
STRANDED_REPORT = "session 2 processes 6 events 2 messages\nboth possibly yes 2,2\n"
REPORT = "session 2 processes 3 events 1 messages\nboth possibly no\nboth definitely no left,left,right\n"


def see_plain(folder, path):
    if judged.has_program():
        judged.Plain([path]).see(folder)


def with_threads(players, folder):
    """threads that record at the same time"""
    player, stream = players.of("left"), Stream(folder, "left")
    player.ask(f"file left {stream.word()}")
    player.ask(f"threads {THREADS} {TURNS}")
    player.ask("end")
    lines = [json.loads(line) for line in stream.added().splitlines()]
    see(len(lines) == 4 * THREADS * TURNS + 2, f"there are {len(lines)} lines")
    see([line["send"] for line in lines if "send" in line] == [f"left-{n}" for n in range(1, THREADS * TURNS + 1)],
        "the ids aren't counted from 1 in the order of their lines")
    totals = [line["set"]["total"] for line in lines if "total" in line.get("set", {})]
    see(totals == list(range(1, THREADS * TURNS + 1)), f"a change and its line didn't stay together: {totals}")
    for thread in range(THREADS):
        see_thread(thread, lines)
    see_plain(folder, stream.path)


def see_thread(thread, lines):
    """Sees that a thread's lines stand in its order: a send with the turn, a line with the number of the id that the
    call gave, and a receipt."""
    x, y = f"x{thread}", f"y{thread}"
    mine = [line for line in lines
            if {x, y} & set(line.get("set", {})) or line.get("recv", "").startswith(f"m{thread}-")]
    wanted = []
    for turn in range(TURNS):
        message = mine[3 * turn].get("send", "none")
        wanted += [{"send": message, "set": {x: turn}}, {"set": {y: int(message.rpartition("-")[2])}},
                   {"recv": f"m{thread}-{turn}"}]
    see(mine == wanted, f"the lines of thread {thread} are\n{mine}\nand not\n{wanted}")


def with_strands(players, folder):
    """strands that record at the same time, each in a thread of its own"""
    player, stream = players.of("left"), Stream(folder, "left")
    player.ask(f"file left {stream.word()}")
    player.ask(f"strands {STRANDS} {TURNS}")
    player.ask("end")
    names = [f"strand{number}" for number in range(STRANDS)]
    lines = [f'{{"send":"left-{number}"}}\n' for number in range(1, STRANDS + 1)]
    lines += [f'{{"recv":"{name}-1"}}\n' for name in names]
    see_text(stream.added(), JOIN + "".join(lines).encode() + END)
    strands = [Stream(folder, name) for name in names]
    for number, (name, strand) in enumerate(zip(names, strands), 1):
        begin = f'{{"process":"{name}"}}\n{{"recv":"left-{number}"}}\n'
        events = "".join(f'{{"set":{{"x":{turn}}}}}\n' for turn in range(TURNS))
        see_text(strand.added(), f'{begin}{events}{{"send":"{name}-1"}}\n'.encode() + END)
    if judged.has_program():
        judged.Plain([stream.path, *(strand.path for strand in strands)]).see(folder)


def with_many_strands(players, folder):
    """a long recording with more strands than a session has processes"""
    player, stream = players.of("left"), Stream(folder, "left")
    player.ask(f"long left {stream.word()}")
    player.ask(f"strands {MANY_STRANDS} 1")
    player.ask("end")
    names = [f"strand{number}" for number in range(MANY_STRANDS)]
    lines = [f'{{"send":"left-{number}"}}\n' for number in range(1, MANY_STRANDS + 1)]
    lines += [f'{{"recv":"{name}-1"}}\n' for name in names]
    see_text(stream.added(), JOIN + "".join(lines).encode() + END)
    for number, name in enumerate(names, 1):
        see_text(Stream(folder, name).added(), f'{{"process":"{name}"}}\n{{"recv":"left-{number}"}}\n'
                                               f'{{"set":{{"x":0}}}}\n{{"send":"{name}-1"}}\n'.encode() + END)


def by_the_environment(players, folder):
    """MONITOR_LONG, which makes a recording a long one, and is 1 or 0"""
    stream, made = Stream(folder, "left"), quote(os.path.join(folder, "made"))
    for word in ("2", "yes", "01"):
        with Player(players.words, {"MONITOR_LONG": word}) as player:
            for call in (f"file left {stream.word()}", f"long left {stream.word()}", f"place left {made}",
                         "place left :7411", "port left 7411 0.05"):
                player.ask(call, "refused long")
                player.ask("said", "says MONITOR_LONG")
    see(os.listdir(folder) == [], f"what is refused leaves {os.listdir(folder)}")
    with Player(players.words, {"MONITOR_LONG": "0"}) as player:
        player.ask(f"file left {stream.word()}")
        player.ask(f"receive {'x' * 65}", "refused id")
        player.ask("end")
    os.unlink(stream.path)
    stream.begin_again()
    with Player(players.words, {"MONITOR_LONG": "1"}) as player:
        player.ask("place left :7411", "refused long")
        player.ask("port left 7411 0.05", "refused long")
        player.ask(f"file left {stream.word()}")
        see_long(player, stream)
        player.ask(f"place left {made}")
        see_long(player, Stream(os.path.join(folder, "made"), "left"))


def see_long(player, stream):
    """Sees that the recording of a player is a long one, and so that of its strand."""
    player.ask(f"receive {'x' * 1024}")
    player.ask("strand worker")
    player.ask(f"in worker send-as {'y' * 1024}")
    player.ask(f"receive {'y' * 1025}", "refused id")
    player.ask("end")
    see_text(stream.added(), JOIN + f'{{"recv":"{"x" * 1024}"}}\n{{"send":"left-1"}}\n'.encode() + END)


def with_noted_threads(players, folder):
    """threads whose events have notes"""
    player, stream = players.of("left"), Stream(folder, "left")
    player.tell(f"noted left {stream.word()}")
    if not player.has_answered("noted", "recorded"):
        return 1
    player.ask(f"threads {THREADS} {TURNS}")
    player.ask("end")
    see(stream.added().count(b"\n") == 4 * THREADS * TURNS + 2, "the lines of the stream aren't those without notes")
    noted.see_all(stream.notes.added(), 4 * THREADS * TURNS)
    return 0


def for_a_lock(players, folder):
    """strands that contend for a lock, and that have none"""
    player = players.of("left")
    for call, answer in (("locked", "no"), ("unlocked", "yes")):
        stream = Stream(folder, "left")
        player.ask(f"file left {stream.word()}")
        player.tell(f"{call} {CONTENDING} {ENTRIES}")
        if not player.has_answered(call, "recorded"):
            return 1
        player.ask("end")
        names = [f"strand{number}" for number in range(CONTENDING)]
        paths = [stream.path, *(os.path.join(folder, f"{name}.stream") for name in names)]
        see_contention(names, paths, call == "locked")
        if judged.has_program():
            report = judged.report_of(folder, contended(names), paths)
            see(f"\nboth possibly {answer}" in report, f"with the call {call} the report is\n{report}")
        for path in paths:
            os.unlink(path)
    return 0


def contended(names):
    """The document that asks whether two of these are ever inside."""
    processes = [{"name": "left", "vars": {}}, *({"name": name, "vars": {"x": 0}} for name in names)]
    text = " + ".join(f"{name}.x" for name in names) + " > 1"
    return json.dumps({"processes": processes, "predicates": [{"name": "both", "text": text}], "width": 65_536})


def see_contention(names, paths, is_locked):
    """Sees that each strand went inside as often as it was to, and that with a lock each of them has sent a message
    whenever it went out, which another one has received at most once, as it went in."""
    sent, received = set(), []
    for name, path in zip(names, paths[1:]):
        with open(path, encoding="utf-8") as file:
            lines = [json.loads(line) for line in file][2:-2]
        see([line["set"]["x"] for line in lines if "set" in line] == [1, 0] * ENTRIES, f"{name} isn't inside by turns")
        sent |= {line["send"] for line in lines if "send" in line}
        received += [line["recv"] for line in lines if "recv" in line]
        see(not any(line.get("recv", "").startswith(f"{name}-") for line in lines), f"{name} receives what it has sent")
    see(len(sent) == (len(names) * ENTRIES if is_locked else 0), f"{len(sent)} messages are sent")
    see(len(received) == len(set(received)), "messages are received twice")
    see(set(received) <= sent, "messages are received that were not sent")


def killed_at_rest(players, folder):
    """a process that is killed when it has recorded"""
    stream = Stream(folder, "left")
    with Player(players.words) as player:
        player.ask(f"file left {stream.word()}")
        player.ask("event inside=1")
        player.ask("send", "recorded left-1")
        player.kill()
    see_text(stream.added(), JOIN + b'{"set":{"inside":1}}\n{"send":"left-1"}\n')
    see_plain(folder, stream.path)


def killed_at_work(players, folder):
    """a process that is killed while its threads record"""
    stream = Stream(folder, "left")
    with Player(players.words) as player:
        player.ask(f"file left {stream.word()}")
        sent = killed_flood(player)
    text = stream.added()
    see_flood(sent, text)
    whole = text.rpartition(b"\n")[0] + b"\n"
    with open(stream.path, "wb") as file:
        file.write(whole + END)
    see_plain(folder, stream.path)


def killed_with_notes(players, folder):
    """a process that is killed while its threads record with notes, and is mended"""
    stream = Stream(folder, "left")
    with Player(players.words) as player:
        player.tell(f"noted left {stream.word()}")
        if not player.has_answered("noted", "recorded"):
            return 1
        sent = killed_flood(player)
    see_flood(sent, stream.added())
    mended = mended_from(folder)
    stream = Stream(mended, "left")
    text = stream.added()
    see(text.startswith(JOIN) and text.endswith(END), f"the mended stream isn't whole: {text[-200:]}")
    noted.see_all(stream.notes.added(), text.count(b"\n") - 2)
    see_plain(folder, stream.path)
    return 0


def mended_from(folder, *options):
    """The folder with the streams of this one as monitor_mend mends them."""
    mended = os.path.join(folder, "".join(["mended", *options]))
    done = subprocess.run([sys.executable, os.path.join(noted.RECORDERS, "python", "monitor_mend.py"), *options,
                           "--out", mended, folder], stdout=subprocess.PIPE, stderr=subprocess.PIPE)
    see(done.returncode == 0, f"it isn't mended: {done.stderr.decode()}")
    return mended


def killed_flood(player):
    """Kills a player while its threads record, and gives the ids that it was given by then."""
    player.tell(f"flood {THREADS}")
    answers = []
    while len(answers) < SEEN:
        answers.append(player.answer())
        see(answers[-1].startswith("sent "), f"instead of an id there comes `{answers[-1]}`")
    answers += player.kill()
    return [answer.split()[1] for answer in answers if answer.startswith("sent ")]


def see_flood(sent, text):
    """Sees that each id that a call gave stands in the stream, and that nothing but its last line may be cut short."""
    lines = text.split(b"\n")
    see(lines[0] + b"\n" == JOIN, f"the first line is {lines[0]}")
    for number, line in enumerate(lines[1:-1], 1):
        see(line == f'{{"send":"left-{number}"}}'.encode(), f"line {number + 1} is {line}")
    lost = set(sent) - {f"left-{number}" for number in range(1, len(lines) - 1)}
    see(not lost, f"of {len(sent)} sends that were recorded these are lost: {sorted(lost)[:20]}")


def killed_and_started_again(players, folder):
    """a process that is killed at random moments and started again, with one that is never killed"""
    generator = random.Random(9)
    right = players.of("right")
    right.ask(f"file right {Stream(folder, 'right').word()}")
    sent = 0
    for number in range(KILLS):
        with Player(players.words) as left:
            left.tell(f"again left {Stream(folder, 'left').word()}")
            # Every other time it is killed while it starts, for all that anybody knows.
            has_begun = number % 2 == 0
            if has_begun and not left.has_answered("again", "recorded"):
                return 1
            sent += talk_until_killed(left, right, has_begun, generator)
    right.ask("end")
    names = see_incarnations(folder)
    see(len(names) >= KILLS // 2 and sent > 0, f"there are {len(names)} incarnations, which have sent {sent} messages")
    see_mended(mended_from(folder), [*names, "right"])
    see_mended(mended_from(folder, "--one-process"), ["left", "right"])
    return 0


def talk_until_killed(left, right, has_begun, generator):
    """Tells `left` to send and to receive, kills it a while later, if it has begun once it has sent something, and has
    `right` receive what it has sent, which is how much."""
    answers = []
    for turn in range(SEEN):
        # `right` sends more than `left` receives, and `left` more than it is heard of.
        right.tell("send")
        message = right.answer().split()[1]
        left.tell(f"send x={turn}\nevent x={-turn}\nreceive {message}")
        if turn == 0 and has_begun:
            answers.append(left.answer())
        elif turn == 0:
            time.sleep(generator.choice([0, 0.002, 0.02]) * generator.random())
        elif generator.random() < 0.02:
            break
    answers += left.kill()
    messages = [answer.split()[1] for answer in answers if answer.startswith("recorded left")]
    see(len(set(messages)) == len(messages), f"an incarnation has the ids {messages}")
    for message in messages:
        right.ask(f"receive {message}")
    return len(messages)


def see_incarnations(folder):
    """Sees that each incarnation of left comes after the one before, and gives the names of all."""
    names = [name[:-len(".stream")] for name in os.listdir(folder) if name.startswith("left") and
             name.endswith(".stream")]
    names.sort(key=lambda name: int(name.partition("_")[2] or 1))
    see(names == ["left", *(f"left_{number}" for number in range(2, len(names) + 1))], f"there are the streams {names}")
    for before, name in zip([None, *names], names):
        text = Stream(folder, name).added()
        begin = f'{{"process":"{name}"}}\n' + (f'{{"recv":"{before}-ended"}}\n' if before else "")
        see(text.startswith(begin.encode()), f"the stream of {name} begins {text[:100]}")
    return names


def see_mended(folder, names):
    streams = sorted(name for name in os.listdir(folder) if name.endswith(".stream"))
    see(streams == sorted(f"{name}.stream" for name in names), f"of {names} there are {streams}")
    if judged.has_program():
        plain = judged.Plain([os.path.join(folder, name) for name in streams])
        see(not plain.from_outside and plain.unended is None, f"nobody sends {plain.from_outside}")
        plain.see(folder)


def started_beside_itself(players, folder):
    """a process that is started again while it still runs"""
    stream = Stream(folder, "left")
    with Player(players.words) as first, Player(players.words) as second:
        first.tell(f"again left {stream.word()}")
        if not first.has_answered("again", "recorded"):
            return 1
        second.ask(f"again left {stream.word()}", "refused running")
        first.ask("event x=1")
        second.ask(f"again left {stream.word()}", "refused running")
        see_text(stream.added(), JOIN + b'{"set":{"x":1}}\n')
        see(os.listdir(folder) == ["left.stream"], f"what is refused leaves {os.listdir(folder)}")
        first.kill()
        second.ask(f"again left {stream.word()}")
        second.ask("end")
        second.end()
    see_text(Stream(folder, "left_2").added(), b'{"process":"left_2"}\n{"recv":"left-ended"}\n' + END)
    see(sorted(os.listdir(folder)) == ["left.stream", "left_2.stream"], f"there are {os.listdir(folder)}")
    return 0


class Listener:
    """Where a player records to, as if `serve` were there: a port of this machine, or a socket with a path."""

    def __init__(self, listens=True, room=None, host="127.0.0.1", path=None):
        family = socket.AF_UNIX if path else socket.AF_INET6 if ":" in host else socket.AF_INET
        self.socket = socket.socket(family)
        if room:
            self.socket.setsockopt(socket.SOL_SOCKET, socket.SO_RCVBUF, room)
        self.socket.bind(path or (host, 0))
        self.port = None if path else self.socket.getsockname()[1]
        if listens:
            self.socket.listen()

    def __enter__(self):
        return self

    def __exit__(self, kind, error, trace):
        self.socket.close()

    def connected(self, player):
        """The connection of a player's recorder."""
        player.ask(f"port left {self.port} {SECONDS}")
        return self.socket.accept()[0]


def lines_as_they_are_recorded(players, _folder):
    """lines that come over a connection as they are recorded"""
    player = players.of("left")
    with Listener() as listener, listener.connected(player) as connection, connection.makefile("rb") as lines:
        see_text(lines.readline(), JOIN)
        player.ask("event inside=1")
        see_text(lines.readline(), b'{"set":{"inside":1}}\n')
        player.ask("send", "recorded left-1")
        see_text(lines.readline(), b'{"send":"left-1"}\n')
        player.ask("end")
        see_text(lines.read(), END)


def strand_over_a_connection(players, _folder):
    """a strand that has a connection of its own"""
    player = players.of("left")
    with Listener() as listener, listener.connected(player) as connection, connection.makefile("rb") as lines:
        player.ask("strand worker")
        with listener.socket.accept()[0] as second, second.makefile("rb") as others:
            see_text(others.readline() + others.readline(), b'{"process":"worker"}\n{"recv":"left-1"}\n')
            player.ask("in worker event x=1")
            see_text(others.readline(), b'{"set":{"x":1}}\n')
            player.ask("in worker end")
            see_text(others.read(), b'{"send":"worker-1"}\n' + END)
        player.ask("join worker")
        player.ask("end")
        see_text(lines.read(), JOIN + b'{"send":"left-1"}\n{"recv":"worker-1"}\n' + END)


def without_an_end_over_a_connection(players, _folder):
    """a connection that is closed without an end"""
    player = players.of("left")
    with Listener() as listener, listener.connected(player) as connection, connection.makefile("rb") as lines:
        player.ask("event")
        player.ask("close")
        see_text(lines.read(), JOIN + b"{}\n")


def to_a_place(players, folder):
    """what MONITOR_TO names: a folder, a socket, a port of this machine and of another one"""
    player = players.of("left")
    with_colon = os.path.join(folder, "a:b")
    player.ask(f"place left {quote(with_colon)}")
    player.ask("end")
    see_text(Stream(with_colon, "left").added(), JOIN + END)
    path = os.path.join(folder, "monitor.sock")
    with Listener(path=path) as listener:
        see_connections(player, listener, f"unix:{path}")
    hosts = ["127.0.0.1", "127.0.0.2", *(["::1"] if has_ipv6() else [])]
    for host, names in zip(hosts, (["", "localhost", "127.0.0.1"], ["127.0.0.2"], ["[::1]"])):
        with Listener(host=host) as listener:
            for name in names:
                see_connections(player, listener, f"{name}:{listener.port}")


def see_connections(player, listener, place):
    """Sees that a process and a strand of it record to this place, by a connection each."""
    player.ask(f"place left {quote(place)}")
    with listener.socket.accept()[0] as connection, connection.makefile("rb") as lines:
        see_text(lines.readline(), JOIN)
        player.ask("strand worker")
        with listener.socket.accept()[0] as second, second.makefile("rb") as others:
            player.ask("event inside=1")
            see_text(lines.readline() + lines.readline(), b'{"send":"left-1"}\n' + INSIDE)
            player.ask("end")
            see_text(lines.read(), END)
            see_text(others.read(), b'{"process":"worker"}\n{"recv":"left-1"}\n' + END)


def with_a_token(players, folder):
    """a token that each connection begins with, of MONITOR_TOKEN or of the call"""
    path = os.path.join(folder, "monitor.sock")
    with Listener() as listener, Listener(path=path) as by_path:
        port, with_token = f"port left {listener.port} {SECONDS}", f"token-port left {listener.port} {SECONDS}"
        with Player(players.words, {"MONITOR_TOKEN": TOKEN}) as player:
            see_token(player, port, listener, TOKEN)
            see_token(player, f"place left :{listener.port}", listener, TOKEN)
            see_token(player, f"place left unix:{quote(path)}", by_path, TOKEN)
            see_token(player, f"{with_token} {quote(OWN_TOKEN)}", listener, OWN_TOKEN)
            see_token(player, f"{with_token} %", listener, TOKEN)
            see_files_without_a_token(player, folder)
        with Player(players.words, {"MONITOR_TOKEN": ""}) as player:
            see_token(player, port, listener, "")
            see_token(player, f"{with_token} %", listener, "")
            see_token(player, f"{with_token} {LONGEST_TOKEN}", listener, LONGEST_TOKEN)
        with Player(players.words, {"MONITOR_TOKEN": LONGEST_TOKEN}) as player:
            see_token(player, f"place left localhost:{listener.port}", listener, LONGEST_TOKEN)


def see_token(player, call, listener, token):
    """Sees that what this call connects begins with the token, if there is one, and so does a strand's connection."""
    begin = [f"{token}\n".encode()] if token else []
    player.ask(call)
    with listener.socket.accept()[0] as connection, connection.makefile("rb") as lines:
        for line in [*begin, JOIN]:
            see_text(lines.readline(), line)
        player.ask("strand worker")
        with listener.socket.accept()[0] as second, second.makefile("rb") as others:
            for line in [*begin, b'{"process":"worker"}\n', b'{"recv":"left-1"}\n']:
                see_text(others.readline(), line)
            player.ask("end")
            see_text(lines.read(), b'{"send":"left-1"}\n' + END)
            see_text(others.read(), END)


def see_files_without_a_token(player, folder):
    """Sees that a token changes nothing of what goes to a file, by its name or in a folder."""
    stream, made = Stream(folder, "left"), os.path.join(folder, "made")
    for call, into in ((f"file left {stream.word()}", stream), (f"place left {quote(made)}", Stream(made, "left"))):
        player.ask(call)
        player.ask("end")
        see_text(into.added(), JOIN + END)
        os.unlink(into.path)


def with_what_is_no_token(players, folder):
    """a MONITOR_TOKEN that is no token, with which nothing is connected"""
    with Listener() as listener:
        for token in NO_TOKENS:
            with Player(players.words, {"MONITOR_TOKEN": token}) as player:
                for call in (f"port left {listener.port} {SECONDS}", f"place left :{listener.port}"):
                    player.ask(call, "refused token")
                    player.tell("said")
                    said = player.answer()
                    see("MONITOR_TOKEN" in said and "secret" not in said, f"what is said is {said}")
                see(not select.select([listener.socket], [], [], 0)[0], "there is a connection")
                player.ask("place left :0", "refused place")
                see_token(player, f"token-port left {listener.port} {SECONDS} own", listener, "own")
                see_files_without_a_token(player, folder)


def has_ipv6():
    try:
        with socket.socket(socket.AF_INET6) as bound:
            bound.bind(("::1", 0))
            return True
    except OSError:
        return False


def to_a_socket_that_comes_later(players, folder):
    """a socket that is there later, and one whose other end goes"""
    player, path = players.of("left"), os.path.join(folder, "monitor.sock")
    player.tell(f"place left unix:{quote(path)}")
    time.sleep(0.2)
    with Listener(listens=False, path=path) as listener:
        time.sleep(0.2)
        listener.socket.listen()
        see_text(player.answer(), "recorded")
        with listener.socket.accept()[0] as connection, connection.makefile("rb") as lines:
            see_text(lines.readline(), JOIN)
            player.ask("event inside=1")
            see_text(lines.readline(), INSIDE)
        player.tell("event")
        answers = 0
        while player.answer() != "failed":
            answers += 1
            see(answers < 5000, "a line to nobody is still recorded")
            player.tell("event")
    player.ask("event", "refused broken")
    player.ask("end", "refused broken")


def killed_over_a_connection(players, _folder):
    """a process that is killed while its threads record over a connection"""
    with Player(players.words) as player, Listener() as listener, listener.connected(player) as connection:
        sent = killed_flood(player)
        with connection.makefile("rb") as lines:
            see_flood(sent, lines.read())


def gone(players, _folder):
    """a monitor that is gone"""
    player, answers = players.of("left"), 0
    with Listener() as listener:
        listener.connected(player).close()
        player.tell("event")
        while player.answer() != "failed":
            answers += 1
            see(answers < 5000, "a line to nobody is still recorded")
            player.tell("event")
    player.ask("event", "refused broken")
    player.ask("events", f"recorded {answers}")
    player.ask("end", "refused broken")


def nobody_listens(players, _folder):
    """a port on which nobody listens"""
    with Listener(listens=False) as listener:
        players.of("left").ask(f"port left {listener.port} 0.05", "failed")


def listens_later(players, _folder):
    """a monitor that listens later"""
    player = players.of("left")
    with Listener(listens=False) as listener:
        player.tell(f"port left {listener.port} {SECONDS}")
        time.sleep(0.1)
        listener.socket.listen()
        see_text(player.answer(), "recorded")
        with listener.socket.accept()[0] as connection, connection.makefile("rb") as lines:
            player.ask("end")
            see_text(lines.read(), JOIN + END)


def reads_late(players, _folder):
    """a monitor that reads late"""
    reads_late_by(players.of("left"))


def reads_late_by(player):
    names = [f"{letter:_<32}" for letter in "abcdefghijklmnop"]
    values = range(-2**63, -2**63 + BURST)
    calls = ["event " + " ".join(f"{name}={value}" for name in names) for value in values]
    lines = ['{"set":{' + ",".join(f'"{name}":{value}' for name in names) + "}}\n" for value in values]
    with Listener(room=4096) as listener, listener.connected(player) as connection:
        telling = threading.Thread(target=lambda: [player.tell(call) for call in calls])
        telling.start()
        answers = 0
        # The calls fill what the system keeps of the connection, and then wait, until something is read.
        while answers < BURST and select.select([player.process.stdout], [], [], 0.3)[0]:
            see_text(player.answer(), "recorded")
            answers += 1
        reading = Reading(connection)
        for _ in range(BURST - answers):
            see_text(player.answer(), "recorded")
        telling.join()
        player.ask("end")
        see(reading.all() == JOIN + "".join(lines).encode() + END, "something else came than was recorded")


def at_the_limit_of_a_files_size(players, folder):
    """a file that may grow no longer"""
    stream = Stream(folder, "left")
    with Player(players.words) as player:
        player.ask(f"file left {stream.word()}")
        events = (end_at_the_limit if players.end_at_limit else fail_at_the_limit)(player)
    see_text(stream.added(), (JOIN + (events + 1) * INSIDE)[:FILE_LIMIT])


def notes_at_the_limit_of_a_files_size(players, folder):
    """notes that may grow no longer"""
    stream = Stream(folder, "left")
    with Player(players.words) as player:
        player.tell(f"noted left {stream.word()}")
        if not player.has_answered("noted", "recorded"):
            return 1
        events = fail_at_the_limit(player)
    see_text(stream.added(), JOIN + events * INSIDE)
    notes = stream.notes.added()
    see(len(notes) == FILE_LIMIT, f"there are {len(notes)} bytes of notes")
    noted.see_all(notes[:notes.rindex(b"\n") + 1], events)
    return 0


def limit_files(player):
    """Limits the size of its files. Whoever set no other way for SIGXFSZ is ended by it."""
    resource.prlimit(player.process.pid, resource.RLIMIT_FSIZE, (FILE_LIMIT, resource.RLIM_INFINITY))


def end_at_the_limit(player):
    """Has events recorded until SIGXFSZ ends the player since a file may grow no longer, and gives how many are."""
    limit_files(player)
    events = (FILE_LIMIT - len(JOIN)) // len(INSIDE)
    for _ in range(events):
        player.ask("event inside=1")
    player.tell("event inside=1")
    see(player.process.wait() == -signal.SIGXFSZ, "the player isn't ended by SIGXFSZ")
    return events


def fail_at_the_limit(player):
    """Has events recorded until a call fails since a file may grow no longer, and gives how many are."""
    limit_files(player)
    events = 0
    player.tell("event inside=1")
    while (answer := player.answer()) == "recorded":
        events += 1
        see(events < FILE_LIMIT, "a line over the limit is still recorded")
        player.tell("event inside=1")
    see_text(answer, "failed")
    player.ask("event", "refused broken")
    player.ask("events", f"recorded {events}")
    player.ask("end", "refused broken")
    player.end()
    return events


@contextlib.contextmanager
def interrupted(player):
    """Sends the player a signal each millisecond, which it has a handler for."""
    is_done = threading.Event()

    def send():
        while not is_done.wait(0.001):
            os.kill(player.process.pid, signal.SIGWINCH)

    sending = threading.Thread(target=send)
    sending.start()
    try:
        yield
    finally:
        is_done.set()
        sending.join()


def interrupted_by_signals(players, folder):
    """a signal each millisecond"""
    stream = Stream(folder, "left")
    with Player(players.words) as player:
        player.tell("signals")
        if not player.has_answered("signals", "recorded"):
            return 1
        with interrupted(player):
            reads_late_by(player)
            player.ask(f"noted left {stream.word()}")
            for number in range(SEEN):
                player.ask("send", f"recorded left-{number + 1}")
            player.ask("end")
        player.end()
    lines = "".join(f'{{"send":"left-{number + 1}"}}\n' for number in range(SEEN))
    see_text(stream.added(), JOIN + lines.encode() + END)
    noted.see_all(stream.notes.added(), SEEN)
    return 0


class Reading(threading.Thread):
    """Reads all that comes over a connection."""

    def __init__(self, connection):
        super().__init__(daemon=True)
        self.connection, self.text = connection, b""
        self.start()

    def run(self):
        with self.connection.makefile("rb") as file:
            self.text = file.read()

    def all(self):
        self.join()
        return self.text


def server(folder, document):
    """The program as a server, and its port, once it listens. Others are tried if another program has the port."""
    path = os.path.join(folder, "session.json")
    with open(path, "w", encoding="utf-8") as file:
        file.write(document)
    while True:
        port = listening.free_ports(1)
        running = subprocess.Popen([judged.PROGRAM, "serve", path, "--port", str(port)], stdout=subprocess.PIPE)
        if listening.wait_for(running, port):
            return running, port
        running.kill()
        running.communicate()
        see(running.returncode == 3, f"the server ends with status {running.returncode}")


def served(players, folder):
    """a session that `serve` judges"""
    if not judged.has_program():
        return
    running, port = server(folder, DOCUMENT)
    left, right = players.of("left"), players.of("right")
    with running, contextlib.ExitStack() as at_end:
        at_end.callback(running.kill)
        left.ask(f"port left {port} {SECONDS}")
        right.ask(f"port right {port} {SECONDS}")
        left.ask("event inside=1")
        left.ask("send inside=0", "recorded left-1")
        right.ask("receive left-1 inside=1")
        left.ask("end")
        right.ask("end")
        see_text(running.stdout.read().decode(), REPORT)


def served_with_a_strand(players, folder):
    """a session with a strand that `serve` judges"""
    if not judged.has_program():
        return
    running, port = server(folder, STRANDED)
    left = players.of("left")
    with running, contextlib.ExitStack() as at_end:
        at_end.callback(running.kill)
        left.ask(f"port left {port} {SECONDS}")
        left.ask("strand worker")
        left.ask("event x=1")
        left.ask("in worker event x=1")
        left.ask("in worker end")
        left.ask("join worker x=0")
        left.ask("end")
        report = running.stdout.read().decode()
        see(report.startswith(STRANDED_REPORT), f"the report is\n{report}and not\n{STRANDED_REPORT}")


TRIALS = [with_threads, with_strands, with_many_strands, by_the_environment, with_noted_threads, for_a_lock,
          killed_at_rest, killed_at_work, killed_with_notes, killed_and_started_again, started_beside_itself,
          lines_as_they_are_recorded,
          strand_over_a_connection, without_an_end_over_a_connection, to_a_place, with_a_token, with_what_is_no_token,
          to_a_socket_that_comes_later,
          killed_over_a_connection, gone, nobody_listens, listens_later, reads_late, at_the_limit_of_a_files_size,
          notes_at_the_limit_of_a_files_size, interrupted_by_signals, served, served_with_a_strand]
