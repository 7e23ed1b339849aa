#!/usr/bin/env python3
"""killed.py [PROGRAM] [--times N] [--seed S]: a server that is killed at any moment leaves what `judge` takes, once the
streams are ended. PROGRAM is crates/monitor/out/monitor if it isn't given.

A server keeps its session (`serve --keep`) while two processes send their streams in pieces, and is killed 100 times,
if no other number is given, each time at another moment, from before it listens until after its end. Then each file of
a stream has to be a prefix of what its process sent, and the document that of the session; no other file may be there
but a prefix of the report. The streams are ended by `monitor_mend`, and `judge` has to judge them, or to miss the
process that had sent nothing. The last line says how many servers were killed, how many of them with a stream cut
short, and how many left something else; the status is 1 if any did, or if none was killed in the middle.
"""
import argparse
import contextlib
import os
import random
import shutil
import subprocess
import sys
import tempfile
import threading
import time

import listening

TOP = os.path.dirname(os.path.dirname(os.path.abspath(__file__)))
MEND = os.path.join(TOP, "recorders", "python", "monitor_mend.py")
DOCUMENT = (b'{"processes":[{"name":"a","vars":{"x":0}},{"name":"b","vars":{"y":0}}],'
            b'"predicates":[{"name":"both","text":"a.x == 1 and b.y == 1"}]}')
EVENTS = 40
SENT = {
    "a": b'{"process":"a"}\n' + b"".join(b'{"set":{"x":%d}}\n' % (n % 2) for n in range(EVENTS)) + b'{"end":true}\n',
    "b": b'{"process":"b"}\n' + b"".join(b'{"set":{"y":%d}}\n' % (n % 3) for n in range(EVENTS)) + b'{"end":true}\n',
}
# How long a session takes at least, and the latest moment at which a server is killed, in seconds.
LENGTH, LATEST = 0.06, 0.12
SECONDS = 60


def contents(path):
    with open(path, "rb") as file:
        return file.read()


def send(server, port, stream, pieces):
    """Sends a stream in pieces, as long as somebody takes it."""
    with contextlib.suppress(OSError), listening.connect(server, port) as connection:
        for piece in range(pieces):
            connection.sendall(stream[len(stream) * piece // pieces:len(stream) * (piece + 1) // pieces])
            time.sleep(LENGTH / pieces)


def kill_one(program, folder, moment, pieces):
    """Starts a server that keeps its session in the folder, and kills it after so many seconds."""
    document = folder + ".json"
    with open(document, "wb") as file:
        file.write(DOCUMENT)
    port = listening.free_ports(2)
    server = subprocess.Popen([program, "serve", document, "--port", str(port), "--keep", folder],
                              stdout=subprocess.DEVNULL, stderr=subprocess.DEVNULL)
    clients = [threading.Thread(target=send, args=(server, port, stream, pieces)) for stream in SENT.values()]
    for client in clients:
        client.start()
    time.sleep(moment)
    server.kill()
    server.wait()
    for client in clients:
        client.join()


def process_of(name, kept):
    """The process whose stream a file has, by its name or its first line; None if it isn't known, as of no line."""
    stem = name.removesuffix(".stream")
    if stem in SENT:
        return stem
    return next((process for process, stream in SENT.items() if kept and stream.startswith(kept[:16])), None)


def wrong_files(folder, names):
    """What is wrong with the kept files."""
    for name in names:
        kept = contents(os.path.join(folder, name))
        if name == "session.json":
            if not DOCUMENT.startswith(kept):
                yield f"{name} isn't the document"
        elif name.endswith(".stream"):
            process = process_of(name, kept)
            if kept and (process is None or not SENT[process].startswith(kept)):
                yield f"{name} isn't a prefix of what was sent"
        elif name != "report":
            yield f"{name} is there"


def judged(program, folder, names):
    """What is wrong with the judgement of the kept session once its streams are ended. A stream without a whole first
    line is nobody's, and left out."""
    streams = [name for name in names if name.endswith(".stream") and b"\n" in contents(os.path.join(folder, name))]
    if contents(os.path.join(folder, "session.json")) != DOCUMENT or not streams:
        return None
    whole = os.path.join(folder, "whole")
    os.mkdir(whole)
    for name in streams:
        shutil.copy(os.path.join(folder, name), whole)
    mended = os.path.join(folder, "mended")
    ran = subprocess.run([sys.executable, MEND, "--out", mended, whole], capture_output=True, timeout=SECONDS,
                         check=False)
    if ran.returncode != 0:
        return f"monitor_mend: {ran.stderr.decode()}"
    files = [os.path.join(mended, name) for name in sorted(os.listdir(mended))]
    ran = subprocess.run([program, "judge", os.path.join(folder, "session.json"), *files], capture_output=True,
                         timeout=SECONDS, check=False)
    wanted = (0, b"session 2 processes") if len(files) == len(SENT) else (1, b"refused absent ")
    if ran.returncode != wanted[0] or not ran.stdout.startswith(wanted[1]):
        return f"judge ends with {ran.returncode}: {ran.stdout.decode()}{ran.stderr.decode()}"
    if "report" in names and not ran.stdout.startswith(contents(os.path.join(folder, "report"))):
        return "the report isn't a prefix of that of judge"
    return None


def look(program, folder):
    """Whether a stream was cut short, and what is wrong with what a killed server left."""
    names = sorted(os.listdir(folder)) if os.path.isdir(folder) else []
    wrong = list(wrong_files(folder, names))
    cut = any(name.endswith(".stream") and not contents(os.path.join(folder, name)).endswith(b'{"end":true}\n')
              for name in names)
    if not wrong and "session.json" in names:
        said = judged(program, folder, names)
        wrong += [said] if said else []
    return cut, wrong


def main():
    parser = argparse.ArgumentParser(description=__doc__, formatter_class=argparse.RawDescriptionHelpFormatter)
    parser.add_argument("program", nargs="?", default=os.path.join(TOP, "crates", "monitor", "out", "monitor"))
    parser.add_argument("--times", type=int, default=100)
    parser.add_argument("--seed", type=int, default=1)
    given = parser.parse_args()
    program, chance = os.path.abspath(given.program), random.Random(given.seed)
    cuts = bad = 0
    with tempfile.TemporaryDirectory() as top:
        for number in range(given.times):
            folder = os.path.join(top, str(number))
            kill_one(program, folder, chance.uniform(0, LATEST), chance.randint(1, 60))
            cut, wrong = look(program, folder)
            cuts, bad = cuts + cut, bad + bool(wrong)
            for text in wrong:
                print(f"killed: server {number}: {text}")
    print(f"killed: {given.times} servers, {cuts} with a stream cut short, {bad} wrong")
    return 1 if bad or cuts == 0 else 0


if __name__ == "__main__":
    sys.exit(main())
