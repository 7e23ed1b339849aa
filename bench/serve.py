#!/usr/bin/env python3
"""serve.py PROGRAM [RUNS]: how fast `serve` takes the streams of eight processes, beside `judge` from files.

Each of eight processes sends a stream of 10,000 events in lines of 600 bytes, 6 MB, in pieces of 65,536 bytes. Printed
are the least seconds of some runs and the megabytes a second: of `judge`, from the program's start to its end; of
`serve`, from the time at which all clients are connected to the program's end. Each round runs both once, so that they
share what else the machine does."""
import json
import multiprocessing
import os
import subprocess
import sys
import tempfile
import time

sys.path.append(os.path.join(os.path.dirname(os.path.abspath(__file__)), "..", "cases"))
import listening  # noqa: E402

PROCESSES, EVENTS, LINE, PIECE = 8, 10_000, 600, 65_536


def write_session(folder):
    """Writes the document and the streams, and gives their paths."""
    names = [f"p{i}" for i in range(PROCESSES)]
    variables = {f"v{k}": 0 for k in range(16)}
    paths = [os.path.join(folder, "session.json")]
    with open(paths[0], "w", encoding="utf-8") as out:
        json.dump({"processes": [{"name": name, "vars": variables} for name in names],
                   "predicates": [{"name": "start", "text": "p0.v0 == 0"}]}, out)
    for name in names:
        paths.append(os.path.join(folder, name))
        with open(paths[-1], "w", encoding="utf-8") as out:
            out.write(json.dumps({"process": name}) + "\n")
            for event in range(EVENTS):
                line = json.dumps({"set": {variable: event for variable in variables}})
                out.write(line.ljust(LINE - 1) + "\n")
            out.write(json.dumps({"end": True}) + "\n")
    return paths


def send(path, connection, ready):
    """One client: it waits for the others, and sends its stream."""
    with open(path, "rb") as stream:
        data = stream.read()
    with connection:
        ready.wait()
        for place in range(0, len(data), PIECE):
            connection.sendall(data[place:place + PIECE])


def judge(program, paths):
    start = time.perf_counter()
    done = subprocess.run([program, "judge", *paths], stdout=subprocess.PIPE, check=True)
    return time.perf_counter() - start, done.stdout


def serve(program, paths):
    port = listening.free_ports(1)
    ready = multiprocessing.Barrier(PROCESSES + 1)
    server = subprocess.Popen([program, "serve", paths[0], "--port", str(port)], stdout=subprocess.PIPE)
    clients = []
    for path in paths[1:]:
        with listening.connect(server, port) as connection:
            clients.append(multiprocessing.Process(target=send, args=(path, connection, ready)))
            clients[-1].start()
    ready.wait()
    start = time.perf_counter()
    text, _ = server.communicate()
    seconds = time.perf_counter() - start
    for client in clients:
        client.join()
    if server.returncode != 0:
        raise SystemExit(f"serve: status {server.returncode}")
    return seconds, text


def main():
    program = os.path.abspath(sys.argv[1])
    runs = int(sys.argv[2]) if len(sys.argv) > 2 else 5
    with tempfile.TemporaryDirectory() as folder:
        paths = write_session(folder)
        size = sum(os.path.getsize(path) for path in paths[1:])
        ways = {"judge": judge, "serve": serve}
        results = {name: [] for name in ways}
        for _ in range(runs):
            for name, way in ways.items():
                results[name].append(way(program, paths))
    if len({text for found in results.values() for _, text in found}) != 1:
        raise SystemExit("the reports differ")
    for name, found in results.items():
        seconds = min(seconds for seconds, _ in found)
        print(f"{name}: {size / 1e6:.1f} MB from {PROCESSES} streams, {seconds:.3f} s, {size / 1e6 / seconds:.1f} MB/s")


if __name__ == "__main__":
    main()
