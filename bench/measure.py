#!/usr/bin/env python3
"""measure.py PROGRAM [RUNS]: runs the program on the generated bundles and prints the least time and the peak memory.

Seconds are those of the whole program, from its start to its end, with nothing taken off. In `messages` and `locals`
the walk ends at the empty cut, so events a second go from bytes to the built computation. The two have lines of the
same lengths, so the last line says what matching and building over messages cost beside reading. It is no exact part:
a computation is built over local events too, and an event that sets a variable keeps a number where one with a
message keeps its id.

Each round runs every session once, so that the sessions of one round share what else the machine does. The machine may
be shared, so compare figures of one call with each other, not with those of another call."""
import os
import subprocess
import sys
import tempfile

import peak

HERE = os.path.dirname(os.path.abspath(__file__))
EVENTS = 8 * 10000
WALKS = ["lattice", "terms", "avoiding"]
SESSIONS = WALKS + ["streams", "messages", "locals"]


def run(program, path):
    """The seconds and the peak memory in bytes of one run."""
    status, _, seconds, memory = peak.run([program], path)
    if status != 0:
        raise SystemExit(f"{path}: status {status}")
    return seconds, memory


def line(name, size, seconds, memory):
    """The figures of one session."""
    text = f"{name}: {size / 1e6:.1f} MB in, {seconds:.3f} s, peak {memory / 1e6:.1f} MB"
    if name in WALKS:
        return text
    text += f", {size / 1e6 / seconds:.1f} MB/s"
    return text + f", {EVENTS / seconds / 1e3:.0f} thousand events a second"


def main():
    program = os.path.abspath(sys.argv[1])
    runs = int(sys.argv[2]) if len(sys.argv) > 2 else 3
    with tempfile.TemporaryDirectory() as folder:
        paths = {name: os.path.join(folder, name) for name in SESSIONS}
        for name, path in paths.items():
            with open(path, "wb") as out:
                subprocess.run([sys.executable, os.path.join(HERE, "generate.py"), name], stdout=out, check=True)
        results = {name: [] for name in SESSIONS}
        for _ in range(runs):
            for name, path in paths.items():
                results[name].append(run(program, path))
        sizes = {name: os.path.getsize(path) for name, path in paths.items()}
    seconds = {name: min(result[0] for result in results[name]) for name in SESSIONS}
    memory = {name: max(result[1] for result in results[name]) for name in SESSIONS}
    for name in SESSIONS:
        print(line(name, sizes[name], seconds[name], memory[name]))
    more = seconds["messages"] - seconds["locals"]
    print(f"messages beside locals: {more:+.3f} s, {more / EVENTS * 1e9:+.0f} ns an event, "
          f"peak {(memory['messages'] - memory['locals']) / 1e6:+.1f} MB")


main()
