#!/usr/bin/env python3
"""threads.py PROGRAM [RUNS]: how the time of a session with eight streams falls with the cores.

Each generated session runs as a bundle, and by `judge` from a file for each stream, on 1, 2 and so on cores up to those
of the machine. Printed are the least seconds, the seconds on one core over them, and the peak memory. Each round runs
everything once, so that the runs of one round share what else the machine does. It needs `taskset`."""
import os
import subprocess
import sys
import tempfile

import peak

HERE = os.path.dirname(os.path.abspath(__file__))
SESSIONS = ["streams", "messages"]


def run(arguments, bundle, cores):
    """The seconds and the peak memory in bytes of one run on these cores."""
    chosen = ",".join(str(core) for core in cores)
    status, _, seconds, memory = peak.run(["taskset", "-c", chosen, *arguments], bundle or os.devnull)
    if status != 0:
        raise SystemExit(f"{arguments}: status {status}")
    return seconds, memory


def generate(name, folder):
    """Writes a session as a bundle and as files: the bundle, and the document with the streams."""
    bundle, files = os.path.join(folder, name), []
    with open(bundle, "wb") as out:
        subprocess.run([sys.executable, os.path.join(HERE, "generate.py"), name], stdout=out, check=True)
    out = None
    with open(bundle, "rb") as opened:
        for line in opened:
            if out is None or line == b"---\n":
                files.append(os.path.join(folder, f"{name}-{len(files)}"))
                out = open(files[-1], "wb")
            if line != b"---\n":
                out.write(line)
    out.close()
    return bundle, files


def main():
    program = os.path.abspath(sys.argv[1])
    runs = int(sys.argv[2]) if len(sys.argv) > 2 else 5
    cores = sorted(os.sched_getaffinity(0))
    counts = [count for count in (1, 2, 4, 8) if count <= len(cores)]
    with tempfile.TemporaryDirectory() as folder:
        ways = {}
        for name in SESSIONS:
            bundle, files = generate(name, folder)
            ways[name, "bundle"] = ([program], bundle)
            ways[name, "judge"] = ([program, "judge", *files], None)
        results = {(way, count): [] for way in ways for count in counts}
        for _ in range(runs):
            for way, count in results:
                results[way, count].append(run(*ways[way], cores[:count]))
    for way in ways:
        alone = min(seconds for seconds, _ in results[way, 1])
        for count in counts:
            seconds = min(seconds for seconds, _ in results[way, count])
            memory = max(memory for _, memory in results[way, count])
            print(f"{way[0]} by {way[1]}, {count} cores: {seconds:.3f} s, {alone / seconds:.2f} times as fast as on one, "
                  f"peak {memory / 1e6:.1f} MB")


main()
