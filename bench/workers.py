#!/usr/bin/env python3
"""workers.py PROGRAM: sees that `--workers` reaches the walk, by the threads that a run starts.

Each session of `../cases/workers.toml`, whose levels have so many cuts that workers share them, is judged, explored and
served by several numbers of workers. More workers have to start more threads, and to write the same. The threads that
read the streams are as many for each of them. How many there are is counted by `refusals.py`, so no time is looked at.
The status is 1 if a number of workers starts no more threads than a smaller one, or writes something else. It needs
gcc."""
import os
import sys
import tempfile

import refuse_each
from refusals import make_shim

HERE = os.path.dirname(os.path.abspath(__file__))
CASES = os.path.join(HERE, "..", "cases")
sys.path.insert(0, CASES)
from run import cases_of, data  # noqa: E402

WORKERS = (1, 2, 3, 16)


def sessions(folder):
    """Of each session its name, the document's file, those of its streams, and what these have."""
    for place, (_, case) in enumerate(cases_of(os.path.join(CASES, "workers.toml"))):
        parts = [data(part) for part in [case["document"], *case["streams"]]]
        files = [os.path.join(folder, f"{place}-{number}") for number in range(len(parts))]
        for file, part in zip(files, parts):
            with open(file, "wb") as out:
                out.write(part)
        yield case["name"], files[0], files[1:], parts[1:]


def started(program, command, document, files, streams, workers, folder):
    """How a run by this many workers ends, and how many threads it starts."""
    arguments = [program, command, document, "--workers", str(workers)]
    if command == "serve":
        ended, threads = refuse_each.serve(arguments, streams, folder, 0, "thread")
    else:
        ended, threads = refuse_each.run([*arguments, *files], b"", folder, 0, "thread")
    return ended[:3], threads


def is_right(program, name, command, session, folder):
    """Whether each number of workers starts more threads than the one before, and writes the same."""
    runs = [started(program, command, *session, workers, folder) for workers in WORKERS]
    threads = [count for _, count in runs]
    right = all(fewer < more for fewer, more in zip(threads, threads[1:])) and len({ended for ended, _ in runs}) == 1
    counts = ", ".join(f"{count} by {workers}" for workers, count in zip(WORKERS, threads))
    print(f"{command}: {name}: threads started: {counts}{'' if right else ': WRONG'}", flush=True)
    return right and runs[0][0][0] == 0


def main():
    program = os.path.abspath(sys.argv[1])
    with tempfile.TemporaryDirectory() as folder:
        make_shim(folder)
        found = [is_right(program, name, command, session, folder) for name, *session in sessions(folder)
                 for command in ("judge", "explore", "serve")]
    print(f"workers: {len(found)} runs, {found.count(False)} differ")
    sys.exit(0 if all(found) else 1)


if __name__ == "__main__":
    main()
