#!/usr/bin/env python3
"""fuzz.py [PROGRAM] [--seconds N] [--seed N] [--target NAME] [--jobs N] [--found FOLDER]: gives the program damaged
inputs, and looks for a crash, a run without an end, and a status or an output that the formats don't have.
fuzz.py [PROGRAM] --one NAME:NUMBER [--seed N]: makes this input again, and says what it comes to.

Sessions of cases/ are damaged: bytes, words, numbers, lines and parts of other sessions. PROGRAM is
crates/monitor/out/monitor if it isn't given. The targets, each for N seconds on one of the jobs (30 if not given):

    bundle     a bundle on the standard input; one that is refused or judged has the report that a bundle can have
    explained  the same with --explain: what is said has no byte that a terminal obeys
    check      a report, true or damaged; of a true one no evidence is bad
    explore    the document and the streams: a page whose scripts are the page's own
    draw       the same and a report: a picture that is XML, or what stands against it
    batch      sessions in lines: a line of each, the one that `judge` would write, or why it is no session
    bundles    sessions in bundles: what `batch` writes of the lines that monitor_lines.py makes of them
    merge      answers and summaries: the same summary however they are shared, or the first line that is neither
    importers  the importers, monitor_mend, monitor_infer and monitor_reduce: a session or a named refusal, and no
               other exception

The number of an input and the seed say all of it. What goes wrong is printed and kept in FOLDER (fuzz-found if not
given), with its files and the command. The last line counts inputs and what went wrong; the status is 1 if anything
did. bench/fuzz_afl.py builds and runs the program under AFL++ and with sanitizers."""
import argparse
import collections
import concurrent.futures
import os
import sys
import tempfile
import time

import fuzz_importers
import fuzz_inputs
import fuzz_lines
import fuzz_program

DEFAULT = os.path.join(fuzz_inputs.ROOT, "crates", "monitor", "out", "monitor")
TARGETS = {**fuzz_program.TARGETS, **fuzz_lines.TARGETS, "importers": fuzz_importers.Importers}
# So many failures of a target are enough.
MOST_WRONG = 5


def keep(found, name, seed, number, trial, why):
    """Keeps an input that goes wrong: its files, and how it was run."""
    folder = os.path.join(found, f"{name}-{seed}-{number}")
    os.makedirs(folder, exist_ok=True)
    for file, text in trial.files.items():
        with open(os.path.join(folder, file), "wb") as out:
            out.write(text)
    with open(os.path.join(folder, "command"), "w", encoding="utf-8") as out:
        out.write(f"{trial.command}\n{why}\n")
    return folder


def fuzz(name, program, seed, seconds, found):
    """How many inputs of a target there were, by what they came to, and what went wrong."""
    last = time.monotonic() + seconds
    counts, wrong, number = collections.Counter(), [], 0
    with tempfile.TemporaryDirectory() as folder:
        target = TARGETS[name](program, folder)
        while time.monotonic() < last and len(wrong) < MOST_WRONG:
            trial = target.trial(seed, number)
            kind, why = target.look(trial)
            counts[kind] += 1
            if why:
                kept = keep(found, name, seed, number, trial, why)
                wrong.append(f"{name}: {why}: kept in {kept}; again by --one {name}:{number} --seed {seed}")
            number += 1
    return name, counts, wrong


def one(given):
    """Makes an input again. The status."""
    name, _, number = given.one.partition(":")
    with tempfile.TemporaryDirectory() as folder:
        target = TARGETS[name](given.program, folder)
        trial = target.trial(given.seed, int(number))
        kind, why = target.look(trial)
        for file, text in trial.files.items():
            print(f"{file}: {text!r}")
        print(f"{trial.command}\n{kind}: {why or 'as it may'}")
    return 1 if why else 0


def arguments():
    parser = argparse.ArgumentParser(description=__doc__, formatter_class=argparse.RawDescriptionHelpFormatter)
    add = parser.add_argument
    add("program", nargs="?", default=DEFAULT)
    add("--seconds", type=float, default=30)
    add("--seed", type=int, default=1)
    add("--target", choices=TARGETS, action="append")
    add("--jobs", type=int, default=os.cpu_count())
    add("--found", default="fuzz-found")
    add("--one", metavar="NAME:NUMBER")
    given = parser.parse_args()
    given.program = os.path.abspath(given.program)
    return given


def main():
    given = arguments()
    if given.one:
        return one(given)
    fuzz_inputs.words_of_sessions()  # once, before there are several of this program
    with concurrent.futures.ProcessPoolExecutor(given.jobs) as pool:
        runs = [pool.submit(fuzz, name, given.program, given.seed, given.seconds, given.found)
                for name in given.target or TARGETS]
        results = [run.result() for run in runs]
    for name, counts, wrong in results:
        print(f"{name}: " + ", ".join(f"{kind} {count}" for kind, count in sorted(counts.items())))
        print("".join(f"{line}\n" for line in wrong), end="")
    total, bad = sum(sum(counts.values()) for _, counts, _ in results), sum(len(wrong) for _, _, wrong in results)
    print(f"fuzz: {total} inputs by seed {given.seed}, {bad} wrong")
    return 1 if bad else 0


if __name__ == "__main__":
    sys.exit(main())
