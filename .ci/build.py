#!/usr/bin/env python3
"""./x build [-j N]: proves and builds the program, and judges the stored session with it.
./x build --unproved [OUT]: builds it in two to three minutes without its proofs, for those who want to try it first.

The first proves all that the program stands on, side by side, with a line for each crate, and then builds
crates/monitor/out/monitor. It is the gate, `rt ci`, on a copy that has these crates alone, without the edits that must
fail. What is proved is kept on this machine, so the next call, and the gate, prove only what has changed. The second
writes crates/monitor/out/monitor-unproved, or OUT: it reads and writes the same, and its help says that it isn't proved.
"""
import argparse
import os
import re
import shutil
import subprocess
import sys
import tempfile
import time

sys.dont_write_bytecode = True
import layout  # noqa: E402
import verdict  # noqa: E402

ROOT = layout.ROOT
CRATE = os.path.join(ROOT, "crates", "monitor")
HEAD = re.compile(r"== \w")
PROVED = re.compile(r"rt: (\w+) (proved$|is kept: )")
NOT_PROVED = re.compile(r"rt: \w+ NOT PROVED")


def copy_crates(to):
    """Copies the crates that the program stands on, and gives how many there are."""
    direct = layout.libraries()
    names = [*layout.below("monitor", direct), "monitor"]
    shutil.copy2(os.path.join(ROOT, "HANDLES"), to)
    with open(os.path.join(to, "crates.txt"), "w", encoding="utf-8") as file:
        file.writelines(f"{name}: {' '.join(direct[name])}\n" for name in names)
    for name in names:
        shutil.copytree(os.path.join(ROOT, "crates", name), os.path.join(to, "crates", name),
                        ignore=lambda at, _: {"out", "edits", "must-fail"} if os.path.basename(at) == name else set())
    return len(names)


def prove(folder, count, jobs):
    """What `rt` said, if each crate of a copy is proved and the program runs as it should. Shows a line for each crate,
    and what `rt` says of one that isn't proved."""
    start, done, said, log = time.time(), 0, [], []
    environment = {**os.environ, **({"RT_JOBS": jobs} if jobs else {})}
    with subprocess.Popen(["rt", "ci"], cwd=folder, env=environment, text=True, errors="replace",
                          stdout=subprocess.PIPE, stderr=subprocess.STDOUT) as run:
        for line in run.stdout:
            log.append(line)
            found = PROVED.match(line)
            said = [line] if HEAD.match(line) else [*said, line]
            if found:
                done += 1
                print(f"{found[1]}: proved, {count - done} left, after {time.time() - start:.0f} s", flush=True)
            elif NOT_PROVED.match(line):
                sys.stdout.writelines(said)
            if found or NOT_PROVED.match(line):
                said = []
    if run.returncode:
        sys.stdout.writelines(said)
        return None
    return "".join(log)


def build_proved(program, jobs):
    os.makedirs(os.path.dirname(program), exist_ok=True)
    with tempfile.TemporaryDirectory(prefix="monitor-build-") as folder:
        log = prove(folder, copy_crates(folder), jobs)
        if log is None:
            return 1
        shutil.copy2(os.path.join(folder, "crates", "monitor", "out", "monitor"), program)
        verdict.keep(program, log)
    return 0


def build_unproved(program):
    os.makedirs(os.path.dirname(program), exist_ok=True)
    return subprocess.run([sys.executable, os.path.join(ROOT, "bench", "unproved.py"), program], check=False).returncode


def judge_stored(program):
    """Judges the stored session, and says whether the report is the stored one."""
    with open(os.path.join(CRATE, "stdin"), "rb") as bundle, open(os.path.join(CRATE, "stdout"), "rb") as file:
        report = subprocess.run([program], stdin=bundle, stdout=subprocess.PIPE, check=False).stdout
        stored = file.read()
    sys.stdout.write(report.decode())
    print("build: this is the stored report" if report == stored else "build: THIS IS NOT THE STORED REPORT")
    return report == stored


def main():
    parser = argparse.ArgumentParser(description=__doc__, formatter_class=argparse.RawDescriptionHelpFormatter)
    parser.add_argument("-j", metavar="N", help="crates at once, if not as many as there are processors")
    parser.add_argument("--unproved", nargs="?", const=os.path.join(CRATE, "out", "monitor-unproved"), metavar="OUT")
    given = parser.parse_args()
    program = os.path.abspath(given.unproved or os.path.join(CRATE, "out", "monitor"))
    if not shutil.which("rt"):
        sys.exit("build: the command rt isn't found: the Rattle kit has it")
    try:
        status = build_unproved(program) if given.unproved else build_proved(program, given.j)
    except KeyboardInterrupt:
        sys.exit(130)
    if status:
        sys.exit(status)
    print(f"build: {os.path.relpath(program)} is built, and judges crates/monitor/stdin:", flush=True)
    sys.exit(0 if judge_stored(program) else 1)


if __name__ == "__main__":
    main()
