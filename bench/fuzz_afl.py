#!/usr/bin/env python3
"""fuzz_afl.py build FOLDER [--variant NAME]: builds the program with coverage for AFL++ (afl), with AddressSanitizer
(address) and with ThreadSanitizer (thread), or those that are named, from its LLVM module with the kit's compiler. The
module is made once.
fuzz_afl.py run FOLDER [--seconds N] [--target NAME]: gives each target so many seconds of AFL++ (60 if not given), and
the inputs that AFL++ has kept, at most 200 of a target, to the other two programs, if they are built.
fuzz_afl.py gate: builds the programs in a folder that is removed, gives the targets a minute of AFL++ in all, and the
other two programs a minute each at most of the inputs that it kept, the last ones first. Without clang-14 only the
program for AFL++ is built.

Nothing of these is proved; they are built as by bench/unproved.py. The targets: `bundle`, a bundle on the standard
input; `check`, a report; `explore` and `draw`, a stream; `notes`, a file of notes for an explanation; `infer`, a
stream; `batch`, sessions in lines; and `merge`, answers and summaries. Seeds and a dictionary are made of cases/. What
is wrong is an input that crashes the program, and does so again if it is tried once more, for which it doesn't end in
two minutes, or at which a sanitizer says something; it is kept in FOLDER, or in fuzz-found by the gate, and the status
is 1 if there is any. It needs Debian's afl++ and, for the two sanitizers, clang-14, whose runtimes are linked. The
importers, which are in Python, are a target of bench/fuzz.py (bench/fuzz_importers.py)."""
import argparse
import concurrent.futures
import glob
import json
import os
import re
import shutil
import subprocess
import sys
import tempfile
import time
import tomllib

import fuzz_inputs
import unproved

COVERAGE = "/usr/lib/afl/afl-compiler-rt-64.o"
# What each program is compiled and linked with, and the attribute that its functions need for that.
VARIANTS = {"afl": ("-fsanitize-coverage=trace-pc-guard", ["cc", COVERAGE, "-ldl", "-lrt"], None),
            "address": ("-fsanitize=address", ["clang-14", "-fsanitize=address"], "sanitize_address"),
            "thread": ("-fsanitize=thread", ["clang-14", "-fsanitize=thread"], "sanitize_thread")}
FLAGS = ["--target=x86_64-unknown-linux-gnu", "-march=x86-64", "-ffunction-sections", "-fdata-sections", "-fPIE", "-O1"]
FUNCTIONS = re.compile(r"^attributes #\d+ = \{(?=.*target-cpu)")
# The runtime for threads of clang-14 has no such functions, which a later compiler calls.
COPIES = """
#include <string.h>
void *__tsan_memcpy(void *to, const void *from, size_t size) { return memcpy(to, from, size); }
void *__tsan_memmove(void *to, const void *from, size_t size) { return memmove(to, from, size); }
void *__tsan_memset(void *to, int byte, size_t size) { return memset(to, byte, size); }
"""
EXAMPLE = os.path.join(unproved.ROOT, "examples", "ten-lines")
DOCUMENT, LEFT, RIGHT = (os.path.join(EXAMPLE, name) for name in ("session.json", "left.stream", "right.stream"))
# The words of each target; @@ stands for the input's file, and without it the input comes on the standard input.
TARGETS = {"bundle": [], "check": ["check", DOCUMENT, "@@", LEFT, RIGHT], "explore": ["explore", DOCUMENT, LEFT, "@@"],
           "draw": ["draw", DOCUMENT, LEFT, "@@"],
           "notes": ["judge", "--explain", "--notes", "@@", DOCUMENT, LEFT, RIGHT], "infer": ["infer", LEFT, "@@"],
           "batch": ["batch"], "merge": ["merge"]}
SEEDS = 60
# In the gate each target has fewer seeds, which AFL++ runs several times each before it begins, and so many seconds of
# each program.
GATE_SEEDS, GATE_SECONDS = 12, 7
FOUND = "fuzz-found"
# The statuses that a run may have; a sanitizer that says something ends it with another one.
STATUSES, SAID = range(6), 99
# So many of the inputs that were kept are given to the other programs, which may take so many seconds for each.
KEPT, SECONDS = 200, 120


def build_one(name, plain, folder):
    """Compiles and links one of the programs, in files of its own."""
    flag, (linker, *with_it), attribute = VARIANTS[name]
    module, code = plain, os.path.join(folder, f"{name}.o")
    if attribute:
        module = os.path.join(folder, f"{name}.ll")
        with open(plain, encoding="utf-8", errors="surrogateescape") as lines, \
                open(module, "w", encoding="utf-8", errors="surrogateescape") as out:
            for line in lines:
                out.write(FUNCTIONS.sub(lambda found: f"{found[0]} {attribute}", line))
    subprocess.run([unproved.CLANG, *FLAGS, flag, "-c", "-x", "ir", module, "-o", code], check=True,
                   stderr=subprocess.DEVNULL)
    copies = os.path.join(folder, "copies.c")
    with open(copies, "w", encoding="utf-8") as out:
        out.write(COPIES)
    subprocess.run([linker, "-pie", "-Wl,--gc-sections", "-o", os.path.join(folder, f"monitor-{name}"), code,
                    *([copies] if name == "thread" else []), *unproved.C_LIBRARIES, *with_it, "-lpthread", "-lm"],
                   check=True)
    os.unlink(code)
    if attribute:
        os.unlink(module)


def build(folder, variants):
    os.makedirs(folder, exist_ok=True)
    with tempfile.TemporaryDirectory(prefix="monitor-fuzz-") as made:
        plain = unproved.plain_module(unproved.PROGRAM, made)
        with concurrent.futures.ThreadPoolExecutor(3) as pool:
            for done in [pool.submit(build_one, name, plain, folder) for name in variants]:
                done.result()


def notes_of(session):
    """Notes on the first events of the example's processes, and on one that there isn't."""
    text = session.document.decode("latin-1")[:60]
    return "".join(json.dumps({"process": process, "event": number, "text": text, "place": f"a.c:{number}"})
                   + "\n" for process in ("left", "right", "up") for number in (1, 2)).encode()


def lines_for(command):
    """The inputs of the runs of a command in the cases of sessions in lines."""
    with open(os.path.join(unproved.ROOT, "cases", "batch.toml"), "rb") as file:
        runs = tomllib.load(file)["run"]
    return [fuzz_inputs.data(run["input"]) for run in runs if run["words"][0] == command and "input" in run]


def write_seeds(folder, most):
    """Writes the seeds of each target, no more than so many, and the dictionary."""
    sessions = fuzz_inputs.sessions()
    streams = [stream for session in sessions for stream in session.streams]
    with open(RIGHT, "rb") as file:
        streams.append(file.read())
    texts = {"bundle": [session.bundle() for session in sessions], "check": [session.report for session in sessions],
             "explore": streams, "draw": streams, "infer": streams, "notes": [notes_of(one) for one in sessions],
             "batch": lines_for("batch"), "merge": lines_for("merge")}
    for target, inputs in texts.items():
        shutil.rmtree(os.path.join(folder, f"seeds-{target}"), ignore_errors=True)
        os.makedirs(os.path.join(folder, f"seeds-{target}"))
        for number, text in enumerate(sorted(set(inputs), key=len)[:: max(1, len(set(inputs)) // most)][:most]):
            with open(os.path.join(folder, f"seeds-{target}", str(number)), "wb") as out:
                out.write(text or b"\n")
    with open(os.path.join(folder, "dictionary"), "w", encoding="ascii") as out:
        for word in fuzz_inputs.words_of_sessions()[:500]:
            out.write('"' + "".join(f"\\x{byte:02x}" for byte in word) + '"\n')


def ends(folder, variant, target, path, more=()):
    """The status of a program for this input, or none if it doesn't end in time; with more settings of its own."""
    words = [path if word == "@@" else word for word in TARGETS[target]]
    # With threads it is given several workers, or several jobs.
    if variant == "thread" and ("explore" in words or "judge" in words):
        words += ["--workers", "3"]
    if variant == "thread" and "batch" in words:
        words += ["--jobs", "3"]
    command = [os.path.join(folder, f"monitor-{variant}"), *words]
    try:
        with open(path, "rb") as given:
            ran = subprocess.run(["setarch", "-R", *command] if more else command, stdin=given, capture_output=True,
                                 env={**os.environ, **dict(more)}, timeout=SECONDS, check=False)
    except subprocess.TimeoutExpired:
        return None
    return ran.returncode


def fuzz(folder, target, seconds):
    """How often AFL++ ran the program, what it kept, and what crashed or didn't end, and did so again."""
    to = os.path.join(folder, f"found-{target}")
    shutil.rmtree(to, ignore_errors=True)
    settings = {"AFL_SKIP_CPUFREQ": "1", "AFL_I_DONT_CARE_ABOUT_MISSING_CRASHES": "1", "AFL_NO_UI": "1",
                "AFL_NO_AFFINITY": "1", "AFL_FAST_CAL": "1"}
    words = ["afl-fuzz", "-i", os.path.join(folder, f"seeds-{target}"), "-o", to, "-x",
             os.path.join(folder, "dictionary"), "-V", str(seconds), "-t", "5000+", "-m", "none", "--",
             os.path.join(folder, "monitor-afl"), *TARGETS[target]]
    ran = subprocess.run(words, env={**os.environ, **settings}, capture_output=True, text=True, check=False)
    queue = sorted(glob.glob(os.path.join(to, "default", "queue", "id*")))
    seen = glob.glob(os.path.join(to, "default", "crashes", "id*")) + \
        glob.glob(os.path.join(to, "default", "hangs", "id*"))
    if not queue:
        sys.exit(f"fuzz_afl.py: AFL++ has kept nothing:\n{ran.stdout[-2000:]}{ran.stderr[-2000:]}")
    with open(os.path.join(to, "default", "fuzzer_stats"), encoding="utf-8") as file:
        runs = re.search(r"execs_done\s*: (\d+)", file.read())[1]
    return runs, queue, [path for path in seen if (status := ends(folder, "afl", target, path)) is None or status < 0]


def is_silent(folder, variant, target, path):
    """Whether a sanitizer says nothing of this input."""
    more = {"ASAN_OPTIONS": f"detect_leaks=0:exitcode={SAID}", "TSAN_OPTIONS": f"exitcode={SAID}"}
    return ends(folder, variant, target, path, more) in STATUSES


def sanitize(folder, variant, target, queue, seconds):
    """How many of these inputs a sanitizer's program was given, the last one first, within so many seconds if they are
    limited, and those at which it said something."""
    last = time.monotonic() + seconds if seconds else None
    count, wrong = 0, []
    for path in reversed(queue[-KEPT:]):
        if last and time.monotonic() > last:
            break
        count += 1
        if not is_silent(folder, variant, target, path):
            wrong.append(f"{path} ({variant})")
    return count, wrong


def run(folder, seconds, targets, seeds=SEEDS, limit=None):
    write_seeds(folder, seeds)
    bad, count, sanitized = 0, 0, 0
    for target in targets:
        runs, queue, wrong = fuzz(folder, target, seconds)
        for variant in ("address", "thread"):
            if os.path.exists(os.path.join(folder, f"monitor-{variant}")):
                tried, found = sanitize(folder, variant, target, queue, limit)
                sanitized, wrong = sanitized + tried, wrong + found
        bad, count = bad + len(wrong), count + int(runs)
        print("".join(f"{target}: {one}\n" for one in wrong), end="")
        print(f"{target}: {runs} runs, {len(queue)} inputs kept, {len(wrong)} wrong")
    print(f"{len(targets)} targets, {count} runs, {sanitized} more with a sanitizer, {bad} wrong")
    return 1 if bad else 0


def gate():
    """Builds the programs, and gives each target some seconds of each. What is wrong is kept."""
    folder = tempfile.mkdtemp(prefix="monitor-afl-")
    try:
        build(folder, list(VARIANTS) if shutil.which("clang-14") else ["afl"])
        status = run(folder, GATE_SECONDS, list(TARGETS), GATE_SEEDS, GATE_SECONDS)
        if status:
            shutil.copytree(folder, FOUND, ignore=shutil.ignore_patterns("queue", "monitor-*"), dirs_exist_ok=True)
    finally:
        shutil.rmtree(folder)
    return status


def main():
    parser = argparse.ArgumentParser(description=__doc__, formatter_class=argparse.RawDescriptionHelpFormatter)
    parser.add_argument("what", choices=("build", "run", "gate"))
    parser.add_argument("folder", nargs="?")
    parser.add_argument("--seconds", type=int, default=60)
    parser.add_argument("--target", choices=TARGETS, action="append")
    parser.add_argument("--variant", choices=VARIANTS, action="append")
    given = parser.parse_args()
    if (given.what == "gate") != (given.folder is None):
        parser.error("build and run have a folder, and gate has none")
    missing = [tool for tool in ("afl-fuzz", COVERAGE) if not shutil.which(tool) and not os.path.exists(tool)]
    if missing:
        sys.exit(f"fuzz_afl.py: no {' and no '.join(missing)}: install Debian's afl++")
    if given.what == "gate":
        return gate()
    folder = os.path.abspath(given.folder)
    if given.what == "build":
        return build(folder, given.variant or list(VARIANTS))
    return run(folder, given.seconds, given.target or list(TARGETS))


if __name__ == "__main__":
    sys.exit(main())
