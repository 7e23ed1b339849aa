#!/usr/bin/env python3
"""run.py [PROGRAM] [--only TEXT] [FILE..]: runs the program on the cases of the files (all of this folder if none is
named), and compares what it writes, its errors and its status with what each case says.

PROGRAM is ../crates/monitor/out/monitor if it isn't given. A case of another output is printed with both. The last line
says how many cases there are, how often the program ran, and how many cases differ; the status is 1 if any does. With
--only the cases are run whose names have the text. README.md beside this file says what a case may say.
"""
import argparse
import concurrent.futures
import difflib
import os
import resource
import signal
import subprocess
import sys
import tempfile
import tomllib

HERE = os.path.dirname(os.path.abspath(__file__))
# It opens, and a read of its first byte fails.
UNREADABLE = "/proc/self/mem"
SECONDS = 60
SESSION = {"name", "document", "streams", "report", "report_beyond_width", "status", "any_order", "as_bundle",
           "line_ends"}
# What a run may say of its output and of its errors, and how that is compared.
SAYS = {"output": bytes.__eq__, "output_begins": bytes.startswith, "output_has": bytes.__contains__,
        "output_ends": bytes.endswith, "errors": bytes.__eq__, "errors_begin": bytes.startswith}
RUN = {"name", "words", "input", "files", "unreadable", "status", "room", "full", "holds", "written", "absent", *SAYS}


def data(value):
    """The bytes that a value of a case stands for."""
    if isinstance(value, str):
        return value.encode()
    if isinstance(value, list):
        return b"".join(data(part) for part in value)
    if "times" in value:
        return data(value["text"]) * value["times"]
    if "to" in value:
        return data(value["text"]).ljust(value["to"])
    return value["bytes"].encode("latin-1")


class Differs(Exception):
    """What the program gave, and what the case says."""


def differ(what, wanted, given):
    lines = [part.decode(errors="backslashreplace")[:2000].splitlines() for part in (wanted, given)]
    raise Differs(what + "\n" + "\n".join(difflib.unified_diff(*lines, "wanted", "given", lineterm="")))


def limited(room):
    """Has the files that a process writes take no more than this many bytes."""
    def limit():
        signal.signal(signal.SIGXFSZ, signal.SIG_IGN)
        resource.setrlimit(resource.RLIMIT_FSIZE, (room, room))
    return limit


class Place:
    """A folder with a case's files, and the program that runs in it."""

    def __init__(self, program, folder):
        self.program, self.folder, self.runs = program, folder, 0

    def write(self, files, unreadable=()):
        for name, value in files.items():
            path = os.path.join(self.folder, name)
            if isinstance(value, dict) and value.get("folder"):
                os.mkdir(path)
            else:
                with open(path, "wb") as file:
                    file.write(data(value))
        for name in unreadable:
            os.symlink(UNREADABLE, os.path.join(self.folder, name))

    def run(self, words, given=b"", room=None, output=None):
        """The status, the output and the errors of the program on these words and this input."""
        self.runs += 1
        path = os.path.join(self.folder, ".output")
        options = {"preexec_fn": limited(room), "restore_signals": False} if room is not None else {}
        with open(output or path, "wb") as out:
            ran = subprocess.run([self.program, *words], input=given, stdout=out, stderr=subprocess.PIPE,
                                 cwd=self.folder, timeout=SECONDS, check=False, **options)
        if output:
            return ran.returncode, b"", ran.stderr
        with open(path, "rb") as file:
            return ran.returncode, file.read(), ran.stderr

    def expect(self, what, ran, status, output, errors=b""):
        for part, wanted, given in (("the output", output, ran[1]), ("the errors", errors, ran[2])):
            if wanted != given:
                differ(f"{what}: {part}", wanted, given)
        if status != ran[0]:
            differ(f"{what}: the status", str(status).encode(), str(ran[0]).encode())


def checked(report):
    """What a check of the program's own report says: all evidence is good."""
    lines = report.decode().splitlines()
    if lines[0].startswith("refused "):
        return b"refused good\n"
    found = ["session good"]
    for line in lines[1:]:
        name, modality, answer = line.split(" ")[:3]
        has_evidence = (modality, answer) in (("possibly", "yes"), ("definitely", "no"))
        found.append(f"{name} {modality} {'good' if has_evidence else 'unchecked'}")
    return "\n".join(found).encode() + b"\n"


def judge(place, case, document, streams, end):
    """Judges the session in each way that there is, its lines ended like this."""
    report, status = data(case["report"]), case.get("status", 0)
    names = [f"stream-{number + 1}" for number in range(len(streams))]
    for name, part in zip(["session.json", *names], [document, *streams]):
        place.write({name: {"bytes": part.decode("latin-1")}})
    way = "" if end == b"\n" else f", each line ended by {end!r}"
    if case.get("as_bundle", True):
        parts = [part if part.endswith(end) else part + end for part in [document, *streams[:-1]]]
        bundle = (b"---" + end).join([*parts, *streams[-1:]])
        place.expect("as a bundle" + way, place.run([], bundle), status, report)
        if bundle.endswith(end) and not bundle.endswith(b"---" + end):
            place.expect("as a bundle without its last LF" + way, place.run([], bundle[:-1]), status, report)
        if streams:
            place.expect("judge -" + way, place.run(["judge", "-"], bundle), status, report)
    orders = [names, names[::-1]] if case.get("any_order") else [names]
    for order in orders if names else []:
        for workers in ([], *(["--workers", count] for count in ("2", "3", "16"))):
            ran = place.run(["judge", *workers, "session.json", *order])
            place.expect(f"judge {' '.join([*workers, *order])}" + way, ran, status, report)
    return names


def check(place, report, names):
    """Has a report of the session checked, which finds all of its evidence good."""
    place.write({"report": {"bytes": report.decode("latin-1")}})
    place.expect("check", place.run(["check", "session.json", "report", *names]), 0, checked(report))


def judge_beyond(place, case, names):
    """Judges the session with --beyond-width, and has the report checked."""
    report = data(case["report_beyond_width"])
    alone = ["session.json", *names, "--beyond-width"]
    for words in (alone, ["--beyond-width", "--workers", "3", "session.json", *names]):
        place.expect(f"judge {' '.join(words)}", place.run(["judge", *words]), case.get("status", 0), report)
    check(place, report, names)


def run_session(place, case):
    """Judges the session as it stands and with each of its line ends, and has its report checked."""
    document, streams, report = data(case["document"]), [data(part) for part in case["streams"]], data(case["report"])
    names = judge(place, case, document, streams, b"\n")
    if names:
        check(place, report, names)
    if "report_beyond_width" in case:
        judge_beyond(place, case, names)
    for end in case.get("line_ends", []):
        end = end.encode()
        judge(place, case, document.replace(b"\n", end), [part.replace(b"\n", end) for part in streams], end)


def run_once(place, case):
    place.write(case.get("files", {}), case.get("unreadable", []))
    full = "/dev/full" if case.get("full") else None
    words = [data(word) for word in case["words"]]
    status, output, errors = place.run(words, data(case.get("input", "")), case.get("room"), full)
    for name, given in (("output", output), ("errors", errors)):
        said = {key: case[key] for key in SAYS if key.startswith(name) and key in case} or {name: ""}
        for key, value in said.items():
            if not SAYS[key](given, data(value)):
                differ(f"the {key.replace('_', ' ')}", data(value), given)
    if status != case.get("status", 0):
        differ("the status", str(case.get("status", 0)).encode(), str(status).encode())
    see_files(place, case)


def see_files(place, case):
    """Looks at the files that a run leaves: the names in folders, what is written, and what may not be there."""
    for folder, names in case.get("holds", {}).items():
        if not os.path.isdir(os.path.join(place.folder, folder)):
            raise Differs(f"there is no folder {folder}")
        found = sorted(os.listdir(os.path.join(place.folder, folder)))
        if found != sorted(names):
            differ(f"the files in {folder}", "\n".join(sorted(names)).encode(), "\n".join(found).encode())
    for name, words in case.get("written", {}).items():
        if not os.path.isfile(os.path.join(place.folder, name)):
            raise Differs(f"there is no file {name}")
        with open(os.path.join(place.folder, name), "rb") as file:
            given = file.read()
        wanted = place.run([data(word) for word in words])[1] if isinstance(words, list) else data(words)
        if given != wanted:
            differ(f"the file {name}", wanted, given)
    for name in case.get("absent", []):
        if os.path.lexists(os.path.join(place.folder, name)):
            raise Differs(f"{name} is there, and shouldn't be")


def tried(program, kind, case):
    """How often the program ran for a case, and in what it differs, if it does."""
    with tempfile.TemporaryDirectory() as folder:
        place = Place(program, folder)
        try:
            (run_session if kind == "session" else run_once)(place, case)
        except Differs as error:
            return place.runs, str(error)
        except subprocess.TimeoutExpired:
            return place.runs, f"no end after {SECONDS} seconds"
        return place.runs, None


def cases_of(path):
    with open(path, "rb") as file:
        found = tomllib.load(file)
    shared = found.pop("files", {})
    for case in found.get("run", []):
        case["files"] = {**shared, **case.get("files", {})}
    ends = found.pop("line_ends", [])
    for case in found.get("session", []):
        case.setdefault("line_ends", ends)
    for kind, allowed in (("session", SESSION), ("run", RUN)):
        for case in found.pop(kind, []):
            odd = set(case) - allowed
            if odd:
                sys.exit(f"cases: {path}: {case.get('name')}: no case has {', '.join(sorted(odd))}")
            yield kind, case
    if found:
        sys.exit(f"cases: {path}: {', '.join(found)} is no session, no run and no files")


def main():
    parser = argparse.ArgumentParser(description=__doc__, formatter_class=argparse.RawDescriptionHelpFormatter)
    parser.add_argument("program", nargs="?", default=os.path.join(HERE, "..", "crates", "monitor", "out", "monitor"))
    parser.add_argument("files", nargs="*")
    parser.add_argument("--only", default="")
    given = parser.parse_args()
    program = os.path.abspath(given.program)
    if not os.access(program, os.X_OK):
        sys.exit(f"cases: no program {program}")
    files = given.files or sorted(os.path.join(HERE, name) for name in os.listdir(HERE) if name.endswith(".toml"))
    cases = [(os.path.basename(path), kind, case) for path in files for kind, case in cases_of(path)
             if given.only in case["name"]]
    runs = differing = 0
    with concurrent.futures.ThreadPoolExecutor(os.cpu_count()) as pool:
        found = pool.map(lambda it: tried(program, it[1], it[2]), cases)
        for (path, _, case), (count, why) in zip(cases, found):
            runs += count
            if why:
                differing += 1
                print(f"cases: {path}: {case['name']}: {why}")
    print(f"cases: {len(cases)} cases, {runs} runs, {differing} differ")
    sys.exit(1 if differing or not cases else 0)


if __name__ == "__main__":
    main()
