#!/usr/bin/env python3
"""times.py [PROGRAM]: limits the time of runs of each command by --max-time, and looks how they end.

PROGRAM is ../crates/monitor/out/monitor if it isn't given. Runs that would take minutes, or wait for ever, have to end
with status 6, having written nothing, or the lines of what was done; quick ones have to write what they write without
the option; and one that has begun to write its page has to write it to its end. No case needs the machine to be quick.
The last line says how many cases there are, and how many differ; the status is 1 if any does.
"""
import argparse
import concurrent.futures
import json
import os
import random
import re
import subprocess
import sys
import tempfile
import time

from run import HERE, SECONDS

EXAMPLE = os.path.join(HERE, "..", "examples", "ten-lines")
SESSION, REPORT, LEFT, RIGHT = (os.path.join(EXAMPLE, name)
                                for name in ("session.json", "report", "left.stream", "right.stream"))
LINE = "monitor: time\n"
NO_MORE = "time over: no more runs are judged\n"
EVENTS, LENGTH = 6000, 4096
# What may have been done when the time is over: on a slow machine it is over sooner.
DONE = r"(The files were being read: |Nothing was read yet\.|All that is read first was read, |A walk up the levels had )"
NAMED = re.compile(r"(?m)^Predicate ([1-9]|1[0-6]) of 16 was being answered beyond the width\.\nWhat to do: ")
EXPLAINED = re.compile(r"The time of --max-time is over, 1 s\.\nNothing is written to the standard output\.\n" + DONE
                       + r"(?s:.)*\nWhat to do: (?s:.)*\nmonitor: time\n")


def long_text(number):
    """A predicate that has as many comparisons as a text has room for, all of them false."""
    text, more = f"p0.x - p1.x == {2 * number + 1}", f" or p0.x - p1.x == {2 * number + 1001}"
    return text + more * ((LENGTH - len(text)) // len(more))


def write_long(folder):
    """Writes a session that takes minutes at least: each pair of the events is looked at, and each comparison."""
    os.makedirs(folder)
    drawn = random.Random(4)
    document = {"processes": [{"name": f"p{number}", "vars": {"x": 0}} for number in range(2)], "width": 65536,
                "predicates": [{"name": f"q{number}", "text": long_text(number)} for number in range(16)]}
    parts = [json.dumps(document) + "\n"]
    for number in range(2):
        events = "".join('{"set":{"x":%d}}\n' % (2 * drawn.randrange(5000)) for _ in range(EVENTS))
        parts.append('{"process":"p%d"}\n%s{"end":true}\n' % (number, events))
    for name, text in zip(("session.json", "p0.stream", "p1.stream", "bundle"), (*parts, "---\n".join(parts))):
        with open(os.path.join(folder, name), "w", encoding="ascii") as out:
            out.write(text)


def session_line(paths):
    """The session of these files as a line."""
    texts = []
    for path in paths:
        with open(path, encoding="ascii") as file:
            texts.append(file.read())
    return json.dumps({"document": texts[0], "streams": texts[1:]}) + "\n"


class Runs:
    """The program, and a folder with the long session."""

    def __init__(self, program, folder):
        self.program, self.folder = program, folder
        self.long = [os.path.join(folder, "long", name) for name in ("session.json", "p0.stream", "p1.stream")]
        write_long(os.path.join(folder, "long"))
        os.makedirs(os.path.join(folder, "quick"))
        for name, text in (("session.json", SESSION), ("left.stream", LEFT), ("right.stream", RIGHT)):
            os.symlink(os.path.abspath(text), os.path.join(folder, "quick", name))

    def end(self, words, given=None, at=None):
        """The status, the output and the errors; without an input the program's stays open, and has nothing."""
        with subprocess.Popen([self.program, *words], stdin=subprocess.PIPE if given is None else given, text=True,
                              stdout=subprocess.PIPE, stderr=subprocess.PIPE, cwd=at or self.folder) as run:
            output, errors = run.stdout.read(), run.stderr.read()
            return run.wait(timeout=SECONDS), output, errors

    def ended(self):
        """Runs that are ended: what is run, how it ended, and how it should."""
        long = self.long
        runs = {
            "judge": ["judge", *long], "judge beyond the width": ["judge", "--beyond-width", *long],
            "judge by workers": ["judge", "--workers", "3", *long], "explore": ["explore", *long],
            "draw": ["draw", *long], "check, of a report that doesn't end": ["check", SESSION, "-", LEFT, RIGHT],
            "judge, of a stream that doesn't end": ["judge", SESSION, "-", RIGHT], "infer": ["infer", "-"],
            "reduce": ["reduce", SESSION, "-", RIGHT, "--to", "reduced"], "a bundle that doesn't end": [],
        }
        for name, words in runs.items():
            yield name, lambda words=words: self.end(["--max-time", "1", *words]), (6, "", LINE)
        yield "a bundle", self.long_bundle, (6, "", LINE)
        yield "the option after the files", lambda: self.end(["judge", *long, "--max-time=1"]), (6, "", LINE)
        yield "explained", lambda: self.explained(["judge", *long]), (6, "", True)
        yield "explained, beyond the width", self.named, (6, "", True)
        yield "a server, explained", lambda: self.explained(["serve", SESSION, "--port", "0", "--port-file",
                                                             os.path.join(self.folder, "other")]), (6, "", True)
        yield "test", self.tested, (6, True, LINE)
        for jobs in ("1", "2"):
            yield f"batch, jobs {jobs}", lambda jobs=jobs: self.batched(jobs), (6, True, LINE)
        yield "bundle", self.bundled, (6, True, LINE)
        yield "batch, of lines that don't end", lambda: self.end(["--max-time", "1", "batch"]), (6, "", LINE)
        yield "merge, of lines that don't end", lambda: self.end(["--max-time", "1", "merge"]), (6, "", LINE)
        for name, words, left in (
                ("serve", ["--port", "0", "--port-file", "port", "--keep", "kept"], ["port", "kept/session.json"]),
                ("serve at a socket", ["--socket", "socket"], ["socket"])):
            yield name, lambda words=words, left=left: self.served(words, left), (6, "", LINE, True)

    def served(self, words, left):
        """A server ends like any run, and what it made stays; on a slow machine it needs more time to make that."""
        for seconds in (1, 8, 32):
            folder = tempfile.mkdtemp(dir=self.folder)
            ran = self.end(["serve", SESSION, *words, "--max-time", str(seconds)], at=folder)
            if is_left := all(os.path.lexists(os.path.join(folder, name)) for name in left):
                break
        return *ran, is_left

    def long_bundle(self):
        with open(os.path.join(self.folder, "long", "bundle"), encoding="ascii") as given:
            return self.end(["--max-time", "1"], given)

    def explained(self, words):
        status, output, errors = self.end(["--explain", "--max-time", "1", *words])
        shown = re.sub(r"(?m)^serve: .*\n(?:  .*\n)*", "", errors)
        return status, output, bool(EXPLAINED.fullmatch(shown)) or "No level was walked yet: " in shown or errors

    def named(self):
        """It is said which predicate is answered beyond the width; on a slow machine that comes later."""
        for seconds in ("1", "8", "32"):
            status, output, errors = self.end(["--explain", "--max-time", seconds, "judge", "--beyond-width",
                                               *self.long])
            if NAMED.search(errors):
                return status, output, True
        return status, output, errors

    def tested(self):
        """The line of the quick run is there, unless the time was over before that run was judged."""
        status, output, errors = self.end(["test", "quick", "long", "--max-time", "2"])
        return status, output.splitlines(True)[-1:] == [NO_MORE] and output.count("\n") <= 2 or output, errors

    def batched(self, jobs):
        """With one job the lines before those of long sessions are there, on a slow machine after more time; with two
        they are judged beside these, and nothing is written."""
        path, quick = os.path.join(self.folder, f"lines-{jobs}"), session_line((SESSION, LEFT, RIGHT))
        wanted = ""
        for name, text in (("-quick", quick + "no session\n"), ("", quick + "no session\n" + session_line(self.long))):
            with open(path + name, "w", encoding="ascii") as out:
                out.write(text + (session_line(self.long) + quick if not name else ""))
        if jobs == "1":
            with open(path + "-quick", encoding="ascii") as given:
                wanted = self.end(["batch"], given)[1]
        for seconds in ("2", "8", "32"):
            with open(path, encoding="ascii") as given:
                status, output, errors = self.end(["--max-time", seconds, "batch", "--jobs", jobs], given)
            if output == wanted:
                break
        return status, output == wanted and bool(wanted) == (jobs == "1") or output, errors

    def bundled(self):
        """The line of the quick run is there, on a slow machine after more time; the next run is never read."""
        os.makedirs(os.path.join(self.folder, "stuck"), exist_ok=True)
        if not os.path.exists(pipe := os.path.join(self.folder, "stuck", "session.json")):
            os.mkfifo(pipe)
        wanted = self.end(["bundle", "quick"])[1]
        for seconds in (1, 8, 32):
            words = [self.program, "bundle", "quick", "stuck", "--max-time", str(seconds)]
            try:
                ran = subprocess.run(words, stdin=subprocess.DEVNULL, capture_output=True, text=True, cwd=self.folder,
                                     timeout=seconds + SECONDS, check=False)
            except subprocess.TimeoutExpired as late:
                return "no end", (late.stdout or b"").decode(), ""
            if ran.stdout:
                break
        return ran.returncode, ran.stdout == wanted or ran.stdout, ran.stderr

    def whole(self):
        """Runs that end before their time: what is run, with the option and without it."""
        given = os.path.join(self.folder, "given")
        with open(given, "w", encoding="ascii") as out:
            for number, path in enumerate((SESSION, LEFT, RIGHT)):
                with open(path, encoding="ascii") as part:
                    out.write("---\n" * (number > 0) + part.read())
        runs = {"judge": ["judge", SESSION, LEFT, RIGHT], "check": ["check", SESSION, REPORT, LEFT, RIGHT],
                "draw": ["draw", SESSION, LEFT, RIGHT], "explore": ["explore", SESSION, LEFT, RIGHT],
                "test": ["test", "quick"], "batch": ["batch"], "bundle": ["bundle", "quick", "absent"],
                "merge": ["merge"], "infer": ["infer", LEFT, RIGHT], "a bundle": [], "help": ["judge", "--help"],
                "a file that isn't there": ["judge", SESSION, "absent"], "the version": ["--version"],
                "explained": ["judge", "--explain", SESSION, LEFT, RIGHT]}
        for name, words in runs.items():
            with open(given, encoding="ascii") as one:
                wanted = self.end(words, one)
            for place in (0, len(words)):
                def limited(words=words[:place] + ["--max-time", "100"] + words[place:]):
                    with open(given, encoding="ascii") as one:
                        return self.end(words, one)
                yield f"{name}, in time", limited, wanted

    def begun(self):
        """A page that isn't read until the time is over, but for its first byte, is whole."""
        words = ["explore", SESSION, LEFT, RIGHT]
        wanted = self.end(words)
        for seconds in (2, 8, 32):
            with subprocess.Popen([self.program, "--max-time", str(seconds), *words], stdin=subprocess.DEVNULL,
                                  stdout=subprocess.PIPE, stderr=subprocess.PIPE, bufsize=0) as run:
                output = run.stdout.read(1)
                if output:
                    time.sleep(seconds + 0.5)
                while part := run.stdout.read(1 << 16):
                    output += part
                found = run.wait(timeout=SECONDS), output.decode(), run.stderr.read().decode()
            if found[0] != 6:
                break
        return found == wanted or found


def main():
    parser = argparse.ArgumentParser(description=__doc__)
    parser.add_argument("program", nargs="?", default=os.path.join(HERE, "..", "crates", "monitor", "out", "monitor"))
    given = parser.parse_args()
    with tempfile.TemporaryDirectory() as folder, concurrent.futures.ThreadPoolExecutor(4) as pool:
        runs = Runs(os.path.abspath(given.program), folder)
        cases = [*runs.ended(), *runs.whole(), ("what has begun to write", runs.begun, True)]
        wrong = 0
        for (name, _, wanted), found in zip(cases, pool.map(lambda case: case[1](), cases)):
            if found != wanted:
                wrong += 1
                print(f"{name}: {found}, and not {wanted}")
    print(f"{len(cases)} cases, {wrong} differ")
    return 1 if wrong else 0


if __name__ == "__main__":
    sys.exit(main())
