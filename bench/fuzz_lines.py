"""The targets of bench/fuzz.py that come in lines: sessions that `batch` reads, also in bundles, and answers and
summaries that `merge` does. Of both it is known what may come of undamaged ones; of damaged ones, how what comes agrees with itself."""
import collections
import io
import json
import os
import re
import subprocess
import sys

import fuzz_inputs
from fuzz_program import SECONDS, Target, is_report

sys.path.insert(0, os.path.join(fuzz_inputs.ROOT, "recorders", "python"))
import monitor_lines  # noqa: E402

# Options that `judge` has as well, and those that `batch` has alone.
OPTIONS = [[], ["--beyond-width"], ["--fail-on", "possibly,unknown"], ["--width", "2", "--fail-on", "definitely-no"],
           ["--ask", "true", "--ask", "never=false"]]
JOBS = [[], [], ["--jobs", "2"], ["--jobs", "16"]]
IDS = [None, "a", "", "a\n\"\\b", "\u00e9\u2028", "\x01\x7f</script>", "x" * 300]
# What makes no session of a line.
SHAPES = [{"document": None}, {"streams": "a"}, {"streams": [1]}, {"streams": {}}, {"id": 7}, {"id": None, "error": "e"}]
NO_JSON, NO_SESSION = "no JSON value", "no object with a text document, an array of texts streams, and maybe a text id"
UNMERGED = re.compile(rb"monitor: line (\d+) (is no answer and no summary|has a sum over 18446744073709551615)\n")
MOST = 2**64 - 1
# Of a line with so many brackets it is left open whether it is JSON, which may nest 127 deep; and of one with a number
# of more digits.
BRACKETS, DIGITS = 100, 19


class Open(Exception):
    """It is left open what a line holds: a name stands in an object twice, or JSON is read in more than one way."""


def lines_of(text):
    """The lines of these bytes, of which the last one may lack its LF."""
    lines = text.split(b"\n")
    return lines[:-1] if lines[-1] == b"" else lines


def as_line(value):
    """A value in the form that the program writes: no space, the names in their order, an LF."""
    return json.dumps(value, sort_keys=True, separators=(",", ":"), ensure_ascii=False).encode() + b"\n"


def without_at(report):
    """The line of a report that `judge` writes, without what it says of cuts beside their counts."""
    try:
        found = json.loads(report)
    except ValueError:
        return report
    for predicate in found.get("predicates", []):
        predicate["possibly"].pop("at", None)
    return as_line(found)


def values_of(output):
    """The value of each line, if each is an object in the one form; or None."""
    if output and not output.endswith(b"\n"):
        return None
    try:
        values = [json.loads(line.decode()) for line in lines_of(output)]
    except ValueError:
        return None
    return values if b"".join(map(as_line, values)) == output and all(isinstance(one, dict) for one in values) else None


def named_once(pairs):
    if len({name for name, _ in pairs}) < len(pairs):
        raise Open
    return dict(pairs)


def short_number(text):
    if len(text) > DIGITS:
        raise Open
    return 0


def no_number(_):
    raise Open


def value_in(line):
    """The JSON value of a line, with 0 for each number, or None. It is left open of some."""
    if line.count(b"[") + line.count(b"{") > BRACKETS:
        raise Open
    try:
        found = json.loads(line.decode(), object_pairs_hook=named_once, parse_int=short_number, parse_float=no_number,
                           parse_constant=no_number)
    except ValueError:
        return None
    try:
        json.dumps(found, ensure_ascii=False).encode()
    except UnicodeEncodeError:
        raise Open from None
    return found


def is_text(value):
    return isinstance(value, str)


def told_of(found):
    """Of a line with this value, which isn't none: the session, the error that it hands on, or why it is no session."""
    if not isinstance(found, dict) or "id" in found and not is_text(found["id"]):
        return None, NO_SESSION
    if is_text(found.get("error")):
        return None, found["error"]
    streams = found.get("streams")
    is_session = is_text(found.get("document")) and isinstance(streams, list) and all(map(is_text, streams))
    return (found, None) if is_session else (None, NO_SESSION)


class Batch(Target):
    """Some lines: sessions, damaged ones, errors that are handed on, and damaged lines."""
    name = "batch"

    def made(self, damage, session):
        rng = damage.rng
        lines = [self.line(damage, rng.choice(self.sessions)) for _ in range(rng.choice([1, 2, 3, 6]))]
        text = b"\n".join(lines) + rng.choice([b"\n", b"\n", b"", b"\r\n", b"\n\n"])
        options = rng.choice(OPTIONS)
        return self.by(["batch", *options, *rng.choice(JOBS)], text if rng.random() < 0.8 else damage.some(text), {},
                       options)

    def line(self, damage, session):
        kind, document, streams = damage.rng.randrange(5), session.document, session.streams
        if kind == 0:
            document = damage.some(document)
        if kind == 1:
            streams = [damage.some(stream) for stream in streams]
        parts = {"document": document.decode(errors="replace"),
                 "streams": [stream.decode(errors="replace") for stream in streams]}
        parts = {"error": "unread a"} if damage.rng.random() < 0.1 else parts
        name = damage.rng.choice(IDS)
        shape = damage.rng.choice(SHAPES) if damage.rng.random() < 0.1 else {}
        line = json.dumps({**parts, **({} if name is None else {"id": name}), **shape},
                          ensure_ascii=damage.rng.random() < 0.5)
        return damage.some(line.encode()) if kind == 2 else line.encode()

    def is_right(self, trial, status, output, errors):
        lines, values = lines_of(trial.given or b""), values_of(output)
        if errors or values is None or len(values) != len(lines):
            return False
        due = {value.get("status", 1) for value in values}
        places = [number for number, (line, value) in enumerate(zip(lines, values), 1)
                  if not self.is_answer(number, line, value)]
        return not places and status == max(due & {1, 5}, default=0) and self.is_judged(trial.expects, lines, values)

    def is_answer(self, number, line, value):
        """Whether this may come of the line of this number."""
        try:
            found = value_in(line)
            session, error = (None, NO_JSON) if found is None else told_of(found)
            wanted = {"id": found["id"]} if isinstance(found, dict) and "id" in found and error != NO_SESSION else {}
        except Open:
            session, error, wanted = None, None, None
        if "error" in value:
            wanted = {"id": value["id"]} if wanted is None and "id" in value else wanted or {}
            error = value["error"] if error is None and session is None else error
            return value == {**wanted, "error": error, "line": number}
        wanted = {"id": value["id"]} if wanted is None and "id" in value else wanted or {}
        report = value.get("report", {})
        text, code = report.get("report", ""), value.get("status")
        is_whole = value == {**wanted, "report": report, "status": code} and code in (0, 1, 5)
        return is_whole and error is None and bool(is_report(int(code == 1), text.encode()))

    def is_judged(self, options, lines, values):
        """Whether the first session with a stream is answered as `judge` answers it."""
        for line, value in zip(lines, values):
            try:
                found = json.loads(line.decode(), object_pairs_hook=named_once) if value.get("report") else None
            except Open:
                continue
            if found and found["streams"]:
                files = {"session.json": found["document"].encode()}
                files.update((f"{number}.stream", text.encode()) for number, text in enumerate(found["streams"], 1))
                status, report, errors = self.run(self.by(["judge", *files, *options, "--format", "json"], None, files))
                return (status, without_at(report), errors) == (value["status"], as_line(value["report"]), b"")
        return True


class Bundles(Batch):
    """Some bundles, damaged ones too: what is written of them is what of the lines that monitor_lines.py makes."""
    name = "bundles"

    def made(self, damage, session):
        rng = damage.rng
        bundles = [self.bundle(damage, rng.choice(self.sessions)) for _ in range(rng.choice([1, 2, 3, 6]))]
        text = rng.choice([b"===\n", b"===\n", b"===\r\n", b"===\n===\n"]).join(bundles)
        text += rng.choice([b"", b"", b"===", b"===\n", b"\n===\r", b"===\r\n\n"])
        options = rng.choice(OPTIONS)
        return self.by(["batch", "--bundles", *options, *rng.choice(JOBS)],
                       text if rng.random() < 0.8 else damage.some(text), {}, options)

    def bundle(self, damage, session):
        parts = [session.document, *session.streams]
        whole = b"---\n".join(part if part.endswith(b"\n") else part + b"\n" for part in parts)
        return damage.some(whole) if damage.rng.randrange(4) == 0 else whole

    def is_right(self, trial, status, output, errors):
        lines = [as_line(made) for made in monitor_lines.sessions(io.BytesIO(trial.given or b""), "")]
        return super().is_right(trial._replace(given=b"".join(lines)), status, output, errors)


def summary_of(values):
    """The summary of answers and of summaries with these values."""
    counts, failing = collections.Counter(), collections.Counter()
    for value in values:
        if "counts" in value:
            counts.update(value["counts"])
            failing.update(value["failing"])
            continue
        counts["runs"] += 1
        counts["errors" if "error" in value else f"status {value['status']}"] += 1
        for predicate in value.get("report", {}).get("predicates", []):
            for question in ("possibly", "definitely"):
                counts[f"{predicate['name']} {question} {predicate[question]['answer']}"] += 1
        if "id" in value and value.get("status") != 0:
            failing[value["id"]] += 1
    return as_line({"counts": dict(counts), "failing": dict(failing)})


def status_of(summary):
    counts = summary["counts"]
    return 5 if "status 5" in counts else 1 if "status 1" in counts or "errors" in counts else 0


class Merge(Target):
    """Answers of sessions and summaries of some; either as they are, or damaged."""
    name = "merge"

    def __init__(self, program, folder):
        super().__init__(program, folder)
        given = "".join(json.dumps({
            "document": session.document.decode(errors="replace"),
            "streams": [stream.decode(errors="replace") for stream in session.streams]}) + "\n"
            for session in self.sessions).encode()
        ran = subprocess.run([program, "batch", "--fail-on", "possibly"], input=given, capture_output=True,
                             timeout=SECONDS, check=False)
        self.answers = [json.loads(line) for line in lines_of(ran.stdout)]
        self.texts = [as_line(answer) for answer in self.answers if len(as_line(answer)) < fuzz_inputs.SIZE_LIMIT]
        self.words = fuzz_inputs.words_of(self.texts) + [b'"counts"', b'"failing"', b'"error"', b'"line"', b'"runs"',
                                                         b'"status 5"', b"18446744073709551614"]

    def made(self, damage, session):
        values = [self.value(damage.rng) for _ in range(damage.rng.choice([0, 1, 2, 3, 8]))]
        text = b"".join(as_line(value) + damage.rng.choice([b"", b"", b" \n"]) for value in values)
        if damage.rng.random() < 0.3:
            return self.by(["merge"], text, {}, summary_of(values))
        return self.by(["merge"], damage.some(text), {})

    def value(self, rng):
        def answer():
            name = rng.choice(IDS)
            named = {} if name is None else {"id": name}
            return {"error": "e", "line": 7, **named} if rng.random() < 0.1 else {**rng.choice(self.answers), **named}
        if rng.random() < 0.6:
            return answer()
        return json.loads(summary_of([answer() for _ in range(rng.randrange(4))]))

    def merge(self, *lines):
        """The status, the output and the errors of a run on these lines."""
        return self.run(self.by(["merge"], b"".join(lines), {}))

    def is_right(self, trial, status, output, errors):
        lines = [line + b"\n" for line in lines_of(trial.given or b"")]
        if trial.expects and output != trial.expects:
            return False
        if not output:
            return self.is_unmerged(lines, status, errors)
        summary = (values_of(output) or [{}])[0]
        counts = [summary.get("counts", {}), summary.get("failing", {})]
        is_form = summary.keys() == {"counts", "failing"} and output.count(b"\n") == 1 and \
            all(isinstance(count, int) and 0 < count <= MOST for each in counts for count in each.values())
        if errors or not is_form or status != status_of(summary):
            return False
        half = len(lines) // 2
        parts = [self.merge(*some)[1] for some in (lines[:half], lines[half:])]
        return self.merge(output) == self.merge(*reversed(parts)) == (status, output, b"")

    def is_unmerged(self, lines, status, errors):
        """Whether the line that is named is the first one with which nothing is merged."""
        found = UNMERGED.fullmatch(errors)
        if status != 1 or not found or not 0 < int(found[1]) <= len(lines):
            return False
        count = int(found[1])
        alone = self.merge(lines[count - 1])
        is_alone = alone == (1, b"", b"monitor: line 1 is no answer and no summary\n")
        return bool(self.merge(*lines[:count - 1])[1]) and is_alone == found[2].startswith(b"is no")


TARGETS = {target.name: target for target in (Batch, Bundles, Merge)}
