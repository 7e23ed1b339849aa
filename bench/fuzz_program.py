"""The targets of bench/fuzz.py that are commands of the program: the damaged inputs of each, and what may come."""
import collections
import os
import re
import shlex
import subprocess
import xml.parsers.expat

import fuzz_inputs

# A run that takes longer is given so much more, once, since the machine may be busy.
SECONDS, MORE_SECONDS = 10, 60
NAME = rb"[A-Za-z_][A-Za-z0-9_]*"
REFUSED = re.compile(rb"refused [A-Za-z0-9_#, -]+\n")
# What a page has of a refusal, before its explanation.
REFUSAL = re.compile(rb'<script type="application/json" id="data">\{"format":1,"refusal":\["(refused [A-Za-z0-9_#, -]+)'
                     rb'\\u000a","')
JUDGED = re.compile(rb"session \d+ processes \d+ events \d+ messages\n(?:(%s) possibly (?:yes [\d,]+|no|unknown \d+)\n"
                    rb"\1 definitely (?:yes \d+|no [\w,-]+|unknown \d+)\n)+" % NAME)
CHECKED = re.compile(rb"report line \d+\n|refused (?:good|bad)\n|session (?:good|bad)\n(?:names bad\n"
                     rb"|(?:(%s) possibly (?:good|bad|unchecked)\n\1 definitely (?:good|bad|unchecked)\n)+)" % NAME)
BAD = re.compile(rb"\bbad$|^report line ", re.M)
AGAINST = b"monitor: no picture, for a check finds:\n"
# Of a document with as many processes as there are files the first file, a report, is taken for a stream.
UNDRAWN = b"monitor: no picture, for the session is refused:\n"
# What a terminal may be given: printable characters and line feeds.
PLAIN = re.compile(r"[^\x00-\x09\x0b-\x1f\x7f-\x9f]*")

Trial = collections.namedtuple("Trial", "words given files command expects", defaults=(None,))


class Target:
    """Damaged inputs of one command. They stand in files of the folder, in which it runs."""
    name = None

    def __init__(self, program, folder):
        self.program, self.folder = program, folder
        self.sessions = fuzz_inputs.sessions()
        self.texts = [session.bundle() for session in self.sessions]
        self.words = fuzz_inputs.words_of_sessions()

    def trial(self, seed, number):
        damage = fuzz_inputs.damage_for(seed, self.name, number, self.words, self.texts)
        return self.made(damage, damage.rng.choice(self.sessions))

    def by(self, words, given, files, expects=None):
        command = shlex.join(["monitor", *words]) + (" < input" if given else "")
        return Trial(words, given, {**files, **({"input": given} if given else {})}, command, expects)

    def run(self, trial):
        for name, text in trial.files.items():
            with open(os.path.join(self.folder, name), "wb") as file:
                file.write(text)
        for seconds in (SECONDS, MORE_SECONDS):
            try:
                ran = subprocess.run([self.program, *trial.words], input=trial.given, capture_output=True,
                                     cwd=self.folder, timeout=seconds, check=False)
                return ran.returncode, ran.stdout, ran.stderr
            except subprocess.TimeoutExpired:
                continue
        return None, b"", b""

    def look(self, trial):
        """What a run comes to, in a word, and what is wrong with it."""
        status, output, errors = self.run(trial)
        if status is None:
            return "no end", f"it hasn't ended after {MORE_SECONDS} seconds"
        is_right = self.is_right(trial, status, output, errors)
        return f"status {status}", None if is_right else f"status {status}, {output[:200]!r}, {errors[:200]!r}"


def is_report(status, output):
    return status == 0 and JUDGED.fullmatch(output) or status == 1 and REFUSED.fullmatch(output)


def files_of(damage, session, report=None, may_be_damaged=True):
    """The files of a session, by their names in the order of a command line: its report is as it is given, and of the
    others one may be damaged."""
    files = {"session.json": session.document, **({} if report is None else {"report": report})}
    files.update((f"{number}.stream", stream) for number, stream in enumerate(session.streams, 1))
    name = damage.rng.choice([name for name in files if name != "report"])
    if may_be_damaged:
        files[name] = damage.some(files[name])
    return files


class Bundle(Target):
    name = "bundle"

    def made(self, damage, session):
        return self.by([], damage.some(session.bundle()) or b"\n", {})

    def is_right(self, trial, status, output, errors):
        return is_report(status, output) and not errors


class Explained(Bundle):
    name = "explained"

    def made(self, damage, session):
        return self.by(["--explain"], damage.some(session.bundle()) or b"\n", {})

    def is_right(self, trial, status, output, errors):
        try:
            return is_report(status, output) and PLAIN.fullmatch(errors.decode()) and errors.endswith(b"\n")
        except UnicodeDecodeError:
            return False


class Check(Target):
    name = "check"

    def made(self, damage, session):
        is_true = damage.rng.random() < 0.2
        report = session.report if is_true else damage.some(session.report)
        files = files_of(damage, session, report, may_be_damaged=not is_true)
        return self.by(["check", *files], None, files, is_true)

    def is_right(self, trial, status, output, errors):
        is_found = CHECKED.fullmatch(output) and status == (1 if BAD.search(output) else 0)
        return is_found and not errors and not (trial.expects and status)


class Explore(Target):
    name = "explore"
    scripts = None

    def made(self, damage, session):
        files = files_of(damage, session)
        return self.by(["explore", *files], None, files)

    def is_right(self, trial, status, output, errors):
        if errors or status not in (0, 1) or not output.startswith(b"<!doctype html>\n"):
            return False
        if REFUSAL.search(output) and status != 1:
            return False
        scripts = output.count(b"<script"), output.count(b"</script>"), output.count(b"<!--")
        self.scripts = self.scripts or scripts
        return scripts == self.scripts and output.endswith(b"</html>\n")


class Draw(Target):
    name = "draw"

    def made(self, damage, session):
        report = damage.some(session.report, 2) if damage.rng.random() < 0.3 else session.report
        files = files_of(damage, session, report)
        more = damage.rng.choice([[], [], ["--all"], ["--evidence", "definitely"], ["--from", "2"]])
        return self.by(["draw", *files, *more], None, files)

    def is_right(self, trial, status, output, errors):
        if status == 0:
            return not errors and is_picture(output)
        if status == 1:
            return not output and any(errors.startswith(heading) and form.fullmatch(errors[len(heading):])
                                      for heading, form in ((AGAINST, CHECKED), (UNDRAWN, REFUSED)))
        return not output and status == 2 and errors.startswith(b"monitor: ")


def is_picture(text):
    parser = xml.parsers.expat.ParserCreate()
    try:
        parser.Parse(text, True)
    except xml.parsers.expat.ExpatError:
        return False
    return text.startswith(b"<svg ") and text.endswith(b"</svg>\n")


TARGETS = {target.name: target for target in (Bundle, Explained, Check, Explore, Draw)}
