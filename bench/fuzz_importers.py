"""The target of bench/fuzz.py that is the importers: they run in this process, each on damaged files of its own."""
import collections
import contextlib
import io
import json
import os
import shutil
import signal
import sys
import traceback

import fuzz_inputs

PYTHON = os.path.join(fuzz_inputs.ROOT, "recorders", "python")
sys.path.insert(0, PYTHON)
import import_jaeger  # noqa: E402
import import_logs  # noqa: E402
import import_opentelemetry  # noqa: E402
import import_vector_clocks  # noqa: E402
import import_zipkin  # noqa: E402
import monitor_infer  # noqa: E402
import monitor_mend  # noqa: E402
import monitor_reduce  # noqa: E402
import trace_forms  # noqa: E402

# So many seconds of the processor an importer has.
SECONDS = 20
CLOCKS = (b'left {"left":1}\nbegins\nleft {"left":2}\ninside=1\nleft {"left":3, "right":2}\ngot an answer, inside=0\n'
          b'right {"left":1, "right":1}\ninside=1\nright {"left":1, "right":2}\nanswers, inside=0\n')
LINES = b"a sends m to b\nb got m\nx is 1\nx is -3\nb sends n to a\na got n\nsomething else\n"
RULES = b"""{"process": "{host}", "rules": [
 {"match": "^(?<host>\\\\w+) sends (?<id>\\\\w+) to (?<peer>\\\\w+)", "send": "{id}", "to": "{peer}"},
 {"match": "^(?<host>\\\\w+) got (?<id>\\\\w+)", "receive": "{id}"},
 {"match": "^(?<host>x) is (?<x>\\\\S+)", "set": {"x": "{x}"}}]}"""
STREAMS = [b'{"process":"left"}\n{"send":"left-1","set":{"x":1}}\n{"recv":"right-1"}\n{"end":true}\n',
           b'{"process":"right"}\n{"recv":"left-1"}\n{"send":"right-1","set":{"x":2}}\n{"x']
LONG = {"session.json": b'{"processes":[{"name":"left","vars":{"x":0}},{"name":"right","vars":{"x":-1}}],"version":2,'
                        b'"predicates":[{"name":"p","text":"left.x + 2 * right.x > 3 or not (left.x == 1)"}]}',
        "left.stream": b'{"process":"left"}\n{"send":"1","set":{"x":1}}\n{"recv":"2"}\n{"set":{"x":2}}\n{"end":true}\n',
        "right.stream": b'{"process":"right"}\n{"recv":"1"}\n{"set":{"x":1}}\n{}\n{"send":"2"}\n{"end":true}\n'}
SESSION = ["--out", "out", "--predicate", "p", "true", "--when", "inside=1|start", "inside=1"]

Trial = collections.namedtuple("Trial", "module words files command")


class Slow(BaseException):
    """It takes too long."""


def too_slow(*_):
    raise Slow


def traces():
    """The traces of an example, in each form."""
    with open(os.path.join(fuzz_inputs.ROOT, "examples", "traces", "traces.json"), encoding="utf-8") as file:
        document = json.load(file)
    for entry in document["resourceSpans"]:
        for span in (span for scope in entry["scopeSpans"] for span in scope["spans"]):
            for holder in (span, *span.get("events", [])):
                holder.setdefault("attributes", [])
    text = json.dumps(document)
    return {form: made(text) for form, made in (("json", str), ("jaeger", trace_forms.jaeger),
                                                ("zipkin", trace_forms.zipkin), ("protobuf", trace_forms.protobuf))}


class Importers:
    def __init__(self, _program, folder):
        self.folder = folder
        forms = {name: text if isinstance(text, bytes) else text.encode() for name, text in traces().items()}
        self.kinds = [
            (import_vector_clocks, [*SESSION, "one"], {"one": CLOCKS}),
            (import_opentelemetry, [*SESSION, "one"], {"one": forms["json"]}),
            (import_opentelemetry, [*SESSION, "--protobuf", "one"], {"one": forms["protobuf"]}),
            (import_jaeger, [*SESSION, "one"], {"one": forms["jaeger"]}),
            (import_zipkin, [*SESSION, "one"], {"one": forms["zipkin"]}),
            (import_logs, [*SESSION, "--rules", "rules", "one"], {"one": LINES, "rules": RULES}),
            (monitor_mend, ["--out", "out", "left.stream", "right.stream"],
             dict(zip(("left.stream", "right.stream"), STREAMS))),
            (monitor_infer, ["left.stream", "right.stream"], dict(zip(("left.stream", "right.stream"), STREAMS))),
            (monitor_reduce, [*LONG, "--to", "out", "--windows", "1"], LONG)]
        self.texts = [text for _, _, files in self.kinds for text in files.values()]
        self.words = fuzz_inputs.words_of(self.texts)

    def trial(self, seed, number):
        damage = fuzz_inputs.damage_for(seed, "importers", number, self.words, self.texts)
        module, words, files = damage.rng.choice(self.kinds)
        name = damage.rng.choice([*files])
        files = {**files, name: damage.some(files[name])}
        return Trial(module, words, files, f"python3 {module.__name__}.py {' '.join(words)}")

    def look(self, trial):
        """What a run comes to, in a word, and what is wrong with it."""
        here = os.getcwd()
        os.chdir(self.folder)
        before = signal.signal(signal.SIGPROF, too_slow)
        signal.setitimer(signal.ITIMER_PROF, SECONDS)
        try:
            return run(trial)
        finally:
            signal.setitimer(signal.ITIMER_PROF, 0)
            signal.signal(signal.SIGPROF, before)
            os.chdir(here)


def run(trial):
    for name in os.listdir():
        shutil.rmtree(name) if os.path.isdir(name) else os.unlink(name)
    for name, text in trial.files.items():
        with open(name, "wb") as file:
            file.write(text)
    with contextlib.redirect_stdout(io.StringIO()), contextlib.redirect_stderr(io.StringIO()) as errors:
        try:
            status = trial.module.main(trial.words)
        except Slow:
            return "no end", f"it hasn't ended after {SECONDS} seconds"
        except (Exception, SystemExit):  # whatever comes is a fault
            return "exception", traceback.format_exc(limit=-3).strip().replace("\n", " | ")
    said = errors.getvalue()
    is_right = status == 0 and not said or status == 1 and said.startswith("refused: ") and not os.path.exists("out")
    return f"status {status}", None if is_right else f"status {status}, {said[:300]!r}"
