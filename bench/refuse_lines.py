"""The runs of refuse_each.py that write line by line: `batch`, `bundle`, `merge` and `test`, and how they may end.

A batch has three lines: a session, junk, and a session on which it is to fail; a job of its own judges each, or two
judge them. One of bundles has the same three. Two folders are bundled, of which the second has no document. What such a batch writes is merged with its
own summary. Three runs are tested, two side by side, and each has a page; and once more with files of results.

If memory is refused, the status is 4, with `monitor: memory`, and whole lines are left, the first ones; `merge` leaves
none. If the input can't be read it is 3, with `monitor: read` and the same left, and if the output can't be written,
3, with `monitor: write` and a prefix of the output. A file of a run that can't be opened or read is named in the line
of this run, which is the only one that differs; or, once it was judged, its page is missing, as it is if that can't be
written or renamed: then all lines are there, and all other pages, and the status is 3, with `monitor: write`. A page is
whole, but for the lines of a file that can't be opened for these; what stands beside it as `.new` is a prefix of it.
The same holds of files of results: each is whole, and says of the runs what the lines do; but if one can't be made when
that is tried, before a run is judged, nothing is written."""
import json
import os
import re
import subprocess
import xml.etree.ElementTree

MEMORY, READ, WRITE = (f"monitor: {word}\n".encode() for word in ("memory", "read", "write"))
# What a page says of the files and the lines of its events.
SOURCES = re.compile(rb'\n"sources":(\[.*\]),\n')
# What is said of a run of which a file can't be opened or read.
UNTESTED = re.compile(rb"unread [^\n]+|refused stream \d+ line \d+ read")
COUNTS = b"runs: %d, pass: %d, fail: %d, not judged: %d\n"
# The commands whose runs are looked at here.
COMMANDS = ("batch", "bundle", "merge", "test")
# How long a run may take that makes the input of another one.
SECONDS = 60


def contents(path):
    with open(path, "rb") as opened:
        return opened.read()


def session_parts(path):
    """The document of the session in a folder, and its streams, by the order of the names of its files."""
    files = [os.path.join(path, file) for file in sorted(os.listdir(path)) if file.endswith(".stream")]
    return contents(os.path.join(path, "session.json")), [contents(file) for file in files]


def session_line(name, path):
    """The session in a folder as a line."""
    document, streams = session_parts(path)
    made = {"id": name, "document": document.decode(), "streams": [stream.decode() for stream in streams]}
    return json.dumps(made).encode() + b"\n"


def bundle_of(path):
    """The session in a folder as a bundle."""
    document, streams = session_parts(path)
    return b"---\n".join([document, *streams])


def output_of(words, given):
    """What the program writes of this input, with nothing refused."""
    return subprocess.run(words, input=given, capture_output=True, timeout=SECONDS, check=False).stdout


def runs_of(program, folder, inputs, run):
    """Each run of these commands, as `refuse_each.runs_of` gives them: of the sessions in these folders, by their
    names, with the folder for what is made. `run` runs one; one that makes pages gives them too."""
    def run_with_files(arguments, given, own, number, kind):
        files = os.path.join(folder, "pages" if "--pages" in arguments else "results")
        for name in os.listdir(files) if os.path.isdir(files) else []:
            os.unlink(os.path.join(files, name))
        if "--pages" in arguments and os.path.isdir(files):
            os.rmdir(files)
        ended, made = run(arguments, given, own, number, kind)
        names = os.listdir(files) if os.path.isdir(files) else []
        return (*ended, {name: contents(os.path.join(files, name)) for name in names}), made

    empty = os.path.join(folder, "no document")
    os.makedirs(empty)
    names = ("messages", "one cut alone")
    paths = [inputs[name] for name in names]
    first, last = (session_line(name, path) for name, path in zip(names, paths))
    batch, three = [program, "batch", "--fail-on", "possibly"], first + b'{"document"\n' + last
    bundles = b"===\n".join([bundle_of(paths[0]), b"\xff\n", bundle_of(paths[1])])
    answers = output_of(batch, three)
    lines = answers + output_of([program, "merge"], answers) + answers
    pages = ["--jobs", "2", "--pages", os.path.join(folder, "pages")]
    results = [word for name in ("json", "junit") for word in (f"--{name}", os.path.join(folder, "results", name))]
    os.mkdir(os.path.join(folder, "results"))
    return [("batch", run, batch, three), ("batch by two jobs", run, [*batch, "--jobs", "2"], three),
            ("batch of bundles", run, [*batch, "--bundles"], bundles),
            ("bundle", run, [program, "bundle", paths[0], empty], b""), ("merge", run, [program, "merge"], lines),
            ("test", run, [program, "test", paths[0], empty, paths[1]], b""),
            ("test with pages", run_with_files, [program, "test", *pages, *paths, paths[0]], b""),
            ("test with results", run_with_files, [program, "test", *results, paths[0], empty, paths[1]], b"")]


def is_right(command, kind, ended, want):
    """Whether a run of this command that was refused a call ended as it may; what it gives with no refusal is
    `want`."""
    if len(want) > 3 and "junit" in want[3] and kind == "open" and ended == (3, b"", WRITE, {}):
        return True  # a file of results couldn't be made when that was tried, and nothing is judged
    if len(want) > 3 and not (are_results(ended, want) if "junit" in want[3] else are_pages(kind, ended, want)):
        return False
    if ended[:3] == want[:3]:
        return True
    status, output, errors = ended[:3]
    if kind == "allocation" and (status, errors) == (4, MEMORY):
        return is_begun(output, want[1]) and not (command == "merge" and output)
    if command in ("batch", "merge"):
        is_unread = (status, errors) == (3, READ) and is_begun(output, want[1]) and not (command == "merge" and output)
        return kind == "read" and is_unread or kind == "write" and is_unwritten(ended, want)
    if kind in ("read", "open") and (is_bundled if command == "bundle" else is_tested)(ended, want):
        return True
    return kind == "write" and is_unwritten(ended, want) or len(want) > 3 and is_unpaged(kind, ended, want)


def is_begun(output, whole):
    """Whether these are the first lines of the whole output."""
    return whole.startswith(output) and output[-1:] in (b"", b"\n")


def is_unwritten(ended, want):
    """Whether this is a run that couldn't write its output or its errors."""
    status, output, errors = ended[:3]
    if (status, errors) == (3, WRITE):
        return want[1].startswith(output) and output != want[1]
    return (status, output) == want[:2] and want[2].startswith(errors)


def is_bundled(ended, want):
    """Whether one line more names a file that isn't read."""
    lines, wanted = ended[1].splitlines(True), want[1].splitlines(True)
    others = [(line, due) for line, due in zip(lines, wanted) if line != due]
    if ended[0] != 1 or ended[2] or len(lines) != len(wanted) or len(others) != 1:
        return False
    line, name = others[0][0], json.loads(others[0][1])["id"]
    found = json.loads(line)
    is_known = found.keys() == {"error", "id"} and found["id"] == name and found["error"].startswith(f"unread {name}/")
    return is_known and line == json.dumps(found, separators=(",", ":")).encode() + b"\n"


def is_tested(ended, want):
    """Whether the line of one run says that a file of it isn't read, and the rest and the status are as it says. Runs
    of one name have one order, and those of others have others."""
    count = want[1].splitlines().index(next(line for line in want[1].splitlines() if line.startswith(b"runs: ")))
    lines, wanted = ended[1].splitlines()[:count], want[1].splitlines()[:count]
    others = [(line, due) for line, due in zip(lines, wanted) if line != due]
    if len(lines) != count or len(others) != 1:
        return False
    name, _, text = others[0][0].partition(b": ")
    if not UNTESTED.fullmatch(text) or not others[0][1].startswith(name + b": "):
        return False
    texts = [line.partition(b": ")[2] for line in lines]
    judged = {line.partition(b": ")[0] for line in lines if line.partition(b": ")[2].startswith((b"pass", b"fail: "))}
    passed, failed = texts.count(b"pass"), sum(text.startswith(b"fail: ") for text in texts)
    due = [line + b"\n" for line in lines] + [COUNTS % (count, passed, failed, count - passed - failed)]
    due += [b"  " + line + b"\n" for line in lines if not line.endswith(b": pass")][:5]
    due += [b"orders: %d\n" % len(judged)]
    status = 5 if failed else 0 if passed == count else 1
    return (ended[0], ended[2]) == (status, b"") and ended[1] == b"".join(due)


def is_unpaged(kind, ended, want):
    """Whether all lines are there, and a page or a file of results couldn't be made; or the folder for pages couldn't
    be, and nothing is."""
    if (ended[0], ended[2]) != (3, WRITE):
        return False
    if ended[1] == b"":
        return kind in ("mkdir", "allocation") and not ended[3]
    whole = [name for name in ended[3] if not name.endswith(".new")]
    return ended[1] == want[1] and len(whole) == len(want[3]) - 1


def are_pages(kind, ended, want):
    """Whether each page is whole, and each run that fails has one if nothing is said of it."""
    for name, text in ended[3].items():
        whole = want[3].get(name.removesuffix(".new"))
        if whole is None:
            return False
        is_new = name.endswith(".new")
        if not (whole.startswith(text) if is_new else text == whole or kind != "write" and lacks_lines(text, whole)):
            return False
    failing = sum(b": fail: " in line for line in ended[1].partition(b"\nruns: ")[0].splitlines())
    return ended[0] not in (0, 1, 5) or len(ended[3]) == failing


def are_results(ended, want):
    """Whether each file of results says of the runs what their lines do, and both are there if nothing is said."""
    lines, wanted = (it[1].partition(b"\nruns: ")[0].splitlines() for it in (ended, want))
    texts = dict((name, text) for name, text in ended[3].items() if not name.endswith(".new"))
    if lines == wanted:
        begun = [(text, want[3][name.removesuffix(".new")]) for name, text in ended[3].items()]
        if not all(whole.startswith(text) or has_less(text, whole) for text, whole in begun):
            return False
        if not all(texts[it] == want[3][it] or has_less(texts[it], want[3][it]) for it in texts):
            return False
    elif ended[0] in (0, 1, 5) and not are_lines(texts, [line.decode().partition(": ") for line in lines]):
        return False
    return ended[0] not in (0, 1, 5) or texts.keys() == want[3].keys()


def has_less(text, whole):
    """Whether this is the other object of results, but that a report isn't there, or has no lines of a file: its files
    are read once more."""
    if not text.startswith(b"{") or not text.endswith(b"}\n"):
        return False
    given, wanted = json.loads(text), json.loads(whole)
    ones, others = given.pop("reports"), wanted.pop("reports")
    return (given, len(ones)) == (wanted, len(others)) and all(
        one["name"] == other["name"] and (one["report"] is None or without_lines(one) == without_lines(other))
        for one, other in zip(ones, others))


def without_lines(report):
    """A report in an object of results without the places at its cuts."""
    cuts = [predicate["possibly"].get("at", {}) for predicate in report["report"].get("predicates", [])]
    for at in [at for cut in cuts for at in cut.values()]:
        at.pop("file", None)
        at.pop("line", None)
    return report


def are_lines(texts, lines):
    """Whether files of results have the name of each run, and whether it passes."""
    cases = xml.etree.ElementTree.fromstring(texts["junit"]).iter("testcase")
    runs = [(run["name"], run["outcome"] == "pass") for run in json.loads(texts["json"])["runs"]]
    wanted = [(name, text == "pass") for name, _, text in lines]
    return runs == wanted and [(case.get("name"), len(case) == 0) for case in cases] == wanted


def lacks_lines(page, whole):
    """Whether this is the same page without the lines of a file."""
    given, wanted = SOURCES.search(page), SOURCES.search(whole)
    if not given or not wanted or SOURCES.sub(b"", page) != SOURCES.sub(b"", whole):
        return False
    return all(one in (other, ["", []]) for one, other in zip(json.loads(given[1]), json.loads(wanted[1])))
