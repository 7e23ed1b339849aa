#!/usr/bin/env python3
"""json_results.py [PROGRAM] [--schema]: tests the recorded runs among the examples, and some that can't be judged, by
`test` with several wishes, and compares what `--format json`, `--json` and `--junit` give with the lines: the fields of
the object have to make the lines and the numbers again, the file of JSON has to be that object, and a parser of XML has
to find the same runs, numbers and messages in the file of JUnit. The report of each run that fails has to be what
`judge --beyond-width --format json` writes of it, and null if its stream is a pipe. Each of these runs is also put into
a bundle, of which the same has to come as of the folder.

With --schema it is looked instead whether docs/test.schema.json takes each object, and refuses faults that are put in.
That needs the module jsonschema, Debian's python3-jsonschema, which is there for Debian's /usr/bin/python3.

PROGRAM is ../crates/monitor/out/monitor if it isn't given. The last line says how many objects were looked at; the
status is 1 if any is wrong."""
import argparse
import glob
import json
import os
import subprocess
import sys
import tempfile
import xml.etree.ElementTree as tree

sys.dont_write_bytecode = True
from run import HERE  # noqa: E402

TOP = os.path.join(HERE, "..")
WISHES = ([], ["--always", "both"], ["--ask", "true", "--width", "1"], ["--never", "nobody"])


def runs():
    """The folders of recorded runs, and of some that have no session, or one that is refused."""
    yield from sorted(os.path.dirname(path) for path in glob.glob(os.path.join(TOP, "examples", "*", "session.json")))
    yield os.path.join(TOP, "examples")
    yield "refused"
    yield "mark-up <&\"'>"


def line_of(run):
    """The line of a run, by the fields of its object."""
    if "broken" in run:
        words = "fail: " + ", ".join(f"{it['predicate']} {it['question']} {it['answer']}" for it in run["broken"])
    elif "report" in run:
        words = run["report"]["report"].rstrip("\n")
    elif "file" in run:
        words = f"unread {run['file']}"
    elif "unnamed" in run:
        words = f"unnamed {run['unnamed']}"
    else:
        words = run["outcome"]
    return f"{run['name']}: {words}"


def text_of(found):
    """The text of a test, by the fields of its object."""
    lines, counts = [line_of(run) for run in found["runs"]], found["counts"]
    failing = [line for line, run in zip(lines, found["runs"]) if run["outcome"] != "pass"]
    lines.append(f"runs: {counts['all']}, pass: {counts['pass']}, fail: {counts['fail']}, "
                 f"not judged: {counts['not_judged']}")
    orders = [f"orders: {found['orders']}"] if found["orders"] is not None else []
    return "\n".join(lines + ["  " + line for line in failing[:5]] + orders) + "\n"


def streams_of(folder, run):
    """The names of the files of the streams of a run, in the document's order."""
    with open(os.path.join(folder, run, "session.json"), "rb") as file:
        return [f"{run}/{process['name']}.stream" for process in json.load(file)["processes"]]


def judged(program, folder, run, wishes):
    """What `judge` writes of a run as an object, with what the test asks of it beside its wishes."""
    asked = wishes if wishes[:1] == ["--ask"] else []
    words = [program, "judge", *asked, "--beyond-width", "--format", "json"]
    if not run.endswith(".bundle"):
        words += [f"{run}/session.json", *streams_of(folder, run)]
        return json.loads(subprocess.run(words, cwd=folder, capture_output=True, check=False).stdout)
    with open(os.path.join(folder, run), "rb") as file:
        ran = subprocess.run([*words, "-"], cwd=folder, stdin=file, capture_output=True, check=False)
    return json.loads(ran.stdout.replace(b" of standard input", f" of {run}".encode()))


def compare_reports(program, folder, wishes, found):
    """What differs between the reports of the runs that fail and what `judge` writes of them."""
    due = [{"name": run["name"], "report": judged(program, folder, run["name"], wishes)}
           for run in found["runs"] if run["outcome"] == "fail"]
    if due == found["reports"]:
        return []
    return [f"the reports: {json.dumps(due)[:600]} and {json.dumps(found['reports'])[:600]}"]


def tested(program, folder, wishes):
    """What a test writes as text, and as JSON, with its two files."""
    words = [program, "test", *runs(), *wishes]
    text = subprocess.run([*words, "--json", "results.json", "--junit", "results.xml"], cwd=folder, capture_output=True,
                          check=False)
    as_json = subprocess.run([*words, "--format", "json"], cwd=folder, capture_output=True, check=False)
    return text, as_json


def bundle_of(run):
    """The bytes of a bundle of the run in a folder, its streams in the document's order."""
    with open(os.path.join(run, "session.json"), "rb") as file:
        parts = [file.read()]
    for process in json.loads(parts[0] or "{}").get("processes", []):
        with open(os.path.join(run, process["name"] + ".stream"), "rb") as file:
            parts.append(file.read())
    return b"---\n".join(parts)


def bundles(folder):
    """Puts each run that has a document into a bundle, and gives the folders of the runs and the names of these."""
    found = {}
    for place, run in enumerate(runs()):
        if os.path.exists(os.path.join(folder, run, "session.json")):
            found[run] = f"{place}.bundle"
            with open(os.path.join(folder, found[run]), "wb") as file:
                file.write(bundle_of(os.path.join(folder, run)))
    return found


def compare_bundles(program, folder, wishes):
    """What differs between the runs in folders and their bundles."""
    found = bundles(folder)
    words = [program, "test", *found.values(), *wishes, "--jobs", "3", "--format", "json"]
    ran = subprocess.run(words, cwd=folder, capture_output=True, check=False)
    by_bundles = json.loads(ran.stdout)
    of_bundles = {run["name"]: run for run in by_bundles["runs"]}
    wrong = compare_reports(program, folder, wishes, by_bundles)
    ran = subprocess.run([program, "test", *found, *wishes, "--format", "json"], cwd=folder, capture_output=True,
                         check=False)
    of_folders = {run["name"]: run for run in json.loads(ran.stdout)["runs"]}
    pairs = [({**of_folders[run], "name": name}, of_bundles[name]) for run, name in found.items()]
    return wrong + [f"the bundle of a folder: {str(one)[:300]} and {str(other)[:300]}"
                    for one, other in pairs if one != other]


def compare_pipe(program, folder):
    """What differs of a run that fails whose stream is a pipe, which gives nothing a second time."""
    os.mkdir(os.path.join(folder, "piped"))
    with open(os.path.join(folder, "piped", "session.json"), "w", encoding="utf-8") as file:
        file.write('{"processes":[{"name":"a","vars":{"x":0}}],"predicates":[{"name":"bad","text":"a.x == 1"}]}')
    pipe = os.path.join(folder, "piped", "a.stream")
    os.mkfifo(pipe)
    words = [program, "test", "piped", "--format", "json"]
    with subprocess.Popen(words, cwd=folder, stdout=subprocess.PIPE) as test:
        with open(pipe, "w", encoding="utf-8") as file:
            file.write('{"process":"a"}\n{"set":{"x":1}}\n{"end":true}\n')
        try:
            found = json.loads(test.communicate(timeout=60)[0])
        except subprocess.TimeoutExpired:
            test.kill()
            return ["a run whose stream is a pipe: no end"]
    due = ["fail", [{"name": "piped", "report": None}]]
    return [] if [found["outcome"], found["reports"]] == due else [f"a run whose stream is a pipe: {found}"]


def compare(folder, text, as_json):
    """What differs between the lines, the object and the two files."""
    found = json.loads(as_json.stdout)
    form = json.dumps(found, sort_keys=True, separators=(",", ":"), ensure_ascii=False) + "\n"
    with open(os.path.join(folder, "results.json"), "rb") as file:
        pairs = {"the file of JSON": (as_json.stdout, file.read())}
    pairs["the form of the object"] = (form.encode(), as_json.stdout)
    pairs["the lines by the object"] = (text.stdout, text_of(found).encode())
    pairs["the status and the errors"] = ((text.returncode, text.stderr), (as_json.returncode, as_json.stderr))
    pairs["the outcome"] = ({0: "pass", 5: "fail", 1: "not judged"}[as_json.returncode], found["outcome"])
    suite, counts = tree.parse(os.path.join(folder, "results.xml")).getroot(), found["counts"]
    pairs["the numbers in XML"] = ([suite.get(it) for it in ("tests", "failures", "errors")],
                                   [str(counts[it]) for it in ("all", "fail", "not_judged")])
    pairs["the runs in XML"] = ([line_of(run) for run in found["runs"]], [
        f"{case.get('name')}: {case[0].get('message') if len(case) else 'pass'}" for case in suite])
    return [f"{what}: {str(one)[:300]} and {str(other)[:300]}" for what, (one, other) in pairs.items() if one != other]


def faults_in(found):
    """The object with one fault each that no test has."""
    for name in found:
        yield {key: value for key, value in found.items() if key != name}
    yield {**found, "more": 1}
    yield {**found, "outcome": "unknown"}
    yield {**found, "counts": {**found["counts"], "all": -1}}
    yield from ({**found, "orders": orders} for orders in (-1, 1.5, "1", [1]))
    yield from ({**found, "reports": reports} for reports in (None, [1], [{"name": "a"}], [{"report": None}]))
    for fault in ({"name": 1, "report": None}, {"name": "a", "report": None, "more": 1}, {"name": "a", "report": {}}):
        yield {**found, "reports": [*found["reports"], fault]}
    for place, run in enumerate(found["runs"]):
        for fault in ({**run, "more": 1}, {**run, "outcome": "unknown"}, {"outcome": run["outcome"]}):
            yield {**found, "runs": [*found["runs"][:place], fault, *found["runs"][place + 1:]]}


def by_schema():
    """Looks at an object by the schema, and at its faults."""
    import jsonschema
    schemas = {}
    for name in ("test", "report"):
        with open(os.path.join(TOP, "docs", f"{name}.schema.json"), encoding="utf-8") as file:
            schemas[f"{name}.schema.json"] = json.load(file)
    schema = schemas["test.schema.json"]
    jsonschema.Draft202012Validator.check_schema(schema)
    resolver = jsonschema.RefResolver("test.schema.json", schema, store=schemas)
    validator = jsonschema.Draft202012Validator(schema, resolver=resolver)

    def look_by(_folder, _text, as_json):
        found = json.loads(as_json.stdout)
        wrong = [f"the schema refuses it: {error.message[:300]}" for error in validator.iter_errors(found)]
        return wrong + [f"the schema takes this too: {json.dumps(fault)[:300]}" for fault in faults_in(found)
                        if validator.is_valid(fault)]
    return look_by


def main():
    parser = argparse.ArgumentParser(description=__doc__, formatter_class=argparse.RawDescriptionHelpFormatter)
    parser.add_argument("program", nargs="?", default=os.path.join(TOP, "crates", "monitor", "out", "monitor"))
    parser.add_argument("--schema", action="store_true")
    given = parser.parse_args()
    program = os.path.abspath(given.program)
    if not os.access(program, os.X_OK):
        sys.exit(f"results as JSON: no program {program}")
    look_by, wrong = by_schema() if given.schema else compare, []
    with tempfile.TemporaryDirectory() as folder:
        for name, document in (("refused", "{}"), ("mark-up <&\"'>", "")):
            os.makedirs(os.path.join(folder, name))
            with open(os.path.join(folder, name, "session.json"), "w", encoding="utf-8") as file:
                file.write(document)
        for wishes in WISHES:
            text, as_json = tested(program, folder, wishes)
            found = look_by(folder, text, as_json)
            if not given.schema:
                found += compare_reports(program, folder, wishes, json.loads(as_json.stdout))
                found += compare_bundles(program, folder, wishes)
            wrong += [f"test {' '.join(wishes)}: {it}" for it in found]
        if not given.schema:
            wrong += compare_pipe(program, folder)
    print("\n".join(wrong + [f"results as JSON: {len(WISHES)} looked at, {len(wrong)} wrong"]))
    return 1 if wrong else 0


if __name__ == "__main__":
    sys.exit(main())
