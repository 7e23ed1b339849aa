#!/usr/bin/env python3
"""Makes a JUnit file of what `monitor test` wrote, for a server of CI that shows such files:

    monitor test runs/* > tested; status=$?
    python3 monitor_junit.py --out junit.xml tested; exit "$status"

Each run is a test case with the folder's name: one that fails has a `failure` with its answers, and one that isn't
judged an `error` that says why. What several calls wrote may stand one after the other. The file is written beside and
renamed once it is whole. The status is 0 if it is written, and else 2: the lines are cut short, or a file has a fault.
It needs monitor_summary.py beside it."""
import argparse
import os
import re
import sys
import tempfile
import xml.etree.ElementTree as tree

from monitor_summary import joined

# A folder's name may have a colon, so the last of these texts counts. No answer and no refusal has a colon.
LINE = re.compile(r"\A(.*): (pass|fail: [^:\n]*|refused [^:\n]*|unnamed \w+|unread .*)\n", re.S)
# What no XML text may have.
UNSEEN = re.compile("[^\t\n\r -\ud7ff\ue000-\ufffd\U00010000-\U0010ffff]")


def split(line):
    """The folder's name and what came of the run."""
    text = line.decode("utf-8", "backslashreplace")
    found = LINE.fullmatch(text)
    if found is None:
        raise ValueError(f"this isn't the line of a run: {text.rstrip()[:200]}")
    if found[2].startswith("unread "):
        # The file that isn't read stands in the folder, whose name may have this text too.
        name = next(text[:at.start()] for at in re.finditer(": unread ", text)
                    if text[at.end():].startswith(text[:at.start()].rstrip("/") + "/"))
        return name, text[len(name) + 2:-1]
    return found[1], found[2]


def seen(text):
    """The text, with what XML can't have as \\x01."""
    return UNSEEN.sub(lambda it: f"\\x{ord(it[0]):02x}", text)


def suite_of(runs, sums):
    """The element of the runs, of which there are so many that pass, fail and aren't judged."""
    suite = tree.Element("testsuite", name="monitor", tests=str(sums[0]), failures=str(sums[2]), errors=str(sums[3]))
    for name, text in map(split, runs):
        case = tree.SubElement(suite, "testcase", classname="monitor", name=seen(name))
        kind, _, rest = text.partition(" ")
        if kind == "fail:":
            tree.SubElement(case, "failure", type="fail", message=seen(rest)).text = seen(f"{name}: {text}")
        elif kind != "pass":
            tree.SubElement(case, "error", type=kind, message=seen(text)).text = seen(f"{name}: {text}")
    return suite


def write(path, suite):
    """Writes the file beside, and gives it its name then."""
    handle, part = tempfile.mkstemp(dir=os.path.dirname(os.path.abspath(path)), prefix=".junit-")
    try:
        with open(handle, "wb") as file:
            tree.ElementTree(suite).write(file, encoding="utf-8", xml_declaration=True)
            file.write(b"\n")
            os.chmod(part, 0o644)
        os.replace(part, path)
    except BaseException:
        os.unlink(part)
        raise


def main(words=None):
    parser = argparse.ArgumentParser(description=__doc__, formatter_class=argparse.RawDescriptionHelpFormatter)
    parser.add_argument("--out", required=True, metavar="FILE")
    parser.add_argument("tested", nargs="?", help="what monitor test wrote; the standard input, if it isn't given")
    given = parser.parse_args(words)
    try:
        with open(given.tested, "rb") if given.tested else sys.stdin.buffer as file:
            write(given.out, suite_of(*joined(file)))
    except (OSError, ValueError) as error:
        print(f"monitor_junit: {error}", file=sys.stderr)
        return 2
    return 0


if __name__ == "__main__":
    sys.exit(main())
