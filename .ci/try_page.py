#!/usr/bin/env python3
"""try_page.py PAGE [--without HEADING].. [--only HEADING]..: types the commands of a page as a reader would, and looks
whether they write what the page says.

An indented block whose first word is a command is typed, in the shell in which the blocks before it were, and at the
top of the repository if the line before says so. Of each other block after the first commands every line has to be one
that the last commands wrote, in this order; one that ends with ` ..` has to be the beginning of such a line. What the
page does in /tmp is done in a new folder. The last line says how many lines were compared; the status is 1 if any
isn't there."""
import argparse
import os
import re
import subprocess
import sys
import tempfile

TOP = os.path.dirname(os.path.dirname(os.path.abspath(__file__)))
COMMANDS = {"alias", "export", "mkdir", "cp", "cd", "cat", "sed", "rm", "for", "python3", "pytest", "go", "javac", "java",
            "monitor"}
SECONDS = 300


def blocks(text, without, only):
    """Each indented block, with the line before it, of all sections but those, or of these alone."""
    for section in re.split(r"^(?=#)", text, flags=re.M):
        heading = section.partition("\n")[0].lstrip("# ")
        if heading in without or only and heading not in only:
            continue
        for match in re.finditer(r"(?:^(\S.*)\n+)?((?:^(?:    .*)?\n)*^    .*\n)", section, flags=re.M):
            lines = re.sub(r"^    ", "", match[2], flags=re.M).strip("\n").split("\n")
            yield match[1] or "", lines


def typed(page, without, only, folder):
    """For each block of commands the lines that they wrote and those that the page has."""
    script, wanted = ["shopt -s expand_aliases"], []
    with open(page, encoding="utf-8") as file:
        text = re.sub(r"(?<!\w)/tmp/", f"{folder}/", file.read())
    for before, lines in blocks(text, without, only):
        if lines[0].split()[0] in COMMANDS:
            script += [f"cd '{TOP}'"] if before.endswith("At the top of the repository:") else []
            script += [*lines, f"echo '@@ {len(wanted)}'"]
            wanted.append([])
        elif wanted:
            wanted[-1] += [line for line in lines if line.strip()]
    done = subprocess.run(["bash"], input="\n".join(script), stdout=subprocess.PIPE, stderr=subprocess.STDOUT,
                          encoding="utf-8", timeout=SECONDS, check=False)
    written = re.split(r"^@@ \d+\n", done.stdout, flags=re.M)
    return [(part.splitlines(), lines) for part, lines in zip(written, wanted)]


def missing(written, wanted):
    """The first of the lines that isn't there, or none."""
    rest = iter(written)
    for line in wanted:
        is_head = line.endswith(" ..")
        if not any(each == line or is_head and each.startswith(line[:-2]) for each in rest):
            return line
    return None


def main():
    parser = argparse.ArgumentParser(description=__doc__, formatter_class=argparse.RawDescriptionHelpFormatter)
    parser.add_argument("page")
    parser.add_argument("--without", action="append", default=[], metavar="HEADING")
    parser.add_argument("--only", action="append", default=[], metavar="HEADING")
    given = parser.parse_args()
    wrong = compared = 0
    with tempfile.TemporaryDirectory() as folder:
        for written, wanted in typed(given.page, given.without, given.only, os.path.realpath(folder)):
            line = missing(written, wanted)
            compared += len(wanted)
            if line is not None:
                wrong += 1
                print(f"{given.page}: this line isn't there: {line}\nThe commands wrote:", *written, sep="\n")
    print(f"{os.path.basename(given.page)}: {compared} lines compared, {wrong} blocks wrong")
    return 1 if wrong or not compared else 0


if __name__ == "__main__":
    sys.exit(main())
