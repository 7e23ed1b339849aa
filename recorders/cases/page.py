#!/usr/bin/env python3
"""page.py PAGE..: runs the commands of pages, each page's in an empty folder, and compares what they write.

An indented block of a page is commands; one that begins as a report, as a stream, as a document, as what monitor_mend
says of a stream, or as what monitor_reduce says of a run, is what the commands before it write, all of it. A block
between fences isn't run. The commands are those that a reader gives at the top of the repository, where they find
`recorders`, `examples` and the program: crates/monitor/out/monitor, or the one that MONITOR names. Without a program
nothing is run. The status is 1 if a command fails, or writes something else.
"""
import os
import re
import subprocess
import sys
import tempfile

import judged

OUTPUT = re.compile(r"session \d|refused |\{\"process|\S+\.stream: |\d+ processes, ")
FENCED = re.compile(r"^```.*?^```$", re.M | re.S)
BLOCK = re.compile(r"(?:^    .*\n|^\n(?=\n*    ))+", re.M)
BETWEEN = "---- the next block ----"
# A page whose commands hang is ended after so many seconds.
MOST_SECONDS = "300"


def blocks_of(page):
    with open(page, encoding="utf-8") as file:
        text = FENCED.sub("", file.read())
    blocks = [re.sub(r"^    ", "", block, flags=re.M).strip("\n") for block in BLOCK.findall(text)]
    return [block for block in blocks if block]


def run(blocks, folder):
    """What each block of commands writes, and the status. The blocks are one script, as given in one terminal."""
    os.makedirs(os.path.join(folder, "top", "crates", "monitor", "out"))
    os.symlink(judged.PROGRAM, os.path.join(folder, "top", "crates", "monitor", "out", "monitor"))
    for name in ("recorders", "examples"):
        os.symlink(os.path.join(judged.TOP, name), os.path.join(folder, "top", name))
    script = "shopt -s expand_aliases\nset -e\n" + f"\necho '{BETWEEN}'\n".join(blocks)
    path = os.path.join(folder, "script")
    with open(path, "w", encoding="utf-8") as file:
        file.write(script)
    done = subprocess.run(["timeout", MOST_SECONDS, "bash", path], cwd=os.path.join(folder, "top"),
                          env={**os.environ, "TMPDIR": folder}, stdin=subprocess.DEVNULL, stdout=subprocess.PIPE,
                          encoding="utf-8")
    return done.stdout.split(f"{BETWEEN}\n"), done.returncode


def check(page):
    """Says what is wrong with the page's commands, and whether anything is."""
    commands, wanted = [], {}
    for block in blocks_of(page):
        if OUTPUT.match(block):
            wanted[len(commands) - 1] = f"{block}\n"
        else:
            commands.append(block)
    with tempfile.TemporaryDirectory() as folder:
        written, status = run(commands, folder)
    if status:
        print(f"page: {page}: status {status} of\n{commands[len(written) - 1]}")
        return False
    wrong = [place for place, text in wanted.items() if written[place] != text]
    for place in wrong:
        print(f"page: {page}: what is written is\n{written[place]}and not\n{wanted[place]}by\n{commands[place]}")
    return not wrong


def main():
    if not judged.has_program():
        print(f"page: nothing is run, for there is no program {judged.PROGRAM}")
        return
    wrong = [check(page) for page in sys.argv[1:]].count(False)
    print(f"page: {len(sys.argv) - 1} run, {wrong} wrong")
    sys.exit(1 if wrong else 0)


if __name__ == "__main__":
    main()
