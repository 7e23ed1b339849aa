#!/usr/bin/env python3
"""axioms.py [FILE]: compares how many axioms the program rests on with what docs/PROMISES.md says.

FILE, or the input, is what a check of crates/monitor printed: by `rt verdict`, by `rt run`, also with --list-axioms, or
by `rt ci`, of which the part on that crate counts. The check prints a line for each crate that declares C functions,
with how many of them the program reaches, and the number of them all in the verdict's line. The page says the same in
the rows below the head *Crate of the kit*. The status is 1 if they differ, and 2 if no verdict is there."""
import os
import re
import sys

ROOT = os.path.dirname(os.path.dirname(os.path.abspath(__file__)))
PAGE, CRATE = "docs/PROMISES.md", "monitor"
# `axioms libc: libc::close, libc::read (2 of the 393 declared)`, and `axioms libc: 2 reached of the 393 declared`
REACHED = re.compile(r"^axioms (\w+): (?:.*\((\d+) of the \d+ declared\)|(\d+) reached of the \d+ declared)", re.M)
VERDICT = re.compile(r"^logic=proved .*$", re.M)


def part_of(text):
    """Of what `rt ci` printed, the part on the crate; other texts are of that crate alone."""
    parts = re.split(r"^== (.*)\n", text, flags=re.M)
    return "".join(part for name, part in zip(parts[1::2], parts[2::2]) if name == CRATE) if parts[1:] else text


def printed(text):
    """How many axioms of each crate the check says that the program reaches, and of all, or None without a verdict."""
    part = part_of(text)
    verdict = VERDICT.search(part)
    if not verdict:
        return None
    reached = {crate: int(few or listed) for crate, few, listed in REACHED.findall(part)}
    total = re.search(r" axioms=(\d+)", verdict[0])
    return reached, int(total[1]) if total else 0


def claimed():
    """The same as the page says it."""
    with open(os.path.join(ROOT, PAGE), encoding="utf-8") as file:
        text = file.read()
    table = text.partition("| Crate of the kit |")[2].partition("\n\n")[0]
    total = re.search(r"\b(\d+)\s+contracts of C functions", text)
    return {crate: int(many) for crate, many in re.findall(r"^\| (\w+) \| (\d+) \|", table, re.M)}, int(total[1])


def main():
    with open(sys.argv[1], encoding="utf-8", errors="replace") if sys.argv[1:] else sys.stdin as file:
        found, said = printed(file.read()), claimed()
    if not found:
        print(f"axioms: there is no verdict on {CRATE}")
        sys.exit(2)
    for which, (crates, total) in (("the check says", found), (f"{PAGE} says", said)):
        print(f"axioms: {which} {total}: {', '.join(f'{many} of {crate}' for crate, many in sorted(crates.items()))}")
    if found != said or sum(said[0].values()) != said[1]:
        print("axioms: they differ")
        sys.exit(1)


if __name__ == "__main__":
    main()
