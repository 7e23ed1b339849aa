#!/usr/bin/env python3
"""./x check CRATE [--over FOLDER] [FLAG..]: checks a crate while it is written, over libraries that are built already.
./x check --lib CRATE [--over FOLDER]: builds its library anew, once it is proved.

A check takes seconds, since what an earlier one proved is kept and holes are allowed: each open goal is printed. `rt
check` in the crate's folder does the same, but first looks at all sources below. FLAG is one of rattle's, as `--only
checks::check` or `--fix-imports`. The libraries stand in FOLDER, which is shared by all clones on the machine if it
isn't named; those that are missing are built first, lowest first. Whether one is older than its sources isn't looked
at: build it anew. It decides nothing: the gate is `rt ci`.
"""
import argparse
import os
import subprocess
import sys
import tempfile

sys.dont_write_bytecode = True
import layout  # noqa: E402


def library(folder, name):
    return os.path.join(folder, f"{name}.rlib")


def build(name, folder):
    """Builds the library of a crate into the folder, after those below it that are missing. Whether it is built."""
    direct = layout.libraries()
    if not all(build(other, folder) for other in layout.below(name, direct)
               if not os.path.exists(library(folder, other))):
        return False
    print(f"x check: {name} is proved for its library, which takes minutes", file=sys.stderr)
    words = layout.rattle_words("build", name, lambda other: library(folder, other))
    words += ["--links", f"{name}=", "--jobs", "1", "--statements", "-o", library(folder, name)]
    return subprocess.run(words, cwd=os.path.join(layout.ROOT, "crates", name), check=False).returncode == 0


def check(name, folder, flags):
    """The status of the check of a crate over the libraries in the folder."""
    direct = layout.libraries()
    for other in layout.below(name, direct):
        if not os.path.exists(library(folder, other)) and not build(other, folder):
            print(f"x check: {other} isn't proved", file=sys.stderr)
            return 1
    kept = os.path.join(layout.ROOT, "crates", name, "out", "quick")
    os.makedirs(kept, exist_ok=True)
    words = layout.rattle_words("check", name, lambda other: library(folder, other))
    words += ["--incremental", kept, "--allow-holes", "--jobs", "1", *flags]
    return subprocess.run(words, cwd=os.path.join(layout.ROOT, "crates", name), check=False).returncode


def main():
    parser = argparse.ArgumentParser(description=__doc__, formatter_class=argparse.RawDescriptionHelpFormatter)
    parser.add_argument("name", metavar="CRATE")
    parser.add_argument("--lib", action="store_true", help="build the crate's library anew")
    parser.add_argument("--over", metavar="FOLDER", default=os.path.join(tempfile.gettempdir(), "monitor-libraries"))
    given, flags = parser.parse_known_args()
    if given.name not in layout.libraries():
        parser.error(f"there is no crate {given.name} in crates.txt")
    folder = os.path.abspath(given.over)
    os.makedirs(folder, exist_ok=True)
    sys.exit(not build(given.name, folder) if given.lib else check(given.name, folder, flags))


if __name__ == "__main__":
    main()
