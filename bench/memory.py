#!/usr/bin/env python3
"""memory.py PROGRAM [LOAD..] [--write]: measures the most memory that the program has at once on some loads.

Each load is one of `generate.py`, judged once as a bundle, or from files with `--beyond-width` where it is for that.
What is measured is the bytes that the program has from its allocator, as `refusals.py` counts them: the same on each
machine and however busy it is, but for a few in a thousand where streams are read at the same time. It is compared with
`bench/memory.json`. A load that takes over a tenth more fails, and one that takes over a tenth less is named, so that
the stored figures are made again: by --write, on purpose. The status is 1 if a load fails. It needs gcc."""
import argparse
import json
import os
import sys
import tempfile

import instructions
import refuse_each
from refusals import make_shim

STORED = os.path.join(os.path.dirname(os.path.abspath(__file__)), "memory.json")
LOADS = ("streams", "messages", "narrow", "leaders", "pairs", "boxes", "grid", "products", "path")
MARGIN = 0.1  # which part of the stored bytes a load may take more


def most_bytes(program, name, folder):
    """The most bytes that a run of the program on this load has at once."""
    arguments, path = instructions.generate(name, folder, "")
    with open(path, "rb") as given:
        ended, most = refuse_each.run([program, *arguments], given.read(), folder, 0, "bytes")
    if ended[0] != 0:
        sys.exit(f"memory.py: {name}: status {ended[0]}: {ended[2]}")
    return most


def compare(name, most, stored):
    """What is said of a load, and whether it takes too much."""
    if stored is None:
        return f"{name}: {most:,} bytes, and nothing is stored", True
    ratio = most / stored
    is_over = ratio > 1 + MARGIN
    more = ": TOO MUCH" if is_over else ": make the stored figures again" if ratio < 1 - MARGIN else ""
    return f"{name}: {most:,} bytes, {ratio:.3f} of what is stored{more}", is_over


def main():
    parser = argparse.ArgumentParser(description=__doc__, formatter_class=argparse.RawDescriptionHelpFormatter)
    parser.add_argument("program")
    parser.add_argument("loads", nargs="*", metavar="LOAD")
    parser.add_argument("--write", action="store_true")
    given = parser.parse_args()
    stored, failed = {}, []
    if os.path.isfile(STORED):
        with open(STORED, encoding="utf-8") as file:
            stored = json.load(file)
    with tempfile.TemporaryDirectory() as folder:
        make_shim(folder)
        for name in given.loads or LOADS:
            most = most_bytes(os.path.abspath(given.program), name, folder)
            said, is_over = compare(name, most, stored.get(name))
            print(said, flush=True)
            failed += [name] if is_over and not given.write else []
            stored[name] = most
    if given.write:
        with open(STORED, "w", encoding="utf-8") as file:
            json.dump(stored, file, indent=1, sort_keys=True)
            file.write("\n")
    said = f"too much memory: {' '.join(failed)}" if failed else "none takes too much memory"
    print(f"{len(given.loads or LOADS)} loads, {said}")
    sys.exit(1 if failed else 0)


if __name__ == "__main__":
    main()
