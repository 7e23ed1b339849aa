#!/usr/bin/env python3
"""Writes bundles as sessions in lines, which `monitor batch` reads:

    python3 monitor_lines.py BUNDLE.. | monitor batch      # or the bundles on the standard input

Those on the standard input `monitor batch --bundles` reads by itself, with the same answers.

A bundle has a session document, and before each stream a line ---. A file may hold several, divided by lines ===. Each
is a line, in their order: a JSON object with the `document`, the `streams` and the `id`, which is the file's name, and
if there are several in it, a colon and the bundle's number from 1 after it; on the standard input it is the number. Of
a bundle that isn't UTF-8 the line has an `error` in place of these, which `monitor batch` hands on. The status is 0; 1
if there is such a line, or 2 if a file can't be read."""
import json
import sys

DIVIDERS, SEPARATORS = [[text + end for end in (b"\n", b"\r\n", b"", b"\r")] for text in (b"===", b"---")]


def split_lines(lines, dividers):
    """The lines between those that divide them, as lists; one list if none does."""
    part = []
    for line in lines:
        if line in dividers:
            yield part
            part = []
        else:
            part.append(line)
    yield part


def session(bundle, name):
    """The object of a bundle's lines."""
    parts = [b"".join(part) for part in split_lines(bundle, SEPARATORS)]
    try:
        document, *streams = (part.decode() for part in parts)
    except UnicodeDecodeError:
        return {"error": "no UTF-8", "id": name}
    return {"document": document, "id": name, "streams": streams}


def sessions(file, name):
    """The objects of the bundles in a file. After a last line === no bundle begins. An empty file is a bundle, since it is
    named, and an empty standard input holds none."""
    bundles = split_lines(file, DIVIDERS)
    bundle, number = next(bundles), 0
    for number, later in enumerate(bundles, 1):
        yield session(bundle, f"{name}:{number}" if name else str(number))
        bundle = later
    if number == 0 and name:
        yield session(bundle, name)
    elif bundle:
        yield session(bundle, f"{name}:{number + 1}" if name else str(number + 1))


def main(names):
    if names[:1] in (["-h"], ["--help"]):
        print(__doc__)
        return 0
    status = 0
    for name in names or [""]:
        try:
            with open(name, "rb") if name else sys.stdin.buffer as file:
                for made in sessions(file, name):
                    print(json.dumps(made, ensure_ascii=False, separators=(",", ":")))
                    status |= "error" in made
        except OSError as error:
            print(f"monitor_lines: {name}: {error.strerror}", file=sys.stderr)
            return 2
    return status


if __name__ == "__main__":
    sys.stdout.reconfigure(encoding="utf-8")
    sys.exit(main(sys.argv[1:]))
