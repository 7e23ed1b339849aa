#!/usr/bin/env python3
"""Makes of explanations the lines FILE:LINE:COLUMN: error: MESSAGE, by which editors and servers of CI mark a place:

    monitor judge --explain session.json *.stream 2>&1 > report | python3 monitor_matcher.py

One line is written for each place that an explanation shows, of a file, a part of a bundle or an argument, with what is
said before it. Lines and columns are counted from 1, and columns in bytes; where only a line is said the column is 1.
In a predicate's text the place is that of the text's byte in the document, if the document is a file that can be read,
and else the document's first byte. Explanations of several runs may stand one after the other, on standard input or in
the files that are named. The status is 0, also if there is no place, and 2 if a file can't be read."""
import re
import sys

IN_TEXT = " of the predicate's text:"
# What stands after the file in a place.
WHERE = re.compile(r"(\d{1,20})(?: \(line \d{1,20} of the bundle\))?(?:, byte (\d{1,20}))?:")
# What begins another paragraph than that which says what is wrong.
LABEL = re.compile(r"What to do:|Expected|Did you mean|    ")
# The text of a predicate in a document, as JSON has it, and what stands for one of its bytes or characters.
TEXT = re.compile(rb'"text"\s*:\s*"((?:[^"\\]|\\.)*)"', re.S)
ESCAPE = re.compile(rb"\\u[0-9a-fA-F]{4}|\\.|.", re.S)


def message_before(lines, at):
    """What is said before a line, in one line."""
    begin = at
    while begin and lines[begin - 1].strip() and not LABEL.match(lines[begin - 1]) and not is_place(lines[begin - 1]):
        begin -= 1
    while begin < at and lines[begin].startswith("  "):  # these go on with what stands before
        begin += 1
    return " ".join(" ".join(lines[begin:at]).split())


def place_of(line):
    """The sentence before a place in its line, the file, the line unless it is one of a predicate's text, and the byte,
    if it is said; or nothing, if the line shows no place."""
    in_text = line.endswith(IN_TEXT)
    head, mark, where = line.rpartition(", byte " if in_text else ", line ")
    before, _, file = ("", "", head[3:]) if head.startswith("In ") else head.partition(". In ")
    if not mark or not file:
        return None
    before = f"{before}." if before else ""
    if in_text:
        byte = where[:-len(IN_TEXT)]
        return (before, file, None, byte) if byte.isdecimal() and len(byte) <= 20 else None
    found = WHERE.fullmatch(where)
    return (before, file, found[1], found[2]) if found else None


def is_place(line):
    return place_of(line) is not None


def place_in_text(path, number, byte):
    """The line and the column of a byte of the text of this predicate, counted from 1, in a document."""
    try:
        with open(path, "rb") as file:
            document = file.read()
    except OSError:
        return 1, 1
    texts = list(TEXT.finditer(document))
    if not 1 <= number <= len(texts):
        return 1, 1
    at, end = texts[number - 1].span(1)
    while byte > 1 and at < end:
        found = ESCAPE.match(document, at, end)
        at, byte = found.end() if found else end, byte - 1
    before = document[:at]
    return before.count(b"\n") + 1, at - before.rfind(b"\n")


def places_of(text):
    """Each place of explanations: its file, line and column, and what is said."""
    lines = text.split("\n")
    said = ""
    for at, line in enumerate(lines):
        found = place_of(line)
        if not found:
            continue
        before, file, number, byte = found
        said = " ".join(filter(None, (message_before(lines, at), before))) or said
        if number:
            yield file, int(number), int(byte or 1), said
        else:
            predicate = re.match(r"Predicate (\d{1,20})", said)
            yield file, *place_in_text(file, int(predicate[1]) if predicate else 0, int(byte)), said


def lines_of(text):
    return [f"{file}:{line}:{column}: error: {said}" for file, line, column, said in places_of(text)]


def main(names):
    try:
        texts = [open(name, "rb").read() for name in names] if names else [sys.stdin.buffer.read()]
    except OSError as error:
        print(f"monitor_matcher: {error.filename}: {error.strerror}", file=sys.stderr)
        return 2
    for text in texts:
        sys.stdout.writelines(line + "\n" for line in lines_of(text.decode("utf-8", "replace")))
    return 0


if __name__ == "__main__":
    sys.exit(main(sys.argv[1:]))
