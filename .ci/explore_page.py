#!/usr/bin/env python3
"""The page of `monitor explore`, put together from the files in crates/out_page/page: its text before the data, and the
texts after it, one a script, as the program has them in crates/out_page/src/text_*.rt.

`explore_page.py` says whether the program's texts are those of the files, with the hashes of the page's policy, and
`explore_page.py --write` writes them. `explore_page.py --page DATA` prints the page with this data, for a look at it.
"""
import base64
import hashlib
import pathlib
import sys

CRATE = pathlib.Path(__file__).resolve().parent.parent / "crates" / "out_page"
PAGE = CRATE / "page"
SCRIPTS = ["run.js", "verdict.js", "notes.js", "predicate.js", "matter.js", "lanes.js", "labels.js", "diagram.js",
           "picture.js", "panel.js", "refusal.js", "pointer.js", "main.js"]
COLUMNS = 116
ESCAPES = {0x0A: "\\n", 0x22: '\\"', 0x5C: "\\\\"}


def digest(content):
    return "'sha256-" + base64.b64encode(hashlib.sha256(content.encode()).digest()).decode() + "'"


def texts():
    """The page before its data and after it. A script or style that is changed without its hash wouldn't run."""
    page = (PAGE / "page.html").read_text(encoding="utf-8")
    style = "\n" + (PAGE / "style.css").read_text(encoding="utf-8")
    scripts = ["\n" + (PAGE / name).read_text(encoding="utf-8") for name in SCRIPTS]
    for part in [style, *scripts]:
        if "</s" in part.lower() or "<!--" in part:
            sys.exit("a script or the style would end its own element")
    page = page.replace("{{style-hash}}", digest(style))
    page = page.replace("{{script-hashes}}", " ".join(digest(script) for script in scripts))
    page = page.replace("{{style}}", style)
    page = page.replace("{{scripts}}", "\n".join(f"<script>{script}</script>" for script in scripts))
    before, after = page.split("{{data}}")
    return before, after


def literal(text):
    """The text as a literal of bytes, a line of the text a line, and long lines broken."""
    lines, line = [], "    "
    for byte in text.encode():
        first = line == "    "
        if byte in ESCAPES:
            written = ESCAPES[byte]
        elif 0x20 <= byte < 0x7F and not (first and byte == 0x20):
            written = chr(byte)
        else:
            written = f"\\x{byte:02x}"
        line += written
        if byte == 0x0A or len(line) > COLUMNS - 4:
            lines.append(line + "\\")
            line = "    "
    lines.append(line)
    return 'b"\\\n' + "\n".join(lines) + '"'


def modules(before, after):
    """The program's modules: of each its name, what its text is, and the text."""
    starts = [place for place in range(len(after)) if after.startswith("<script>", place)][1:]
    pieces = [after[start:end] for start, end in zip([0, *starts], [*starts, len(after)])]
    found = [("before", "The page's text before its data", before)]
    for script, piece in zip(SCRIPTS, pieces, strict=True):
        name = script.split(".")[0]
        found.append((name, f"The page's text after its data: the one with `page/{script}`", piece))
    return found


def module(name, said, text):
    return (f"//! {said}. `.ci/explore_page.py --write` writes it.\n\n"
            f"/// {said}.\npub(crate) const {name.upper()}: &[u8] = {literal(text)};\n")


def main():
    before, after = texts()
    if sys.argv[1:2] == ["--page"]:
        data = pathlib.Path(sys.argv[2]).read_text(encoding="utf-8")
        sys.stdout.write(before + data + after)
        return
    wrong = 0
    for name, said, text in modules(before, after):
        path = CRATE / "src" / f"text_{name}.rt"
        wanted = module(name, said, text)
        if sys.argv[1:] == ["--write"]:
            path.write_text(wanted, encoding="utf-8")
        elif path.read_text(encoding="utf-8") != wanted:
            wrong += 1
            print(f"{path.relative_to(CRATE.parent.parent)}: not what the files in page/ make (explore_page.py --write)")
    if wrong > 0:
        sys.exit(1)
    size = len(before.encode()) + len(after.encode())
    print(f"the page has {size} bytes before and after its data")


main()
