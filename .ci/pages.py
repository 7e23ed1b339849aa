#!/usr/bin/env python3
"""pages.py [--write] [--crates]: checks the pages, that is each `.md` file of the repository: that each relative link
leads to a file; that no line is over 120 columns, but for the definitions of links, and for tables on the pages of
WIDE; that the limits in docs/SPECIFICATION.md are those of the definitions; of docs/PROMISES.md and docs/CLAUSES.md
that each name of code stands in the crates, that each row of a table with a column *Where* names a clause and links to
the line that declares it (see .ci/clauses.py), and that the line below a heading names the crates of its rows; that
docs/DESIGN.md has the tables of the crates by layers; and of crates.txt that no crate stands on one of a later layer.
With --write it puts the right lines, files, crates and tables into the pages. With --crates it looks too that no line
of a crate's `.rt` and `.antt` files is over 120 columns, but for imports. The status is 1 if anything was wrong."""
import glob
import os
import re
import sys

sys.dont_write_bytecode = True
import clauses  # noqa: E402
import layout  # noqa: E402

os.chdir(os.path.join(os.path.dirname(os.path.abspath(__file__)), ".."))
COLUMNS = 120
WIDE = ("README.md", "docs/DESIGN.md", "docs/RECORDING.md", "docs/SPECIFICATION.md", "docs/TRUST.md")
LINKED, LIMITED, PLAN = ("docs/PROMISES.md", "docs/CLAUSES.md"), "docs/SPECIFICATION.md", "docs/DESIGN.md"
LINK = re.compile(r"\]\(([^)#: ]+)(?:#[^)]*)?\)")
DEFINITION = re.compile(r"^\[[^]]+\]: ([^#: \n]+)(?:#(?!L\d)\S*)?$", re.M)
TO_LINE = re.compile(r"(?:\]\(|^\[[^]]+\]: )([^) ]+#L\d+)", re.M)
IMPORT = re.compile(r"\s*(?:pub |ghost )?use ")
found_wrong = []


def wrong(text):
    found_wrong.append(text)
    print(f"pages: {text}")


def read(path):
    with open(path, encoding="utf-8") as file:
        return file.read()


def pages():
    found = []
    for folder, folders, files in os.walk("."):
        folders[:] = [name for name in folders if name != "out" and not name.startswith(".")]
        found += [os.path.normpath(os.path.join(folder, name)) for name in files if name.endswith(".md")]
    return sorted(found)


def look_at_links(page, text):
    prose = re.sub(r"^    .*$", "", text, flags=re.M)
    for link in LINK.findall(prose) + DEFINITION.findall(prose):
        if not os.path.exists(os.path.join(os.path.dirname(page), link)):
            wrong(f"{page} links to {link}, which isn't there")
    unseen = re.sub(r"^\[\w+\]: .*$", "", prose, flags=re.M) if page in LINKED else prose
    for link in TO_LINE.findall(unseen):
        wrong(f"{page} links to the line {link}, which is looked at only if a row of a table in {LINKED[0]} or {LINKED[1]} does")


def look_at_width(page, text):
    for number, line in enumerate(text.split("\n"), 1):
        is_excepted = re.match(r"\[[^]]+\]: ", line) or line.startswith("|") and page in WIDE
        if len(line) > COLUMNS and not is_excepted:
            wrong(f"{page}:{number} has {len(line)} columns, and may have {COLUMNS}")


def look_at_code():
    for folder in ("src", "specs", "proofs"):
        for path in sorted(glob.glob(f"crates/*/{folder}/**/*.*", recursive=True)):
            for number, line in enumerate(read(path).split("\n") if path.endswith((".rt", ".antt")) else [], 1):
                if len(line) > COLUMNS and not IMPORT.match(line):
                    wrong(f"{path}:{number} has {len(line)} columns, and may have {COLUMNS}")


def look_at_limits():
    rows = [row for row in read(LIMITED).split("\n") if row.startswith("| ")]
    for name, number in re.findall(r"^(\w+) = (\d+)$", read("crates/def_format/specs/Limits.antt"), re.M):
        if not any(f"`{name}`" in row and re.search(rf"(?<![\d,]){int(number):,}(?!,?\d)", row) for row in rows):
            wrong(f"{name} is {int(number):,}, and {LIMITED} has no such row")


def look_at_names(page, text):
    known = {"crates"}
    for path in [*glob.glob("crates/*/src/**/*.rt", recursive=True), *glob.glob("crates/*/specs/*.antt"), "crates.txt"]:
        known.update(path.replace("/", ".").split("."))
        known.update(re.findall(r"\w+", read(path)))
    for name in sorted(set(re.findall(r"`((?:\w+::)*[A-Za-z]\w+)`", text))):
        if not known.issuperset(name.split("::")):
            wrong(f"{page} names {name}, which stands in no crate")


def with_crates(page, text):
    """The page with the tables of the crates, each with its first sentence."""
    tables = ""
    for head, names in layout.layers():
        rows = "".join(f"| `{name}` | {layout.first_sentence(name)} |\n" for name in names)
        tables += f"\n**{head}**\n\n| Crate | What it is |\n|---|---|\n{rows}"
    made = re.sub(r"(<!-- crates -->\n).*?(\n<!-- end -->)", lambda it: it[1] + tables + it[2], text, flags=re.S)
    if made != text:
        wrong(f"{page} hasn't the crates of crates.txt with the first sentences of their root files")
    return made


def look_at_layers():
    """Looks that no crate stands on one of a later layer, and that the prefix of a name is that of its layer alone."""
    layers = layout.layers()
    place = {name: at for at, (_, names) in enumerate(layers) for name in names}
    owners = {}
    for name, others in layout.libraries().items():
        for other in others:
            if place.get(other, 0) > place[name]:
                wrong(f"{name} stands on {other}, whose layer comes later in crates.txt")
        prefix = name.split("_")[0]
        if prefix not in ("pd", "monitor") and owners.setdefault(prefix, place[name]) != place[name]:
            wrong(f"{name} stands in a layer whose crates have another prefix")


def main():
    for page in pages():
        text = read(page)
        look_at_links(page, text)
        look_at_width(page, text)
    if "--crates" in sys.argv[1:]:
        look_at_code()
    look_at_limits()
    look_at_layers()
    for page in LINKED:
        look_at_names(page, read(page))
    mended = {page: clauses.mended(page, read(page), wrong) for page in LINKED}
    for page, text in {**mended, PLAN: with_crates(PLAN, read(PLAN))}.items():
        if "--write" in sys.argv[1:] and text != read(page):
            with open(page, "w", encoding="utf-8") as file:
                file.write(text)
    print(f"pages: {len(found_wrong)} wrong")
    sys.exit(1 if found_wrong else 0)


main()
