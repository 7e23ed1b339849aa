"""The part of pages.py that looks at the rows of docs/PROMISES.md and docs/CLAUSES.md, such as

    | After a fault the same fault comes again. | `Framer::feed`: `faulty` | [framer.rt:120][41] |

with the definition `[41]: ../crates/pd_frames/src/framer.rt#L120` at the end of the page. The names in the cell before
the last are a path: the last one is declared in the line that is linked, within what the one before it declares, and so
on. A clause is one of `ensures`, unless *requires* stands before its name.

A clause that has moved is looked for in its file, and else in all of them. If several declare it, that one counts that
has the same name, and that has whatever else the page says of the old one. So a new row may be written with any file
and line, as `[x.rt:1][400]` and `[400]: ../crates/x/src/x.rt#L1`, and `--write` puts the right ones in."""
import functools
import glob
import os
import re

KINDS = r"(?:pub(?:\(\w+\))? )?(?:fn|ensures|struct|enum|trait|impl\b.*)"
WORDS = r"(?:(?:pub|abbrev|unfoldable|opaque|record|data) )+"
ROW = re.compile(r"\|.*\| ([^|]+) \| \[([\w.]+:\d+)\]\[(\w+)\] \|")
NAME = re.compile(r"(requires )?`([\w:]+)`")
DEFINITION = re.compile(r"\[(\w+)\]: (\S+)#L(\d+)")
CRATES = re.compile(r"In `\w+`(?:, `\w+`)*(?: and `\w+`)?\.")


def declares(line, name=r"\w+"):
    """Whether the line declares a function, a clause, a type or a definition of this name, or of any."""
    name = name if name.startswith("requires ") else f"(?:{KINDS} {name}|{WORDS}{name}|{name}(?= : ))"
    return re.match(rf"\s*{name}\b", line)


@functools.lru_cache(None)
def lines_of(file):
    if not os.path.isfile(file):
        return []
    with open(file, encoding="utf-8") as text:
        return text.read().split("\n")


def margin(line):
    return len(line) - len(line.lstrip())


def is_declared_at(lines, at, path):
    """Whether the line declares the path's last name, within what declares the names before."""
    if len(path) == 1 or not declares(lines[at], path[-1]):
        return bool(declares(lines[at], path[-1]))
    around = (it for it in range(at - 1, -1, -1) if margin(lines[it]) < margin(lines[at]) and declares(lines[it]))
    owner = next(around, None)
    return owner is not None and is_declared_at(lines, owner, path[:-1])


@functools.lru_cache(None)
def places(file, path):
    """The numbers of the file's lines that declare the path."""
    lines = lines_of(file)
    return [at + 1 for at in range(len(lines)) if is_declared_at(lines, at, path)]


@functools.lru_cache(None)
def files():
    found = glob.glob("crates/*/src/**/*.rt", recursive=True) + glob.glob("crates/*/specs/**/*.antt", recursive=True)
    return sorted(file for file in found if not file.split("/")[1].startswith("test_"))


def find(path, file, line, others=()):
    """The file and line that declare the path, or None. `others` are the paths that were in the same file."""
    having = [file] if places(file, path) else [it for it in files() if places(it, path)]
    for is_right in (lambda it: os.path.basename(it) == os.path.basename(file),
                     lambda it: all(places(it, other) for other in others)):
        having = [it for it in having if is_right(it)] or having
    if len(having) != 1:
        return None
    return having[0], min(places(having[0], path), key=lambda it: abs(it - line))


def path_of(cell):
    """The names in a cell, in order."""
    return tuple(f"{kind}{name}" for kind, names in NAME.findall(cell) for name in names.split("::"))


class Page:
    """The page, with what its rows link to, by the names of the definitions."""

    def __init__(self, page, text, wrong):
        self.folder, self.page, self.wrong, self.lines = os.path.dirname(page), page, wrong, text.split("\n")
        links = [DEFINITION.fullmatch(line) for line in self.lines]
        self.targets = {it[1]: (os.path.normpath(f"{self.folder}/{it[2]}"), int(it[3])) for it in links if it}
        self.paths = {}
        for row in filter(None, map(ROW.fullmatch, self.lines)):
            self.paths.setdefault(row[3], path_of(row[1]))
        self.right = {}

    def row(self, at, line):
        """The row with the right file and line."""
        row, here = ROW.fullmatch(line), f"{self.page}:{at + 1}"
        path = path_of(row[1]) if row else ()
        if not path or row[3] not in self.targets:
            self.wrong(f"{here} names no clause, or has no link to its line that is defined")
            return line
        if path != self.paths[row[3]]:
            self.wrong(f"{here}: the link [{row[3]}] stands for another clause, too")
        file, old = self.targets[row[3]]
        others = {self.paths[it] for it, target in self.targets.items() if target[0] == file and it in self.paths}
        right = find(path, file, old, tuple(others))
        if not right:
            self.wrong(f"{here}: {' '.join(path)} is declared in no file, or in several other than {file}")
            return line
        text = f"{os.path.basename(right[0])}:{right[1]}"
        if (file, old) != right or row[2] != text:
            self.wrong(f"{here}: {row[2]} and {file}:{old} should be {right[0]}:{right[1]}, of {' '.join(path)}")
        self.right[row[3]] = right
        return line.replace(f"[{row[2]}][", f"[{text}][")

    def rows(self):
        """Looks at each row of a table whose last column is called Where."""
        is_table = False
        for at, line in enumerate(self.lines):
            is_head = line.endswith("| Where |")
            is_table = line.startswith("|") and (is_table or is_head)
            if is_table and not is_head and not line.startswith("|---"):
                self.lines[at] = self.row(at, line)

    def definitions(self):
        for at, line in enumerate(self.lines):
            link = DEFINITION.fullmatch(line)
            if link and link[1] in self.right:
                file, number = self.right[link[1]]
                self.lines[at] = f"[{link[1]}]: {os.path.relpath(file, self.folder)}#L{number}"
            elif link and link[1] not in self.paths:
                self.wrong(f"{self.page}:{at + 1} defines a link that no row has")

    def crates(self):
        """Puts into each line such as *In `pd_frames`.* the crates of the rows from there to the next heading."""
        named, here = {}, None
        for at, line in enumerate(self.lines):
            row = ROW.fullmatch(line)
            if CRATES.fullmatch(line):
                here = named.setdefault(at, {})
            elif line.startswith("#"):
                here = None
            elif row and here is not None and row[3] in self.right:
                here[self.right[row[3]][0].split("/")[1]] = None
        for at, crates in named.items():
            right = f"In {', '.join(f'`{it}`' for it in crates)}."
            right = " and ".join(right.rsplit(", ", 1))
            if crates and self.lines[at] != right:
                self.wrong(f"{self.page}:{at + 1} should be: {right}")
                self.lines[at] = right


def mended(page, text, wrong):
    """The page's text with the right files, lines and crates. What isn't right is reported to `wrong`."""
    whole = Page(page, text, wrong)
    whole.rows()
    whole.definitions()
    whole.crates()
    return "\n".join(whole.lines)
