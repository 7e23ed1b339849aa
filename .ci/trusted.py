#!/usr/bin/env python3
"""trusted.py [--write] [--names]: the definitions on which the contract of `run` stands, one by one, and the tables of
docs/TRUST.md that are made of them.

A definition is reached if the contract names it, if a trait in the signature of `run` does, or if a definition that is
reached does. Names are resolved as the prover resolves them: by a file's imports, and else in the file itself. The
tables have each file with a reached definition, in the order of the layers in crates.txt, with the lines of these
definitions, the comments before them counted too, and the file's first comment as what it says. One more table has the
types and constants of the code that reached definitions speak of. Without --write the tables are compared with those
of the page, and the status is 1 if they differ. With --names each reached definition is listed, with who names it
first.
"""
import os
import re
import sys

sys.dont_write_bytecode = True
from layout import ROOT, libraries  # noqa: E402

PAGE = os.path.join(ROOT, "docs", "TRUST.md")
RUN = "crates/pd_cli/src/program.rt"
# The traits of what a run stands on, whose contracts say what a file, a connection and a reader give.
TRAITS = {"FileSource": "crates/app_host/src/file_source.rt", "Network": "crates/app_host/src/network.rt",
          "ByteSource": "crates/pd_gather/src/byte_source.rt"}
NAME = r"[A-Za-z_][\w'-]*"
HEAD = re.compile(rf"(?:(?:abbrev|unfoldable|record|data|law|pub)\s+)+({NAME})")
IMPORT = re.compile(r"^\s*(?:ghost |pub )*use Rattle\.([\w.]+?)(?:\.\{([^}]*)\})?(?: as (\w+))?;?$", re.M)
# The sections of the page, each with the crates whose files stand in it.
PICTURES = {"out_svg", "out_picture", "judge_draw", "pd_evidence"}
PAGES = {"out_page", "judge_explore"}


def read(path):
    with open(os.path.join(ROOT, path), encoding="utf-8") as file:
        return file.read()


class Scope:
    """The names that a text has by its imports: to what file and name each leads."""

    def __init__(self, text):
        self.names, self.aliases = {}, {}
        for module, names, alias in IMPORT.findall(text):
            if names:
                for item in filter(None, (item.strip() for item in names.split(","))):
                    name, _, other = item.partition(" as ")
                    self.names[other or name] = (module, name)
            elif alias:
                self.aliases[alias] = module

    def lead(self, word):
        """Where a word, with or without an alias before it, leads."""
        first, dot, rest = word.partition(".")
        if dot and first in self.aliases:
            return self.aliases[first], rest.split(".")[0]
        return self.names.get(first)


class File:
    """A file of definitions: its blocks, each with the lines from its comment to its end, and where names stand."""

    def __init__(self, path):
        self.path = path
        text = read(path)
        self.lines = text.split("\n")[:-1]
        self.scope = Scope(text)
        self.says = re.match(r"((?:--.*\n)*)", text).group(1)
        self.blocks, self.owner = {}, {}
        self.divide()

    def divide(self):
        block, comment = None, []
        for line in self.lines:
            head = HEAD.match(line)
            if head:
                block = head.group(1)
                self.blocks[block] = [*comment, line]
                self.owner[block], comment = block, []
            elif line.startswith(("use ", "pub use ", "module ", "pub mod ", "mod ")):
                block, comment = None, []
            elif line.startswith("--"):
                comment.append(line)
            elif not line.strip():
                comment = []
            elif block:
                self.blocks[block] += [*comment, line]
                comment = []
                case = re.match(rf"  (?:pub )?({NAME})(?: {NAME})* :", line)
                if case and re.match(r"(?:pub )?data ", self.blocks[block][self.head(block)]):
                    self.owner[case.group(1)] = block

    def head(self, block):
        return next(n for n, line in enumerate(self.blocks[block]) if not line.startswith("--"))

    def words(self, block):
        code = "\n".join(re.sub(r"(^|\s)--.*", "", line) for line in self.blocks[block])
        return words(code)


def words(code):
    return re.findall(rf"(?<![\w.]){NAME}(?:\.{NAME})*", re.sub(r'"(?:[^"\\]|\\.)*"', "", code))


class Closure:
    def __init__(self):
        self.files, self.found, self.declared = {}, {}, set()

    def file(self, module):
        """The file of definitions that a module is, if it is one of the repository's."""
        parts = module.split(".")
        if len(parts) < 3 or parts[1] != "specs" or parts[2] == "declared":
            return None
        path = f"crates/{parts[0]}/specs/{parts[2]}.antt"
        if path not in self.files:
            self.files[path] = File(path) if os.path.isfile(os.path.join(ROOT, path)) else None
        return self.files[path]

    def note_declared(self, module):
        """Notes the type of the code that a module is, or the constants, if it is one of the repository's."""
        parts = module.split(".")
        if parts[1:3] == ["specs", "declared"] and os.path.isdir(os.path.join(ROOT, "crates", parts[0])):
            name = f"constants of {parts[3]}" if parts[4] == "TheConstants" else parts[4]
            self.declared.add((f"crates/{parts[0]}/src/{parts[3]}.rt", name))

    def reach(self, start, who):
        """Notes the definitions that are reached from these places, each a module and a name."""
        waiting = [(place, who) for place in start]
        while waiting:
            (module, name), who = waiting.pop()
            self.note_declared(module)
            file = self.file(module)
            block = file and file.owner.get(name)
            if not block or (file.path, block) in self.found:
                continue
            self.found[file.path, block] = who
            for word in file.words(block):
                place = file.scope.lead(word) or (module, word.split(".")[0])
                waiting.append((place, f"{block} of {file.path}"))


def contract(clauses):
    """The clauses of `run` with these names, or all of them."""
    text = read(RUN)
    text = text[text.index("\npub fn run<"):]
    text = text[:text.index("\n{\n")]
    found = re.findall(r"(?:requires|ensures)(?: (\w+))? \{(.*?)\}(?=\n|$)", text, re.S)
    return "\n".join(clause for name, clause in found if not clauses or name in clauses)


def traits():
    """What the traits of `run` say: their code between braces, with the imports that stand there."""
    found = []
    for name, path in TRAITS.items():
        text = read(path)
        text = text[text.index(f"pub trait {name}"):]
        found.append(re.sub(r"^\s*//.*$", "", text[:text.index("\n}\n")], flags=re.M))
    return found


def places(code, scope):
    return [place for place in map(scope.lead, words(code)) if place]


def reached(clauses=()):
    closure = Closure()
    closure.reach(places(contract(clauses), Scope(read(RUN))), "run")
    for trait in [] if clauses else traits():
        closure.reach(places(trait, Scope(trait)), "a trait of run")
    return closure


def table(closure, is_wanted):
    """The rows of the files that are wanted, and the number of their reached lines."""
    rows, total = [], 0
    crates = list(libraries())
    listed = {path: line for path, line in positions(closure)}
    for path in sorted({path for path, _ in closure.found}, key=lambda path: (crates.index(crate(path)), listed[path])):
        if not is_wanted(path):
            continue
        file = closure.files[path]
        count = sum(len(file.blocks[block]) for at, block in closure.found if at == path)
        says = " ".join(re.sub(r"^-- ?", "", line) for line in file.says.strip().split("\n"))
        says = says[:1].lower() + says[1:].split(". ")[0].rstrip(".")
        rows.append(f"| [{os.path.basename(path)[:-5]}](../{path}) | `{crate(path)}` | {count} | {says} |")
        total += count
    head = ["| File | Crate | Lines | What it says |", "|---|---|---|---|"]
    return "\n".join([*head, *rows, f"| *together* | | {total:,} | |"]), total


def crate(path):
    return path.split("/")[1]


def positions(closure):
    """The place of each file in its crate's list of definitions."""
    for path in {path for path, _ in closure.found}:
        listed = read(os.path.join(os.path.dirname(path), "Lib.antt"))
        name = os.path.basename(path)[:-5]
        yield path, listed.index(f"mod {name}\n") if f"mod {name}\n" in listed else 0


def tables():
    whole, small = reached(), reached(("headline",))
    is_small = {path for path, _ in small.found}.__contains__
    made = {
        "headline": table(small, is_small)[0],
        "reports": table(whole, lambda path: crate(path) not in PICTURES | PAGES)[0],
        "pictures": table(whole, lambda path: crate(path) in PICTURES)[0],
        "pages": table(whole, lambda path: crate(path) in PAGES)[0],
    }
    lines = [line for path, block in whole.found for line in whole.files[path].blocks[block]]
    total, code = len(lines), sum(not line.strip().startswith("--") for line in lines)
    types = sorted(whole.declared, key=lambda it: (list(libraries()).index(crate(it[0])), it))
    made["declared"] = "\n".join(["| Type, or constants | Crate |", "|---|---|",
                                  *(f"| [{name}](../{path}) | `{crate(path)}` |" for path, name in types)])
    made["sum"] = f"Together these are {total:,} lines in {len({path for path, _ in whole.found})} files, {code:,} without comments."
    return whole, made


def main():
    closure, made = tables()
    if "--names" in sys.argv[1:]:
        for (path, block), who in sorted(closure.found.items()):
            print(f"{path} {block}: by {who}")
        return
    text = new = read(PAGE)
    for name, rows in made.items():
        mark = re.compile(rf"(<!-- {name}[^>]*-->\n)\n.*?\n\n(<!-- end -->)", re.S)
        if not mark.search(new):
            sys.exit(f"trusted: docs/TRUST.md has no place for the table `{name}`")
        new = mark.sub(lambda found: f"{found.group(1)}\n{rows}\n\n{found.group(2)}", new)
    if "--write" in sys.argv[1:]:
        with open(PAGE, "w", encoding="utf-8") as file:
            file.write(new)
    elif new != text:
        sys.exit("trusted: the tables of docs/TRUST.md aren't those of the definitions; --write makes them")
    print(f"trusted: {made['sum']}")


main()
