#!/usr/bin/env python3
"""edits.py [--all] [--base REV] [NAME..]: tries the edits that the prover must refuse, of both folders of a crate:
must-fail/, which the gate tries too, and edits/, which it only looks at. Tried are those of the crates that are named,
or of those that have changed since the commit REV (HEAD, if none is given), or of all.

They are tried by `rt ci`, on a copy of the repository that has no other edits: it takes the proofs that an earlier run
on this machine kept, and keeps what each edit came to, so that the next run tries only what has changed. Printed are
the lines of `rt ci` on what isn't as it should be, and a line for each crate. The status is 1 if an edit is not
refused, bad or not tried.

edits.py --look: only looks whether each edit of both folders can be applied to the files as they stand, and whether two
of them are the same. It proves nothing and takes a second.
"""
import argparse
import os
import re
import shutil
import subprocess
import sys
import tempfile

sys.dont_write_bytecode = True
from layout import libraries  # noqa: E402

ROOT = os.path.dirname(os.path.dirname(os.path.abspath(__file__)))
FOLDERS = ("must-fail", "edits")
PARTS = ("src", "specs", "proofs")
NAME = re.compile(r"[A-Za-z0-9_-][A-Za-z0-9_.-]*\.edit")
TRIED = re.compile(r"rt: must-fail (\w+)/(\S+): (refused, as it must be|NOT REFUSED|BAD EDIT|NOT TRIED)(.*)")
SAID = re.compile(r"rt: .*(NOT PROVED|NOT REFUSED|BAD EDIT|NOT TRIED)|(\S+:\d+:\d+: |rt: )error|rt: rt ci|rt: the disk")


def crates():
    """The names of the crates, as crates.txt has them."""
    return list(libraries())


def edits_of(name, folder):
    """The names of the files in that folder of the crate."""
    at = os.path.join(ROOT, "crates", name, folder)
    return sorted(os.listdir(at)) if os.path.isdir(at) else []


def files(*words):
    """The files that git lists, as `git ls-files` and `git diff --name-only` do."""
    ran = subprocess.run(["git", *words, "-z"], cwd=ROOT, check=True, stdout=subprocess.PIPE, text=True)
    return [file for file in ran.stdout.split("\0") if file]


def changed_since(base):
    """The crates with a file, of those that an edit stands on, that isn't as it was at that commit."""
    found = set()
    for file in files("diff", "--name-only", base) + files("ls-files", "-o", "--exclude-standard"):
        at = file.split("/")
        if len(at) > 3 and at[0] == "crates" and at[2] in PARTS + FOLDERS:
            found.add(at[1])
    return [name for name in crates() if name in found]


def applied(text, folder):
    """The changes that an edit makes, as file, old and new text, and what keeps it from being applied, or None."""
    path, old, changes, texts = None, None, [], {}
    for line in text.split("\n"):
        word, _, rest = line.partition(" ")
        if word == "file:":
            path = rest.strip()
            if os.path.normpath(path) != path or path.split("/")[0] not in PARTS:
                return changes, f"{path} is no file of src/, specs/ or proofs/"
            if path not in texts:
                if not os.path.isfile(os.path.join(folder, path)):
                    return changes, f"there is no file {path}"
                with open(os.path.join(folder, path), encoding="utf-8") as file:
                    texts[path] = file.read()
        elif word == "old:":
            old = rest
        elif word == "new:" and path and old:
            if texts[path].count(old) != 1:
                return changes, f"its old text stands {texts[path].count(old)} times in {path}, not once: {old}"
            if old == rest:
                return changes, f"its new text is the old one: {old}"
            texts[path] = texts[path].replace(old, rest)
            changes.append((path, old, rest))
            old = None
        elif line.strip():
            return changes, f"this line isn't read: {line}"
    return changes, None if changes and not old else "it has no pair of old and new text"


def look():
    """Says of each edit that can't be applied why, and returns how many there are."""
    wrong, count, named = 0, 0, crates()
    for name in sorted(os.listdir(os.path.join(ROOT, "crates"))):
        folder, seen, names = os.path.join(ROOT, "crates", name), {}, {}
        for edit in [f"{part}/{it}" for part in FOLDERS for it in edits_of(name, part)]:
            why, same, changes = None, None, ()
            if not NAME.fullmatch(os.path.basename(edit)):
                why = "its name isn't of letters, digits, _ and -, with .edit at its end"
            elif name not in named:
                why = "crates.txt names no such crate"
            else:
                with open(os.path.join(folder, edit), encoding="utf-8") as file:
                    changes, why = applied(file.read(), folder)
                same = seen.setdefault(tuple(changes), edit) if changes else edit
                same = same if same != edit else names.setdefault(os.path.basename(edit), edit)
            if not why and same != edit:
                why = f"{same} has the same name or changes the same"
            count += 1
            if why:
                wrong += 1
                print(f"edits: crates/{name}/{edit}: {why}")
    print(f"edits: {count}, {wrong} wrong")
    return wrong


def copy_with_edits(names, to):
    """Copies the crates, with the edits of both folders in must-fail/ for those that are named, and none for others."""
    for file in files("ls-files", "-co", "--exclude-standard", "crates", "crates.txt", "HANDLES"):
        at = file.split("/")
        if len(at) > 3 and at[2] in FOLDERS:
            if at[1] not in names:
                continue
            at[2] = FOLDERS[0]
        if os.path.isfile(os.path.join(ROOT, file)):
            place = os.path.join(to, *at)
            os.makedirs(os.path.dirname(place), exist_ok=True)
            shutil.copyfile(os.path.join(ROOT, file), place)


def try_all(names):
    """Tries the edits of these crates, and returns whether all were refused."""
    counts = {name: {} for name in names}
    with tempfile.TemporaryDirectory() as folder:
        copy_with_edits(names, folder)
        words = {**os.environ, "PYTHONUNBUFFERED": "1"}
        ran = subprocess.Popen(["rt", "ci", *names], cwd=folder, env=words, stdout=subprocess.PIPE, text=True)
        for line in ran.stdout:
            tried = TRIED.match(line)
            if tried:
                name, edit, outcome, why = tried.groups()
                outcome = outcome.split(",")[0]
                counts[name][edit] = "weakly" if outcome == "refused" and why.startswith(" (only ") else outcome
            if SAID.match(line):
                print(line, end="", flush=True)
        ran.wait()
    good = True
    for name in names:
        found = list(counts[name].values())
        refused, weakly = found.count("refused") + found.count("weakly"), found.count("weakly")
        missed, bad = found.count("NOT REFUSED"), found.count("BAD EDIT")
        lost = sum(len(edits_of(name, part)) for part in FOLDERS) - refused - missed - bad
        by = f" ({weakly} of them only for a proof that names what went, or by a limit)" if weakly else ""
        print(f"{name}: {refused} refused{by}, {missed} not refused, {bad} bad, {lost} not tried")
        good = good and not missed and not bad and not lost
    return good


def main():
    parser = argparse.ArgumentParser(description=__doc__, formatter_class=argparse.RawDescriptionHelpFormatter)
    parser.add_argument("--all", action="store_true")
    parser.add_argument("--base", metavar="REV", default="HEAD")
    parser.add_argument("--look", action="store_true")
    parser.add_argument("names", metavar="NAME", nargs="*")
    given = parser.parse_args()
    unknown = [name for name in given.names if name not in crates()]
    if unknown:
        parser.error(f"crates.txt names no crate {unknown[0]}")
    if given.look:
        sys.exit(1 if look() else 0)
    names = given.names or (crates() if given.all else changed_since(given.base))
    names = [name for name in names if any(edits_of(name, part) for part in FOLDERS)]
    if not names:
        print("edits: none to try")
        sys.exit(0)
    sys.exit(0 if try_all(names) else 1)


if __name__ == "__main__":
    main()
