"""The crates of the repository, as crates.txt lists them: the one place that reads it; and how the kit's compiler is
called for one of them."""
import os
import re
import subprocess

ROOT = os.path.dirname(os.path.dirname(os.path.abspath(__file__)))


def libraries():
    """Of each crate, in the order of the file, the libraries that it stands on, the kit's too."""
    direct = {}
    with open(os.path.join(ROOT, "crates.txt"), encoding="utf-8") as lines:
        for line in lines:
            name, colon, others = line.split("#")[0].partition(":")
            if colon:
                direct[name.split()[0]] = others.split()
    return direct


def below(name, direct):
    """The crates of the repository that a crate stands on, lowest first."""
    found = []
    for other in direct[name]:
        found += [it for it in [*below(other, direct), other] if it not in found] if other in direct else []
    return found


def layers():
    """The layers, each as its line in crates.txt and the names of its crates."""
    found = []
    with open(os.path.join(ROOT, "crates.txt"), encoding="utf-8") as file:
        for part in file.read().split("\n\n")[1:]:
            head, *lines = part.strip().split("\n")
            found.append((head.lstrip("# "), [line.split(":")[0].split()[0] for line in lines]))
    return found


def first_sentence(name):
    """The first sentence of a crate's root file."""
    folder = os.path.join(ROOT, "crates", name, "src")
    root = next(file for file in ("lib.rt", "main.rt") if os.path.isfile(os.path.join(folder, file)))
    with open(os.path.join(folder, root), encoding="utf-8") as file:
        lines = re.match(r"(?://! .*\n)+", file.read()).group(0).split("\n")
    return re.split(r"(?<=\.) ", " ".join(line[4:] for line in lines).strip())[0]


def rattle_words(command, name, library):
    """The command line by which the kit's compiler checks or builds a crate. `library` gives the path of the library of
    each crate below it."""
    kit = os.path.dirname(subprocess.run(["rt", "doc"], check=True, capture_output=True, text=True).stdout.strip())
    direct = libraries()
    folder = os.path.join(ROOT, "crates", name)
    root = next(file for file in ("src/main.rt", "src/lib.rt") if os.path.isfile(os.path.join(folder, file)))
    words = [f"{kit}/bin/rattle", command, "--crate-name", name, root, "--extern", f"std={kit}/rlibs/std.rlib"]
    for other in direct[name]:
        words += ["--extern", f"{other}={library(other) if other in direct else f'{kit}/rlibs/{other}.rlib'}"]
    words += ["-L", f"dependency={kit}/rlibs"]
    for place in dict.fromkeys(os.path.dirname(library(other)) for other in below(name, direct)):
        words += ["-L", f"dependency={place}"]
    return words + ["--antt-project", f"{kit}/rattle/logic/antt-project.json", "--logic-built", f"{kit}/logic_built"]
