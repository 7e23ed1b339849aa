#!/usr/bin/env python3
"""instructions.py PROGRAM [LOAD..] [--all | --compared] [--write] [--beside OTHER] [--memory] [--page] [--profile]:
counts the instructions of the program on small loads.

The loads stand in `loads.py`. Each is the small form of a session of `generate.py`, judged once as a bundle, or from
files with `--beyond-width` where it is for that, under callgrind (`valgrind`), which counts each instruction that is
carried out: the count is the same on each machine and however busy it is, but for a few in a thousand where a hash of
ids has other keys. What is counted is compared with `bench/instructions.json`. A load that takes over a twentieth more
fails, with the ten functions that grew most. One that takes over a twentieth less is named, so that the stored figures
are made again. As many loads are counted at once as there are processors. Without names the loads of the gate are
counted, with --all all of them, and with --compared those that are compared with the plain program.

With --write the stored figures are made again: on purpose, since a change of the toolchain or of the code made them
other ones. With --beside the same of another program is counted too, with --write of the compared loads alone, and the
ratio is shown; its reports have to be the same, byte for byte. With --memory the peak memory of both programs on the
whole sessions is measured. What --beside and --memory find is stored in `bench/plain.json` by --write. With --page the
table in docs/PERFORMANCE.md is made of what is stored, see `table.py`. With --profile the ten functions that take most
are shown for each load. The status is 1 if a load fails, or if reports differ.
"""
import argparse
import concurrent.futures
import json
import os
import re
import subprocess
import sys
import tempfile

import peak
import table
from loads import BEYOND_WIDTH, LOADS

FOLDER = os.path.dirname(os.path.abspath(__file__))
MARGIN = 0.05  # which part of the stored count a load may take more
SHARE = 0.002  # functions with a smaller part of a load's instructions aren't stored
POSITION = re.compile(r"(fn|cfn)=\((\d+)\)(?: (.*))?")


def functions_of(lines):
    """The instructions of each function itself, without those that it calls, and the sum: what callgrind wrote."""
    names, counts, function, is_call = {}, {}, None, False
    for line in lines:
        position = POSITION.match(line)
        if position:
            kind, number, name = position.groups()
            if name is not None:
                names[number] = name
            if kind == "fn":
                function = names[number]
        elif line.startswith("calls="):
            is_call = True
        elif line[:1] in "+-*0123456789" and line.strip():
            if not is_call and function is not None:
                counts[function] = counts.get(function, 0) + int(line.split()[1])
            is_call = False
    return counts


def generate(words, folder, size="--small"):
    """Writes a session of `generate.py`, and gives the arguments with which it is judged and the file that is its
    input."""
    place = os.path.join(folder, words + size)
    command = [sys.executable, os.path.join(FOLDER, "generate.py"), *words.split(), *size.split()]
    if words in BEYOND_WIDTH:
        subprocess.run([*command, f"--files={place}"], check=True)
        streams = sorted(file for file in os.listdir(place) if file.endswith(".stream"))
        files = [os.path.join(place, file) for file in ["session.json", *streams]]
        return ["judge", *files, "--beyond-width"], os.devnull
    with open(place, "wb") as file:
        subprocess.run(command, stdout=file, check=True)
    return [], place


def count(program, arguments, bundle, folder):
    """The instructions of a run of the program: the sum, and those of each function."""
    with tempfile.TemporaryDirectory(dir=folder) as own, open(bundle, "rb") as given:
        out = os.path.join(own, "callgrind.out")
        ran = subprocess.run(["valgrind", "--tool=callgrind", f"--callgrind-out-file={out}", *program.split(),
                              *arguments], stdin=given, stdout=subprocess.DEVNULL, stderr=subprocess.PIPE, text=True,
                             errors="replace", check=False)
        if not os.path.isfile(out) or ran.returncode not in (0, 1):
            sys.exit(f"instructions.py: {program} ended with {ran.returncode}:\n{ran.stderr}")
        with open(out, encoding="utf-8", errors="replace") as file:
            counts = functions_of(file)
    return sum(counts.values()), counts


def growth(counts, stored):
    """The ten functions that grew most, with how many instructions each takes more."""
    grown = {name: number - stored.get(name, 0) for name, number in counts.items()}
    most = sorted(grown.items(), key=lambda it: -it[1])[:10]
    return [f"    {more:+14,}  {name}" for name, more in most if more > 0]


def profile(total, counts):
    """The ten functions that take most, with their shares of 100 instructions."""
    most = sorted(counts.items(), key=lambda it: -it[1])[:10]
    return [f"    {100 * number / total:5.1f}  {name}" for name, number in most]


def compare(name, total, counts, stored):
    """What is said of a load, and whether it takes too many instructions."""
    if stored is None:
        return [f"{name}: {total:,}, and nothing is stored"], True
    ratio = total / stored["total"]
    line = f"{name}: {total:,}, {ratio:.3f} of what is stored"
    if ratio > 1 + MARGIN:
        return [line + ": TOO MANY", *growth(counts, stored["functions"])], True
    return [line + (": make the stored figures again" if ratio < 1 - MARGIN else "")], False


def shared(total, counts):
    """What is stored of a load."""
    kept = {name: number for name, number in sorted(counts.items()) if number >= SHARE * total}
    return {"total": total, "functions": kept}


def reports(programs, arguments, bundle):
    """How a run of each program on this input ends, as `peak.run` says it, and whether the reports are the same."""
    ended = [peak.run([*program.split(), *arguments], bundle) for program in programs]
    return ended, len({run[:2] for run in ended}) == 1


def peaks(programs, words, folder):
    """The peak memory of each program on the whole session, in bytes, and whether the reports are the same."""
    with tempfile.TemporaryDirectory(dir=folder) as own:
        ended, same = reports(programs, *generate(words, own, ""))
    return [run[3] for run in ended], same


def kind(program):
    """What program it is: its version, and whether its help says that it was built without proofs."""
    version, help_text = (subprocess.run([*program.split(), word], capture_output=True, text=True, check=True).stdout
                          for word in ("--version", "--help"))
    is_proved = "(Built without its proofs.)" not in help_text
    return f"`{version.strip()}`, {'proved' if is_proved else 'built without its proofs'}"


def measure(given, load, folder):
    """What is found of a load: its instructions, those of the other program and the peaks, and whether the reports of
    both are the same."""
    arguments, bundle = generate(load.words, folder)
    total, counts = count(given.program, arguments, bundle, folder)
    beside, same = {}, True
    if given.beside and (load.wanted is not None or not given.write):
        programs = [given.program, given.beside]
        _, same = reports(programs, arguments, bundle)
        beside["instructions"] = count(given.beside, arguments, bundle, folder)[0]
        if given.memory:
            beside["peaks"], is_same = peaks(programs, load.words, folder)
            same = same and is_same
    return load.name, total, counts, beside, same


def say(given, found, stored):
    """Shows what was found of a load, and gives whether that is a failure."""
    name, total, counts, beside, same = found
    said, is_over = compare(name, total, counts, stored.get(name))
    if beside:
        said[0] += f", {total / beside['instructions']:.2f} of the other"
        said[0] += "" if same else ": THE REPORTS DIFFER"
    print("\n".join(said + (profile(total, counts) if given.profile else [])), flush=True)
    return is_over and not given.write or not same


def is_asked(given, load):
    """Whether a load is counted that isn't named."""
    return given.all or (load.wanted is not None if given.compared else load.in_gate)


def words_given():
    parser = argparse.ArgumentParser(description=__doc__, formatter_class=argparse.RawDescriptionHelpFormatter)
    parser.add_argument("program")
    parser.add_argument("loads", nargs="*", metavar="LOAD")
    for name in ("all", "compared", "write", "memory", "page", "profile"):
        parser.add_argument(f"--{name}", action="store_true")
    parser.add_argument("--beside", metavar="OTHER")
    given = parser.parse_args()
    unknown = [name for name in given.loads if name not in LOADS]
    if unknown:
        parser.error(f"no load is called {unknown[0]}; they stand in bench/loads.py")
    return given


def main():
    given = words_given()
    stored, plain = table.read_stored()
    asked = [LOADS[name] for name in given.loads] or [load for load in LOADS.values() if is_asked(given, load)]
    failed = []
    with tempfile.TemporaryDirectory() as folder, concurrent.futures.ThreadPoolExecutor(os.cpu_count()) as pool:
        for found in pool.map(lambda load: measure(given, load, folder), asked):
            name, total, counts, beside, _ = found
            failed += [name] if say(given, found, stored) else []
            stored[name] = shared(total, counts)
            plain["loads"].setdefault(name, {}).update(beside)
    if given.write:
        table.write_stored(kind(given.program), stored, plain)
    if given.page:
        table.write_page()
    print(f"{len(asked)} loads, {'these fail: ' + ', '.join(failed) if failed else 'none takes too many instructions'}")
    sys.exit(1 if failed else 0)


if __name__ == "__main__":
    main()
