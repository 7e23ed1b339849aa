#!/usr/bin/env python3
"""table.py [--look]: puts the table of loads into docs/PERFORMANCE.md, made of the stored figures.

What the program takes stands in `bench/instructions.json`, and what the plain program takes, and the peak memory of
both, in `bench/plain.json`; `instructions.py` writes both. Of each load for which more is wanted than it has stands a
line below the table, with the shares of what takes most. With --look nothing is written: the status is 1 if the page
isn't what would be.
"""
import datetime
import json
import os
import re
import sys
import textwrap

from loads import COMPARED, GUARDED, work_of

FOLDER = os.path.dirname(os.path.abspath(__file__))
STORED, PLAIN = os.path.join(FOLDER, "instructions.json"), os.path.join(FOLDER, "plain.json")
PAGE = os.path.join(FOLDER, "..", "docs", "PERFORMANCE.md")
COLUMNS = 120
INSTANCE = re.compile(r"::<.*|'\d+$")  # what tells the instances of a function apart
OF_MACHINE = re.compile(r"^__(mem[a-z]+)_.*")  # functions of the C library, in the form for this processor
MEGA = 1e6
LEAST = 4  # the least share of 100 instructions for which a kind of work is named


def read_json(path, default):
    if not os.path.isfile(path):
        return default
    with open(path, encoding="utf-8") as file:
        return json.load(file)


def read_stored():
    """What is stored of the program, and of the plain one."""
    return read_json(STORED, {}), read_json(PLAIN, {"loads": {}})


def write_stored(program, stored, plain):
    """Writes both, with today's date and what program it was."""
    loads = {name: found for name, found in plain["loads"].items() if found}
    plain = {"date": datetime.date.today().isoformat(), "program": program, "loads": loads}
    for path, value in ((STORED, stored), (PLAIN, plain)):
        with open(path, "w", encoding="utf-8") as file:
            json.dump(value, file, indent=1, sort_keys=True)
            file.write("\n")


def millions(number):
    return f"{number / MEGA:,.1f}"


def ratio_of(load, stored, plain):
    """How many times the plain program's instructions a load takes, if both are known."""
    theirs = plain["loads"].get(load.name, {}).get("instructions")
    return stored[load.name]["total"] / theirs if theirs else None


def is_missed(load, ratio):
    """Whether it takes more than wanted, as the page shows both, to two digits."""
    return load.wanted is not None and ratio is not None and round(ratio, 2) > load.wanted


def row(load, stored, plain):
    theirs, ratio = plain["loads"].get(load.name, {}), ratio_of(load, stored, plain)
    peaks = " and ".join(millions(number) for number in theirs.get("peaks", ()))
    cells = [f"`{load.name}`: {load.what}", millions(stored[load.name]["total"]),
             millions(theirs["instructions"]) if theirs else "", f"{ratio:.2f}" if ratio else "",
             f"{load.wanted:.2f}" if load.wanted else "", peaks]
    return "| " + " | ".join(cells) + " |"


def short(name):
    """The last two parts of a function's path."""
    return OF_MACHINE.sub(r"\1", "::".join(INSTANCE.sub("", name).split("::")[-2:]))


def shares(counts, key):
    """The shares of 100 instructions of the functions with the same key, the greatest first."""
    total, sums = counts["total"], {}
    for name, number in counts["functions"].items():
        sums[key(name)] = sums.get(key(name), 0) + number
    return sorted(((100 * number / total, name) for name, number in sums.items()), reverse=True)


def wrapped(text, indent=""):
    return "\n".join(textwrap.wrap(text, COLUMNS, subsequent_indent=indent, break_long_words=False,
                                   break_on_hyphens=False))


def why(load, counts, ratio):
    """By how much a load misses what is wanted of it, and what takes most of it, by kind of work and by function."""
    kinds = ", ".join(f"{share:.0f} {kind}" for share, kind in shares(counts, work_of)[:5] if share >= LEAST)
    functions = ", ".join(f"`{name}` {share:.0f}" for share, name in shares(counts, short)[:10] if share >= 1)
    return wrapped(f"- **`{load.name}`** ({ratio:.2f}; {load.wanted:.2f}), {ratio / load.wanted:.1f} times what is "
                   f"wanted: {kinds}. By functions: {functions}.", "  ")


def table(stored, plain):
    loads = [load for load in (*COMPARED, *GUARDED) if load.name in stored]
    return "\n".join([
        f"The loads beside the plain program were last counted on {plain['date']}, of {plain['program']}.", "",
        "| Load | Million instructions | The plain program's | To it | Wanted | Peak memory in MB, ours and its |",
        "|---|---|---|---|---|---|", *(row(load, stored, plain) for load in loads)])


def missed(stored, plain):
    ratios = {load: ratio_of(load, stored, plain) for load in COMPARED if load.name in stored}
    over = {load: ratio for load, ratio in ratios.items() if is_missed(load, ratio)}
    met = [f"`{load.name}`" for load, ratio in ratios.items() if ratio is not None and load not in over]
    said = f"As fast as wanted, or faster: {', '.join(met) or 'none'}; that is {len(met)} of {len(ratios)} loads."
    return "\n".join([wrapped(said), "", *(why(load, stored[load.name], ratio) for load, ratio in over.items())])


def replaced(page, name, text):
    """The page with this text between the marks of this name."""
    begin, end = f"<!-- {name}: made by bench/table.py -->\n", f"<!-- end of {name} -->"
    before, rest = page.split(begin)
    return f"{before}{begin}\n{text}\n\n{end}{rest.split(end)[1]}"


def made(page):
    stored, plain = read_stored()
    return replaced(replaced(page, "loads", table(stored, plain)), "missed", missed(stored, plain))


def write_page():
    with open(PAGE, encoding="utf-8") as file:
        page = made(file.read())
    with open(PAGE, "w", encoding="utf-8") as file:
        file.write(page)


def main():
    if sys.argv[1:] != ["--look"]:
        write_page()
        return
    with open(PAGE, encoding="utf-8") as file:
        page = file.read()
    is_made = made(page) == page
    print("table: the page has the stored figures" if is_made else
          "table: docs/PERFORMANCE.md hasn't the stored figures: python3 bench/table.py")
    sys.exit(0 if is_made else 1)


if __name__ == "__main__":
    main()
