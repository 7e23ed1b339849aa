#!/usr/bin/env python3
"""damage.py PROGRAM [--other PROGRAM] [--count N] [--seed S] [--jobs N]: random sessions, most of them damaged, judged
as a bundle and from files, and their reports checked.

A session is drawn, its lines are written in every way that JSON has (order and repetition of keys, white space,
escapes, numbers at their limits), and then bytes are flipped, lines are dropped, doubled, swapped and cut, streams are
swapped, and strange bytes are put in. The bundle is written in pieces of every size. Each run has to end within a
minute, with status 0 and a report, or with status 1 and one line that says `refused`, and with nothing on standard
error. The bundle and the files have to give the same report, and so has the other program, if one is named, which reads
bundles from standard input. A check of the report against the files must find nothing bad, and a check of the report
damaged has to end with status 0 or 1 and with text, or with status 3 and without.

A session that breaks this is written to standard output with its seed. After all of them comes how many reports there
were of each kind. The status is 1 if a session broke it. With `--jobs`, several are at work at once."""
import argparse
import collections
import json
import multiprocessing
import os
import random
import subprocess
import sys
import tempfile

LIMITS = [0, 1, -1, 2, 3, 7, 2**31 - 1, 2**31, 2**53, 2**63 - 1, -2**63, 2**63, -2**63 - 1, 2**64]
ODD_NUMBERS = ["-0", "1.0", "1e3", "01", "+1", "0x1", "1E400", "true", "null", '"1"', "[]", "{}", "-", "9" * 30]
ODD_BYTES = [b"\xef\xbb\xbf", b"\xff", b"\0", b"\r", b"\n", b"---\n", b"---", b"{", b"}", b'"', b"\\ud83d", b"[" * 130]
SPACE = ["", "", "", "", " ", "\t", "\r", "  "]


def text(rng, word):
    """A JSON string, some of whose characters are written as escapes."""
    written = json.dumps(word, ensure_ascii=rng.random() < 0.5)[1:-1]
    if rng.random() < 0.15 and word and word[0].isalnum():
        written = f"\\u{ord(word[0]):04{rng.choice('xX')}}" + written[1:]
    return f'"{written}"'


def written_object(rng, members):
    """An object of these keys and written values, with white space, in some order, and with some keys twice."""
    members = list(members)
    if rng.random() < 0.3:
        rng.shuffle(members)
    if members and rng.random() < 0.08:
        key, value = rng.choice(members)
        members.insert(0, (key, rng.choice(["1", '"m"', value])))
    space = (lambda: rng.choice(SPACE)) if rng.random() < 0.2 else (lambda: "")
    inside = ",".join(f"{space()}{text(rng, key)}{space()}:{space()}{value}{space()}" for key, value in members)
    return "{" + (inside or space()) + "}"


def number(rng):
    value = rng.choice(LIMITS) if rng.random() < 0.04 else rng.randrange(-3, 4)
    return rng.choice(ODD_NUMBERS) if rng.random() < 0.005 else str(value)


def predicate(rng, variables, depth=0):
    if depth < 3 and rng.random() < 0.45:
        first, last = (predicate(rng, variables, depth + 1) for _ in range(2))
        return rng.choice([f"({first} and {last})", f"({first} or {last})", f"not ({first})"])
    terms = [rng.choice(["", "2*", "3*"]) + ".".join(rng.choice(variables)) for _ in range(rng.randrange(1, 3))]
    sides = rng.choice([" + ", " - "]).join(terms)
    return f"{sides} {rng.choice(['==', '!=', '<', '<=', '>', '>='])} {rng.randrange(-3, 4)}"


def session(rng):
    """A document, and a list of lines for each stream."""
    names = [f"p{k}" for k in range(rng.randrange(1, 6))]
    variables = {name: [f"v{k}" for k in range(rng.randrange(0, 4))] for name in names}
    variables[names[0]] = variables[names[0]] or ["v0"]
    all_variables = [(name, var) for name in names for var in variables[name]]
    document = {
        "processes": [{"name": name, "vars": {var: rng.randrange(-1, 2) for var in variables[name]}} for name in names],
        "predicates": [{"name": f"q{k}", "text": predicate(rng, all_variables)} for k in range(rng.randrange(1, 4))],
    }
    if rng.random() < 0.6:
        document["width"] = rng.choice([1, 2, 3, 5, 8, 20, 65536])
    lines = {name: [written_object(rng, [("process", text(rng, name))])] for name in names}
    flying = []
    for count in range(rng.randrange(0, 22)):
        name = rng.choice(names)
        members = []
        kind = rng.random()
        if kind < 0.3:
            message = rng.choice(["m", "é", "\U0001f600", "a/b", 'q"', "i" * 62]) + str(count)
            members.append(("send", text(rng, message)))
            flying.append((name, message))
        elif kind < 0.6 and any(sender != name for sender, _ in flying):
            sent = rng.choice([sent for sent in flying if sent[0] != name])
            flying.remove(sent)
            members.append(("recv", text(rng, sent[1])))
        chosen = [var for var in variables[name] if rng.random() < 0.6]
        if chosen or rng.random() < 0.1:
            members.append(("set", written_object(rng, [(var, number(rng)) for var in chosen])))
        lines[name].append(written_object(rng, members))
    while len(names) > 1 and rng.random() < 0.3:
        # anywhere, so that some events happen before themselves
        for name, kind in zip(rng.sample(names, 2), ["send", "recv"]):
            line = written_object(rng, [(kind, f'"late{len(flying)}"')])
            lines[name].insert(rng.randrange(1, len(lines[name]) + 1), line)
        flying.append((names[0], f"late{len(flying)}"))
    for name in names:
        lines[name].append(written_object(rng, [("end", "true")]))
    streams = list(lines.values())
    if rng.random() < 0.3:
        rng.shuffle(streams)
    return json.dumps(document).encode(), streams


def damage_bytes(rng, data):
    at = rng.randrange(len(data) + 1)
    end = min(len(data), at + rng.choice([1, 1, 3, 20]))
    how = rng.randrange(4)
    if how == 0:
        return data[:at] + bytes([rng.randrange(256)]) + data[end:]
    if how == 1:
        return data[:at] + data[end:]
    if how == 2:
        return data[:at] + rng.choice(ODD_BYTES) + data[at:]
    return data[:at]


def damage_lines(rng, lines):
    at, other = (rng.randrange(len(lines)) for _ in range(2))
    how = rng.randrange(4)
    if how == 0:
        del lines[at]
    elif how == 1:
        lines.insert(other, lines[at])
    elif how == 2:
        lines[at], lines[other] = lines[other], lines[at]
    else:
        lines.insert(at, rng.choice(["", " ", "\r", "{}", '{"end":true}', '{"process":"p0"}', '{"send":"m0"}']))


def drawn(rng):
    """A document and the bytes of its streams, damaged or not."""
    document, streams = session(rng)
    while rng.random() < 0.25 and streams:
        lines = rng.choice(streams)
        if lines:
            damage_lines(rng, lines)
    end = rng.choice(["\n", "\n", "\n", "\r\n"])
    streams = [(end.join(lines) + rng.choice([end, end, end, ""])).encode() for lines in streams]
    while rng.random() < 0.25 and streams:
        at = rng.randrange(len(streams))
        streams[at] = damage_bytes(rng, streams[at])
    if rng.random() < 0.05:
        streams = streams + streams[:1] if rng.random() < 0.5 else streams[1:]
    if rng.random() < 0.03:
        document = damage_bytes(rng, document)
    return document, streams


def run(words, given, cwd):
    ended = subprocess.run(words, input=given, cwd=cwd, capture_output=True, timeout=60, check=False)
    return ended.returncode, ended.stdout, ended.stderr


def run_in_pieces(rng, words, given, cwd):
    """The same, where standard input comes in pieces."""
    pipe = subprocess.PIPE
    with subprocess.Popen(words, stdin=pipe, stdout=pipe, stderr=pipe, cwd=cwd, bufsize=0) as running:
        most = rng.choice([1, 2, 7, 30, 200])
        while given and running.poll() is None:
            size = rng.randrange(1, most + 1)
            try:
                running.stdin.write(given[:size])
            except BrokenPipeError:
                break
            given = given[size:]
        report, errors = running.communicate(timeout=60)
        return running.returncode, report, errors


def is_plain(part):
    """Whether a part of a bundle can be given as a file: it holds no separator, and its last line ends."""
    return part.endswith(b"\n") and not any(line.rstrip(b"\r") == b"---" for line in part.split(b"\n"))


def is_wrong(ended):
    status, report, errors = ended
    if errors or status not in (0, 1) or not report.endswith(b"\n"):
        return True
    return (status == 1) != report.startswith(b"refused ") or (status == 1 and report.count(b"\n") != 1)


def judge_files(rng, program, parts, ended, folder):
    """Why the session is judged or checked wrong from files, or None. `ended` is how the bundle was judged."""
    names = [f"part{k}" for k in range(len(parts))]
    for name, part in zip(names, parts):
        with open(os.path.join(folder, name), "wb") as file:
            file.write(part)
    from_files = run([program, "judge", *names], b"", folder)
    if from_files != ended:
        return f"bundle: {ended}, files: {from_files}"
    report = os.path.join(folder, "report")
    with open(report, "wb") as file:
        file.write(ended[1])
    check = [program, "check", names[0], "report", *names[1:]]
    found = run(check, b"", folder)
    if found[0] != 0 or b"bad" in found[1] or found[2] or not found[1].endswith(b"\n"):
        return f"report: {ended}, checked: {found}"
    with open(report, "wb") as file:
        file.write(damage_bytes(rng, ended[1]))
    status, text, errors = run(check, b"", folder)
    if (status, text, errors) != (3, b"", b"monitor: read\n") and (status not in (0, 1) or errors or not text):
        return f"damaged report checked: {(status, text, errors)}"
    return None


def judge(rng, program, other, folder):
    """Draws a session. Its report's kind, and why it is judged wrong, or None."""
    document, streams = drawn(rng)
    parts = [document + b"\n", *streams]
    bundle = b"---\n".join(part if part.endswith(b"\n") else part + b"\n" for part in parts)
    ended = run_in_pieces(rng, [program], bundle, folder)
    why = None
    if is_wrong(ended):
        why = f"bundle: {ended}"
    elif streams and all(is_plain(part) for part in parts):
        why = judge_files(rng, program, parts, ended, folder)
    if not why and other:
        of_other = run([other], bundle, folder)
        why = f"bundle: {ended}, other program: {of_other}" if of_other[1] != ended[1] else None
    if why:
        why = "\n".join([why, repr(document), *map(repr, streams)])
    return kind_of(ended[1]), why


def kind_of(report):
    """The first words of a report, without its numbers and names."""
    words = report.decode(errors="replace").split("\n")[0].split(" ")
    kept = [word for word in words if word.isalpha() and word != "line"]
    return " ".join(kept[:3] if words[0] == "refused" else words[:1])


def judge_some(program, other, seeds):
    """How many reports of each kind these sessions have, and the seed and reason of each that is judged wrong."""
    kinds, wrong = collections.Counter(), []
    with tempfile.TemporaryDirectory() as folder:
        for seed in seeds:
            try:
                kind, why = judge(random.Random(seed), program, other, folder)
            except subprocess.TimeoutExpired as late:
                kind, why = "no end", f"no end: {late.cmd}"
            kinds[kind] += 1
            if why:
                wrong.append(f"seed {seed}: {why}")
    return kinds, wrong


def main():
    parser = argparse.ArgumentParser()
    parser.add_argument("program")
    parser.add_argument("--other")
    parser.add_argument("--count", type=int, default=1000)
    parser.add_argument("--seed", type=int, default=1)
    parser.add_argument("--jobs", type=int, default=1)
    words = parser.parse_args()
    seeds = range(words.seed, words.seed + words.count)
    program, other = (os.path.abspath(name) if name else None for name in (words.program, words.other))
    tasks = [(program, other, seeds[at:at + 100]) for at in range(0, words.count, 100)]
    kinds, wrong = collections.Counter(), 0
    with multiprocessing.Pool(words.jobs) as pool:
        for some, why in pool.starmap(judge_some, tasks, chunksize=1):
            kinds += some
            wrong += len(why)
            for text in why:
                print(text, flush=True)
    for kind, count in sorted(kinds.items()):
        print(f"{count:8} {kind}")
    print(f"{words.count} sessions from seed {words.seed}: {wrong} judged wrong")
    sys.exit(1 if wrong else 0)


if __name__ == "__main__":
    main()
