#!/usr/bin/env python3
"""play.py [--ends-at-limit] PLAYER [WORD..]: plays the cases, and then the trials, with a player: a program that makes
the calls which it is told on its standard input with the recorder of its language, as README.md explains. With
--ends-at-limit the system has to end one that writes to a file at the limit of its size; otherwise the call has to fail.

Each recording is judged by the program, if that is built: crates/monitor/out/monitor, or the one that MONITOR names. A
case that goes otherwise is printed. The last line says how many cases and trials were played, how many calls were left
out since the player's language has no such call, and how many cases and trials went otherwise; the status is 1 if any
did.
"""
import functools
import signal
import sys
import tempfile

import judged
import noted
import reading
import trials
from players import Players, Stream, Wrong, see_text

# Whatever hangs is ended after so many seconds.
MOST_SECONDS = 600
# So many calls of a row are made before their bytes are looked at.
AT_ONCE = 100
# A call that begins so is given the path of a file.
MAKES_FILE = ("file ", "noted ", "replaced ", "again ", "noted-again ", "long ")


def play(case, players, folder):
    """Plays a case, and gives how many calls were left out. It ends where no recorder can be made."""
    left_out, streams, begun = 0, {}, {}
    for call in case.calls:
        stream = streams.setdefault(call.process, Stream(folder, call.process))
        player, words = owner_of(call.process, begun)
        note_strand(call, folder, streams, begun)
        for written, _ in call.lines:  # also that of a later incarnation
            streams.setdefault(written, Stream(folder, written))
        try:
            for first in range(1, call.times + 1, AT_ONCE):
                numbers = range(first, min(first + AT_ONCE, call.times + 1))
                turns = [call.numbered(number) for number in numbers]
                missing = make(players.of(player), words, stream, streams, turns)
                left_out += missing
                if not left_out:
                    see_notes(streams, turns)
        except Wrong as wrong:
            raise Wrong(f"{call.where}: {wrong}") from None
        if missing and call.words.startswith(MAKES_FILE):
            break
    for process in {call.process for call in case.calls} - set(begun):
        players.of(process).ask("close")
    paths = [stream.path for stream in streams.values() if stream.size]
    if judged.has_program() and paths:
        judge(None if left_out else case.document, case.report, folder, paths)
    return left_out


def note_strand(call, folder, streams, begun):
    """Notes who begins a strand, if that is the call, and where its stream is. A name that is taken stays taken."""
    word, _, name = call.words.partition(" ")
    if word == "strand" and name not in streams:
        streams[name], begun[name] = Stream(folder, name), call.process


def owner_of(process, begun):
    """The process whose player makes the calls of this one, and the words with which they begin: a strand's calls are
    made by the player of the process whose strand it is."""
    words = f"in {process} " if process in begun else ""
    while process in begun:
        process = begun[process]
    return process, words


def make(player, prefix, stream, streams, turns):
    """Has calls made, which are words, an answer and what is written; gives how many were left out."""
    wanted, left_out = {}, 0
    for words, *_ in turns:
        makes_file = words.startswith(MAKES_FILE)
        if words.startswith("replaced "):
            stream.begin_again()
        player.tell(f"{words} {stream.word()}" if makes_file else prefix + words)
    for words, answer, written, _ in turns:
        if player.has_answered(words, answer):
            for process, text in written.items():
                wanted[process] = wanted.get(process, b"") + text
        else:
            left_out += 1
    for process, each in streams.items():
        see_text(each.added(), wanted.get(process, b""))
    return left_out


def see_notes(streams, turns):
    """Sees that the calls have written these notes, and no others."""
    wanted = {process: [] for process in streams}
    for words, _, _, notes in turns:
        for process, note in notes:
            wanted[process].append((note, noted.call_in(words)))
    for process, stream in streams.items():
        noted.see_notes(process, stream.notes.added(), wanted[process])


def judge(document, report, folder, paths):
    if document:
        judged.see_report(folder, document, paths, report)
    else:
        judged.Plain(paths).see(folder)


def ends(players, _folder):
    """players that end by themselves"""
    for player in players.running.values():
        player.end()


def main():
    words = sys.argv[1:]
    end_at_limit = words[:1] == ["--ends-at-limit"]
    del words[:end_at_limit]
    if not words or words[0].startswith("-"):
        sys.exit(__doc__)
    signal.alarm(MOST_SECONDS)
    plays = [(case.name, functools.partial(play, case)) for case in reading.all_cases()]
    plays += [(trial.__doc__, trial) for trial in [*trials.TRIALS, ends]]
    left_out, wrong = 0, 0
    with Players(words, end_at_limit) as players:
        for name, one in plays:
            with tempfile.TemporaryDirectory() as folder:
                try:
                    left_out += one(players, folder) or 0
                except (Wrong, ValueError, LookupError) as error:
                    wrong += 1
                    print(f"cases: {name}: {error if isinstance(error, Wrong) else repr(error)}")
                    players.forget()
    unjudged = "" if judged.has_program() else f"; nothing is judged, for there is no program {judged.PROGRAM}"
    print(f"cases: {len(plays)} played, {left_out} calls left out, {wrong} wrong{unjudged}")
    sys.exit(1 if wrong else 0)


if __name__ == "__main__":
    main()
