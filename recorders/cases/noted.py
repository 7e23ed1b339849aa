"""Notes: what recorders write beside streams, a line for each event."""
import json
import os
import re
import time

from players import see

RECORDERS = os.path.dirname(os.path.dirname(os.path.abspath(__file__)))
# The files of the players, by their names: a note's place is a line of one of them.
PLAYERS = {os.path.basename(path): os.path.join(RECORDERS, path) for path in
           ("python/player.py", "javascript/player.cjs", "go/player/main.go", "java/Player.java",
            "rust/examples/player.rs", "c/player.c", "c/player.cpp")}
PLACE = re.compile(r"(?:.*[/\\])?([^/\\]+):([1-9][0-9]*)")
FIELDS = ["process", "event", "text", "place", "clock"]
BEGIN = time.time()
# Other calls than these stand in a line of the player as they do in the cases. A strand ends by what closes it too.
SPELLED = {"end": ("end", "close"), "unlock": ("unlock", "release"), "lock": ("lock", "acquire"),
           "put": ("put", "carry"), "take": ("take", "get"), "noted-again": ("tofile",)}


def call_in(words):
    """The call that the words of a case make."""
    words = words.split(" ")
    while words[0] in ("note", "in"):
        words = words[2:]
    return words[0]


def see_notes(process, text, wanted):
    """Sees that these are the notes, given as the number of the event and its text as JSON has it between quotes, and
    the call that the player makes in the line which is the place."""
    lines = text.decode().split("\n")
    see(lines.pop() == "" and len(lines) == len(wanted), f"there are the notes\n{text}\nand not those of {wanted}")
    for line, (note, call) in zip(lines, wanted):
        number, _, said = note.partition(" ")
        head = f'{{"process": "{process}", "event": {number}, "text": "{said}", "place": "'
        see(line.startswith(head), f"the note is\n{line}\nand doesn't begin\n{head}")
        see_note(line, SPELLED.get(call, (call,)))


def see_note(line, calls):
    """Sees that the note has its fields in their order, the time by the clock, and the place of one of these calls, and
    gives it."""
    note = json.loads(line)
    see(list(note) == FIELDS, f"the note has other fields: {line}")
    see(re.search(r', "clock": [0-9]+\.[0-9]{6}\}$', line), f"the note has no clock of microseconds: {line}")
    see(BEGIN - 1 <= note["clock"] <= time.time() + 1, f"the note's clock isn't that of this machine: {line}")
    place = PLACE.fullmatch(note["place"])
    see(place and place[1] in PLAYERS, f"the note's place is none in a player: {line}")
    with open(PLAYERS[place[1]], encoding="utf-8") as file:
        there = file.read().split("\n")[int(place[2]) - 1]
    spelled = there.replace("_", "").lower()
    see(any(call.replace("-", "") in spelled for call in calls),
        f"the note's place has no call {' or '.join(calls)}, but:\n{there}")
    return note


def see_all(text, events, process="left"):
    """Sees that these are the notes of so many events."""
    lines = text.decode().splitlines()
    numbers = [see_note(line, ("send", "event", "receive"))["event"] for line in lines]
    see(numbers == list(range(1, events + 1)), f"of {events} events of {process} these have notes: {numbers}")
