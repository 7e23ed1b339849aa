"""What bench/fuzz.py damages: sessions of cases/, words out of them, and how bytes are damaged."""
import functools
import os
import random
import re
import sys
import tomllib

ROOT = os.path.dirname(os.path.dirname(os.path.abspath(__file__)))
sys.dont_write_bytecode = True
sys.path.insert(0, os.path.join(ROOT, "cases"))
from run import data  # noqa: E402

# Sessions of more bytes are none to begin with: a run is to take milliseconds.
SIZE_LIMIT = 2_000
DIVIDER = b"---\n"
WORD = re.compile(rb'"(?:[^"\\]|\\.){1,40}"|-?[0-9]{1,20}|[A-Za-z_]{2,20}|[<>=!]=|[{}\[\](),:+*-]')
NUMBERS = [b"0", b"-1", b"1", b"16", b"17", b"4096", b"65536", b"65537", b"9223372036854775807",
           b"-9223372036854775808", b"9223372036854775808", b"18446744073709551615", b"1e9", b"-0", b"007", b"1" * 400]
PIECES = [b"\0", b"\n", b"\r\n", b"\\", b'\\"', b"\\u0000", b"\\ud800", b"\xff", b"\xc3\xa9", b"\xed\xa0\x80",
          b"\x1b[2J", b"</script>", b"<!--", b"]]>", b"&", b"---\n", b"{" * 130, b"[" * 130, b"not " * 70, b"(" * 70,
          b"x" * 70]


class Session:
    """A session of the cases: its document, its streams and its report, as bytes."""

    def __init__(self, case):
        self.document = data(case["document"])
        self.streams = [data(stream) for stream in case["streams"]]
        self.report = data(case["report"])

    def size(self):
        return len(self.bundle()) + len(self.report)

    def bundle(self):
        return DIVIDER.join([self.document.rstrip(b"\n") + b"\n", *self.streams])


@functools.lru_cache
def sessions():
    """The sessions of the cases that are small, and have a stream."""
    found = []
    for name in sorted(os.listdir(os.path.join(ROOT, "cases"))):
        if name.endswith(".toml"):
            with open(os.path.join(ROOT, "cases", name), "rb") as file:
                found += [Session(case) for case in tomllib.load(file).get("session", [])]
    return [session for session in found if session.streams and session.size() <= SIZE_LIMIT]


@functools.lru_cache
def words_of_sessions():
    return words_of(session.bundle() for session in sessions())


def words_of(texts):
    """The words of these texts, each once, in their order."""
    return list(dict.fromkeys(word for text in texts for word in WORD.findall(text)))


class Damage:
    """Damages bytes, by a generator of random numbers, with words and other texts to take parts of."""

    def __init__(self, rng, words, texts):
        self.rng, self.words, self.texts = rng, words, texts

    def some(self, text, most=6):
        """The bytes after one to so many steps; now and then as they are."""
        for _ in range(self.rng.choice([0, 1, 1, 1, 2, 3, most])):
            text = self.rng.choice(self.STEPS)(self, text)
        return text

    def place(self, text):
        return self.rng.randrange(len(text) + 1)

    def part(self, text):
        """Where a part begins and ends that is short, mostly."""
        first = self.place(text)
        return first, min(len(text), first + self.rng.choice([1, 2, 4, 16, 64, 1000]))

    def with_bit(self, text):
        at = self.rng.randrange(max(1, len(text)))
        return text[:at] + bytes(byte ^ 1 << self.rng.randrange(8) for byte in text[at:at + 1]) + text[at + 1:]

    def with_word(self, text):
        at = self.place(text)
        return text[:at] + self.rng.choice([self.rng.choice(self.words), self.rng.choice(PIECES)]) + text[at:]

    def other_word(self, text):
        found = list(WORD.finditer(text))
        if not found:
            return text
        old = self.rng.choice(found)
        return text[:old.start()] + self.rng.choice(self.words) + text[old.end():]

    def other_number(self, text):
        found = list(re.finditer(rb"-?[0-9]+", text))
        if not found:
            return text
        old = self.rng.choice(found)
        return text[:old.start()] + self.rng.choice(NUMBERS) + text[old.end():]

    def without_part(self, text):
        first, last = self.part(text)
        return text[:first] + text[last:]

    def with_part_twice(self, text):
        first, last = self.part(text)
        return text[:last] + text[first:last] * self.rng.choice([1, 1, 2, 30]) + text[last:]

    def with_other_part(self, text):
        other = self.rng.choice(self.texts)
        first, last = self.part(other)
        at = self.place(text)
        return text[:at] + other[first:last] + text[at:]

    def other_lines(self, text):
        lines = text.splitlines(keepends=True)
        if len(lines) > 1:
            one, two = (self.rng.randrange(len(lines)) for _ in range(2))
            lines[one], lines[two] = lines[two], lines[self.rng.choice([one, two])]
        return b"".join(lines)

    def cut(self, text):
        return text[:self.place(text)]

    STEPS = (with_bit, with_word, other_word, other_word, other_number, other_number, without_part, with_part_twice,
             with_other_part, other_lines, cut)


def damage_for(seed, target, number, words, texts):
    """What damages the input of this number for this target: the same each time."""
    return Damage(random.Random(f"{seed} {target} {number}"), words, texts)
