"""Players: programs that make the calls which they are told, each with the recorder of its language."""
import contextlib
import os
import subprocess
from urllib.parse import quote


class Wrong(Exception):
    """Something is not as it must be: its text says what."""


def see(is_so, what):
    if not is_so:
        raise Wrong(what)


def see_text(text, wanted):
    see(text == wanted, f"there is\n{text}\nand not\n{wanted}")


def is_answer(answer, wanted):
    """Whether an answer is the one that is wanted, or a text with the words that it has to say."""
    if wanted.startswith("says "):
        return answer.startswith("recorded ") and all(word in answer for word in wanted.split()[1:])
    return answer == wanted


class Player:
    """A player that runs, with this added to its environment. It has one recorder at a time. It is killed with the
    context, if it still runs then."""

    def __init__(self, words, environment=None):
        self.process = subprocess.Popen(words, stdin=subprocess.PIPE, stdout=subprocess.PIPE,
                                        env={**os.environ, **(environment or {})})

    def tell(self, words):
        """Tells it to make a call, and doesn't wait for the answer."""
        try:
            self.process.stdin.write(f"{words}\n".encode())
            self.process.stdin.flush()
        except BrokenPipeError:
            raise Wrong(f"the player ended before: {words[:200]}") from None

    def answer(self):
        line = self.process.stdout.readline()
        see(line.endswith(b"\n"), "the player ended without an answer")
        return line.decode().rstrip("\n")

    def has_answered(self, words, wanted):
        """Sees that the answer to this call is the one that is wanted; False if its language has no such call."""
        answer = self.answer()
        see(answer == "cannot" or is_answer(answer, wanted),
            f"the answer to `{words[:200]}` is `{answer}`, and not `{wanted}`")
        return answer != "cannot"

    def ask(self, words, wanted="recorded"):
        """Tells it to make a call, and sees that the answer is the one that is wanted."""
        self.tell(words)
        see(self.has_answered(words, wanted), f"the player can't make the call `{words[:200]}`")

    def kill(self):
        """Kills it, and gives what it had answered before and nobody had read."""
        self.process.kill()
        rest = self.process.stdout.read()
        with contextlib.suppress(BrokenPipeError):
            self.process.stdin.close()
        self.process.stdout.close()
        self.process.wait()
        return rest.decode().splitlines()

    def end(self):
        """Has it end by itself, since no more calls come."""
        self.process.stdin.close()
        status = self.process.wait()
        see(status == 0, f"the player ends with status {status}")

    def __enter__(self):
        return self

    def __exit__(self, kind, error, trace):
        if self.process.poll() is None or not self.process.stdout.closed:
            self.kill()


class Players(contextlib.ExitStack):
    """A player for each process of a session, kept from one session to the next, since some take long to start. If they
    end at a limit, SIGXFSZ ends one that writes to a file at the limit of its size."""

    def __init__(self, words, end_at_limit=False):
        super().__init__()
        self.words, self.end_at_limit, self.running = words, end_at_limit, {}

    def of(self, process):
        if process not in self.running:
            self.running[process] = self.enter_context(Player(self.words))
        return self.running[process]

    def forget(self):
        """Kills them all: new ones are made for whatever comes next."""
        self.close()
        self.running = {}


class Stream:
    """A stream's file, of which each byte is read once, when it is there, or that of its notes."""

    def __init__(self, folder, process, ending="stream"):
        self.path, self.size = os.path.join(folder, f"{process}.{ending}"), 0
        self.notes = None if ending != "stream" else Stream(folder, process, "notes.jsonl")

    def begin_again(self):
        """The file is a new one, or is to be replaced."""
        self.size = self.notes.size = 0

    def added(self):
        """What has been added since the last time."""
        if not os.path.exists(self.path):
            return b""
        with open(self.path, "rb") as file:
            file.seek(self.size)
            text = file.read()
        self.size += len(text)
        return text

    def word(self):
        """Its path, as a word of a call."""
        return quote(self.path)
