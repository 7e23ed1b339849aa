"""What the example asks of PostgreSQL, by simple queries of its protocol, version 3, with Python's standard library
alone, over the socket of a server that trusts whoever can reach it."""
import re
import socket
import struct

SECONDS = 60
VERSION = 3 << 16
USER = "postgres"
# The place in the server's log up to which it is written: no commit that a statement has seen comes after it.
POSITION = "SELECT pg_current_wal_lsn() - '0/0'"
SLOT = "monitor"
PREFIX = "monitor"
MARK = re.compile(f"message: transactional: 1 prefix: {PREFIX}, sz: [0-9]+ content:(.*)", re.DOTALL)


def quoted(text):
    return "'" + text.replace("'", "''") + "'"


def marked(message):
    """The statement that leaves the mark of a message in the log, if its transaction commits."""
    return f"SELECT pg_logical_emit_message(true, {quoted(PREFIX)}, {quoted(message)})"


def framed(kind, body):
    return kind + struct.pack("!i", len(body) + 4) + body


def row_of(body):
    """The values of a row, as texts; None for NULL."""
    row, place = [], 2
    for _ in range(*struct.unpack_from("!h", body)):
        (size,) = struct.unpack_from("!i", body, place)
        place += 4
        row.append(None if size < 0 else body[place:place + size].decode())
        place += max(size, 0)
    return row


class Postgres:
    """A session with a server, by the folder of its socket."""

    def __init__(self, folder):
        self.socket = socket.socket(socket.AF_UNIX)
        self.socket.settimeout(SECONDS)
        try:
            self.socket.connect(f"{folder}/.s.PGSQL.5432")
            self.input = self.socket.makefile("rb")
            self.socket.sendall(framed(b"", struct.pack("!i", VERSION) + f"user\0{USER}\0\0".encode()))
            self.answer()
        except BaseException:
            self.socket.close()
            raise

    def ask(self, *statements):
        """The rows that all of these statements give. Without BEGIN they are one transaction."""
        self.socket.sendall(framed(b"Q", "; ".join(statements).encode() + b"\0"))
        return self.answer()

    def answer(self):
        rows, kind, error = [], None, None
        while kind != b"Z":
            header = self.input.read(5)
            if len(header) < 5:
                raise ConnectionError(f"PostgreSQL has closed the connection: {error}")
            kind, size = struct.unpack("!ci", header)
            body = self.input.read(size - 4)
            if kind == b"D":
                rows.append(row_of(body))
            elif kind == b"E":
                error = body.decode().replace("\0", " ")
        if error is not None:
            raise ConnectionError(f"PostgreSQL refuses: {error}")
        return rows

    def position(self):
        return int(self.ask(POSITION)[0][0])

    def begin_feed(self):
        """From here on the server keeps what changes, until `changes` reads it."""
        self.ask(f"SELECT pg_create_logical_replication_slot({quoted(SLOT)}, 'test_decoding')")

    def changes(self):
        """The commits since the feed began, in their order: of each the place after it in the log, the mark that was
        left with it, or None, and the lines that say what it changed."""
        mark, lines = None, []
        for place, line in self.ask(f"SELECT lsn - '0/0', data FROM pg_logical_slot_get_changes({quoted(SLOT)}, NULL, "
                                    "NULL, 'skip-empty-xacts', 'on')"):
            found = MARK.fullmatch(line)
            if line.startswith("COMMIT "):
                yield int(place), mark, lines
                mark, lines = None, []
            elif found:
                mark = found[1]
            elif not line.startswith("BEGIN "):
                lines.append(line)
