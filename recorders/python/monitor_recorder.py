"""Records one process of a distributed program for `monitor`: its events in their order, one line each.

    from monitor_recorder import Recorder

    with Recorder.to_file("left", "left.stream") as recorder:
        recorder.event(inside=1)                  # something happened; `inside` is 1 from now on
        message = recorder.send(money=70)         # BEFORE the message leaves; the id that it gives travels with it
        recorder.receive(other_message, money=80) # AFTER a message has come, with the id that came with it

Each line is handed to the operating system before the call returns, so that nothing that was recorded is lost if the
process crashes. Several threads may use one recorder. What `monitor` would refuse is refused at once, by `NotRecorded`,
and the recorder goes on as if the call hadn't been made. The formats and limits are those of docs/SPECIFICATION.md.

One recorder is one order of events. A thread or task that waits by itself gets a strand, or the order in which it came
is taken for a cause:

    worker = recorder.strand("worker")            # where the thread or task is started; it records to worker.stream
    with worker:                                  # in the thread or task: `current()` is `worker` there
        worker.event(busy=1)
    recorder.join(worker)                         # AFTER the thread or task has been waited for

A session has limits, and a recording that is over them is refused at the call. With `long=True`, or MONITOR_LONG=1 in
the environment, it is a long recording, of any length, which monitor_reduce.py reduces before it is judged.

Events have no names. With `notes=True` each has a note in left.notes.jsonl, of the line of the program that recorded
it, and of a text if one is given, as by `recorder.event(inside=1, note="the lock is ours")`.
"""
import collections
import contextlib
import contextvars
import errno
import io
import itertools
import json
import operator
import os
import queue
import re
import socket
import sys
import threading
import time

try:
    import fcntl
except ImportError:
    fcntl = None

EVENT_LIMIT = 10_000
VARIABLE_LIMIT = 16
PROCESS_LIMIT = 16
NAME_BYTE_LIMIT = 32
ID_BYTE_LIMIT = 64
# The limits of a long recording.
LONG_EVENT_LIMIT = 2_147_483_647
LONG_PROCESS_LIMIT = 4_096
LONG_ID_BYTE_LIMIT = 1_024
LEAST_VALUE, GREATEST_VALUE = -(2**63), 2**63 - 1
NAME = re.compile(r"[A-Za-z_][A-Za-z0-9_]*")
RESERVED = frozenset(["and", "or", "not", "true", "false"])
CONNECT_SECONDS = 10.0
# So long a machine may take to say whether anybody listens, if the time for which that is waited for is less.
ANSWER_SECONDS = 1.0
# So many letters of a wrong value are shown.
SHOWN = 60
ENDING, NOTES_ENDING = ".stream", ".notes.jsonl"
# At most so many bytes of UTF-8 has a note of its text, and of its place's file: what is longer is cut.
NOTE_BYTE_LIMIT = 1_024
# Besides what JSON escapes these are: a terminal takes some for commands, and what reads lines others for their ends.
ESCAPED = re.compile("[\x7f-\x9f\u2028\u2029]")
SURROGATE = re.compile("[\ud800-\udfff]")
PLACE, WITH_NOTES, AS_LONG, TOKEN = "MONITOR_TO", "MONITOR_NOTES", "MONITOR_LONG", "MONITOR_TOKEN"
TOKEN_BYTE_LIMIT = 1_024
# A port: of this machine, or of another one by its name or address. One of IPv6 stands in brackets.
PORT = re.compile(r"\A(?:\[([0-9A-Fa-f:.]+(?:%[A-Za-z0-9._-]+)?)\]|([A-Za-z0-9._-]*)):([0-9]{1,5})")
PORT_LIMIT = 65_534
SOCKET, SOCKET_BYTE_LIMIT = "unix:", 107
HERE, OWN_HOSTS = "127.0.0.1", ("", "localhost")
# What a connection ends with while nobody listens at its place.
NOBODY = (ConnectionRefusedError, FileNotFoundError)
PLACES = f"a folder, a port as :7411, host:7411 or [::1]:7411, from 1 to {PORT_LIMIT}, or a socket as unix:/run/a.sock"
OPEN, CLOSED, BROKEN = "open", "closed", "broken off, since a line could not be written"
# At most so many events has a process, so many processes have a recorder and its strands, and so many bytes has an id.
Limits = collections.namedtuple("Limits", "events processes id_bytes")
SESSION = Limits(EVENT_LIMIT, PROCESS_LIMIT, ID_BYTE_LIMIT)
LONG = Limits(LONG_EVENT_LIMIT, LONG_PROCESS_LIMIT, LONG_ID_BYTE_LIMIT)
AS_A_LONG_RUN = f"record it as a long run: long=True or {AS_LONG}=1, and reduce it by monitor_reduce.py"
CURRENT = contextvars.ContextVar("monitor_recorder", default=None)


class NotRecorded(ValueError):
    """A call was refused and wrote nothing: its text says why."""


class IdTwice(NotRecorded):
    """The process has sent or received a message with this id before. So a receipt is that of a second copy."""


def current():
    """The recorder in whose `with` block this code runs, or None. A task of asyncio has that of the code which started
    it, until it enters a block of its own. A thread has to enter one."""
    return CURRENT.get()


class Recorder:
    """The recording of one process, or of a strand of one. It writes its first line when it is made.

    `out` takes bytes, without a buffer of its own: a file that was opened with `buffering=0`, or a connected socket. A
    file with a buffer is refused, since a crash loses what stands in it. `out` is closed with the recorder.

    If `variables` is given, no other variable may be set; otherwise any 16 may.

    With `long`, or MONITOR_LONG=1 in the environment, it is a long recording: it may have 2,147,483,647 events, 4,096
    processes with its strands, and ids of 1,024 bytes, and has to be reduced by monitor_reduce.py before it is judged.

    Other threads may record too, but no signal handler. Hold `lock`, by `with recorder.lock:`, if an event and its line
    must stay together.
    """

    _kept_events = 0

    def __init__(self, process, out, variables=None, long=False):
        self._begin(process, out, variables, limits_of(long))
        self._family = Family(self)

    def _begin(self, process, out, variables, limits):
        self.process = checked_name("process", process)
        self.lock = threading.RLock()
        self._limits = limits
        self._last = None
        self._outer = []
        self._variables = checked_variables(variables)
        self._out = checked_file(out)
        self._notes = None
        self._owner = os.getpid()
        self._state = OPEN
        self._events = 0
        self._made = 0
        self._ids = set()
        self._names = set()
        self._write({"process": process})
        self._state = OPEN

    @classmethod
    def to_file(cls, process, path, variables=None, replace=False, again=False, notes=False, long=False):
        """Records to a new file. One that is there already is a FileExistsError, unless it is to be replaced, with its
        notes.

        With `notes` each event gets a note, in a file beside: that of `left.stream` is `left.notes.jsonl`. The path
        has to end with `.stream` then. docs/RECORDING.md has the format.

        With `again` a file that is there is what the process recorded before it was killed and started again. Then a
        further incarnation is recorded, as a process of its own and to a file beside: of `left` and `left.stream` the
        second one is `left_2` in `left_2.stream`. Its first event receives the message `left-ended`, by which it comes
        after all that the one before did; monitor_mend adds the send. It is refused while the one before still runs,
        and on a system without POSIX's locks.

        With `long` it is a long recording, as that of the constructor.
        """
        if replace and again:
            raise NotRecorded("again: a file that is replaced has no recording of an earlier incarnation")

        def opened():
            return opened_files(path, notes, replace)

        def opened_for(name):
            return opened_files(checked_beside(first, name, replace), notes, replace)

        first = os.path.abspath(os.fsdecode(path))  # the working directory may change
        if notes:
            checked_ending(first)
        if again:
            if fcntl is None:
                raise NotRecorded("again: this system has no locks by which it is seen that an earlier incarnation has "
                                  "ended")
            return cls._incarnation(process, path, variables, notes, long, opened_for)
        return cls._over(process, variables, long, opened, opened_for)

    @classmethod
    def _incarnation(cls, process, path, variables, notes, long, opened_for):
        number = next(number for number in itertools.count(1) if not os.path.lexists(path_of(path, number)))
        if number > 1:
            refuse_running(incarnation_of(process, number - 1), path_of(path, number - 1))
        # It gets its name once the receipt stands in it, so that it has that whenever the process is killed.
        part = new_part(path_of(path, number))
        recorder = None

        def opened():
            # Notes that are there are of an incarnation that was killed before its stream had its name.
            return locked_file(part), open_notes(path_of(path, number), True) if notes else None

        try:
            name = incarnation_of(process, number)
            recorder = cls._over(name, variables, long, opened, opened_for)
            if number > 1:
                recorder.receive(ending_of(incarnation_of(process, number - 1)))
            os.rename(part, path_of(path, number))
        except BaseException:
            if recorder is not None:
                recorder.abandon()
            with contextlib.suppress(FileNotFoundError):
                os.unlink(part)
            raise
        return recorder

    @classmethod
    def to_port(cls, process, port, variables=None, seconds=CONNECT_SECONDS, token=None):
        """Records to `monitor serve` on a port of this machine. If nobody listens there yet, it is tried again until
        these seconds have passed, and then is an OSError. A call waits while the monitor doesn't read. It is refused
        with MONITOR_LONG=1, since a long recording is reduced before it is judged.

        Each connection begins with the token, if there is one, as the line that `monitor serve --token` asks for: this
        text or, without it, MONITOR_TOKEN in the environment."""
        return cls._to_address(process, (HERE, port), f"the port is {port}", variables, seconds, token=token)

    @classmethod
    def _to_address(cls, process, address, said, variables, seconds, long=False, token=None):
        checked_name("process", process)
        if limits_of(long) is LONG:
            raise NotRecorded(f"long: {said}, and monitor serve judges within the limits of a session: record a long "
                              f"run to a folder, and reduce it by monitor_reduce.py; {AS_LONG} is 1 for one")
        line = token_line(token)

        def opened(_name=None):
            return connection_with(line, address, said, seconds), None

        return cls._over(process, variables, False, opened, opened)

    @classmethod
    def from_environment(cls, process, variables=None, replace=False, again=False, long=False):
        """Records to where MONITOR_TO in the environment says, so that no code changes between a test and a live
        session: to a new file NAME.stream in a folder of this name, which is made if there is none; or to `monitor
        serve`, on a port of this machine, of :7411 or localhost:7411, on one of another machine, of host:7411 or
        [fe80::1]:7411, or by a Unix socket, of unix:/run/monitor.sock. With MONITOR_NOTES=1 each event gets a note
        beside the file. A connection has no place for notes, keeps no earlier incarnation, and is judged within the
        limits of a session, so notes, `again` and `long` are refused with one. It begins with MONITOR_TOKEN, as that
        of `to_port`. What has a colon and no slash is no folder."""
        checked_name("process", process)
        place, notes = os.environ.get(PLACE, ""), has_notes(os.environ.get(WITH_NOTES, ""))
        address, is_long = address_of(place), limits_of(long) is LONG
        if address is None:
            os.makedirs(place, exist_ok=True)
            path = os.path.join(place, f"{process}.stream")
            return cls.to_file(process, path, variables, replace, again, notes, is_long)
        if notes:
            raise NotRecorded(f"{WITH_NOTES} is 1, and notes go to a file beside the stream, but {PLACE} is the "
                              f"connection {place}: unset {WITH_NOTES}, or let {PLACE} name a folder")
        if again:
            raise NotRecorded(f"again: {PLACE} is the connection {place}, and only a folder has the recording of an "
                              "earlier incarnation")
        return cls._to_address(process, address, f"{PLACE} is {place}", variables, CONNECT_SECONDS, is_long)

    @classmethod
    def _over(cls, process, variables, long, opened, opened_for):
        checked_name("process", process)
        declared, is_long = checked_variables(variables), limits_of(long) is LONG
        out, notes = opened()
        try:
            recorder = cls(process, out, declared, is_long)
        except BaseException:
            close_all(out, notes)
            raise
        recorder._notes = notes
        recorder._family.opened_for = opened_for
        return recorder

    @property
    def events(self):
        """How many events are recorded."""
        return self._events

    def event(self, /, **variables):
        """Something happened in this process; these variables have these values from now on. A text `note` is no
        variable but the event's note, in this call and in the next four."""
        with self._ready():
            self._refuse_full()
            self._record({}, None, variables)

    def send(self, message=None, /, **variables):
        """This process sends a message to one other or, if the document is of version 2, to several: call it once,
        BEFORE the message leaves. The id is given back and has to travel with the message. If none is given one is
        made, the process's name and a counter, as `left-1`; a text that is given is the id, as of `send_as`."""
        with self._ready():
            self._refuse_full()
            return self._send(message, variables)

    def send_as(self, message, /, **variables):
        """The same, with an id that no other send of the session has. Recorders of all languages have this call."""
        with self._ready():
            self._refuse_full()
            self._send(self._checked_id(message), variables)

    def receive(self, message, /, **variables):
        """A message has come, with this id: call it AFTER that. A second copy of a message is refused, by `IdTwice`."""
        with self._ready():
            self._refuse_full()
            self._record({"recv": self._checked_id(message)}, message, variables)

    def strand(self, name, variables=None):
        """Begins a strand, for a thread or task that waits by itself: a recorder which is a process of the session, of
        this name. It is recorded to NAME.stream beside the file of this recorder, or to the same port. This process
        sends it a message, so call it where the thread or task is started. A strand ends by `close`, and so by leaving
        its block of `with` in any way; then it sends a message to whoever `join`s it. It ends with its process at the
        latest."""
        checked_name("process", name)
        declared = checked_variables(variables)
        with self._ready():
            self._refuse_full()
            strand = self._family.begun(name, declared)
            try:
                strand.receive(self.send())
            except BaseException:
                strand.abandon()
                raise
            return strand

    def join(self, strand, /, **variables):
        """This process has waited for a strand, which has ended: call it AFTER that. It receives the strand's last
        message; these variables have these values from now on."""
        with self._ready():
            self._refuse_full()
            if getattr(strand, "_last", None) is None:
                name = getattr(strand, "process", strand)
                raise NotRecorded(f"{name} is no strand that has ended: wait for it, and then join it")
            self.receive(strand._last, **variables)

    def close(self):
        """Nothing more happens in this process: writes the end line, also of its strands that have not ended. A second
        call does nothing."""
        self._refuse_in_fork()
        try:
            self._family.close()
        finally:
            self._close()

    def abandon(self):
        """Closes without an end line, and so the strands that have not ended: `monitor` refuses the streams as
        `unended`."""
        if os.getpid() == self._owner:
            self._family.abandon()
        self._abandon()

    def __enter__(self):
        self._outer.append(CURRENT.set(self))
        return self

    def __exit__(self, kind, error, trace):
        """Leaving by an exception abandons the recording, since nobody knows what the process would have done. A strand
        has ended, though, whichever way it came to that: what it would have done is what joins it."""
        if self._outer:
            with contextlib.suppress(ValueError):  # it was entered in another context, as a generator may be
                CURRENT.reset(self._outer.pop())
        if kind is None or self._is_open_strand():
            self.close()
        else:
            self.abandon()

    async def __aenter__(self):
        return self.__enter__()

    async def __aexit__(self, kind, error, trace):
        self.__exit__(kind, error, trace)

    def _is_open_strand(self):
        return False

    def _close(self):
        with self.lock:
            if self._state == CLOSED:
                return
            try:
                with self._ready():
                    self._write({"end": True})
            finally:
                self._abandon()

    def _abandon(self):
        if os.getpid() != self._owner:
            close_all(self._out, self._notes)
            return
        with self.lock:
            self._state = CLOSED
            close_all(self._out, self._notes)

    @contextlib.contextmanager
    def _ready(self):
        """Holds the lock while a line is checked and written. Whatever breaks off the writing, also the exception of a
        signal, leaves a recorder that writes nothing more."""
        self._refuse_in_fork()
        with self.lock:
            if self._state != OPEN:
                raise NotRecorded(f"the recording of {self.process} is {self._state}")
            yield
            self._state = OPEN

    def _refuse_in_fork(self):
        if os.getpid() != self._owner:
            raise NotRecorded(f"{self.process} is recorded by the process of which this one is a fork")

    def _refuse_full(self):
        limit = self._limits.events
        if self._events >= limit - self._kept_events:
            advice = f"; record fewer, or {AS_A_LONG_RUN}" if self._limits is SESSION else ""
            raise NotRecorded(f"{self.process} has {self._events} events, and no process may have more than {limit} "
                              f"events, of which the last one of a strand is its end{advice}")

    def _send(self, message, variables):
        made = self._made
        if message is None:
            made = next(number for number in itertools.count(made + 1) if self._id(number) not in self._ids)
        message = self._id(made) if message is None else self._checked_id(message)
        self._record({"send": message}, message, variables)
        self._made = made
        return message

    def _record(self, line, message, variables):
        text = variables.pop("note") if isinstance(variables.get("note"), str) else ""
        names = self._checked_names(variables)
        if variables:
            line["set"] = {name: checked_value(name, value) for name, value in variables.items()}
        if self._notes is not None:
            self._note(text)
        self._write(line)
        self._events += 1
        self._names = names
        if message is not None:
            self._ids.add(message)

    def _checked_names(self, variables):
        for name in variables:
            checked_name("variable", name)
            if self._variables is not None and name not in self._variables:
                raise NotRecorded(f"{self.process} has no variable {name}")
        names = self._names.union(variables)
        if len(names) > VARIABLE_LIMIT:
            raise NotRecorded(f"{self.process} has {VARIABLE_LIMIT} variables, and no process may have more")
        return names

    def _id(self, number):
        return f"{self.process}-{number}"

    def _checked_id(self, message):
        if not isinstance(message, str):
            advice = ": variables are named, as inside=1, or **variables" if isinstance(message, dict) else ""
            raise NotRecorded(f"the id of a message must be a text, and is of type {type(message).__name__}{advice}")
        try:
            size = len(message.encode())
        except UnicodeEncodeError:
            raise NotRecorded(f"the id {message[:80]!r} can't be written in UTF-8") from None
        limit = self._limits.id_bytes
        if not 1 <= size <= limit:
            raise NotRecorded(f"the id of a message has 1 to {limit} bytes, and {message[:80]!r} has {size}")
        if message in self._ids:
            raise IdTwice(f"{self.process} has sent or received {message!r} before")
        return message

    def _note(self, text):
        """Writes the note of the event whose line is written next: so each event that a stream has has its note."""
        self._state = BROKEN
        write_all(self._notes, note_of(self.process, self._events + 1, text, place_of_caller(), time.time_ns()))

    def _write(self, line):
        # With the limits above no line has over 1,400 bytes, and no stream over 14,000,000: monitor takes more. A line
        # of a long recording has at most 7,200.
        text = json.dumps(line, ensure_ascii=False, separators=(",", ":")).encode() + b"\n"
        self._state = BROKEN
        if hasattr(self._out, "sendall"):
            self._out.sendall(text)
        else:
            write_all(self._out, text)


class Strand(Recorder):
    """A recorder that another one has begun. One of its events is kept for its end."""

    _kept_events = 1

    def __init__(self, process, out, variables, family):
        self._begin(process, out, variables, family.limits)
        self._family = family

    def close(self):
        """The strand has ended: sends the message that whoever joins it receives, and writes the end line."""
        self._refuse_in_fork()
        with self.lock:
            if self._state == OPEN:
                self._last = self._sent_at_end()
            self._close()

    def abandon(self):
        """Closes without an end line, so that `monitor` refuses the stream as `unended`."""
        self._abandon()

    def cut_off(self):
        """Its process ends before it: writes the end line alone."""
        with self.lock:
            if self._state == OPEN:
                self._close()
            else:
                self._abandon()

    def _sent_at_end(self):
        try:
            with self._ready():
                return self._send(None, {})
        except BaseException:
            self._abandon()
            raise

    def _is_open_strand(self):
        return self._state == OPEN


class RecordedQueue(queue.Queue):
    """A queue between threads, whose items are messages: to put one is a send of the `current()` recorder, and to get
    it a receipt. What no recorder puts or gets is no message, and neither is what a recorder has put itself."""

    def put(self, item, block=True, timeout=None):
        recorder = current()
        sent = None if recorder is None else (recorder.process, recorder.send())
        super().put((sent, item), block, timeout)

    def get(self, block=True, timeout=None):
        sent, item = super().get(block, timeout)
        receive_from_another(sent)
        return item


class RecordedLock:
    """A lock between threads, whose release is a message to whoever acquires it next: a send of the `current()`
    recorder and a receipt, if that is another one. So what the lock keeps apart is kept apart in the recording. But the
    order in which it was acquired is a cause then, and no other order is judged."""

    def __init__(self):
        self._lock = threading.Lock()
        self._sent = None

    def acquire(self, blocking=True, timeout=-1):
        """As that of `threading.Lock`. If the receipt is refused the lock isn't held."""
        is_held = self._lock.acquire(blocking, timeout)
        if is_held:
            try:
                if receive_from_another(self._sent):
                    self._sent = None
            except BaseException:
                self._lock.release()
                raise
        return is_held

    def release(self):
        """As that of `threading.Lock`. It is released, whatever becomes of the send."""
        try:
            recorder = current()
            if recorder is not None:
                self._sent = (recorder.process, recorder.send())
        finally:
            self._lock.release()

    def locked(self):
        return self._lock.locked()

    def __enter__(self):
        return self.acquire()

    def __exit__(self, kind, error, trace):
        self.release()


def receive_from_another(sent):
    """Has the current recorder receive the message, if there is one and another process has sent it."""
    recorder = current()
    if sent is None or recorder is None or sent[0] == recorder.process:
        return False
    recorder.receive(sent[1])
    return True


class Family:
    """A process that is recorded, and its strands."""

    def __init__(self, process):
        self.opened_for = None  # opens the stream of a strand with this name, if there is a place for it
        self.limits = process._limits
        self._process = process
        self._lock = threading.Lock()
        self._names = {process.process}
        self._strands = []
        self._is_closed = False

    def begun(self, name, variables):
        """A strand of this name, which has written its first line."""
        with self._lock:
            self._refuse(name)
            out, notes = self.opened_for(name)
            try:
                strand = Strand(name, out, variables, self)
            except BaseException:
                close_all(out, notes)
                raise
            strand._notes = notes
            self._names.add(name)
            self._strands.append(strand)
            return strand

    def _refuse(self, name):
        if self._is_closed:
            raise NotRecorded(f"the recording of {self._process.process} is closed")
        if name in self._names:
            raise NotRecorded(f"{name} is another process of this recording: give each strand a name of its own")
        if len(self._names) == self.limits.processes:
            why = (f"a session has at most as many; begin fewer strands, or {AS_A_LONG_RUN}"
                   if self.limits is SESSION else "there can be no more")
            raise NotRecorded(f"{self._process.process} and its strands are {len(self._names)} processes, and {why}")
        if self.opened_for is None:
            raise NotRecorded(f"{self._process.process} records to a file that it was given, so there is no place for "
                              "the stream of a strand: make its recorder by to_file or to_port")

    def close(self):
        """Ends the strands that have not ended: nobody joins them any more. If one can't be ended, the others are."""
        with contextlib.ExitStack() as stack:
            for strand in self._all_closing():
                stack.callback(strand.cut_off)

    def abandon(self):
        for strand in self._all_closing():
            strand.abandon()

    def _all_closing(self):
        # The lock of the process isn't held: a thread may wait for it that holds the one of a strand.
        with self._lock:
            self._is_closed = True
            return list(self._strands)


def checked_beside(first, name, replace):
    """The file of a strand, in the folder of its process's file, which isn't replaced."""
    beside = os.path.join(os.path.dirname(first), name + ENDING)
    if replace and os.path.exists(beside) and os.path.samefile(beside, first):
        raise already(beside)
    return beside


def opened_files(path, has_notes, replace):
    """The new file of a stream, and that of its notes or None. What it replaces has no notes any more."""
    out = new_file(path, replace)
    try:
        if has_notes:
            return out, open_notes(path, replace)
        if replace and os.fsdecode(path).endswith(ENDING):
            with contextlib.suppress(FileNotFoundError):
                os.unlink(notes_path(path))
        return out, None
    except BaseException:
        out.close()
        if not replace:
            os.unlink(path)
        raise


def new_file(path, replace):
    try:
        return open(path, "wb" if replace else "xb", buffering=0)
    except FileExistsError:
        raise already(path) from None


def already(path):
    return FileExistsError(errno.EEXIST, "a recording is there already, and isn't written over: record to another "
                                         "file or folder, remove it, or say replace=True", os.fspath(path))


def limits_of(long):
    """The limits of a recording that is a long one if this or MONITOR_LONG says so."""
    text = os.environ.get(AS_LONG, "")
    if text not in ("", "0", "1"):
        raise NotRecorded(f"long: {AS_LONG} is {text[:SHOWN]!r}, and is 1 for a long recording, or else 0")
    return LONG if long or text == "1" else SESSION


# Notes

def has_notes(text):
    if text not in ("", "0", "1"):
        raise NotRecorded(f"{WITH_NOTES} is {text[:SHOWN]!r}, and is 1 if events are to have notes, or else 0")
    return text == "1"


def checked_ending(path):
    if not path.endswith(ENDING):
        raise NotRecorded(f"the notes of left{ENDING} are in left{NOTES_ENDING}, and {path!r} doesn't end with {ENDING}")
    return path


def notes_path(path):
    """The file of the notes of a stream, whose file is `path`."""
    return os.fsdecode(path)[:-len(ENDING)] + NOTES_ENDING


def open_notes(path, replace):
    return new_file(notes_path(path), replace)


def note_of(process, event, text, place, nanoseconds):
    """The line of a note: `event` is its number in the stream, from 1, and the time is that since 1970."""
    seconds, microseconds = divmod(nanoseconds // 1000, 1_000_000)
    return (f'{{"process": "{process}", "event": {event}, "text": {quoted(bounded(text))}, "place": {quoted(place)}, '
            f'"clock": {seconds}.{microseconds:06}}}\n').encode()


def place_of_caller():
    """FILE:LINE of the code that has called into this module, or no text."""
    frame = sys._getframe()
    own = frame.f_code.co_filename
    while frame is not None and frame.f_code.co_filename == own:
        frame = frame.f_back
    return "" if frame is None else f"{bounded(frame.f_code.co_filename)}:{frame.f_lineno}"


def bounded(text):
    """The text without what UTF-8 can't say, and cut if it is too long."""
    whole = SURROGATE.sub("\ufffd", text[:NOTE_BYTE_LIMIT]).encode()
    return whole[:NOTE_BYTE_LIMIT].decode(errors="ignore")


def quoted(text):
    return ESCAPED.sub(lambda found: f"\\u{ord(found[0]):04x}", json.dumps(text, ensure_ascii=False))


# Files and checks

def close_all(*files):
    """Closes the files of a recording that are there. If one can't be closed, the others are."""
    with contextlib.ExitStack() as stack:
        for file in files:
            if file is not None:
                stack.callback(file.close)


def checked_file(out):
    """What is given, if it isn't one of Python's files that keep bytes for a while before the system has them."""
    if isinstance(out, (io.BufferedIOBase, io.TextIOBase)) and not isinstance(out, io.BytesIO):
        raise NotRecorded("the file has a buffer, which a crash would lose: open it in mode wb with buffering=0")
    return out


def incarnation_of(process, number):
    return process if number == 1 else f"{process}_{number}"


def path_of(path, number):
    """The file of this incarnation, if the path is that of the first one."""
    root, ending = os.path.splitext(os.fspath(path))
    return f"{incarnation_of(root, number)}{ending}"


def ending_of(process):
    """The id of the message by which an incarnation comes after the one before."""
    return f"{process}-ended"


def new_part(path):
    """A path at which the file stands until it gets its name. A process that was killed before may have had this one's
    number."""
    number = os.getpid()
    parts = (f"{path}.{number}{more}.part" for more in itertools.chain([""], (f"-{n}" for n in itertools.count(2))))
    return next(part for part in parts if not os.path.lexists(part))


def locked_file(path):
    """A new file, with a lock that this process has on it for as long as it runs, if its folder can have locks."""
    out = open(path, "xb", buffering=0)
    with contextlib.suppress(OSError):
        fcntl.lockf(out, fcntl.LOCK_EX | fcntl.LOCK_NB)
    return out


def refuse_running(process, path):
    """Refuses what is started while the earlier incarnation with this file still runs, if a lock shows that."""
    with open(path, "rb") as file, contextlib.suppress(OSError):
        try:
            fcntl.lockf(file, fcntl.LOCK_SH | fcntl.LOCK_NB)
        except (BlockingIOError, PermissionError):
            raise NotRecorded(f"{process} still runs and records to {path}: what is started beside it is no later "
                              "incarnation, but a process of its own") from None


def write_all(out, text):
    """Hands all bytes to a file without a buffer, which may take them in parts."""
    rest = memoryview(text)
    while rest:
        written = out.write(rest)
        if not written:
            raise OSError("the recording's file takes no more bytes")
        rest = rest[written:]


def checked_variables(names):
    """The names as a set, if a process can have these variables; None for None."""
    if names is None:
        return None
    checked = frozenset(checked_name("variable", name) for name in names)
    if len(checked) > VARIABLE_LIMIT:
        raise NotRecorded(f"a process has at most {VARIABLE_LIMIT} variables, and not {len(checked)}")
    return checked


def checked_name(kind, name):
    """The name, if a process or variable can have it."""
    if not isinstance(name, str) or not NAME.fullmatch(name) or len(name) > NAME_BYTE_LIMIT or name in RESERVED:
        raise NotRecorded(
            f"{name!r} is no name of a {kind}: letters, digits and _, at most {NAME_BYTE_LIMIT}, none of them a digit "
            f"at first, and none of {', '.join(sorted(RESERVED))}")
    return name


def checked_value(name, value):
    """The value as a plain int: True and False are 1 and 0."""
    try:
        number = int(operator.index(value))
    except TypeError:
        shown, kind = repr(value)[:SHOWN], type(value).__name__
        raise NotRecorded(f"{name} must be a whole number, and is {shown}, of type {kind}") from None
    if not LEAST_VALUE <= number <= GREATEST_VALUE:
        raise NotRecorded(f"{name} must be a whole number of 64 bits, from {LEAST_VALUE} to {GREATEST_VALUE}")
    return number


# Connections

def address_of(place):
    """The host and the port, or the path of the socket, that MONITOR_TO names; None for a folder."""
    if place == "":
        raise NotRecorded(f"{PLACE} isn't set: it names {PLACES}")
    if place.startswith(SOCKET):
        path = place[len(SOCKET):]
        if not path.startswith("/") or len(os.fsencode(path)) > SOCKET_BYTE_LIMIT:
            raise NotRecorded(f"{PLACE} is {place}, and the path of a socket begins with / and has at most "
                              f"{SOCKET_BYTE_LIMIT} bytes")
        if not hasattr(socket, "AF_UNIX"):
            raise NotRecorded(f"{PLACE} is {place}, and this system has no sockets with a path: let it name a port")
        return path
    if ":" not in place or "/" in place or "\\" in place:
        return None
    found = PORT.fullmatch(place)
    if found is None or not 1 <= int(found[3]) <= PORT_LIMIT:
        raise NotRecorded(f"{PLACE} is {place}, and names {PLACES}; a folder with a colon has a slash too, as ./a:b")
    host = found[1] or found[2]
    return HERE if host in OWN_HOSTS else host, int(found[3])


def token_line(token):
    """What a connection begins with: this token or, without one, that of MONITOR_TOKEN, and a LF; nothing if there is
    none. No error shows it."""
    name, value = ("the token", bytes_of(token)) if token else (TOKEN, os.fsencode(os.environ.get(TOKEN, "")))
    if len(value) > TOKEN_BYTE_LIMIT or set(value) & set(b"\n\r\0"):
        raise NotRecorded(f"token: {name} is no token, which is one line of at most {TOKEN_BYTE_LIMIT} bytes, without "
                          "LF, CR and NUL")
    return value + b"\n" if value else b""


def bytes_of(token):
    try:
        return token.encode(errors="surrogateescape")  # a text of the environment gets the bytes that it has there
    except (AttributeError, UnicodeEncodeError):
        raise NotRecorded("token: the token is no text that UTF-8 can say") from None


def connection_with(line, address, said, seconds):
    """A connection, as that of `connection_to`, that has begun with this line."""
    connection = connection_to(address, said, seconds)
    try:
        connection.sendall(line)
    except BaseException:
        connection.close()
        raise
    return connection


def connection_to(address, said, seconds):
    """A connection to a port, given as the host and the number, or to a socket, given as its path. Nobody may listen
    there yet. An error begins with what is said of the place."""
    deadline = time.monotonic() + seconds
    while True:
        try:
            return connection_now(address, max(deadline - time.monotonic(), ANSWER_SECONDS))
        except NOBODY as error:
            if time.monotonic() >= deadline:
                more = f", for {seconds:g} seconds: does monitor serve listen there?"
                raise not_connected(error, said, more) from None
            time.sleep(0.05)
        except OSError as error:
            raise not_connected(error, said, "") from None


def not_connected(error, said, more):
    """The same error, in words that say where there is no connection. One of a time that passed may lack its number."""
    words = f"{said}, and there is no connection: {error.strerror or error}{more}"
    return type(error)(error.errno or errno.ETIMEDOUT, words)


def connection_now(address, seconds):
    if isinstance(address, str):
        connection = socket.socket(socket.AF_UNIX)
        try:
            connection.connect(address)
        except BaseException:
            connection.close()
            raise
        return connection
    connection = socket.create_connection(address, timeout=seconds)
    # A connection to a port that nobody has bound can come to be with itself.
    if connection.getsockname() == connection.getpeername():
        connection.close()
        raise ConnectionRefusedError(errno.ECONNREFUSED, f"nobody listens on port {address[1]}")
    connection.settimeout(None)
    connection.setsockopt(socket.IPPROTO_TCP, socket.TCP_NODELAY, 1)
    return connection
