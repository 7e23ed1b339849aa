"""Tests of monitor_recorder that the shared cases in recorders/cases can't say: python3 -m unittest discover -s
recorders/python"""
import asyncio
import enum
import io
import json
import os
import random
import re
import signal
import socket
import tempfile
import threading
import time
import unittest
import unittest.mock
from unittest import mock

import importing
import monitor_mend
import monitor_recorder
from judging import FOLDER, needs_program, report_of
from monitor_recorder import EVENT_LIMIT, IdTwice, NotRecorded, Recorder

GREATEST = 2**63 - 1
LEAST = -(2**63)


class Parts(io.RawIOBase):
    """A file that takes at most three bytes at a time, and none once it has `room` bytes."""

    def __init__(self, room=10**9):
        super().__init__()
        self.bytes = bytearray()
        self.room = room

    def writable(self):
        return True

    def write(self, data):
        taken = bytes(data[:min(3, self.room - len(self.bytes))])
        if not taken:
            raise OSError("no space is left")
        self.bytes += taken
        return len(taken)


class Case(unittest.TestCase):
    def setUp(self):
        folder = tempfile.TemporaryDirectory()
        self.addCleanup(folder.cleanup)
        self.path = os.path.join(folder.name, "left.stream")

    def text(self):
        with open(self.path, encoding="utf-8") as file:
            return file.read()

    def lines(self):
        return [json.loads(line) for line in self.text().split("\n") if line]

    def refused(self, pattern, call, *arguments, **variables):
        """The call is refused with this text, and has written nothing."""
        before = self.text()
        with self.assertRaisesRegex(NotRecorded, pattern):
            call(*arguments, **variables)
        self.assertEqual(self.text(), before)


class Lines(Case):
    def test_an_id_with_a_nul(self):
        with Recorder.to_file("left", self.path) as recorder:
            self.assertEqual(recorder.send("a\0b"), "a\0b")
        self.assertEqual(self.text().splitlines()[1], '{"send":"a\\u0000b"}')

    def test_values(self):
        class Level(enum.IntEnum):
            HIGH = 3

        with Recorder.to_file("left", self.path) as recorder:
            recorder.event(a=True, b=Level.HIGH, c=-0)
        self.assertEqual(self.text().splitlines()[1], '{"set":{"a":1,"b":3,"c":0}}')

    def test_a_file_that_takes_bytes_in_parts(self):
        out = Parts()
        recorder = Recorder("left", out)
        recorder.event(inside=1)
        self.assertEqual(bytes(out.bytes), b'{"process":"left"}\n{"set":{"inside":1}}\n')


class Refused(Case):
    def test_values(self):
        with Recorder.to_file("left", self.path) as recorder:
            for value in (1.0, "1", None, [], GREATEST + 1, LEAST - 1, 10**5000, float("nan")):
                self.refused("^x must be a whole number", recorder.event, x=value)
                self.refused("^x must be a whole number", recorder.send, x=value)
                self.refused("^x must be a whole number", recorder.receive, "m", y=1, x=value)
            recorder.receive("m", x=1)
            self.assertEqual(recorder.send(), "left-1")

    def test_names(self):
        with Recorder.to_file("left", self.path) as recorder:
            self.refused("is no name of a variable", recorder.event, **{"a\n": 1})
        for name in ("and", 7, None):
            with self.assertRaisesRegex(NotRecorded, "is no name of a process"):
                Recorder.to_file(name, self.path + ".other")
        self.assertFalse(os.path.exists(self.path + ".other"))

    def test_ids(self):
        with Recorder.to_file("left", self.path) as recorder:
            for message in (7, b"m", {"money": 1}):
                self.refused("must be a text", recorder.send, message)
                self.refused("must be a text", recorder.receive, message)
                self.refused("must be a text", recorder.send_as, message)
            self.refused("variables are named, as inside=1", recorder.send, {"inside": 1})
            self.refused("must be a text", recorder.receive, None)
            self.refused("must be a text", recorder.send_as, None)
            self.refused("UTF-8", recorder.send, "\ud800")

    def test_a_second_copy(self):
        with Recorder.to_file("left", self.path) as recorder:
            recorder.receive("right-1")
            with self.assertRaises(IdTwice):
                recorder.receive("right-1")
            with self.assertRaises(NotRecorded) as refusal:
                recorder.receive("")
            self.assertNotIsInstance(refusal.exception, IdTwice)

    def test_variables_that_were_not_declared(self):
        with Recorder.to_file("left", self.path, variables=["inside"]) as recorder:
            self.refused("has no variable insde", recorder.event, insde=1)
            recorder.event(inside=1)
        for names in (["and"], [f"x{number}" for number in range(17)]):
            with self.assertRaises(NotRecorded):
                Recorder.to_file("left", self.path + ".other", variables=names)
        self.assertFalse(os.path.exists(self.path + ".other"))


class Files(Case):
    def test_a_file_that_is_there_is_kept(self):
        Recorder.to_file("left", self.path).close()
        with self.assertRaises(FileExistsError):
            Recorder.to_file("left", self.path)
        self.assertEqual(len(self.lines()), 2)
        Recorder.to_file("right", self.path, replace=True).close()
        self.assertEqual(self.lines()[0], {"process": "right"})

    def test_a_process_that_is_started_again(self):
        for number in range(1, 4):
            recorder = Recorder.to_file("left", self.path, variables=["x"], again=True)
            self.assertEqual((recorder.process, recorder.events), (f"left_{number}" if number > 1 else "left",
                                                                   int(number > 1)))
            self.assertEqual(recorder.send(x=number), f"{recorder.process}-1")
            recorder.abandon()
        with open(self.path.replace("left", "left_3"), encoding="utf-8") as file:
            self.assertEqual(file.read(), '{"process":"left_3"}\n{"recv":"left_2-ended"}\n'
                                          '{"send":"left_3-1","set":{"x":3}}\n')
        with self.assertRaisesRegex(NotRecorded, "a file that is replaced has no recording of an earlier"):
            Recorder.to_file("left", self.path, again=True, replace=True)
        with self.assertRaisesRegex(NotRecorded, "is no name of a process"):
            Recorder.to_file("l" * 31, self.path, again=True)
        with mock.patch.object(monitor_recorder, "fcntl", None), self.assertRaisesRegex(NotRecorded, "has no locks"):
            Recorder.to_file("left", self.path, again=True)
        self.assertEqual(len(os.listdir(os.path.dirname(self.path))), 3)

    def test_a_process_that_still_runs_is_not_started_again(self):
        ready, started = os.pipe()
        process = os.fork()
        if not process:
            try:
                recorder = Recorder.to_file("left", self.path, again=True)
                os.write(started, b"x")
                time.sleep(600 + recorder.events)
            finally:
                os._exit(0)
        try:
            os.read(ready, 1)
            with self.assertRaisesRegex(NotRecorded, f"left still runs and records to {self.path}: "):
                Recorder.to_file("left", self.path, again=True)
        finally:
            os.kill(process, signal.SIGKILL)
            os.waitpid(process, 0)
        recorder = Recorder.to_file("left", self.path, again=True)
        self.assertEqual(recorder.process, "left_2")
        recorder.close()

    def test_a_file_with_a_buffer(self):
        for mode in ("wb", "w"):
            with open(self.path, mode) as out, self.assertRaisesRegex(NotRecorded, "has a buffer"):
                Recorder("left", out)
            self.assertEqual(self.text(), "")
        memory = io.BytesIO()
        Recorder("left", memory).event()
        self.assertEqual(memory.getvalue(), b'{"process":"left"}\n{}\n')

    def test_a_file_that_cannot_be_written(self):
        with self.assertRaises(OSError):
            Recorder.to_file("left", "/dev/full", replace=True)

    def test_a_long_recording(self):
        id_of_its_own = "x" * monitor_recorder.LONG_ID_BYTE_LIMIT
        recorder = Recorder("left", Parts(), long=True)
        recorder.receive(id_of_its_own)
        recorder.close()
        with mock.patch.dict(os.environ, {"MONITOR_LONG": "1"}):
            recorder = Recorder("left", Parts())
            recorder.receive(id_of_its_own)
        with mock.patch.dict(os.environ, {"MONITOR_LONG": "2"}), self.assertRaisesRegex(NotRecorded, "MONITOR_LONG is"):
            Recorder("left", Parts())

    def test_limits_of_long_recordings(self):
        few = monitor_recorder.Limits(events=3, processes=2, id_bytes=64)
        with mock.patch.object(monitor_recorder, "LONG", few):
            recorder = Recorder.to_file("left", self.path, long=True)
            strand = recorder.strand("worker")
            with self.assertRaisesRegex(NotRecorded, "left and its strands are 2 processes, and there can be no more$"):
                recorder.strand("other")
            strand.event()
            with self.assertRaisesRegex(NotRecorded, "worker has 2 events, .* more than 3 .* is its end$"):
                strand.event()
            recorder.close()

    def test_after_a_line_that_could_not_be_written_nothing_is(self):
        out = Parts(room=40)
        recorder = Recorder("left", out)
        recorder.event()
        with self.assertRaises(OSError):
            recorder.event(inside=1)
        out.room = 1000
        for call in (recorder.event, recorder.close):
            with self.assertRaisesRegex(NotRecorded, "broken off"):
                call()
        self.assertEqual(bytes(out.bytes), b'{"process":"left"}\n{}\n{"set":{"inside":1}}\n'[:40])
        self.assertTrue(out.closed)

    def test_left_by_an_exception_there_is_no_end_line(self):
        with self.assertRaises(KeyError):
            with Recorder.to_file("left", self.path) as recorder:
                recorder.event()
                raise KeyError
        self.assertEqual(self.lines(), [{"process": "left"}, {}])
        self.refused("closed", recorder.event)


class Forks(Case):
    def test_a_fork_does_not_record(self):
        recorder = Recorder.to_file("left", self.path)
        holding = threading.Thread(target=self.hold, args=(recorder,))
        holding.start()
        time.sleep(0.05)
        child = os.fork()
        if child == 0:
            refused = 0
            for call in (recorder.event, recorder.send, recorder.close):
                try:
                    call()
                except NotRecorded:
                    refused += 1
            recorder.abandon()
            os._exit(refused)
        _, status = os.waitpid(child, 0)
        holding.join()
        self.assertEqual((os.WIFEXITED(status), os.WEXITSTATUS(status)), (True, 3))
        recorder.event()
        recorder.close()
        self.assertEqual(self.lines(), [{"process": "left"}, {}, {"end": True}])

    def hold(self, recorder):
        with recorder.lock:
            time.sleep(0.3)


class Threads(Case):
    def test_no_line_follows_the_end_line(self):
        recorder = Recorder.to_file("left", self.path)
        recorded = [0] * 4

        def run(number):
            try:
                while True:
                    recorder.event()
                    recorded[number] += 1
            except NotRecorded:
                pass

        threads = [threading.Thread(target=run, args=(number,)) for number in range(4)]
        for thread in threads:
            thread.start()
        time.sleep(0.02)
        recorder.close()
        for thread in threads:
            thread.join()
        self.assertEqual(self.lines(), [{"process": "left"}, *[{}] * sum(recorded), {"end": True}])


class StrandCase(Case):
    def setUp(self):
        super().setUp()
        self.folder = os.path.dirname(self.path)

    def text_of(self, name):
        with open(os.path.join(self.folder, f"{name}.stream"), encoding="utf-8") as file:
            return file.read()

    def lines_of(self, name):
        return [json.loads(line) for line in self.text_of(name).splitlines()]


class Strands(StrandCase):
    def test_threads_of_which_each_has_its_own(self):
        def work(strand, number):
            with strand:
                for turn in range(100):
                    monitor_recorder.current().event(x=number * turn)

        with Recorder.to_file("left", self.path) as left:
            strands = [left.strand(f"s{number}") for number in range(8)]
            threads = [threading.Thread(target=work, args=(strand, number)) for number, strand in enumerate(strands)]
            for thread in threads:
                thread.start()
            for thread, strand in zip(threads, strands):
                thread.join()
                left.join(strand)
        for number in range(8):
            self.assertEqual(self.lines_of(f"s{number}"),
                             [{"process": f"s{number}"}, {"recv": f"left-{number + 1}"},
                              *({"set": {"x": number * turn}} for turn in range(100)), {"send": f"s{number}-1"},
                              {"end": True}])
        self.assertEqual(self.lines()[9:], [*({"recv": f"s{number}-1"} for number in range(8)), {"end": True}])

    def test_tasks_have_their_own_as_the_current_one(self):
        async def work(strand, seconds):
            async with strand:
                await asyncio.sleep(seconds)
                await deep_below()

        async def deep_below():
            monitor_recorder.current().event(x=1)

        async def main():
            async with Recorder.to_file("left", self.path) as left:
                self.assertIs(monitor_recorder.current(), left)
                strands = [left.strand(name) for name in ("slow", "fast")]
                await asyncio.gather(work(strands[0], 0.02), work(strands[1], 0.01))
                left.event()
                for strand in strands:
                    left.join(strand)
                self.assertIs(monitor_recorder.current(), left)

        asyncio.run(main())
        self.assertIsNone(monitor_recorder.current())
        self.assertEqual(self.lines()[1:], [{"send": "left-1"}, {"send": "left-2"}, {}, {"recv": "slow-1"},
                                            {"recv": "fast-1"}, {"end": True}])
        for name, message in (("slow", "left-1"), ("fast", "left-2")):
            self.assertEqual(self.lines_of(name)[1:],
                             [{"recv": message}, {"set": {"x": 1}}, {"send": f"{name}-1"}, {"end": True}])

    def test_a_strand_that_an_exception_leaves_has_ended(self):
        with Recorder.to_file("left", self.path) as left:
            strand = left.strand("worker")
            with self.assertRaises(KeyError), strand:
                raise KeyError
            left.join(strand)
        self.assertEqual(self.lines_of("worker")[1:], [{"recv": "left-1"}, {"send": "worker-1"}, {"end": True}])

    def test_a_task_that_is_cancelled_has_ended(self):
        async def wait(strand):
            async with strand:
                await asyncio.sleep(60)

        async def main():
            with Recorder.to_file("left", self.path) as left:
                strand = left.strand("worker")
                task = asyncio.ensure_future(wait(strand))
                await asyncio.sleep(0)
                task.cancel()
                with self.assertRaises(asyncio.CancelledError):
                    await task
                left.join(strand)

        asyncio.run(main())
        self.assertEqual(self.lines_of("worker")[-2:], [{"send": "worker-1"}, {"end": True}])

    def test_an_exception_of_the_process_leaves_no_end_lines(self):
        with self.assertRaises(KeyError), Recorder.to_file("left", self.path) as left:
            left.strand("worker")
            left.strand("ended").close()
            raise KeyError
        self.assertEqual(self.lines(), [{"process": "left"}, {"send": "left-1"}, {"send": "left-2"}])
        self.assertEqual(self.lines_of("worker"), [{"process": "worker"}, {"recv": "left-1"}])
        self.assertEqual(self.lines_of("ended")[-1], {"end": True})

    def test_a_strand_that_is_broken_off_is_not_ended_and_the_others_are(self):
        left = Recorder.to_file("left", self.path)
        broken, whole = left.strand("broken"), left.strand("whole")
        broken._out.close()
        broken._out = Parts(room=2)
        with self.assertRaises(OSError), broken:
            broken.event()
        with self.assertRaisesRegex(NotRecorded, "no strand that has ended"):
            left.join(broken)
        left.close()
        whole.close()
        self.assertEqual(self.lines_of("whole"), [{"process": "whole"}, {"recv": "left-2"}, {"end": True}])
        self.assertEqual(self.lines()[-1], {"end": True})

    def test_a_strand_that_cannot_be_opened_leaves_nothing(self):
        with Recorder.to_file("left", self.path) as left:
            os.mkdir(os.path.join(self.folder, "worker.stream"))
            self.assertRaises(OSError, left.strand, "worker")
            os.rmdir(os.path.join(self.folder, "worker.stream"))
            left.strand("worker", variables=["x"]).close()
            self.refused("no name of a variable", left.strand, "other", variables=["and"])
        self.assertEqual(self.lines(), [{"process": "left"}, {"send": "left-1"}, {"end": True}])
        self.assertEqual(sorted(os.listdir(self.folder)), ["left.stream", "worker.stream"])

    def test_a_file_that_was_given_has_no_place_for_strands(self):
        left = Recorder("left", io.BytesIO())
        with self.assertRaisesRegex(NotRecorded, "no place for the stream"):
            left.strand("worker")

    def test_files_of_strands_are_replaced_but_not_that_of_the_process(self):
        path = os.path.join(self.folder, "worker.stream")
        for _ in range(2):
            with Recorder.to_file("left", self.path, replace=True) as left:
                left.strand("worker").close()
        self.assertEqual(len(self.lines_of("worker")), 4)
        with Recorder.to_file("left", path.encode(), replace=True) as left, self.assertRaises(FileExistsError):
            left.strand("worker")
        self.assertEqual(self.lines_of("worker"), [{"process": "left"}, {"end": True}])

    def test_the_working_directory_may_change(self):
        self.addCleanup(os.chdir, os.getcwd())
        os.chdir(self.folder)
        with Recorder.to_file("left", "left.stream") as left:
            os.chdir("/")
            left.strand("worker").close()
        self.assertEqual(len(self.lines_of("worker")), 4)

    def test_what_is_no_strand_is_not_joined(self):
        with Recorder.to_file("left", self.path) as left:
            for other in ("worker", None, left):
                self.refused("no strand that has ended", left.join, other)

    def test_a_process_ends_while_threads_record_to_its_strands(self):
        left = Recorder.to_file("left", self.path)
        refused = []

        def run(strand):
            try:
                while True:
                    with strand.lock:
                        strand.event()
                        left.event()
                    time.sleep(0.001)  # or there are no more events before the end
            except NotRecorded:
                refused.append(strand.process)

        strands = [left.strand(name) for name in ("a", "b", "c")]
        threads = [threading.Thread(target=run, args=(strand,)) for strand in strands]
        for thread in threads:
            thread.start()
        time.sleep(0.05)
        left.close()
        for thread in threads:
            thread.join(30)
        self.assertEqual(sorted(refused), ["a", "b", "c"])
        for lines in (self.lines(), *map(self.lines_of, "abc")):
            self.assertEqual([place for place, line in enumerate(lines) if line == {"end": True}], [len(lines) - 1])


class Shared(StrandCase):
    """What strands share: a queue, a lock."""

    def run_in_strands(self, left, **works):
        """Runs each of the functions in a thread with a strand of its name."""
        strands = [left.strand(name) for name in works]

        def run(strand, work):
            with strand:
                work(strand)

        threads = [threading.Thread(target=run, args=(strand, work)) for strand, work in zip(strands, works.values())]
        for thread in threads:
            thread.start()
        for thread in threads:
            thread.join(30)

    def test_a_queue_hands_on_what_was_before(self):
        items = monitor_recorder.RecordedQueue(maxsize=1)

        def put(strand):
            for number in range(3):
                strand.event(x=number)
                items.put(f"item {number}")

        def get(strand):
            self.assertEqual([items.get(timeout=30) for _ in range(3)], ["item 0", "item 1", "item 2"])

        with Recorder.to_file("left", self.path) as left:
            self.run_in_strands(left, a=put, b=get)
        self.assertEqual([line for line in self.lines_of("a") if "send" in line],
                         [{"send": f"a-{number}"} for number in range(1, 5)])
        self.assertEqual(self.lines_of("b")[1:],
                         [{"recv": "left-2"}, *({"recv": f"a-{number}"} for number in (1, 2, 3)), {"send": "b-1"},
                          {"end": True}])

    def test_a_queue_without_recorders_or_with_one(self):
        items = monitor_recorder.RecordedQueue()
        items.put(None)
        self.assertIsNone(items.get_nowait())
        with Recorder.to_file("left", self.path) as left:
            items.put_nowait("mine")
            self.assertEqual(items.get(), "mine")
            items.put("more")
        self.assertEqual(items.get(), "more")
        self.assertEqual(left.events, 2)

    @needs_program
    def test_a_lock_keeps_apart(self):
        lock = monitor_recorder.RecordedLock()

        def work(strand):
            for _ in range(20):
                with lock:
                    strand.event(inside=1)
                    strand.event(inside=0)
                time.sleep(0.0005)

        with Recorder.to_file("left", self.path) as left:
            self.run_in_strands(left, a=work, b=work)
        self.assertFalse(lock.locked())
        document = {"processes": [{"name": name, "vars": {"inside": 0}} for name in ("left", "a", "b")],
                    "predicates": [{"name": "both", "text": "a.inside == 1 and b.inside == 1"}]}
        self.assertRegex(report_of(document, [self.text(), self.text_of("a"), self.text_of("b")]),
                         "^session 3 processes [0-9]+ events [0-9]+ messages\nboth possibly no\n")

    def test_a_lock_that_is_refused_isn_t_held(self):
        lock = monitor_recorder.RecordedLock()
        with Recorder.to_file("left", self.path) as left:
            with left.strand("a"), lock:
                pass
            with left.strand("b") as strand:
                strand.close()
                self.assertRaises(NotRecorded, lock.acquire)
                self.assertFalse(lock.locked())
            lock.acquire()
            left.close()
            self.assertRaises(NotRecorded, lock.release)
            self.assertFalse(lock.locked())
        self.assertEqual(self.lines_of("left")[3:], [{"recv": "a-1"}, {"end": True}])

    def test_a_lock_without_recorders(self):
        lock = monitor_recorder.RecordedLock()
        with lock:
            self.assertFalse(lock.acquire(blocking=False))
            self.assertFalse(lock.acquire(timeout=0.001))
        self.assertTrue(lock.acquire())


class Ports(Case):
    def setUp(self):
        super().setUp()
        self.listener = socket.create_server(("127.0.0.1", 0))
        self.addCleanup(self.listener.close)
        self.port = self.listener.getsockname()[1]

    def silent(self):
        """A socket that has a port, on which nobody listens yet."""
        bound = socket.socket()
        self.addCleanup(bound.close)
        bound.bind(("127.0.0.1", 0))
        return bound, bound.getsockname()[1]

    def test_nobody_listens(self):
        port = self.silent()[1]
        with self.assertRaisesRegex(ConnectionRefusedError, f"the port is {port}, and there is no connection: "):
            Recorder.to_port("left", port, seconds=0.1)

    def at(self, place, name="left"):
        """A recorder that is made with this in the environment, or with nothing."""
        with unittest.mock.patch.dict(os.environ, {} if place is None else {"MONITOR_TO": place}):
            if place is None:
                os.environ.pop("MONITOR_TO", None)
            return Recorder.from_environment(name)

    def test_a_folder_of_the_environment(self):
        folder = os.path.join(os.path.dirname(self.path), "new", "folder")
        for name in ("left", "right"):
            self.at(folder, name).close()
        self.assertEqual(sorted(os.listdir(folder)), ["left.stream", "right.stream"])
        with self.assertRaises(FileExistsError):
            self.at(folder)

    def test_a_port_of_the_environment(self):
        for host in ("", "localhost", "127.0.0.1"):
            recorder = self.at(f"{host}:{self.port}")
            connection, _ = self.listener.accept()
            with connection:
                recorder.close()
                self.assertEqual(connection.makefile("rb").read(), b'{"process":"left"}\n{"end":true}\n')

    def test_nobody_listens_at_a_place_of_the_environment(self):
        there_is_none = "unix:" + os.path.join(os.path.dirname(self.path), "none")
        with unittest.mock.patch.object(monitor_recorder, "CONNECT_SECONDS", 0.1):
            for place, kind in ((f":{self.silent()[1]}", ConnectionRefusedError), (there_is_none, FileNotFoundError)):
                with self.assertRaises(kind) as raised:
                    self.at(place)
                self.assertIn(f"MONITOR_TO is {place}, and there is no connection: ", str(raised.exception))
                self.assertTrue(str(raised.exception).endswith(", for 0.1 seconds: does monitor serve listen there?"))
            with unittest.mock.patch.object(socket, "create_connection", side_effect=socket.timeout("timed out")):
                with self.assertRaisesRegex(OSError, "MONITOR_TO is host:1, and there is no connection: timed out$"):
                    self.at("host:1")

    def test_no_place_in_the_environment(self):
        for place in (None, "", ":0", ":65535", "localhost:99999"):
            with self.assertRaisesRegex(NotRecorded, "^MONITOR_TO is"):
                self.at(place)
        with self.assertRaises(NotRecorded):
            self.at(os.path.dirname(self.path), "and")

    def test_tokens_that_are_none(self):
        for token in ("a\0b", "\ud800", b"bytes", 7, "a\n", 1025 * "x"):
            with self.assertRaisesRegex(NotRecorded, "^token: the token is no "):
                Recorder.to_port("left", self.port, token=token)

    def test_a_token_is_the_bytes_of_the_environment(self):
        secret = b"\xff \xc3\xa9"
        with unittest.mock.patch.dict(os.environ, {"MONITOR_TOKEN": os.fsdecode(secret)}):
            recorder = Recorder.to_port("left", self.port)
        connection, _ = self.listener.accept()
        with connection:
            recorder.close()
            self.assertEqual(connection.makefile("rb").read(), secret + b'\n{"process":"left"}\n{"end":true}\n')

    def test_a_connection_of_ones_own(self):
        ours, theirs = socket.socketpair()
        with theirs:
            Recorder("left", ours).close()
            self.assertEqual(theirs.makefile("rb").read(), b'{"process":"left"}\n{"end":true}\n')


class Notes(StrandCase):
    def setUp(self):
        super().setUp()
        self.folder = os.path.dirname(self.path)

    def notes(self, name="left"):
        """What the notes say, without their clocks, and the lines that are their places."""
        with open(os.path.join(self.folder, f"{name}.notes.jsonl"), encoding="utf-8", newline="\n") as file:
            notes = [json.loads(line) for line in file]
        for number, note in enumerate(notes, 1):
            self.assertEqual(list(note), ["process", "event", "text", "place", "clock"])
            self.assertEqual((note["process"], note["event"]), (name, number))
        return [(note["text"], lines_at(note["place"])) for note in notes]

    def test_each_way_to_a_note(self):
        async def task(strand):
            async with strand:
                strand.event(note="in a task")
        with Recorder.to_file("left", self.path, notes=True) as left:
            left.event(x=1, note="said")
            left.event(note=5)
            worker = left.strand("worker")
            asyncio.run(task(worker))
            left.join(worker, x=2, note="joined")
            with left.strand("last"):
                pass
        self.assertEqual(self.notes(), [
            ("said", 'left.event(x=1, note="said")'), ("", "left.event(note=5)"),
            ("", 'worker = left.strand("worker")'), ("joined", 'left.join(worker, x=2, note="joined")'),
            ("", 'with left.strand("last"):')])
        self.assertEqual(self.notes("worker"), [
            ("", 'worker = left.strand("worker")'), ("in a task", 'strand.event(note="in a task")'),
            ("", "async with strand:")])
        self.assertIn('{"set":{"note":5}}', self.text())

    def test_a_text_is_no_variable_without_notes_either(self):
        with Recorder.to_file("left", self.path, variables=["x"]) as left:
            left.event(x=1, note="said")
            self.refused("has no variable note", left.event, note=5)
        self.assertEqual(self.text(), '{"process":"left"}\n{"set":{"x":1}}\n{"end":true}\n')
        self.assertEqual(os.listdir(self.folder), ["left.stream"])

    def test_halves_of_pairs_and_long_files(self):
        with Recorder.to_file("left", self.path, notes=True) as left:
            left.event(note="a\ud800b\udfff" + "\ud83d\ude00"[:1])
            exec(compile("left.event()", "f\n" + "x" * 2000, "exec"), {"left": left})
        with open(self.path.replace(".stream", ".notes.jsonl"), encoding="utf-8") as file:
            first, second = [json.loads(line) for line in file]
        self.assertEqual(first["text"], "a\ufffdb\ufffd\ufffd")
        self.assertEqual(second["place"], "f\n" + "x" * 1022 + ":1")

    def test_a_port_and_other_files_have_no_place(self):
        for path in (self.path + "s", self.folder, os.path.join(self.folder, "left")):
            with self.assertRaisesRegex(NotRecorded, "doesn't end with .stream"):
                Recorder.to_file("left", path, notes=True)
        self.assertEqual(os.listdir(self.folder), [])

    def test_the_environment(self):
        place = os.path.join(self.folder, "new")
        for wanted in ("1", "0", "", None):
            with mock.patch.dict(os.environ, {"MONITOR_TO": place, "MONITOR_NOTES": wanted or ""}):
                if wanted is None:
                    del os.environ["MONITOR_NOTES"]
                with Recorder.from_environment("left", replace=True) as left:
                    left.event()
            self.assertEqual(sorted(os.listdir(place)), ["left.notes.jsonl"] * (wanted == "1") + ["left.stream"])
        for wanted, at, text in (("1", ":7411", "MONITOR_TO is the connection :7411"),
                                 ("yes", place, "MONITOR_NOTES is 'yes'"), ("yes", ":7411", "MONITOR_NOTES is 'yes'")):
            with mock.patch.dict(os.environ, {"MONITOR_TO": at, "MONITOR_NOTES": wanted}):
                with self.assertRaisesRegex(NotRecorded, text):
                    Recorder.from_environment("other")

    def test_notes_that_are_there_are_kept(self):
        there = os.path.join(self.folder, "left.notes.jsonl")
        with open(there, "w", encoding="utf-8") as file:
            file.write("mine")
        with self.assertRaisesRegex(FileExistsError, "isn't written over.*left.notes.jsonl"):
            Recorder.to_file("left", self.path, notes=True)
        self.assertEqual(os.listdir(self.folder), ["left.notes.jsonl"])
        Recorder.to_file("left", self.path).close()
        with open(there, encoding="utf-8") as file:
            self.assertEqual(file.read(), "mine")
        Recorder.to_file("left", self.path, replace=True).close()
        self.assertEqual(os.listdir(self.folder), ["left.stream"])

    def test_after_a_note_that_could_not_be_written_nothing_is(self):
        os.symlink("/dev/full", os.path.join(self.folder, "left.notes.jsonl"))
        left = Recorder.to_file("left", self.path, notes=True, replace=True)
        with self.assertRaises(OSError):
            left.event()
        self.refused("is broken off", left.event)
        self.assertEqual((left.events, self.text()), (0, '{"process":"left"}\n'))
        left.abandon()

    def test_incarnations(self):
        for number in range(2):
            left = Recorder.to_file("left", self.path, again=True, notes=True)
            left.event(note=f"run {number}")
            left.abandon()
        self.assertEqual([text for text, _ in self.notes()], ["run 0"])
        self.assertEqual([text for text, _ in self.notes("left_2")], ["", "run 1"])


def lines_at(place):
    """The line of this file that is the place."""
    file, _, number = place.rpartition(":")
    assert os.path.samefile(file, __file__)
    with open(file, encoding="utf-8") as lines:
        return lines.read().split("\n")[int(number) - 1].strip()


class Limits(unittest.TestCase):
    """The limits of each recorder, of the importers and of monitor_mend are those of the definitions."""

    # Where they stand, and how: a pattern with the name of a limit in that language, and with its number.
    OTHERS = {"c/monitor_recorder.h": (r"^#define MONITOR_{} (\d+)$", "EVENT_LIMIT"),
              "go/record.go": (r"^\t{} += ([\d_]+) ", "EventLimit"),
              "java/monitor/Recorder.java": (r"^    public static final int {} = ([\d_]+);$", "EVENT_LIMIT"),
              "javascript/monitor_recorder.cjs": (r"^const {} = ([\d_]+);$", "EVENT_LIMIT"),
              "javascript/monitor_recorder.d.cts": (r"^export const {}: ([\d_]+);$", "EVENT_LIMIT"),
              "rust/src/lib.rs": (r"^pub const {}: usize = ([\d_]+);$", "EVENT_LIMIT")}
    NAMES = {"event_limit": ("EVENT_LIMIT", "EventLimit"), "var_limit": ("VARIABLE_LIMIT", "VariableLimit"),
             "process_limit": ("PROCESS_LIMIT", "ProcessLimit"),
             "name_byte_limit": ("NAME_BYTE_LIMIT", "NameByteLimit"), "id_byte_limit": ("ID_BYTE_LIMIT", "IDByteLimit"),
             "note_byte_limit": ("NOTE_BYTE_LIMIT", "NoteByteLimit"),
             "long_event_limit": ("LONG_EVENT_LIMIT", "LongEventLimit"),
             "long_process_limit": ("LONG_PROCESS_LIMIT", "LongProcessLimit"),
             "long_id_byte_limit": ("LONG_ID_BYTE_LIMIT", "LongIDByteLimit")}

    def setUp(self):
        with open(os.path.join(FOLDER, "..", "..", "crates", "def_format", "specs", "Limits.antt"),
                  encoding="utf-8") as file:
            self.limits = {name: int(number) for name, number in re.findall(r"^(\w+) = (\d+)$", file.read(), re.M)}
        # Of these the monitor doesn't know.
        self.limits.update(note_byte_limit=1_024, long_event_limit=2**31 - 1, long_process_limit=4_096,
                           long_id_byte_limit=1_024)

    def test_of_python(self):
        for limit, (name, _) in self.NAMES.items():
            self.assertEqual(getattr(monitor_recorder, name), self.limits[limit], name)
        for module, names in ((importing, ("PROCESS_LIMIT", "PREDICATE_LIMIT", "WIDTH_LIMIT")),
                              (monitor_mend, ("LINE_BYTE_LIMIT", "STREAM_BYTE_LIMIT"))):
            for name in names:
                self.assertEqual(getattr(module, name), self.limits[name.lower()], name)

    def test_of_the_others(self):
        for path, (pattern, example) in self.OTHERS.items():
            with open(os.path.join(FOLDER, "..", path), encoding="utf-8") as file:
                text = file.read()
            for limit, names in self.NAMES.items():
                name = names[example == "EventLimit"]
                found = [int(number) for number in re.findall(pattern.format(name), text, re.M)]
                self.assertEqual(found, [self.limits[limit]], f"{path}: {name}")


@needs_program
class Judged(Case):
    DOCUMENT = {"processes": [{"name": "left", "vars": {"x": 0}}, {"name": "right", "vars": {"x": 0}}],
                "predicates": [{"name": "both", "text": "left.x == 1 and right.x == 1"}]}

    def recorded(self, run):
        with Recorder.to_file("left", self.path) as left, Recorder.to_file("right", self.path + ".2") as right:
            run(left, right)
        with open(self.path + ".2", encoding="utf-8") as file:
            return report_of(self.DOCUMENT, [self.text(), file.read()])

    def test_ids_with_every_kind_of_character(self):
        def run(left, right):
            for number in list(range(0, 0xd800, 97)) + list(range(0xe000, 0x10ffff, 9973)):
                right.receive(left.send(f"m{chr(number)}{number}"))

        self.assertRegex(self.recorded(run), "^session 2 processes [0-9]+ events [0-9]+ messages\nboth possibly no\n")

    def test_the_longest_streams(self):
        document = {"processes": [{"name": "left", "vars": {f"{n:_>32}": 0 for n in "abcdefghijklmnop"}}],
                    "predicates": [{"name": "last", "text": "left." + "a".rjust(32, "_") + " > 0"}], "width": 1}
        rows = {f"{name:_>32}": LEAST for name in "abcdefghijklmnop"}
        with Recorder.to_file("left", self.path) as recorder:
            for number in range(EVENT_LIMIT):
                recorder.send("\1" * 50 + f"{number:\1>14}", **rows)
        self.assertLess(max(map(len, self.text().splitlines())), 1400)
        self.assertLess(len(self.text()), 14_000_000)
        self.assertEqual(report_of(document, [self.text()]).splitlines()[:2],
                         ["session 1 processes 10000 events 0 messages", "last possibly no"])

    def test_recordings_at_random_are_not_refused(self):
        generator = random.Random(1)

        def run(left, right):
            for _ in range(20):
                sender, receiver = generator.choice([(left, right), (right, left)])
                message = sender.send(x=generator.randrange(3))
                if generator.random() < 0.8:
                    receiver.receive(message, x=generator.randrange(3))
                generator.choice([left, right]).event(x=generator.randrange(3))

        self.assertRegex(self.recorded(run), "^session 2 processes 5[0-9] events 1[0-9] messages\n")


if __name__ == "__main__":
    unittest.main()
