"""Tests of monitor_http by a server of wsgiref and the clients of the standard library: python3 -m unittest discover -s
recorders/python. What needs packages is in uvicorn_tests.py and requests_tests.py."""
import contextlib
import http.client
import io
import json
import os
import socket
import socketserver
import sys
import tempfile
import threading
import unittest
import urllib.error
import urllib.request
from unittest import mock
from wsgiref.simple_server import WSGIRequestHandler, WSGIServer
from wsgiref.util import FileWrapper
from wsgiref.validate import validator

import monitor_http
import monitor_recorder
from judging import needs_program, report_of
from monitor_http import RecordedWSGI, by_client, id_of_trace, record_client
from monitor_recorder import Recorder, current

TURNS = {"processes": [{"name": "left", "vars": {"inside": 0}}, {"name": "right", "vars": {"inside": 0}}],
         "predicates": [{"name": "both", "text": "left.inside == 1 and right.inside == 1"}]}
LOST = {"processes": [{"name": "left", "vars": {}}, {"name": "right", "vars": {}},
                      {"name": "write", "vars": {"writing": 0}}, {"name": "close", "vars": {"closed": 0}}],
        "predicates": [{"name": "lost", "text": "write.writing == 1 and close.closed == 1"}]}
TRACE = "4bf92f3577b34da6a3ce929d0e0e4736-00f067aa0ba902b7"
SECONDS = 30  # nothing takes so long, but on a machine that stands still


class Quiet(WSGIRequestHandler):
    def log_message(self, *words):
        pass

    def get_stderr(self):
        return io.StringIO()


class Server(socketserver.ThreadingMixIn, WSGIServer):
    daemon_threads = True

    def server_bind(self):
        """Without looking the address up, for which some machines wait for seconds."""
        socketserver.TCPServer.server_bind(self)
        self.server_name, self.server_port = self.server_address
        self.setup_environ()


class Case(unittest.TestCase):
    def setUp(self):
        folder = tempfile.TemporaryDirectory()
        self.addCleanup(folder.cleanup)
        self.folder = folder.name
        self.recorders = []
        self.said = io.StringIO()
        monitor_http.SAID.clear()
        redirected = contextlib.redirect_stderr(self.said)
        redirected.__enter__()
        self.addCleanup(redirected.__exit__, None, None, None)

    def recorder(self, name):
        """A recorder, which `ended` closes."""
        recorder = Recorder.to_file(name, os.path.join(self.folder, f"{name}.stream"))
        self.recorders.append(recorder)
        self.addCleanup(recorder.abandon)
        return recorder

    def recorded_client(self, recorder=None):
        self.addCleanup(record_client(recorder))

    def served(self, app):
        """The URL of a server of this application, which answers each request in a thread of its own."""
        server = Server(("127.0.0.1", 0), Quiet)
        server.set_app(app)
        thread = threading.Thread(target=server.serve_forever, args=(0.01,))
        thread.start()
        self.addCleanup(thread.join)
        self.addCleanup(server.server_close)
        self.addCleanup(server.shutdown)
        return f"http://127.0.0.1:{server.server_port}"

    def both(self, app, **options):
        """The recorders of a client `left` and of a server `right` with this application, and its URL."""
        left, right = self.recorder("left"), self.recorder("right")
        self.recorded_client(left)
        return left, right, self.served(RecordedWSGI(app, right, **options))

    def ended(self, *names):
        """The lines of these streams between the first and the last one, each, once all are closed."""
        for recorder in self.recorders:
            recorder.close()
        return [[json.loads(line) for line in self.text(name).splitlines()][1:-1] for name in names]

    def text(self, name):
        with open(os.path.join(self.folder, f"{name}.stream"), encoding="utf-8") as file:
            return file.read()

    def report(self, document):
        return report_of(document, [self.text(process["name"]) for process in document["processes"]])


def asked(url, data=None, **headers):
    """The status, the headers and the body of a request, by urllib."""
    request = urllib.request.Request(url, data, {name.replace("_", "-"): value for name, value in headers.items()})
    with urllib.request.urlopen(request, timeout=SECONDS) as response:
        return response.status, response.headers, response.read()


def plainly_asked(url, headers=()):
    """The same over a socket, so that nothing records it."""
    host, port = url[len("http://"):].split(":")
    with socket.create_connection((host, int(port)), timeout=SECONDS) as connection:
        lines = ["GET / HTTP/1.0", *(f"{name}: {value}" for name, value in headers), "", ""]
        connection.sendall("\r\n".join(lines).encode())
        head, _, body = b"".join(iter(lambda: connection.recv(4096), b"")).partition(b"\r\n\r\n")
    first, *others = head.decode().split("\r\n")
    return int(first.split()[1]), dict(line.split(": ", 1) for line in others), body


def greet(environ, start_response):
    start_response("200 OK", [("Content-Type", "text/plain")])
    return [b"hello"]


def take_turn(environ, start_response):
    """Is inside for a while, once it has the turn."""
    current().event(inside=1)
    current().event(inside=0)
    return greet(environ, start_response)


class Messages(Case):
    def test_a_request_and_its_response_are_messages(self):
        left, _, url = self.both(take_turn)
        left.event(inside=1)
        left.event(inside=0)
        self.assertEqual(asked(url)[2], b"hello")
        left.event(inside=1)
        self.assertEqual(self.ended("left", "right"), [
            [{"set": {"inside": 1}}, {"set": {"inside": 0}}, {"send": "left-1"}, {"recv": "right-1"},
             {"set": {"inside": 1}}],
            [{"recv": "left-1"}, {"set": {"inside": 1}}, {"set": {"inside": 0}}, {"send": "right-1"}]])
        self.assertEqual(self.said.getvalue(), "")

    @needs_program
    def test_their_order_is_judged(self):
        left, _, url = self.both(take_turn)
        left.event(inside=1)
        left.event(inside=0)
        asked(url)
        left.event(inside=1)
        self.ended()
        self.assertEqual(self.report(TURNS).splitlines()[:2],
                         ["session 2 processes 9 events 2 messages", "both possibly no"])

    @needs_program
    def test_clients_side_by_side(self):
        names = [f"client_{number}" for number in range(4)]
        clients = [self.recorder(name) for name in names]
        url = self.served(RecordedWSGI(take_turn, self.recorder("right")))
        self.recorded_client()

        def ask_often(client):
            with client:
                for _ in range(10):
                    asked(url)

        threads = [threading.Thread(target=ask_often, args=(client,)) for client in clients]
        for thread in threads:
            thread.start()
        for thread in threads:
            thread.join()
        self.ended()
        processes = [{"name": name, "vars": {"inside": 0}} for name in [*names, "right"]]
        report = self.report({"processes": processes, "predicates": [{"name": "never", "text": "false"}]})
        self.assertEqual(report.splitlines()[0], "session 5 processes 240 events 80 messages")


    def test_a_client_without_a_recorder(self):
        self.recorded_client()
        right = self.recorder("right")
        url = self.served(RecordedWSGI(greet, right))
        self.assertIsNone(asked(url)[1]["Monitor-Response"])
        self.assertEqual(asked(url, Monitor_Request="a-1")[1]["Monitor-Response"], "right-1")
        self.assertEqual(self.ended("right"), [[{"recv": "a-1"}, {"send": "right-1"}]])

    def test_a_request_without_an_id(self):
        url = self.served(RecordedWSGI(take_turn, self.recorder("right")))
        status, headers, body = plainly_asked(url)
        self.assertEqual((status, body), (200, b"hello"))
        self.assertNotIn("Monitor-Response", headers)
        self.assertEqual(self.ended("right"), [[{"set": {"inside": 1}}, {"set": {"inside": 0}}]])

    def test_a_request_that_comes_twice(self):
        url = self.served(RecordedWSGI(greet, self.recorder("right")))
        for number in (1, 2, 3):
            status, headers, _ = plainly_asked(url, [("Monitor-Request", "left-1")])
            self.assertEqual((status, headers["Monitor-Response"]), (200, f"right-{number}"))
        self.assertEqual(self.said.getvalue(), "monitor_http: a request that came isn't recorded: right has sent or "
                                               "received 'left-1' before (this is said once)\n")
        self.assertEqual(self.ended("right"), [[{"recv": "left-1"}, *({"send": f"right-{n}"} for n in (1, 2, 3))]])

    def test_an_id_that_none_can_have(self):
        url = self.served(RecordedWSGI(greet, self.recorder("right")))
        self.assertEqual(plainly_asked(url, [("Monitor-Request", "x" * 65)])[0], 200)
        self.assertIn("a request that came isn't recorded: the id of a message has 1 to 64 bytes", self.said.getvalue())

    def test_a_response_that_comes_twice(self):
        """As out of a cache."""
        def cached(environ, start_response):
            start_response("200 OK", [("Monitor-Response", "right-1")])
            return [b"hello"]

        self.recorded_client(self.recorder("left"))
        url = self.served(cached)
        for _ in range(3):
            self.assertEqual(asked(url)[2], b"hello")
        self.assertEqual(self.said.getvalue().count("a response that came isn't recorded: left has sent or"), 1)
        self.assertEqual(self.ended("left"), [[{"send": "left-1"}, {"recv": "right-1"}, {"send": "left-2"},
                                               {"send": "left-3"}]])

    def test_a_process_that_asks_itself(self):
        left = self.recorder("left")
        self.recorded_client(left)
        self.assertEqual(asked(self.served(RecordedWSGI(greet, left)))[0], 200)
        self.assertEqual(self.said.getvalue().count("\n"), 2)
        self.assertEqual(self.ended("left"), [[{"send": "left-1"}, {"send": "left-2"}]])

    def test_a_request_that_is_passed_on(self):
        """A gateway that copies headers, as some do, has messages of its own all the same."""
        def pass_on(environ, start_response):
            self.assertNotIn("HTTP_MONITOR_REQUEST", environ)
            _, headers, body = asked(backend, Monitor_Request="elsewhere-1")
            start_response("200 OK", [("Monitor-Response", headers["Monitor-Response"])])
            return [body]

        backend = self.served(RecordedWSGI(greet, self.recorder("backend")))
        left, _, url = self.both(pass_on)
        self.assertEqual(asked(url)[2], b"hello")
        self.assertEqual(self.ended("left", "right", "backend"), [
            [{"send": "left-1"}, {"recv": "right-2"}],
            [{"recv": "left-1"}, {"send": "right-1"}, {"recv": "backend-1"}, {"send": "right-2"}],
            [{"recv": "right-1"}, {"send": "backend-1"}]])


class Traces(Case):
    def test_ids_of_traces(self):
        for text in (f"00-{TRACE}-01", f"cc-{TRACE}-00-what-comes-later"):
            self.assertEqual(id_of_trace(text), TRACE)
        for text in (None, "", TRACE, f"ff-{TRACE}-01", f"00-{TRACE}", f"00-{TRACE}-01 ", f"00-{TRACE.upper()}-01",
                     f"00-{'0' * 32}-00f067aa0ba902b7-01", f"00-4bf92f3577b34da6a3ce929d0e0e4736-{'0' * 16}-01"):
            self.assertIsNone(id_of_trace(text))

    def test_a_request_with_a_trace(self):
        url = self.served(RecordedWSGI(greet, self.recorder("right")))
        trace = [("traceparent", f"00-{TRACE}-01")]
        for _ in range(2):  # two requests may have been made in one span
            status, headers, _ = plainly_asked(url, trace)
            self.assertEqual(status, 200)
            self.assertNotIn("Monitor-Response", headers)
        self.assertEqual(plainly_asked(url, [*trace, ("Monitor-Request", "left-1")])[1]["Monitor-Response"], "right-1")
        self.assertEqual(self.said.getvalue().count("a request that came isn't recorded"), 1)
        self.assertEqual(self.ended("right"), [[{"recv": TRACE}, {"recv": "left-1"}, {"send": "right-1"}]])

    def test_traces_that_are_not_taken(self):
        url = self.served(RecordedWSGI(greet, self.recorder("right"), trace=False))
        self.assertEqual(plainly_asked(url, [("traceparent", f"00-{TRACE}-01")])[0], 200)
        self.assertEqual(plainly_asked(url, [("traceparent", "none")])[0], 200)
        self.assertEqual(self.ended("right"), [[]])

    @needs_program
    def test_a_client_that_records_by_its_trace(self):
        left = self.recorder("left")
        url = self.served(RecordedWSGI(take_turn, self.recorder("right")))
        left.event(inside=1)
        header = f"00-{TRACE}-01"
        left.send(id_of_trace(header), inside=0)
        plainly_asked(url, [("traceparent", header)])
        self.ended()
        self.assertEqual(self.report(TURNS).splitlines()[:2],
                         ["session 2 processes 5 events 1 messages", "both possibly no"])


class Handlers(Case):
    def body_of(self, app):
        """What is recorded of one request to an application, and what the client gets."""
        _, _, url = self.both(app)
        return asked(url), *self.ended("left", "right")

    def test_what_comes_before_the_body_comes_before_the_response(self):
        def begin_early(environ, start_response):
            start_response("200 OK", [])
            current().event(inside=1)
            return [b"hello"]

        _, _, right = self.body_of(begin_early)
        self.assertEqual(right, [{"recv": "left-1"}, {"set": {"inside": 1}}, {"send": "right-1"}])

    def test_a_body_in_parts(self):
        first_is_read = threading.Event()

        def give_parts(environ, start_response):
            start_response("200 OK", [])
            current().event(part=1)
            yield b"a"
            first_is_read.wait(SECONDS)
            current().event(part=2)
            yield b"b"
            current().event(part=3)

        left, _, url = self.both(give_parts)
        with urllib.request.urlopen(url, timeout=SECONDS) as response:
            self.assertEqual(response.read(1), b"a")
            left.event()
            first_is_read.set()
            self.assertEqual(response.read(), b"b")
        self.assertEqual(self.ended("left", "right"), [
            [{"send": "left-1"}, {"recv": "right-1"}, {}],
            [{"recv": "left-1"}, {"set": {"part": 1}}, {"send": "right-1"}, {"set": {"part": 2}},
             {"set": {"part": 3}}]])

    def test_a_body_that_is_written(self):
        def write(environ, start_response):
            written = start_response("200 OK", [])
            current().event(inside=1)
            written(b"a")
            current().event(inside=0)
            written(b"b")
            return []

        (_, _, body), _, right = self.body_of(write)
        self.assertEqual(body, b"ab")
        self.assertEqual(right, [{"recv": "left-1"}, {"set": {"inside": 1}}, {"send": "right-1"},
                                 {"set": {"inside": 0}}])

    def test_a_body_without_parts(self):
        def give_none(environ, start_response):
            start_response("204 No Content", [])
            yield from ()

        (status, headers, _), left, _ = self.body_of(give_none)
        self.assertEqual((status, headers["Monitor-Response"]), (204, "right-1"))
        self.assertEqual(left, [{"send": "left-1"}, {"recv": "right-1"}])

    def test_what_a_server_asks_of_a_body(self):
        (_, headers, _), _, _ = self.body_of(greet)
        self.assertEqual(headers["Content-Length"], "5")

        def give_file(environ, start_response):
            start_response("200 OK", [])
            return environ["wsgi.file_wrapper"](io.BytesIO(b"hello"))

        app = RecordedWSGI(give_file, self.recorder("other"))
        self.assertIsInstance(app({"wsgi.file_wrapper": FileWrapper}, mock.Mock()), FileWrapper)

    def failed(self, app):
        """The server answers by itself what the application doesn't answer."""
        _, _, url = self.both(app)
        with self.assertRaises(urllib.error.HTTPError) as raised:
            asked(url)
        raised.exception.close()
        self.assertEqual(raised.exception.code, 500)
        self.assertEqual(self.ended("left", "right"), [[{"send": "left-1"}], [{"recv": "left-1"}, {}]])

    def test_a_handler_that_fails(self):
        def fail(environ, start_response):
            current().event()
            raise OSError("no such thing")

        self.failed(fail)

    def test_a_handler_that_fails_before_the_body_begins(self):
        def fail(environ, start_response):
            start_response("200 OK", [])
            current().event()
            yield {}["no such part"]

        self.failed(fail)

    def test_a_handler_that_answers_otherwise(self):
        """What has failed before the first part of the body may give the response another head."""
        def fail(environ, start_response):
            try:
                start_response("200 OK", [])
                raise OSError("no such thing")
            except OSError:
                start_response("404 Not Found", [], sys.exc_info())
                return [b"none"]

        _, _, url = self.both(fail)
        with self.assertRaises(urllib.error.HTTPError) as raised:
            asked(url)
        raised.exception.close()
        self.assertEqual(raised.exception.code, 404)
        self.assertEqual(self.ended("left", "right"), [[{"send": "left-1"}, {"recv": "right-1"}],
                                                       [{"recv": "left-1"}, {"send": "right-1"}]])

    def test_a_handler_that_begins_twice(self):
        def begin_twice(environ, start_response):
            current().event()
            start_response("200 OK", [])
            return greet(environ, start_response)

        _, right, url = self.both(begin_twice)
        with self.assertRaises(urllib.error.HTTPError) as raised:
            asked(url)
        raised.exception.close()
        self.assertEqual(raised.exception.code, 500)

    def test_a_handler_that_fails_after_its_head_has_left(self):
        def fail(environ, start_response):
            written = start_response("200 OK", [])
            written(b"a")
            try:
                raise OSError("no such thing")
            except OSError:
                start_response("404 Not Found", [], sys.exc_info())

        _, right, url = self.both(fail)
        self.assertEqual(asked(url)[0], 200)
        self.assertEqual(right.events, 2)

    def test_the_rules_of_wsgi(self):
        def give_parts(environ, start_response):
            start_response("200 OK", [("Content-Type", "text/plain")])
            yield b"a"

        for app in (greet, give_parts):
            right = self.recorder(app.__name__)
            url = self.served(validator(RecordedWSGI(validator(app), right)))
            self.assertEqual(plainly_asked(url, [("Monitor-Request", "left-1")])[0], 200)
            self.assertEqual(right.events, 2)
        self.assertEqual(self.said.getvalue(), "")


class Strands(Case):
    def lost(self, **options):
        """Two requests that wait side by side: the one that closes what the other one writes is later only by
        chance."""
        has_written = threading.Event()

        def use(environ, start_response):
            if environ["PATH_INFO"] == "/write":
                current().event(**{writing: 1})
                current().event(**{writing: 0})
                has_written.set()
            else:
                has_written.wait(SECONDS)
                current().event(**{closed: 1})
            return greet(environ, start_response)

        writing, closed = "writing", "closed"
        left, _, url = self.both(use, **options)
        others = [left.strand("a"), left.strand("b")]

        def ask(strand, path):
            with strand:
                asked(url + path)

        threads = [threading.Thread(target=ask, args=pair) for pair in zip(others, ("/write", "/close"))]
        for thread in threads:
            thread.start()
        for thread in threads:
            thread.join()
        self.ended()

    def report_with(self, document, *names):
        others = [{"name": name, "vars": {}} for name in names]
        return self.report({**document, "processes": [*document["processes"], *others]}).splitlines()[:2]

    @needs_program
    def test_requests_of_strands(self):
        self.lost(strand=lambda environ: environ["PATH_INFO"][1:])
        self.assertEqual(self.report_with(LOST, "a", "b"), ["session 6 processes 21 events 8 messages",
                                                            "lost possibly yes 2,2,3,3,2,2"])

    @needs_program
    def test_requests_of_one_process(self):
        """The order by chance is taken for a cause."""
        self.lost()
        document = {"processes": [{"name": "left", "vars": {}},
                                  {"name": "right", "vars": {"writing": 0, "closed": 0}}],
                    "predicates": [{"name": "lost", "text": "right.writing == 1 and right.closed == 1"}]}
        self.assertEqual(self.report_with(document, "a", "b"),
                         ["session 4 processes 17 events 6 messages", "lost possibly no"])

    def test_a_strand_has_many_requests_and_the_process_others(self):
        _, _, url = self.both(take_turn, strand=lambda environ: environ["PATH_INFO"][1:] or None)
        for path in ("/one", "/", "/one"):
            asked(url + path)
        self.assertEqual(self.ended("right", "one"), [
            [{"send": "right-1"}, {"recv": "left-2"}, {"set": {"inside": 1}}, {"set": {"inside": 0}},
             {"send": "right-2"}],
            [{"recv": "right-1"}, {"recv": "left-1"}, {"set": {"inside": 1}}, {"set": {"inside": 0}},
             {"send": "one-1"}, {"recv": "left-3"}, {"set": {"inside": 1}}, {"set": {"inside": 0}},
             {"send": "one-2"}]])

    def test_a_strand_of_each_client(self):
        left, _, url = self.both(greet, strand=by_client("right"))
        with left.strand("worker"):
            asked(url)
        asked(url)
        plainly_asked(url, [("Monitor-Request", "an id of its own")])
        self.assertEqual(self.ended("right", "right_worker", "right_left"), [
            [{"send": "right-1"}, {"send": "right-2"}, {"recv": "an id of its own"}, {"send": "right-3"}],
            [{"recv": "right-1"}, {"recv": "worker-1"}, {"send": "right_worker-1"}],
            [{"recv": "right-2"}, {"recv": "left-2"}, {"send": "right_left-1"}]])
        self.assertEqual(self.said.getvalue(), "")

    def test_a_strand_that_can_not_be_begun(self):
        """The process records the request then, and says why."""
        def named(environ):
            return {"/right": "right", "/what": 7, "/else": environ.get("NAME", "no name")}[environ["PATH_INFO"]]

        _, _, url = self.both(greet, strand=named)
        for path in ("/right", "/what", "/else"):
            self.assertEqual(asked(url + path)[0], 200)
        self.assertEqual(self.said.getvalue(), "monitor_http: the strand of a request isn't recorded: right is another "
                         "process of this recording: give each strand a name of its own (this is said once)\n")
        self.assertEqual(len(self.ended("right")[0]), 6)

    def test_more_strands_than_a_session_has_processes(self):
        _, _, url = self.both(greet, strand=lambda environ: environ["PATH_INFO"][1:])
        for number in range(17):
            self.assertEqual(asked(f"{url}/s{number}")[0], 200)
        self.assertEqual(self.said.getvalue().count("\n"), 1)
        self.assertIn("16 processes", self.said.getvalue())
        self.assertEqual([line for line in self.ended("right")[0] if "recv" in line],
                         [{"recv": "left-16"}, {"recv": "left-17"}])


class Clients(Case):
    def test_a_redirection_is_two_requests(self):
        def lead_on(environ, start_response):
            if environ["PATH_INFO"] == "/":
                start_response("302 Found", [("Location", "/there")])
                return []
            return greet(environ, start_response)

        _, _, url = self.both(lead_on)
        self.assertEqual(asked(url)[2], b"hello")
        self.assertEqual(self.ended("left", "right"), [
            [{"send": "left-1"}, {"recv": "right-1"}, {"send": "left-2"}, {"recv": "right-2"}],
            [{"recv": "left-1"}, {"send": "right-1"}, {"recv": "left-2"}, {"send": "right-2"}]])

    def test_a_response_that_comes_too_late(self):
        is_over = threading.Event()

        def wait(environ, start_response):
            is_over.wait(SECONDS)
            return greet(environ, start_response)

        _, right, url = self.both(wait)
        with self.assertRaises(OSError):
            urllib.request.urlopen(url, timeout=0.2)
        is_over.set()
        self.assertEqual(self.ended("left"), [[{"send": "left-1"}]])

    def test_a_server_that_there_is_not(self):
        self.recorded_client(self.recorder("left"))
        with socket.socket() as unheard:
            unheard.bind(("127.0.0.1", 0))
            with self.assertRaises(OSError):
                asked(f"http://127.0.0.1:{unheard.getsockname()[1]}")
        self.assertEqual(self.ended("left"), [[{"send": "left-1"}]])

    def test_a_connection_that_is_used_by_hand(self):
        _, _, url = self.both(greet)
        connection = http.client.HTTPConnection(url[len("http://"):], timeout=SECONDS)
        for _ in range(2):
            connection.putrequest("GET", "/")
            connection.putheader(b"X-Other", b"1")
            connection.putheader(b"Monitor-Request", b"elsewhere-1")
            connection.endheaders()
            self.assertEqual(connection.getresponse().read(), b"hello")
            connection.close()
        with self.assertRaises(http.client.CannotSendHeader):
            connection.endheaders()
        self.assertEqual(self.ended("left", "right"), [
            [{"send": "left-1"}, {"recv": "right-1"}, {"send": "left-2"}, {"recv": "right-2"}],
            [{"recv": "left-1"}, {"send": "right-1"}, {"recv": "left-2"}, {"send": "right-2"}]])

    def test_the_recorder_of_the_block_comes_first(self):
        left, _, url = self.both(greet)
        strand = left.strand("worker")
        with strand:
            asked(url)
        self.assertEqual(self.ended("left", "worker", "right")[1:], [
            [{"recv": "left-1"}, {"send": "worker-1"}, {"recv": "right-1"}, {"send": "worker-2"}],
            [{"recv": "worker-1"}, {"send": "right-1"}]])

    def test_it_is_undone(self):
        left = self.recorder("left")
        plain = http.client.HTTPConnection.endheaders
        undo = record_client(left)
        with self.assertRaisesRegex(RuntimeError, "already"):
            record_client(left)
        undo()
        self.assertIs(http.client.HTTPConnection.endheaders, plain)
        asked(self.served(greet))
        self.assertEqual(self.ended("left"), [[]])
        record_client(left)()


class Failures(Case):
    def test_recorders_that_are_closed(self):
        left, right, url = self.both(greet)
        left.close()
        right.close()
        for _ in range(3):
            self.assertEqual(asked(url, Monitor_Request="elsewhere-1")[2], b"hello")
        self.assertEqual(self.said.getvalue(), "monitor_http: a request that left isn't recorded: the recording of "
                                               "left is closed (this is said once)\n")
        self.assertEqual(plainly_asked(url, [("Monitor-Request", "left-1")])[0], 200)
        self.assertEqual(self.said.getvalue().count("\n"), 3)

    def test_a_process_that_has_too_many_events(self):
        with mock.patch.object(monitor_recorder, "SESSION", monitor_recorder.SESSION._replace(events=3)):
            _, _, url = self.both(greet)
            for _ in range(4):
                self.assertEqual(asked(url)[2], b"hello")
        self.assertEqual(self.ended("left", "right"), [
            [{"send": "left-1"}, {"recv": "right-1"}, {"send": "left-2"}],
            [{"recv": "left-1"}, {"send": "right-1"}, {"recv": "left-2"}]])
        self.assertEqual(self.said.getvalue().count("has 3 events"), 2)

    def test_a_disk_that_is_full(self):
        left, right, url = self.both(greet)
        with mock.patch.object(right, "_out", mock.Mock(spec=["write", "close"], write=mock.Mock(return_value=0))):
            for _ in range(3):
                self.assertEqual(asked(url)[2], b"hello")
        self.assertEqual(self.said.getvalue().count("takes no more bytes"), 1)
        self.assertEqual(self.said.getvalue().count("is broken off"), 2)

    def test_no_standard_error(self):
        left, _, url = self.both(greet)
        left.close()
        with mock.patch("sys.stderr", None):
            self.assertEqual(asked(url)[2], b"hello")


if __name__ == "__main__":
    unittest.main()
