#!/usr/bin/env python3
"""Tests of monitor_http by a server of ASGI, which is uvicorn: python3 recorders/python/uvicorn_tests.py"""
import asyncio
import http.client
import socket
import threading
import time
import unittest
import urllib.error

import uvicorn

from judging import needs_program
from monitor_http import RecordedASGI, by_client
from monitor_recorder import current
from test_monitor_http import LOST, SECONDS, TRACE, TURNS, Case, asked, plainly_asked

HEAD = {"type": "http.response.start", "status": 200, "headers": [(b"content-type", b"text/plain")]}


async def greet(scope, receive, send):
    await send(HEAD)
    await send({"type": "http.response.body", "body": b"hello"})


async def take_turn(scope, receive, send):
    current().event(inside=1)
    await asyncio.sleep(0)
    current().event(inside=0)
    await greet(scope, receive, send)


class InUvicorn(Case):
    def served(self, app):
        listening = socket.socket()
        self.addCleanup(listening.close)
        listening.bind(("127.0.0.1", 0))
        server = uvicorn.Server(uvicorn.Config(app, log_level="critical", lifespan="off"))
        thread = threading.Thread(target=server.run, args=([listening],))
        thread.start()
        self.addCleanup(thread.join, SECONDS)
        self.addCleanup(setattr, server, "should_exit", True)
        until = time.monotonic() + SECONDS
        while not server.started and time.monotonic() < until:
            time.sleep(0.01)
        return f"http://127.0.0.1:{listening.getsockname()[1]}"

    def both(self, app, **options):
        left, right = self.recorder("left"), self.recorder("right")
        self.recorded_client(left)
        return left, right, self.served(RecordedASGI(app, right, **options))

    @needs_program
    def test_a_request_and_its_response_are_messages(self):
        left, _, url = self.both(take_turn)
        left.event(inside=1)
        left.event(inside=0)
        status, headers, body = asked(url)
        left.event(inside=1)
        self.assertEqual((status, headers["Content-Type"], body), (200, "text/plain", b"hello"))
        self.assertEqual(self.ended("left", "right"), [
            [{"set": {"inside": 1}}, {"set": {"inside": 0}}, {"send": "left-1"}, {"recv": "right-1"},
             {"set": {"inside": 1}}],
            [{"recv": "left-1"}, {"set": {"inside": 1}}, {"set": {"inside": 0}}, {"send": "right-1"}]])
        self.assertEqual(self.report(TURNS).splitlines()[:2],
                         ["session 2 processes 9 events 2 messages", "both possibly no"])
        self.assertEqual(self.said.getvalue(), "")

    def test_a_connection_that_is_kept(self):
        _, _, url = self.both(greet)
        connection = http.client.HTTPConnection(url[len("http://"):], timeout=SECONDS)
        self.addCleanup(connection.close)
        places = set()
        for _ in range(3):
            connection.request("POST", "/", b"body")
            self.assertEqual(connection.getresponse().read(), b"hello")
            places.add(connection.sock.getsockname())
        self.assertEqual(len(places), 1)
        self.assertEqual(self.ended("left", "right"), [
            [{way: f"{name}-{number}"} for number in (1, 2, 3) for way, name in ways]
            for ways in ([("send", "left"), ("recv", "right")], [("recv", "left"), ("send", "right")])])

    def test_a_request_without_an_id_and_one_with_a_trace(self):
        url = self.served(RecordedASGI(greet, self.recorder("right")))
        for headers in ([], [("traceparent", f"00-{TRACE}-01")]):
            status, answered, body = plainly_asked(url, headers)
            self.assertEqual((status, body), (200, b"hello"))
            self.assertNotIn("monitor-response", answered)
        self.assertEqual(self.ended("right"), [[{"recv": TRACE}]])

    def test_a_request_that_comes_twice(self):
        url = self.served(RecordedASGI(greet, self.recorder("right")))
        for number in (1, 2):
            status, headers, _ = plainly_asked(url, [("Monitor-Request", "left-1")])
            self.assertEqual((status, headers["monitor-response"]), (200, f"right-{number}"))
        self.assertEqual(self.said.getvalue().count("a request that came isn't recorded: right has sent or"), 1)
        self.assertEqual(self.ended("right"), [[{"recv": "left-1"}, {"send": "right-1"}, {"send": "right-2"}]])

    def test_a_response_that_is_passed_on(self):
        async def pass_on(scope, receive, send):
            await send({**HEAD, "headers": [(b"Monitor-Response", b"elsewhere-1")]})
            await send({"type": "http.response.body"})

        _, _, url = self.both(pass_on)
        self.assertEqual(asked(url)[1].get_all("Monitor-Response"), ["right-1"])

    def test_a_strand_of_each_client(self):
        async def see(scope, receive, send):
            self.assertNotIn(b"monitor-request", dict(scope["headers"]))
            await greet(scope, receive, send)

        _, _, url = self.both(see, strand=by_client("right"))
        asked(url)
        plainly_asked(url)
        self.assertEqual(self.ended("right", "right_left"), [
            [{"send": "right-1"}], [{"recv": "right-1"}, {"recv": "left-1"}, {"send": "right_left-1"}]])
        self.assertEqual(self.said.getvalue(), "")

    def test_a_body_in_parts(self):
        first_is_read = threading.Event()

        async def give_parts(scope, receive, send):
            await send(HEAD)
            await send({"type": "http.response.body", "body": b"a", "more_body": True})
            await asyncio.to_thread(first_is_read.wait, SECONDS)
            current().event(part=2)
            await send({"type": "http.response.body", "body": b"b"})

        left, _, url = self.both(give_parts)
        connection = http.client.HTTPConnection(url[len("http://"):], timeout=SECONDS)
        self.addCleanup(connection.close)
        connection.request("GET", "/")
        response = connection.getresponse()
        self.assertEqual(response.read(1), b"a")
        first_is_read.set()
        self.assertEqual(response.read(), b"b")
        self.assertEqual(self.ended("left", "right"), [
            [{"send": "left-1"}, {"recv": "right-1"}],
            [{"recv": "left-1"}, {"send": "right-1"}, {"set": {"part": 2}}]])

    def test_a_handler_that_fails(self):
        async def fail(scope, receive, send):
            current().event()
            raise OSError("no such thing")

        _, _, url = self.both(fail)
        with self.assertRaises(urllib.error.HTTPError) as raised:
            asked(url)
        raised.exception.close()
        self.assertEqual(raised.exception.code, 500)
        self.assertEqual(self.ended("left", "right"), [[{"send": "left-1"}], [{"recv": "left-1"}, {}]])

    def test_a_client_that_is_gone(self):
        """The handler goes on, or is ended by its server; both may be."""
        is_gone, has_ended = threading.Event(), threading.Event()

        async def wait(scope, receive, send):
            try:
                await asyncio.to_thread(is_gone.wait, SECONDS)
                await greet(scope, receive, send)
            finally:
                has_ended.set()

        _, _, url = self.both(wait)
        with self.assertRaises(OSError):
            connection = http.client.HTTPConnection(url[len("http://"):], timeout=0.2)
            self.addCleanup(connection.close)
            connection.request("GET", "/")
            connection.getresponse()
        connection.close()
        is_gone.set()
        self.assertTrue(has_ended.wait(SECONDS))
        left, right = self.ended("left", "right")
        self.assertEqual((left, right[0]), ([{"send": "left-1"}], {"recv": "left-1"}))

    def lost(self, **options):
        """Two requests that wait side by side: the one that closes what the other one writes is later only by
        chance."""
        has_written = threading.Event()

        async def use(scope, receive, send):
            if scope["path"] == "/write":
                current().event(writing=1)
                await asyncio.sleep(0.01)
                current().event(writing=0)
                has_written.set()
            else:
                await asyncio.to_thread(has_written.wait, SECONDS)
                current().event(closed=1)
            await greet(scope, receive, send)

        left, _, url = self.both(use, **options)
        strands = [left.strand("a"), left.strand("b")]

        async def ask(strand, path):
            async with strand:
                await asyncio.to_thread(asked, url + path)  # it has the recorder of this block

        async def ask_both():
            await asyncio.gather(ask(strands[0], "/write"), ask(strands[1], "/close"))

        asyncio.run(ask_both())
        self.ended()

    def report_with(self, document):
        others = [{"name": name, "vars": {}} for name in ("a", "b")]
        return self.report({**document, "processes": [*document["processes"], *others]}).splitlines()[:2]

    @needs_program
    def test_requests_of_strands(self):
        self.lost(strand=lambda scope: scope["path"][1:])
        self.assertEqual(self.report_with(LOST), ["session 6 processes 21 events 8 messages",
                                                  "lost possibly yes 2,2,3,3,2,2"])

    @needs_program
    def test_requests_of_one_process(self):
        """The order by chance is taken for a cause."""
        self.lost()
        processes = [{"name": "left", "vars": {}}, {"name": "right", "vars": {"writing": 0, "closed": 0}}]
        lost = {"name": "lost", "text": "right.writing == 1 and right.closed == 1"}
        self.assertEqual(self.report_with({"processes": processes, "predicates": [lost]}),
                         ["session 4 processes 17 events 6 messages", "lost possibly no"])

    def test_what_is_not_http_is_left_alone(self):
        given = []

        async def take(scope, receive, send):
            given.append((scope, receive, send, current()))

        right = self.recorder("right")
        for kind in ("lifespan", "websocket"):
            asyncio.run(RecordedASGI(take, right)({"type": kind}, 1, 2))
        self.assertEqual(given, [({"type": "lifespan"}, 1, 2, None), ({"type": "websocket"}, 1, 2, None)])
        self.assertEqual(right.events, 0)


if __name__ == "__main__":
    unittest.main()
