#!/usr/bin/env python3
"""Tests of monitor_http by the clients of requests, with a server of wsgiref: python3
recorders/python/requests_tests.py"""
import io
import socket
import unittest
from unittest import mock

import requests
from requests.adapters import HTTPAdapter
from requests.auth import HTTPDigestAuth
from urllib3.util.retry import Retry

from judging import needs_program
from monitor_http import RecordedWSGI, record_session
from monitor_recorder import current
from test_monitor_http import SECONDS, TURNS, Case, greet, take_turn


def fail_first(times):
    """An application that is busy so often, and then greets."""
    left = [None] * times

    def answer(environ, start_response):
        if left:
            left.pop()
            start_response("503 Service Unavailable", [])
            return []
        return greet(environ, start_response)

    return answer


def lead_on(environ, start_response):
    if environ["PATH_INFO"] == "/":
        start_response("302 Found", [("Location", "/there")])
        return []
    return greet(environ, start_response)


class BySession(Case):
    """Each session is recorded."""

    def session(self, recorder):
        session = record_session(requests.Session(), recorder)
        self.addCleanup(session.close)
        return session

    def both(self, app, **options):
        left, right = self.recorder("left"), self.recorder("right")
        return self.session(left), left, self.served(RecordedWSGI(app, right, **options))

    def check_calls(self, count):
        """So many requests were answered."""
        self.assertEqual(self.ended("left", "right"), [
            [{way: f"{name}-{number}"} for number in range(1, count + 1) for way, name in ways]
            for ways in ([("send", "left"), ("recv", "right")], [("recv", "left"), ("send", "right")])])
        self.assertEqual(self.said.getvalue(), "")

    @needs_program
    def test_a_request_and_its_response_are_messages(self):
        session, left, url = self.both(take_turn)
        left.event(inside=1)
        left.event(inside=0)
        response = session.post(url, data=b"turn", timeout=SECONDS)
        left.event(inside=1)
        self.assertEqual((response.status_code, response.text), (200, "hello"))
        self.ended()
        self.assertEqual(self.report(TURNS).splitlines()[:2],
                         ["session 2 processes 9 events 2 messages", "both possibly no"])

    def test_a_redirection_is_two_requests(self):
        session, _, url = self.both(lead_on)
        response = session.get(url, timeout=SECONDS)
        self.assertEqual((response.text, len(response.history)), ("hello", 1))
        self.check_calls(2)

    def test_digests(self):
        """The session repeats the request by the adapter of the response."""
        def ask_who(environ, start_response):
            if "HTTP_AUTHORIZATION" in environ:
                return greet(environ, start_response)
            start_response("401 Unauthorized", [("WWW-Authenticate", 'Digest realm="r", nonce="n", qop="auth"')])
            return []

        session, _, url = self.both(ask_who)
        self.assertEqual(session.get(url, auth=HTTPDigestAuth("a", "b"), timeout=SECONDS).text, "hello")
        self.check_calls(2)

    def test_an_id_from_elsewhere(self):
        session, _, url = self.both(greet)
        session.headers["monitor-request"] = "elsewhere-1"
        self.assertEqual(session.get(url, timeout=SECONDS).text, "hello")
        self.check_calls(1)

    def test_a_request_that_is_prepared(self):
        session, _, url = self.both(greet)
        request = session.prepare_request(requests.Request("GET", url))
        headers = dict(request.headers)
        for _ in range(2):
            response = session.send(request, timeout=SECONDS)
            self.assertEqual(response.text, "hello")
        self.assertEqual(dict(request.headers), headers)
        self.check_calls(2)

    def test_what_does_not_come(self):
        session, _, _ = self.both(greet)
        with socket.socket() as unheard:
            unheard.bind(("127.0.0.1", 0))
            with self.assertRaises(requests.ConnectionError):
                session.get(f"http://127.0.0.1:{unheard.getsockname()[1]}", timeout=SECONDS)
        self.assertEqual(self.ended("left"), [[{"send": "left-1"}]])

    def test_a_response_that_is_streamed(self):
        def give_parts(environ, start_response):
            start_response("200 OK", [])
            yield b"a"
            current().event()
            yield b"b"

        session, _, url = self.both(give_parts)
        with session.get(url, stream=True, timeout=SECONDS) as response:
            self.assertEqual(b"".join(response.iter_content(1)), b"ab")
        self.assertEqual(self.ended("left", "right"), [[{"send": "left-1"}, {"recv": "right-1"}],
                                                       [{"recv": "left-1"}, {"send": "right-1"}, {}]])

    def test_the_body_is_sent_again(self):
        """That of a request which a session sends twice."""
        bodies = []

        def lead_back(environ, start_response):
            bodies.append(environ["wsgi.input"].read(int(environ["CONTENT_LENGTH"])))
            if environ["PATH_INFO"] == "/":
                start_response("307 Temporary Redirect", [("Location", "/there")])
                return []
            return greet(environ, start_response)

        session, _, url = self.both(lead_back)
        self.assertEqual(session.post(url, data=io.BytesIO(b"body"), timeout=SECONDS).text, "hello")
        self.assertEqual(bodies, [b"body", b"body"])
        self.check_calls(2)

    def test_what_requests_repeats(self):
        """It is one message with several copies, for the adapter repeats it."""
        session, _, url = self.both(fail_first(2))
        session.mount("http://", HTTPAdapter(max_retries=Retry(3, status_forcelist=[503], backoff_factor=0)))
        self.assertEqual(session.get(url, timeout=SECONDS).text, "hello")
        self.assertEqual(self.ended("left", "right"), [
            [{"send": "left-1"}, {"recv": "right-3"}],
            [{"recv": "left-1"}, {"send": "right-1"}, {"send": "right-2"}, {"send": "right-3"}]])
        self.assertEqual(self.said.getvalue().count("a request that came isn't recorded: right has sent or"), 1)

    def test_a_recorder_that_is_closed(self):
        session, left, url = self.both(greet)
        left.close()
        for headers in ({}, {"Monitor-Request": "elsewhere-1"}):
            self.assertEqual(session.get(url, headers=headers, timeout=SECONDS).text, "hello")
        self.assertEqual(self.ended("right"), [[]])
        self.assertEqual(self.said.getvalue(), "monitor_http: a request that left isn't recorded: the recording of "
                                               "left is closed (this is said once)\n")


class ByBoth(BySession):
    """So are the connections of http.client below them: each request is still recorded once."""

    def session(self, recorder):
        self.recorded_client(mock.Mock(spec=[]))  # it is never asked
        return super().session(recorder)


class ByConnections(BySession):
    """Only the connections of http.client are recorded, so requests doesn't take part."""

    def session(self, recorder):
        self.recorded_client(recorder)
        session = requests.Session()
        self.addCleanup(session.close)
        return session

    def test_what_requests_repeats(self):
        """Each copy is a message."""
        session, _, url = self.both(fail_first(2))
        session.mount("http://", HTTPAdapter(max_retries=Retry(3, status_forcelist=[503], backoff_factor=0)))
        self.assertEqual(session.get(url, timeout=SECONDS).text, "hello")
        self.check_calls(3)


class WithoutRecorder(Case):
    def test_nothing_is_recorded(self):
        right = self.recorder("right")
        url = self.served(RecordedWSGI(greet, right))
        with record_session(requests.Session()) as session:
            self.assertEqual(session.get(url, timeout=SECONDS).text, "hello")
        self.assertEqual(right.events, 0)


if __name__ == "__main__":
    unittest.main()
