"""Records the requests and responses of HTTP as messages for `monitor`. One line installs it, and nothing else changes:

    app = RecordedWSGI(app, recorder)     # a server by WSGI
    app = RecordedASGI(app, recorder)     # a server by ASGI
    record_client(recorder)               # http.client, and what stands on it, as urllib.request and requests
    record_session(session, recorder)     # one session of requests alone

A request is a message from the client to the server, and its response is one back. The id of a request travels in the
header `Monitor-Request` and that of its response in `Monitor-Response`. Only a request that has an id gets a response
with one: whoever sends no id isn't recorded.

Recording never breaks the program: what can't be recorded is said on standard error, each kind of failure once, and the
request goes on without an id.

It needs monitor_recorder.py beside it, and Python 3.8 or later.
"""
import contextlib
import contextvars
import functools
import http.client
import re
import sys
import threading

from monitor_recorder import CURRENT, current

REQUEST, RESPONSE, TRACE = "Monitor-Request", "Monitor-Response", "traceparent"
# Version, trace, span and flags, as W3C's Trace Context has them. A later version may have more behind them.
TRACE_FORM = re.compile(r"(?!ff)[0-9a-f]{2}-(?!0{32})([0-9a-f]{32}-(?!0{16})[0-9a-f]{16})-[0-9a-f]{2}(?:-.*)?")
MADE_ID = re.compile(r"([A-Za-z_][A-Za-z0-9_]{0,31})-[0-9]+")
# Is this code called by an adapter of a session, which records the request itself?
IS_RECORDED = contextvars.ContextVar("monitor_http", default=False)
# The kinds of failures that were said.
SAID = set()


class RecordedWSGI:
    """An application of WSGI with this recorder, which is the `current()` one in it. A request with an id is received
    when it comes, and the response is sent when the application gives the first part of its body.

    `strand` names the strand of a request, or gives None if the process itself is to record it; it is given the
    request's `environ`. A strand is begun when a request has its name for the first time, and ends with its process.

    With `trace` a request without an id of ours is received by that of its `traceparent`, if it has one: see
    `id_of_trace`. Its response is no message.
    """

    def __init__(self, app, recorder, strand=None, trace=True):
        self._app = app
        self._arrivals = Arrivals(recorder, strand, trace)

    def __call__(self, environ, start_response):
        recorder = self._arrivals.recorder_of(environ)
        message = environ.pop("HTTP_MONITOR_REQUEST", None)  # so that nobody passes it on
        self._arrivals.receive(recorder, message, environ.get("HTTP_TRACEPARENT"))
        head = Head(start_response, None if message is None else recorder)
        with having(CURRENT, recorder):
            body = self._app(environ, head.start)
        if is_complete(body, environ.get("wsgi.file_wrapper")):
            head.leave()
            return body
        return Body(body, head, recorder)


class RecordedASGI:
    """An application of ASGI with this recorder: see `RecordedWSGI`. `strand` is given the `scope` of the request. The
    response is sent when the application starts it. What isn't HTTP, as a WebSocket, isn't recorded."""

    def __init__(self, app, recorder, strand=None, trace=True):
        self._app = app
        self._arrivals = Arrivals(recorder, strand, trace)

    async def __call__(self, scope, receive, send):
        if scope["type"] != "http":
            await self._app(scope, receive, send)
            return
        recorder = self._arrivals.recorder_of(scope)
        message, others = taken(REQUEST, scope["headers"])  # so that nobody passes it on
        self._arrivals.receive(recorder, message, taken(TRACE, others)[0])

        async def recorded_send(event):
            if event["type"] == "http.response.start":
                event = {**event, "headers": with_id_in_bytes(event.get("headers", ()), recorder)}
            await send(event)

        with having(CURRENT, recorder):
            await self._app({**scope, "headers": others}, receive, send if message is None else recorded_send)


def record_client(recorder=None):
    """Records what is asked over the connections of http.client, those of this process that are made by urllib.request,
    requests and whatever else stands on it: a request is sent before its head leaves, and the response is received when
    its head has come. The `current()` recorder records it, or else this one, or else it isn't recorded. A request that
    is repeated by a library or redirected is another message each time. It gives a function that undoes this; until
    then a second call is a RuntimeError."""
    kind = http.client.HTTPConnection
    if hasattr(kind.getresponse, "is_recorded"):
        raise RuntimeError("the requests of http.client are recorded already: what record_client gave undoes that")
    steps = Steps(Client(recorder))
    plain = {name: getattr(kind, name) for name in steps.recorded}
    for name, step in plain.items():
        setattr(kind, name, steps.around(name, step))

    def undo():
        for name, step in plain.items():
            setattr(kind, name, step)

    return undo


def record_session(session, recorder=None):
    """Records what this session of requests asks, as `record_client` does; what requests itself repeats, as by
    `max_retries`, is one message, of which the server receives the first copy. It gives the session."""
    client, adapter_of = Client(recorder), session.get_adapter

    @functools.wraps(adapter_of)
    def recorded_adapter_of(*arguments, **options):
        return RecordedAdapter(adapter_of(*arguments, **options), client)

    session.get_adapter = recorded_adapter_of
    return session


def by_client(process):
    """For `strand`: a request is recorded by a strand of its client, `right_left` if `left` asks the process `right`. A
    client is the recorder that has made the request's id. Without such an id the process itself records it."""
    def name_of(request):
        message = request.get("HTTP_MONITOR_REQUEST") or taken(REQUEST, request.get("headers", ()))[0]
        made = MADE_ID.fullmatch(message or "")
        return made and f"{process}_{made[1]}"

    return name_of


def id_of_trace(text):
    """The id of a message with this header `traceparent`: its trace's id, `-` and its span's id, as they stand there.
    It is None if that is none by W3C's Trace Context. Requests of one trace have ids of their own only if each leaves
    in a span of its own."""
    found = TRACE_FORM.fullmatch(text or "")
    return found and found[1]


class Arrivals:
    """What comes to a server: which recorder a request has, and its receipt."""

    def __init__(self, recorder, strand, trace):
        self._recorder = recorder
        self._name_of = strand
        self._takes_trace = trace
        self._lock = threading.Lock()
        self._strands = {}

    def recorder_of(self, request):
        """The recorder of the request's strand; that of the process if it has none, or none can be begun."""
        if self._name_of is None:
            return self._recorder
        return attempted("the strand of a request", self._strand_of, request) or self._recorder

    def _strand_of(self, request):
        name = self._name_of(request)
        if name is None:
            return None
        with self._lock:
            if name not in self._strands:
                self._strands[name] = self._recorder.strand(name)
            return self._strands[name]

    def receive(self, recorder, message, trace):
        if message is None and self._takes_trace:
            message = id_of_trace(trace)
        if message is not None:
            attempted("a request that came", recorder.receive, message)


class Head:
    """The head of a response by WSGI. It leaves when the first part of the body is there, so that what the application
    does before that comes before it, and so that an error until then can give it another one. If it has a recorder it
    is a message."""

    def __init__(self, start_response, recorder):
        self._start_response = start_response
        self._recorder = recorder
        self._waiting = None
        self._write = None

    def start(self, status, headers, exc_info=None):
        """The function that the application calls as `start_response`."""
        if self._waiting is not None and exc_info is None:
            self.leave()  # it is called again, which the server refuses
        if self._write is not None:
            return self._start_response(status, headers, *filter(None, [exc_info]))
        self._waiting = (status, headers, exc_info)
        return self.write

    def leave(self):
        """The head leaves, if it has waited for that."""
        if self._waiting is None:
            return
        (status, headers, exc_info), self._waiting = self._waiting, None
        if self._recorder is not None:
            headers = with_id(headers, self._recorder)
        self._write = self._start_response(status, headers, *filter(None, [exc_info]))

    def write(self, data):
        self.leave()
        self._write(data)


class Body:
    """The body of a response by WSGI, as long as the application makes it."""

    def __init__(self, body, head, recorder):
        self._body = body
        self._parts = None
        self._head = head
        self._recorder = recorder

    def __iter__(self):
        return self

    def __next__(self):
        try:
            with having(CURRENT, self._recorder):
                if self._parts is None:
                    self._parts = iter(self._body)
                part = next(self._parts)
        except StopIteration:
            self._head.leave()
            raise
        self._head.leave()
        return part

    def close(self):
        if hasattr(self._body, "close"):
            with having(CURRENT, self._recorder):
                self._body.close()


def is_complete(body, file_wrapper):
    """Does the application do nothing more for this body? Then the server gets it as it is, since a server asks how
    many parts it has, and whether it is one of its files."""
    return hasattr(body, "__len__") or isinstance(file_wrapper, type) and isinstance(body, file_wrapper)


def with_id(headers, recorder):
    """The headers of a response that is about to leave, with its id in place of one that came from elsewhere."""
    others = [(name, value) for name, value in headers if name.lower() != RESPONSE.lower()]
    message = attempted("a response that left", recorder.send)
    return others if message is None else [*others, (RESPONSE, message)]


def taken(name, headers):
    """The value of a header of ASGI, or None, and the other headers."""
    key = name.lower().encode()
    values = [value.decode("latin-1") for other, value in headers if other.lower() == key]
    return values[0] if values else None, [pair for pair in headers if pair[0].lower() != key]


def with_id_in_bytes(headers, recorder):
    """The same for ASGI."""
    texts = [(name.decode("latin-1"), value.decode("latin-1")) for name, value in headers]
    return [(name.lower().encode("latin-1"), value.encode("latin-1")) for name, value in with_id(texts, recorder)]


class Client:
    """What leaves a client and comes to it, with the recorder for the code that has no current one, or None."""

    def __init__(self, recorder):
        self._recorder = recorder

    def recorder(self):
        """Who records what this code sends or receives; None if nobody does, or an outer layer."""
        return None if IS_RECORDED.get() else current() or self._recorder

    def send(self, recorder):
        """The id for a request that is about to leave, or None."""
        return attempted("a request that left", recorder.send)

    def receive(self, message):
        """A response has come, with this id or None."""
        recorder = self.recorder()
        if recorder is not None and message is not None:
            attempted("a response that came", recorder.receive, message)


class Steps:
    """What is recorded at the steps of a connection of http.client, each of which is given the function that takes the
    step, and its arguments."""

    recorded = ("putrequest", "putheader", "endheaders", "getresponse")

    def __init__(self, client):
        self._client = client
        self._putheader = http.client.HTTPConnection.putheader

    def around(self, name, step):
        recorded = getattr(self, name)

        @functools.wraps(step)
        def taken(connection, *arguments, **options):
            return recorded(step, connection, *arguments, **options)

        taken.is_recorded = True
        return taken

    def putrequest(self, step, connection, *arguments, **options):
        connection._monitor_held = None
        step(connection, *arguments, **options)
        connection._monitor_begun = True

    def putheader(self, step, connection, name, *values):
        """An id that stands in the request already came from elsewhere, as where a request is passed on."""
        text = name.decode("latin-1") if isinstance(name, bytes) else name
        if text.lower() == REQUEST.lower():
            connection._monitor_held = (name, *values)
        else:
            step(connection, name, *values)

    def endheaders(self, step, connection, *arguments, **options):
        if getattr(connection, "_monitor_begun", False):
            connection._monitor_begun = False
            self._put_id(connection)
        return step(connection, *arguments, **options)

    def _put_id(self, connection):
        recorder = self._client.recorder()
        header = connection._monitor_held
        if recorder is not None:
            message = self._client.send(recorder)
            header = None if message is None else (REQUEST, message)
        if header is not None:
            self._putheader(connection, *header)

    def getresponse(self, step, connection, *arguments, **options):
        response = step(connection, *arguments, **options)
        self._client.receive(response.headers.get(RESPONSE))
        return response


class RecordedAdapter:
    """An adapter of requests, with what it sends and receives."""

    def __init__(self, adapter, client):
        self._adapter = adapter
        self._client = client

    def __getattr__(self, name):
        return getattr(self._adapter, name)

    def send(self, request, *arguments, **options):
        recorder = self._client.recorder()
        if recorder is None:
            return self._adapter.send(request, *arguments, **options)
        sent = request.copy()  # what is sent again, as after a redirection, gets an id of its own
        sent.headers.pop(REQUEST, None)
        message = self._client.send(recorder)
        if message is not None:
            sent.headers[REQUEST] = message
        with having(IS_RECORDED, True):
            response = self._adapter.send(sent, *arguments, **options)
        self._client.receive(response.headers.get(RESPONSE))
        response.request, response.connection = request, self
        return response


@contextlib.contextmanager
def having(variable, value):
    """A block in which the variable of the context has this value."""
    token = variable.set(value)
    try:
        yield
    finally:
        with contextlib.suppress(ValueError):  # the block is left in another context, as a task that is thrown away
            variable.reset(token)


def attempted(what, call, *arguments):
    """What the call gives. If it fails, for whatever reason, that is said once for each kind of failure, and None is
    given: the program is not to fail by its recording."""
    try:
        return call(*arguments)
    except Exception as error:
        kind = (what, type(error))
        if kind not in SAID:
            SAID.add(kind)
            with contextlib.suppress(Exception):
                sys.stderr.write(f"monitor_http: {what} isn't recorded: {error} (this is said once)\n")
        return None
