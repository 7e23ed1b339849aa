"use strict";
/**
 * Records the requests and responses of HTTP as messages for `monitor`. One line installs it, and nothing else changes:
 *
 *     const { recordClients, recordServer } = require("./monitor_http.cjs"); // or import them from there
 *
 *     recordServer(server, recorder); // a server of node:http or node:https
 *     recordClients(recorder); // fetch, and the requests of node:http and node:https
 *
 * A request is a message from the client to the server, and its response is one back. The id of a request travels in
 * the header `Monitor-Request` and that of its response in `Monitor-Response`. Only a request that has an id gets a
 * response with one: whoever sends no id isn't recorded.
 *
 * Recording never breaks the program: what can't be recorded is said on standard error, each kind of failure once, and
 * the request goes on without an id.
 *
 * It needs monitor_recorder.cjs beside it, and Node 18.7 or later. Its types stand in monitor_http.d.cts.
 */
const diagnostics = require("node:diagnostics_channel");
const { ClientRequest } = require("node:http");
const { Recorder } = require("./monitor_recorder.cjs");

const [REQUEST, RESPONSE] = ["Monitor-Request", "Monitor-Response"];
// The events of a server by which a request comes.
const ARRIVALS = ["request", "checkContinue", "checkExpectation"];
// The functions of a request by which its head may leave, and by which its response comes.
const STEPS = ["write", "end", "flushHeaders", "emit"];
// Version, trace, span and flags, as W3C's Trace Context has them. A later version may have more behind them.
const TRACE = /^(?!ff)[0-9a-f]{2}-(?!0{32})([0-9a-f]{32}-(?!0{16})[0-9a-f]{16})-[0-9a-f]{2}(?:-.*)?$/;
const MADE_ID = /^([A-Za-z_][A-Za-z0-9_]*)-[0-9]+$/;

const said = new Set();
let areClientsRecorded = false;

/**
 * Records the requests that come to a server of node:http or node:https, and gives the server. In the functions that
 * handle a request this recorder is the `Recorder.current()`. A request with an id is received when it comes, and the
 * response is sent before its head leaves.
 *
 * `strand` names the strand of a request, or gives undefined if the process itself is to record it. A strand is begun
 * when a request has its name for the first time, and ends with its process.
 *
 * Unless `trace` is false, a request without an id of ours is received by that of its `traceparent`, if it has one: see
 * `idOfTrace`. Its response is no message.
 */
function recordServer(server, recorder, { strand, trace = true } = {}) {
  const arrivals = new Arrivals(recorder, strand, trace);
  const seen = new WeakSet(); // what has come as a `checkContinue` may be handed on as a `request`
  const { emit } = server;
  server.emit = function (event, ...words) {
    const [request, response] = words;
    if (!ARRIVALS.includes(event) || seen.has(request)) return emit.call(this, event, ...words);
    seen.add(request);
    const own = arrivals.received(request);
    bind(request, own);
    bind(response, own);
    if (headerOf(request, REQUEST) !== undefined) recordHead(response, own);
    delete request.headers[REQUEST.toLowerCase()]; // so that nobody passes it on
    return own.within(() => emit.call(this, event, ...words));
  };
  return server;
}

/**
 * Records the requests of this process by fetch, by node:http and by node:https: one is sent before its head leaves,
 * and the response is received when its head has come. The `Recorder.current()` records it, or else this one, or else
 * it isn't recorded. A request to which a redirection leads is another message. What this gives is a function that
 * undoes it; until then a second call throws an Error.
 */
function recordClients(recorder) {
  if (areClientsRecorded) throw new Error("clients are recorded already: what recordClients gave undoes that");
  areClientsRecorded = true;
  const undoing = [recordRequests(recorder), recordFetch(recorder)];
  return () => {
    for (const undo of undoing.splice(0)) undo();
    areClientsRecorded = false;
  };
}

/**
 * For `strand`: a request is recorded by a strand of its client, `right_left` if `left` asks the process `right`. A
 * client is the recorder that has made the request's id. Without such an id the process itself records it.
 */
function byClient(process) {
  return (request) => {
    const made = MADE_ID.exec(headerOf(request, REQUEST) ?? "");
    return made === null ? undefined : `${process}_${made[1]}`;
  };
}

/**
 * The id of a message with this header `traceparent`: its trace's id, `-` and its span's id, as they stand there, or
 * undefined if that is none by W3C's Trace Context. Requests of one trace have ids of their own only if each leaves in
 * a span of its own.
 */
function idOfTrace(text) {
  return TRACE.exec(text ?? "")?.[1];
}

/** What comes to a server: which recorder a request has, and its receipt. */
class Arrivals {
  #recorder;
  #nameOf;
  #takesTrace;
  #strands = new Map();

  constructor(recorder, strand, trace) {
    this.#recorder = recorder;
    this.#nameOf = strand;
    this.#takesTrace = trace;
  }

  /** The recorder of a request, which has received it: of its strand, or of the process if none can be begun. */
  received(request) {
    const strand = attempted("the strand of a request", () => this.#strandOf(request));
    const recorder = strand ?? this.#recorder;
    const trace = this.#takesTrace ? idOfTrace(request.headers.traceparent) : undefined;
    const message = headerOf(request, REQUEST) ?? trace;
    if (message !== undefined) attempted("a request that came", () => recorder.receive(message));
    return recorder;
  }

  #strandOf(request) {
    const name = this.#nameOf?.(request) ?? undefined;
    if (name !== undefined && !this.#strands.has(name)) this.#strands.set(name, this.#recorder.strand(name));
    return this.#strands.get(name);
  }
}

/** What listens to these events has this recorder as the current one. By itself it has that of whoever emits them. */
function bind(emitter, recorder) {
  const { emit } = emitter;
  emitter.emit = (...words) => recorder.within(() => emit.apply(emitter, words));
}

/** Has a response leave with its id in place of one that came from elsewhere. */
function recordHead(response, recorder) {
  const { writeHead } = response;
  let message; // it is sent once, also if the head is refused and another one is written
  response.writeHead = function (...words) {
    if (this.headersSent) return writeHead.apply(this, words);
    message ??= attempted("a response that left", () => recorder.send());
    this.removeHeader(RESPONSE);
    const last = words.length - 1;
    const headers = words[last];
    if (typeof headers === "object" && headers !== null) words[last] = withId(headers, message);
    else if (message !== undefined) this.setHeader(RESPONSE, message);
    return writeHead.apply(this, words);
  };
}

/** Headers, as an object or as a list, with the id of a response. */
function withId(headers, message) {
  const own = message === undefined ? [] : [RESPONSE, message];
  if (!Array.isArray(headers)) {
    const others = Object.entries(headers).filter(([name]) => !isName(name, RESPONSE));
    return Object.fromEntries(message === undefined ? others : [...others, own]);
  }
  if (!Array.isArray(headers[0])) return [...withoutName(headers, RESPONSE), ...own];
  const others = headers.filter(([name]) => !isName(name, RESPONSE));
  return message === undefined ? others : [...others, own];
}

/** Records what is requested by node:http and node:https, and gives what undoes that. */
function recordRequests(given) {
  const plain = ClientRequest.prototype;
  const before = Object.getOwnPropertyDescriptors(plain);
  const recorders = new WeakMap(); // of the requests that have left
  for (const name of STEPS) {
    const step = plain[name];
    plain[name] = function (...words) {
      if (name !== "emit") leave(this, given, recorders);
      else if (words[0] === "response") receiveBy(recorders.get(this), headerOf(words[1], RESPONSE));
      return step.apply(this, words);
    };
  }
  return () => {
    for (const name of STEPS) {
      if (name in before) Object.defineProperty(plain, name, before[name]);
      else delete plain[name]; // it is inherited again
    }
  };
}

/** Puts an id into a request that is about to leave, in place of one that came from elsewhere. */
function leave(request, given, recorders) {
  const recorder = Recorder.current() ?? given;
  if (recorder === undefined || recorders.has(request)) return;
  recorders.set(request, recorder);
  const message = attempted("a request that left", () => {
    if (!request.headersSent) return recorder.send();
    throw new Error("its head is made by its headers in a list, or by Expect, before there can be an id in it");
  });
  if (request.headersSent) return;
  request.removeHeader(REQUEST);
  if (message !== undefined) request.setHeader(REQUEST, message);
}

/** Records what is fetched, and gives what undoes that. Node's fetch tells of each request by these channels. */
function recordFetch(given) {
  const recorders = new WeakMap(); // of the requests that have left
  const heard = {
    "undici:request:create": ({ request }) => {
      const recorder = Recorder.current() ?? given;
      if (recorder === undefined) return;
      recorders.set(request, recorder);
      const message = attempted("a request that left", () => recorder.send());
      attempted("a request that left", () => putId(request, message));
    },
    "undici:request:headers": ({ request, response }) => {
      const recorder = recorders.get(request);
      const at = response.headers.findIndex((name, place) => place % 2 === 0 && isName(String(name), RESPONSE));
      receiveBy(recorder, at < 0 ? undefined : String(response.headers[at + 1]));
    },
  };
  for (const [name, hear] of Object.entries(heard)) diagnostics.subscribe(name, hear);
  return () => {
    for (const [name, hear] of Object.entries(heard)) diagnostics.unsubscribe(name, hear);
  };
}

/** Puts the id into a request of fetch, whose headers are a text up to undici 5 and a list since then. */
function putId(request, message) {
  const { headers } = request;
  if (typeof headers === "string") request.headers = headers.replace(/^monitor-request:.*\r\n/gim, "");
  else request.headers = withoutName(headers, REQUEST);
  if (message !== undefined) request.addHeader(REQUEST, message);
}

/** A response has come, with this id or none, to a request with this recorder or none. */
function receiveBy(recorder, message) {
  if (recorder === undefined || message === undefined) return;
  attempted("a response that came", () => recorder.receive(message));
}

function headerOf(message, name) {
  return message.headers[name.toLowerCase()];
}

function isName(text, name) {
  return text.toLowerCase() === name.toLowerCase();
}

/** A list of names and values without what has this name. */
function withoutName(list, name) {
  return list.filter((_, place) => !isName(String(list[place - (place % 2)]), name));
}

/**
 * What the call gives. If it fails, for whatever reason, that is said once for each kind of failure, and undefined is
 * given: the program is not to fail by its recording.
 */
function attempted(what, call) {
  try {
    return call();
  } catch (error) {
    const kind = `${what}: ${error?.reason ?? error?.code ?? error?.name}`;
    if (!said.has(kind)) {
      said.add(kind);
      console.error(`monitor_http: ${what} isn't recorded: ${error?.message ?? error} (this is said once)`);
    }
    return undefined;
  }
}

module.exports = { recordServer, recordClients, byClient, idOfTrace };
