"use strict";
/**
 * Records one process of a distributed program for `monitor`: its events in their order, one line each.
 *
 *     const { Recorder } = require("./monitor_recorder.cjs"); // or: import { Recorder } from "./monitor_recorder.cjs"
 *
 *     const recorder = Recorder.toFile("left", "left.stream");
 *     try {
 *       recorder.event({ inside: 1, waiting: 0 }); // these are their values from now on
 *       const message = recorder.send({ money: 70 }); // BEFORE the message leaves; the id travels with it
 *       recorder.receive("right-1", { money: 80 }); // AFTER a message has come, with the id that came too
 *       recorder.end();
 *     } finally {
 *       recorder.close();
 *     }
 *
 * Each line is handed to the operating system before the call returns, so that nothing that was recorded is lost if
 * the process crashes. Tasks may share one recorder: a call awaits nothing, so lines stand in the order of the calls. A
 * worker thread is recorded as a process of its own. What `monitor` would refuse is refused at once, by `NotRecorded`,
 * and the recorder goes on as if the call hadn't been made. The formats and limits are those of docs/SPECIFICATION.md.
 *
 * A recorder that is closed before `end`, as after an exception, leaves no end line, since nobody knows what the
 * process would have done: `monitor` refuses the stream as `unended`.
 *
 * One recorder is one order of events. An async function that waits beside others gets a strand, or the order in which
 * it came is taken for a cause:
 *
 *     await recorder.strand("worker", async (worker) => { // it records to worker.stream
 *       worker.event({ busy: 1 }); // `Recorder.current()` is `worker` here, and in what is called from here
 *     });
 *
 * A session has limits, and a recording that is over them is refused at the call. With `{ long: true }`, or
 * MONITOR_LONG=1 in the environment, it is a long recording, of any length, which monitor_reduce.py reduces before it
 * is judged.
 *
 * Events have no names. With `{ notes: true }` each has a note in left.notes.jsonl, of the line of the program that
 * recorded it, and of a text if one is given, as by `recorder.event({ inside: 1 }, { note: "the lock is ours" })`.
 *
 * It needs Node 18 or later. Its types stand in monitor_recorder.d.cts.
 */
const { AsyncLocalStorage } = require("node:async_hooks");
const fs = require("node:fs");
const path = require("node:path");
const { env: environment, pid: processId } = require("node:process");
const { fileURLToPath } = require("node:url");
const { Worker } = require("node:worker_threads");

const EVENT_LIMIT = 10_000;
const VARIABLE_LIMIT = 16;
const PROCESS_LIMIT = 16;
const NAME_BYTE_LIMIT = 32;
const ID_BYTE_LIMIT = 64;
const LONG_EVENT_LIMIT = 2_147_483_647;
const LONG_PROCESS_LIMIT = 4_096;
const LONG_ID_BYTE_LIMIT = 1_024;
const NOTE_BYTE_LIMIT = 1_024;
const TOKEN_BYTE_LIMIT = 1_024;
const [ENDING, NOTES_ENDING] = [".stream", ".notes.jsonl"];
// Besides what JSON escapes these are: a terminal takes some for commands, and what reads lines others for their ends.
const ESCAPED = /[\x7f-\x9f\u2028\u2029]/g;
const FRAMES = 50; // so many calls back the caller is looked for
const LEAST_VALUE = -(2n ** 63n);
const GREATEST_VALUE = 2n ** 63n - 1n;
const NAME = /^[A-Za-z_][A-Za-z0-9_]*$/;
const RESERVED = ["and", "or", "not", "true", "false"];
const PATIENCE_SECONDS = 10;
// A port: of this machine, or of another one by its name or address. One of IPv6 stands in brackets.
const PORT = /^(?:\[([0-9A-Fa-f:.]+(?:%[A-Za-z0-9._-]+)?)\]|([A-Za-z0-9._-]*)):([0-9]{1,5})$/;
const PORT_LIMIT = 65_534;
const [SOCKET, SOCKET_BYTE_LIMIT] = ["unix:", 107];
const HERE = "127.0.0.1";
const PLACES =
  `a folder, a port as :7411, host:7411 or [::1]:7411, from 1 to ${PORT_LIMIT}, ` + "or a socket as unix:/run/a.sock";
const SHOWN = 60; // so many letters of a wrong value are shown
// At most so many events has a process, so many processes have a recorder and its strands, and so many bytes has an id.
const SESSION = { events: EVENT_LIMIT, processes: PROCESS_LIMIT, idBytes: ID_BYTE_LIMIT };
const LONG = { events: LONG_EVENT_LIMIT, processes: LONG_PROCESS_LIMIT, idBytes: LONG_ID_BYTE_LIMIT };
const AS_A_LONG_RUN =
  "or record it as a long run: { long: true } or MONITOR_LONG=1, and reduce it by monitor_reduce.py";
const SET_LIMIT = 2 ** 24; // so many values has a Set of Node
const [OPEN, ENDED, BROKEN] = ["open", "ended", "broken"];
const STATES = { ended: "has ended", broken: "is broken off, since a line could not be written" };
// What both threads of a connection share: whether the last line was answered, how many bytes its error's code has, and
// these bytes, of which there is room for so many.
const CODE_BYTES = 56;

const current = new AsyncLocalStorage();
// What a recorder does for locks and queues: `placeFor` gives the place of a call, if events have notes, and
// `receiveFrom` records a receipt of the current recorder, if another one has sent that, and says whether it has.
let placeFor;
let receiveFrom;

/** A call was refused and wrote nothing: `reason` is a word for why, and the message says it. */
class NotRecorded extends Error {
  constructor(reason, message) {
    super(message);
    this.name = "NotRecorded";
    this.reason = reason;
  }
}

/** The recording of one process, or of a strand of one. It writes its first line when it is made. */
class Recorder {
  #process;
  #out;
  #notes; // where the notes of the events are written, if they have some
  #family;
  #isStrand = false;
  #begunAt; // the place where a strand was begun, if events have notes
  #last; // the id of the message by which a strand has ended
  #state = OPEN;
  #limits;
  #events = 0;
  #made = 0;
  #ids = new Ids();
  #names = new Set();

  static {
    placeFor = (recorder) => recorder?.#notes && placeOfCaller();
    receiveFrom = (sent, place) => {
      const recorder = Recorder.current();
      const isMessage = recorder !== undefined && sent !== undefined && sent.by !== recorder;
      if (isMessage) recorder.#record("recv", sent.message, {}, { place });
      return isMessage;
    };
  }

  /**
   * Records to a file, a pipe or the like that is open for writing, which is closed with the recorder. With `long` it
   * is a long recording, as with that of `toFile`.
   */
  constructor(process, descriptor, options = {}) {
    this.#process = checkedName("process", process);
    this.#limits = options === SESSION || options === LONG ? options : limitsOf(options);
    this.#family = new Family(process, this.#limits);
    this.#out = typeof descriptor === "number" ? new Descriptor(descriptor) : descriptor;
    this.#write(`{"process":"${process}"}`);
  }

  /**
   * Records to a new file. One that is there already is an error with the code EEXIST; with `replace` it is lost, with
   * its notes. With `notes` each event gets a note, in a file beside: that of `left.stream` is `left.notes.jsonl`. The
   * path has to end with `.stream` then. docs/RECORDING.md has the format.
   *
   * With `again` a file that is there is what the process recorded before it was killed and started again. Then a
   * further incarnation is recorded, as a process of its own and to a file beside: of `left` and `left.stream` the
   * second one is `left_2` in `left_2.stream`. Its first event receives the message `left-ended`, by which it comes
   * after all that the one before did; monitor_mend adds the send. It is refused while a process of this machine still
   * has the file of the one before open for writing, and on a system that doesn't tell by /proc which process has.
   *
   * With `long`, or MONITOR_LONG=1 in the environment, it is a long recording: it may have 2,147,483,647 events, 4,096
   * processes with its strands, and ids of 1,024 bytes, and has to be reduced by monitor_reduce.py before it is judged.
   */
  static toFile(process, file, options = {}) {
    checkedName("process", process);
    const first = path.resolve(file instanceof URL ? fileURLToPath(file) : String(file)); // the folder may change
    if (options.again && options.replace) {
      throw new NotRecorded("again", "a file that is replaced has no recording of an earlier incarnation");
    }
    if (options.notes && !first.endsWith(ENDING)) {
      const advice = `notes of left${ENDING} are in left${NOTES_ENDING}`;
      throw new NotRecorded("notes", `${JSON.stringify(first)} doesn't end with ${ENDING}: ${advice}`);
    }
    const limits = limitsOf(options);
    const opened = (name) => openedFiles(besideOf(first, name, options), options);
    if (options.again) return Recorder.#incarnation(process, first, options, limits, opened);
    return Recorder.#over(process, openedFiles(first, options), limits, opened);
  }

  static #incarnation(process, first, { notes = false }, limits, opened) {
    let number = 1;
    while (isThere(pathOf(first, number))) number++;
    const [file, name] = [pathOf(first, number), incarnationOf(process, number)];
    if (number > 1) refuseRunning(incarnationOf(process, number - 1), pathOf(first, number - 1));
    checkedName("process", name);
    // It gets its name once the receipt stands in it, so that it has that whenever the process is killed. Notes that
    // are there are of an incarnation that was killed before its stream had its name.
    const part = newPart(file);
    const out = openedFile(part, false);
    let recorder;
    try {
      const made = { out, notes: notes ? openedFile(notesOf(file), true) : undefined };
      recorder = Recorder.#over(name, made, limits, opened);
      if (number > 1) recorder.receive(endingOf(incarnationOf(process, number - 1)));
      fs.renameSync(part, file);
      return recorder;
    } catch (error) {
      if (recorder !== undefined) recorder.#close();
      fs.rmSync(part, { force: true });
      throw error;
    }
  }

  /**
   * Records to `monitor serve` on a port of this machine, which may listen up to ten seconds later, or as many as are
   * given; if nobody does by then, it is an error with the code ECONNREFUSED. A later call waits, and keeps the whole
   * thread waiting, while the monitor doesn't read. It is refused with MONITOR_LONG=1, since a long recording is
   * reduced before it is judged.
   *
   * Each connection begins with the token, if there is one, as the line that `monitor serve --token` asks for: this
   * text or, without it, MONITOR_TOKEN in the environment.
   */
  static async toPort(process, port, { seconds = PATIENCE_SECONDS, token = "" } = {}) {
    return Recorder.#toAddress(process, { host: HERE, port }, `the port is ${port}`, seconds, { token });
  }

  static async #toAddress(process, address, said, seconds, options) {
    checkedName("process", process);
    if (limitsOf(options) === LONG) {
      const instead = "record a long run to a folder, and reduce it by monitor_reduce.py; MONITOR_LONG is 1 for one";
      throw new NotRecorded("long", `${said}, and monitor serve judges within the limits of a session: ${instead}`);
    }
    const line = tokenLine(options.token ?? "");
    const opened = () => ({ out: Connection.now(address, seconds).begun(line) });
    return Recorder.#over(process, { out: (await Connection.to(address, seconds)).begun(line) }, SESSION, opened);
  }

  /**
   * Records to where MONITOR_TO in the environment says, so that no code changes between a test and a live session: to
   * a new file NAME.stream in a folder of this name, which is made if there is none; or to `monitor serve`, on a port
   * of this machine, of :7411 or localhost:7411, on one of another machine, of host:7411 or [fe80::1]:7411, or by a
   * Unix socket, of unix:/run/monitor.sock. With MONITOR_NOTES=1 each event gets a note beside the file. A connection
   * has no place for notes, keeps no earlier incarnation, and is judged within the limits of a session, so notes,
   * `again` and `long` are refused with one. It begins with MONITOR_TOKEN, as that of `toPort`. What has a colon and
   * no slash is no folder.
   */
  static async fromEnvironment(process, { again = false, long = false, replace = false } = {}) {
    checkedName("process", process);
    const place = environment.MONITOR_TO ?? "";
    const notes = hasNotes(environment.MONITOR_NOTES ?? "");
    const address = addressOf(place);
    limitsOf({ long });
    if (address === undefined) {
      fs.mkdirSync(place, { recursive: true });
      return Recorder.toFile(process, path.join(place, process + ENDING), { again, long, notes, replace });
    }
    if (notes) {
      const instead = "unset MONITOR_NOTES, or let MONITOR_TO name a folder";
      throw new NotRecorded("notes", `notes go to a file, but MONITOR_TO is the connection ${place}: ${instead}`);
    }
    if (again) {
      const only = "only a folder has the recording of an earlier incarnation";
      throw new NotRecorded("again", `MONITOR_TO is the connection ${place}, and ${only}`);
    }
    return Recorder.#toAddress(process, address, `MONITOR_TO is ${place}`, PATIENCE_SECONDS, { long });
  }

  static #over(process, { out, notes }, limits, opened) {
    try {
      const recorder = new Recorder(process, out, limits);
      recorder.#notes = notes;
      recorder.#family.opened = opened;
      return recorder;
    } catch (error) {
      out.close();
      notes?.close();
      throw error;
    }
  }

  /** The recorder with which this code was called by `within` or `strand`, or undefined. */
  static current() {
    return current.getStore();
  }

  /** Calls a function, to which and to whatever it calls or awaits this recorder is the current one. */
  within(work) {
    return current.run(this, work, this);
  }

  /**
   * Something happened in this process; these variables have these values from now on. Last in this call, and in those
   * of `send`, `sendAs`, `receive` and `join`, `{ note: "a text" }` may stand, the text of the event's note.
   */
  event(variables = {}, options) {
    this.#record(undefined, undefined, variables, { text: textIn(options) });
  }

  /**
   * This process sends a message to one other or, if the document is of version 2, to several: call it once, BEFORE
   * the message leaves. The id that it makes, the process's name and a counter as in `left-1`, has to travel with the
   * message. A text before the variables is the id, as of `sendAs`, and is given back.
   */
  send(first = {}, second, third) {
    if (typeof first === "string") {
      this.sendAs(first, second, third);
      return first;
    }
    if (third !== undefined || (second !== undefined && typeof second?.note !== "string")) {
      const advice = "write send({ inside: 1 }) to have an id made, or sendAs(id, { inside: 1 })";
      throw new NotRecorded("id", `the id of a message must be a text, and is ${kindOf(first)}: ${advice}`);
    }
    this.#checkRoom();
    return this.#sendAny(first, { text: textIn(second) });
  }

  /** The same, with an id that no other send of the session has. */
  sendAs(message, variables = {}, options) {
    this.#record("send", checkedId(message, this.#limits), variables, { text: textIn(options) });
  }

  /** A message has come, with this id: call it AFTER that. A second copy of a message is refused as `id-twice`. */
  receive(message, variables = {}, options) {
    this.#record("recv", checkedId(message, this.#limits), variables, { text: textIn(options) });
  }

  /**
   * Begins a strand, for an async function that waits beside others: a recorder which is a process of the session, of
   * this name. It is recorded to NAME.stream beside the file of this recorder, or to the same port. This process sends
   * it a message. A strand ends by `end`, or by `close`; then it sends a message to whoever `join`s it. It ends with
   * its process at the latest.
   *
   * With a function, this is called within the strand, which ends when what it gives has settled, in either way. What
   * is given back then can be awaited, for the same, and this process joins the strand where it is awaited.
   */
  strand(name, work) {
    const strand = this.#begun(checkedName("process", name));
    return work === undefined ? strand : new Awaited(this, strand, work);
  }

  /**
   * This process has waited for a strand, which has ended: call it AFTER that. It receives the strand's last message;
   * these variables have these values from now on.
   */
  join(strand, variables = {}, options) {
    this.#checkRoom();
    const last = strand instanceof Recorder ? strand.#last : undefined;
    if (last === undefined) {
      const name = strand instanceof Recorder ? strand.#process : String(strand);
      throw new NotRecorded("not-ended", `${name} is no strand that has ended: wait for it, and then join it`);
    }
    this.#record("recv", last, variables, { text: textIn(options), at: strand.#begunAt });
  }

  /** How many events are recorded. */
  get events() {
    return this.#events;
  }

  /**
   * Nothing more happens in this process: writes the end line, and closes; its strands that have not ended get theirs.
   * A strand sends its last message before. A second call does nothing.
   */
  end() {
    if (this.#state === ENDED) return;
    try {
      if (!this.#isStrand) this.#family.endAll((strand) => strand.#cutOff());
    } finally {
      this.#checkOpen();
      if (this.#isStrand) this.#last = this.#sendAny({}, { at: this.#begunAt });
      this.#write('{"end":true}');
      this.#close();
    }
  }

  /**
   * Closes the file or connection. Without `end` before, the stream has no end line, and neither have those of its
   * strands that have not ended. A strand ends by it, as by `end`. A second call does nothing.
   */
  close() {
    try {
      if (!this.#isStrand) this.#family.endAll((strand) => strand.#close());
      else if (this.#state === OPEN) this.end();
    } finally {
      this.#close();
    }
  }

  #close() {
    const isClosed = this.#state === ENDED;
    this.#state = ENDED;
    if (isClosed) return;
    this.#out.close();
    this.#notes?.close();
  }

  /** The process of this strand ends before it: writes the end line alone. */
  #cutOff() {
    try {
      if (this.#state === OPEN) this.#write('{"end":true}');
    } finally {
      this.#close();
    }
  }

  #begun(name) {
    this.#checkRoom();
    const strand = Recorder.#over(name, this.#family.openedFor(name), this.#limits);
    strand.#family = this.#family;
    strand.#isStrand = true;
    strand.#begunAt = this.#notes && placeOfCaller();
    this.#family.add(name, strand);
    try {
      strand.receive(this.send());
    } catch (error) {
      strand.#close();
      throw error;
    }
    return strand;
  }

  #sendAny(variables, note) {
    let number = this.#made + 1;
    while (this.#ids.has(`${this.#process}-${number}`)) number++;
    const message = `${this.#process}-${number}`;
    this.#put("send", message, variables, note);
    this.#made = number;
    return message;
  }

  #record(field, message, variables, note) {
    this.#checkRoom();
    this.#put(field, message, variables, note);
  }

  /** One of a strand's events is kept for its end. */
  #checkRoom() {
    this.#checkOpen();
    const limit = this.#limits.events;
    if (this.#events >= limit - Number(this.#isStrand)) {
      const most = `no process may have more than ${limit}, of which the last one of a strand is its end`;
      const advice = this.#limits === SESSION ? `; record fewer, ${AS_A_LONG_RUN}` : "";
      throw new NotRecorded("events", `${this.#process} has ${this.#events} events, and ${most}${advice}`);
    }
  }

  /** Checks the message and the variables of an event, and writes its note, if it has one, and its line. */
  #put(field, message, variables, note) {
    if (this.#ids.has(message)) {
      throw new NotRecorded("id-twice", `${this.#process} has sent or received ${JSON.stringify(message)} before`);
    }
    const entries = Object.entries(checkedVariables(variables));
    const names = this.#checkedNames(entries);
    const fields = field === undefined ? [] : [`"${field}":${JSON.stringify(message)}`];
    if (entries.length > 0) {
      fields.push(`"set":{${entries.map(([name, value]) => `"${name}":${checkedValue(name, value)}`).join(",")}}`);
    }
    this.#note(note);
    this.#write(`{${fields.join(",")}}`);
    this.#events++;
    this.#names = names;
    if (field !== undefined) this.#ids.add(message);
  }

  #checkedNames(entries) {
    const names = new Set(this.#names);
    for (const [name] of entries) names.add(checkedName("variable", name));
    if (names.size > VARIABLE_LIMIT) {
      throw new NotRecorded("variables", `${this.#process} has at most ${VARIABLE_LIMIT} variables`);
    }
    return names;
  }

  #checkOpen() {
    if (this.#state !== OPEN) {
      throw new NotRecorded(this.#state, `the recording of ${this.#process} ${STATES[this.#state]}`);
    }
  }

  /**
   * Writes the note of the event whose line is written next, if the events have notes: so each event that a stream has
   * has its note. If the call comes from no other file, as where a function of a strand has ended, it is `at` that place;
   * and at another one than this if that is known, as by who began to wait for a lock.
   */
  #note({ text = "", place, at = "" }) {
    if (this.#notes === undefined) return;
    this.#state = BROKEN;
    this.#notes.write(noteOf(this.#process, this.#events + 1, text, place || placeOfCaller() || at));
  }

  // With the limits above no line has over 1,400 bytes, and no stream over 14,000,000: monitor takes more. A line of a
  // long recording has at most 7,200.
  #write(line) {
    this.#state = BROKEN;
    this.#out.write(`${line}\n`);
    this.#state = OPEN;
  }
}

/** Ids, in as many sets as they need: a long recording may have more than one has room for. */
class Ids {
  #sets = [new Set()];

  has(id) {
    return this.#sets.some((set) => set.has(id));
  }

  add(id) {
    if (this.#sets.at(-1).size === SET_LIMIT) this.#sets.push(new Set());
    this.#sets.at(-1).add(id);
  }
}

/** The message that goes with what tasks share: a send of the current recorder, if there is one. */
function sentByCurrent() {
  const by = Recorder.current();
  return by && { by, message: by.send() };
}

/**
 * A lock between tasks, whose release is a message to whoever acquires it next: a send of the current recorder and a
 * receipt, if that is another one. So what the lock keeps apart is kept apart in the recording. But the order in which
 * it was acquired is a cause then, and no other order is judged. Those who wait get it in their order.
 */
class RecordedLock {
  #isHeld = false;
  #waiting = new Fifo();
  #sent;

  /** Waits until the lock is free, holds it, and records the receipt. If that is refused the lock isn't held. */
  async acquire() {
    const at = placeFor(Recorder.current());
    if (this.#isHeld) await new Promise((resolve) => this.#waiting.put(resolve));
    this.#isHeld = true;
    try {
      if (receiveFrom(this.#sent, at)) this.#sent = undefined;
    } catch (error) {
      this.#release();
      throw error;
    }
  }

  /** Records the send, and releases the lock, whatever becomes of the send. */
  release() {
    if (!this.#isHeld) throw new Error("a lock is released that nobody holds");
    try {
      this.#sent = sentByCurrent() ?? this.#sent;
    } finally {
      this.#release();
    }
  }

  /** Calls a function, and holds the lock until what it gives has settled, which is given back. */
  async hold(work) {
    await this.acquire();
    try {
      return await work();
    } finally {
      this.release();
    }
  }

  get isHeld() {
    return this.#isHeld;
  }

  #release() {
    const next = this.#waiting.take();
    if (next === undefined) this.#isHeld = false;
    else next(); // it is held by the next one from now on
  }
}

/**
 * A queue between tasks, whose values are messages: to put one in is a send of the current recorder, and to take it out
 * a receipt, if that is another one. What no recorder puts in or takes out is no message.
 */
class RecordedQueue {
  #values = new Fifo();
  #waiting = new Fifo();

  /** Records the send, and puts the value in. */
  put(value) {
    const carried = { value, sent: sentByCurrent() };
    const next = this.#waiting.take();
    if (next === undefined) this.#values.put(carried);
    else next(carried);
  }

  /** Waits for a value, takes it out, and records the receipt. If that is refused the value is lost with it. */
  async take() {
    const at = placeFor(Recorder.current());
    const carried = this.#values.take() ?? (await new Promise((resolve) => this.#waiting.put(resolve)));
    receiveFrom(carried.sent, at);
    return carried.value;
  }

  /** How many values are in it. */
  get size() {
    return this.#values.size;
  }
}

/** What is taken in the order in which it was put. */
class Fifo {
  #all = [];
  #first = 0;

  put(one) {
    this.#all.push(one);
  }

  take() {
    const one = this.#all[this.#first];
    if (one === undefined) return undefined;
    this.#all[this.#first++] = undefined;
    if (2 * this.#first > this.#all.length) {
      this.#all = this.#all.slice(this.#first);
      this.#first = 0;
    }
    return one;
  }

  get size() {
    return this.#all.length - this.#first;
  }
}

/** A process that is recorded, and its strands. */
class Family {
  opened; // gives that to which the strand of a name is recorded, if there is a place for it
  #process;
  #limits;
  #strands = [];
  #names = new Set();

  constructor(process, limits) {
    this.#process = process;
    this.#limits = limits;
    this.#names.add(process);
  }

  openedFor(name) {
    if (this.#names.has(name)) {
      const advice = "give each strand a name of its own";
      throw new NotRecorded("name-twice", `${name} is another process of this recording: ${advice}`);
    }
    if (this.#names.size === this.#limits.processes) {
      const advice = `a session has at most as many; begin fewer strands, ${AS_A_LONG_RUN}`;
      const all = `${this.#process} and its strands are ${this.#names.size} processes`;
      throw new NotRecorded("processes", `${all}, and ${this.#limits === SESSION ? advice : "there can be no more"}`);
    }
    if (this.opened === undefined) {
      const advice = "make its recorder by toFile or toPort";
      throw new NotRecorded("no-place", `${this.#process} has no place for the stream of a strand: ${advice}`);
    }
    return this.opened(name);
  }

  add(name, strand) {
    this.#names.add(name);
    this.#strands.push(strand);
  }

  /** Ends each of the strands. If one can't be ended, the others are. */
  endAll(end) {
    const errors = [];
    for (const strand of this.#strands) {
      try {
        end(strand);
      } catch (error) {
        errors.push(error);
      }
    }
    if (errors.length > 0) throw errors[0];
  }
}

/** What the function of a strand gives, once it is awaited: then the strand is joined too. */
class Awaited {
  #parent;
  #strand;
  #settled;
  #isJoined = false;

  constructor(parent, strand, work) {
    this.#parent = parent;
    this.#strand = strand;
    this.#settled = Awaited.#run(strand, work);
  }

  static async #run(strand, work) {
    try {
      return await strand.within(work);
    } finally {
      strand.close();
    }
  }

  then(onFulfilled, onRejected) {
    return this.#joined().then(onFulfilled, onRejected);
  }

  async #joined() {
    try {
      const value = await this.#settled;
      this.#join();
      return value;
    } catch (error) {
      try {
        this.#join();
      } catch {
        // what the function has thrown says more
      }
      throw error;
    }
  }

  #join() {
    const wasJoined = this.#isJoined;
    this.#isJoined = true;
    if (!wasJoined) this.#parent.join(this.#strand);
  }
}

/** The files of a stream and, if it has some, of its notes. What it replaces has no notes any more. */
function openedFiles(file, { notes = false, replace = false }) {
  const out = openedFile(file, replace);
  try {
    if (notes) return { out, notes: openedFile(notesOf(file), replace) };
    if (replace && file.endsWith(ENDING)) fs.rmSync(notesOf(file), { force: true });
    return { out };
  } catch (error) {
    out.close();
    if (!replace) fs.rmSync(file);
    throw error;
  }
}

/** The file of the notes of a stream. */
function notesOf(file) {
  return file.slice(0, -ENDING.length) + NOTES_ENDING;
}

function openedFile(file, replace) {
  try {
    return new Descriptor(fs.openSync(file, replace ? "w" : "wx"));
  } catch (error) {
    throw error.code === "EEXIST" ? already(error) : error;
  }
}

function already(error) {
  error.message += ": a recording isn't written over: record to another file or folder, remove it, or say replace: true";
  return error;
}

/** The file of a strand, in the folder of its process's file, which isn't replaced. */
function besideOf(first, name, { replace }) {
  const file = path.join(path.dirname(first), name + ENDING);
  const [one, other] = [file, first].map((of) => fs.statSync(of, { bigint: true, throwIfNoEntry: false }));
  if (replace && one && other && one.ino === other.ino && one.dev === other.dev) {
    throw already(systemError("open", "EEXIST"));
  }
  return file;
}

/** The name of this incarnation of a process. */
function incarnationOf(process, number) {
  return number === 1 ? process : `${process}_${number}`;
}

/** The file of this incarnation, if that of the first one is given. */
function pathOf(first, number) {
  const { dir, name, ext } = path.parse(first);
  return path.join(dir, incarnationOf(name, number) + ext);
}

/** The id of the message by which an incarnation comes after the one before. */
function endingOf(process) {
  return `${process}-ended`;
}

/** Whether there is something by this name, be it a link that leads nowhere. */
function isThere(file) {
  return fs.lstatSync(file, { throwIfNoEntry: false }) !== undefined;
}

/**
 * Where a file stands until it gets its name. A process that was killed before may have had the number of this one.
 */
function newPart(file) {
  let part = `${file}.${processId}.part`;
  for (let number = 2; isThere(part); number++) part = `${file}.${processId}-${number}.part`;
  return part;
}

/**
 * Refuses what is started while an earlier incarnation still runs: Node has no locks, but /proc tells which process of
 * this machine has its file open for writing. What belongs to another user isn't told.
 */
function refuseRunning(process, file) {
  const own = fs.statSync(file, { bigint: true, throwIfNoEntry: false });
  if (!isThere("/proc/self/fd")) {
    throw new NotRecorded("again", "this system doesn't tell by /proc whether an earlier incarnation has ended");
  }
  const isWriter = (descriptor) => {
    const [link, there] = [fs.lstatSync(descriptor), fs.statSync(descriptor, { bigint: true })];
    return (link.mode & 0o200) !== 0 && there.ino === own?.ino && there.dev === own?.dev;
  };
  for (const number of fs.readdirSync("/proc").filter((name) => /^[0-9]+$/.test(name))) {
    const folder = `/proc/${number}/fd`;
    if (unlessGone(() => fs.readdirSync(folder), []).some((name) => unlessGone(() => isWriter(`${folder}/${name}`)))) {
      const advice = "what is started beside it is no later incarnation, but a process of its own";
      throw new NotRecorded("running", `${process} still runs and records to ${file}: ${advice}`);
    }
  }
}

/** What the work gives, or this if the system refuses, as for a process that has just ended. */
function unlessGone(work, otherwise = false) {
  try {
    return work();
  } catch (error) {
    if (error.syscall) return otherwise;
    throw error;
  }
}

/** The host and the port, or the path of the socket, that MONITOR_TO names; undefined for a folder. */
function addressOf(place) {
  if (place === "") throw new NotRecorded("place", `MONITOR_TO isn't set: it names ${PLACES}`);
  if (place.startsWith(SOCKET)) {
    const file = place.slice(SOCKET.length);
    if (!file.startsWith("/") || Buffer.byteLength(file) > SOCKET_BYTE_LIMIT) {
      const wanted = `the path of a socket begins with / and has at most ${SOCKET_BYTE_LIMIT} bytes`;
      throw new NotRecorded("place", `MONITOR_TO is ${place}, and ${wanted}`);
    }
    return { path: file };
  }
  if (!place.includes(":") || /[/\\]/.test(place)) return undefined;
  const [, address, name, digits] = PORT.exec(place) ?? [];
  if (digits === undefined || digits < 1 || digits > PORT_LIMIT) {
    const folders = "a folder with a colon has a slash too, as ./a:b";
    throw new NotRecorded("place", `MONITOR_TO is ${place}, and names ${PLACES}; ${folders}`);
  }
  const host = address ?? name;
  return { host: ["", "localhost"].includes(host) ? HERE : host, port: Number(digits) };
}

/**
 * What a connection begins with: this token or, without one, that of MONITOR_TOKEN, and a LF; nothing if there is none.
 * No error shows it.
 */
function tokenLine(token) {
  const [name, text] = token === "" ? ["MONITOR_TOKEN", environment.MONITOR_TOKEN ?? ""] : ["the token", token];
  const isText = typeof text === "string" && Buffer.from(text).toString() === text;
  // What the environment has and UTF-8 hasn't comes as U+FFFD.
  if (!isText || Buffer.byteLength(text) > TOKEN_BYTE_LIMIT || /[\n\r\0]|\ufffd/.test(text)) {
    const wanted = `one line of at most ${TOKEN_BYTE_LIMIT} bytes of UTF-8, without LF, CR, NUL and U+FFFD`;
    throw new NotRecorded("token", `${name} is no token, which is ${wanted}`);
  }
  return text === "" ? "" : `${text}\n`;
}

/** Whether what MONITOR_NOTES says is that events have notes. */
function hasNotes(text) {
  if (!["", "0", "1"].includes(text)) {
    const shown = JSON.stringify(text.slice(0, SHOWN));
    throw new NotRecorded("notes", `MONITOR_NOTES is ${shown}, and is 1 if events are to have notes, or else 0`);
  }
  return text === "1";
}

/** The text of a note that stands last in a call. */
function textIn(options) {
  if (options === undefined) return "";
  if (typeof options?.note !== "string") {
    throw new NotRecorded("note", `a note is written as { note: "a text" }, and not ${kindOf(options)}`);
  }
  return options.note;
}

/** The line of a note: `event` is its number in the stream, from 1. */
function noteOf(process, event, text, place) {
  const milliseconds = performance.timeOrigin + performance.now();
  const microseconds = BigInt(Math.round(milliseconds * 1000));
  const clock = `${microseconds / 1_000_000n}.${String(microseconds % 1_000_000n).padStart(6, "0")}`;
  const fields = `"process": "${process}", "event": ${event}, "text": ${escaped(bounded(text))}`;
  return `{${fields}, "place": ${escaped(place)}, "clock": ${clock}}\n`;
}

/** FILE:LINE of the code that has called into this file, or no text. */
function placeOfCaller() {
  const limit = Error.stackTraceLimit;
  Error.stackTraceLimit = FRAMES;
  const { stack } = new Error();
  Error.stackTraceLimit = limit;
  for (const line of String(stack).split("\n").slice(1)) {
    const at = /^ *at (?:async )?(.*)$/.exec(line)?.[1] ?? "";
    const isNamed = at.endsWith(")") && at.includes(" (");
    const found = /^(.*):([0-9]+):[0-9]+$/.exec(isNamed ? at.slice(at.indexOf(" (") + 2, -1) : at);
    if (found === null || found[1].startsWith("node:")) continue;
    const file = found[1].startsWith("file://") ? fileURLToPath(found[1]) : found[1];
    if (file !== __filename) return `${bounded(file)}:${found[2]}`;
  }
  return "";
}

/** The text without what UTF-8 can't say, and cut if it is too long. */
function bounded(text) {
  const bytes = Buffer.from(text.slice(0, NOTE_BYTE_LIMIT)); // half of a pair of surrogates is U+FFFD then
  let size = Math.min(bytes.length, NOTE_BYTE_LIMIT);
  while (size < bytes.length && (bytes[size] & 0xc0) === 0x80) size--;
  return bytes.subarray(0, size).toString();
}

function escaped(text) {
  const hex = (character) => `\\u${character.charCodeAt(0).toString(16).padStart(4, "0")}`;
  return JSON.stringify(text).replace(ESCAPED, hex);
}

/** A file, a pipe or the like that is open for writing. */
class Descriptor {
  #number;

  constructor(number) {
    this.#number = number;
  }

  write(line) {
    let rest = Buffer.from(line);
    while (rest.length > 0) {
      try {
        rest = rest.subarray(fs.writeSync(this.#number, rest));
      } catch (error) {
        if (error.code !== "EAGAIN") throw error;
        Atomics.wait(new Int32Array(new SharedArrayBuffer(4)), 0, 0, 1); // a pipe is full: wait for a millisecond
      }
    }
  }

  close() {
    fs.closeSync(this.#number);
  }
}

/**
 * A connection to a port or a socket. Node's sockets write when the event loop comes round, which it doesn't before a
 * call returns; so a thread of its own has the socket, and a call waits until that thread has written.
 */
class Connection {
  #worker;
  #shared;

  constructor(worker, shared) {
    this.#worker = worker;
    this.#shared = new Int32Array(shared);
  }

  /** The same as `to`, but the whole thread waits. */
  static now(address, seconds) {
    const { worker, shared } = Connection.#begun(address, seconds);
    const connection = new Connection(worker, shared);
    worker.unref();
    Atomics.wait(connection.#shared, 0, 0);
    const code = connection.#code();
    if (code) throw systemError("connect", code);
    return connection;
  }

  static #begun(address, seconds) {
    const shared = new SharedArrayBuffer(8 + CODE_BYTES);
    const program = [connectThere, serveThere, answerThere, "connectThere(performance.now());"].join("\n");
    const worker = new Worker(program, { eval: true, execArgv: [], workerData: { address, seconds, shared } });
    return { worker, shared };
  }

  static to(address, seconds) {
    const { worker, shared } = Connection.#begun(address, seconds);
    return new Promise((resolve, reject) => {
      worker.once("error", reject);
      worker.once("message", (code) => {
        worker.unref(); // the process may end
        if (code) reject(systemError("connect", code));
        else resolve(new Connection(worker, shared));
      });
    });
  }

  /** The same connection, once this line is written, if it is one. */
  begun(line) {
    try {
      if (line !== "") this.write(line);
      return this;
    } catch (error) {
      this.close();
      throw error;
    }
  }

  write(line) {
    this.#ask(line);
    const code = this.#code();
    if (code) throw systemError("write", code);
  }

  #code() {
    return Buffer.from(new Uint8Array(this.#shared.buffer, 8, this.#shared[1])).toString();
  }

  close() {
    this.#ask(null);
  }

  #ask(line) {
    Atomics.store(this.#shared, 0, 0);
    this.#worker.postMessage(line);
    Atomics.wait(this.#shared, 0, 0);
  }
}

// The program of the thread that has the connection: these three functions, and nothing else of this file.

/** Connects, if need be again and again until so many seconds after the begin, and says so to the other thread. */
function connectThere(begin) {
  const net = require("node:net");
  const { parentPort, workerData } = require("node:worker_threads");
  const { address, seconds } = workerData;
  const socket = net.connect({ ...address, noDelay: true, allowHalfOpen: true });
  socket.once("error", (error) => {
    const comesLater = error.code === "ECONNREFUSED" || (error.code === "ENOENT" && address.path !== undefined);
    const isOver = !comesLater || performance.now() >= begin + 1000 * seconds;
    if (isOver) {
      answerThere(error);
      parentPort.postMessage(error.code ?? "EIO");
    } else {
      setTimeout(connectThere, 50, begin);
    }
  });
  socket.once("connect", () => {
    // A connection to a port that nobody has bound can come to be with itself.
    const isOwn = socket.localPort === socket.remotePort && socket.localAddress === socket.remoteAddress;
    if (isOwn && address.path === undefined) {
      socket.destroy(Object.assign(new Error("nobody listens"), { code: "ECONNREFUSED" }));
    } else {
      serveThere(socket.removeAllListeners("error"));
    }
  });
}

/** Writes each line that comes from the other thread, and closes the connection when null comes. */
function serveThere(socket) {
  const { parentPort } = require("node:worker_threads");
  let failure;
  socket.on("error", (error) => (failure ??= error));
  socket.resume();
  parentPort.on("message", (line) => {
    if (line !== null) {
      socket.write(line, (error) => answerThere(error && (failure ?? error)));
      return;
    }
    parentPort.close();
    if (socket.destroyed) answerThere();
    else socket.once("close", () => answerThere()).destroy();
  });
  answerThere();
  parentPort.postMessage(null);
}

/** Wakes the other thread, which finds the code of the error, or nothing. */
function answerThere(error) {
  const { shared } = require("node:worker_threads").workerData;
  const state = new Int32Array(shared);
  const code = Buffer.from(error ? error.code ?? error.message : "").subarray(0, shared.byteLength - 8);
  new Uint8Array(shared, 8).set(code);
  state[1] = code.length;
  Atomics.store(state, 0, 1);
  Atomics.notify(state, 0);
}

function systemError(call, code) {
  return Object.assign(new Error(`${call} ${code}`), { code, syscall: call });
}

function checkedName(kind, name) {
  if (typeof name !== "string" || !NAME.test(name) || name.length > NAME_BYTE_LIMIT || RESERVED.includes(name)) {
    throw new NotRecorded(
      `${kind}-name`,
      `${JSON.stringify(name)} is no name of a ${kind}: letters, digits and _, at most ${NAME_BYTE_LIMIT}, ` +
        `none of them a digit at first, and none of ${RESERVED.join(", ")}`,
    );
  }
  return name;
}

/** An object with the variables: of a text, a number or a `Map` no entries would be seen. */
function checkedVariables(variables) {
  if (typeof variables !== "object" || variables === null || Symbol.iterator in variables) {
    throw new NotRecorded("settings", `variables must be an object, as { inside: 1 }, and are ${kindOf(variables)}`);
  }
  return variables;
}

/** What a value of a wrong kind is, for a message. */
function kindOf(value) {
  if (typeof value === "string") return JSON.stringify(value.slice(0, SHOWN));
  const isObject = typeof value === "object" && value !== null;
  return isObject ? `of type ${value.constructor?.name ?? "object"}` : String(value).slice(0, SHOWN);
}

/** The limits of a recording that is a long one if the options or MONITOR_LONG say so. */
function limitsOf({ long = false }) {
  const text = environment.MONITOR_LONG ?? "";
  if (!["", "0", "1"].includes(text)) {
    const shown = JSON.stringify(text.slice(0, SHOWN));
    throw new NotRecorded("long", `MONITOR_LONG is ${shown}, and is 1 for a long recording, or else 0`);
  }
  return long || text === "1" ? LONG : SESSION;
}

function checkedId(id, { idBytes }) {
  if (typeof id !== "string") throw new NotRecorded("id", `the id of a message must be a text, and is a ${typeof id}`);
  const bytes = Buffer.from(id);
  if (bytes.length < 1 || bytes.length > idBytes) {
    throw new NotRecorded("id", `the id of a message has 1 to ${idBytes} bytes, and this one ${bytes.length}`);
  }
  if (bytes.toString() !== id) throw new NotRecorded("id", `${JSON.stringify(id)} can't be written in UTF-8`);
  return id;
}

/** The value in digits: true and false are 1 and 0. */
function checkedValue(name, value) {
  const isWhole = typeof value === "bigint" || typeof value === "boolean" || Number.isSafeInteger(value);
  const number = isWhole ? BigInt(value) : undefined;
  if (number === undefined || number < LEAST_VALUE || number > GREATEST_VALUE) {
    const advice = Number.isInteger(value) || isWhole ? "of 64 bits, and a BigInt if it is above 2**53" : "";
    const shown = typeof value === "string" ? JSON.stringify(value.slice(0, SHOWN)) : String(value).slice(0, SHOWN);
    throw new NotRecorded("value", `${name} must be a whole number${advice && ` ${advice}`}, and is ${shown}`);
  }
  return String(number);
}

module.exports = {
  Recorder,
  RecordedLock,
  RecordedQueue,
  NotRecorded,
  EVENT_LIMIT,
  VARIABLE_LIMIT,
  PROCESS_LIMIT,
  NAME_BYTE_LIMIT,
  ID_BYTE_LIMIT,
  LONG_EVENT_LIMIT,
  LONG_PROCESS_LIMIT,
  LONG_ID_BYTE_LIMIT,
  NOTE_BYTE_LIMIT,
  TOKEN_BYTE_LIMIT,
};
