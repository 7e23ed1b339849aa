"use strict";
/** Makes the calls that it is told on its standard input, with the recorder for Node: see recorders/cases/README.md. */
const { setImmediate: pause } = require("node:timers/promises");
const readline = require("node:readline");
const { NotRecorded, RecordedLock, RecordedQueue, Recorder } = require("./monitor_recorder.cjs");

let recorder;
let recorders;
let refusal = ""; // the text of the last one
let options; // of the call, if it has a note
let locks; // what tasks share, by its names
let queues;

const calls = {
  file: (process, path) => begin(process, Recorder.toFile(textOf(process), textOf(path))),
  noted: (process, path) => begin(process, Recorder.toFile(textOf(process), textOf(path), { notes: true })),
  replaced: (process, path) => begin(process, Recorder.toFile(textOf(process), textOf(path), { replace: true })),
  again: (process, path) => begin(process, Recorder.toFile(textOf(process), textOf(path), { again: true })),
  "noted-again": (process, path) =>
    begin(process, Recorder.toFile(textOf(process), textOf(path), { again: true, notes: true })),
  place: (process, place) => callAt(process, place),
  "again-at": (process, place) => callAt(process, place, { again: true }),
  long: (process, path) => begin(process, Recorder.toFile(textOf(process), textOf(path), { long: true })),
  "long-at": (process, place) => callAt(process, place, { long: true }),
  said: () => refusal,
  port: async (process, port, seconds) =>
    begin(process, await Recorder.toPort(textOf(process), Number(port), { seconds: Number(seconds) })),
  "token-port": async (process, port, seconds, token) =>
    begin(
      process,
      await Recorder.toPort(textOf(process), Number(port), { seconds: Number(seconds), token: textOf(token) }),
    ),
  strand: (name) => void recorders.set(name, recorder.strand(textOf(name))),
  join: (name, ...words) => recorder.join(recorders.get(name), settingsOf(words), options),
  in: callIn,
  note: callNoted,
  event: (...words) => recorder.event(settingsOf(words), options),
  send: (...words) => recorder.send(settingsOf(words), options),
  "send-text": (message, ...words) => recorder.send(textOf(message), settingsOf(words), options),
  "send-as": (message, ...words) => recorder.sendAs(textOf(message), settingsOf(words), options),
  receive: (message, ...words) => recorder.receive(textOf(message), settingsOf(words), options),
  events: () => recorder.events,
  end: () => recorder.end(),
  close: () => recorder?.close(),
  threads: (count, turns) => run(Number(count), takeTurns, Number(turns)),
  flood: (count) => run(Number(count), sendAll),
  signals: () => void process.on("SIGWINCH", () => {}),
  locked: (count, turns) => contend(Number(count), Number(turns), new RecordedLock()),
  unlocked: (count, turns) => contend(Number(count), Number(turns)),
  lock: (name) => recorder.within(() => named(locks, name, RecordedLock).acquire()),
  unlock: (name) => recorder.within(() => named(locks, name, RecordedLock).release()),
  put: (name) => recorder.within(() => named(queues, name, RecordedQueue).put("a value")),
  take: (name) => recorder.within(async () => void (await named(queues, name, RecordedQueue).take())),
  strands: (count, turns) => takeStrands(Number(count), Number(turns)),
};

/** What tasks share by this name. */
function named(all, name, kind) {
  if (!all.has(name)) all.set(name, new kind());
  return all.get(name);
}

function begin(process, made) {
  recorder = made;
  recorders = new Map([[process, made]]);
  [locks, queues] = [new Map(), new Map()];
}

/** Makes a recorder to this place. */
async function callAt(name, place, options) {
  process.env.MONITOR_TO = textOf(place);
  begin(name, await Recorder.fromEnvironment(textOf(name), options));
}

/** Makes the call by the recorder of a strand. */
async function callIn(name, call, ...words) {
  const process = recorder;
  recorder = recorders.get(name);
  try {
    return await calls[call](...words);
  } finally {
    recorder = process;
  }
}

/** Makes the call with a text for its note. */
async function callNoted(text, call, ...words) {
  options = { note: textOf(text) };
  try {
    return await calls[call](...words);
  } finally {
    options = undefined;
  }
}

/** The text for which a word stands: `%` and two digits are a byte, and `%` alone is no text at all. */
function textOf(word) {
  return word === "%" ? "" : decodeURIComponent(word);
}

function settingsOf(words) {
  const pairs = words.map((word) => [word.slice(0, word.lastIndexOf("=")), word.slice(word.lastIndexOf("=") + 1)]);
  return Object.fromEntries(pairs.map(([name, value]) => [textOf(name), valueOf(value)]));
}

function valueOf(word) {
  const value = JSON.parse(word);
  return typeof value === "number" && /^-?\d+$/.test(word) && !Number.isSafeInteger(value) ? BigInt(word) : value;
}

/** Runs so many tasks, which take turns. */
async function run(count, work, turns) {
  const shared = { total: 0 };
  await Promise.all(Array.from({ length: count }, (_, number) => work(number, shared, turns)));
}

async function takeTurns(number, shared, turns) {
  for (let turn = 0; turn < turns; turn++) {
    const message = recorder.send({ [`x${number}`]: turn });
    await pause();
    recorder.event({ [`y${number}`]: Number(message.split("-")[1]) });
    await pause();
    recorder.receive(`m${number}-${turn}`);
    await pause();
    shared.total += 1;
    recorder.event({ total: shared.total });
  }
}

async function takeStrands(count, turns) {
  const strands = Array.from({ length: count }, (_, number) => recorder.strand(`strand${number}`));
  await Promise.all(strands.map((strand) => strand.within(() => takeStrand(turns))));
  for (const strand of strands) recorder.join(strand);
}

/** Has strands go inside by turns, by a lock if there is one. */
async function contend(count, turns, lock) {
  const strands = Array.from({ length: count }, (_, number) => recorder.strand(`strand${number}`));
  await Promise.all(strands.map((strand) => strand.within(() => goInside(turns, lock))));
  for (const strand of strands) recorder.join(strand);
}

async function goInside(turns, lock) {
  const go = async () => {
    Recorder.current().event({ x: 1 });
    await pause();
    Recorder.current().event({ x: 0 });
  };
  for (let turn = 0; turn < turns; turn++) await (lock ? lock.hold(go) : go());
  Recorder.current().end();
}

async function takeStrand(turns) {
  for (let turn = 0; turn < turns; turn++) {
    await pause();
    Recorder.current().event({ x: turn });
  }
  Recorder.current().end();
}

async function sendAll() {
  try {
    for (;;) {
      process.stdout.write(`sent ${recorder.send()}\n`);
      await pause();
    }
  } catch (error) {
    if (error.reason !== "events") throw error;
  }
}

async function answer(call, words) {
  try {
    const given = await calls[call](...words);
    return given === undefined ? "recorded" : `recorded ${given}`;
  } catch (error) {
    if (error instanceof NotRecorded) {
      refusal = error.message;
      return `refused ${error.reason}`;
    }
    if (error.syscall) return "failed";
    throw error;
  }
}

async function main() {
  for await (const line of readline.createInterface({ input: process.stdin })) {
    const [call, ...words] = line.split(" ");
    process.stdout.write(`${await answer(call, words)}\n`);
  }
}

main();
