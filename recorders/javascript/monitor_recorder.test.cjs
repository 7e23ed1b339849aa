"use strict";
/** Tests of monitor_recorder that the shared cases can't say: see test.sh. */
const assert = require("node:assert/strict");
const { spawn, spawnSync } = require("node:child_process");
const fs = require("node:fs");
const net = require("node:net");
const os = require("node:os");
const path = require("node:path");
const { test } = require("node:test");
const { setTimeout: sleep } = require("node:timers/promises");
const recording = require("./monitor_recorder.cjs");

const { LONG_ID_BYTE_LIMIT, NotRecorded, RecordedLock, RecordedQueue, Recorder } = recording;
const FILE = path.join(__dirname, "monitor_recorder.cjs");
const EXAMPLES = path.join(__dirname, "..", "..", "examples");
const MONITOR = path.resolve(process.env.MONITOR ?? path.join(EXAMPLES, "..", "crates", "monitor", "out", "monitor"));
const JOIN = '{"process":"left"}\n';
const END = '{"end":true}\n';
const folder = fs.mkdtempSync(path.join(os.tmpdir(), "recorder-"));
let count = 0;

process.on("exit", () => fs.rmSync(folder, { recursive: true }));

/** A path in the tests' folder where nothing is yet. */
function newPath() {
  return path.join(folder, `${count++}.stream`);
}

function opened() {
  const at = newPath();
  return { recorder: Recorder.toFile("left", at), text: () => fs.readFileSync(at, "utf8") };
}

function refused(reason, call) {
  assert.throws(call, (error) => error instanceof NotRecorded && error.reason === reason && error.message !== "");
}

/** The words for Node by which it runs a program with this body, in which `recording` and `word` are known. */
function program(body, word) {
  return ["-e", `const word = process.argv[1]; const recording = require(${JSON.stringify(FILE)}); ${body}`, word];
}

test("ids that are no texts of Unicode", () => {
  const { recorder, text } = opened();
  for (const id of ["\ud800", "a\udc00", "\udc00\ud800", 7, null, undefined, ["m"], new String("m")]) {
    refused("id", () => recorder.sendAs(id));
    refused("id", () => recorder.receive(id));
  }
  recorder.sendAs("a\0b");
  assert.equal(text(), `${JOIN}{"send":"a\\u0000b"}\n`);
  recorder.end();
});

test("values", () => {
  const { recorder, text } = opened();
  for (const value of [NaN, Infinity, 0.5, 2 ** 53, "1", null, undefined, [], {}, 2n ** 63n, Symbol("x")]) {
    refused("value", () => recorder.event({ x: value }));
  }
  recorder.event({ a: 2 ** 53 - 1, b: -0, c: -(2n ** 63n), d: true, e: 1e3 });
  assert.equal(text(), `${JOIN}{"set":{"a":9007199254740991,"b":0,"c":-9223372036854775808,"d":1,"e":1000}}\n`);
  recorder.end();
});

test("names", () => {
  refused("process-name", () => Recorder.toFile("and", newPath()));
  refused("process-name", () => Recorder.toFile(undefined, newPath()));
  const { recorder } = opened();
  refused("variable-name", () => recorder.event({ 0: "a" }));
  recorder.end();
});

test("variables that are no object", () => {
  const { recorder, text } = opened();
  for (const variables of ["", "inside", 7, true, null, [], ["a", "b"], new Map([["x", 1]]), new Set(), () => 1, 1n]) {
    refused("settings", () => recorder.event(variables));
    refused("settings", () => recorder.receive("m", variables));
    refused("settings", () => recorder.sendAs("m", variables));
    refused("settings", () => recorder.send("m", variables));
    if (typeof variables !== "string") refused("settings", () => recorder.send(variables));
  }
  const message = "variables must be an object, as { inside: 1 }, and are of type Map";
  assert.throws(() => recorder.event(new Map()), { message });
  assert.equal(text(), JOIN);
  recorder.event(Object.assign(Object.create(null), { x: 1 }));
  assert.equal(text(), `${JOIN}{"set":{"x":1}}\n`);
  recorder.end();
});

test("a text before the variables of send is the id", () => {
  const { recorder, text } = opened();
  assert.equal(recorder.send("mine"), "mine");
  assert.equal(recorder.send("other", { x: 1 }), "other");
  refused("id", () => recorder.send(""));
  for (const id of [{}, 7, null, undefined]) refused("id", () => recorder.send(id, { x: 2 }));
  assert.throws(() => recorder.send({ x: 2 }, { y: 1 }), { message: /must be a text.*sendAs\(id, \{ inside: 1 \}\)/ });
  assert.equal(text(), `${JOIN}{"send":"mine"}\n{"send":"other","set":{"x":1}}\n`);
  recorder.end();
});

test("a file that is there is kept", () => {
  const at = newPath();
  Recorder.toFile("left", at).end();
  assert.throws(() => Recorder.toFile("left", at), { code: "EEXIST" });
  assert.equal(fs.readFileSync(at, "utf8"), JOIN + END);
});

test("a recorder that is closed after an exception leaves no end line", () => {
  const { recorder, text } = opened();
  assert.throws(() => {
    try {
      recorder.event();
      throw new Error("something went wrong");
    } finally {
      recorder.close();
    }
  }, /something went wrong/);
  assert.equal(text(), `${JOIN}{}\n`);
  recorder.close();
});

test("after a line that could not be written nothing is", () => {
  const full = fs.openSync("/dev/full", "w");
  assert.throws(() => new Recorder("left", full), { code: "ENOSPC" });
  fs.closeSync(full);
  const at = newPath();
  const descriptor = fs.openSync(at, "wx");
  const recorder = new Recorder("left", descriptor);
  fs.closeSync(descriptor);
  assert.throws(() => recorder.event(), { code: "EBADF" });
  refused("broken", () => recorder.event());
  refused("broken", () => recorder.end());
  assert.equal(recorder.events, 0);
  assert.equal(fs.readFileSync(at, "utf8"), JOIN);
});

test("a long recording to a file that is open", () => {
  const at = newPath();
  const id = "x".repeat(LONG_ID_BYTE_LIMIT);
  const recorder = new Recorder("left", fs.openSync(at, "wx"), { long: true });
  recorder.receive(id);
  refused("id", () => recorder.sendAs(`${id}x`));
  recorder.end();
  assert.equal(fs.readFileSync(at, "utf8"), `${JOIN}{"recv":"${id}"}\n${END}`);
});

test("a pipe that is full, and doesn't make a writer wait", async () => {
  const [pipe, to] = [newPath(), newPath()];
  spawnSync("mkfifo", [pipe]);
  const reader = spawn("sh", ["-c", 'exec 3< "$1"; sleep 0.2; cat <&3 > "$2"', "sh", pipe, to]);
  const ended = new Promise((resolve) => reader.once("exit", resolve));
  const recorder = new Recorder("left", await descriptorOf(pipe));
  for (let number = 0; number < 9000; number++) recorder.send();
  recorder.end();
  assert.equal(await ended, 0);
  assert.equal(fs.readFileSync(to, "utf8").split("\n").length, 9003);
});

/** A pipe for writing, once somebody reads from it. */
async function descriptorOf(pipe) {
  for (;;) {
    try {
      return fs.openSync(pipe, fs.constants.O_WRONLY | fs.constants.O_NONBLOCK);
    } catch (error) {
      if (error.code !== "ENXIO") throw error;
      await new Promise((resolve) => setTimeout(resolve, 5));
    }
  }
}

test("an import gives the same names as require", () => {
  const names = `import { Recorder, NotRecorded } from ${JSON.stringify(FILE)};`;
  const words = ["--input-type=module", "-e", `${names} console.log(Recorder.name, NotRecorded.name);`];
  const done = spawnSync(process.execPath, words, { encoding: "utf8" });
  assert.equal(done.stdout, "Recorder NotRecorded\n");
});

test("the types name what the module has", () => {
  const types = fs.readFileSync(path.join(__dirname, "monitor_recorder.d.cts"), "utf8");
  const named = [...types.matchAll(/^export (?:const|class) (\w+)/gm)].map((found) => found[1]);
  assert.deepEqual(named.sort(), Object.keys(recording).sort());
  const found = [...types.matchAll(/^ {2}(?:static |get )?(\w+)(?:<T>)?\(/gm)].map((method) => method[1]);
  const methods = [...new Set(found)];
  const kinds = [Recorder, Recorder.prototype, RecordedLock.prototype, RecordedQueue.prototype];
  const members = kinds.flatMap((kind) => Object.getOwnPropertyNames(kind));
  const others = ["length", "name", "prototype"];
  assert.deepEqual(new Set(methods), new Set(members.filter((name) => !others.includes(name))));
});

test("a program that ends while it has a connection", async () => {
  const server = net.createServer().listen(0, "127.0.0.1");
  const texts = new Promise((resolve) => {
    server.once("connection", async (connection) => {
      let text = "";
      for await (const part of connection) text += part;
      resolve(text);
    });
  });
  await new Promise((resolve) => server.once("listening", resolve));
  const body = "recording.Recorder.toPort('left', Number(word)).then((recorder) => recorder.event());";
  const child = spawn(process.execPath, program(body, String(server.address().port)));
  assert.equal(await new Promise((resolve) => child.once("exit", resolve)), 0);
  assert.equal(await texts, `${JOIN}{}\n`);
  server.close();
});

test("an error that nobody catches loses nothing", () => {
  const at = newPath();
  const body = "recording.Recorder.toFile('left', word).event({ x: 1 }); throw new Error('something went wrong');";
  const done = spawnSync(process.execPath, program(body, at));
  assert.equal(done.status, 1);
  assert.equal(fs.readFileSync(at, "utf8"), `${JOIN}{"set":{"x":1}}\n`);
});

test("a port on which nobody listens", async () => {
  await assert.rejects(Recorder.toPort("and", 1), { reason: "process-name" });
  const server = net.createServer().listen(0, "127.0.0.1");
  await new Promise((resolve) => server.once("listening", resolve));
  const ours = net.connect(server.address().port, "127.0.0.1");
  await new Promise((resolve) => ours.once("connect", resolve));
  // Nobody can listen on a port that is the end of a connection.
  await assert.rejects(Recorder.toPort("left", ours.localPort, { seconds: 0 }), { code: "ECONNREFUSED" });
  ours.destroy();
  server.close();
});

test("tokens that are none", async () => {
  for (const token of ["a\0b", "\ud800", "\ufffd", 7, Buffer.from("bytes"), "a\n", "x".repeat(1025)]) {
    await assert.rejects(Recorder.toPort("left", 1, { token }), { reason: "token", message: /^the token is no token/ });
  }
  process.env.MONITOR_TOKEN = "a secret\rof two";
  const message = /^MONITOR_TOKEN is no token(?!.*secret)/;
  await assert.rejects(Recorder.toPort("left", 1), { reason: "token", message });
  delete process.env.MONITOR_TOKEN;
});

test("a place that the environment names", async () => {
  const at = async (place, name = "left") => {
    if (place === undefined) delete process.env.MONITOR_TO;
    else process.env.MONITOR_TO = place;
    return Recorder.fromEnvironment(name);
  };
  const into = path.join(folder, "new", "folder");
  for (const name of ["left", "right"]) (await at(into, name)).end();
  assert.deepEqual(fs.readdirSync(into).sort(), ["left.stream", "right.stream"]);
  await assert.rejects(at(into), { code: "EEXIST" });
  const server = net.createServer((connection) => connection.resume()).listen(0, "127.0.0.1");
  await new Promise((resolve) => server.once("listening", resolve));
  for (const host of ["", "localhost", "127.0.0.1"]) {
    const accepted = new Promise((resolve) => server.once("connection", resolve));
    (await at(`${host}:${server.address().port}`)).end();
    await accepted;
  }
  server.close();
  for (const place of [undefined, "", ":0", ":65535", "localhost:99999"]) {
    await assert.rejects(at(place), { reason: "place" });
  }
  await assert.rejects(at(into, "and"), { reason: "process-name" });
  delete process.env.MONITOR_TO;
});

/** A recorder in a folder of its own, and the texts of the streams there. */
function openedWithStrands() {
  const at = fs.mkdtempSync(path.join(folder, "strands-"));
  const text = (name) => fs.readFileSync(path.join(at, `${name}.stream`), "utf8");
  return { recorder: Recorder.toFile("left", path.join(at, "left.stream")), text, at };
}

/** The stream of a strand that was the process's first. */
const whole = (name, ...events) =>
  [`{"process":"${name}"}`, '{"recv":"left-1"}', ...events, `{"send":"${name}-1"}`, '{"end":true}', ""].join("\n");

/** The notes of a process, without their clocks, and the line of this file that is the place of each. */
function notesIn(at, name) {
  const source = fs.readFileSync(__filename, "utf8").split("\n");
  const lines = fs.readFileSync(path.join(at, `${name}.notes.jsonl`), "utf8").split("\n");
  assert.equal(lines.pop(), "");
  return lines.map((line, number) => {
    const note = JSON.parse(line);
    assert.deepEqual(Object.keys(note), ["process", "event", "text", "place", "clock"]);
    assert.deepEqual([note.process, note.event], [name, number + 1]);
    assert.ok(Math.abs(note.clock - Date.now() / 1000) < 600, line);
    assert.ok(note.place.startsWith(`${__filename}:`), line);
    return [note.text, source[note.place.slice(__filename.length + 1) - 1].trim()];
  });
}

function openedWithNotes() {
  const at = fs.mkdtempSync(path.join(folder, "notes-"));
  return { recorder: Recorder.toFile("left", path.join(at, "left.stream"), { notes: true }), at };
}

test("notes of tasks", async () => {
  const { recorder, at } = openedWithNotes();
  const deepBelow = async () => {
    await sleep(1);
    Recorder.current().event({ x: 1 }, { note: "below" });
  };
  await recorder.strand("worker", deepBelow); // awaited
  recorder.send({ x: 1 }, { note: "sent" });
  recorder.sendAs("own", {}, { note: "a\ud800b\udfff" });
  recorder.send("other", undefined, { note: "also sent" });
  const strand = recorder.strand("other");
  strand.close();
  recorder.join(strand, { x: 2 }, { note: "joined" });
  recorder.end();
  assert.deepEqual(notesIn(at, "left"), [
    ["", 'await recorder.strand("worker", deepBelow); // awaited'],
    ["", 'await recorder.strand("worker", deepBelow); // awaited'],
    ["sent", 'recorder.send({ x: 1 }, { note: "sent" });'],
    ["a\ufffdb\ufffd", 'recorder.sendAs("own", {}, { note: "a\\ud800b\\udfff" });'],
    ["also sent", 'recorder.send("other", undefined, { note: "also sent" });'],
    ["", 'const strand = recorder.strand("other");'],
    ["joined", 'recorder.join(strand, { x: 2 }, { note: "joined" });'],
  ]);
  assert.deepEqual(notesIn(at, "worker"), [
    ["", 'await recorder.strand("worker", deepBelow); // awaited'],
    ["below", 'Recorder.current().event({ x: 1 }, { note: "below" });'],
    ["", 'await recorder.strand("worker", deepBelow); // awaited'],
  ]);
});

test("notes of what tasks share", async () => {
  const { recorder, at } = openedWithNotes();
  const [a, b] = [recorder.strand("a"), recorder.strand("b")];
  const lock = new RecordedLock();
  const queue = new RecordedQueue();
  await a.within(async () => lock.hold(() => sleep(1))); // by a
  await b.within(async () => lock.acquire()); // by b
  const taken = a.within(async () => queue.take()); // it waits
  b.within(() => queue.put("value"));
  assert.equal(await taken, "value");
  recorder.end();
  assert.deepEqual(notesIn(at, "a").slice(2), [["", "const taken = a.within(async () => queue.take()); // it waits"]]);
  const [[, locked], [, put]] = notesIn(at, "b").slice(1);
  assert.equal(locked, "await b.within(async () => lock.acquire()); // by b");
  assert.equal(put, 'b.within(() => queue.put("value"));');
});

test("what is no note, and no place for one", async () => {
  const { recorder, text } = opened();
  for (const options of [null, "a text", 7, {}, { note: 7 }]) {
    refused("note", () => recorder.event({}, options));
    refused("note", () => recorder.receive("m", {}, options));
  }
  for (const last of [{ x: 1 }, "a text", null]) refused("id", () => recorder.send({}, last));
  refused("id", () => recorder.send({}, { note: "said" }, {}));
  assert.equal(text(), JOIN);
  for (const name of ["left", "left.stream.txt"]) {
    refused("notes", () => Recorder.toFile("left", path.join(folder, name), { notes: true }));
  }
  const into = path.join(folder, "noted");
  const at = async (notes, place = into) => {
    [process.env.MONITOR_TO, process.env.MONITOR_NOTES] = [place, notes];
    return Recorder.fromEnvironment("left", { replace: true });
  };
  (await at("1")).end();
  assert.deepEqual(fs.readdirSync(into), ["left.notes.jsonl", "left.stream"]);
  for (const notes of ["", "0"]) {
    (await at(notes)).end();
    assert.deepEqual(fs.readdirSync(into), ["left.stream"]);
  }
  await assert.rejects(at("yes"), { reason: "notes" });
  await assert.rejects(at("1", ":7411"), { reason: "notes" });
  delete process.env.MONITOR_TO;
  delete process.env.MONITOR_NOTES;
});

test("files that are replaced, and that aren't", () => {
  const at = fs.mkdtempSync(path.join(folder, "replaced-"));
  const file = path.join(at, "left.stream");
  fs.writeFileSync(path.join(at, "left.notes.jsonl"), "mine");
  const isThere = { code: "EEXIST", message: /a recording isn't written over/ };
  assert.throws(() => Recorder.toFile("left", file, { notes: true }), isThere);
  assert.deepEqual(fs.readdirSync(at), ["left.notes.jsonl"]);
  for (let turn = 0; turn < 2; turn++) {
    const recorder = Recorder.toFile("left", file, { notes: true, replace: true });
    recorder.strand("worker").end();
    recorder.end();
  }
  assert.equal(fs.readFileSync(file, "utf8"), `${JOIN}{"send":"left-1"}\n${END}`);
  Recorder.toFile("left", file, { replace: true }).end();
  assert.deepEqual(fs.readdirSync(at), ["left.stream", "worker.notes.jsonl", "worker.stream"]);
  const other = Recorder.toFile("other", file, { replace: true });
  assert.throws(() => other.strand("left"), isThere);
  other.end();
});

test("after a note that could not be written nothing is", () => {
  const at = fs.mkdtempSync(path.join(folder, "full-"));
  fs.symlinkSync("/dev/full", path.join(at, "left.notes.jsonl"));
  const recorder = Recorder.toFile("left", path.join(at, "left.stream"), { notes: true, replace: true });
  assert.throws(() => recorder.event(), { code: "ENOSPC" });
  refused("broken", () => recorder.event());
  recorder.close();
  assert.equal(fs.readFileSync(path.join(at, "left.stream"), "utf8"), JOIN);
});

test("a lock is held by one, in the order of those who wait", async () => {
  const { recorder, text } = openedWithStrands();
  const strands = ["a", "b", "c"].map((name) => recorder.strand(name));
  const lock = new RecordedLock();
  let inside = 0;
  const work = async () => {
    assert.equal(++inside, 1);
    await sleep(1);
    Recorder.current().event({ x: 1 });
    inside--;
    return Recorder.current().events;
  };
  const done = strands.map((strand) => strand.within(() => lock.hold(work)));
  assert.deepEqual(await Promise.all(done), [2, 3, 3]);
  assert.equal(lock.isHeld, false);
  await assert.rejects(strands[0].within(() => lock.hold(fail)), /something/);
  assert.throws(() => lock.release(), /nobody holds/);
  recorder.end();
  assert.ok(text("b").endsWith(`{"recv":"a-1"}\n{"set":{"x":1}}\n{"send":"b-1"}\n${END}`), text("b"));
  assert.ok(text("c").endsWith(`{"recv":"b-1"}\n{"set":{"x":1}}\n{"send":"c-1"}\n${END}`), text("c"));
  assert.ok(text("a").endsWith(`{"send":"a-1"}\n{"recv":"c-1"}\n{"send":"a-2"}\n${END}`), text("a"));
});

test("a lock that is refused isn't held, and one without recorders records nothing", async () => {
  const { recorder, text } = openedWithStrands();
  const [a, b] = [recorder.strand("a"), recorder.strand("b")];
  const lock = new RecordedLock();
  await a.within(() => lock.hold(() => undefined));
  b.end();
  const waiting = b.within(() => lock.acquire());
  await assert.rejects(waiting, { reason: "ended" });
  assert.equal(lock.isHeld, false);
  await lock.acquire();
  const third = b.within(() => lock.acquire());
  const fourth = lock.acquire();
  lock.release();
  await assert.rejects(third, { reason: "ended" }); // and the next one who waits gets it
  await fourth;
  await assert.rejects(async () => b.within(() => lock.release()), { reason: "ended" });
  assert.equal(lock.isHeld, false);
  recorder.end();
  assert.ok(text("a").endsWith(`{"send":"a-1"}\n${END}`));
});

test("values of a queue in their order", async () => {
  const { recorder, text } = openedWithStrands();
  const [a, b] = [recorder.strand("a"), recorder.strand("b")];
  const queue = new RecordedQueue();
  const waiting = [b.within(() => queue.take()), queue.take()];
  for (let value = 0; value < 10; value++) a.within(() => queue.put(value));
  queue.put(undefined);
  assert.equal(queue.size, 9);
  assert.deepEqual(await Promise.all(waiting), [0, 1]);
  for (let value = 2; value < 10; value++) waiting.push(b.within(() => queue.take()));
  waiting.push(b.within(() => queue.take()));
  assert.deepEqual(await Promise.all(waiting), [0, 1, 2, 3, 4, 5, 6, 7, 8, 9, undefined]);
  assert.equal(queue.size, 0);
  recorder.end();
  const received = [1, 3, 4, 5, 6, 7, 8, 9, 10].map((number) => `{"recv":"a-${number}"}\n`);
  assert.ok(text("b").endsWith(`{"recv":"left-2"}\n${received.join("")}${END}`), text("b"));
});

test("async functions have their own strand as the current one", async () => {
  const { recorder, text } = openedWithStrands();
  const deepBelow = async () => {
    await sleep(1);
    Recorder.current().event({ x: 1 });
  };
  let fastIsJoined;
  const afterFast = new Promise((resolve) => (fastIsJoined = resolve));
  const work = async (begin, name) => {
    await begin;
    await deepBelow();
    return name;
  };
  const [slow, fast] = [
    recorder.strand("slow", () => work(afterFast, "slow")),
    recorder.strand("fast", () => work(sleep(1), "fast")),
  ];
  assert.equal(await fast, "fast");
  fastIsJoined();
  assert.equal(await slow, "slow");
  assert.equal(Recorder.current(), undefined);
  recorder.end();
  assert.equal(text("slow"), whole("slow", '{"set":{"x":1}}'));
  assert.equal(text("fast"), whole("fast", '{"set":{"x":1}}').replace("left-1", "left-2"));
  const joins = '{"recv":"fast-1"}\n{"recv":"slow-1"}\n';
  assert.equal(text("left"), `${JOIN}{"send":"left-1"}\n{"send":"left-2"}\n${joins}${END}`);
});

test("a strand is joined where it is awaited, and once", async () => {
  const { recorder, text } = openedWithStrands();
  const worker = recorder.strand("worker", () => "done");
  recorder.strand("other", () => undefined);
  await sleep(5);
  recorder.event({ x: 1 });
  assert.equal(await worker, "done");
  assert.equal(await worker, "done");
  recorder.end();
  const begun = '{"send":"left-1"}\n{"send":"left-2"}\n';
  assert.equal(text("left"), `${JOIN}${begun}{"set":{"x":1}}\n{"recv":"worker-1"}\n${END}`);
});

test("a strand whose function fails has ended, and is joined", async () => {
  const { recorder, text } = openedWithStrands();
  for (const [name, work] of Object.entries({ thrown: () => fail(), rejected: async () => fail() })) {
    await assert.rejects(async () => recorder.strand(name, work), /went wrong/);
  }
  const late = recorder.strand("late", async () => {
    await sleep(1);
    fail();
  });
  recorder.end();
  await assert.rejects(async () => late, /went wrong/);
  assert.equal(text("thrown"), whole("thrown"));
  assert.equal(text("rejected").slice(-END.length), END);
  assert.equal(text("late"), '{"process":"late"}\n{"recv":"left-3"}\n{"end":true}\n');
  assert.match(text("left"), /{"send":"left-1"}\n{"recv":"thrown-1"}\n{"send":"left-2"}\n{"recv":"rejected-1"}/);
});

function fail() {
  throw new Error("something went wrong");
}

test("a strand that is closed has ended", () => {
  const { recorder, text } = openedWithStrands();
  const strand = recorder.strand("worker");
  strand.close();
  recorder.join(strand, { x: 1 });
  recorder.end();
  assert.equal(text("worker"), whole("worker"));
});

test("the working directory may change", () => {
  const before = process.cwd();
  process.chdir(fs.mkdtempSync(path.join(folder, "there-")));
  const recorder = Recorder.toFile("left", "left.stream");
  const there = process.cwd();
  process.chdir(before);
  recorder.strand("worker").end();
  recorder.end();
  assert.equal(fs.readFileSync(path.join(there, "worker.stream"), "utf8"), whole("worker"));
});

test("strands are closed with their process", () => {
  const { recorder, text } = openedWithStrands();
  const strand = recorder.strand("worker");
  recorder.close();
  strand.close();
  refused("ended", () => strand.event());
  assert.equal(text("worker"), '{"process":"worker"}\n{"recv":"left-1"}\n');
});

test("a strand that is broken off is not ended, and the others are", () => {
  const { recorder, text } = openedWithStrands();
  const broken = recorder.strand("broken");
  const whole = recorder.strand("whole");
  for (const number of fs.readdirSync("/proc/self/fd").map(Number)) {
    if (linkOf(number)?.endsWith("/broken.stream")) fs.closeSync(number);
  }
  assert.throws(() => broken.event(), { code: "EBADF" });
  refused("not-ended", () => recorder.join(broken));
  assert.throws(() => recorder.end(), { code: "EBADF" });
  refused("ended", () => whole.event());
  assert.equal(text("whole"), '{"process":"whole"}\n{"recv":"left-2"}\n{"end":true}\n');
  assert.equal(text("left").slice(-END.length), END);
});

function linkOf(number) {
  try {
    return fs.readlinkSync(`/proc/self/fd/${number}`);
  } catch {
    return undefined;
  }
}

/** The answers to what is asked of a recording of the program of examples/two-phase-commit. */
function answersOf(example, ...option) {
  const at = fs.mkdtempSync(path.join(folder, "commit-"));
  const program = path.join(EXAMPLES, "two-phase-commit", "commit.mjs");
  const done = spawnSync(process.execPath, [program, at, ...option], { encoding: "utf8" });
  assert.equal(done.status, 0, done.stderr);
  const streams = fs.readdirSync(at).sort();
  const stored = fs.readdirSync(path.join(EXAMPLES, example)).filter((name) => name.endsWith(".stream"));
  assert.deepEqual(streams, stored.sort());
  const document = path.join(EXAMPLES, example, "session.json");
  const judged = spawnSync(MONITOR, ["judge", document, ...streams], { cwd: at, encoding: "utf8" });
  return judged.stdout.split("\n").map((line) => line.split(" ").slice(0, 3).join(" "));
}

test("by strands a bug is seen that one recorder misses", { skip: !fs.existsSync(MONITOR) }, () => {
  const [, missed] = answersOf("two-phase-commit");
  assert.equal(missed, "would_commit possibly no");
  for (const way of ["apart", "strands"]) {
    const [, seen] = answersOf(`two-phase-commit-${way}`, `--${way}`);
    assert.equal(seen, "would_commit possibly yes");
  }
});

test("strands write what an example writes by hand", () => {
  const [byHand, byStrands] = ["apart", "strands"].map((way) => path.join(EXAMPLES, `two-phase-commit-${way}`));
  for (const name of fs.readdirSync(byHand)) {
    assert.equal(fs.readFileSync(path.join(byStrands, name), "utf8"), fs.readFileSync(path.join(byHand, name), "utf8"));
  }
});

test("strands that are refused", () => {
  const { recorder, at } = openedWithStrands();
  refused("process-name", () => recorder.strand(undefined));
  for (const other of ["worker", undefined, recorder]) refused("not-ended", () => recorder.join(other));
  refused("name-twice", () => recorder.strand("left", fail));
  const given = new Recorder("other", fs.openSync(path.join(at, "other"), "wx"));
  refused("no-place", () => given.strand("worker"));
  given.end();
  recorder.end();
  assert.deepEqual(fs.readdirSync(at).sort(), ["left.stream", "other"]);
});

test("strands over connections, and a monitor that is gone", async () => {
  const server = net.createServer((connection) => connection.resume()).listen(0, "127.0.0.1");
  await new Promise((resolve) => server.once("listening", resolve));
  const recorder = await Recorder.toPort("left", server.address().port, { seconds: 0 });
  const strand = recorder.strand("worker");
  await sleep(20);
  server.close();
  assert.throws(() => recorder.strand("late"), { code: "ECONNREFUSED" });
  strand.end();
  recorder.join(strand);
  recorder.end();
  assert.equal(recorder.events, 2);
});
