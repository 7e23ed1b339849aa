#!/usr/bin/env node
/**
 * election.mjs FOLDER [--by-voters]: five members at two sites elect a leader, in processes that talk over TCP. Each
 * records itself in FOLDER, and has a log there.
 *
 * `north1` and `south1` stand for term 1 at the same time, and the connection over which `north2` is asked breaks once.
 * With --by-voters the voters are counted, and otherwise the votes.
 */
import { fork } from "node:child_process";
import { once } from "node:events";
import fs from "node:fs";
import path from "node:path";
import { fileURLToPath } from "node:url";
import { Recorder } from "../../recorders/javascript/monitor_recorder.cjs";
import { Link, listen } from "./links.mjs";
import { Member } from "./member.mjs";

const MEMBERS = ["north1", "north2", "south1", "south2", "south3"];
const CANDIDATES = ["north1", "south1"];
const RUN = 2000; // milliseconds: by then all messages have come

function fileOf(folder, name, kind) {
  const file = path.join(folder, `${name}.${kind}`);
  fs.rmSync(file, { force: true });
  return file;
}

/** Runs one member. Its parent says when, by messages: the ports of all members, that it stands, that it ends. */
async function runMember(folder, name, countsVoters) {
  const recorder = Recorder.toFile(name, fileOf(folder, name, "stream"));
  const logFile = fileOf(folder, name, "log");
  const links = new Map();
  const member = new Member(name, links, recorder, (text) => fs.appendFileSync(logFile, `${text}\n`), countsVoters);
  let isBroken = name !== "north2";
  const server = await listen((message, socket) => {
    member.hear(message);
    if (!isBroken) socket.destroy(); // the network's fault
    isBroken = true;
  });
  process.on("message", ({ ports, stands, ends }) => {
    for (const other in ports) if (other !== name) links.set(other, new Link(name, other, ports[other]));
    if (stands) member.stand();
    if (ends) endMember(recorder, links, server);
    else if (ports) process.send("ready");
  });
  process.send(server.port);
}

function endMember(recorder, links, server) {
  recorder.end();
  server.close();
  for (const link of links.values()) link.close();
  process.disconnect();
}

/** What each of the processes tells next. */
function hearAll(processes) {
  return Promise.all(processes.map(async (each) => (await once(each, "message"))[0]));
}

async function runAll(folder, words) {
  fs.mkdirSync(folder, { recursive: true });
  const processes = MEMBERS.map((name) => fork(fileURLToPath(import.meta.url), [folder, ...words, name]));
  const found = await hearAll(processes);
  const ports = Object.fromEntries(MEMBERS.map((name, place) => [name, found[place]]));
  const ready = hearAll(processes);
  for (const each of processes) each.send({ ports });
  await ready;
  for (const name of CANDIDATES) processes[MEMBERS.indexOf(name)].send({ stands: true });
  await new Promise((resolve) => setTimeout(resolve, RUN));
  const statuses = Promise.all(processes.map(async (each) => (await once(each, "exit"))[0]));
  for (const each of processes) each.send({ ends: true });
  process.exitCode = Math.max(...(await statuses));
}

const [folder, ...words] = process.argv.slice(2);
if (process.send) await runMember(folder, words.at(-1), words[0] === "--by-voters");
else await runAll(folder, words);
