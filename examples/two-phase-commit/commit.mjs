// node commit.mjs FOLDER [--apart | --strands]: records a two-phase commit of a coordinator and three banks into a
// folder.
//
// The coordinator asks all banks at once, each in an async function of its own, and takes two votes of three for all:
// that is the bug. With --apart each call of this function records into a stream of its own, by code that is written
// here; with --strands it does the same by strands of the recorder.
import { once } from "node:events";
import http from "node:http";
import path from "node:path";
import { setTimeout as sleep } from "node:timers/promises";
import { Recorder } from "../../recorders/javascript/monitor_recorder.cjs";

const HEADER = "monitor-message";
/** How each bank votes, and after how many milliseconds its vote comes. */
const BANKS = {
  north: { vote: "no", after: 50 },
  south: { vote: "yes", after: 150 },
  east: { vote: "yes", after: 250 },
};
const ENOUGH = 2; // of three banks

const [folder, option] = process.argv.slice(2);
const recorderOf = (name) => Recorder.toFile(name, path.join(folder, `${name}.stream`));

/** Answers the one question that this bank is asked, with its vote. */
async function bank(name, recorder) {
  const server = http.createServer(async (request, response) => {
    recorder.receive(request.headers[HEADER]);
    await sleep(BANKS[name].after);
    const id = recorder.send({ refuses: Number(BANKS[name].vote === "no") });
    response.writeHead(200, { [HEADER]: id }).end(BANKS[name].vote);
    recorder.end();
    server.close();
  });
  await once(server.listen(0, "127.0.0.1"), "listening");
  return `http://127.0.0.1:${server.address().port}`;
}

/** Asks a bank for its vote, and has `heard` count it. The recorder is that of whoever asks. */
async function ask(url, recorder, heard) {
  const response = await new Promise((resolve, reject) => {
    http.get(url, { headers: { [HEADER]: recorder.send() } }, resolve).on("error", reject);
  });
  const vote = (await response.toArray()).join("");
  recorder.receive(response.headers[HEADER], heard(vote));
}

/** What the coordinator has heard, and what it has decided by that. */
class Votes {
  yes = 0;
  no = 0;
  decision = undefined;

  count(vote) {
    this[vote]++;
    this.decision ??= this.no > 0 ? "abort" : this.yes >= ENOUGH ? "commit" : undefined;
    return this[vote];
  }

  /** The same, for whoever asks for one vote only: what that one has heard. */
  countOne(vote) {
    this.count(vote);
    return { [vote]: 1 };
  }
}

/** Asks all banks at once, and records as one process, as a program is recorded by itself. */
async function coordinate(urls) {
  const recorder = recorderOf("coordinator");
  const votes = new Votes();
  const hear = (vote) => ({ [vote]: votes.count(vote) });
  await Promise.all(Object.values(urls).map((url) => ask(url, recorder, hear)));
  recorder.event({ commits: Number(votes.decision === "commit") });
  recorder.end();
}

/** The same, but each question is a process of the recording, which begins with a message from the coordinator and ends
 * with one to it. */
async function coordinateApart(urls) {
  const recorder = recorderOf("coordinator");
  const votes = new Votes();
  const askApart = async ([name, url]) => {
    const task = recorderOf(`ask_${name}`);
    task.receive(recorder.send());
    await ask(url, task, (vote) => votes.countOne(vote));
    const joined = task.send();
    task.end();
    return joined;
  };
  for (const joined of await Promise.all(Object.entries(urls).map(askApart))) recorder.receive(joined);
  recorder.event({ commits: Number(votes.decision === "commit") });
  recorder.end();
}

/** The same by strands: the recorder makes the processes, and the messages by which they begin and end. */
async function coordinateByStrands(urls) {
  const recorder = recorderOf("coordinator");
  const votes = new Votes();
  const askInStrand = ([name, url]) =>
    recorder.strand(`ask_${name}`, (task) => ask(url, task, (vote) => votes.countOne(vote)));
  await Promise.all(Object.entries(urls).map(askInStrand));
  recorder.event({ commits: Number(votes.decision === "commit") });
  recorder.end();
}

const ways = { "--apart": coordinateApart, "--strands": coordinateByStrands };
const urls = {};
for (const name of Object.keys(BANKS)) urls[name] = await bank(name, recorderOf(name));
await (ways[option] ?? coordinate)(urls);
