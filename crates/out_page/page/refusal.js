"use strict";
// A session that is refused, but for a causal cycle: its report, where the fault is, and what to do. There is no run.

// What to do, by the first word after `refused`, or by that and the last one.
const MENDS = new Map(Object.entries({
  spec: "Mend the session's document.",
  predicate: "Mend the text of that predicate, in the document or after --ask.",
  streams: "Name the streams of one run: one file for each process of the document.",
  absent: "Name the stream of that process too, or take the process out of the document.",
  stream: "Look at that line of that stream: whatever wrote it is to be mended, and the run recorded again.",
  "stream unended": "The process ended, and its recording has no end. Have it end that as its last step; if it was " +
    "killed, monitor_mend ends its stream.",
  "stream taken": "Name each file once, and only those of one run.",
  "stream unknownprocess": "Name that process in the document, or leave its stream out.",
  "stream unknownvar": "Give the process that variable in the document, or don't record it.",
  sendtwice: "Give each message an id of its own, also if a process is started again.",
  orphan: "Record the process that sent the message too, or have monitor_mend make a local event of the receipt, by " +
    "--orphans-as-local.",
  selfmessage: "Record neither the send nor the receipt of a message that a process sends to itself.",
  receivedtwice: "Record the receipt once. If several processes receive the message, let the document say " +
    "\"version\":2.",
}));

function whatToMend(report) {
  const words = report.trim().split(/\s+/);
  const [, word] = words;
  return MENDS.get(word + " " + words[words.length - 1]) ?? MENDS.get(word) ?? "Look at what the report names.";
}

// A text of several lines, with escapes for what shows as no letter.
function plainLines(text) {
  return text.split("\n").map(plainText).join("\n");
}

async function copyRefusal([report, explanation]) {
  let words = "The report is copied.";
  try {
    await navigator.clipboard.writeText(plainLines(report.trimEnd() + "\n" + explanation));
  } catch {
    words = "The browser lets this page copy nothing.";
  }
  byId("refusal-said").textContent = words;
}

function showRefusal(run) {
  const [report, explanation] = run.refusal;
  document.documentElement.classList.add("refused");
  document.title = plainText(titleText(run));
  byId("verdict").textContent = "The session is refused";
  byId("verdict").className = "broken";
  byId("report").textContent = plainText(report.trim());
  byId("explanation").textContent = plainLines(explanation.trimEnd());
  byId("explanation").hidden = explanation.trim() === "";
  byId("mend").textContent = whatToMend(report);
  byId("refusal-copy").addEventListener("click", () => copyRefusal(run.refusal));
}

if (typeof module === "object") {
  Object.assign(globalThis, require("./notes.js"));   // on the page, scripts share their names
  module.exports = { whatToMend, plainLines };
}
