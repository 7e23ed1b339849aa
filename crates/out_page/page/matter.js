"use strict";
// What matters to a predicate: the events that set a variable which it names, and the messages from which their order
// follows. A run shows either all of its events or only these, closed up. Nothing here touches the page.

// Of each process which events set one of these variables.
function settersOf(run, refs) {
  const flags = run.counts.map((count) => new Uint8Array(count + 1));
  for (const [p, v] of refs) {
    for (const i of run.vars[p][v].at) flags[p][i] = 1;
  }
  return flags;
}

// How many flags a list has.
function flagged(list) {
  let sum = 0;
  for (let i = 0; i < list.length; i++) sum += list[i];
  return sum;
}

// How many of the first i events of a process have a flag, for each i.
function flaggedUpTo(flags) {
  const sums = new Int32Array(flags.length);
  for (let i = 1; i < flags.length; i++) sums[i] = sums[i - 1] + flags[i];
  return sums;
}

// Has event j of q more events of p with a flag in its past than the event of q before it?
function learns(run, sums, p, q, j) {
  return sums[clockAt(run, q, j, p)] > sums[clockAt(run, q, j - 1, p)];
}

// The messages from which the order of the flagged events follows: by the receipt a process learns of a flagged event
// of another, p, and one of a process that isn't p is that receipt or comes after it. With the order along processes,
// these order the flagged events as all messages do.
function messagesThatTell(run, flags) {
  const { to, toEvent, length } = run.messages;
  const sums = flags.map(flaggedUpTo);
  const last = flags.map((list) => Math.max(0, list.lastIndexOf(1)));
  const setting = [...last.keys()].filter((p) => last[p] > 0);
  // For each of these processes and each q: the last event of q that is before a flagged one of another, or is one.
  const needed = setting.map((p) => run.names.map((_, q) =>
    Math.max(0, ...setting.filter((r) => r !== p).map((r) => clockAt(run, r, last[r], q)))));
  const tells = (q, j) => setting.some((p, k) => p !== q && j <= needed[k][q] && learns(run, sums[p], p, q, j));
  const kept = new Uint8Array(length);
  for (let m = 0; m < length; m++) {
    if (to[m] >= 0 && tells(to[m], toEvent[m])) kept[m] = 1;
  }
  return kept;
}

// For each process whether an event is shown: it has a flag, or is an end of a message that is kept.
function shownFlags(run, flags, kept) {
  const { from, fromEvent, to, toEvent } = run.messages;
  const shown = flags.map((list) => list.slice());
  for (let m = kept.indexOf(1); m >= 0; m = kept.indexOf(1, m + 1)) {
    shown[from[m]][fromEvent[m]] = shown[to[m]][toEvent[m]] = 1;
  }
  return shown;
}

// The columns that have a shown event, numbered from 1: for each column of the whole run how many there are up to it.
function ranksOf(run, shown) {
  const { columns, lastColumn } = run.whole;
  const has = new Uint8Array(lastColumn + 1);
  shown.forEach((list, p) => {
    for (let i = list.indexOf(1); i >= 0; i = list.indexOf(1, i + 1)) has[columns[p][i]] = 1;
  });
  return flaggedUpTo(has);
}

// A hidden event stands a quarter of a column right of the last shown column before it.
function closedUp(columns, shown, ranks) {
  const closed = new Float64Array(columns.length);
  for (let i = 1; i < columns.length; i++) closed[i] = ranks[columns[i]] + (shown[i] === 1 ? 0 : 0.25);
  return closed;
}

// What is shown of a lane: its events, after a place that is no event's, and their columns.
function shownOf(columns, shown) {
  const length = 1 + flagged(shown);
  const found = { events: new Int32Array(length), columns: new Float64Array(length) };
  let k = 0;
  for (let i = shown.indexOf(1); i >= 0; i = shown.indexOf(1, i + 1)) {
    k++;
    found.events[k] = i;
    found.columns[k] = columns[i];
  }
  return found;
}

// Lets a run show only what matters to a predicate with these variables.
function showOnly(run, refs) {
  const flags = settersOf(run, refs);
  const kept = messagesThatTell(run, flags);
  const shown = shownFlags(run, flags, kept);
  const ranks = ranksOf(run, shown);
  const { columns, lastColumn, spans } = run.whole;
  run.columns = columns.map((list, p) => closedUp(list, shown[p], ranks));
  run.lastColumn = ranks[lastColumn];
  run.spans = { order: spans.order, reach: spans.reach.map((column) => ranks[Math.min(column, lastColumn)] + 1) };
  run.shown = run.columns.map((list, p) => shownOf(list, shown[p]));
  run.only = { flags, kept, events: flags.reduce((sum, list) => sum + flagged(list), 0), messages: flagged(kept) };
}

// Lets a run show all of its events.
function showAll(run) {
  Object.assign(run, run.whole);
}

// The event at place k of what is shown of a lane.
function eventAt(shown, k) {
  return shown.events === null ? k : shown.events[k];
}

// Is an event one of those that are shown as a dot of the usual size?
function isFull(run, p, i) {
  return run.only === null || run.only.flags[p][i] === 1;
}

function isKept(run, m) {
  return run.only === null || run.only.kept[m] === 1;
}

if (typeof module === "object") {
  Object.assign(globalThis, require("./run.js"));   // on the page, scripts share their names
  module.exports = { showOnly, showAll, eventAt, isFull, isKept };
}
