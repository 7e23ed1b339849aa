"use strict";
// What follows from the data alone: clocks, cuts, values, predicates, observations, finding. Nothing here touches the
// page, so that `node --test` runs it as it is. Processes and variables are numbered from 0, events from 1.

// ---- the run ----------------------------------------------------------------------------------------------------

// What a page has of a session that is refused without a run: nothing but its report and the explanation.
const NO_RUN = { width: 1, processes: [], initial: [], sources: [], events: [], messages: [], predicates: [],
                 answers: [] };

function readRun(given) {
  if (given.format !== 1) throw new Error("this page reads format 1, and the data says " + given.format);
  const data = given.refusal === undefined ? given : { ...NO_RUN, ...given };
  const { events } = data;
  const names = data.processes.map((process) => process.name);
  const run = {
    width: data.width,
    beyondWidth: data.beyond_width,
    refusal: data.refusal ?? null,
    link: data.link ?? null,
    wishes: [],     // read by `readWishes`
    notes: null,    // read by `Notes`, if the page has any
    size: names.length,
    names,
    sources: data.sources,
    counts: events.map((list) => list.length - 1),
    events,
    vars: data.processes.map((process, p) => readVars(process.vars, data.initial[p], events[p])),
  };
  run.eventCount = run.counts.reduce((sum, count) => sum + count, 0);
  giveMessages(run, data.messages);
  run.cycle = data.cycle === undefined ? null : linksOf(run, data.cycle);
  giveClocks(run);
  giveSpans(run);
  // What is shown: all events, or of these only some, closed up (`showOnly`).
  run.whole = { columns: run.columns, lastColumn: run.lastColumn, spans: run.spans, only: null,
                shown: run.columns.map((columns) => ({ events: null, columns })) };
  Object.assign(run, run.whole);
  run.places = placesOf(run);
  // Of a run that is refused no predicate is answered.
  run.predicates = run.cycle !== null ? [] : data.predicates.map((tree, k) => {
    const node = readPredicate(tree, names, run.vars);
    return { ...data.answers[k], node, text: node.text, refs: refsOf(node) };
  });
  return run;
}

// The line of event i of p in its process's file, and nothing if that isn't known.
function lineOf(run, p, i) {
  return String(run.sources[p][1][i - 1] ?? "");
}

// Where event i of p was recorded, in words.
function sourceOf(run, p, i) {
  const [file] = run.sources[p];
  const line = lineOf(run, p, i);
  return file === "" ? "not known: its stream can't be read again" : file + (line === "" ? "" : ", line " + line);
}

// Of each variable the events that set it, and what each gave it.
function readVars(names, initial, events) {
  const vars = names.map((name, v) => ({ name, initial: initial[v], at: [], values: [] }));
  for (let i = 1; i < events.length; i++) {
    for (let k = 1; k < events[i].length; k += 2) {
      const variable = vars[events[i][k]];
      variable.at.push(i);
      variable.values.push(events[i][k + 1]);
    }
  }
  return vars;
}

// The messages, one for each receipt, and after them those in flight, which go to process -1. An event that sends has
// its message's id in its first place. Of an event `messageAt` has a message, or -1, and of a message `next` has the
// next one of the same send: a send may have several receipts.
function giveMessages(run, pairs) {
  const flights = [];
  run.messageAt = run.counts.map((count) => new Int32Array(count + 1).fill(-1));
  pairs.forEach(([from, fromEvent, to, toEvent], m) => { run.messageAt[to][toEvent] = m; });
  const sent = run.counts.map((count) => new Uint8Array(count + 1));
  for (const [from, fromEvent] of pairs) sent[from][fromEvent] = 1;
  run.events.forEach((events, p) => {
    for (let i = 1; i < events.length; i++) {
      if (typeof events[i][0] === "string" && sent[p][i] === 0) flights.push([p, i, -1, 0]);
    }
  });
  const all = pairs.concat(flights);
  const length = all.length;
  const messages = { length, from: new Int32Array(length), fromEvent: new Int32Array(length),
                     to: new Int32Array(length), toEvent: new Int32Array(length), next: new Int32Array(length),
                     ids: new Array(length) };
  for (let m = length - 1; m >= 0; m--) {
    const [from, fromEvent, to, toEvent] = all[m];
    messages.from[m] = from;
    messages.fromEvent[m] = fromEvent;
    messages.to[m] = to;
    messages.toEvent[m] = toEvent;
    messages.ids[m] = run.events[from][fromEvent][0];
    messages.next[m] = run.messageAt[from][fromEvent];
    run.messageAt[from][fromEvent] = m;
  }
  run.messages = messages;
  run.inFlight = flights.length;
  run.received = sent.reduce((sum, list) => sum + list.reduce((count, is) => count + is, 0), 0);
}

// The messages that an event sends.
function sentBy(run, p, i) {
  const found = [];
  for (let m = run.messageAt[p][i]; m >= 0 && run.messages.from[m] === p && run.messages.fromEvent[m] === i;
       m = run.messages.next[m]) found.push(m);
  return found;
}

// A causal cycle goes back from each of its receipts to the send of the message, and along that process to the next
// receipt; from the last one to the first. Of each receipt its message, the send, and the receipt before that.
function linksOf(run, cycle) {
  const { from, fromEvent } = run.messages;
  return cycle.map(([p, i], k) => {
    const message = run.messageAt[p][i];
    const [q, j] = cycle[(k + 1) % cycle.length];
    return { message, receipt: { p, i }, send: { p: from[message], i: fromEvent[message] }, next: { p: q, i: j } };
  });
}

// The clock of event i of p has for each process q how many events of q happened before it, itself counted; it stands
// at clocks[p][i * size + q]. The column is the length of the longest chain that ends in the event. Where a cycle lets
// no event be next, one is placed without the message that it receives, of those of the cycle the first: that message's
// arrow points back. Clocks mean nothing then, and nobody asks for them.
function giveClocks(run) {
  const { size, counts, messages, messageAt } = run;
  run.clocks = counts.map((count) => new Uint32Array((count + 1) * size));
  run.columns = counts.map((count) => new Int32Array(count + 1));
  const done = new Array(size).fill(0);
  const loose = new Set();
  let left = run.eventCount;
  while (left > 0) {
    const before = left;
    for (let p = 0; p < size; p++) {
      const clocks = run.clocks[p];
      const columns = run.columns[p];
      while (done[p] < counts[p]) {
        const i = done[p] + 1;
        const m = messageAt[p][i];
        const isReceipt = m >= 0 && messages.to[m] === p && messages.toEvent[m] === i && !loose.has(m);
        const from = isReceipt ? messages.from[m] : -1;
        if (from >= 0 && done[from] < messages.fromEvent[m]) break;
        const base = i * size;
        clocks.copyWithin(base, base - size, base);
        let column = columns[i - 1];
        if (from >= 0) {
          const sent = messages.fromEvent[m];
          const other = run.clocks[from];
          for (let q = 0; q < size; q++) {
            if (other[sent * size + q] > clocks[base + q]) clocks[base + q] = other[sent * size + q];
          }
          if (run.columns[from][sent] > column) column = run.columns[from][sent];
        }
        clocks[base + p] = i;
        columns[i] = column + 1;
        done[p] = i;
        left--;
      }
    }
    if (left < before) continue;
    if (run.cycle === null) throw new Error("an event happens before itself");
    loose.add(waitingMessage(run, done));
  }
  run.lastColumn = Math.max(0, ...counts.map((count, p) => run.columns[p][count]));
}

// The message that a next event waits for, where each process waits: of those of the cycle the first, if there is one.
function waitingMessage(run, done) {
  const first = run.cycle.find(({ receipt: { p, i } }) => done[p] + 1 === i);
  if (first !== undefined) return first.message;
  const p = run.counts.findIndex((count, q) => done[q] < count);
  return run.messageAt[p][done[p] + 1];
}

// The messages by the column of their send, in blocks that know how far right they reach.
const SPAN_BLOCK = 64;
function giveSpans(run) {
  const { messages, columns } = run;
  const keys = new Float64Array(messages.length);
  for (let m = 0; m < messages.length; m++) {
    keys[m] = columns[messages.from[m]][messages.fromEvent[m]] * 2 ** 22 + m;
  }
  keys.sort();
  const order = new Int32Array(messages.length);
  const reach = new Int32Array(Math.ceil(messages.length / SPAN_BLOCK));
  for (let k = 0; k < keys.length; k++) {
    const m = keys[k] % 2 ** 22;
    order[k] = m;
    const block = Math.floor(k / SPAN_BLOCK);
    reach[block] = Math.max(reach[block], messageEnd(run, m));
  }
  run.spans = { order, reach };
}

function messageStart(run, m) {
  return run.columns[run.messages.from[m]][run.messages.fromEvent[m]];
}

function messageEnd(run, m) {
  const to = run.messages.to[m];
  return to < 0 ? messageStart(run, m) + 1 : run.columns[to][run.messages.toEvent[m]];
}

// The messages of which a part lies between these columns, and which are shown.
function messagesBetween(run, left, right) {
  const { order, reach } = run.spans;
  const found = [];
  for (let block = 0; block < reach.length; block++) {
    const first = block * SPAN_BLOCK;
    if (Math.floor(messageStart(run, order[first])) > right) break;
    if (reach[block] < left) continue;
    const end = Math.min(order.length, first + SPAN_BLOCK);
    for (let k = first; k < end; k++) {
      const m = order[k];
      if (run.only !== null && run.only.kept[m] === 0) continue;
      if (messageStart(run, m) > right) break;
      if (messageEnd(run, m) >= left) found.push(m);
    }
  }
  return found;
}

// How many of the first numbers of a rising list, from its place 1 on, are at most x.
function countUpTo(list, x) {
  let low = 0;
  let high = list.length - 1;
  while (low < high) {
    const middle = (low + high + 1) >> 1;
    if (list[middle] <= x) low = middle;
    else high = middle - 1;
  }
  return low;
}

// ---- cuts -------------------------------------------------------------------------------------------------------

function clockAt(run, p, i, q) {
  return run.clocks[p][i * run.size + q];
}

function levelOf(cut) {
  return cut.reduce((sum, count) => sum + count, 0);
}

function isCut(run, cut) {
  return cut.length === run.size &&
    cut.every((count, p) => Number.isInteger(count) && count >= 0 && count <= run.counts[p]);
}

function isConsistent(run, cut) {
  return cut.every((count, p) => cut.every((other, q) => clockAt(run, p, count, q) <= other));
}

// The least consistent cut that holds this one, which is consistent, and event i of p.
function including(run, cut, p, i) {
  return cut.map((count, q) => Math.max(count, clockAt(run, p, i, q)));
}

// The greatest consistent cut inside this one, which is consistent, without event i of p.
function excluding(run, cut, p, i) {
  return cut.map((count, q) => Math.min(count, firstFrom(run, p, i, q) - 1));
}

// The least event of q that event i of p is, or happened before; one more than its last, if there is none.
function firstFrom(run, p, i, q) {
  let low = 1;
  let high = run.counts[q] + 1;
  while (low < high) {
    const middle = (low + high) >> 1;
    if (clockAt(run, q, middle, p) >= i) high = middle;
    else low = middle + 1;
  }
  return low;
}

// The cut moved to `count` events of p: forward it takes in what happened before, backward it leaves out what depends.
// `forced` are the messages that made other processes move, one for each of them.
function moveTo(run, cut, p, count) {
  const target = Math.max(0, Math.min(run.counts[p], count));
  if (target === cut[p]) return { cut: cut.slice(), forced: [], direction: 0 };
  const forward = target > cut[p];
  const next = forward ? including(run, cut, p, target) : excluding(run, cut, p, target + 1);
  return { cut: next, forced: forcing(run, cut, next, p), direction: forward ? 1 : -1 };
}

function forcing(run, before, after, p) {
  const forced = [];
  const { to, toEvent } = run.messages;
  for (let q = 0; q < run.size; q++) {
    if (q === p || before[q] === after[q]) continue;
    // Forward, the last event that was taken in is a send, and a receipt of it was taken in too; backward, the first
    // that was left out is a receipt.
    const m = after[q] > before[q]
      ? sentBy(run, q, after[q]).find((sent) => to[sent] >= 0 && toEvent[sent] > before[to[sent]] &&
                                                toEvent[sent] <= after[to[sent]]) ?? -1
      : run.messageAt[q][after[q] + 1];
    if (m >= 0) forced.push(m);
  }
  return forced;
}

// Is event i of p before event j of q, or the same?
function isUpTo(run, p, i, q, j) {
  return clockAt(run, q, j, p) >= i;
}

// What lies before an event, after it and beside it: for each process how far its past and from where its future goes.
function coneOf(run, p, i) {
  const past = run.names.map((_, q) => clockAt(run, p, i, q) - (q === p ? 1 : 0));
  const future = run.names.map((_, q) => firstFrom(run, p, i, q) + (q === p ? 1 : 0));
  const before = levelOf(past);
  const after = future.reduce((sum, first, q) => sum + run.counts[q] - first + 1, 0);
  return { p, i, past, future, before, after, beside: run.eventCount - 1 - before - after };
}

// ---- values -----------------------------------------------------------------------------------------------------

// The event that gave variable v of p its value after `count` events of p, or 0 if it has the initial one.
function settingEvent(run, p, v, count) {
  const { at } = run.vars[p][v];
  const k = lastUpTo(at, count);
  return k < 0 ? 0 : at[k];
}

function valueAt(run, p, v, count) {
  const { at, values, initial } = run.vars[p][v];
  const k = lastUpTo(at, count);
  return k < 0 ? initial : values[k];
}

// The last place of a rising list with a number of at most x, or -1.
function lastUpTo(list, x) {
  let low = -1;
  let high = list.length - 1;
  while (low < high) {
    const middle = (low + high + 1) >> 1;
    if (list[middle] <= x) low = middle;
    else high = middle - 1;
  }
  return low;
}

function reader(run, cut) {
  return (p, v) => BigInt(valueAt(run, p, v, cut[p]));
}

// ---- predicates -------------------------------------------------------------------------------------------------

const RELATIONS = { equals: "==", differs: "!=", less: "<", "at most": "<=", greater: ">", "at least": ">=" };

// A predicate's tree, with its text: lists that begin with a word. A text has no more parentheses than it needs.
function readPredicate(tree, names, vars) {
  const [word, left, right] = tree;
  if (word === "true" || word === "false") return { kind: "constant", value: word === "true", text: word };
  if (word === "not") {
    const part = readPredicate(left, names, vars);
    return { kind: "not", part, text: "not " + within(part, ["constant", "compare", "not"]) };
  }
  if (word !== "and" && word !== "or") {
    const read = (sum) => sum.map(readTerm);
    const node = { kind: "compare", left: read(left), relation: RELATIONS[word], right: read(right) };
    node.text = termsText(node.left, names, vars) + " " + node.relation + " " + termsText(node.right, names, vars);
    return node;
  }
  const parts = [];
  let rest = tree;
  for (; rest[0] === word; rest = rest[1]) parts.push(rest[2]);
  parts.push(rest);
  const nodes = parts.reverse().map((part) => readPredicate(part, names, vars));
  const bare = ["constant", "compare", "not"].concat(word === "or" ? ["and"] : []);
  return { kind: word, parts: nodes, text: nodes.map((node) => within(node, bare)).join(" " + word + " ") };
}

function within(node, bare) {
  return bare.includes(node.kind) ? node.text : "(" + node.text + ")";
}

// After its sign a term has a number, or the process and the variable, or a number and these.
function readTerm([sign, ...fields]) {
  const factor = typeof fields[0] === "string" ? BigInt(fields.shift()) : null;
  return { sign: sign === "+" ? 1n : -1n, factor, ref: fields.length === 0 ? null : fields };
}

function termsText(terms, names, vars) {
  return terms.map(({ sign, factor, ref }, k) => {
    const name = ref === null ? null : names[ref[0]] + "." + vars[ref[0]][ref[1]].name;
    const text = [factor, name].filter((part) => part !== null).join(" * ");
    return (k === 0 ? (sign < 0n ? "-" : "") : sign < 0n ? " - " : " + ") + text;
  }).join("");
}

// The variables that a predicate names, each once.
function refsOf(node) {
  const refs = new Map();
  const visit = (each) => {
    for (const part of each.parts ?? (each.part === undefined ? [] : [each.part])) visit(part);
    for (const { ref } of [...(each.left ?? []), ...(each.right ?? [])]) {
      if (ref !== null) refs.set(ref.join(), ref);
    }
  };
  visit(node);
  return [...refs.values()];
}

// The processes that a predicate names.
function processesOf(refs) {
  return new Set(refs.map(([p]) => p));
}

function sumOf(terms, read) {
  let sum = 0n;
  for (const { sign, factor, ref } of terms) {
    sum += sign * (factor ?? 1n) * (ref === null ? 1n : read(...ref));
  }
  return sum;
}

function compare(left, relation, right) {
  switch (relation) {
    case "==": return left === right;
    case "!=": return left !== right;
    case "<": return left < right;
    case "<=": return left <= right;
    case ">": return left > right;
    default: return left >= right;
  }
}

function isTrue(node, read) {
  switch (node.kind) {
    case "constant": return node.value;
    case "compare": return compare(sumOf(node.left, read), node.relation, sumOf(node.right, read));
    case "not": return !isTrue(node.part, read);
    case "and": return node.parts.every((part) => isTrue(part, read));
    default: return node.parts.some((part) => isTrue(part, read));
  }
}

// The comparisons that decide: of an `and` that fails those that fail, of an `or` that holds those that hold. Each says
// whether it stands under an odd number of `not`.
function deciding(node, read, negated = false) {
  switch (node.kind) {
    case "constant": return [{ text: String(node.value), holds: node.value, negated, why: "" }];
    case "compare": return [comparison(node, read, negated)];
    case "not": return deciding(node.part, read, !negated);
    default: {
      const truth = isTrue(node, read);
      return node.parts.filter((part) => isTrue(part, read) === truth).flatMap((part) => deciding(part, read, negated));
    }
  }
}

const WORDS = {
  "==": ["equals", "isn't"], "!=": ["isn't", "equals"], "<": ["is below", "isn't below"],
  "<=": ["is at most", "is above"], ">": ["is above", "isn't above"], ">=": ["is at least", "is below"],
};

function comparison(node, read, negated) {
  const left = sumOf(node.left, read);
  const right = sumOf(node.right, read);
  const holds = compare(left, node.relation, right);
  const words = WORDS[node.relation][holds ? 0 : 1];
  return { text: node.text, holds, negated, why: sumText(node.left, left, read) + " " + words + " " +
                                                 sumText(node.right, right, read) };
}

function sumText(terms, sum, read) {
  if (terms.length === 1 && (terms[0].factor === null || terms[0].ref === null)) return String(sum);
  const text = terms.map(({ sign, factor, ref }, k) => {
    const value = ref === null ? null : read(...ref);
    const shown = value === null ? String(factor)
      : (factor === null ? "" : factor + " × ") + (value < 0n && (k > 0 || factor !== null || sign < 0n)
        ? "(" + value + ")" : value);
    return (k === 0 ? (sign < 0n ? "−" : "") : sign < 0n ? " − " : " + ") + shown;
  }).join("");
  return text + " = " + sum;
}

// ---- observations -----------------------------------------------------------------------------------------------

// An observation is a list of processes. Of each process the steps that add its events; its place 0 is no event's.
function stepsOf(run, path) {
  const steps = run.counts.map((count) => new Int32Array(count + 1));
  const done = new Array(run.size).fill(0);
  path.forEach((p, k) => { steps[p][++done[p]] = k + 1; });
  return steps;
}

function cutAtStep(steps, step) {
  return steps.map((list) => countUpTo(list, step));
}

// ---- finding ----------------------------------------------------------------------------------------------------

// The events that a query asks for, by column and process, each with the words that say why. A note is found by a part
// of it, unless a value or an event's number is asked for; by a part of its name anything else is found, if nothing has
// the query as its whole name.
function find(run, query) {
  const text = query.trim();
  if (text === "") return [];
  const hits = new Hits(run);
  const add = (p, i, why) => hits.add(p, i, why);
  const isAsked = findAsked(run, text, add);
  findNamed(run, text, add);
  const isNamed = hits.size > 0;
  if (text.length < 2 || (isAsked && isNamed)) return hits.inOrder();
  const part = text.toLowerCase();
  run.notes?.find(part, (p, i) => add(p, i, "by its note"));
  if (!isNamed) findParts(run, part, add);
  return hits.inOrder();
}

// Events that were found, each with the words that say why it was first. There may be some hundred thousand of them.
class Hits {
  constructor(run) {
    this.run = run;
    this.why = new Array(run.eventCount).fill(null);
    this.size = 0;
  }

  add(p, i, why) {
    if (i < 1 || i > this.run.counts[p]) return;
    const at = this.run.places.first[p] + i - 1;
    if (this.why[at] !== null) return;
    this.why[at] = why;
    this.size++;
  }

  inOrder() {
    const { first, process, order } = this.run.places;
    const found = [];
    for (const at of order) {
      const why = this.why[at];
      if (why !== null) found.push({ p: process[at], i: at - first[process[at]] + 1, why });
    }
    return found;
  }
}

// Of each process the place of its first event among all, of each place the process, and all places by column and
// process.
function placesOf(run) {
  const { columns } = run.whole;
  const first = [];
  const process = new Uint8Array(run.eventCount);
  const keys = new Float64Array(run.eventCount);
  let at = 0;
  run.counts.forEach((count, p) => {
    first.push(at);
    for (let i = 1; i <= count; i++, at++) {
      process[at] = p;
      keys[at] = columns[p][i] * 2 ** 24 + at;   // places rise with the process
    }
  });
  return { first, process, order: Uint32Array.from(keys.sort(), (key) => key % 2 ** 24) };
}

function addEvents(run, p, add) {
  for (let i = 1; i <= run.counts[p]; i++) add(p, i, "is an event of " + run.names[p]);
}

function addMessage({ messages: { ids, from, fromEvent, to, toEvent } }, m, add) {
  add(from[m], fromEvent[m], "sends " + ids[m]);
  if (to[m] >= 0) add(to[m], toEvent[m], "receives " + ids[m]);
}

// What is asked for by a value, or by an event's number. Is the query one of these?
function findAsked(run, text, add) {
  const asked = (name) => run.names.map((_, p) => p).filter((p) => name === undefined || run.names[p] === name);
  const value = /^(?:(\w+)\s*\.\s*)?(\w+)\s*(==|=|!=|<=|>=|<|>)\s*(-?\d+)$/.exec(text);
  if (value !== null) {
    const [, name, wanted, relation, number] = value;
    const bound = BigInt(number);
    const exactly = String(bound);
    const fits = relation === "=" || relation === "==" ? (each) => each === exactly
      : (each) => compare(BigInt(each), relation, bound);
    for (const p of asked(name)) {
      for (const variable of run.vars[p].filter((each) => each.name === wanted)) {
        variable.values.forEach((each, k) => {
          if (fits(each)) add(p, variable.at[k], "sets " + wanted + " to " + each);
        });
      }
    }
  }
  const event = /^(?:(\w+)\s*[# ]\s*|#)?(\d+)$/.exec(text);
  if (event !== null) {
    for (const p of asked(event[1])) add(p, Number(event[2]), "is event " + event[2]);
  }
  return value !== null || event !== null;
}

// What is called so: the events of a process, or the ends of a message.
function findNamed(run, text, add) {
  const process = run.names.indexOf(text);
  if (process >= 0) addEvents(run, process, add);
  const { ids } = run.messages;
  for (let m = ids.indexOf(text); m >= 0; m = ids.indexOf(text, m + 1)) addMessage(run, m, add);
}

// What has a text of small letters as a part of its name.
function findParts(run, part, add) {
  const has = (name) => name.toLowerCase().includes(part);
  run.names.forEach((name, p) => { if (has(name)) addEvents(run, p, add); });
  run.vars.forEach((vars, p) => vars.filter(({ name }) => has(name)).forEach(({ name, at, values }) => {
    at.forEach((i, k) => add(p, i, "sets " + name + " to " + values[k]));
  }));
  run.messages.ids.forEach((id, m) => { if (has(id)) addMessage(run, m, add); });
}

// ---- the address ------------------------------------------------------------------------------------------------

// cut=2,0,2&view=LEFT,SCALE&event=NAME.I&film=NAME.STEP, where LEFT is a column and SCALE the pixels of one; for a view
// of what matters only=NAME, of a predicate; for lanes that are moved or folded lanes=2,0,1 and folded=0,1.
function fragmentOf(run, state) {
  const parts = run.cycle === null ? ["cut=" + state.cut.join(",")] : [];
  parts.push("view=" + Number(state.view.left.toFixed(2)) + "," + Number(state.view.scale.toPrecision(5)));
  if (state.selected !== null) parts.push("event=" + run.names[state.selected.p] + "." + state.selected.i);
  if (state.film !== null) parts.push("film=" + run.predicates[state.film.k].name + "." + state.film.step);
  if (run.only !== null) parts.push("only=" + run.predicates[state.shown].name);
  if (state.order.some((p, place) => p !== place)) parts.push("lanes=" + state.order.join(","));
  const folded = state.order.filter((p) => state.folded[p]).sort((p, q) => p - q);
  if (folded.length > 0) parts.push("folded=" + folded.join(","));
  return parts.join("&");
}

function numbersOf(text) {
  return /^\d+(,\d+)*$/.test(text ?? "") ? text.split(",").map(Number) : [];
}

// Of a fragment the predicate of a view of what matters, the order of the lanes, and which of them are folded.
function readLanes(run, { only, lanes, folded }) {
  const order = numbersOf(lanes);
  const isOrder = order.length === run.size && run.names.every((_, p) => order.includes(p));
  const shut = numbersOf(folded);
  return { only: run.predicates.findIndex(({ name }) => name === only),
           order: isOrder ? order : [...run.names.keys()], folded: run.names.map((_, p) => shut.includes(p)) };
}

// What a fragment says, of it only what this run has.
function readFragment(run, fragment) {
  const given = Object.fromEntries(fragment.replace(/^#/, "").split("&").map((part) => {
    const equals = part.indexOf("=");
    return [part.slice(0, equals), part.slice(equals + 1)];
  }));
  const said = { cut: null, view: null, selected: null, film: null, ...readLanes(run, given) };
  const counts = numbersOf(given.cut);
  if (run.cycle === null && isCut(run, counts) && isConsistent(run, counts)) said.cut = counts;
  const [left, scale] = (given.view ?? "").split(",").map(Number);
  if (Number.isFinite(left) && scale > 0 && scale < 1e4) said.view = { left, scale };
  const [, process, number] = /^(\w+)\.(\d+)$/.exec(given.event ?? "") ?? [];
  const p = run.names.indexOf(process);
  if (p >= 0 && Number(number) >= 1 && Number(number) <= run.counts[p]) said.selected = { p, i: Number(number) };
  const [, name, step] = /^(\w+)\.(\d+)$/.exec(given.film ?? "") ?? [];
  const k = run.predicates.findIndex((each) => each.name === name && each.definitely[0] === "no");
  if (k >= 0 && Number(step) <= run.eventCount) said.film = { k, step: Number(step) };
  return said;
}

if (typeof module === "object") {
  module.exports = { readRun, messagesBetween, countUpTo, clockAt, levelOf, isCut, isConsistent, including, excluding,
                     firstFrom, moveTo, forcing, isUpTo, coneOf, settingEvent, valueAt, reader, readPredicate, isTrue,
                     deciding, stepsOf, cutAtStep, find, fragmentOf, readFragment, sentBy, lineOf, sourceOf,
                     processesOf, RELATIONS };
}
