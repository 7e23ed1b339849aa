"use strict";
// Tests of the scripts that need no page: against all cuts of small runs, against judge, check and explore of the
// program, and on cases by hand. `MONITOR=PROGRAM EXAMPLES=FOLDER node --test run.test.js`; what needs the program is
// left out without it.
const { test } = require("node:test");
const assert = require("node:assert");
const { spawnSync } = require("node:child_process");
const fs = require("node:fs");
const os = require("node:os");
const path = require("node:path");
const script = require("./run.js");
const { parsePredicate, typedPredicate } = require("./predicate.js");
const { showOnly, showAll, eventAt } = require("./matter.js");
const { layOut, laneY, laneAt, placeAt, movedTo, withFirst } = require("./lanes.js");
const { escaped, paintOf } = require("./picture.js");
const { readRun, isConsistent, moveTo, valueAt, reader, readPredicate, isTrue, deciding, stepsOf, cutAtStep, find,
        fragmentOf, readFragment, coneOf, messagesBetween, sentBy, levelOf, lineOf, sourceOf } = script;

const MONITOR = process.env.MONITOR;
const EXAMPLES = process.env.EXAMPLES;
const needsProgram = { skip: MONITOR === undefined && "MONITOR isn't set" };

// ---- random sessions ----

// Numbers from 0 to below a bound, the same for one seed; the first ones of seeds that follow each other differ.
function random(seed) {
  let state = seed >>> 0;
  return (bound) => {
    state = (state + 0x6d2b79f5) >>> 0;
    let mixed = Math.imul(state ^ (state >>> 15), state | 1);
    mixed ^= mixed + Math.imul(mixed ^ (mixed >>> 7), mixed | 61);
    return Math.floor((((mixed ^ (mixed >>> 14)) >>> 0) / 2 ** 32) * bound);
  };
}

const VALUES = ["0", "1", "-1", "2", "9223372036854775807", "-9223372036854775808", "9007199254740993",
                "4611686018427387904"];

// A session; with `copies` a message may go to several processes, as in version 2 of the document.
function session(chance, size, most, copies = false) {
  const processes = Array.from({ length: size }, (_, p) => ({
    name: "p" + p, vars: Object.fromEntries(["x", "y"].slice(0, 1 + chance(2)).map((v) => [v, VALUES[chance(4)]])),
  }));
  const streams = processes.map(({ name }) => [`{"process":"${name}"}`]);
  const flying = processes.map(() => []);
  let sent = 0;
  for (let k = 0; k < most; k++) {
    const p = chance(size);
    const parts = [];
    if (flying[p].length > 0 && chance(3) > 0) {
      parts.push(`"recv":"${flying[p].splice(chance(flying[p].length), 1)[0]}"`);
    } else if (size > 1 && chance(2) === 0) {
      const to = (p + 1 + chance(size - 1)) % size;
      parts.push(`"send":"m${sent}"`);
      flying.forEach((list, q) => { if (q === to || (copies && q !== p && chance(2) === 0)) list.push("m" + sent); });
      sent++;
    }
    if (chance(2) === 0) {
      const names = Object.keys(processes[p].vars).reverse();
      const some = chance(2) === 0 ? names : [names[chance(names.length)]];
      parts.push(`"set":{${some.map((name) => `"${name}":${VALUES[chance(VALUES.length)]}`).join()}}`);
    }
    if (chance(6) === 0) streams[p].push(" \t");
    streams[p].push("{" + parts.join(",") + "}");
  }
  return { processes, streams, version: copies ? 2 : 1 };
}

function documentOf({ processes, version }, predicates) {
  const all = processes.map(({ name, vars }) =>
    `{"name":"${name}","vars":{${Object.entries(vars).map(([v, value]) => `"${v}":${value}`).join(",")}}}`);
  const asked = predicates.map(({ text }, k) => JSON.stringify({ name: "q" + k, text }));
  return `{"processes":[${all.join(",")}],"predicates":[${asked.join(",")}],"width":65536,"version":${version}}`;
}

// The data of a page, but for its answers, made in a way that shares nothing with the program.
function dataOf({ processes, streams }, predicates) {
  const data = { format: 1, width: 65536, beyond_width: false, processes: [], initial: [], sources: [], events: [],
                 messages: [], predicates: predicates.map(({ tree }) => tree), answers: [] };
  const sends = new Map();
  const receipts = [];
  processes.forEach(({ name, vars }, p) => {
    const names = Object.keys(vars).sort();
    const events = [0];
    const lines = [];
    streams[p].forEach((line, at) => {
      if (at === 0 || line.trim() === "") return;
      lines.push(at + 1);
      const { send, recv } = JSON.parse(line);
      const row = [send ?? (recv === undefined ? 0 : 1)];
      const set = /"set":\{(.*?)\}/.exec(line)?.[1] ?? "";
      const settings = [...set.matchAll(/"(\w+)":(-?\d+)/g)].map(([, v, value]) => [names.indexOf(v), value]);
      row.push(...settings.sort(([v], [w]) => v - w).flat());
      if (send !== undefined) sends.set(send, [p, events.length]);
      if (recv !== undefined) receipts.push([recv, p, events.length]);
      events.push(row);
    });
    data.processes.push({ name, vars: names });
    data.initial.push(names.map((v) => vars[v]));
    data.events.push(events);
    data.sources.push([path.join(folder, "s" + p), lines]);
  });
  data.messages = receipts.map(([id, ...place]) => [...sends.get(id), ...place]);
  data.answers = predicates.map((_, k) => ({ name: "q" + k, possibly: ["no"], definitely: ["yes", 0] }));
  return data;
}

const COMPARISONS = [["==", "equals"], ["!=", "differs"], [" < ", "less"], ["<=", "at most"], [" > ", "greater"],
                     [">= ", "at least"]];

// A predicate, as its text and as the tree that the data is to have.
function predicateOf(chance, processes, depth = 0) {
  const ref = () => {
    const p = chance(processes.length);
    const names = Object.keys(processes[p].vars);
    const name = names[chance(names.length)];
    return { text: processes[p].name + "." + name, tree: [p, names.sort().indexOf(name)] };
  };
  const number = () => {
    const text = ["0", "1", "2", "9223372036854775807", "9007199254740992"][chance(5)];
    return { text, tree: [text] };
  };
  const product = () => {
    const factor = ["0", "2", "2147483647"][chance(3)];
    const of = ref();
    return { text: factor + (chance(2) ? "*" : " * ") + of.text, tree: [factor, ...of.tree] };
  };
  const sum = () => {
    const sign = chance(4) === 0 ? "-" : "+";
    const joint = chance(2) ? "+" : "-";
    const terms = Array.from({ length: 1 + chance(3) }, () => [ref, ref, number, product][chance(4)]());
    return { text: (sign === "-" ? "-" : "") + terms.map(({ text }) => text).join(" " + joint + " "),
             tree: terms.map(({ tree }, k) => [k === 0 ? sign : joint, ...tree]) };
  };
  const kind = depth > 3 ? 0 : chance(6);
  const inner = () => predicateOf(chance, processes, depth + 1);
  if (kind <= 2) {
    const [left, right, [sign, word]] = [sum(), sum(), COMPARISONS[chance(6)]];
    return { text: left.text + sign + right.text, tree: [word, left.tree, right.tree] };
  }
  const part = inner();
  if (kind === 3) {
    return chance(2) ? { text: "not (" + part.text + ")", tree: ["not", part.tree] }
      : { text: "not not (" + part.text + ")", tree: ["not", ["not", part.tree]] };
  }
  const word = kind === 4 ? "and" : "or";
  const other = chance(8) ? inner() : { text: "true", tree: ["true"] };
  return { text: "(" + part.text + ") " + word + " (" + other.text + ")", tree: [word, part.tree, other.tree] };
}

function* cuts(counts) {
  const cut = counts.map(() => 0);
  for (;;) {
    yield cut.slice();
    let p = counts.length - 1;
    while (p >= 0 && cut[p] === counts[p]) cut[p--] = 0;
    if (p < 0) return;
    cut[p]++;
  }
}

// By the definition: a cut has, with a receipt, the send.
function holdsItsSends(data, cut) {
  return data.messages.every(([p, i, q, j]) => j > cut[q] || i <= cut[p]);
}

const folder = fs.mkdtempSync(path.join(os.tmpdir(), "explore-"));
test.after(() => fs.rmSync(folder, { recursive: true }));

function write(made, predicates) {
  const spec = path.join(folder, "session.json");
  fs.writeFileSync(spec, documentOf(made, predicates));
  const streams = made.streams.map((lines, p) => {
    const name = path.join(folder, "s" + p);
    fs.writeFileSync(name, [...lines, '{"end":true}', ""].join("\n"));
    return name;
  });
  return { spec, streams };
}

function monitor(...words) {
  return spawnSync(MONITOR, words, { encoding: "utf8", maxBuffer: 2 ** 28 }).stdout;
}

// The data of the page that the program writes.
function explored(spec, streams) {
  const page = monitor("explore", spec, ...streams);
  if (page.startsWith("refused")) return null;
  const data = /<script type="application\/json" id="data">([\s\S]*?)<\/script>/.exec(page)[1];
  assert.doesNotMatch(data, /</);
  return JSON.parse(data);
}

// ---- the tests ----

test("consistency, moves and cones agree with the definition on all cuts of small runs", () => {
  let seen = 0;
  for (let seed = 1; seed <= 120; seed++) {
    const chance = random(seed);
    const made = session(chance, 2 + chance(3), 4 + chance(10), seed % 2 === 0);
    const data = dataOf(made, []);
    const run = readRun(data);
    const good = [];
    for (const cut of cuts(run.counts)) {
      seen++;
      assert.equal(isConsistent(run, cut), holdsItsSends(data, cut));
      if (holdsItsSends(data, cut)) good.push(cut);
    }
    const inside = (a, b) => a.every((count, p) => count <= b[p]);
    for (let k = 0; k < 30; k++) {
      const cut = good[chance(good.length)];
      const p = chance(run.size);
      const count = chance(run.counts[p] + 1);
      const moved = moveTo(run, cut, p, count);
      const wanted = count >= cut[p] ? good.filter((each) => inside(cut, each) && each[p] >= count)
        : good.filter((each) => inside(each, cut) && each[p] <= count);
      assert.ok(wanted.some((each) => String(each) === String(moved.cut)));
      assert.ok(wanted.every((each) => (count >= cut[p] ? inside(moved.cut, each) : inside(each, moved.cut))));
      const others = run.names.filter((_, q) => q !== p && moved.cut[q] !== cut[q]).length;
      assert.equal(moved.forced.length, others);
      for (const m of moved.forced) {
        const { from, fromEvent, to, toEvent } = run.messages;
        const [low, high] = count >= cut[p] ? [cut, moved.cut] : [moved.cut, cut];
        assert.ok(low[from[m]] < fromEvent[m] && fromEvent[m] <= high[from[m]]);
        assert.ok(low[to[m]] < toEvent[m] && toEvent[m] <= high[to[m]]);
      }
      if (run.counts[p] === 0) continue;
      const i = 1 + chance(run.counts[p]);
      const cone = coneOf(run, p, i);
      run.names.forEach((_, q) => {
        for (let j = 1; j <= run.counts[q]; j++) {
          // an event is before another if each consistent cut with the other has it
          const before = good.every((each) => each[p] < i || each[q] >= j) && !(p === q && i === j);
          const after = good.every((each) => each[q] < j || each[p] >= i) && !(p === q && i === j);
          assert.equal(j <= cone.past[q], before);
          assert.equal(j >= cone.future[q], after);
        }
      });
      assert.equal(cone.before + cone.after + cone.beside + 1, run.eventCount);
    }
  }
  console.log(`  ${seen} cuts`);
});

test("columns stand right of all that happened before, and the messages in view are those that cross it", () => {
  for (let seed = 1; seed <= 20; seed++) {
    const chance = random(seed);
    const data = dataOf(session(chance, 4, 300), []);
    const run = readRun(data);
    data.messages.forEach(([p, i, q, j]) => assert.ok(run.columns[p][i] < run.columns[q][j]));
    for (let k = 0; k < 20; k++) {
      const left = chance(run.lastColumn);
      const right = left + chance(20);
      const wanted = [];
      for (let m = 0; m < run.messages.length; m++) {
        const { from, fromEvent, to, toEvent } = run.messages;
        const start = run.columns[from[m]][fromEvent[m]];
        const end = to[m] < 0 ? start + 1 : run.columns[to[m]][toEvent[m]];
        if (start <= right && end >= left) wanted.push(m);
      }
      assert.deepEqual(messagesBetween(run, left, right).sort((a, b) => a - b), wanted);
    }
  }
});

// Which events with a flag are before which, by the order along each process and these messages alone.
function orderOf(run, flags, messages) {
  const { from, fromEvent, to, toEvent } = run.messages;
  const pasts = run.counts.map((count) => Array.from({ length: count + 1 }, () => new Set()));
  const places = run.counts.flatMap((count, p) => Array.from({ length: count }, (_, i) => ({ p, i: i + 1 })));
  places.sort((a, b) => run.whole.columns[a.p][a.i] - run.whole.columns[b.p][b.i]);
  for (const { p, i } of places) {
    const take = (q, j) => {
      for (const each of pasts[q][j]) pasts[p][i].add(each);
      if (flags[q][j] === 1) pasts[p][i].add(q + "#" + j);
    };
    take(p, i - 1);
    messages.filter((m) => to[m] === p && toEvent[m] === i).forEach((m) => take(from[m], fromEvent[m]));
  }
  return places.filter(({ p, i }) => flags[p][i] === 1).map(({ p, i }) => [p, i, ...[...pasts[p][i]].sort()].join());
}

test("what matters are the events that set what is named, in the order that they had", () => {
  let [events, messages, dropped] = [0, 0, 0];
  for (let seed = 1; seed <= 80; seed++) {
    const chance = random(seed);
    const run = readRun(dataOf(session(chance, 2 + chance(4), 80, seed % 2 === 0), []));
    const all = [...run.messages.ids.keys()];
    const refs = run.names.map((_, p) => [p, 0]).filter(() => chance(2) === 0);
    showOnly(run, refs);
    const { flags, kept } = run.only;
    const sets = (p, i) => refs.some(([q, v]) => p === q && run.vars[p][v].at.includes(i));
    flags.forEach((list, p) => list.forEach((is, i) => assert.equal(is === 1, i > 0 && sets(p, i))));
    assert.deepEqual(orderOf(run, flags, all.filter((m) => kept[m] === 1)), orderOf(run, flags, all));
    events += run.only.events;
    messages += run.only.messages;
    dropped += all.length - run.only.messages;
  }
  assert.ok(messages > 300 && dropped > 300, messages + " and " + dropped);
  console.log(`  ${events} events, ${messages} messages kept, ${dropped} hidden`);
});

test("a run that is closed up has its shown events, messages and cuts in their order, and is opened again", () => {
  for (let seed = 1; seed <= 40; seed++) {
    const chance = random(seed);
    const run = readRun(dataOf(session(chance, 2 + chance(4), 120, seed % 2 === 0), []));
    const { columns } = run;
    showOnly(run, [[0, 0], [1, 0]]);
    const { from, fromEvent, to, toEvent } = run.messages;
    const kept = [...run.messages.ids.keys()].filter((m) => run.only.kept[m] === 1);
    for (const m of kept) assert.ok(run.columns[from[m]][fromEvent[m]] < run.columns[to[m]][toEvent[m]]);
    run.shown.forEach((shown, p) => {
      let before = 0;
      for (let k = 1; k < shown.columns.length; k++) {
        assert.equal(shown.columns[k], run.columns[p][eventAt(shown, k)]);
        assert.ok(Number.isInteger(shown.columns[k]) && shown.columns[k] > shown.columns[k - 1]);
        // A cut crosses the lane left of each shown event that it hasn't, and right of each that it has.
        for (let i = before; i < eventAt(shown, k); i++) assert.ok(run.columns[p][i] + 0.5 < shown.columns[k]);
        before = eventAt(shown, k);
      }
      for (let i = 1; i <= run.counts[p]; i++) assert.ok(run.columns[p][i] >= run.columns[p][i - 1]);
    });
    for (let k = 0; k < 20; k++) {
      const [left, right] = [chance(run.lastColumn + 1), chance(run.lastColumn + 1)].sort((a, b) => a - b);
      const wanted = kept.filter((m) => run.columns[from[m]][fromEvent[m]] <= right &&
                                        run.columns[to[m]][toEvent[m]] >= left);
      assert.deepEqual(messagesBetween(run, left, right).sort((a, b) => a - b), wanted);
    }
    showAll(run);
    assert.ok(run.columns === columns && run.only === null);
  }
});

test("lanes are moved and folded", () => {
  assert.deepEqual(movedTo([0, 1, 2, 3], 3, 1), [0, 3, 1, 2]);
  assert.deepEqual(movedTo([0, 1, 2, 3], 0, 3), [1, 2, 3, 0]);
  assert.deepEqual(withFirst([3, 1, 0, 2], new Set([0, 3])), [3, 0, 1, 2]);
  const size = { top: 0 };
  layOut(size, { order: [2, 0, 1], folded: [false, true, false] }, 180);
  assert.deepEqual([size.heights, size.tops, size.height], [[80, 20, 80], [80, 160, 0], 190]);
  assert.deepEqual([0, 79, 80, 160, 179, 180].map((y) => laneAt(size, y)), [2, 2, 0, 1, 1, -1]);
  for (const p of [0, 1, 2]) assert.equal(placeAt(size, p, laneY(size, p)), size.order.indexOf(p), "it stays");
  assert.deepEqual([-9, 49, 51, 129, 131, 999].map((y) => placeAt(size, 1, y)), [0, 0, 1, 1, 2, 2]);
  for (const y of [30, 41, 100, 130]) {
    const order = movedTo(size.order, 1, placeAt(size, 1, y));
    const moved = { top: 0 };
    layOut(moved, { order, folded: size.folded }, 180);
    assert.equal(placeAt(moved, 1, y), placeAt(size, 1, y), "and doesn't go to and fro");
  }
  layOut(size, { order: [0, 1], folded: [true, true] }, 180);
  assert.equal(size.height, 50);
});

test("texts and colours of a drawing are what SVG takes", () => {
  assert.equal(escaped("<a b=\"1\" c='2'>&\u0000\ud800😀"), "&lt;a b=&quot;1&quot; c=&#39;2&#39;&gt;&amp;??😀");
  assert.equal(paintOf("fill", "#d55e00"), " fill=\"#d55e00\"");
  assert.equal(paintOf("stroke", "#d55e0080"), " stroke=\"#d55e00\" stroke-opacity=\"0.5\"");
  assert.equal(paintOf("fill", "url(#hatch)"), " fill=\"url(#hatch)\"");
});

test("values are what the last event of the process gave", () => {
  for (let seed = 1; seed <= 40; seed++) {
    const chance = random(seed);
    const made = session(chance, 3, 60);
    const data = dataOf(made, []);
    const run = readRun(data);
    data.events.forEach((events, p) => {
      const now = data.initial[p].slice();
      for (let i = 0; i <= run.counts[p]; i++) {
        if (i > 0) events[i].slice(1).forEach((value, k, all) => { if (k % 2 === 1) now[all[k - 1]] = value; });
        now.forEach((value, v) => assert.equal(valueAt(run, p, v, i), value));
      }
    });
  }
});

test("sums are those of whole numbers, however large, and texts have the parentheses that they need", () => {
  const names = ["a"];
  const vars = [[{ name: "x" }, { name: "y" }]];
  const values = [2n ** 63n - 1n, -(2n ** 63n)];
  const read = (tree) => readPredicate(tree, names, vars);
  const truth = (tree) => isTrue(read(tree), (p, v) => values[v]);
  const x = ["+", 0, 0];
  const y = ["+", 0, 1];
  assert.equal(truth(["equals", [x, x], [["+", "9223372036854775807"], ["+", "9223372036854775807"]]]), true);
  assert.equal(truth(["greater", [x, ["+", "1"]], [x]]), true);
  assert.equal(truth(["equals", [x, y], [["-", "1"]]]), true);
  assert.equal(truth(["equals", [["+", "2147483647", 0, 0], ["-", "2147483646", 0, 0]], [x]]), true);
  assert.equal(truth(["equals", [x], [["+", "9223372036854775806"]]]), false);
  const less = ["less", [x, ["+", "2", 0, 1]], [["-", "1"]]];
  const node = read(["and", ["and", less, ["or", ["not", less], ["true"]]], ["or", ["false"], ["and", less, less]]]);
  assert.equal(node.text, "a.x + 2 * a.y < -1 and (not a.x + 2 * a.y < -1 or true) and " +
    "(false or a.x + 2 * a.y < -1 and a.x + 2 * a.y < -1)");
  assert.equal(read(["and", ["and", less, ["true"]], ["and", ["true"], ["false"]]]).text,
    "a.x + 2 * a.y < -1 and true and (true and false)");
  assert.equal(read(["not", ["not", ["and", less, less]]]).text,
    "not not (a.x + 2 * a.y < -1 and a.x + 2 * a.y < -1)");
  assert.deepEqual(deciding(read(["and", ["less", [x, y], [["+", "1"]]], ["less", [x], [["+", "0"]]]]),
    (p, v) => values[v]),
    [{ text: "a.x < 0", holds: false, negated: false, why: "9223372036854775807 isn't below 0" }]);
});

test("the data is that of the session, each event, message and value of it", needsProgram, () => {
  let events = 0;
  for (let seed = 1; seed <= 60; seed++) {
    const chance = random(5000 + seed);
    const made = session(chance, 1 + chance(5), 40, seed % 2 === 0);
    const predicates = Array.from({ length: 8 }, () => predicateOf(chance, made.processes));
    const { spec, streams } = write(made, predicates);
    const { answers, wishes = [], notes = [], link = null, ...data } = explored(spec, streams);
    assert.deepEqual([wishes, notes, link], [[], [], null]);
    const { answers: none, ...wanted } = dataOf(made, predicates);
    assert.deepEqual(data, wanted);
    const report = monitor("judge", spec, ...streams).trimEnd().split("\n").slice(1);
    const words = answers.flatMap(({ name, possibly, definitely }) => [`${name} possibly ${possibly.join(" ")}`,
      `${name} definitely ${definitely[0]} ` + (definitely[0] !== "no" ? definitely[1]
        : definitely[1].map((p) => made.processes[p].name).join() || "-")]);
    assert.deepEqual(words, report);
    events += readRun({ ...data, answers }).eventCount;
  }
  console.log(`  ${events} events`);
});

test("where an event was recorded is said as far as it is known", () => {
  const data = dataOf(session(random(7), 3, 30), []);
  const [[file, lines]] = data.sources;
  assert.equal(sourceOf(readRun(data), 0, 2), file + ", line " + lines[1]);
  data.sources[0] = [file, lines.slice(0, 1)];
  data.sources[1] = ["", []];
  const run = readRun(data);
  assert.equal(lineOf(run, 0, 1), String(lines[0]));
  assert.equal(lineOf(run, 0, 2), "");
  assert.equal(sourceOf(run, 0, 2), file);
  assert.equal(sourceOf(run, 1, 1), "not known: its stream can't be read again");
});

test("a send's messages are those that have it", () => {
  for (let seed = 1; seed <= 20; seed++) {
    const data = dataOf(session(random(seed), 4, 60, true), []);
    const run = readRun(data);
    const { to, toEvent } = run.messages;
    data.events.forEach((events, p) => {
      for (let i = 1; i < events.length; i++) {
        const wanted = data.messages.filter(([q, j]) => q === p && j === i).map(([, , ...end]) => end);
        const given = sentBy(run, p, i).filter((m) => to[m] >= 0).map((m) => [to[m], toEvent[m]]);
        assert.deepEqual(given, wanted);
        assert.equal(sentBy(run, p, i).length, typeof events[i][0] === "string" ? Math.max(1, wanted.length) : 0);
      }
    });
  }
});

test("predicates hold at the cuts of random sessions where check says so", needsProgram, () => {
  let asked = 0;
  let good = 0;
  for (let seed = 1; seed <= 150; seed++) {
    const chance = random(seed);
    const made = session(chance, 1 + chance(4), 12);
    const predicates = Array.from({ length: 16 }, () => predicateOf(chance, made.processes));
    const data = dataOf(made, predicates);
    const run = readRun(data);
    const { spec, streams } = write(made, predicates);
    for (let k = 0; k < 4; k++) {
      // check is asked of 16 cuts at once, one for each predicate, consistent or not
      const some = predicates.map(() => run.counts.map((count) => chance(count + 1)));
      const report = path.join(folder, "report");
      fs.writeFileSync(report, [`session ${run.size} processes ${run.eventCount} events ${run.received} messages`,
        ...some.flatMap((cut, q) => [`q${q} possibly yes ${cut}`, `q${q} definitely unknown 0`]), ""].join("\n"));
      const told = monitor("check", spec, report, ...streams).split("\n");
      assert.equal(told[0], "session good");
      some.forEach((cut, q) => {
        const ours = isConsistent(run, cut) && isTrue(run.predicates[q].node, reader(run, cut));
        assert.equal(told[1 + 2 * q], `q${q} possibly ${ours ? "good" : "bad"}`, predicates[q].text + " at " + cut);
        asked++;
        if (ours) good++;
      });
    }
  }
  console.log(`  ${asked} cuts with a predicate each, ${good} of them good`);
});

test("what judge answers is what all consistent cuts and observations say", needsProgram, () => {
  let answers = 0;
  for (let seed = 1; seed <= 120; seed++) {
    const chance = random(1000 + seed);
    const made = session(chance, 1 + chance(4), 3 + chance(9));
    const predicates = Array.from({ length: 12 }, () => predicateOf(chance, made.processes));
    const run = readRun(dataOf(made, predicates));
    const { spec, streams } = write(made, predicates);
    const report = monitor("judge", spec, ...streams).split("\n");
    const good = [...cuts(run.counts)].filter((cut) => isConsistent(run, cut));
    predicates.forEach(({ text }, q) => {
      const { node } = run.predicates[q];
      const levels = [];
      for (const cut of good) (levels[levelOf(cut)] ??= []).push(cut);
      const first = levels.flat().find((cut) => isTrue(node, reader(run, cut)));
      assert.equal(report[1 + 2 * q], `q${q} possibly ` + (first === undefined ? "no" : "yes " + first), text);
      let avoiding = levels[0].filter((cut) => !isTrue(node, reader(run, cut)));
      let level = 0;
      while (avoiding.length > 0 && level < run.eventCount) {
        level++;
        const before = new Set(avoiding.map(String));
        avoiding = levels[level].filter((cut) => !isTrue(node, reader(run, cut)) && cut.some((count, p) =>
          count > 0 && before.has(String(cut.map((other, r) => other - (r === p ? 1 : 0))))));
      }
      const line = report[2 + 2 * q];
      if (avoiding.length === 0) assert.equal(line, `q${q} definitely yes ${level}`, text);
      else {
        assert.ok(line.startsWith(`q${q} definitely no `), text);
        const named = line.split(" ")[3];
        const steps = stepsOf(run, named === "-" ? [] : named.split(",").map((name) => run.names.indexOf(name)));
        for (let step = 0; step <= run.eventCount; step++) {
          const cut = cutAtStep(steps, step);
          assert.equal(levelOf(cut), step);
          assert.ok(isConsistent(run, cut) && !isTrue(node, reader(run, cut)));
        }
      }
      answers += 2;
    });
  }
  console.log(`  ${answers} answers`);
});

const needsExamples = { skip: (MONITOR === undefined || EXAMPLES === undefined) && "MONITOR or EXAMPLES isn't set" };

test("what the examples' reports show is what the page would say of it", needsExamples, () => {
  let shown = 0;
  for (const name of fs.readdirSync(EXAMPLES)) {
    const here = path.join(EXAMPLES, name);
    if (!fs.existsSync(path.join(here, "report")) || name.startsWith("refused")) continue;
    const streams = fs.readdirSync(here).filter((file) => file.endsWith(".stream"))
      .map((file) => path.join(here, file));
    const run = readRun(explored(path.join(here, "session.json"), streams));
    for (const { node, possibly, definitely } of run.predicates) {
      if (possibly[0] === "yes") {
        assert.ok(isConsistent(run, possibly[1]) && isTrue(node, reader(run, possibly[1])));
        shown++;
      }
      if (definitely[0] !== "no") continue;
      const steps = stepsOf(run, definitely[1]);
      for (let step = 0; step <= run.eventCount; step++) {
        const cut = cutAtStep(steps, step);
        assert.ok(isConsistent(run, cut) && !isTrue(node, reader(run, cut)));
      }
      shown++;
    }
  }
  assert.ok(shown > 10);
  console.log(`  ${shown} pieces of evidence`);
});

test("no text can end its element, whatever the ids", needsProgram, () => {
  const nasty = ["</script><script>alert(1)</script>", "<!--<script>", "-->", "]]>", "\u2028\u2029",
                 "\"\\\n\t\u0000\u007f", "é字😀", "&lt;"];
  const made = { version: 1, processes: [{ name: "a", vars: { x: "9007199254740993" } }, { name: "b", vars: {} }],
    streams: [['{"process":"a"}', ...nasty.map((id) => JSON.stringify({ send: id }))], ['{"process":"b"}']] };
  const { spec, streams } = write(made, [{ text: "a.x < 5" }]);
  const run = readRun(explored(spec, streams));
  assert.deepEqual([...run.messages.ids], nasty);
  assert.equal(valueAt(run, 0, 0, 0), "9007199254740993");
  assert.equal(run.predicates[0].text, "a.x < 5");
});

test("finding, and the address", () => {
  const made = { processes: [{ name: "a", vars: { x: "0" } }, { name: "b", vars: { x: "0", y: "0" } }],
    streams: [['{"process":"a"}', '{"set":{"x":3}}', '{"send":"m1"}', '{"send":"m12"}'],
              ['{"process":"b"}', "", '{"recv":"m1","set":{"x":3}}', '{"set":{"y":-4}}']] };
  const run = readRun(dataOf(made, [{ tree: ["equals", [["+", 0, 0]], [["+", "3"]]] }]));
  const places = (query) => find(run, query).map(({ p, i }) => run.names[p] + i).join(" ");
  assert.equal(places("x = 3"), "a1 b1");
  assert.equal(places("x==3"), "a1 b1");
  assert.equal(places("a.x = 3"), "a1");
  assert.equal(places("y < 0"), "b2");
  assert.equal(places("y = -4"), "b2");
  assert.equal(places("m1"), "a2 b1");
  assert.equal(places("m"), "");
  assert.equal(places("12"), "a3", "a part of an id, if nothing else is meant");
  assert.equal(places("b"), "b1 b2");
  assert.equal(places("b#2"), "b2");
  assert.equal(places("b 2"), "b2");
  assert.equal(places("2"), "a2 b2");
  assert.equal(places("z = 1"), "");
  assert.equal(places("  "), "");
  const plain = { only: -1, order: [0, 1], folded: [false, false] };
  const state = { ...plain, cut: [2, 1], view: { left: 0.25, scale: 40 }, selected: { p: 1, i: 2 }, film: null };
  assert.equal(fragmentOf(run, state), "cut=2,1&view=0.25,40&event=b.2");
  assert.deepEqual(readFragment(run, "#" + fragmentOf(run, state)), state);
  assert.equal(readFragment(run, "#cut=0,1").cut, null, "an inconsistent cut isn't taken");
  const moved = { ...state, only: 0, order: [1, 0], folded: [true, false], shown: 0 };
  showOnly(run, run.predicates[0].refs);
  assert.equal(fragmentOf(run, moved), "cut=2,1&view=0.25,40&event=b.2&only=q0&lanes=1,0&folded=0");
  assert.deepEqual({ ...readFragment(run, fragmentOf(run, moved)), shown: 0 }, moved);
  for (const bad of ["", "#", "#cut=", "#cut=9,9", "#cut=1", "#cut=-1,0", "#event=b.9&film=q0.1&view=a,b",
                     "#view=0,-1", "#%%%", "#only=z&lanes=0,0&folded=7", "#lanes=0,1,1", "#lanes=1"]) {
    assert.deepEqual(readFragment(run, bad), { ...plain, cut: null, view: null, selected: null, film: null });
  }
});

test("a part of a name finds what has it, if nothing is called so", () => {
  const made = { processes: [{ name: "leader", vars: { term: "0" } }, { name: "follower", vars: { Term2: "0" } }],
    streams: [['{"process":"leader"}', '{"set":{"term":3}}', '{"send":"vote-1"}'],
              ['{"process":"follower"}', '{"recv":"vote-1"}', '{"set":{"Term2":1}}']] };
  const run = readRun(dataOf(made, [{ tree: ["true"] }]));
  const places = (query) => find(run, query).map(({ p, i, why }) => run.names[p] + i + " " + why);
  assert.deepEqual(places("LEAD"), ["leader1 is an event of leader", "leader2 is an event of leader"]);
  assert.deepEqual(places("term"), ["leader1 sets term to 3", "follower2 sets Term2 to 1"]);
  assert.deepEqual(places("vote"), ["leader2 sends vote-1", "follower1 receives vote-1"]);
  assert.deepEqual(places("zz"), []);
});

test("a predicate that is typed is read as the program reads it, and what is none is refused in words", () => {
  const made = { processes: [{ name: "a", vars: { x: "1", y: "2" } }, { name: "b", vars: { z: "3" } }],
    streams: [['{"process":"a"}'], ['{"process":"b"}']] };
  const run = readRun(dataOf(made, [{ tree: ["true"] }]));
  for (let seed = 1; seed <= 3000; seed++) {
    const { text, tree } = predicateOf(random(seed), made.processes);
    assert.deepEqual(parsePredicate(run, text), tree, text);
  }
  const wrong = (text) => typedPredicate(run, text).wrong;
  assert.equal(typedPredicate(run, "  "), null);
  assert.equal(typedPredicate(run, " not a.x==1\tor  b.z>-2 ").node.text, "not a.x == 1 or b.z > -2");
  assert.match(wrong("a.x = 1"), /begins no word, number or sign/);
  assert.equal(wrong("a.x"), "Expected == != < <= > >= at the end.");
  assert.equal(wrong("a.x == 1 b.z"), "Expected and, or, or the end, not “b”.");
  assert.equal(wrong("(a.x == 1"), "Expected ) at the end.");
  assert.equal(wrong("c.x == 1"), "No process is called “c”.");
  assert.equal(wrong("a.z == 1"), "Process a has no variable “z”.");
  assert.equal(wrong("a.x == or"), "Expected a number or a variable, as a.x, not “or”.");
  assert.equal(wrong("a.x == 9223372036854775808"), "The number 9223372036854775808 is too great.");
  assert.equal(wrong("2147483648 * a.x == 1"), "The number 2147483648 is too great.");
  const nested = (depth) => "(".repeat(depth) + "true" + ")".repeat(depth);
  assert.equal(wrong(nested(65)), "More than 64 parentheses and nots stand inside each other.");
  assert.equal(wrong(nested(64)), "");
});

test("a refused cycle goes from each receipt to its send, and back along that process", needsProgram, () => {
  let cycles = 0;
  for (let seed = 1; seed <= 60; seed++) {
    const chance = random(seed);
    const made = session(chance, 2 + chance(3), 10 + chance(12), seed % 2 === 0);
    for (const lines of made.streams) {
      for (let k = lines.length - 1; k > 1; k--) {
        const other = 1 + chance(k);
        [lines[k], lines[other]] = [lines[other], lines[k]];
      }
    }
    const { spec, streams } = write(made, [{ text: "true" }]);
    const data = explored(spec, streams);
    if (data?.cycle === undefined) continue;
    cycles++;
    const named = data.cycle.map(([p, i]) => data.processes[p].name + "#" + i);
    assert.equal(monitor("judge", spec, ...streams), "refused cycle " + named.join(",") + "\n");
    const { cycle, messages, columns, predicates } = readRun(data);
    cycle.forEach(({ message, receipt, send, next }, k) => {
      assert.deepEqual([receipt.p, receipt.i], data.cycle[k]);
      assert.deepEqual([next.p, next.i], data.cycle[(k + 1) % cycle.length]);
      assert.deepEqual([messages.to[message], messages.toEvent[message]], data.cycle[k]);
      assert.deepEqual([messages.from[message], messages.fromEvent[message]], [send.p, send.i]);
      assert.ok(send.p === next.p && send.i > next.i);
    });
    const back = cycle.filter(({ receipt, send }) => columns[receipt.p][receipt.i] <= columns[send.p][send.i]);
    assert.ok(back.length >= 1);
    for (const list of columns) list.forEach((column, i) => assert.ok(i === 0 || column > list[i - 1]));
    assert.deepEqual(predicates, []);
  }
  assert.ok(cycles > 10, String(cycles));
});
