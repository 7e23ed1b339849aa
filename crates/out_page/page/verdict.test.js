"use strict";
// Tests of the scripts that say what the answers, wishes, notes and refusals are: on cases by hand, some of them
// hostile. `node --test verdict.test.js`.
const { test } = require("node:test");
const assert = require("node:assert");
const { readRun, find } = require("./run.js");
const { verdictOf, verdictText, readWishes, cameOfAll, wishText, firstEvidence, sessionName,
        titleText } = require("./verdict.js");
const { Notes, notesAt, noteWords, wrongNotesText, wrongLinkText, clockText, plainText, excerpt, isolated,
        linkOf } = require("./notes.js");
const { fitting, labelOf } = require("./labels.js");
const { whatToMend, plainLines } = require("./refusal.js");

const NEUTRAL = { refusal: null, cycle: null, wishes: [] };

function answered(name, possibly, definitely) {
  return { name, possibly: [possibly], definitely: [definitely] };
}

// Two processes, of which left has three events and right two, the second of which receives what left sent.
function smallRun() {
  return readRun({ format: 1, width: 9, beyond_width: false, answers: [], predicates: [],
    processes: [{ name: "left", vars: ["x"] }, { name: "right", vars: [] }], initial: [["0"], []],
    sources: [["runs/turns/left.stream", [2, 3, 4]], ["runs/turns/right.stream", [2, 3]]],
    events: [[0, [0, 0, "1"], ["left-1"], [0, 0, "0"]], [0, [0], [1]]], messages: [[0, 2, 1, 2]] });
}

function noted(...lines) {
  const run = smallRun();
  const text = (line) => (typeof line === "string" ? line : JSON.stringify(line)) + "\n";
  run.notes = new Notes(run, [lines.map(text).join("")]);
  return run;
}

// ---- verdicts and wishes ----

test("the verdict on the run", () => {
  const can = answered("p", "yes", "no");
  const always = answered("q", "yes", "yes");
  const cannot = answered("r", "no", "no");
  const unknown = answered("s", "unknown", "unknown");
  assert.deepEqual([can, always, cannot, unknown, answered("t", "unknown", "yes"), answered("u", "yes", "unknown"),
    answered("v", "unknown", "no")].map(verdictOf), ["can happen", "always happens", "cannot happen", "unknown",
    "always happens", "can happen", "unknown"]);
  const said = (...predicates) => verdictText({ ...NEUTRAL, predicates });
  assert.equal(said(can), "p can happen");
  assert.equal(said(cannot), "r cannot happen");
  assert.equal(said(unknown), "It is unknown whether s can happen");
  assert.equal(said(cannot, cannot), "None of 2 predicates can happen");
  assert.equal(said(unknown, unknown), "2 of 2 predicates are unknown");
  assert.equal(said(unknown, cannot), "1 of 2 predicates is unknown; no other can happen");
  assert.equal(said(can, cannot, cannot), "1 of 3 predicates can happen: p");
  assert.equal(said(can, always, unknown), "2 of 3 predicates can happen: p, q; q always happens; 1 is unknown");
  assert.equal(said(can, can, can, can, unknown, unknown),
    "4 of 6 predicates can happen: p, p, p and 1 more; 2 are unknown");
  assert.equal(verdictText({ ...NEUTRAL, cycle: [], predicates: [] }), "Refused: a causal cycle");
});

test("wishes are granted, broken or unknown, and counted", () => {
  const predicates = [answered("overlap", "yes", "no"), answered("rest", "no", "no"), answered("done", "yes", "yes"),
                      answered("far", "unknown", "unknown")];
  const of = (...wishes) => {
    const run = { ...NEUTRAL, predicates };
    run.wishes = readWishes(run, wishes);
    return run;
  };
  const came = (kind) => predicates.map((_, k) => of([kind, k]).wishes[0].came);
  assert.deepEqual(came("never"), ["not as wished", "as wished", "not as wished", "unknown"]);
  assert.deepEqual(came("always"), ["not as wished", "not as wished", "as wished", "unknown"]);
  assert.deepEqual(came("sometimes"), ["as wished", "not as wished", "as wished", "unknown"]);
  const said = (...wishes) => verdictText(of(...wishes));
  assert.equal(said(["never", 0], ["always", 2], ["sometimes", 2]), "1 of 3 wishes is broken: overlap can happen");
  assert.equal(said(["never", 0], ["never", 2]), "2 of 2 wishes are broken: overlap can happen; done always happens");
  assert.equal(said(["always", 0]), "The wish is broken: overlap need not happen");
  assert.equal(said(["always", 1], ["never", 1]), "1 of 2 wishes is broken: rest cannot happen");
  assert.equal(said(["sometimes", 1]), "The wish is broken: rest cannot happen");
  assert.equal(said(["never", 1], ["always", 2]), "All 2 wishes are granted");
  assert.equal(said(["never", 1]), "The wish is granted: rest cannot happen");
  assert.equal(said(["never", 3], ["never", 1]), "1 of 2 wishes is unknown: far may happen or not");
  assert.equal(said(["always", 3]), "The wish is unknown: far may not always happen");
  assert.equal(said(["never", 0], ["always", 0], ["sometimes", 1], ["always", 1], ["never", 3]),
    "4 of 5 wishes are broken: overlap can happen; overlap need not happen; rest cannot happen; and 1 more; " +
    "1 is unknown");
  assert.equal(said(), "2 of 4 predicates can happen: overlap, done; done always happens; 1 is unknown");
  assert.equal(cameOfAll(of(["sometimes", 0], ["never", 0]).wishes), "not as wished");
  assert.equal(cameOfAll(of(["sometimes", 0], ["never", 3]).wishes), "unknown");
  assert.equal(cameOfAll([]), "");
  const words = (kind, k) => wishText(predicates[k], of([kind, k]).wishes[0]);
  assert.equal(words("never", 0), "Wished: it is never to happen. It can happen.");
  assert.equal(words("always", 2), "Wished: it is always to happen. It always happens.");
  assert.equal(words("sometimes", 3), "Wished: it is to be possible. That is unknown, which grants no wish.");
});

test("a page opens at the first broken wish that has evidence, and else at the first predicate that can happen", () => {
  const predicates = [answered("a", "no", "no"), answered("b", "yes", "no"), answered("c", "yes", "no")];
  const opens = (...wishes) => {
    const run = { ...NEUTRAL, predicates };
    run.wishes = readWishes(run, wishes);
    return firstEvidence(run);
  };
  assert.deepEqual(opens(), { k: 1, is: "cut" });
  assert.deepEqual(opens(["sometimes", 0], ["never", 2], ["never", 1]), { k: 2, is: "cut" });
  assert.deepEqual(opens(["always", 0], ["never", 1]), { k: 0, is: "film" });
  assert.deepEqual(opens(["never", 0], ["sometimes", 2]), { k: 1, is: "cut" });
  assert.equal(firstEvidence({ ...NEUTRAL, predicates: [answered("a", "no", "no")] }), null);
});

test("a session is called by the folder of its streams, or by its processes", () => {
  const name = (...files) => sessionName({ names: ["a", "b", "c", "d"], sources: files.map((file) => [file, []]) });
  assert.equal(name("examples/shop/1/a.stream", "examples/shop/1/b.stream"), "shop/1");
  assert.equal(name("/tmp/runs/turns-7/a", "/tmp/runs/turns-7/b"), "turns-7");
  assert.equal(name("x/one/a", "x/two/b"), "x");
  assert.equal(name("./a.stream", "", "./b.stream"), "a, b, c and 1 more");
  assert.equal(name("", ""), "a, b, c and 1 more");
  const run = smallRun();
  run.predicates = [answered("overlap", "yes", "no")];
  assert.equal(titleText(run), "turns: overlap can happen – monitor explore");
});

// ---- notes ----

test("notes are those that recorders write, and what is none is counted and said", () => {
  const run = noted('{"process": "left", "event": 1, "text": "the lock is ours", "place": "/src/turn.py:3", ' +
      '"clock": 1764402424.500000}', "", "  \r",
    { process: "right", event: 2, text: "", place: "b.py:4" }, { process: "left", event: 3, text: "no place" });
  assert.equal(run.notes.count, 3);
  assert.equal(wrongNotesText(run), "");
  assert.deepEqual(run.notes.at[0][1], [{ text: "the lock is ours", place: "/src/turn.py:3", clock: 1764402424.5 }]);
  assert.deepEqual([[0, 1], [0, 2], [0, 3], [1, 2]].map(([p, i]) => noteWords(run, p, i)),
    ["“\u2068the lock is ours\u2069”", "", "“\u2068no place\u2069”", "at \u2068b.py:4\u2069"]);
  const good = { process: "left", event: 1, text: "t", place: "p:1", clock: 1 };
  const why = (line) => noted(line, good).notes.wrong.first?.why;
  const wrong = [...["x", "[]", '{"process"'].map((line) => [line, "it is no object of JSON"]),
    [{ ...good, process: "mid\u202e" }, "this run has no process \u2068mid\\u202e\u2069"],
    [{ ...good, process: 1 }, "it names no process"], [{}, "it names no process"],
    [{ ...good, event: "1" }, "it names no event of left"], [{ ...good, event: 0 }, "it names no event of left"],
    [{ ...good, event: 1.5 }, "it names no event of left"],
    [{ ...good, event: 4 }, "left has no event 4 in this run, but 3"], [{ ...good, text: 1 }, "its text is none"],
    [{ ...good, place: null }, "its place is no text"], [{ ...good, clock: "1" }, "its clock is no number"]];
  for (const [line, words] of wrong) assert.equal(why(line), words);
  assert.equal(why({ ...good, event: 2 }), undefined);
  assert.equal(why('{"__proto__":1,"process":"left","event":2,"text":"t"}'), undefined);
  const two = smallRun();
  two.notes = new Notes(two, [JSON.stringify(good), "\n{}\nx"]);
  assert.equal(wrongNotesText(two), "2 lines of the notes aren't notes of events of this run, and aren't shown; " +
    "the first of them: file 2, line 2: it names no process.");
  assert.equal(wrongNotesText(noted("x")), "1 line of the notes isn't a note of an event of this run, and isn't " +
    "shown: file 1, line 1: it is no object of JSON.");
});

test("of several notes on an event none is left out: they keep their order, and each is found", () => {
  const note = (event, text, place = "") => ({ process: "left", event, text, place });
  const run = smallRun();
  const files = [[note(2, "", "a.py:1"), note(1, "asks"), note(2, "grants"), note(3, "", "c.py:3")],
    [note(2, "grants", "b.py:2"), note(3, ""), note(1, "asks again")]];
  run.notes = new Notes(run, files.map((notes) => notes.map((each) => JSON.stringify(each)).join("\n")));
  assert.deepEqual([run.notes.count, run.notes.wrong.count, wrongNotesText(run)], [7, 0, ""]);
  assert.deepEqual(notesAt(run, 0, 2).map(({ text, place }) => text + place), ["a.py:1", "grants", "grantsb.py:2"]);
  assert.deepEqual(notesAt(run, 1, 1), []);
  assert.deepEqual(notesAt(smallRun(), 0, 2), [], "without notes there are none");
  assert.deepEqual([1, 2, 3].map((i) => noteWords(run, 0, i)), ["“\u2068asks\u2069” and 1 more note",
    "“\u2068grants\u2069” and 2 more notes", "at \u2068c.py:3\u2069 and 1 more note"]);
  const found = (query) => find(run, query).map(({ p, i, why }) => [p, i, why]);
  assert.deepEqual(found("AGAIN"), [[0, 1, "by its note"]], "a later note");
  assert.deepEqual(found("b.py:2"), [[0, 2, "by its note"]]);
  assert.deepEqual(found("a.py"), [[0, 2, "by its note"]]);
  assert.deepEqual(found("grants"), [[0, 2, "by its note"]], "an event is found once");
  assert.deepEqual(found("as"), [[0, 1, "by its note"]], "in both of its notes");
});

test("many lines that are no notes are counted, and the notes among them shown", () => {
  const good = JSON.stringify({ process: "left", event: 2, text: "\\\"\u2028é", place: "", clock: 1.5e9 });
  for (const bad of ["{x}", '{"', "{", "x", '{"a":[', '{"a"}', '{"a":1,}']) {
    const run = noted(...new Array(1500).fill(bad), good);
    assert.deepEqual([run.notes.count, run.notes.wrong.count], [1, 1500], bad);
    assert.equal(run.notes.at[0][2][0].text, "\\\"\u2028é");
  }
});

test("events are found by a part of their note or its place", () => {
  const run = noted({ process: "left", event: 1, text: "the LOCK is ours", place: "/src/turn.py:3" },
    { process: "right", event: 1, text: "waits for left", place: "/src/turn.py:9" },
    { process: "right", event: 2, text: "unlocked", place: "/src/other.py:3" });
  const places = (query) => find(run, query).map(({ p, i, why }) => run.names[p] + i + " " + why).join(", ");
  assert.equal(places("lock"), "left1 by its note, right2 by its note");
  assert.equal(places("TURN.PY"), "left1 by its note, right1 by its note");
  assert.equal(places("py:3"), "left1 by its note, right2 by its note");
  assert.equal(places("ours\n"), "left1 by its note");
  assert.equal(places("ours /src"), "");
  assert.equal(places("left"), "left1 is an event of left, right1 by its note, left2 is an event of left, " +
    "left3 is an event of left");
  assert.equal(places("2"), "left2 is event 2, right2 is event 2");
  assert.equal(places("x = 1"), "left1 sets x to 1");
});

test("what shows as no letter is shown as an escape, and no character is cut in halves", () => {
  assert.equal(plainText("a\u0000\n\t\u007f\u0085\u2028\u202e\u2066b\ud800é字😀שלום"),
    "a\\u0000\\n\\t\\u007f\\u0085\\u2028\\u202e\\u2066b\\ud800é字😀שלום");
  assert.equal(excerpt("a😀b", 3), "a…");
  assert.equal(excerpt("abc", 3), "abc");
  assert.equal(isolated("\u202eabc", 3), "\u2068\\u202ea…\u2069");
  assert.equal(clockText(1764402424.123456), "2025-11-29 07:47:04.123456 UTC");
  assert.equal(clockText(1e99), "1e+99");
  const context = { measureText: (text) => ({ width: 5 * text.length }) };
  assert.deepEqual([100, 50, 26, 4].map((width) => fitting(context, "the lock is ours", width)),
    ["the lock is ours", "the lock …", "the …", "t…"]);
  const label = (text, more, room) => labelOf(context, { text }, more, room);
  assert.deepEqual([100, 50, 29].map((room) => label("the lock is ours", 2, room)),
    ["\u2068the lock is ours\u2069 +2", "\u2068the lo…\u2069 +2", "the …"], "the number only if there is room for it");
  assert.equal(label("the lock is ours", 0, 100), "the lock is ours");
  assert.equal(label("שלום\u202e", 12, 100), "\u2068שלום\\u202e\u2069 +12");
});

// ---- links ----

test("a place is a link by a pattern of these schemes, and leads where the pattern leads", () => {
  assert.equal(linkOf("vscode://file{file}:{line}", "/src/a b.py:3"), "vscode://file/src/a%20b.py:3");
  assert.equal(linkOf("https://example.org/blob/main/{file}#L{line}", "src/a#?.py:12"),
    "https://example.org/blob/main/src/a%23%3F.py#L12");
  assert.equal(linkOf("idea://open?file={file}&line={line}", "C:\\a&b.cs:7"),
    "idea://open?file=C%3A%5Ca%26b.cs&line=7");
  assert.equal(linkOf("file://{file}", "/src/é.c:1"), "file:///src/%C3%A9.c");
  assert.equal(linkOf("HTTP://example.org/{line}/{line}/{other}", "a:5"), "HTTP://example.org/5/5/{other}");
  assert.equal(linkOf("https://example.org/{file}", "\ud800:1"), "https://example.org/%EF%BF%BD");
  assert.equal(linkOf("https://example.org/{file}", "javascript:alert(1):1"),
    "https://example.org/javascript%3Aalert(1)");
  for (const [pattern, place] of [[null, "a:1"], ["javascript:alert('{file}')", "a:1"], ["data:text/html,x", "a:1"],
    [" https://example.org/{file}", "a:1"], ["{file}", "https://example.org/:1"], ["java\nscript:{file}", "a:1"],
    ["https://example.org/{file}", "a"], ["https://example.org/{file}", "a:0"], ["https://example.org/{file}", ""],
    ["https://{file}", "/example.org/x:1"], ["https://{file}/", "example.org:1"], ["file://{file}", "host/share:1"],
    ["file://{file}", "//host/share:1"], ["http:{file}", "//example.org/x:1"], ["vscode://{file}", "evil/x:1"],
    ["https://a.org{file}", ".example.org/x:1"], ["https://a.org{file}", "@example.org/x:1"]]) {
    assert.equal(linkOf(pattern, place), null, pattern + " of " + place);
  }
  assert.equal(wrongLinkText({ link: null }) + wrongLinkText({ link: "file:{file}" }), "");
  assert.match(wrongLinkText({ link: "javascript:1" }), /none of http, https, vscode, idea and file/);
});

// ---- refusals ----

test("what is to be mended is said for each refusal", () => {
  assert.match(whatToMend("refused spec json\n"), /document/);
  assert.match(whatToMend("refused predicate 2 unknownname at 7\n"), /predicate/);
  assert.match(whatToMend("refused stream 1 line 9 json\n"), /that line/);
  assert.match(whatToMend("refused stream 1 line 9 unended\n"), /monitor_mend/);
  assert.match(whatToMend("refused orphan right#2\n"), /--orphans-as-local/);
  for (const word of ["streams", "absent a", "sendtwice a#1", "selfmessage a#1", "receivedtwice a#1"]) {
    assert.doesNotMatch(whatToMend("refused " + word), /^Look at what/);
  }
  assert.equal(whatToMend("refused toString x\n"), "Look at what the report names.");
  assert.equal(plainLines("a\n  ^\u202e\n"), "a\n  ^\\u202e\n");
  const run = readRun({ format: 1, refusal: ["refused absent b\n", "There is no b.\n"] });
  assert.equal(titleText(run), "Refused: absent b – monitor explore");
});
