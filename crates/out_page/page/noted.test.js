"use strict";
// Tests in a headless Chromium of pages with wishes, notes and links, and of the page of a refused session: pages of
// the program, with other data. `MONITOR=PROGRAM EXAMPLES=FOLDER CHROMIUM=PROGRAM node --test noted.test.js`.
const { test } = require("node:test");
const assert = require("node:assert");
const { Page, example, ring, changed, needed } = require("./browser.js");

// A note of each event, as recorders write them.
function notesOf(data, text) {
  const note = (process, p, event) => ({ process, event, text: text(p, event), place: `/src/${process}.py:${event + 9}`,
                                         clock: 1764402423.5 + event });
  return data.processes.map(({ name }, p) =>
    data.events[p].slice(1).map((_, k) => JSON.stringify(note(name, p, k + 1)) + "\n").join(""));
}

function withWishes(name, ...wishes) {
  return changed(example("failover"), name, (data) => ({ ...data, wishes }));
}

const texts = (selector) => `[...document.querySelectorAll("${selector}")].map((each) => each.textContent)`;

// The contrast of a text with what is behind it, as WCAG has it.
const CONTRAST = `(node) => {
  const light = (colour) => { const [r, g, b] = colour.match(/[\\d.]+/g).map((each) => each / 255)
    .map((each) => (each <= 0.03928 ? each / 12.92 : ((each + 0.055) / 1.055) ** 2.4));
    return 0.2126 * r + 0.7152 * g + 0.0722 * b; };
  const behind = (each) => { const { backgroundColor } = getComputedStyle(each);
    return backgroundColor === "rgba(0, 0, 0, 0)" ? behind(each.parentElement) : backgroundColor; };
  const [low, high] = [light(getComputedStyle(node).color), light(behind(node))].sort((a, b) => a - b);
  return (high + 0.05) / (low + 0.05); }`;

test("wishes lead cards and page, by words and signs that are legible in light and dark", needed, async () => {
  const file = withWishes("wishes", ["never", 0], ["sometimes", 1], ["always", 1]);
  for (const dark of [false, true]) {
    const page = await Page.open(file, "", { dark });
    assert.equal(await page.text("verdict"),
      "2 of 3 wishes are broken: two_leaders can happen; two_writers need not happen");
    assert.match(await page.js("document.title"), /^failover: 2 of 3 wishes are broken/);
    assert.deepEqual(await page.js(texts(".predicate .verdict")), ["not as wished", "not as wished", "can happen"]);
    assert.deepEqual(await page.js(texts(".wish")), ["Wished: it is never to happen. It can happen.",
      "Wished: it is to be possible. It can happen.", "Wished: it is always to happen. It need not happen."]);
    const signs = "[byId('verdict'), ...document.querySelectorAll('.predicate .verdict, #help .verdict')]";
    assert.deepEqual(await page.js(`${signs}.map((each) => getComputedStyle(each, "::before").content)`),
      ["\"✗ \"", "\"✗ \"", "\"✗ \"", "none", "\"✓ \"", "\"✗ \"", "\"? \""]);
    const contrasts = await page.js(`byId("help").showModal(); ${signs}.map(${CONTRAST})`);
    for (const contrast of contrasts) assert.ok(contrast >= 4.5, contrasts.join());
    assert.match(await page.js("asText(run, state.cut)"),
      /two_leaders can happen \(wished never: not as wished\), and is true/);
    await page.close();
  }
});

test("a page opens at the first broken wish, and is neutral without wishes", needed, async () => {
  const later = await Page.open(withWishes("later", ["sometimes", 0], ["never", 2]));
  assert.deepEqual([await later.cut(), await later.js("state.shown")], [[1, 4, 0], 2]);
  await later.close();
  const film = await Page.open(withWishes("filmed", ["sometimes", 0], ["always", 1], ["never", 2]));
  assert.deepEqual(await film.js("[state.film.k, state.film.step, timer, state.shown]"), [1, 0, 0, 1]);
  assert.equal(await film.js("byId('film').hidden"), false);
  await film.close();
  const given = await Page.open(withWishes("given", ["always", 1]), "#cut=2,0,2");
  assert.deepEqual([await given.cut(), await given.js("state.film")], [[2, 0, 2], null], "the address counts before");
  await given.close();
  const granted = await Page.open(withWishes("granted", ["sometimes", 0]));
  assert.equal(await granted.text("verdict"), "The wish is granted: two_leaders can happen");
  assert.deepEqual(await granted.cut(), [2, 0, 2]);
  await granted.close();
  const neutral = await Page.open(changed(example("failover"), "neutral", (data) => ({ ...data, wishes: [], notes: [],
    link: null })));
  assert.equal(await neutral.js("run.notes"), null);
  assert.equal(await neutral.text("verdict"), "3 of 3 predicates can happen: two_leaders, two_writers, no_leader");
  assert.deepEqual(await neutral.js(texts(".wish")), []);
  await neutral.close();
});

test("a note is shown at its dot, beside the event and in the list, and is found", needed, async () => {
  const page = await Page.open(changed(example("failover"), "noted", (data) => ({ ...data,
    link: "vscode://file{file}:{line}", notes: notesOf(data, (p, i) => "step " + i + " of " + "abc"[p]) })));
  const drawn = () => page.js(`[...new DOMParser().parseFromString(drawingText(run, state, palette, size, lanes),
    "image/svg+xml").querySelectorAll("text")].map((each) => each.textContent)`);
  assert.ok((await drawn()).includes("step 2 of b"));
  await page.js("select(1, 2)");
  assert.match(await page.text("event-body"),
    /Notestep 2 of bRecorded by\/src\/east\.py:11By the clock2025-11-29 07:47:05\.500000 UTCRecorded in/);
  assert.deepEqual(await page.js("[...document.querySelectorAll('a')].map(({ href, target }) => [href, target])"),
    [["vscode://file/src/east.py:11", ""]]);
  assert.match(await page.text("status"), /“\u2068step 2 of b\u2069”/);
  assert.match(await page.text("listing-table"), /step 1 of bno|step 1 of b/);
  assert.match(await page.text("counts"), /^failover: .* 13 notes$/);
  await page.js("byId('query').value = 'TEP 3 OF C'; toHit(1)");
  assert.deepEqual([await page.text("event-title"), await page.text("matches")],
    ["Event west#3", "1 of 1: by its note"]);
  await page.js("byId('query').value = 'east.py:12'; toHit(1)");
  assert.equal(await page.text("event-title"), "Event east#3");
  assert.match(await page.js("asText(run, [2, 0, 2])"), /manager after 2 of 4 events, “\u2068step 2 of a\u2069”/);
  await page.js("lanes[0].fold.click(); lanes[1].fold.click(); lanes[2].fold.click()");
  assert.ok(!(await drawn()).some((text) => text.startsWith("step")), "none on a folded lane");
  await page.close();
  const web = await Page.open(changed(example("failover"), "web", (data) => ({ ...data,
    link: "https://example.org/{file}#L{line}", notes: notesOf(data, () => "") })));
  await web.js("select(1, 2)");
  const links = "[...document.querySelectorAll('a')].map(({ href, target, rel }) => [href, target, rel])";
  assert.deepEqual(await web.js(links), [["https://example.org//src/east.py#L11", "_blank", "noopener noreferrer"]]);
  await web.close();
});

test("of several notes on an event all are shown, and a label has the number of the others", needed, async () => {
  const several = ["first", "</script><b>second</b>", ""];
  const page = await Page.open(changed(example("failover"), "several", (data) => ({ ...data,
    notes: [...several.flatMap((text) => notesOf(data, () => text)), JSON.stringify({ process: "west", event: 1,
      text: "only on west" }), '{"process":"manager","event":4,"text":"again"}\n'.repeat(200)] })));
  assert.equal(await page.js("run.notes.count"), 3 * 13 + 201);
  assert.equal(await page.text("wrong-notes"), "");
  await page.js("select(1, 2)");
  assert.match(await page.text("event-body"), /Note 1 of 3firstRecorded by.*Note 2 of 3<\/script><b>second<\/b>Rec/);
  assert.match(await page.text("event-body"), /Note 3 of 3without a textRecorded by/);
  assert.match(await page.text("status"), /“\u2068first\u2069” and 2 more notes$/);
  const listed = "[...document.querySelectorAll('#listing-table tr:nth-child(2) td.of-notes > div')]";
  assert.deepEqual(await page.js(`${listed}.map((each) => each.textContent)`), ["first", "</script><b>second</b>"]);
  assert.equal(await page.js(`${listed}.every((each, k, all) => k === 0 || each.getBoundingClientRect().top >=
    all[k - 1].getBoundingClientRect().bottom - 1)`), true, "one below the other");
  const drawn = await page.js("drawingText(run, state, palette, size, lanes)");
  assert.match(drawn, />\u2068first\u2069 \+2</);
  assert.match(drawn, />\u2068f[^<]*\u2069 \+3</, "of west#1");
  await page.js("byId('query').value = 'ONLY ON'; toHit(1)");
  assert.deepEqual([await page.text("event-title"), await page.text("matches")],
    ["Event west#1", "1 of 1: by its note"]);
  await page.js("select(0, 4)");
  assert.match(await page.text("event-body"), /Note 100 of 203again.*Not shown103 more notes/);
  assert.match(await page.text("listing-table"), /again(and )?102 more notes/);
  await page.close();
});

test("the list of events has room for its columns at each width", needed, async () => {
  const said = ["yes", "the lock is ours", "it asks the manager for the lease again, since the last answer was lost"];
  const file = example("failover");
  const noted = changed(file, "widths", (data) => ({ ...data, notes: notesOf(data, (p, i) => said[i % 3]) }));
  for (const which of [noted, file]) {
    const page = await Page.open(which);
    await page.js("list(1, 1); updateListing(run, state, actions)");
    // Of each text in these cells how many lines it has.
    const lines = (cells) => page.js(`[...document.querySelectorAll("#listing-table ${cells}")].flatMap((each) => {
      const found = [];
      const walker = document.createTreeWalker(each, NodeFilter.SHOW_TEXT);
      const range = document.createRange();
      while (walker.nextNode()) {
        range.selectNodeContents(walker.currentNode);
        found.push([walker.currentNode.data, range.getClientRects().length]);
      }
      return found;
    })`);
    for (const width of [360, 800, 1200, 1920]) {
      await page.call("Emulation.setDeviceMetricsOverride",
        { width, height: 900, deviceScaleFactor: 1, mobile: false });
      await page.settle();
      const words = [...await lines("th"), ...await lines("td.of-notes")].filter(([text]) => text.length < 12);
      if (width > 640) words.push(...await lines("td:nth-child(3)"), ...await lines("td:nth-child(4)"));
      assert.deepEqual(words.filter(([, count]) => count > 1), [], "what is short is broken at " + width);
      assert.equal(await page.js(`(({ right }) => right <= innerWidth && [...document.querySelectorAll(
        "#listing-table td")].every((each) => each.getBoundingClientRect().right <= right))(
          byId("listing").getBoundingClientRect())`), true, "a column stands out of the card at " + width);
    }
    await page.close();
  }
});

test("without notes nothing of them is shown, and lines that are none are counted", needed, async () => {
  const plain = await Page.open(example("failover"));
  const shown = "[...document.querySelectorAll('.of-notes')].filter((each) => each.offsetHeight > 0)";
  assert.deepEqual(await plain.js(shown), []);
  await plain.js("select(1, 2)");
  assert.doesNotMatch(await plain.text("event-body"), /Note/);
  await plain.close();
  const page = await Page.open(changed(example("failover"), "wrong", (data) => ({ ...data,
    link: "javascript:alert('{file}')", notes: ["", notesOf(data, () => "fine")[1] + '{"process": "east", "ev'] })));
  assert.equal(await page.text("wrong-notes"), "1 line of the notes isn't a note of an event of this run, and isn't " +
    "shown: file 2, line 6: it is no object of JSON. Places are no links: of " +
    "“\u2068javascript:alert('{file}')\u2069” the scheme is none of http, https, vscode, idea and file.");
  await page.js("select(1, 2)");
  assert.match(await page.text("event-body"), /Notefine/);
  assert.equal(await page.js("document.querySelectorAll('a').length"), 0);
  await page.js("select(0, 1)");
  assert.match(await page.text("event-body"), /Notenone/);
  await page.close();
});

test("a megabyte of hostile notes is text, and turns no text around it", needed, async () => {
  const hostile = ["</script><script>window.ran = 1</script>", "<img src=https://example.org/x onerror=alert(1)>",
    "\u202e\u2066\u2067evil\u2028\u2029\u0000\u0007", "{{data}}", "<!--<script>", "שלום", "\"\\", "\ud800",
    "é".repeat(512), "a\u0300\u0301\u0302".repeat(200)];
  const page = await Page.open(changed(example("failover"), "hostile", (data) => ({ ...data,
    link: "https://example.org/{file}", notes: [...notesOf(data, (p, i) => hostile[(4 * p + i) % hostile.length]),
      "</script><script>window.ran = 1</script>\n\u0000\u202e\n", "{x}\n".repeat(2 ** 18)] })));
  await page.js(`for (let p = 0; p < run.size; p++) {
    for (let i = 1; i <= run.counts[p]; i++) { select(p, i); setCut(run.counts.slice()); draw(); }
  }`);
  assert.equal(await page.js("window.ran ?? 0"), 0);
  assert.equal(await page.js("document.querySelectorAll('img, iframe').length"), 0);
  assert.equal(await page.js("document.querySelectorAll('script').length"), 13);
  assert.match(await page.text("wrong-notes"), /^262,146 lines of the notes/);
  const all = await page.js("document.documentElement.textContent + drawingText(run, state, palette, size, lanes)");
  assert.doesNotMatch(all, /[\u202a-\u202e\u2066\u2067\u0000]/);
  assert.match(all, /\\u202e\\u2066\\u2067evil\\u2028\\u2029\\u0000\\u0007/);
  assert.equal(await page.js("[...document.querySelectorAll('.note')].every(({ localName }) => localName === 'bdi')"),
    true);
  await page.js("byId('query').value = '</script>'; toHit(1)");
  assert.equal(await page.js("state.hits.length > 0 && (window.ran ?? 0)"), 0);
  await page.close();
});

test("a refused session has its report, what explains it and what to do, and no empty diagram", needed, async () => {
  const page = await Page.open(changed(example("failover"), "refused", () => ({ format: 1, refusal:
    ["refused stream 2 line 3 json\n", "Line 3 isn't JSON:\n\n  <img src=x>\u202e\n       ^\n"] })));
  assert.equal(await page.js("document.title"), "Refused: stream 2 line 3 json – monitor explore");
  assert.deepEqual(await page.js(`["verdict", "report", "explanation"].map((id) => byId(id).textContent)`),
    ["The session is refused", "refused stream 2 line 3 json", "Line 3 isn't JSON:\n\n  <img src=x>\\u202e\n       ^"]);
  assert.match(await page.js("getComputedStyle(byId('explanation')).fontFamily"), /mono/i);
  assert.match(await page.text("mend"), /that line of that stream/);
  assert.deepEqual(await page.js("[...document.querySelectorAll('.of-run, canvas')].filter((each) => " +
    "each.offsetHeight > 0).map(({ id }) => id)"), []);
  assert.equal(await page.js("document.querySelectorAll('img').length"), 0);
  await page.js("byId('refusal-copy').click()");
  await page.until("byId('refusal-said').textContent !== ''");
  await page.close();
  const narrow = await Page.open(changed(example("failover"), "narrow", () => ({ format: 1, refusal:
    ["refused absent " + "x".repeat(32), ""] })), "", { width: 390, dark: true });
  assert.equal(await narrow.js("byId('explanation').hidden"), true);
  assert.equal(await narrow.js("document.documentElement.scrollWidth > document.documentElement.clientWidth"), false);
  await narrow.close();
});

test("on a phone nothing stands out of the page, nor a label out of the drawing", needed, async () => {
  const page = await Page.open(changed(ring(16, 20), "phone", (data) => ({ ...data, wishes: [["never", 0]],
    notes: notesOf(data, (p, i) => "a note of step " + i) })), "", { width: 390 });
  assert.equal(await page.js("document.documentElement.scrollWidth > document.documentElement.clientWidth"), false);
  const out = await page.js(`(() => {
    const found = [];
    const context = canvas.getContext("2d");
    const { fillText } = context;
    context.fillText = function (text, x, y) {
      const wide = this.measureText(text).width;
      const left = { left: x, right: x - wide, center: x - wide / 2 }[this.textAlign];
      const isCut = left < 0 && left + wide > 0 || left < size.width && left + wide > size.width;
      if (isCut && text.length > 3 && !text.startsWith("a note")) found.push(text);
      fillText.call(this, text, x, y);
    };
    for (let k = 0; k <= run.counts[0]; k++) { cutTo(0, k); draw(); }
    delete context.fillText;
    return found;
  })()`);
  assert.deepEqual(out, []);
  await page.js("setCut(run.counts.map(() => 0)); setView(0, 40)");
  await page.settle();
  const [x, y] = await page.js(`(({ left, top }) => {
    for (let y = 40; y < 300; y++) {
      const isFree = (x) => messageNear(run, state, size, x, y) !== null &&
        eventNear(run, state, size, x, y) === null && gripNear(run, state, size, x, y) === null;
      const x = Array.from({ length: size.width }, (_, k) => k).find(isFree);
      if (x !== undefined) return [left + x, top + y];
    }
  })(canvas.getBoundingClientRect())`);
  await page.call("Emulation.setTouchEmulationEnabled", { enabled: true, maxTouchPoints: 1 });
  await page.call("Input.dispatchTouchEvent", { type: "touchStart", touchPoints: [{ x, y }] });
  await page.call("Input.dispatchTouchEvent", { type: "touchEnd", touchPoints: [] });
  await page.settle();
  assert.match(await page.text("tip"), /^m\d+\.\d+: p\d+#\d+ to p\d+#\d+$/, "a tapped message says what it is");
  assert.equal(await page.js("byId('tip').hidden"), false);
  await page.close();
});

test("a large run with a note of each event is opened, drawn and looked through", needed, async () => {
  const page = await Page.open(changed(ring(16, 5000), "large", (data) => ({ ...data, wishes: [["never", 0]],
    notes: notesOf(data, (p, i) => "step " + i + ", and " + ["waits", "grants", "asks"][i % 3]) })));
  assert.equal(await page.js("run.notes.count"), 80000);
  const [entry, ...taken] = await page.js(`(() => {
    const times = [["find", () => { byId("query").value = "grants"; search(); }], ["hit", () => toHit(1)],
      ["find all", () => { byId("query").value = ".py:"; search(); }], ["draw", () => { setView(2000, 60); draw(); }],
      ["move", () => { cutTo(3, 2500); draw(); }],
      ["select", () => { select(5, 2000); draw(); }]].map(([what, act]) => {
        const start = performance.now();
        act();
        return what + " " + Math.round(performance.now() - start) + " ms";
      });
    return [Math.round(performance.getEntriesByType("navigation")[0].loadEventEnd), ...times];
  })()`);
  console.log("  80,000 events and notes: loaded after " + entry + " ms; " + taken.join(", "));
  assert.equal(await page.js("state.hits.length"), 80000);
  await page.close();
});
