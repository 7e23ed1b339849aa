"use strict";
// Tests of the page in a headless Chromium: clicks, drags, keys, the film, finding, the address, ids that look like
// mark-up, large runs. `MONITOR=PROGRAM EXAMPLES=FOLDER CHROMIUM=PROGRAM node --test browser.test.js`.
const { test } = require("node:test");
const assert = require("node:assert");
const { Page, example, made, ring, needed } = require("./browser.js");

// ---- the tests --------------------------------------------------------------------------------------------------

// The address says what is shown: it is written a quarter of a second later.
const WRITTEN = "location.hash === '#' + fragmentOf(run, state)";

test("the cut is moved by clicks and drags", needed, async () => {
  const page = await Page.open(example("failover"));
  assert.deepEqual(await page.cut(), [2, 0, 2], "the evidence is shown first");
  await page.click(1, 3);
  assert.deepEqual(await page.cut(), [2, 3, 2], "forward");
  await page.click(0, 1);
  assert.deepEqual(await page.cut(), [1, 3, 0], "backward, west leaves with its message");
  assert.match(await page.text("status"), /west#1 went with it, for it receives manager-2 from manager#2/);
  assert.match(await page.text("status"), /two_leaders is false now\./);
  await page.click(0, 4);
  assert.deepEqual(await page.cut(), [4, 5, 4], "forward, both come with it");
  assert.match(await page.text("status"), /east#5 came with it, for it sends east-1 to manager#3/);
  await page.click(1, 1, { modifiers: 8 });
  assert.deepEqual(await page.cut(), [4, 5, 4], "with Shift it is only selected");
  assert.match(await page.text("event-body"), /Recorded in.*examples\/failover\/east\.stream, line 2/);
  assert.equal(await page.text("event-title"), "Event east#1");
  await page.press("u");
  assert.deepEqual(await page.cut(), [1, 3, 0], "undone");
  const [x, y] = await page.grip(0);
  await page.drag([x, y], [(await page.place(0, 3))[0] + 10, y]);
  assert.deepEqual(await page.cut(), [3, 5, 0], "dragged on, east comes with it");
  const [u, v] = await page.grip(1);
  await page.mouse("mousePressed", u, v);
  await page.mouse("mouseMoved", (await page.place(1, 1))[0] - 10, v, { buttons: 1 });
  await page.settle();
  assert.deepEqual(await page.cut(), [2, 0, 0], "dragged back, manager goes with it");
  await page.mouse("mouseMoved", u, v, { buttons: 1 });
  await page.settle();
  assert.deepEqual(await page.cut(), [3, 5, 0], "and in the same drag it comes back");
  await page.mouse("mouseReleased", u, v);
  await page.close();
});

test("two fingers zoom, and one goes on along the run", needed, async () => {
  const page = await Page.open(ring(3, 200));
  await page.call("Emulation.setTouchEmulationEnabled", { enabled: true, maxTouchPoints: 2 });
  await page.js("setView(40, 12)");
  const box = await page.js("(({ left, top }) => [left, top])(canvas.getBoundingClientRect())");
  const touch = async (type, ...xs) => {
    const touchPoints = xs.map(([id, x]) => ({ id, x: box[0] + x, y: box[1] + 60 + 10 * id }));
    await page.call("Input.dispatchTouchEvent", { type, touchPoints });
    await page.settle();
  };
  const cut = await page.cut();
  await touch("touchStart", [0, 300]);
  await touch("touchStart", [0, 300], [1, 500]);
  const held = await page.js("columnAt(state.view, 400)");
  const near = (what, wanted) => page.until(`Math.abs(${what} - ${wanted}) < 0.5`);
  await touch("touchMove", [0, 200], [1, 600]);
  await near("state.view.scale", 24);
  assert.ok(Math.abs(await page.js("columnAt(state.view, 400)") - held) < 0.1, "what lay between them stays there");
  await touch("touchMove", [0, 350], [1, 750]);
  await near("columnAt(state.view, 550)", held);
  const left = await page.js("state.view.left");
  await touch("touchEnd", [1, 750]);
  await touch("touchMove", [0, 110]);
  await near("state.view.left", left + 10);
  await touch("touchEnd");
  assert.deepEqual(await page.cut(), cut, "no finger was a click");
  assert.equal(await page.js("state.selected"), null);
  await page.close();
});

test("all is done by keys", needed, async () => {
  const page = await Page.open(example("failover"));
  assert.equal(await page.js("document.querySelectorAll('[role=slider][tabindex=\"0\"]').length"), 1);
  await page.js("lanes[2].lane.focus()");
  await page.press("ArrowRight");
  assert.deepEqual(await page.cut(), [2, 0, 3]);
  assert.equal(await page.js("document.activeElement.getAttribute('aria-valuenow')"), "3");
  assert.match(await page.js("document.activeElement.getAttribute('aria-valuetext')"), /written = 1/);
  await page.press("ArrowUp");
  assert.equal(await page.js("document.activeElement.getAttribute('aria-label')"), "east");
  await page.press("End");
  assert.deepEqual(await page.cut(), [2, 5, 3]);
  await page.press("Home");
  assert.deepEqual(await page.cut(), [2, 0, 3]);
  await page.press("ArrowUp", "Home");
  assert.deepEqual(await page.cut(), [0, 0, 0]);
  await page.press(".", "m");
  assert.equal(await page.text("event-title"), "Event east#2", "to the message's other end");
  await page.press("Enter");
  assert.deepEqual(await page.cut(), [1, 2, 0]);
  await page.press("Escape");
  assert.equal(await page.js("state.selected"), null);
  await page.press("/");
  assert.equal(await page.js("document.activeElement.id"), "query");
  await page.press(..."west-1", "Enter");
  assert.equal(await page.text("event-title"), "Event west#4");
  await page.press("Enter");
  assert.equal(await page.text("event-title"), "Event manager#4");
  await page.press("Escape", "Escape", "?");
  assert.equal(await page.js("byId('help').open"), true);
  assert.equal(await page.js("byId('help').scrollTop"), 0, "it is read from its beginning");
  await page.press("Escape");
  assert.equal(await page.js("byId('help').open"), false);
  await page.until("byId('live').textContent === byId('status').textContent");
  await page.close();
});

test("predicates, values and evidence are said in words", needed, async () => {
  const page = await Page.open(example("failover"));
  const badges = () => page.js("[...document.querySelectorAll('.badge')].map((each) => each.textContent)");
  assert.deepEqual(await badges(), ["true", "false", "false"]);
  assert.equal(await page.text("verdict"), "3 of 3 predicates can happen: two_leaders, two_writers, no_leader");
  const verdicts = "[...document.querySelectorAll('.predicate .verdict')].map((each) => each.textContent)";
  assert.deepEqual(await page.js(verdicts),
    ["can happen", "can happen", "can happen"]);
  assert.match(await page.js("document.title"), /^failover: 3 of 3 predicates can happen/);
  await page.button("Show the cut", 2);
  assert.deepEqual(await page.cut(), [1, 4, 0]);
  assert.deepEqual(await badges(), ["false", "false", "true"]);
  assert.match(await page.text("predicates"), /0 \+ 0 = 0 equals 0/);
  assert.match(await page.text("predicates"), /0 isn't 1/);
  const changed = "[...document.querySelectorAll('#values .changed dt')].map((each) => each.textContent)";
  assert.deepEqual(await page.js(changed), ["leader", "written", "leader"], "what changed is marked");
  await page.close();
  const unknown = await Page.open(example("unknown"));
  assert.match(await unknown.text("predicates"), /more cuts than the width/);
  assert.match(await unknown.text("verdict"), /unknown/);
  await unknown.close();
});

test("what is shown is saved as a picture, and copied as text", needed, async () => {
  const page = await Page.open(example("failover"));
  const text = await page.js("asText(run, state.cut)");
  assert.match(text, /^failover: 3 of 3 predicates can happen/);
  assert.match(text, /two_leaders can happen, and is true at this cut: /);
  assert.match(text, /The cut 2,0,2:\nmanager after 2 of 4 events/);
  await page.js(`globalThis.saved = []; HTMLAnchorElement.prototype.click = function () {
    saved.push([this.download, this.href.slice(0, 5)]); }; byId("save-picture").click(); 0`);
  await page.until("saved.length === 1");
  assert.deepEqual(await page.js("saved"), [["run.png", "blob:"]]);
  await page.close();
});

test("a predicate is typed, and judged at the cut shown", needed, async () => {
  const page = await Page.open(example("failover"));
  const type = (text) => page.js(`byId("typed").value = ${JSON.stringify(text)};
    byId("typed").dispatchEvent(new Event("input")); 0`);
  const said = () => page.js("byId('typed-at').hidden ? null : byId('typed-at').textContent");
  assert.equal(await said(), null);
  await type("east.leader + west.leader == 2");
  assert.equal(await said(), "At the cut shown: true");
  await page.js("setCut([0, 0, 0])");
  assert.equal(await said(), "At the cut shown: false");
  assert.match(await page.text("typed-why"), /1 \+ 0 = 1 isn't 2/);
  await type("<img src=x onerror=alert(1)>");
  assert.equal(await said(), "“=x onerr” begins no word, number or sign.");
  assert.equal(await page.js("document.querySelectorAll('img').length"), 0);
  await type("");
  assert.equal(await said(), null);
  await page.close();
});

test("what the shown predicate names comes first among the values", needed, async () => {
  const page = await Page.open(example("failover"));
  const order = () => page.js(
    "[...document.querySelectorAll('#values .process h3')].map((each) => each.firstChild.textContent)");
  const named = () => page.js("[...document.querySelectorAll('#values .named dt')].map((each) => each.textContent)");
  assert.deepEqual(await order(), ["east", "west", "manager"]);
  assert.deepEqual(await named(), ["leader", "leader"]);
  await page.js("show(1)");
  assert.deepEqual(await named(), ["leader", "written"]);
  await page.js("show(1)");
  assert.deepEqual(await order(), ["manager", "east", "west"], "none is shown");
  assert.deepEqual(await named(), []);
  await page.close();
});

test("of many lanes the messages that matter stand out", needed, async () => {
  const page = await Page.open(ring(16, 20));
  assert.deepEqual(await page.js(`(() => {
    state.shown = -1;
    const matters = mattering(run, state);
    const all = [...run.messages.ids.keys()];
    const touched = all.filter((m) => [[run.messages.from[m], run.messages.fromEvent[m]],
      [run.messages.to[m], run.messages.toEvent[m]]].some(([p, i]) => i === state.cut[p] || i === state.cut[p] + 1));
    return [all.filter(matters).length === touched.length, touched.length < all.length];
  })()`), [true, true]);
  await page.close();
});

test("only what matters is shown, and the cut goes on as before", needed, async () => {
  const file = example("gossip");
  const page = await Page.open(file);
  const pressed = () => page.js("byId('only').getAttribute('aria-pressed')");
  const dots = () => page.js("run.shown.map(({ columns }) => columns.length - 1)");
  assert.deepEqual([await pressed(), await page.text("hidden")], ["false", ""]);
  const all = await dots();
  await page.js("byId('only').click()");
  await page.settle();
  assert.equal(await pressed(), "true");
  assert.equal(await page.text("hidden"), "Shown: the 3 events of 376 that set what two_leaders names, and the 1 " +
    "message of 64 that orders them. A dashed line hides events.");
  assert.deepEqual(await dots(), [0, 2, 0, 2, 0, 0]);
  await page.click(1, 35);
  assert.equal(await page.js("state.cut[1]"), 35);
  await page.js("lanes[1].lane.focus()");
  await page.press("ArrowRight");
  assert.deepEqual(await page.js("[state.cut[1], isConsistent(run, state.cut)]"), [36, true], "into what is hidden");
  const [x, y] = await page.grip(3);
  await page.drag([x, y], [(await page.place(3, 50))[0] + 12, y]);
  assert.equal(await page.js("state.cut[3] >= 50 && state.cut[1] >= 36 && isConsistent(run, state.cut)"), true);
  await page.until(`location.hash.includes('only=two_leaders') && ${WRITTEN}`);
  const [fragment, cut] = [await page.js("location.hash"), await page.cut()];
  await page.js("show(1)");
  assert.match(await page.text("status"), /^south1/);
  assert.notDeepEqual(await dots(), [0, 2, 0, 2, 0, 0], "another predicate, other events");
  await page.js("show(1)");
  assert.deepEqual([await pressed(), await page.js("byId('only').disabled"), await dots()], ["false", true, all]);
  await page.js("show(0); byId('only').click()");
  assert.deepEqual([await pressed(), await dots()], ["false", all]);
  await page.close();
  const again = await Page.open(file, fragment);
  assert.deepEqual([await again.js("run.only.events"), await again.cut()], [3, cut]);
  await again.js("byId('query').value = 'north1#5'; toHit(1)");
  assert.equal(await again.text("event-title"), "Event north1#5", "a hidden event is found too");
  await again.close();
});

test("lanes are folded and moved, by pointer and keys", needed, async () => {
  const file = example("failover");
  const page = await Page.open(file);
  const heads = () => page.js("[...document.querySelectorAll('.head .name')].map((each) => each.textContent).join()");
  const grip = (p) => page.js(`(({ left, top }) => [left + 8, top + 10])(lanes[${p}].grip.getBoundingClientRect())`);
  assert.equal(await heads(), "manager,east,west");
  const [x, y] = await grip(2);
  await page.drag([x, y], [x, y - await page.js("2 * size.lane")]);
  assert.deepEqual([await heads(), await page.js("state.order")], ["west,manager,east", [2, 0, 1]]);
  assert.deepEqual(await page.js("lanes.map(({ lane }, p) => Math.abs(lane.getBoundingClientRect().top - " +
    "canvas.getBoundingClientRect().top - size.tops[p]) < 1)"), [true, true, true], "heads stand at their lanes");
  await page.js("lanes[2].grip.focus()");
  await page.press("ArrowDown");
  assert.equal(await heads(), "manager,west,east");
  assert.equal(await page.js("document.activeElement === lanes[2].grip"), true, "the focus goes along");
  await page.press("ArrowDown", "ArrowDown");
  assert.equal(await heads(), "manager,east,west", "and no farther than the last place");
  await page.js("byId('named-first').click()");
  assert.equal(await heads(), "east,west,manager");
  await page.js("lanes[0].lane.focus()");
  await page.press("ArrowUp");
  assert.equal(await page.js("document.activeElement.getAttribute('aria-label')"), "west", "the lane above, as shown");
  await page.js("lanes[0].fold.click()");
  await page.settle();
  assert.deepEqual(await page.js("[lanes[0].head.offsetHeight, size.heights[0], lanes[0].fold.ariaExpanded]"),
    [20, 20, "false"]);
  assert.equal(await page.text("hidden"), "Folded: manager.");
  assert.deepEqual(await page.js("[...run.messages.ids.keys()].map((m) => foldedEnds(run, size, m))"), [1, 1, 1, 1]);
  const cut = await page.cut();
  await page.click(0, 4);
  assert.deepEqual(await page.cut(), cut, "no event of a folded lane is clicked");
  await page.js("lanes[1].fold.click()");
  await page.settle();
  assert.equal(await page.text("hidden"),
    "Folded: east, manager. 2 messages in view, between folded lanes, are hidden.");
  await page.js("cutTo(0, 4)");
  assert.equal(await page.js("isConsistent(run, state.cut) && state.cut[0]"), 4);
  await page.until(`location.hash.includes('lanes=1,2,0&folded=0,1') && ${WRITTEN}`);
  const fragment = await page.js("location.hash");
  await page.js("select(1, 3)");
  assert.deepEqual(await page.js("state.folded"), [true, false, false], "what is selected is seen");
  await page.js("byId('reset-lanes').click()");
  assert.deepEqual([await heads(), await page.js("state.folded.includes(true) || !byId('reset-lanes').disabled")],
    ["manager,east,west", false]);
  await page.close();
  const again = await Page.open(file, fragment, { width: 390, dark: true });
  await again.call("Emulation.setTouchEmulationEnabled", { enabled: true, maxTouchPoints: 1 });
  assert.deepEqual(await again.js("[state.order, state.folded]"), [[1, 2, 0], [true, true, false]]);
  assert.equal(await again.js("document.documentElement.scrollWidth > document.documentElement.clientWidth"), false,
    "nothing stands out of a phone");
  const [u, v] = await again.js("(({ left, top }) => [left + 8, top + 10])(lanes[0].grip.getBoundingClientRect())");
  const touch = (type, ...touchPoints) => again.call("Input.dispatchTouchEvent", { type, touchPoints });
  await touch("touchStart", { x: u, y: v });
  for (let k = 1; k <= 6; k++) await touch("touchMove", { x: u, y: v - 40 * k });
  await touch("touchEnd");
  await again.settle();
  assert.deepEqual(await again.js("state.order"), [0, 1, 2], "dragged by a finger");
  await again.close();
});

test("what is shown is saved as a drawing, in which no text is mark-up", needed, async () => {
  const page = await Page.open(example("failover"));
  const look = `(() => {
    const text = drawingText(run, state, palette, size, lanes);
    const { documentElement: svg } = new DOMParser().parseFromString(text, "image/svg+xml");
    return { root: svg.localName, circles: svg.querySelectorAll("circle").length,
             scripts: svg.querySelectorAll("script, image, foreignObject, use, [style]").length,
             texts: [...svg.querySelectorAll("text")].map((each) => each.textContent),
             links: (text.match(/https?:[^"]*/g) ?? []).join() };
  })()`;
  const plain = await page.js(look);
  assert.deepEqual([plain.root, plain.circles, plain.scripts], ["svg", 13, 0]);
  for (const word of ["manager", "east", "west", "2/4", "leader = 1"]) assert.ok(plain.texts.includes(word), word);
  assert.equal(plain.links, "http://www.w3.org/2000/svg", "it asks for nothing");
  const name = "</text><script>alert(1)</script>&\"";
  await page.js(`select(1, 3); run.names[2] = ${JSON.stringify(name)}; lanes[0].fold.click(); byId("only").click()`);
  const nasty = await page.js(look);
  assert.deepEqual([nasty.root, nasty.scripts], ["svg", 0]);
  assert.ok(nasty.texts.some((text) => text.startsWith("</text><script>")));
  await page.js(`globalThis.saved = []; HTMLAnchorElement.prototype.click = function () {
    saved.push([this.download, this.href.slice(0, 5)]); }; byId("save-drawing").click(); 0`);
  assert.deepEqual(await page.js("saved"), [["run.svg", "blob:"]]);
  await page.close();
});

test("an observation is a film", needed, async () => {
  const page = await Page.open(example("failover"));
  await page.click(1, 3);
  await page.button("Play the counterexample", 0);
  assert.equal(await page.js("state.selected"), null, "nothing is shaded");
  await page.until("state.film.step > 0");
  await page.js("pause(); toStep(0)");
  assert.deepEqual(await page.cut(), [0, 0, 0]);
  await page.js("byId('film-on').click(); byId('film-on').click()");
  assert.deepEqual(await page.cut(), [2, 0, 0]);
  await page.js("byId('film-step').value = 11; byId('film-step').dispatchEvent(new Event('input'))");
  assert.deepEqual(await page.cut(), [2, 5, 4]);
  await page.js("byId('film-back').click()");
  assert.deepEqual(await page.cut(), [2, 4, 4]);
  await page.js("byId('film-speed').value = '30'; document.activeElement.blur()");
  await page.press(" ");
  await page.until("state.film.step === run.eventCount && byId('film-play').textContent === 'Play'");
  assert.deepEqual(await page.cut(), [4, 5, 4], "played to its end");
  await page.press("Escape");
  assert.equal(await page.js("byId('film').hidden"), true);
  await page.close();
});

test("the address has the cut, the view, the event and the film", needed, async () => {
  const file = example("failover");
  const page = await Page.open(file);
  await page.click(1, 3);
  await page.js("openFilm(1, 4)");
  await page.until(`location.hash.includes('film=two_writers.4') && location.hash.includes('event=east.3')
    && ${WRITTEN}`);
  const fragment = await page.js("location.hash");
  const cut = await page.cut();
  await page.close();
  const again = await Page.open(file, fragment);
  assert.deepEqual(await again.cut(), cut);
  assert.deepEqual(await again.js("[state.selected.p, state.selected.i, state.film.k, state.film.step]"), [1, 3, 1, 4]);
  await again.js("location.hash = '#cut=1,0,0'");
  await again.until("String(state.cut) === '1,0,0'");
  await again.close();
  const other = await Page.open(file, "#cut=2,2,0");
  assert.match(await other.text("status"), /^No predicate is true at this cut\./);
  await other.js("location.hash = '#cut=2,0,2'");
  await other.until("String(state.cut) === '2,0,2'");
  assert.match(await other.text("status"), /^two_leaders is true at this cut\./);
  await other.close();
});

test("a message with several receipts has all of them, and ids are never mark-up", needed, async () => {
  const ids = ["</script><script>alert(1)</script>", "<!--<script>", "<img src=x onerror=alert(1)>", "\"\\\u0001"];
  const page = await Page.open(made("copied", { version: 2, predicates: [{ name: "q", text: "a.x < 5" }],
    processes: ["a", "b", "c"].map((name) => ({ name, vars: { x: 0 } })) },
    [[{ process: "a" }, ...ids.map((send) => ({ send }))], [{ process: "b" }, ...ids.map((recv) => ({ recv }))],
     [{ process: "c" }, { recv: ids[0] }, { set: { x: 1 } }]]));
  await page.js("for (let p = 0; p < run.size; p++) for (let i = 1; i <= run.counts[p]; i++) select(p, i)");
  assert.equal(await page.js("document.querySelectorAll('img, iframe, a').length"), 0);
  assert.equal(await page.js("document.querySelectorAll('script').length"), 13);
  await page.js("select(0, 1)");
  assert.match(await page.text("event-body"), /received by b#1 c#1/);
  await page.js("setCut([0, 0, 0]); cutTo(2, 1)");
  assert.deepEqual(await page.cut(), [1, 0, 1]);
  assert.match(await page.text("status"), /a#1 came with it, for it sends .* to c#1/);
  await page.js("setCut(run.counts.slice()); cutTo(0, 0)");
  assert.deepEqual(await page.cut(), [0, 0, 0]);
  await page.close();
});

test("no other script runs", needed, async () => {
  const page = await Page.open(example("failover"));
  await page.js("document.body.append(Object.assign(document.createElement('script'), { text: 'window.ran = 1' })); 0");
  assert.equal(await page.js("window.ran ?? 0"), 0);
  assert.ok(page.messages.every((message) => message.includes("Content Security Policy")));
  page.messages = [];
  await page.close();
});

test("a refused cycle is marked, and has no cut", needed, async () => {
  const page = await Page.open(example("refused-cycle", 1));
  const words = (await page.text("cycle")).replace(/\s+/g, " ");
  assert.match(words, /left#2 receives answer from right#2, which comes after right#1/);
  assert.match(words, /right#1 receives question from left#3, which comes after left#2/);
  assert.equal(await page.js("getComputedStyle(byId('verdict'), '::before').content"), "\"✗ \"");
  assert.deepEqual(await page.js("[...document.querySelectorAll('.of-cuts')].filter((each) => each.offsetHeight > 0)"),
    [], "nothing of cuts is shown");
  await page.click(1, 2);
  assert.equal(await page.text("event-title"), "Event right#2");
  await page.press("m");
  assert.equal(await page.text("event-title"), "Event left#2");
  await page.js("lanes[0].lane.focus()");
  await page.press("ArrowRight");
  assert.equal(await page.text("event-title"), "Event left#3");
  await page.press("Enter", "u", "c", "Home");
  assert.equal(await page.text("event-title"), "Event left#1");
  await page.until("location.hash.includes('event=left.1') && !location.hash.includes('cut=')");
  await page.close();
});

test("a page without events, narrow and dark", needed, async () => {
  const page = await Page.open(made("empty", { predicates: [{ name: "q", text: "a.x > 5" }],
    processes: [{ name: "a", vars: { x: 0 } }] }, [[{ process: "a" }]]), "", { width: 400, dark: true });
  await page.button("Play the counterexample", 0);
  await page.press(" ", "Escape", "0", "c", ",", ".", "u");
  await page.js("lanes[0].lane.focus()");
  await page.press("ArrowRight", "End");
  assert.deepEqual(await page.cut(), [0]);
  await page.close();
});

test("a dark page is printed on white, with the whole run, and then it is as before", needed, async () => {
  const page = await Page.open(example("gossip"), "", { dark: true });
  await page.js("setView(10, 30)");
  const view = () => page.js("[state.view.left, state.view.scale, size.width, size.lane, size.ratio]");
  const before = await view();
  await page.js(`globalThis.papers = [];
    const look = () => printing && papers.push([state.view.left, state.view.scale === fitScale(run, size.width),
      ...canvas.getContext("2d").getImageData(canvas.width - 2, canvas.height - 2, 1, 1).data]);
    addEventListener("beforeprint", look);
    matchMedia("(prefers-color-scheme: dark)").addEventListener("change", look); 0`);
  await page.call("Page.printToPDF", { preferCSSPageSize: true });
  await page.settle();
  const papers = await page.js("papers");
  assert.ok(papers.length > 0);
  for (const paper of papers) assert.deepEqual(paper, [0, true, 255, 255, 255, 255]);
  assert.deepEqual(await view(), before);
  await page.close();
});

test("a large run is opened, drawn and moved in", needed, async () => {
  const page = await Page.open(ring(16, 10000));
  const drawn = await page.js(`(() => {
    const times = [26, 6, 1, 0].map((scale) => {
      setView(run.lastColumn / 2, scale);
      const start = performance.now();
      draw();
      return Math.round(performance.now() - start);
    });
    const [entry] = performance.getEntriesByType("navigation");
    return [Math.round(entry.loadEventEnd), ...times];
  })()`);
  await page.js("cutTo(0, 5000); select(0, 4997)");
  assert.equal(await page.js("isConsistent(run, state.cut)"), true);
  await page.js("lanes[3].lane.focus()");
  await page.press("ArrowRight", "End", "Home");
  assert.equal(await page.js("isConsistent(run, state.cut)"), true);
  console.log(`  160,000 events: loaded after ${drawn[0]} ms, drawn in ${drawn.slice(1).join(", ")} ms`);
  const taken = await page.js(`[["only", toggleOnly], ["all", toggleOnly], ["folded", () => toggleFold(3)],
    ["moved", () => toPlace(5, 0)], ["SVG", () => drawingText(run, state, palette, size, lanes)]].map(([what, act]) => {
      const start = performance.now();
      act();
      draw();
      return what + " " + Math.round(performance.now() - start) + " ms";
    }).join(", ")`);
  console.log("  and drawn anew: " + taken);
  await page.close();
});
