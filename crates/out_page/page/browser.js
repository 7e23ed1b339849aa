"use strict";
// A headless Chromium that is driven over a pipe, and pages for it: of examples, of sessions that are made, and of
// these with other data. No message may stand on a page's console, and nothing but the page be asked for.
const { test } = require("node:test");
const assert = require("node:assert");
const { spawn, spawnSync } = require("node:child_process");
const fs = require("node:fs");
const os = require("node:os");
const path = require("node:path");

const { MONITOR, EXAMPLES, CHROMIUM } = process.env;
const folder = fs.mkdtempSync(path.join(os.tmpdir(), "explore-browser-"));

// ---- the browser ------------------------------------------------------------------------------------------------

class Browser {
  constructor() {
    this.process = spawn(CHROMIUM, ["--headless=new", "--no-sandbox", "--disable-gpu", "--disable-dev-shm-usage",
      "--no-first-run", "--user-data-dir=" + path.join(folder, "profile"), "--remote-debugging-pipe", "about:blank"],
      { stdio: ["ignore", "ignore", "ignore", "pipe", "pipe"], detached: true });
    this.waiting = new Map();
    this.heard = new Map();
    this.next = 0;
    let rest = Buffer.alloc(0);
    this.process.stdio[4].on("data", (piece) => {
      rest = Buffer.concat([rest, piece]);
      for (let end = rest.indexOf(0); end >= 0; end = rest.indexOf(0)) {
        this.receive(JSON.parse(rest.subarray(0, end).toString()));
        rest = rest.subarray(end + 1);
      }
    });
  }

  receive(message) {
    if (message.id === undefined) return this.heard.get(message.sessionId)?.(message);
    const { resolve, reject } = this.waiting.get(message.id);
    this.waiting.delete(message.id);
    if (message.error !== undefined) reject(new Error(message.error.message));
    else resolve(message.result);
  }

  call(method, params = {}, sessionId = undefined) {
    const id = ++this.next;
    return new Promise((resolve, reject) => {
      this.waiting.set(id, { resolve, reject });
      this.process.stdio[3].write(JSON.stringify({ id, method, params, sessionId }) + "\0");
    });
  }
}

let browser = null;
test.before(() => { browser = new Browser(); });
test.after(async () => {
  const exited = new Promise((resolve) => browser.process.once("exit", resolve));
  // With all that it started, which would write to its folder for a while.
  process.kill(-browser.process.pid, "SIGKILL");
  await exited;
  fs.rmSync(folder, { recursive: true, force: true, maxRetries: 20, retryDelay: 50 });
});

const KEYS = { ArrowLeft: 37, ArrowUp: 38, ArrowRight: 39, ArrowDown: 40, Home: 36, End: 35, Enter: 13, Escape: 27,
               Backspace: 8, " ": 32 };

class Page {
  static async open(file, fragment = "", { width = 1400, height = 900, dark = false } = {}) {
    const page = new Page();
    page.url = "file://" + file;
    page.messages = [];
    page.asked = new Set();
    const { targetId } = await browser.call("Target.createTarget", { url: "about:blank" });
    page.target = targetId;
    page.session = (await browser.call("Target.attachToTarget", { targetId, flatten: true })).sessionId;
    browser.heard.set(page.session, ({ method, params }) => page.hear(method, params));
    for (const domain of ["Page", "Runtime", "Log", "Network"]) await page.call(domain + ".enable");
    await page.call("Emulation.setDeviceMetricsOverride", { width, height, deviceScaleFactor: 1, mobile: false });
    await page.call("Emulation.setEmulatedMedia",
      { features: [{ name: "prefers-color-scheme", value: dark ? "dark" : "light" }] });
    const loaded = new Promise((resolve) => { page.onload = resolve; });
    await page.call("Page.navigate", { url: page.url + fragment });
    await loaded;
    await page.settle();
    return page;
  }

  hear(method, params) {
    if (method === "Page.loadEventFired") this.onload();
    if (method === "Log.entryAdded") this.messages.push(params.entry.text);
    if (method === "Runtime.consoleAPICalled") this.messages.push(JSON.stringify(params.args));
    if (method === "Runtime.exceptionThrown") this.messages.push(params.exceptionDetails.text);
    if (method === "Network.requestWillBeSent") this.asked.add(params.request.url.split("#")[0]);
  }

  call(method, params) {
    return browser.call(method, params, this.session);
  }

  async js(expression) {
    const { result, exceptionDetails } = await this.call("Runtime.evaluate",
      { expression, returnByValue: true, awaitPromise: true, replMode: true });
    assert.equal(exceptionDetails, undefined, expression);
    return result.value;
  }

  // Waits for two frames. Without the `await` it would get the promise itself.
  settle() {
    return this.js("await new Promise((done) => requestAnimationFrame(() => requestAnimationFrame(() => done(0))))");
  }

  // Waits until something holds in the page; the test's own limit ends it if it never does.
  async until(expression) {
    while (!(await this.js(expression))) await new Promise((resolve) => setTimeout(resolve, 20));
  }

  cut() {
    return this.js("state.cut");
  }

  text(id) {
    return this.js(`byId(${JSON.stringify(id)}).textContent`);
  }

  // Where an event stands in the window, and where the cut's grip of a lane does.
  place(p, i) {
    return this.js(`[canvas.getBoundingClientRect().left + xOf(state.view, run.columns[${p}][${i}]),
                     canvas.getBoundingClientRect().top + laneY(size, ${p})]`);
  }

  grip(p) {
    return this.js(`[canvas.getBoundingClientRect().left + cutX(run, state, ${p}),
                     canvas.getBoundingClientRect().top + laneY(size, ${p})]`);
  }

  mouse(type, x, y, more = {}) {
    return this.call("Input.dispatchMouseEvent", { type, x, y, button: "left", clickCount: 1, ...more });
  }

  async click(p, i, more = {}) {
    const [x, y] = await this.place(p, i);
    await this.mouse("mousePressed", x, y, more);
    await this.mouse("mouseReleased", x, y, more);
    await this.settle();
  }

  async drag(start, end, steps = 8) {
    await this.mouse("mousePressed", ...start);
    for (let k = 1; k <= steps; k++) {
      const [x, y] = start.map((from, axis) => from + (end[axis] - from) * k / steps);
      await this.mouse("mouseMoved", x, y, { buttons: 1 });
    }
    await this.mouse("mouseReleased", ...end);
    await this.settle();
  }

  async press(...keys) {
    for (const key of keys) {
      const windowsVirtualKeyCode = KEYS[key] ?? key.toUpperCase().charCodeAt(0);
      const text = key === "Enter" ? "\r" : key.length === 1 ? key : undefined;
      await this.call("Input.dispatchKeyEvent",
        { type: text === undefined ? "rawKeyDown" : "keyDown", key, text, windowsVirtualKeyCode });
      await this.call("Input.dispatchKeyEvent", { type: "keyUp", key, windowsVirtualKeyCode });
    }
    await this.settle();
  }

  async button(words, number = 0) {
    await this.js(`[...document.querySelectorAll("button")].filter((each) => each.textContent === ` +
      `${JSON.stringify(words)})[${number}].click()`);
    await this.settle();
  }

  async close() {
    await browser.call("Target.closeTarget", { targetId: this.target });
    browser.heard.delete(this.session);
    assert.deepEqual(this.messages, []);
    assert.deepEqual([...this.asked], [this.url]);
  }
}

// ---- pages ------------------------------------------------------------------------------------------------------

function pageOf(name, spec, streams, expected = 0) {
  const { stdout, status } = spawnSync(MONITOR, ["explore", spec, ...streams], { maxBuffer: 2 ** 30 });
  assert.equal(status, expected, stdout.toString().slice(0, 200));
  const file = path.join(folder, name + ".html");
  fs.writeFileSync(file, stdout);
  return file;
}

function example(name, expected = 0) {
  const here = path.join(EXAMPLES, name);
  const streams = fs.readdirSync(here).filter((file) => file.endsWith(".stream")).map((file) => path.join(here, file));
  return pageOf(name, path.join(here, "session.json"), streams, expected);
}

function made(name, document, streams) {
  const spec = path.join(folder, name + ".json");
  fs.writeFileSync(spec, JSON.stringify(document));
  return pageOf(name, spec, streams.map((lines, p) => {
    const file = path.join(folder, name + p);
    fs.writeFileSync(file, [...lines, { end: true }].map((line) => JSON.stringify(line)).join("\n") + "\n");
    return file;
  }));
}

// A ring: each process gets a message from the one before it, now and then, and counts.
function ring(processes, events) {
  const names = Array.from({ length: processes }, (_, p) => "p" + p);
  const streams = names.map((process, p) => [{ process }, ...Array.from({ length: events }, (_, i) => {
    if (i % 10 === 3) return { send: `m${p}.${i}` };
    if (i % 10 === 7 && i > 13) return { recv: `m${(p + processes - 1) % processes}.${i - 14}`, set: { x: i } };
    return { set: { x: i } };
  })]);
  return made("ring" + processes, { width: 1, processes: names.map((name) => ({ name, vars: { x: 0 } })),
    predicates: [{ name: "high", text: "p0.x > 5" }, { name: "never", text: "p1.x < 0 and p2.x < 0" }] }, streams);
}

const needed = { skip: [MONITOR, EXAMPLES, CHROMIUM].includes(undefined) && "MONITOR, EXAMPLES or CHROMIUM isn't set",
                 timeout: 120000 };

// A page with other data: what `change` makes of the data of this one.
function changed(file, name, change) {
  const page = fs.readFileSync(file, "utf8");
  const [, before, data, after] = /^([\s\S]*<script type="application\/json" id="data">)([\s\S]*?)(<\/script>[\s\S]*)$/
    .exec(page);
  const text = JSON.stringify(change(JSON.parse(data))).replace(/[&<>\u007f]/g, (sign) =>
    "\\u00" + sign.charCodeAt(0).toString(16).padStart(2, "0"));
  const other = path.join(folder, name + ".html");
  fs.writeFileSync(other, before + text + after);
  return other;
}

module.exports = { Page, example, made, ring, changed, needed };
