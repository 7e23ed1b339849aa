"use strict";
// The page: its state, and what keys and buttons do to it.

const FILM_SPEEDS = [1, 2, 4, 10, 30, 100, 300, 1000];
const UNDO_LIMIT = 200;
// On paper, which is a landscape page of A4 or of Letter: how wide the run is drawn with its names, of which these take
// at least some, and how high at most; from how many pixels of a column on it is shown whole, how many a column has if
// not, and how fine a pixel is.
const PAPER = { width: 958, names: 138, height: 400, whole: 9, scale: 26, ratio: 3 };
const HOW_TO_MOVE = "Move it: click an event, drag a grip, or use the arrow keys on a lane.";

window.addEventListener("error", (event) => { byId("status").textContent = "The page failed: " + event.message; });

const data = JSON.parse(byId("data").textContent);
byId("data").remove();
const run = readRun(data);
run.wishes = readWishes(run, run.cycle !== null ? [] : data.wishes ?? []);
run.notes = (data.notes ?? []).length === 0 ? null : new Notes(run, data.notes);

const state = {
  cut: run.counts.map(() => 0), before: run.counts.map(() => 0), forced: [], undo: [],
  lane: 0, focused: false, selected: null, cone: null, shown: -1, typed: null, film: null, query: "", hits: [], hit: -1,
  view: { left: 0, scale: 1 }, listing: { p: 0, first: 1 },
  order: [...run.names.keys()], folded: run.names.map(() => false), only: false,
};
const actions = { show, showCut, playFilm, select, cutTo, unselect: () => select(null) };
const canvas = byId("diagram");
const overview = byId("overview");
const size = { width: 0, height: 0, top: 0, lane: 0, ratio: 1, order: [], folded: [], heights: [], tops: [] };
const strip = { width: 0, height: 0, ground: null };
let palette = readPalette();
let cards = [];
let rows = [];
let lanes = [];
let asked = false;
let timer = 0;
let said = 0;
let searching = 0;
let printing = false;

// ---- drawing ----------------------------------------------------------------------------------------------------

function measure() {
  const shell = byId("picture");
  size.ratio = printing ? PAPER.ratio : Math.max(1, window.devicePixelRatio || 1);
  layOut(size, state, printing ? PAPER.height : Math.min(window.innerHeight * 0.6, 720));
  size.width = printing ? PAPER.width - Math.max(PAPER.names, byId("lanes").offsetWidth)
    : Math.max(120, Math.floor(shell.clientWidth));
  document.documentElement.style.setProperty("--lane-height", size.lane + "px");
  fitCanvas(canvas, size.width, size.height);
  strip.width = Math.max(120, Math.floor(byId("stage").clientWidth));
  strip.height = Math.max(26, Math.min(60, 8 + 3 * run.size));
  fitCanvas(overview, strip.width, strip.height);
  strip.ground = drawGround(run, state.order, palette, strip.width, strip.height, size.ratio);
  if (!printing) return setView(state.view.left, state.view.scale);
  state.view = paperView();
  draw();   // no frame may come before the page is on paper
}

function fitCanvas(which, width, height) {
  which.width = Math.round(width * size.ratio);
  which.height = Math.round(height * size.ratio);
  which.style.width = width + "px";
  which.style.height = height + "px";
}

function draw() {
  asked = false;
  const context = canvas.getContext("2d", { alpha: false });
  context.setTransform(size.ratio, 0, 0, size.ratio, 0, 0);
  const told = drawDiagram(context, run, state, palette, size);
  showHidden(told.between);
  byId("level").textContent = byId("level").title = (told.drawn < told.all
    ? "1 of " + Math.round(told.all / told.drawn) + " messages drawn. " : "") + (run.cycle !== null
    ? "Refused: a causal cycle" : "Level " + levelOf(state.cut) + ", cut " + state.cut.join(","));
  const small = overview.getContext("2d", { alpha: false });
  small.setTransform(size.ratio, 0, 0, size.ratio, 0, 0);
  drawOverview(small, run, state, palette, strip.ground, strip.width, strip.height, size.width);
}

function showHidden(between) {
  const text = hiddenText(run, state, between);
  if (byId("hidden").textContent !== text) byId("hidden").textContent = text;
}

// Asks for one drawing at the next frame, however often it is called before.
function redraw() {
  if (asked) return;
  asked = true;
  requestAnimationFrame(draw);
}

function setView(left, scale) {
  state.view = clampView(run, size.width, { left, scale });
  redraw();
  remember();
}

function zoom(factor, x = size.width / 2) {
  stretch(state.view.scale * factor, columnAt(state.view, x), x);
}

// Zooms to a scale, as far as that goes, with a column at x.
function stretch(wanted, column, x) {
  const { scale } = clampView(run, size.width, { left: 0, scale: wanted });
  setView(column - x / scale, scale);
}

// Moves the view so that a column stands in it, if it doesn't.
function reveal(column) {
  const x = xOf(state.view, column);
  if (x < 30 || x > size.width - 30) setView(column - size.width / 2 / state.view.scale, state.view.scale);
}

// A run that would be too narrow as a whole is shown in part first.
function firstScale() {
  return fitScale(run, size.width) < 14 ? 26 : 0;
}

// The columns of the last events in the cut, or of those of the causal cycle.
function cutColumns() {
  return run.cycle === null ? state.cut.map((count, p) => run.columns[p][count])
    : run.cycle.flatMap(({ receipt, send }) => [receipt, send]).map(({ p, i }) => run.columns[p][i]);
}

// What is shown on paper: the whole run, if its events can be told apart so, and else what is around the whole cut.
function paperView() {
  const whole = fitScale(run, size.width);
  if (whole >= PAPER.whole) return clampView(run, size.width, { left: 0, scale: whole });
  const columns = cutColumns();
  const [first, last] = [Math.min(...columns), Math.max(...columns)];
  const scale = Math.min(PAPER.scale, size.width / (last - first + 4));
  return clampView(run, size.width, { left: (first + last + 1) / 2 - size.width / 2 / scale, scale });
}

// Moves the view so that the whole cut, or the causal cycle, stands in it, or at least what is on the lane of it, if it
// can't.
function revealCut() {
  const columns = cutColumns();
  const [first, last] = [Math.min(...columns), Math.max(...columns)];
  const { scale } = state.view;
  if ((last - first + 2) * scale > size.width) return reveal(run.cycle === null ? columns[state.lane] : first);
  if (xOf(state.view, first) < 30 || xOf(state.view, last) > size.width - 60) {
    setView((first + last) / 2 - size.width / 2 / scale, scale);
  }
}

// ---- the state --------------------------------------------------------------------------------------------------

// Shows another cut. `from` is the one that it is compared with, if not the one before.
function setCut(next, { forced = [], text = "", from = state.cut, keep = true } = {}) {
  if (keep && String(next) !== String(state.cut)) {
    state.undo.push(state.cut);
    if (state.undo.length > UNDO_LIMIT) state.undo.shift();
  }
  state.before = from;
  state.cut = next;
  state.forced = forced;
  list(state.lane, next[state.lane]);
  say([text, ...turned(run, from, next)].join(" "));
  update();
}

function move(p, count) {
  const before = state.cut;
  const { cut, forced, direction } = moveTo(run, before, p, count);
  if (direction === 0) return;
  state.lane = p;
  setCut(cut, { forced, text: moveText(run, before, cut, p, forced) });
  reveal(run.columns[p][cut[p]]);
}

function cutTo(p, count) {
  if (run.cycle !== null) return;
  pause();
  move(p, count);
}

function undo() {
  if (state.undo.length === 0) return;
  pause();
  setCut(state.undo.pop(), { keep: false, text: "The cut before." });
  revealCut();
}

function select(p, i) {
  state.selected = p === null ? null : { p, i };
  state.cone = p === null || run.cycle !== null ? null : coneOf(run, p, i);
  if (p !== null) {
    state.lane = p;
    if (state.folded[p]) setLanes(state.order, state.folded.map((is, q) => is && q !== p), p);
    list(p, i);
    reveal(run.columns[p][i]);
    say(eventText(run, p, i));
  }
  update();
}

function list(p, i) {
  const { first } = state.listing;
  if (state.listing.p !== p || i < first || i >= first + LISTING_ROWS) {
    state.listing = { p, first: Math.max(1, i - Math.floor(LISTING_ROWS / 2)) };
  }
}

function show(k) {
  state.shown = state.shown === k ? -1 : k;
  update();
}

function showCut(k) {
  closeFilm();
  state.shown = k;
  const { name, node, possibly } = run.predicates[k];
  const cut = possibly[1].slice();
  setCut(cut, { text: isTrue(node, reader(run, cut)) ? name + " is true at this cut."
    : "This page and the report disagree on " + name + " at this cut: the page is wrong." });
  revealCut();
}

function update() {
  updateView();
  updatePredicates(run, state, cards);
  updateTyped(run, state);
  updateValues(run, state, rows);
  updateEvent(run, state, actions);
  updateListing(run, state, actions);
  updateHeads(run, state, lanes);
  updateFilm();
  byId("undo").disabled = state.undo.length === 0;
  redraw();
  remember();
}

function say(text) {
  byId("status").textContent = text;
  clearTimeout(said);
  said = setTimeout(() => { byId("live").textContent = text; }, 400);
}

// ---- lanes ------------------------------------------------------------------------------------------------------

function makeLanes() {
  const on = {
    focus: (p) => {
      state.focused = true;
      state.lane = p;
      updateHeads(run, state, lanes);
      redraw();
    },
    blur: () => { state.focused = false; redraw(); },
    key: laneKey,
    fold: toggleFold,
    step: (p, step) => toPlace(p, state.order.indexOf(p) + step),
    grip: (event, p) => followGrip(event, size, p, (place) => toPlace(p, place)),
  };
  lanes = run.names.map((_, p) => makeLane(run, p, on));
  byId("lanes").append(...lanes.map(({ head }) => head));
}

// Gives the lanes another order, and folds some of them. Their heads stand beside what is drawn of them.
function setLanes(order, folded, lane = state.lane) {
  Object.assign(state, { order, folded, lane });
  orderHeads(lanes, order, lane);
  measure();
  update();
}

function toPlace(p, place) {
  if (place < 0 || place >= run.size || state.order[place] === p) return;
  setLanes(movedTo(state.order, p, place), state.folded, p);
  say(run.names[p] + " is lane " + (place + 1) + " of " + run.size + " now.");
}

function toggleFold(p) {
  setLanes(state.order, state.folded.map((is, q) => is !== (q === p)), p);
  say("The lane of " + run.names[p] + " is " + (state.folded[p] ? "folded." : "unfolded."));
}

// The processes that the shown predicate names, as first lanes.
function namedFirst() {
  const { name, refs } = run.predicates[state.shown];
  setLanes(withFirst(state.order, processesOf(refs)), state.folded);
  say("The processes that " + name + " names stand first.");
}

function resetLanes() {
  setLanes([...run.names.keys()], run.names.map(() => false));
  say("All lanes are unfolded, in the order of the document.");
}

function laneKey(event, p) {
  if (event.ctrlKey || event.altKey || event.metaKey || event.shiftKey) return;
  const step = { ArrowLeft: -1, ArrowRight: 1, PageUp: 10, PageDown: -10, Home: -Infinity, End: Infinity }[event.key];
  const within = (i) => Math.max(0, Math.min(run.counts[p], i));
  if (step !== undefined && run.cycle !== null) {
    const i = within((state.selected !== null && state.selected.p === p ? state.selected.i : 0) + step);
    if (run.counts[p] > 0) select(p, Math.max(1, i));
  } else if (step !== undefined) cutTo(p, within(state.cut[p] + step));
  else if (event.key === "ArrowUp" || event.key === "ArrowDown") {
    const q = state.order[state.order.indexOf(p) + (event.key === "ArrowUp" ? -1 : 1)];
    if (q !== undefined) lanes[q].lane.focus();
  } else return;
  event.preventDefault();
}

// ---- what matters -----------------------------------------------------------------------------------------------

// Shows only what matters to the shown predicate, or all again. The variables that are shown so stand in `onlyFor`.
let onlyFor = "";
function setOnly(on) {
  state.only = on;
  const wanted = on && state.shown >= 0 ? String(state.shown) : "";
  if (wanted === onlyFor) return;
  onlyFor = wanted;
  if (wanted === "") showAll(run);
  else showOnly(run, run.predicates[state.shown].refs);
  strip.ground = drawGround(run, state.order, palette, strip.width, strip.height, size.ratio);
  state.view = clampView(run, size.width, { left: 0, scale: firstScale() });
  if (run.cycle === null) revealCut();
}

function toggleOnly() {
  setOnly(!state.only);
  say(run.only === null ? "All events are shown." : "Only what matters to " + run.predicates[state.shown].name +
    " is shown.");
  update();
}

function updateView() {
  setOnly(state.only);
  byId("only").setAttribute("aria-pressed", String(run.only !== null));
  byId("only").disabled = byId("named-first").disabled = state.shown < 0;
  byId("reset-lanes").disabled = !state.folded.includes(true) && state.order.every((p, place) => p === place);
}

// ---- the film ---------------------------------------------------------------------------------------------------

function playFilm(k) {
  openFilm(k);
  if (run.eventCount > 0) play();
}

function openFilm(k, step = 0) {
  pause();
  const path = run.predicates[k].definitely[1];
  state.film = { k, path, steps: stepsOf(run, path), step: 0 };
  state.shown = k;
  const wanted = Math.max(2, run.eventCount / 20);
  byId("film-speed").value = String(FILM_SPEEDS.find((speed) => speed >= wanted) ?? 1000);
  byId("film-step").max = String(path.length);
  toStep(step);
}

function toStep(step) {
  const { film } = state;
  const before = film.step === step ? state.cut : cutAtStep(film.steps, Math.max(0, step - 1));
  film.step = step;
  const p = step > 0 ? film.path[step - 1] : -1;
  const next = cutAtStep(film.steps, step);
  if (p >= 0) state.lane = p;
  const name = run.predicates[film.k].name;
  setCut(next, { from: before, keep: timer === 0, text: p < 0 ? name + " is avoided from here: no event has happened."
    : "Step " + step + ": " + eventText(run, p, next[p]) + "." });
  if (p >= 0) reveal(run.columns[p][next[p]]);
}

function play() {
  if (timer !== 0) return pause();
  if (state.selected !== null) select(null);   // what is before and after an event isn't shaded while the film runs
  if (state.film.step >= run.eventCount) toStep(0);
  let last = performance.now();
  const turn = (now) => {
    const steps = Math.floor((now - last) * Number(byId("film-speed").value) / 1000);
    if (steps > 0) {
      last = now;
      toStep(Math.min(run.eventCount, state.film.step + steps));
      if (state.film.step >= run.eventCount) return pause();
    }
    timer = requestAnimationFrame(turn);
  };
  timer = requestAnimationFrame(turn);
  updateFilm();
}

function pause() {
  cancelAnimationFrame(timer);
  timer = 0;
  updateFilm();
}

function closeFilm() {
  pause();
  state.film = null;
  update();
}

function updateFilm() {
  const { film } = state;
  byId("film").hidden = film === null;
  if (film === null) return;
  byId("film-name").textContent = run.predicates[film.k].name + " avoided";
  byId("film-play").textContent = timer === 0 ? "Play" : "Pause";
  byId("film-step").value = String(film.step);
  byId("film-text").textContent = film.step + " of " + run.eventCount +
    (String(cutAtStep(film.steps, film.step)) === String(state.cut) ? "" : ", the cut was moved off it");
  byId("film-back").disabled = film.step === 0;
  byId("film-on").disabled = film.step === run.eventCount;
}

// ---- finding ----------------------------------------------------------------------------------------------------

function search() {
  const query = byId("query").value;
  clearTimeout(searching);
  if (query === state.query) return;
  state.query = query;
  state.hits = find(run, query);
  state.hit = -1;
  byId("matches").textContent = query.trim() === "" ? "" : state.hits.length === 0 ? "nothing found"
    : counted(state.hits.length, "event");
  redraw();
}

function toHit(step) {
  search();
  if (state.hits.length === 0) return;
  const count = state.hits.length;
  state.hit = state.hit < 0 ? (step > 0 ? 0 : count - 1) : (state.hit + step + count) % count;
  const { p, i, why } = state.hits[state.hit];
  select(p, i);
  byId("matches").textContent = state.hit + 1 + " of " + count.toLocaleString("en") + ": " + plainText(why);
}

// ---- keys -------------------------------------------------------------------------------------------------------

function pageKey(event) {
  if (event.ctrlKey || event.altKey || event.metaKey || byId("help").open) return;
  const field = event.target.closest("input, select, textarea");
  if (event.key === "Escape") {
    if (state.film !== null) closeFilm();
    else if (state.selected !== null) select(null);
    else if (field !== null) field.blur();
    return;
  }
  if (field !== null || event.defaultPrevented) return;
  const onButton = event.target.closest("button") !== null;
  const span = size.width / state.view.scale;
  const { selected } = state;
  const near = selected ?? { p: state.lane, i: state.cut[state.lane] };
  const beside = (step) => {
    const i = near.i + step;
    if (i >= 1 && i <= run.counts[near.p]) select(near.p, i);
  };
  const keys = {
    "/": () => byId("query").focus(), "?": () => byId("help").showModal(),
    n: () => toHit(1), p: () => toHit(-1), u: undo, c: revealCut,
    "+": () => zoom(1.5), "=": () => zoom(1.5), "-": () => zoom(1 / 1.5), 0: () => setView(0, 0),
    ",": () => beside(-1), ".": () => beside(1),
    m: () => {
      const end = selected === null ? undefined : messageOf(run, selected.p, selected.i)?.ends[0];
      if (end !== undefined) select(end.p, end.i);
    },
  };
  if (event.shiftKey && event.key === "ArrowLeft") setView(state.view.left - span / 4, state.view.scale);
  else if (event.shiftKey && event.key === "ArrowRight") setView(state.view.left + span / 4, state.view.scale);
  else if (event.key === "Enter" && !onButton && selected !== null) cutTo(selected.p, selected.i);
  else if (event.key === " " && !onButton && state.film !== null) play();
  else if (keys[event.key] !== undefined) keys[event.key]();
  else return;
  event.preventDefault();
}

// ---- what is taken along ----------------------------------------------------------------------------------------

async function copyText() {
  try {
    await navigator.clipboard.writeText(asText(run, state.cut));
    say("The verdict, the cut and its values are copied.");
  } catch {
    say("The browser lets this page copy nothing.");
  }
}

// ---- the address ------------------------------------------------------------------------------------------------

let written = "";
let writing = 0;
function remember() {
  clearTimeout(writing);
  writing = setTimeout(() => {
    written = "#" + fragmentOf(run, state);
    if (written !== location.hash) history.replaceState(null, "", written);
  }, 250);
}

function readAddress() {
  const given = readFragment(run, location.hash);
  state.only = given.only >= 0;
  if (given.view !== null) state.view = given.view;
  if (given.film !== null) openFilm(given.film.k, given.film.step);
  if (given.cut !== null) {
    setCut(given.cut, { from: given.cut, text: given.film !== null ? byId("status").textContent
      : truthText(run, given.cut) + " " + HOW_TO_MOVE });
  }
  if (state.only) state.shown = given.only;
  setLanes(given.order, given.folded);
  if (given.selected !== null) {
    state.selected = given.selected;
    state.cone = run.cycle !== null ? null : coneOf(run, given.selected.p, given.selected.i);
    state.lane = given.selected.p;
    list(given.selected.p, given.selected.i);
  }
  if (given.view !== null) setView(given.view.left, given.view.scale);
  update();
  return given;
}

// ---- the start --------------------------------------------------------------------------------------------------

function countsText() {
  return plainText(sessionName(run)) + ": " + counted(run.size, "process", "processes") + ", " +
    counted(run.eventCount, "event") + ", " + counted(run.received, "message") +
    (run.inFlight > 0 ? " and " + run.inFlight.toLocaleString("en") + " in flight" : "") +
    (run.notes === null ? "" : ", " + counted(run.notes.count, "note"));
}

// What stands above the run, and what is made once for it.
function makePage() {
  const came = cameOfAll(run.wishes);
  byId("verdict").textContent = verdictText(run);
  if (came !== "") byId("verdict").className = classOf(came);
  document.title = plainText(titleText(run));
  byId("counts").textContent = countsText();
  byId("wrong-notes").textContent = [wrongNotesText(run), wrongLinkText(run)].filter((text) => text !== "").join(" ");
  document.documentElement.classList.toggle("noted", run.notes !== null);
  makeLanes();
  cards = makePredicates(run, actions);
  rows = makeValues(run, actions);
  byId("typed").placeholder = "as " + (run.predicates[0]?.text ?? "true");
  run.names.forEach((name, p) => byId("listing-process").append(element("option", { value: String(p) }, name)));
  FILM_SPEEDS.forEach((speed) => byId("film-speed").append(element("option", { value: String(speed) }, String(speed))));
  canvas.setAttribute("aria-label", "The run: " + countsText() + ". " + (run.cycle !== null
    ? "An event is selected" : "The cut is moved") + " on the lanes beside; the events are listed as a table below.");
  if (run.cycle !== null) {
    document.documentElement.classList.add("cycle");
    byId("verdict").className = "broken";
    byId("lanes").setAttribute("aria-label", "The processes: which event is selected");
    byId("to-cut").textContent = "To the cycle";
    makeCycle(run, actions);
  }
  overview.hidden = run.lastColumn < 24;
  byId("stage").classList.toggle("last", overview.hidden);
}

// Opens at the first evidence, or at what the address says.
function openFirst() {
  const evidence = run.cycle === null ? firstEvidence(run) : null;
  state.shown = evidence?.k ?? 0;
  if (run.cycle !== null) {
    state.cut = state.before = run.counts.slice();
    say("The session is refused: its events make a causal cycle, which is marked.");
  } else if (evidence === null) say("The cut before all events. " + HOW_TO_MOVE);
  else if (evidence.is === "cut") {
    state.cut = state.before = run.predicates[evidence.k].possibly[1].slice();
    say(run.predicates[evidence.k].name + " is true at this cut. " + HOW_TO_MOVE);
  }
  setView(0, firstScale());
  state.lane = Math.max(0, state.cut.findIndex((count) => count > 0));
  list(state.lane, state.cut[state.lane]);
  if (evidence?.is === "film" && !/[#&](cut|film)=/.test(location.hash)) openFilm(evidence.k);
  const given = readAddress();
  if (given.view === null && given.selected !== null) reveal(run.columns[given.selected.p][given.selected.i]);
  else if (given.view === null) revealCut();
}

function onClick(id, act) {
  byId(id).addEventListener("click", act);
}

function watchTools() {
  const cutAt = (cut, text) => { pause(); setCut(cut, { text }); revealCut(); };
  onClick("to-empty", () => cutAt(run.counts.map(() => 0), "Nothing has happened."));
  onClick("to-full", () => cutAt(run.counts.slice(), "All has happened."));
  onClick("undo", undo);
  onClick("zoom-in", () => zoom(1.5));
  onClick("zoom-out", () => zoom(1 / 1.5));
  onClick("fit", () => setView(0, 0));
  onClick("to-cut", revealCut);
  onClick("save-picture", () => savePicture(run, state, palette, size, lanes, say));
  onClick("save-drawing", () => saveDrawing(run, state, palette, size, lanes, say));
  onClick("only", toggleOnly);
  onClick("named-first", namedFirst);
  onClick("reset-lanes", resetLanes);
  onClick("copy-text", copyText);
  onClick("help-button", () => byId("help").showModal());
}

function watchFilm() {
  onClick("film-play", play);
  onClick("film-back", () => { pause(); toStep(state.film.step - 1); });
  onClick("film-on", () => { pause(); toStep(state.film.step + 1); });
  onClick("film-close", closeFilm);
  byId("film-step").addEventListener("input", (event) => {
    const step = Number(event.target.value);
    pause();
    toStep(step);
  });
}

function watchListing() {
  onClick("listing-earlier", () => { state.listing.first -= LISTING_ROWS; updateListing(run, state, actions); });
  onClick("listing-later", () => { state.listing.first += LISTING_ROWS; updateListing(run, state, actions); });
  byId("listing-process").addEventListener("change", (event) => {
    const p = Number(event.target.value);
    state.listing = { p, first: Math.max(1, state.cut[p] - LISTING_ROWS / 2) };
    updateListing(run, state, actions);
  });
}

function watchFields() {
  onClick("previous", () => toHit(-1));
  byId("find").addEventListener("submit", (event) => { event.preventDefault(); toHit(1); });
  byId("query").addEventListener("keydown", (event) => {
    if (event.key === "Enter" && event.shiftKey) { event.preventDefault(); toHit(-1); }
  });
  byId("query").addEventListener("input", () => {
    clearTimeout(searching);
    searching = setTimeout(search, 120);
  });
  byId("typed").addEventListener("input", () => {
    state.typed = typedPredicate(run, byId("typed").value);
    updateTyped(run, state);
  });
  byId("type").addEventListener("submit", (event) => event.preventDefault());
}

function watchWindow() {
  document.addEventListener("keydown", pageKey);
  window.addEventListener("hashchange", () => { if (location.hash !== written) readAddress(); });
  new ResizeObserver(() => {
    if (Math.floor(byId("picture").clientWidth) !== size.width) measure();
  }).observe(byId("picture"));
  window.addEventListener("resize", measure);
  const recolour = () => { palette = readPalette(); measure(); };
  for (const query of ["(prefers-color-scheme: dark)", "(forced-colors: active)"]) {
    matchMedia(query).addEventListener("change", recolour);
  }
  let onScreen = null;
  const printed = (on) => {
    if (on === printing) return;
    document.documentElement.classList.toggle("printed", on);
    printing = on;
    if (on) onScreen = state.view;
    else state.view = onScreen;
    recolour();
  };
  window.addEventListener("beforeprint", () => printed(true));
  window.addEventListener("afterprint", () => printed(false));
}

function start() {
  makePage();
  measure();
  openFirst();
  watchPointer();
  watchTools();
  watchFilm();
  watchListing();
  watchFields();
  watchWindow();
}

if (run.refusal === null) start();
else showRefusal(run);
document.documentElement.classList.add("ready");
