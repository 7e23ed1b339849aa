"use strict";
// The lanes: their heads beside the drawing, their order, and which of them are folded to a thin line.

const FOLDED_HEIGHT = 20;
const ROOMY_LANE = 48;    // below the last one of lanes that are narrower, its numbers have some pixels more
const UNDER_LAST = 10;

// ---- where lanes stand ------------------------------------------------------------------------------------------

// Gives each lane its height, of a height that they share, and its place from the top.
function layOut(size, state, height) {
  const open = state.folded.filter((is) => !is).length;
  const share = (height - FOLDED_HEIGHT * (state.folded.length - open)) / Math.max(1, open);
  size.lane = Math.round(Math.max(34, Math.min(96, share)));
  size.order = state.order;
  size.folded = state.folded;
  size.heights = state.folded.map((is) => (is ? FOLDED_HEIGHT : size.lane));
  size.tops = [];
  let top = size.top;
  for (const p of state.order) {
    size.tops[p] = top;
    top += size.heights[p];
  }
  const last = state.order[state.order.length - 1];
  size.height = top + size.top + (size.heights[last] < ROOMY_LANE ? UNDER_LAST : 0);
}

function laneY(size, p) {
  return size.tops[p] + size.heights[p] / 2;
}

// The process whose lane has this height in it, or -1.
function laneAt(size, y) {
  return size.order.find((p) => y >= size.tops[p] && y < size.tops[p] + size.heights[p]) ?? -1;
}

// The place of a lane of which the middle is dragged to this height: the one at which it has its middle nearest to it.
function placeAt(size, p, y) {
  let middle = size.top + size.heights[p] / 2;
  let best = { place: 0, distance: Math.abs(y - middle) };
  size.order.filter((q) => q !== p).forEach((q, k) => {
    middle += size.heights[q];
    const distance = Math.abs(y - middle);
    if (distance < best.distance) best = { place: k + 1, distance };
  });
  return best.place;
}

// The order in which a lane stands at a place, and the others as before.
function movedTo(order, p, place) {
  const others = order.filter((q) => q !== p);
  return [...others.slice(0, place), p, ...others.slice(place)];
}

// The order in which the lanes of some processes come first.
function withFirst(order, first) {
  return [...order.filter((p) => first.has(p)), ...order.filter((p) => !first.has(p))];
}

// ---- their heads ------------------------------------------------------------------------------------------------

// A head has the slider that moves the cut, and a column of two controls beside it. Of all heads that of the current
// lane alone is reached by the key Tab.
function makeLane(run, p, on) {
  const name = run.names[p];
  const count = element("span", { class: "count" });
  const lane = element("div", { class: "lane", role: "slider", "aria-label": name, "aria-valuemin": "0",
    "aria-valuemax": String(run.counts[p]), "aria-orientation": "horizontal", title: name },
    element("span", { class: "name" }, name), count);
  const grip = element("button", { type: "button", class: "handle", "aria-label": "Move the lane of " + name,
    title: "drag the lane, or move it by the keys up and down" }, "⠿");
  const fold = element("button", { type: "button", class: "fold", click: () => on.fold(p) });
  const head = element("div", { class: "head" }, element("div", { class: "controls" }, grip, fold), lane);
  lane.addEventListener("focus", () => on.focus(p));
  lane.addEventListener("blur", on.blur);
  lane.addEventListener("keydown", (event) => on.key(event, p));
  grip.addEventListener("keydown", (event) => gripKey(event, p, on));
  grip.addEventListener("pointerdown", (event) => { if (event.button === 0) on.grip(event, p); });
  return { head, lane, count, grip, fold };
}

function gripKey(event, p, on) {
  if (event.key !== "ArrowUp" && event.key !== "ArrowDown") return;
  event.preventDefault();
  on.step(p, event.key === "ArrowUp" ? -1 : 1);
}

// Puts the heads in their order. One stays where it is, and the others are put around it: the pointer or the focus may
// be on it.
function orderHeads(lanes, order, stays) {
  const heads = order.map((p) => lanes[p].head);
  const place = order.indexOf(stays);
  heads[place].before(...heads.slice(0, place));
  heads[place].after(...heads.slice(place + 1));
}

function updateHeads(run, state, lanes) {
  lanes.forEach(({ head, lane, count, grip, fold }, p) => {
    const isShut = state.folded[p];
    lane.tabIndex = grip.tabIndex = fold.tabIndex = p === state.lane ? 0 : -1;
    head.classList.toggle("folded", isShut);
    fold.textContent = isShut ? "▸" : "▾";
    fold.title = (isShut ? "Unfold the lane of " : "Fold the lane of ") + run.names[p];
    fold.setAttribute("aria-label", fold.title);
    fold.setAttribute("aria-expanded", String(!isShut));
    updateSlider(run, state, lane, count, p);
  });
}

function updateSlider(run, state, lane, count, p) {
  if (run.cycle !== null) {
    const i = state.selected !== null && state.selected.p === p ? state.selected.i : 0;
    lane.setAttribute("aria-valuenow", String(i));
    lane.setAttribute("aria-valuetext", i === 0 ? "no event is selected" : eventText(run, p, i));
    count.textContent = counted(run.counts[p], "event");
    return;
  }
  const events = state.cut[p];
  lane.setAttribute("aria-valuenow", String(events));
  lane.setAttribute("aria-valuetext", events + " of " + run.counts[p] + " events in the cut" +
    (events === 0 ? "" : "; the last is " + eventText(run, p, events)));
  count.textContent = events + "/" + run.counts[p];
}

// Follows a pointer that drags a lane, until it is lifted: `place` is called with each place that it comes to.
function followGrip(event, size, p, place) {
  const box = byId("lanes");
  event.preventDefault();
  box.setPointerCapture(event.pointerId);
  box.classList.add("moving");
  const offset = laneY(size, p) - event.clientY;
  const move = ({ clientY }) => place(placeAt(size, p, clientY + offset));
  const end = () => {
    box.classList.remove("moving");
    box.removeEventListener("pointermove", move);
    for (const kind of ["pointerup", "pointercancel"]) box.removeEventListener(kind, end);
  };
  box.addEventListener("pointermove", move);
  for (const kind of ["pointerup", "pointercancel"]) box.addEventListener(kind, end);
}

// ---- what isn't shown -------------------------------------------------------------------------------------------

// What of the run is hidden, in words. `between` messages in view have both ends on folded lanes.
function hiddenText(run, state, between) {
  const parts = [];
  if (run.only !== null) {
    const { events, messages } = run.only;
    parts.push("Shown: the " + counted(events, "event") + " of " + run.eventCount.toLocaleString("en") + " that " +
      (events === 1 ? "sets" : "set") + " what " + run.predicates[state.shown].name + " names, and the " +
      counted(messages, "message") + " of " + run.received.toLocaleString("en") + " that " +
      (messages === 1 ? "orders" : "order") + " them. A dashed line hides events.");
  }
  const folded = state.order.filter((p) => state.folded[p]);
  if (folded.length > 0) {
    parts.push("Folded: " + folded.map((p) => run.names[p]).join(", ") + "." + (between === 0 ? ""
      : " " + counted(between, "message") + " in view, between folded lanes, " + (between === 1 ? "is" : "are") +
        " hidden."));
  }
  return parts.join(" ");
}

if (typeof module === "object") module.exports = { layOut, laneAt, laneY, placeAt, movedTo, withFirst };
