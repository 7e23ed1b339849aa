"use strict";
// What the pointer does on the drawing and on the overview: the state is that of the page.

// Where each finger is, and the pinch of two: the column between them stays between them.
const fingers = new Map();
let pinch = null;

function spread() {
  const [one, other] = [...fingers.values()];
  return { middle: (one.x + other.x) / 2, apart: Math.max(20, Math.hypot(one.x - other.x, one.y - other.y)) };
}

function startPinch() {
  const { middle, apart } = spread();
  pinch = { column: columnAt(state.view, middle), scale: state.view.scale, apart };
}

function movePinch() {
  const { middle, apart } = spread();
  stretch(pinch.scale * apart / pinch.apart, pinch.column, middle);
}

// What is dragged: the grip of a lane's cut, or the ground.
let drag = null;

function placeOf(event) {
  const box = canvas.getBoundingClientRect();
  return { x: event.clientX - box.left, y: event.clientY - box.top };
}

function press(event) {
  if (event.button !== 0) return;
  const { x, y } = placeOf(event);
  if (event.pointerType === "touch") fingers.set(event.pointerId, { x, y });
  hideTip();
  if (fingers.size >= 2) {
    drag = null;
    return startPinch();
  }
  const grip = gripNear(run, state, size, x, y);
  if (grip !== null && grip.edge) return reveal(run.columns[grip.p][state.cut[grip.p]]);
  canvas.setPointerCapture(event.pointerId);
  if (grip !== null) {
    pause();
    drag = { p: grip.p, start: state.cut, kept: false };
  } else drag = { x, left: state.view.left, moved: false };
}

function follow(event) {
  const { x, y } = placeOf(event);
  if (fingers.has(event.pointerId)) fingers.set(event.pointerId, { x, y });
  if (pinch !== null) return movePinch();
  if (drag === null) return hover(x, y);
  if (drag.start !== undefined) return dragGrip(x);
  if (Math.abs(x - drag.x) > 4) drag.moved = true;
  if (drag.moved) setView(drag.left - (x - drag.x) / state.view.scale, state.view.scale);
  canvas.style.cursor = drag.moved ? "grabbing" : "";
}

function dragGrip(x) {
  const margin = 24;
  if (x < margin || x > size.width - margin) {
    setView(state.view.left + (x < margin ? -8 : 8) / state.view.scale, state.view.scale);
  }
  const count = countUpTo(run.columns[drag.p], columnAt(state.view, x));
  const { cut, forced } = moveTo(run, drag.start, drag.p, count);
  if (String(cut) === String(state.cut)) return;
  state.lane = drag.p;
  setCut(cut, { forced, from: drag.start, keep: !drag.kept, text: moveText(run, drag.start, cut, drag.p, forced) });
  drag.kept = true;
}

// One finger less: what is left of a pinch goes along the run.
function lift(event) {
  drag = null;
  canvas.style.cursor = "";
  if (!fingers.delete(event.pointerId) || pinch === null) return;
  if (fingers.size >= 2) return startPinch();
  pinch = null;
  const [left] = fingers.values();
  drag = { x: left.x, left: state.view.left, moved: true };
}

function turnWheel(event) {
  const { x } = placeOf(event);
  if (event.ctrlKey) {
    event.preventDefault();
    return zoom(Math.exp(-event.deltaY * (event.deltaMode === 1 ? 0.05 : 0.0025)), x);
  }
  const delta = (Math.abs(event.deltaX) > Math.abs(event.deltaY) ? event.deltaX : event.deltaY) *
    (event.deltaMode === 1 ? 20 : 1);
  const { left } = state.view;
  setView(left + delta / state.view.scale, state.view.scale);
  if (state.view.left !== left) event.preventDefault();
}

function watchPointer() {
  canvas.addEventListener("pointerdown", press);
  canvas.addEventListener("pointermove", follow);
  canvas.addEventListener("pointerup", (event) => {
    if (drag !== null && drag.start === undefined && !drag.moved) click(event, placeOf(event));
    lift(event);
  });
  canvas.addEventListener("pointercancel", lift);
  canvas.addEventListener("touchmove", (event) => {
    if (event.touches.length > 1 && event.cancelable) event.preventDefault();   // the page isn't zoomed as well
  }, { passive: false });
  canvas.addEventListener("pointerleave", (event) => { if (event.pointerType !== "touch") hideTip(); });
  canvas.addEventListener("wheel", turnWheel, { passive: false });
  watchOverview();
}

function watchOverview() {
  let held = false;
  const pan = (event) => {
    const box = overview.getBoundingClientRect();
    const column = (event.clientX - box.left) / (strip.width / (run.lastColumn + 1));
    setView(column - size.width / 2 / state.view.scale, state.view.scale);
  };
  overview.addEventListener("pointerdown", (event) => {
    held = true;
    overview.setPointerCapture(event.pointerId);
    pan(event);
  });
  overview.addEventListener("pointermove", (event) => { if (held) pan(event); });
  overview.addEventListener("pointerup", () => { held = false; });
}

function click(event, { x, y }) {
  const near = eventNear(run, state, size, x, y);
  if (near === null) {
    if (state.selected !== null) select(null);
    const m = messageUnder(x, y);
    if (m === null) return;
    showTip(messageText(m), x, y);   // a finger that taps a message doesn't hover over it
    return say(messageText(m) + ".");
  }
  select(near.p, near.i);
  if (!event.shiftKey) cutTo(near.p, near.i);
}

function hover(x, y) {
  const grip = gripNear(run, state, size, x, y);
  const near = eventNear(run, state, size, x, y);
  canvas.style.cursor = grip !== null ? (grip.edge ? "pointer" : "ew-resize") : near !== null ? "pointer" : "grab";
  if (grip !== null && !grip.edge) return hideTip();
  if (near !== null) return showTip(eventText(run, near.p, near.i), x, y);
  const m = messageUnder(x, y);
  if (m === null) return hideTip();
  showTip(messageText(m), x, y);
}

function messageUnder(x, y) {
  return state.view.scale >= DOT_SCALE ? messageNear(run, state, size, x, y) : null;
}

function messageText(m) {
  const { from, fromEvent, to, toEvent, ids } = run.messages;
  return plainText(ids[m]) + ": " + placeText(run, from[m], fromEvent[m]) +
    (to[m] < 0 ? ", in flight" : " to " + placeText(run, to[m], toEvent[m]));
}

function showTip(text, x, y) {
  const tip = byId("tip");
  tip.hidden = false;
  tip.textContent = text;
  const left = Math.max(4, Math.min(x + 14, size.width - tip.offsetWidth - 4));
  const below = y + 18;
  tip.style.left = left + "px";
  tip.style.top = (below + tip.offsetHeight > size.height ? y - tip.offsetHeight - 12 : below) + "px";
}

function hideTip() {
  byId("tip").hidden = true;
}
