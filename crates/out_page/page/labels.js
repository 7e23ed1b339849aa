"use strict";
// The texts on the drawing that may be longer than there is room: notes at the dots, values beside the cut. What
// doesn't fit is cut, and nothing stands out of view.

const NOTE_ROOM = 34;       // pixels that a note has at least, or it isn't drawn
const NOTE_WIDTH = 320;     // and at most
const ROOM_BELOW = 64;      // the height of a lane from which on a note has a line of its own below the number
const VALUES_ROOM = 60;     // pixels that values have at least beside the cut, on either side

// A text that is at most this wide, cut at its end if it has to be.
function fitting(context, text, width) {
  if (context.measureText(text).width <= width) return text;
  let [low, high] = [1, Math.min(text.length - 1, Math.ceil(width / 2))];
  while (low < high) {
    const middle = (low + high + 1) >> 1;
    if (context.measureText(cutAt(text, middle)).width <= width) low = middle;
    else high = middle - 1;
  }
  return cutAt(text, low);
}

// The first characters of a text, and no half of one.
function cutAt(text, end) {
  return text.slice(0, end).replace(/[\ud800-\udbff]$/, "") + "…";
}

// ---- notes ------------------------------------------------------------------------------------------------------

// The text of a note as a label, cut for so much room, with the number of the event's other notes if half of the room
// is enough for it: kept with the note, since going along the run changes no room.
function labelOf(context, note, more, room) {
  if (note.room === room) return note.label;
  const text = plainText(excerpt(note.text, NOTE_EXCERPT));
  const number = more === 0 ? "" : " +" + more;
  const wide = context.measureText(number).width;
  note.room = room;
  note.label = number === "" || wide > room / 2 ? fitting(context, text, room)
    : "\u2068" + fitting(context, text, room - wide) + "\u2069" + number;
  return note.label;
}

// The events of a lane in view that have a note with a text, and the next one right of the view: of each the first such
// note, and how many others it has.
function notedInView({ run, view, left, right }, p) {
  const { columns } = run.shown[p];
  const found = [];
  for (let k = countUpTo(columns, left - NOTE_WIDTH / view.scale) + 1; k < columns.length; k++) {
    const notes = notesAt(run, p, eventAt(run.shown[p], k));
    const note = firstText(notes);
    if (note !== null) {
      found.push({ x: xOf(view, columns[k]), after: xOf(view, columns[k + 1] ?? Infinity), note,
                   more: notes.length - 1 });
    }
    if (columns[k] > right) break;
  }
  return found;
}

// Where a lane's notes stand: below the dot's number, up to the next note; in a low lane right of the number, up to
// that of the next dot.
function placeNotes(scene, p, labels) {
  const { run, size, radius } = scene;
  const isLow = size.heights[p] < ROOM_BELOW;
  const y = laneY(size, p) + radius + (isLow ? 5 : 18);
  const indent = isLow ? 5 + 3.5 * String(run.counts[p]).length : -radius;
  const noted = notedInView(scene, p);
  noted.forEach(({ x, after, note, more }, k) => {
    const start = x + indent;
    const next = isLow ? after - indent : (noted[k + 1]?.x ?? Infinity) - radius;
    const room = Math.floor(Math.min(NOTE_WIDTH, next - start - 6, size.width - start - 4));
    if (room >= NOTE_ROOM && start < size.width) labels.push({ x: start, y, room, note, more });
  });
}

// Notes where there is room for them: between dots that stand far enough apart, on lanes that aren't folded.
function drawNotes(scene) {
  const { context, run, palette, size, view } = scene;
  if (run.notes === null || run.notes.count === 0 || view.scale < DOT_SCALE) return;
  const labels = [];
  context.font = "11px " + palette.font;
  context.textAlign = "left";
  context.textBaseline = "top";
  for (const p of size.order.filter((each) => !size.folded[each])) placeNotes(scene, p, labels);
  context.fillStyle = palette.note;
  for (const { x, y, room, note, more } of labels) {
    const text = labelOf(context, note, more, room);
    if (labels.length <= HALO_LIMIT) haloText(context, palette, text, x, y, palette.note);
    else context.fillText(text, x, y);
  }
}

// ---- values -----------------------------------------------------------------------------------------------------

// Beside the cut, what the variables that the shown predicate names are worth: on the side on which there is room, or
// the one on which there is more.
function drawValues({ context, run, state, palette, size }) {
  const predicate = run.predicates[state.shown];
  if (predicate === undefined) return;
  context.font = "bold 12px " + palette.font;
  context.textBaseline = "middle";
  for (let p = 0; p < run.size; p++) {
    const named = predicate.refs.filter(([q]) => q === p);
    const x = cutX(run, state, p);
    if (named.length === 0 || size.folded[p] || x < 0 || x > size.width) continue;
    const text = excerpt(named.map(([, v]) => run.vars[p][v].name + " = " + valueAt(run, p, v, state.cut[p]))
      .join(", "), 40);
    const { shown, start, align } = besideCut(context, text, x, size.width);
    context.textAlign = align;
    const above = size.lane * (state.film === null ? 0.25 : 0.33);
    haloText(context, palette, shown, start, laneY(size, p) - above, palette["cut-text"]);
  }
}

function besideCut(context, text, x, width) {
  const wide = context.measureText(text).width;
  const [left, right] = [x - 10, width - x - 10];
  const isRight = wide <= right || (wide > left && right >= left);
  const room = Math.max(VALUES_ROOM, isRight ? right : left);
  return { shown: fitting(context, text, room), start: isRight ? x + 8 : x - 8, align: isRight ? "left" : "right" };
}

if (typeof module === "object") {
  Object.assign(globalThis, require("./notes.js"));   // on the page, scripts share their names
  module.exports = { fitting, labelOf };
}
