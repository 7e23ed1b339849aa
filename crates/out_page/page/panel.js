"use strict";
// The words beside the drawing: predicates with their evidence, values, the selected event, the events as a table. Each
// text is set as text, never as mark-up.

const LISTING_ROWS = 12;
const REASONS_SHOWN = 6;
const NOTES_SHOWN = 100;   // of an event

function element(tag, attributes, ...children) {
  const made = document.createElement(tag);
  for (const [name, value] of Object.entries(attributes ?? {})) {
    if (name === "click") made.addEventListener("click", value);
    else if (value !== null) made.setAttribute(name, value);
  }
  made.append(...children.filter((child) => child !== null));
  return made;
}

function byId(id) {
  return document.getElementById(id);
}

// Makes what stands in a node anew, unless it was made for the same key.
const madeFor = new WeakMap();
function renew(node, key, make) {
  if (madeFor.get(node) === key) return;
  madeFor.set(node, key);
  node.replaceChildren(...make());
}

function counted(number, one, many) {
  return number.toLocaleString("en") + " " + (number === 1 ? one : many ?? one + "s");
}

function placeText(run, p, i) {
  return run.names[p] + "#" + i;
}

// A cut's counts, which may be broken after a comma.
function cutNodes(cut) {
  return cut.flatMap((count, p) => (p + 1 < cut.length ? [count + ",", element("wbr")] : [String(count)]));
}

// ---- predicates -------------------------------------------------------------------------------------------------

// The class of what came of wishes; its sign is the style's.
function classOf(came) {
  return { [AS_WISHED]: "granted", [NOT_AS_WISHED]: "broken", unknown: "unsure" }[came];
}

// What a card leads with: what came of its wishes, and without one what is so of the whole run.
function verdictNode(predicate, wishes) {
  const came = cameOfAll(wishes);
  if (came !== "") return element("span", { class: "verdict " + classOf(came) }, came);
  const verdict = verdictOf(predicate);
  return element("span", { class: "verdict " + verdict.split(" ")[0] }, verdict);
}

// A card says after its verdict and its evidence what is so at the cut shown.
function makePredicates(run, actions) {
  return run.predicates.map((predicate, k) => {
    const badge = element("span", { class: "badge" });
    const why = element("ul", { class: "why" });
    const wishes = run.wishes.filter((wish) => wish.k === k);
    const answers = element("dl", { class: "answers" },
      element("dt", {}, "Possibly"), possiblyOf(run, predicate, k, actions),
      element("dt", {}, "Definitely"), definitelyOf(run, predicate, k, actions));
    const name = element("button", { type: "button", class: "plain", title: "write its variables beside the cut",
                                     click: () => actions.show(k) }, predicate.name);
    const open = predicate.possibly[0] === "unknown" || predicate.definitely[0] === "unknown";
    const card = element("article", { class: "predicate" },
      element("h3", {}, name, verdictNode(predicate, wishes)),
      ...wishes.map((wish) => element("p", { class: "wish" }, wishText(predicate, wish))),
      element("code", {}, predicate.text), answers,
      open ? element("p", { class: "hint" }, whatToDo(run)) : null,
      element("p", { class: "at" }, "At the cut shown: ", badge), why);
    byId("predicates").append(card);
    return { card, badge, why, name };
  });
}

function given(word, words, button = null) {
  return element("dd", { class: "given" }, element("span", {}, element("strong", {}, word), ...[words].flat()), button);
}

function possiblyOf(run, { possibly: [word, evidence] }, k, actions) {
  if (word === "yes") {
    return given(word, [", at ", ...cutNodes(evidence)],
      element("button", { type: "button", click: () => actions.showCut(k) }, "Show the cut"));
  }
  if (word === "no") return given(word, ": no consistent cut satisfies it");
  return given(word, ": no cut below level " + evidence + " satisfies it, and that level has more cuts than the " +
    "width, " + run.width);
}

function definitelyOf(run, { definitely: [word, evidence] }, k, actions) {
  if (word === "no") {
    return given(word, [],
      element("button", { type: "button", title: "play an observation that avoids it",
                          click: () => actions.playFilm(k) }, "Play the counterexample"));
  }
  if (word === "yes" && Number(evidence) === 0) return given(word, ", before the first event of every observation");
  if (word === "yes") {
    return given(word, ", by level " + evidence + ": in whichever order the events were observed, it was true at " +
      "some cut of at most " + evidence + (evidence === 1 ? " event" : " events"));
  }
  return given(word, ": level " + evidence + " has more cuts that avoid it than the width, " + run.width);
}

function whatToDo(run) {
  return "Unknown isn't no. To decide it: " + (run.beyondWidth ? ""
    : "the option --beyond-width, which decides most predicates whatever the width; ") +
    (run.width < 65536 ? "the option --width with a greater width, up to 65536; " : "") +
    "a recording with fewer events between the messages.";
}

function updatePredicates(run, state, cards) {
  const read = reader(run, state.cut);
  cards.forEach(({ card, badge, why, name }, k) => {
    const { node } = run.predicates[k];
    const truth = isTrue(node, read);
    badge.textContent = String(truth);
    badge.className = "badge " + truth;
    card.classList.toggle("shown", k === state.shown);
    name.setAttribute("aria-pressed", String(k === state.shown));
    updateReasons(why, node, read);
  });
}

// Which comparisons decide a predicate.
function updateReasons(why, node, read) {
  const reasons = deciding(node, read).filter((reason) => reason.why !== "");
  renew(why, reasons.map((reason) => reason.text + reason.why).join(), () => [
    ...reasons.slice(0, REASONS_SHOWN).map(({ text, holds, negated, why: words }) =>
      element("li", { class: holds ? "holds" : "fails" }, element("code", {}, text), (holds ? " holds" : " fails") +
        (negated ? ", under not: " : ": ") + words)),
    ...(reasons.length <= REASONS_SHOWN ? []
      : [element("li", {}, "and " + counted(reasons.length - REASONS_SHOWN, "comparison") + " more")]),
  ]);
}

// The predicate that was typed, at the cut shown: nothing is said of the whole run.
function updateTyped(run, state) {
  const { typed } = state;
  byId("typed-at").hidden = typed === null;
  byId("typed-why").hidden = typed === null || typed.node === null;
  if (typed === null) return;
  const badge = byId("typed-badge");
  badge.hidden = typed.node === null;
  badge.textContent = "";
  byId("typed-words").textContent = typed.node === null ? typed.wrong : "At the cut shown: ";
  if (typed.node === null) return;
  const read = reader(run, state.cut);
  const truth = isTrue(typed.node, read);
  badge.textContent = String(truth);
  badge.className = "badge " + truth;
  updateReasons(byId("typed-why"), typed.node, read);
}

// The predicates whose truth differs between two cuts, in words.
function turned(run, before, after) {
  if (String(before) === String(after)) return [];
  return run.predicates.flatMap(({ name, node }) => {
    const truth = isTrue(node, reader(run, after));
    return truth === isTrue(node, reader(run, before)) ? [] : [name + " is " + truth + " now."];
  });
}

// The run, the cut and the values at it as lines of text, to be pasted into a report of a bug; of each process also the
// note of its last event in the cut.
function asText(run, cut) {
  const noted = (p) => (cut[p] === 0 ? "" : noteWords(run, p, cut[p]));
  const values = run.names.map((name, p) => name + " after " + cut[p] + " of " + counted(run.counts[p], "event") +
    run.vars[p].map(({ name: variable }, v) => ", " + variable + " = " + valueAt(run, p, v, cut[p])).join("") +
    (noted(p) === "" ? "" : ", " + noted(p)));
  const answers = run.predicates.map((each, k) => each.name + " " + verdictOf(each) +
    run.wishes.filter((wish) => wish.k === k).map(({ kind, came }) => " (wished " + kind + ": " + came + ")").join("") +
    ", and is " + isTrue(each.node, reader(run, cut)) + " at this cut: " + each.text);
  return [sessionName(run) + ": " + verdictText(run) + ".", ...answers, "The cut " + cut.join(",") + ":", ...values, ""]
    .join("\n");
}

// Which predicates are true at a cut, in words.
function truthText(run, cut) {
  const names = run.predicates.filter(({ node }) => isTrue(node, reader(run, cut))).map(({ name }) => name);
  return names.length === 0 ? "No predicate is true at this cut."
    : names.join(", ") + (names.length === 1 ? " is" : " are") + " true at this cut.";
}

// ---- a causal cycle ---------------------------------------------------------------------------------------------

// Why the session is refused: each receipt of the cycle, and what is before it.
function makeCycle(run, actions) {
  const at = ({ p, i }) => element("button", { type: "button", class: "plain", click: () => actions.select(p, i) },
    placeText(run, p, i));
  const steps = run.cycle.map(({ message, receipt, send, next }) => element("li", {}, at(receipt), " receives ",
    element("code", {}, plainText(run.messages.ids[message])), " from ", at(send),
    ...(send.i === next.i ? [""] : [", which comes after ", at(next)])));
  byId("cycle").append(element("p", {}, "The session is refused: its events make a causal cycle. Going back from " +
    "each receipt to the send, and along that process to the receipt before it, one comes to the first receipt again:"),
    element("ol", {}, ...steps), element("p", {}, "So each of these events would have happened before itself. No " +
    "run is so: the recording has events in a wrong order, or gives a message a wrong id. There is no cut to move, " +
    "and no predicate is answered."));
}

// ---- values -----------------------------------------------------------------------------------------------------

// A grid: of each process its variables, as many side by side as there is room for.
function makeValues(run, actions) {
  return run.names.map((name, p) => {
    const count = element("span", { class: "count" });
    const list = element("dl", { class: "cells" });
    const wide = ["of-one", "of-one", "of-two"][run.vars[p].length] ?? "";
    const title = element("h3", {}, element("span", {}, name), count);
    const body = element("section", { class: "process " + wide }, title, list);
    const cells = run.vars[p].map((variable, v) => {
      const value = element("span", { class: "value" });
      const by = element("span", { class: "by" });
      const cell = element("div", { class: "cell" }, element("dt", {}, variable.name), element("dd", {}, value, by));
      return { p, v, cell, value, by };
    });
    list.append(...cells.map(({ cell }) => cell));
    byId("values").append(body);
    return { p, body, count, list, cells, order: "", select: (i) => actions.select(p, i) };
  });
}

// Puts the children of a node in this order, if they have another one, and keeps the focus.
function reorder(node, children) {
  if (children.every((child, k) => node.children[k] === child)) return;
  const focused = document.activeElement;
  node.append(...children);
  if (node.contains(focused)) focused.focus();
}

// What is named comes first, then what changed, and then the rest.
function byRank(list, rank) {
  return list.map((each) => [rank(each), each]).sort(([a], [b]) => a - b).map(([, each]) => each);
}

function updateValues(run, state, rows) {
  const refs = state.shown < 0 || run.cycle !== null ? [] : run.predicates[state.shown].refs;
  const isNamed = (p, v) => refs.some((ref) => ref[0] === p && ref[1] === v);
  const isChanged = (p, v) => valueAt(run, p, v, state.cut[p]) !== valueAt(run, p, v, state.before[p]);
  const rank = ({ p, v }) => (isNamed(p, v) ? 0 : isChanged(p, v) ? 1 : 2);
  const ranks = rows.map(({ cells }) => Math.min(2, ...cells.map(rank)));
  for (const row of rows) {
    row.count.textContent = state.cut[row.p] + " of " + run.counts[row.p];
    for (const each of row.cells) {
      each.cell.classList.toggle("named", isNamed(each.p, each.v));
      updateValue(run, state, each, row.select);
    }
    reorder(row.list, byRank(row.cells, rank).map(({ cell }) => cell));
  }
  reorder(byId("values"), byRank(rows, ({ p }) => ranks[p]).map(({ body }) => body));
}

function updateValue(run, state, { p, v, cell, value, by }, select) {
  const events = state.cut[p];
  const now = valueAt(run, p, v, events);
  const before = valueAt(run, p, v, state.before[p]);
  const setter = settingEvent(run, p, v, events);
  const fresh = setter === events && events > 0;
  renew(value, now + " " + before,
    () => [now, ...(now === before ? [] : [element("span", { class: "was" }, " was " + before)])]);
  cell.classList.toggle("changed", now !== before);
  cell.classList.toggle("fresh", fresh);
  renew(by, setter + " " + fresh, () => (setter === 0 ? ["initial"]
    : [element("button", { type: "button", class: "plain", "aria-label": "select event " + placeText(run, p, setter),
                           click: () => select(setter) }, "#" + setter),
       fresh ? element("span", { class: "last", title: "the last event of this process in the cut set it" }, " last")
         : null].filter((each) => each !== null)));
}

// ---- an event ---------------------------------------------------------------------------------------------------

function setsOf(run, p, i) {
  const event = run.events[p][i];
  const sets = [];
  for (let k = 1; k < event.length; k += 2) {
    sets.push({ name: run.vars[p][event[k]].name, value: event[k + 1], before: valueAt(run, p, event[k], i - 1) });
  }
  return sets;
}

// The message of an event in words, with its other ends: of a receipt one, of a send those that receive it.
function messageOf(run, p, i) {
  const m = run.messageAt[p][i];
  if (m < 0) return null;
  const { from, fromEvent, to, toEvent, ids } = run.messages;
  if (from[m] !== p || fromEvent[m] !== i) {
    return { verb: "receives", id: ids[m], ends: [{ p: from[m], i: fromEvent[m] }], words: "sent by" };
  }
  const ends = sentBy(run, p, i).filter((sent) => to[sent] >= 0).map((sent) => ({ p: to[sent], i: toEvent[sent] }));
  return { verb: "sends", id: ids[m], ends,
           words: ends.length === 0 ? "which nothing receives: it is in flight" : "received by" };
}

function eventText(run, p, i) {
  const parts = [placeText(run, p, i)];
  for (const { name, value, before } of setsOf(run, p, i)) {
    parts.push(name + " = " + value + (before === value ? "" : " (was " + before + ")"));
  }
  const message = messageOf(run, p, i);
  if (message !== null) {
    parts.push(message.verb + " " + message.id + (message.ends.length === 0 ? ", in flight"
      : ", " + message.words + " " + message.ends.map((end) => placeText(run, end.p, end.i)).join(", ")));
  }
  const noted = noteWords(run, p, i);
  return parts.map(plainText).concat(noted === "" ? [] : [noted]).join("; ");
}

// A note's text, or a part of it, as letters whose direction stays their own.
function noteNode(text) {
  const plain = plainText(text);
  return element("bdi", { class: "note", dir: plain === text ? "auto" : "ltr" }, plain);   // escapes read from the left
}

// A note's place, as a link if the page has a pattern for links that it fits.
function placeNode(run, place) {
  const address = linkOf(run.link, place);
  if (address === null) return noteNode(place);
  const isWeb = /^https?:/i.test(address);
  return element("a", { href: address, rel: "noopener noreferrer", target: isWeb ? "_blank" : null }, noteNode(place));
}

// What the notes of an event say, as rows of the list beside the drawing. Of several each has its number.
function addNotes(run, p, i, add) {
  const notes = notesAt(run, p, i);
  const { length } = notes;
  if (length === 0 && run.notes !== null) add("Note", "none");
  notes.slice(0, NOTES_SHOWN).forEach(({ text, place, clock }, k) => {
    if (text !== "") add(length === 1 ? "Note" : "Note " + (k + 1) + " of " + length, noteNode(text));
    else if (length > 1) add("Note " + (k + 1) + " of " + length, "without a text");
    if (place !== "") add("Recorded by", placeNode(run, place));
    if (clock !== null) add("By the clock", clockText(clock));
  });
  if (length > NOTES_SHOWN) add("Not shown", moreNotes(length - NOTES_SHOWN));
}

// The texts of an event's notes one below the other, each cut at its end if it is long.
function noteLines(run, p, i) {
  const texts = notesAt(run, p, i).filter(({ text }) => text !== "").map(({ text }) => excerpt(text, NOTE_EXCERPT));
  const lines = texts.slice(0, NOTES_SHOWN).map(noteNode);
  if (texts.length > NOTES_SHOWN) lines.push("and " + moreNotes(texts.length - NOTES_SHOWN));
  return lines.map((line) => element("div", {}, line));
}

function updateEvent(run, state, actions) {
  const body = byId("event-body");
  const focused = body.contains(document.activeElement);
  if (state.selected === null) {
    byId("event-title").textContent = "Event";
    body.replaceChildren(element("p", { class: "hint" },
      run.cycle !== null ? "Click an event, or use the keys “,” and “.”, to select one."
        : "Click an event, and the cut moves there. With Shift, or by the keys “,” and “.”, it is only selected."));
    return;
  }
  const { p, i } = state.selected;
  byId("event-title").textContent = "Event " + placeText(run, p, i);
  const list = element("dl", {});
  const add = (term, ...words) => list.append(element("dt", {}, term), element("dd", {}, ...words));
  if (run.cycle === null) add("At the cut", i <= state.cut[p] ? "it has happened" : "it has not happened");
  addNotes(run, p, i, add);
  add("Recorded in", plainText(sourceOf(run, p, i)));
  const sets = setsOf(run, p, i);
  add("Sets", sets.length === 0 ? "nothing"
    : sets.map(({ name, value, before: old }) => name + " = " + value + " (was " + old + ")").join(", "));
  const message = messageOf(run, p, i);
  if (message !== null) {
    add(message.verb === "sends" ? "Sends" : "Receives", element("code", {}, plainText(message.id)),
      ", " + message.words,
      ...message.ends.flatMap((end) => [" ", element("button",
        { type: "button", class: "plain", click: () => actions.select(end.p, end.i) }, placeText(run, end.p, end.i))]));
  }
  const buttons = [["Deselect", () => actions.unselect()]];
  if (state.cone !== null) {
    const { before, after, beside } = state.cone;
    add("Around it", counted(before, "event") + " before it, " + after.toLocaleString("en") + " after it, " +
      beside.toLocaleString("en") + " concurrent with it");
    buttons.unshift(["Cut after it", () => actions.cutTo(p, i)], ["Cut before it", () => actions.cutTo(p, i - 1)]);
  }
  body.replaceChildren(list, element("p", { class: "actions" },
    ...buttons.map(([words, click]) => element("button", { type: "button", click }, words))));
  if (focused) body.querySelector("button").focus();
}

// ---- the events as a table --------------------------------------------------------------------------------------

function updateListing(run, state, actions) {
  const { p } = state.listing;
  const last = Math.max(1, run.counts[p] - LISTING_ROWS + 1);
  const first = Math.max(1, Math.min(state.listing.first, last));
  state.listing.first = first;
  byId("listing-process").value = String(p);
  const end = Math.min(run.counts[p], first + LISTING_ROWS - 1);
  byId("listing-range").textContent = run.counts[p] === 0 ? "no events"
    : first + " to " + end + " of " + run.counts[p].toLocaleString("en");
  byId("listing-earlier").disabled = first <= 1;
  byId("listing-later").disabled = end >= run.counts[p];
  const row = (i) => {
    const message = messageOf(run, p, i);
    return element("tr", { class: (i <= state.cut[p] ? "in" : "out") + (i === chosen ? " chosen" : "") },
      element("th", { scope: "row" }, element("button", { type: "button", class: "plain",
        click: () => actions.select(p, i), "aria-label": "select event " + placeText(run, p, i) }, "#" + i)),
      element("td", {}, lineOf(run, p, i)),
      element("td", {}, setsOf(run, p, i).map(({ name, value }) => name + " = " + value).join(", ")),
      element("td", {}, message === null ? "" : message.verb + " " + plainText(message.id)),
      element("td", { class: "of-notes" }, ...noteLines(run, p, i)),
      element("td", { class: "of-cuts" }, i <= state.cut[p] ? "yes" : ""));
  };
  const chosen = state.selected !== null && state.selected.p === p ? state.selected.i : 0;
  const body = byId("listing-table").tBodies[0];
  const focused = body.contains(document.activeElement);
  renew(body, [p, first, chosen, Math.max(first - 1, Math.min(end, state.cut[p]))].join(),
    () => Array.from({ length: end - first + 1 }, (_, k) => row(first + k)));
  if (focused && chosen >= first && chosen <= end) body.rows[chosen - first].querySelector("button").focus();
}

// ---- what a move did --------------------------------------------------------------------------------------------

function moveText(run, before, after, p, forced) {
  const where = run.names[p] + " at " + after[p] + " of " + run.counts[p] + ".";
  const { from, fromEvent, to, toEvent, ids } = run.messages;
  const told = forced.slice(0, 3).map((m) => {
    const send = placeText(run, from[m], fromEvent[m]);
    const receipt = placeText(run, to[m], toEvent[m]);
    const id = plainText(ids[m]);
    return after[p] > before[p] ? send + " came with it, for it sends " + id + " to " + receipt
      : receipt + " went with it, for it receives " + id + " from " + send;
  });
  if (forced.length > 3) told.push("and " + counted(forced.length - 3, "process", "processes") + " more moved");
  return where + (told.length === 0 ? "" : " " + told.join("; ") + ".");
}
