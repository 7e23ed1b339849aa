"use strict";
// Notes: what recorders wrote beside the streams, a line of JSON for each event. Whoever could write to such a file
// could write any text there, so each is read as it is, shown as text, and counted if it is no note of an event of this
// run. Nothing here touches the page.

const NOTE_EXCERPT = 160;    // characters of a note in a sentence
const NAME_EXCERPT = 40;
const THROWN_LIMIT = 1000;

// An object of JSON in which stand only texts and numbers.
const JSON_TEXT = '"(?:[^"\\\\\\x00-\\x1f]|\\\\(?:["\\\\/bfnrt]|u[0-9a-fA-F]{4}))*"';
const JSON_NUMBER = "-?(?:0|[1-9]\\d*)(?:\\.\\d+)?(?:[eE][-+]?\\d+)?";
const JSON_FIELD = JSON_TEXT + "\\s*:\\s*(?:" + JSON_TEXT + "|" + JSON_NUMBER + "|null)\\s*";
const FLAT = new RegExp("^\\s*\\{\\s*(?:" + JSON_FIELD + "(?:,\\s*" + JSON_FIELD + ")*)?\\}\\s*$");

// What of a text shows as no letter: controls, separators of lines, what changes the direction of what is around, and
// halves of characters.
const CONTROLS = "\\u0000-\\u001f\\u007f-\\u009f\\u00ad\\u2028\\u2029";
const UNSEEN_FORMATS = "\\u061c\\u200b\\u200e\\u200f\\u202a-\\u202e\\u2060-\\u206f\\ufeff\\ufff9-\\ufffb";
const UNSEEN = new RegExp("[" + CONTROLS + UNSEEN_FORMATS + "]|\\p{Surrogate}", "gu");
const SHORT_ESCAPES = { "\n": "\\n", "\r": "\\r", "\t": "\\t" };

// A text with escapes, as those of JSON, for what shows as no letter.
function plainText(text) {
  return text.replace(UNSEEN, (sign) =>
    SHORT_ESCAPES[sign] ?? "\\u" + sign.charCodeAt(0).toString(16).padStart(4, "0"));
}

// The beginning of a text, of at most so many characters.
function excerpt(text, most) {
  if (text.length <= most) return text;
  return text.slice(0, most - 1).replace(/[\ud800-\udbff]$/, "") + "…";
}

// A text inside of a sentence: its letters don't turn those around it, whatever direction they have.
function isolated(text, most = NOTE_EXCERPT) {
  return "\u2068" + plainText(excerpt(text, most)) + "\u2069";
}

// ---- reading ----------------------------------------------------------------------------------------------------

// The notes of a run: of event i of p `at[p][i]` has those of it in the order of the files and their lines, or nothing.
// A note has a text, a place and a clock.
class Notes {
  constructor(run, files) {
    this.run = run;
    this.at = run.counts.map((count) => new Array(count + 1).fill(null));
    this.process = new Map(run.names.map((name, p) => [name, p]));
    this.count = 0;
    this.wrong = { count: 0, first: null };
    this.thrown = 0;
    const limit = Error.stackTraceLimit;
    Error.stackTraceLimit = 0;    // a line that is no JSON takes a tenth of the time so
    files.forEach((text, f) => this.readFile(text, f + 1));
    Error.stackTraceLimit = limit;
    this.giveIndex();
  }

  readFile(text, file) {
    let line = 0;
    for (let start = 0; start < text.length;) {
      const found = text.indexOf("\n", start);
      const end = found < 0 ? text.length : found;
      line++;
      if (end > start) this.readLine(text.slice(start, end), file, line);
      start = end + 1;
    }
  }

  // A blank line is passed over; another one is a note, or counted as none.
  readLine(text, file, line) {
    if (/^\s*$/.test(text)) return;
    const why = this.take(text);
    if (why === null) return;
    this.wrong.count++;
    this.wrong.first ??= { file, line, why: why() };
  }

  // Takes the note of a line, or gives what says why it is none.
  take(text) {
    const note = this.objectOf(text);
    if (note === null) return () => "it is no object of JSON";
    const { process, event, text: said, place = "", clock = null } = note;
    const p = typeof process === "string" ? this.process.get(process) : undefined;
    if (p === undefined) {
      return () => (typeof process === "string" ? "this run has no process " + isolated(process, NAME_EXCERPT)
        : "it names no process");
    }
    const name = this.run.names[p];
    if (!Number.isInteger(event) || event < 1) return () => "it names no event of " + name;
    const count = this.run.counts[p];
    if (event > count) return () => name + " has no event " + event + " in this run, but " + count;
    if (typeof said !== "string") return () => "its text is none";
    if (typeof place !== "string") return () => "its place is no text";
    if (clock !== null && !Number.isFinite(clock)) return () => "its clock is no number";
    (this.at[p][event] ??= []).push({ text: said, place, clock });
    this.count++;
    return null;
  }

  // The object of JSON that a line is, or nothing. After many lines that are none, only what has no list and no object
  // in it is read as one: a fault that is thrown takes a hundred times as long.
  objectOf(text) {
    if (!/^\s*\{/.test(text) || (this.thrown > THROWN_LIMIT && !FLAT.test(text))) return null;
    try {
      return JSON.parse(text);
    } catch {
      this.thrown++;
      return null;
    }
  }

  // All texts and places as one text to be looked through, and where the note of each begins in it.
  giveIndex() {
    const parts = [];
    const events = [];
    const starts = [];
    let length = 0;
    this.at.forEach((list, p) => list.forEach((notes, i) => notes?.forEach((note) => {
      const part = (note.text + "\n" + note.place + "\n").toLowerCase();
      parts.push(part);
      events.push(p, i);
      starts.push(length);
      length += part.length;
    })));
    this.index = { text: parts.join(""), events: Uint32Array.from(events), starts: Uint32Array.from(starts) };
  }

  // Gives `add` each event of which a note has this part in its text or its place, once for each such note; the part is
  // in small letters.
  find(part, add) {
    const { text, events, starts } = this.index;
    let k = 0;
    for (let at = text.indexOf(part); at >= 0; at = text.indexOf(part, starts[k])) {
      while (starts[k + 1] <= at) k++;
      add(events[2 * k], events[2 * k + 1]);
      k++;
      if (k === starts.length) break;
    }
  }
}

const NO_NOTES = [];

function notesAt(run, p, i) {
  return run.notes?.at[p][i] ?? NO_NOTES;
}

// The first of these notes that has a text, or nothing.
function firstText(notes) {
  return notes.find(({ text }) => text !== "") ?? null;
}

// The notes of an event in a sentence: the first text, or if there is none, the first place; and how many more notes
// there are.
function noteWords(run, p, i) {
  const notes = notesAt(run, p, i);
  const first = firstText(notes) ?? notes.find(({ place }) => place !== "");
  if (first === undefined) return "";
  const words = first.text === "" ? "at " + isolated(first.place) : "“" + isolated(first.text) + "”";
  return words + (notes.length === 1 ? "" : " and " + moreNotes(notes.length - 1));
}

function moreNotes(count) {
  return count.toLocaleString("en") + (count === 1 ? " more note" : " more notes");
}

// Which lines are no notes, in words.
function wrongNotesText(run) {
  if (run.notes === null || run.notes.wrong.count === 0) return "";
  const { count, first } = run.notes.wrong;
  return (count === 1 ? "1 line of the notes isn't a note of an event of this run, and isn't shown: "
    : count.toLocaleString("en") + " lines of the notes aren't notes of events of this run, and aren't shown; the " +
      "first of them: ") + "file " + first.file + ", line " + first.line + ": " + first.why + ".";
}

// A note's time by the clock of its machine, to the microsecond.
function clockText(clock) {
  const date = new Date(Math.floor(clock) * 1000);
  if (Number.isNaN(date.getTime())) return String(clock);
  const micros = Math.floor((clock - Math.floor(clock)) * 1e6 + 0.5);
  return date.toISOString().replace("T", " ").replace(/\.\d+Z$/, "") + "." +
    String(Math.min(999999, micros)).padStart(6, "0") + " UTC";
}

// ---- places as links --------------------------------------------------------------------------------------------

const LINK_SCHEMES = ["http:", "https:", "vscode:", "idea:", "file:"];

function isLinkPattern(pattern) {
  const scheme = /^[a-z][a-z0-9+.-]*:/i.exec(pattern);
  return scheme !== null && LINK_SCHEMES.includes(scheme[0].toLowerCase());
}

// A text as a part of an address; a slash stays one.
function encodedPath(text) {
  return text.replace(/\p{Surrogate}/gu, "\ufffd").split("/").map(encodeURIComponent).join("/");
}

function filled(pattern, file, line) {
  return pattern.replace(/\{(file|line)\}/g, (_, word) => (word === "file" ? encodedPath(file) : line));
}

// Where an address leads to: its scheme and its host, and that it is on this machine.
function leadsTo(address) {
  try {
    const { protocol, host, pathname } = new URL(address);
    return protocol + "//" + host + (protocol === "file:" && pathname.startsWith("//") ? " elsewhere" : "");
  } catch {
    return null;
  }
}

// Why places are no links, if they were to be some, in words.
function wrongLinkText(run) {
  return run.link === null || isLinkPattern(run.link) ? ""
    : "Places are no links: of “" + isolated(run.link) + "” the scheme is none of http, https, vscode, idea and file.";
}

// The address of a place `FILE:LINE` by a pattern, or nothing: only these schemes are taken, and a place can't change
// where the pattern leads to, as to another host.
function linkOf(pattern, place) {
  const [, file, line] = /^(.+):([1-9][0-9]*)$/s.exec(place) ?? [];
  if (pattern === null || line === undefined || !isLinkPattern(pattern)) return null;
  const address = filled(pattern, file, line);
  const end = leadsTo(address);
  return end !== null && end === leadsTo(filled(pattern, "/f", "1")) ? address : null;
}

if (typeof module === "object") {
  Object.assign(globalThis, require("./run.js"));   // on the page, scripts share their names
  module.exports = { Notes, notesAt, firstText, noteWords, wrongNotesText, clockText, plainText, excerpt, isolated,
                     linkOf, isLinkPattern, wrongLinkText, NOTE_EXCERPT };
}
