"use strict";
// What the answers say in words, of each predicate and of the run, and whether they are as wished. Nothing here touches
// the page.

const NAMES_SHOWN = 3;
const AS_WISHED = "as wished";
const NOT_AS_WISHED = "not as wished";

// What the answers say of the whole run, in two words: an answer that is yes counts before one that is unknown.
function verdictOf({ possibly: [possibly], definitely: [definitely] }) {
  if (definitely === "yes") return "always happens";
  if (possibly === "yes") return "can happen";
  return possibly === "no" ? "cannot happen" : "unknown";
}

// Of at most so many names each, and how many more there are.
function listed(names) {
  return names.slice(0, NAMES_SHOWN).join(", ") +
    (names.length > NAMES_SHOWN ? " and " + (names.length - NAMES_SHOWN) + " more" : "");
}

// The verdict on the run: which wishes are broken, or without wishes which predicates happen.
function verdictText(run) {
  if (run.refusal !== null) return "Refused: " + run.refusal[0].trim().replace(/^refused /, "");
  if (run.cycle !== null) return "Refused: a causal cycle";
  return run.wishes.length > 0 ? wishesText(run) : answersText(run.predicates);
}

// Which predicates happen, and how many are unknown.
function answersText(predicates) {
  const [only] = predicates;
  if (predicates.length === 1) {
    return verdictOf(only) === "unknown" ? "It is unknown whether " + only.name + " can happen"
      : only.name + " " + verdictOf(only);
  }
  const of = (...verdicts) => predicates.filter((each) => verdicts.includes(verdictOf(each))).map(({ name }) => name);
  const [happen, always, unknown] = [of("can happen", "always happens"), of("always happens"), of("unknown")];
  const all = " of " + predicates.length + " predicates ";
  if (happen.length === 0) {
    return unknown.length === 0 ? "None" + all + "can happen" : unknown.length + all +
      (unknown.length === 1 ? "is unknown" : "are unknown") +
      (unknown.length < predicates.length ? "; no other can happen" : "");
  }
  const parts = [happen.length + all + "can happen: " + listed(happen)];
  if (always.length > 0) parts.push(listed(always) + " always " + (always.length === 1 ? "happens" : "happen"));
  if (unknown.length > 0) parts.push(unknown.length + (unknown.length === 1 ? " is" : " are") + " unknown");
  return parts.join("; ");
}

// ---- wishes -----------------------------------------------------------------------------------------------------

// The question that a wish is about, and the answer that is as wished.
const WISHES = { never: ["possibly", "no"], always: ["definitely", "yes"], sometimes: ["possibly", "yes"] };

// The wishes of a page, each with its predicate, and what came of it.
function readWishes(run, wishes) {
  return wishes.map(([kind, k]) => ({ kind, k, came: cameOf(run.predicates[k], kind) }));
}

// What came of a wish: an answer that is unknown grants none.
function cameOf(predicate, kind) {
  const [question, wished] = WISHES[kind];
  const [answer] = predicate[question];
  return answer === "unknown" ? "unknown" : answer === wished ? AS_WISHED : NOT_AS_WISHED;
}

// What came of all wishes of these: one that is broken counts before one that is unknown. Of none nothing.
function cameOfAll(wishes) {
  return [NOT_AS_WISHED, "unknown", AS_WISHED].find((came) => wishes.some((each) => each.came === came)) ?? "";
}

// Why a wish is broken, granted or unknown, as words that follow the predicate's name.
function wishReason(predicate, { kind, came }) {
  if (came === "unknown") return kind === "always" ? "may not always happen" : "may happen or not";
  if (kind !== "always" || came === AS_WISHED) return verdictOf(predicate);
  return predicate.possibly[0] === "no" ? "cannot happen" : "need not happen";
}

// How many of the wishes came to something, and of which predicates.
function wishesText(run) {
  const { wishes } = run;
  const of = (came) => wishes.filter((each) => each.came === came);
  const reasons = (some) => {
    const words = some.slice(0, NAMES_SHOWN).map((each) =>
      run.predicates[each.k].name + " " + wishReason(run.predicates[each.k], each));
    return [...new Set(words)].join("; ") +
      (some.length > NAMES_SHOWN ? "; and " + (some.length - NAMES_SHOWN) + " more" : "");
  };
  const [broken, unknown] = [of(NOT_AS_WISHED), of("unknown")];
  const verb = (some) => (some.length === 1 ? " is " : " are ");
  if (broken.length + unknown.length === 0) {
    return wishes.length === 1 ? "The wish is granted: " + reasons(wishes) : "All " + wishes.length +
      " wishes are granted";
  }
  const [first, word] = broken.length > 0 ? [broken, "broken"] : [unknown, "unknown"];
  const count = wishes.length === 1 ? "The wish is " + word
    : first.length + " of " + wishes.length + " wishes" + verb(first) + word;
  return count + ": " + reasons(first) + (broken.length > 0 && unknown.length > 0
    ? "; " + unknown.length + verb(unknown) + "unknown" : "");
}

// A predicate's wish in words, as its card says it.
function wishText(predicate, wish) {
  const asked = { never: "is never to happen", always: "is always to happen", sometimes: "is to be possible" };
  return "Wished: it " + asked[wish.kind] + ". " + (wish.came === "unknown" ? "That is unknown, which grants no wish."
    : "It " + wishReason(predicate, wish) + ".");
}

// ---- where the page opens ---------------------------------------------------------------------------------------

// The evidence with which a page opens: of the first broken wish that has some, and else of the first predicate that
// can happen. Of it the predicate, and whether it is a cut, or an observation that avoids it.
function firstEvidence(run) {
  const broken = run.wishes.filter(({ came }) => came === NOT_AS_WISHED);
  for (const { kind, k } of broken) {
    if (kind === "never") return { k, is: "cut" };
    if (kind === "always") return { k, is: "film" };
  }
  const k = run.predicates.findIndex((each) => each.possibly[0] === "yes");
  return k < 0 ? null : { k, is: "cut" };
}

// ---- the session's name -----------------------------------------------------------------------------------------

// The folder in which all streams lie, as the arguments named them; if they have none, the processes.
function sessionName(run) {
  const folders = run.sources.filter(([file]) => file !== "").map(([file]) => file.split("/").slice(0, -1));
  const [first] = folders;
  if (first === undefined) return listed(run.names);
  let length = 0;
  while (length < first.length && folders.every((parts) => parts[length] === first[length])) length++;
  const parts = first.slice(0, length).filter((part) => part !== "" && part !== "." && part !== "..");
  if (parts.length === 0) return listed(run.names);
  return parts.slice(/\p{L}/u.test(parts[parts.length - 1]) ? -1 : -2).join("/");
}

function titleText(run) {
  return (run.refusal !== null ? "" : sessionName(run) + ": ") + verdictText(run) + " – monitor explore";
}

if (typeof module === "object") {
  module.exports = { verdictOf, verdictText, readWishes, cameOfAll, wishText, firstEvidence, sessionName, titleText };
}
