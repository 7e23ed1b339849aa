"use strict";
// A predicate that is typed: its text is read as the program reads it, and in words is said why it is none.

// Why a text is no predicate of this run.
class Unread extends Error {}

const TOKEN = /[ \t]*(?:([A-Za-z_]\w*|\d+|==|!=|<=|>=|[<>()+\-*.])|$)/y;
const KEYWORDS = ["and", "or", "not", "true", "false"];
const NESTED = 64;
const NUMBER_LIMIT = 2n ** 63n - 1n;
const FACTOR_LIMIT = 2n ** 31n - 1n;

function tokensOf(text) {
  const tokens = [];
  TOKEN.lastIndex = 0;
  while (TOKEN.lastIndex < text.length) {
    const at = TOKEN.lastIndex;
    const match = TOKEN.exec(text);
    if (match === null) {
      throw new Unread("“" + text.slice(at).trim().slice(0, 8) + "” begins no word, number or sign.");
    }
    if (match[1] === undefined) break;
    tokens.push(match[1]);
  }
  return tokens;
}

// Reads the tree of a predicate's text, as the data has it. An `and` and an `or` group from the left.
class PredicateText {
  constructor(run, text) {
    this.run = run;
    this.tokens = tokensOf(text);
    this.at = 0;
    this.depth = 0;
  }

  take(...words) {
    return words.includes(this.tokens[this.at]) ? this.tokens[this.at++] : null;
  }

  need(...words) {
    const word = this.take(...words);
    if (word === null) throw this.wrong(words.join(" "));
    return word;
  }

  wrong(wanted) {
    const found = this.tokens[this.at];
    return new Unread("Expected " + wanted + (found === undefined ? " at the end." : ", not “" + found + "”."));
  }

  whole() {
    const tree = this.disjunction();
    if (this.at < this.tokens.length) throw this.wrong("and, or, or the end");
    return tree;
  }

  joined(word, part) {
    let tree = part();
    while (this.take(word) !== null) tree = [word, tree, part()];
    return tree;
  }

  inside(part) {
    this.depth++;
    if (this.depth > NESTED) throw new Unread("More than " + NESTED + " parentheses and nots stand inside each other.");
    const tree = part();
    this.depth--;
    return tree;
  }

  disjunction() {
    return this.joined("or", () => this.joined("and", () => this.operand()));
  }

  operand() {
    if (this.take("not") !== null) return ["not", this.inside(() => this.operand())];
    if (this.take("(") !== null) {
      const tree = this.inside(() => this.disjunction());
      this.need(")");
      return tree;
    }
    const constant = this.take("true", "false");
    return constant === null ? this.comparison() : [constant];
  }

  comparison() {
    const left = this.sum();
    const relation = this.need(...Object.values(RELATIONS));
    return [Object.keys(RELATIONS).find((word) => RELATIONS[word] === relation), left, this.sum()];
  }

  sum() {
    const terms = [[this.take("-") ?? "+", ...this.term()]];
    for (let sign = this.take("+", "-"); sign !== null; sign = this.take("+", "-")) {
      terms.push([sign, ...this.term()]);
    }
    return terms;
  }

  term() {
    if (!/^\d/.test(this.tokens[this.at] ?? "")) return this.reference();
    const number = BigInt(this.tokens[this.at++]);
    const isFactor = this.take("*") !== null;
    if (number > (isFactor ? FACTOR_LIMIT : NUMBER_LIMIT)) throw new Unread("The number " + number + " is too great.");
    return isFactor ? [String(number), ...this.reference()] : [String(number)];
  }

  name(wanted) {
    const word = this.tokens[this.at] ?? "";
    if (!/^[A-Za-z_]/.test(word) || KEYWORDS.includes(word)) throw this.wrong(wanted);
    this.at++;
    return word;
  }

  reference() {
    const process = this.name("a number or a variable, as " + this.run.names[0] + ".x");
    const p = this.run.names.indexOf(process);
    if (p < 0) throw new Unread("No process is called “" + process + "”.");
    this.need(".");
    const variable = this.name("a variable of " + process);
    const v = this.run.vars[p].findIndex((each) => each.name === variable);
    if (v < 0) throw new Unread("Process " + process + " has no variable “" + variable + "”.");
    return [p, v];
  }
}

function parsePredicate(run, text) {
  return new PredicateText(run, text).whole();
}

// The predicate that a text is, or in words why it is none; nothing of an empty text.
function typedPredicate(run, text) {
  if (text.trim() === "") return null;
  try {
    return { node: readPredicate(parsePredicate(run, text), run.names, run.vars), wrong: "" };
  } catch (error) {
    if (!(error instanceof Unread)) throw error;
    return { node: null, wrong: error.message };
  }
}

if (typeof module === "object") {
  Object.assign(globalThis, require("./run.js"));   // on the page, scripts share their names
  module.exports = { parsePredicate, typedPredicate };
}
