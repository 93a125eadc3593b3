// What to change so that an expression has another value, by the values of its pieces.

import { NotCut, cut, isLiteral, isPath, namespaceOf, operands, tryCut } from "../cel/splitter.js";
import { OF_OPTIONAL } from "./policies.js";
import { NotAnswered } from "./program.js";
import { Asking, BRANCHES, ERROR, isSome, MOST_ITEMS, NONE } from "./values.js";

/** @typedef {import("../cel/splitter.js").Piece} Piece */
/** @typedef {import("./policies.js").Frame} Frame */

// the most characters of a value, and the most items that are told of
const MOST_VALUE = 120, MOST_TOLD = 3;
const PATH = /^[A-Za-z_][\w.]*(?:\[(?:[0-9]+|'[^']*'|"[^"]*")\][\w.]*)*$/;
// how a relation that has to hold, or not to hold, is told of its left operand
/** @type {Record<string, [string, string]>} */
const RELATIONS = {
  "<": ["below", "at least"], "<=": ["at most", "above"], ">": ["above", "at most"], ">=": ["at least", "below"],
  "==": ["equal to", "other than"], "!=": ["other than", "equal to"], in: ["in", "not in"],
};
/** @type {Record<string, string>} */
const SWAPPED = { "<": ">", "<=": ">=", ">": "<", ">=": "<=", "==": "==", "!=": "!=" };
/** @type {Record<string, string>} */
const TESTS = { startsWith: "start with", endsWith: "end with", contains: "contain" };
/** @type {Record<string, string>} */
const SETS = { contains: "have every item of", intersects: "have an item of", equivalent: "have the same items as" };
// the value of an operand with which a run leaves out the operands after it
/** @type {Record<string, string>} */
export const ENDING = { "&&": "false", "||": "true" };
// the macros that are true of one item alone
const ONE = ["exists_one", "existsOne"];

/** Whether a piece is what there is at a path, or something else if there is nothing.
 * @param {Piece} piece */
const isPathOr = (piece) => piece.form === "method" && piece.name === "orValue" && isPath(piece.parts[0]);

/** Whether a piece is what there is at a path, or a literal if there is nothing.
 * @param {Piece} piece */
const isDefault = (piece) => isPathOr(piece) && isLiteral(piece.parts[1]);

/** A text on one line.
 * @param {string} text */
export const oneLine = (text) => text.trim().split(/\s+/).join(" ");

/** A path that may have optional steps and a literal instead, without these; another text as it is.
 * @param {string} text */
function plain(text) {
  let piece = tryCut(text);
  if (!piece) return text;
  if (isDefault(piece)) piece = piece.parts[0];
  return isPath(piece) ? text.slice(piece.begin, piece.end).replaceAll(".?", ".").replaceAll("[?", "[") : text;
}

/** A text in which each use of an iteration name is replaced.
 * @param {string} name @param {string} by @param {string} text */
function replaced(name, by, text) {
  return text.replace(new RegExp(`(?<![\\w.'"])${name}(?![\\w('"])`, "g"), () => by);
}

/** The pieces of an expression, with their values. */
class Reasons {
  /** @param {Asking} asked */
  constructor(asked) {
    this.asked = asked;
  }

  /** A piece on one line, without the brackets around it.
   * @param {Piece} piece */
  text(piece) {
    const text = oneLine(this.asked.of(piece));
    return text.startsWith("(") && tryCut(text.slice(1, -1)) ? text.slice(1, -1) : text;
  }

  /** @param {Piece} piece @param {Frame[]} frames */
  value(piece, frames) {
    return this.asked.value(this.asked.of(piece), frames);
  }

  /** The items for which the predicate has a value, with the frames in which they are.
   * @param {Piece} piece @param {Frame[]} frames @param {string} wanted */
  items(piece, frames, wanted) {
    const found = /** @type {Frame[][]} */ ([]), number = Math.min(this.asked.number(piece, frames), MOST_ITEMS);
    const truths = this.asked.truths(piece, frames);
    for (let place = 0; place < number; place++) {
      if (truths && String(truths[place]) !== wanted) continue;
      const inner = [...frames, this.asked.frame(piece, frames, place)];
      if (this.value(piece.parts[1], inner) === wanted) found.push(inner);
    }
    return found;
  }

  /** What has to be otherwise so that a piece is true, or false: sentences that have to hold together.
   * @param {Piece} piece @param {boolean} target @param {Frame[]} frames @returns {string[]} */
  changes(piece, target, frames) {
    if (isLiteral(piece) || this.value(piece, frames) === String(target)) return [];
    if (piece.kind === "ternary") {
      const chosen = BRANCHES[this.value(piece.parts[0], frames)];
      return chosen ? this.changes(piece.parts[chosen], target, frames) : [];
    }
    if (piece.kind === "macro") return this.ofMacro(piece, target, frames);
    if (piece.form === "not") return this.changes(piece.parts[0], !target, frames);
    if (piece.form in ENDING) return this.ofLogic(piece, target, frames);
    return [this.change(piece, target, frames)];
  }

  /** @param {Piece} piece @param {boolean} target @param {Frame[]} frames @returns {string[]} */
  ofLogic(piece, target, frames) {
    const found = operands(piece).map((part) => this.changes(part, target, frames));
    if ((piece.form === "&&") === target) return found.flat();
    const choices = found.filter((some) => some.length).map((some) => some.join(" and "));
    return choices.length ? [choices.join(", or ")] : [];
  }

  /** What a macro wants: of `all` each item, of `exists` one.
   * @param {Piece} piece @param {boolean} target @param {Frame[]} frames @returns {string[]} */
  ofMacro(piece, target, frames) {
    const predicate = this.text(piece.parts[1]), { word } = piece;
    if (word === "all" && target || word === "exists" && !target) {
      const found = this.items(piece, frames, String(!target)).map((inner) => this.changes(piece.parts[1], target, inner));
      const told = found.slice(0, MOST_TOLD).flat();
      return found.length > MOST_TOLD ? [...told, `and ${found.length - MOST_TOLD} items more`] : told;
    }
    const place = this.place(piece.parts[0], frames), name = piece.name.replace(" ", ", ");
    if (word === "exists" && target) return [`${place} has to have an item ${name} for which ${predicate} is true`];
    if (ONE.includes(word) && target) return [`${place} has to have exactly one item ${name} for which ${predicate} is true`];
    return [`${this.text(piece)} has to be ${target}`];
  }

  /** What has to be otherwise of a piece that is no connective.
   * @param {Piece} piece @param {boolean} target @param {Frame[]} frames */
  change(piece, target, frames) {
    if (piece.form in RELATIONS) return this.ofRelation(piece, target, frames);
    const asked = piece.form === "method" && piece.name === "hasValue" ? piece.parts[0] : piece;
    const word = target ? "has to" : "must not";
    if (piece.form === "has" || (asked.form === "field" && asked !== piece)) {
      return `${this.place(asked.parts[0], frames)} ${word} have the field ${asked.name}`;
    }
    if (namespaceOf(piece) === "sets" && piece.name in SETS) {
      const [first, second] = piece.parts.slice(1).map((part) => this.other(part, frames));
      return `${first} ${word} ${SETS[piece.name]} ${second}`;
    }
    if (piece.form === "method" && piece.name in TESTS && !namespaceOf(piece)) {
      return `${this.place(piece.parts[0], frames)} ${word} ${TESTS[piece.name]} ${this.other(piece.parts[1], frames)}`;
    }
    return `${this.place(piece, frames)} has to be ${target}`;
  }

  /** @param {Piece} piece @param {boolean} target @param {Frame[]} frames */
  ofRelation(piece, target, frames) {
    let [left, right] = piece.parts, form = piece.form;
    if (form in SWAPPED && isLiteral(left) && !isLiteral(right)) [left, right, form] = [right, left, SWAPPED[form]];
    const word = RELATIONS[form][target ? 0 : 1];
    if (form === "in" && (isLiteral(left) || this.isGiven(left, frames))) {
      return `${this.place(right, frames)} ${target ? "has to" : "must not"} have ${this.place(left, frames)}`;
    }
    const [taken, before] = this.branch(left, frames);
    return [...before, `${this.place(taken, frames)} has to be ${word} ${this.other(right, frames)}`].join(" and ");
  }

  /** The branch of a conditional that is taken; the other if a literal is taken, with what it needs to be taken.
   * @param {Piece} piece @param {Frame[]} frames @returns {[Piece, string[]]} */
  branch(piece, frames) {
    if (isDefault(piece) && this.value(piece.parts[0], frames) === NONE) {
      const asked = piece.parts[0];
      return [piece, asked.form === "field" ? [`${this.place(asked.parts[0], frames)} has to have the field ${asked.name}`] : []];
    }
    const chosen = piece.kind === "ternary" ? BRANCHES[this.value(piece.parts[0], frames)] : undefined;
    if (!chosen) return [piece, []];
    const taken = piece.parts[chosen], other = piece.parts[3 - chosen];
    if (!isLiteral(taken)) return [taken, []];
    return isLiteral(other) ? [piece, []] : [other, this.changes(piece.parts[0], chosen === BRANCHES.false, frames)];
  }

  /** What something is compared with: its value, and where that comes from; one that is the error has no value.
   * @param {Piece} piece @param {Frame[]} frames */
  other(piece, frames) {
    if (isLiteral(piece)) return this.text(piece);
    const value = this.value(piece, frames), place = this.place(piece, frames);
    if (value === ERROR) return place;
    return `${value.length <= MOST_VALUE ? value : `${value.slice(0, MOST_VALUE)}..`} (${place})`;
  }

  /** Whether a piece is an item of a list that the policy itself spells.
   * @param {Piece} piece @param {Frame[]} frames */
  isGiven(piece, frames) {
    const frame = [...frames].reverse().find(([, name]) => name === this.text(piece));
    return Boolean(frame && isLiteral(cut(frame[0])));
  }

  /** A piece with items instead of iteration names, if these are paths or literals of the policy.
   * @param {Piece} piece @param {Frame[]} frames */
  place(piece, frames) {
    if (isPathOr(piece) && isSome(this.value(piece.parts[0], frames))) piece = piece.parts[0];
    const text = plain(this.text(piece));
    return this.key(text, frames) || this.standing(text, frames);
  }

  /** The key or the index that a name stands for, in words; empty if it stands for none.
   * @param {string} text @param {Frame[]} frames */
  key(text, frames) {
    for (let depth = frames.length - 1; depth >= 0; depth--) {
      const [range, names, place] = frames[depth], [name, ...keys] = names.split(" ").reverse();
      if (text === name) return "";
      if (!keys.includes(text)) continue;
      const path = plain(range.trim()), of = PATH.test(path) ? ` of ${this.standing(path, frames.slice(0, depth))}` : "";
      return `the ${typeof place === "number" ? "index" : "key"} ${place}${of}`;
    }
    return "";
  }

  /** A text with what the iteration names of these frames stand for.
   * @param {string} text @param {Frame[]} frames */
  standing(text, frames) {
    for (let depth = frames.length - 1; depth >= 0; depth--) {
      const [range, names, place] = frames[depth], path = plain(range.trim());
      const keys = names.split(" "), name = /** @type {string} */ (keys.pop());
      for (const key of keys) text = replaced(key, String(place), text);
      if (isLiteral(cut(range))) text = replaced(name, this.asked.value(name, frames.slice(0, depth + 1)), text);
      else if (PATH.test(path) && place === OF_OPTIONAL) text = replaced(name, path, text);
      else if (PATH.test(path) && (keys.length || this.asked.value(range, frames.slice(0, depth)).startsWith("["))) {
        text = replaced(name, `${path}[${place}]`, text);
      }
    }
    return text;
  }
}

/** What to change so that an expression is true; null if that is not known.
 * @param {Asking} asked */
export function changeToTrue(asked) {
  try {
    const changes = new Reasons(asked).changes(cut(asked.text), true, []);
    return changes.length ? `to be true: ${changes.join("; ")}` : null;
  } catch (why) {
    if (why instanceof NotCut || why instanceof NotAnswered || why instanceof RangeError) return null;
    throw why;
  }
}
