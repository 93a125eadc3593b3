// The tree of a part as its author wrote it: the value of each piece, as the module answers for it alone.

import { NotAnswered } from "../asking/program.js";
import { ENDING, oneLine } from "../asking/reasons.js";
import { Asking, ERROR } from "../asking/values.js";
import { cut, isLiteral, isOverOptional, isPath, NotCut, operands } from "../cel/splitter.js";
import { treeKey } from "../cel/nodes.js";
import { textOfSpan } from "../slots/mapping.js";
import { named, note, shortened, silent } from "./shown.js";

/** @typedef {import("../cel/splitter.js").Piece} Piece */
/** @typedef {import("../asking/policies.js").Frame} Frame */
/** @typedef {import("../runs/evaluations.js").Evaluation} Evaluation */
/** @typedef {import("./shown.js").Shown} Shown */

// the most items of a macro that are shown, and that are asked one by one for the one that decides
const MOST_ITEMS = 10, MOST_ASKED = 200;
// the value of a predicate that decides the value of a macro
/** @type {Record<string, string>} */
const DECIDING = { all: "false", exists: "true" };

/** The steps at which a run evaluated what is outside of macros, by the keys of its trees.
 * @param {Evaluation} whole @returns {Map<string, number>} */
function stepsOf(whole) {
  const found = new Map(whole.parts.flatMap((part) => [...stepsOf(part)]));
  return found.set(treeKey(textOfSpan(whole.span)), whole.step);
}

/** The pieces of one part, with the first that is the error, whether the part decides, and what a run evaluated. */
export class AskedTree {
  /** @param {Asking} asked @param {boolean} isTold @param {Evaluation | null} whole */
  constructor(asked, isTold, whole) {
    this.asked = asked;
    this.isTold = isTold;
    this.steps = whole ? stepsOf(whole) : new Map();
    this.last = whole ? whole.step : undefined;
    /** @type {Piece | null} */
    this.whole = null;
    /** @type {Piece | null} */
    this.origin = null;
  }

  /** The tree of the whole part; null if its text is not cut in pieces, or a piece is not answered.
   * @returns {Shown | null} */
  all() {
    try {
      this.whole = cut(this.asked.text);
      if (this.value(this.whole, []) === ERROR) this.origin = this.asked.first(this.whole, [])[0];
      return this.tree(this.whole, [], this.isTold);
    } catch (why) {
      if (why instanceof NotCut || why instanceof NotAnswered || why instanceof RangeError) return null;
      throw why;
    }
  }

  /** @param {Piece} piece @param {Frame[]} frames */
  value(piece, frames) {
    return this.asked.value(this.asked.of(piece), frames);
  }

  /** @param {Piece} piece */
  source(piece) {
    return oneLine(this.asked.of(piece));
  }

  /** A piece with its parts below it; one that decides, or has the first error in it, is open.
   * @param {Piece} piece @param {Frame[]} frames @param {boolean} decides @returns {Shown} */
  tree(piece, frames, decides) {
    const value = this.value(piece, frames), isOrigin = piece === this.origin;
    const step = piece === this.whole ? this.last : frames.length ? undefined : this.steps.get(treeKey(this.asked.of(piece)));
    return {
      type: "node", text: this.source(piece), value: shortened(value), step, origin: isOrigin ? "" : undefined,
      decides: !isOrigin && decides && !this.passesOn(piece, value),
      open: decides || piece === this.whole || this.hasOrigin(piece), below: this.below(piece, value, frames, decides),
    };
  }

  /** @param {Piece} piece */
  hasOrigin(piece) {
    return this.origin !== null && piece.begin <= this.origin.begin && this.origin.end <= piece.end;
  }

  /** Whether the parts of a piece decide its value, and not the piece itself.
   * @param {Piece} piece @param {string} value */
  passesOn(piece, value) {
    return piece.form in ENDING || piece.form === "not" || piece.kind === "ternary" || (piece.kind === "macro" && DECIDING[piece.word] === value);
  }

  /** The parts of a piece that say more than it does.
   * @param {Piece} piece @param {string} value @param {Frame[]} frames @param {boolean} decides @returns {Shown[]} */
  below(piece, value, frames, decides) {
    if (isPath(piece) && value !== ERROR) return [];
    if (piece.kind === "macro") return this.ofMacro(piece, value, frames, decides);
    const isChain = piece.form in ENDING, chain = isChain ? operands(piece) : piece.parts;
    const evaluated = this.evaluated(piece, chain, frames), shown = [];
    for (const part of chain) {
      if (isLiteral(part)) continue;
      if (evaluated.includes(part)) {
        const isSame = this.value(part, frames) === value && this.passesOn(piece, value);
        shown.push(this.tree(part, frames, decides && (piece.form === "not" || isSame)));
      } else if (isChain || piece.kind === "ternary" || part !== piece.parts[0]) shown.push(silent(this.source(part)));
    }
    return shown;
  }

  /** Those of the parts that a run evaluates: of a chain those up to the one that ends it.
   * @param {Piece} piece @param {Piece[]} chain @param {Frame[]} frames */
  evaluated(piece, chain, frames) {
    if (!(piece.form in ENDING)) return [...this.asked.evaluated(piece, frames)].map(([part]) => part);
    const end = chain.findIndex((part) => this.value(part, frames) === ENDING[piece.form]);
    return end < 0 ? chain : chain.slice(0, end + 1);
  }

  /** The range of a macro and its first items, with the one that decides.
   * @param {Piece} piece @param {string} value @param {Frame[]} frames @param {boolean} decides @returns {Shown[]} */
  ofMacro(piece, value, frames, decides) {
    const shown = isLiteral(piece.parts[0]) ? [] : [this.tree(piece.parts[0], frames, false)];
    const number = this.asked.number(piece, frames), end = DECIDING[piece.word] === value ? this.ends(piece, value, frames, number) : -1;
    let count = 0;
    for (let place = 0; place < Math.min(end < 0 ? number : end + 1, MOST_ITEMS); place++, count++) {
      shown.push(this.item(piece, place, [...frames, this.asked.frame(piece, frames, place)], decides && place === end));
    }
    if (end >= MOST_ITEMS) shown.push(this.item(piece, end, [...frames, this.asked.frame(piece, frames, end)], decides));
    if (end >= 0) return shown;
    if (count < number) shown.push(note(`and ${number - count} items more`));
    if (!number && value !== ERROR) shown.push(note(isOverOptional(piece) ? "there is no value" : "there are no items"));
    return shown;
  }

  /** The item that decides a macro; -1 if it is none of those that are asked.
   * @param {Piece} piece @param {string} value @param {Frame[]} frames @param {number} number */
  ends(piece, value, frames, number) {
    const truths = this.asked.truths(piece, frames);
    if (truths) return truths.findIndex((one) => String(one) === value);
    for (let place = 0; place < Math.min(number, MOST_ASKED); place++) {
      if (this.value(piece.parts[1], [...frames, this.asked.frame(piece, frames, place)]) === value) return place;
    }
    return -1;
  }

  /** An item, with the predicate and the transform for it.
   * @param {Piece} piece @param {number} place @param {Frame[]} inner @param {boolean} decides @returns {Shown} */
  item(piece, place, inner, decides) {
    const names = piece.name.split(" ").map((name) => named(name, this.asked.value(name, inner))).join(", ");
    const parts = [...this.asked.turn(piece, inner)].map(([part]) => part);
    return {
      type: "item", text: `item ${place}: ${names}`, value: shortened(this.value(parts[0], inner)),
      open: decides || parts.some((part) => this.hasOrigin(part)), below: parts.map((part) => this.tree(part, inner, decides)),
    };
  }
}
