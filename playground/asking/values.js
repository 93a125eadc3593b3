// Values of expressions, as the module answers: JSON, `error`, or for an optional value a text of CEL.

import { asking, bound, OF_OPTIONAL } from "./policies.js";
import { NotAnswered } from "./program.js";
import { isOverOptional, namespaceOf } from "../cel/splitter.js";
import { readJson } from "../texts/json.js";

/** @typedef {import("../cel/splitter.js").Piece} Piece */
/** @typedef {import("./policies.js").Frame} Frame */

export const ERROR = "error", NONE = "optional.none()";
const SOME = "optional.of(";
// the refusal of a value that is an optional one, and that of a form, which hides it if a table of indices is needed
const OPTIONAL = "W4", FORM = / W5$/;
// the most items of a list that are asked one by one
export const MOST_ITEMS = 100;
// which part of a conditional is evaluated after its condition
/** @type {Record<string, number>} */
export const BRANCHES = { true: 1, false: 2 };
// methods of optional values whose argument is evaluated if there is no value
const INSTEAD = ["orValue", "or"];

/** Whether a value is an optional one that has a value.
 * @param {string} value */
export const isSome = (value) => value.startsWith(SOME);

/** The number of a refusal after its part, as Y2; empty if nothing is refused.
 * @param {string} refusal */
export function causeOf(refusal) {
  const words = refusal.split(" ");
  return words[0] === "K6" ? words[3] : words[0];
}

/** The literal of a text.
 * @param {string} text */
function literal(text) {
  const escaped = text.replace(/\\/g, "\\\\").replace(/'/g, "\\'").replace(/\n/g, "\\n").replace(/\r/g, "\\r");
  return `'${escaped}'`;
}

/** The program, the variables in scope, and the text of an expression in pieces. */
export class Asking {
  /** @param {import("./program.js").Program} program @param {import("./policies.js").Variable[]} scope @param {string} text */
  constructor(program, scope, text) {
    this.program = program;
    this.scope = scope;
    this.text = text;
    /** @type {Map<string, string>} */
    this.answers = new Map();
  }

  /** The text of a piece.
   * @param {Piece} piece */
  of(piece) {
    return this.text.slice(piece.begin, piece.end);
  }

  /** The value of a text, in which the names of these frames stand for their items.
   * @param {string} text @param {Frame[]} frames @returns {string} */
  value(text, frames) {
    const asked = bound(text, frames), known = this.answers.get(asked);
    if (known !== undefined) return known;
    const found = this.found(text, frames);
    this.answers.set(asked, found);
    return found;
  }

  /** The value of a text, if it was asked; else undefined.
   * @param {string} text */
  known(text) {
    return this.answers.get(text);
  }

  /** The answer, of an optional value as the list with it that a literal makes.
   * @param {string} text @param {Frame[]} frames */
  found(text, frames) {
    try {
      return this.program.value(asking(this.scope, bound(text, frames)));
    } catch (why) {
      if (!(why instanceof NotAnswered) || (causeOf(why.line) !== OPTIONAL && !FORM.test(why.line))) throw why;
    }
    const listed = this.program.value(asking(this.scope, bound(`[?(\n${text}\n)]`, frames)));
    if (listed === ERROR) return ERROR;
    return listed === "[]" ? NONE : `${SOME}${listed.slice(1, -1)})`;
  }

  /** The parts of a piece that are evaluated, in their order, with the frames in which they are.
   * @param {Piece} piece @param {Frame[]} frames @returns {Generator<[Piece, Frame[]]>} */
  *evaluated(piece, frames) {
    const [first, ...others] = piece.parts;
    if (piece.kind === "ternary") {
      yield [first, frames];
      const chosen = BRANCHES[this.value(this.of(first), frames)];
      if (chosen) yield [piece.parts[chosen], frames];
    } else if (piece.kind === "macro") {
      yield [first, frames];
      yield* this.turns(piece, frames);
    } else if (piece.form === "method" && INSTEAD.includes(piece.name) && !namespaceOf(piece)) {
      yield [first, frames];
      if (this.value(this.of(first), frames) === NONE) for (const part of others) yield [part, frames];
    } else {
      for (const part of namespaceOf(piece) ? others : piece.parts) yield [part, frames];
    }
  }

  /** How many items a macro goes over; what is neither a list nor a map has none.
   * @param {Piece} piece @param {Frame[]} frames */
  number(piece, frames) {
    const range = this.of(piece.parts[0]);
    if (isOverOptional(piece)) return isSome(this.value(range, frames)) ? 1 : 0;
    const name = piece.name.split(" ")[0];
    const count = this.value(`size((${range}).map(${name}, ${name}))`, frames);
    return count === ERROR ? 0 : Number(count);
  }

  /** For each item of a macro whether its predicate is true, asked at once; null if one is neither true nor false.
   * @param {Piece} piece @param {Frame[]} frames @returns {boolean[] | null} */
  truths(piece, frames) {
    if (isOverOptional(piece)) return null;
    const [range, predicate] = piece.parts.map((part) => this.of(part)), names = piece.name.replace(" ", ", ");
    try {
      const text = this.value(`(\n${range}\n).${piece.name.includes(" ") ? "transformList" : "map"}(${names},\n${predicate}\n)`, frames);
      const found = text.startsWith("[") ? readJson(text) : null;
      return found && found.every((/** @type {any} */ one) => typeof one === "boolean") ? found : null;
    } catch (why) {
      if (why instanceof NotAnswered) return null;
      throw why;
    }
  }

  /** The frame of an item of a macro's range.
   * @param {Piece} piece @param {Frame[]} frames @param {number} place @returns {Frame} */
  frame(piece, frames, place) {
    const range = this.of(piece.parts[0]);
    if (isOverOptional(piece)) return [range, piece.name, OF_OPTIONAL];
    if (!piece.name.includes(" ")) return [range, piece.name, place];
    const name = piece.name.split(" ")[0];
    const isList = this.value(range, frames).startsWith("[");
    const key = isList ? place : literal(readJson(this.value(`(${range}).map(${name}, ${name})[${place}]`, frames)));
    return [range, piece.name, key];
  }

  /** The parts of a macro after its range, for each item.
   * @param {Piece} piece @param {Frame[]} frames @returns {Generator<[Piece, Frame[]]>} */
  *turns(piece, frames) {
    const number = Math.min(this.number(piece, frames), MOST_ITEMS);
    for (let place = 0; place < number; place++) yield* this.turn(piece, [...frames, this.frame(piece, frames, place)]);
  }

  /** The parts of a macro after its range, for the item of the last frame.
   * @param {Piece} piece @param {Frame[]} inner @returns {Generator<[Piece, Frame[]]>} */
  *turn(piece, inner) {
    for (const part of piece.parts.slice(1)) {
      yield [part, inner];
      // what is mapped is evaluated where the predicate is true alone
      if (piece.parts.length === 3 && this.value(this.of(part), inner) !== "true") return;
    }
  }

  /** The first piece that is the error and has no part that is, in a piece that is the error.
   * @param {Piece} piece @param {Frame[]} frames @returns {[Piece, Frame[]]} */
  first(piece, frames) {
    try {
      for (const [part, inner] of this.evaluated(piece, frames)) {
        if (this.value(this.of(part), inner) === ERROR) return this.first(part, inner);
      }
    } catch (why) {
      // a piece that the program refuses to be asked for leaves the one around it
      if (!(why instanceof NotAnswered)) throw why;
    }
    return [piece, frames];
  }
}

