// The pieces of an expression that are refused, as the module answers for each piece.

import { TABLES } from "../data/tables.js";
import { asVariable, bound } from "../asking/policies.js";
import { causeOf } from "../asking/values.js";
import { namespaceOf, OVER_OPTIONAL, tryCut } from "../cel/splitter.js";
import { refusalOf } from "./hidden.js";
import { told } from "./operands.js";

/** @typedef {import("../cel/splitter.js").Piece} Piece */
/** @typedef {import("../asking/policies.js").Frame} Frame */
/** @typedef {import("../asking/policies.js").Part} Part */
/** @typedef {import("../asking/program.js").Program} Program */
/**
 * What is refused: its place in the part, the name that the refusal gives, the piece with those around it, outermost first, the
 * iteration names in scope, the piece's text, and of Y2 what the operands are.
 * @typedef {{ cause: string, begin: number, end: number, name: string, piece: Piece | null, around: Piece[], frames: Frame[],
 *   text: string, operands: string }} Found
 */

// methods that only an optional value has, and those whose argument is one
export const OF_OPTIONALS = ["hasValue", "value", "orValue", "or", "optMap", "optFlatMap"];
const TAKES_OPTIONAL = ["or", "optFlatMap"];
// methods that make one
const MAKES_OPTIONAL = ["or", "first", "last", "of", "none", "ofNonZeroValue"];
const METHODS = ["size", "startsWith", "endsWith", "contains", "first", "last", "min", "max", ...OF_OPTIONALS];
// the refusal of a text that is too deep to be cut into pieces
const TOO_DEEP = "W10";
// what replaces a piece that is refused, so that what is around it is asked
const VALUE = "dyn(null)", OPTIONAL = "optional.of(dyn(null))";

/** The methods that there are, or are of any value: after a refused call such a method is asked too.
 * @param {string} name */
const isKnown = (name) => METHODS.includes(name) || name in TABLES.later;

/** A text of an optional value, with each iteration name standing for any item.
 * @param {string} text @param {Frame[]} frames */
function boundToOptional(text, frames) {
  return [...frames].reverse().reduce((inner, [, name]) => `optional.of(dyn(null)).optFlatMap(${name},\n${inner}\n)`, text);
}

/** The module and a part; which of its pieces are refused with a cause. */
export class Refusals {
  /** @param {Program} program @param {{ scope: import("../asking/policies.js").Variable[], text: string }} part @param {string} cause */
  constructor(program, part, cause) {
    this.program = program;
    this.part = part;
    this.cause = cause;
  }

  /** Whether a text is refused so, be it of a value or of an optional one.
   * @param {string} text @param {Frame[]} frames */
  refusesText(text, frames) {
    const ways = frames.length ? [bound, boundToOptional] : [bound];
    const isRefused = (/** @type {typeof bound} */ way) => causeOf(refusalOf(this.program, asVariable(this.part.scope, way(text, frames)))) === this.cause;
    return this.cause === "W4" ? ways.every(isRefused) : ways.some(isRefused);
  }

  /** The parts of a piece with the frames in which they are; of a macro by a wrong name the range alone.
   * @param {Piece} piece @param {Frame[]} frames @returns {Generator<[Piece, Frame[]]>} */
  *parts(piece, frames) {
    const names = piece.kind === "macro" ? piece.name.split(" ") : [], space = namespaceOf(piece);
    const inner = [...frames, ...names.map((name) => /** @type {Frame} */ (["", name, null]))];
    // `cel.bind` would declare a name
    if (space === "cel") return;
    for (const [place, part] of piece.parts.entries()) {
      if (!place && space) continue;
      if (place && names.length && this.refusesText("null", inner)) return;
      yield [part, place ? inner : frames];
    }
  }

  /** The first of its parts that is refused, as deep as there is one, with those around it; and its frames.
   * @param {Piece} piece @param {Frame[]} frames @returns {[Piece[], Frame[]]} */
  path(piece, frames) {
    for (const [part, inner] of this.parts(piece, frames)) {
      if (!this.refusesText(this.part.text.slice(part.begin, part.end), inner)) continue;
      const [around, last] = this.path(part, inner);
      return [[piece, ...around], last];
    }
    return [[piece], frames];
  }
}

/** The name that a refusal of an expression gives.
 * @param {string} refusal */
function nameOf(refusal) {
  const words = refusal.split(" ");
  return words.length === 5 && words[0] === "K6" ? words[4] : "";
}

/** The place in a text of a byte of it.
 * @param {string} text @param {number} byte */
function placeOfByte(text, byte) {
  return new TextDecoder().decode(new TextEncoder().encode(text).slice(0, byte)).replace(/\uFFFD$/, "").length;
}

/** The leaf that begins at a place.
 * @param {Piece} piece @param {number} at @returns {Piece | null} */
function leafAt(piece, at) {
  if (piece.kind === "leaf" && piece.begin === at) return piece;
  for (const part of piece.parts) {
    const found = leafAt(part, at);
    if (found) return found;
  }
  return null;
}

/** Whether what is around a piece takes an optional value in its place; of a whole, whether it looks like one.
 * @param {Piece} piece @param {Piece[]} around @returns {boolean} */
function wantsOptional(piece, around) {
  if (!around.length) {
    return piece.word === "?" || (piece.form === "method" && MAKES_OPTIONAL.includes(piece.name)) || OVER_OPTIONAL.includes(piece.word);
  }
  const outer = around[around.length - 1], isFirst = outer.parts[0] === piece;
  if (outer.optional.includes(piece)) return true;
  const word = outer.kind === "macro" ? outer.word : outer.form === "method" ? outer.name : "";
  if (word) return isFirst ? OF_OPTIONALS.includes(word) : TAKES_OPTIONAL.includes(word);
  const passesOn = ((outer.form === "field" || outer.form === "index") && isFirst) || (outer.kind === "ternary" && !isFirst);
  return passesOn && wantsOptional(outer, around.slice(0, -1));
}

/** The module and a part of a policy: all its pieces that are refused. */
export class Places {
  /** @param {Program} program @param {Part} part */
  constructor(program, part) {
    this.program = program;
    this.part = part;
    this.text = part.text;
    // for each character of the text its place in the part's text, and one more for the end
    this.origins = Array.from({ length: part.text.length + 1 }, (_, place) => place);
  }

  /** The refused pieces, from the first one on; of a text that is not read its first fault alone.
   * @returns {Generator<Found>} */
  *found() {
    for (let most = this.text.length; most > 0; most--) {
      const refusal = refusalOf(this.program, asVariable(this.part.scope, this.text)), cause = causeOf(refusal);
      if (!cause) return;
      const one = this.first(cause, refusal);
      yield one;
      if (!one.piece || !this.replace(one)) return;
    }
  }

  /** The piece that is refused first.
   * @param {string} cause @param {string} refusal @returns {Found} */
  first(cause, refusal) {
    if (refusal.includes(" at ")) {
      // the blanks around a text are not counted
      const read = this.text.trimStart(), byte = Number(refusal.split(" ").pop());
      return this.ofToken(cause, this.text.length - read.length + placeOfByte(read, byte));
    }
    const whole = cause === TOO_DEEP ? null : tryCut(this.text);
    if (!whole) return this.made(cause, 0, this.text.length, cause === TOO_DEEP ? "" : nameOf(refusal));
    const refusals = new Refusals(this.program, { scope: this.part.scope, text: this.text }, cause);
    const [path, frames] = refusals.path(whole, []), piece = path[path.length - 1];
    const own = refusalOf(this.program, asVariable(this.part.scope, bound(this.text.slice(piece.begin, piece.end), frames)));
    // the whole may be refused first for another name, of what is around the piece
    const name = nameOf(causeOf(own) === cause ? own : refusal), all = this.made(cause, piece.begin, piece.end, "");
    const operands = cause === "Y2" ? told(refusals, this.text, piece, frames) : "";
    const text = this.part.text.slice(all.begin, all.end);
    return { ...this.made(cause, ...this.carets(piece, name), name), text, piece, around: path.slice(0, -1), frames, operands };
  }

  /** The fault of a token.
   * @param {string} cause @param {number} begin @returns {Found} */
  ofToken(cause, begin) {
    const whole = tryCut(this.text), leaf = whole && (cause === "W1" || cause === "W2") ? leafAt(whole, begin) : null;
    if (leaf) return { ...this.made(cause, leaf.begin, leaf.end, ""), piece: leaf };
    const word = /^[A-Za-z_]\w*/.exec(this.text.slice(begin));
    return this.made(cause, begin, begin + (word ? word[0].length : 1), "");
  }

  /** A fault at a place of the text as it is now, by its place in the part.
   * @param {string} cause @param {number} begin @param {number} end @param {string} name @returns {Found} */
  made(cause, begin, end, name) {
    const from = this.origins[begin] ?? this.part.text.length, to = Math.max(from, this.origins[Math.max(end, 1) - 1] ?? from) + 1;
    return { cause, begin: from, end: to, name, piece: null, around: [], frames: [], text: "", operands: "" };
  }

  /** Where carets are: under the name of a method that is refused, else under the piece.
   * @param {Piece} piece @param {string} name @returns {[number, number]} */
  carets(piece, name) {
    if (!piece.parts.length || !name || piece.form !== "method" || name !== piece.name) return [piece.begin, piece.end];
    const begin = this.text.indexOf(name, piece.parts[0].end);
    return [begin, begin + name.length];
  }

  /** Puts what is accepted in the place of a piece; whether it is another text than before.
   * @param {Found} found */
  replace(found) {
    let piece = /** @type {Piece} */ (found.piece), around = found.around;
    const outer = () => around[around.length - 1];
    while (around.length && outer().form === "method" && outer().parts[0] === piece && !isKnown(outer().name)) {
      [piece, around] = [outer(), around.slice(0, -1)];
    }
    // the name of a type beside `type(..)` is no fault of its own
    if (around.length && piece.form === "call" && piece.name === "type" && ["==", "!="].includes(outer().form)) [piece, around] = [outer(), around.slice(0, -1)];
    const by = wantsOptional(piece, around) ? OPTIONAL : VALUE, { begin, end } = piece;
    if (this.text.slice(begin, end) === by) return false;
    const at = this.origins[begin];
    this.text = this.text.slice(0, begin) + by + this.text.slice(end);
    this.origins.splice(begin, end - begin, ...Array(by.length).fill(at));
    return true;
  }
}
