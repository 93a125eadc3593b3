// Refusals behind one for a table of indices.
//
// A policy that needs such a table is refused as it would be without one, by W5 without a name for the first part that needs
// it, whatever else is wrong. So it is asked too with other macros, in which no index or key is used: a refusal of these is
// its own. If there is none, its table may be too short for a part, which is refused alone.

import { asVariable, parts as partsOf } from "../asking/policies.js";
import { tryCut } from "../cel/splitter.js";

/** @typedef {import("../cel/splitter.js").Piece} Piece */

// how the refusal of a form ends, and the macro of two names that makes a list
const FORM = / W5$/, LIST = "transformList";

/** What the module says to a policy, or behind that; empty if it is accepted.
 * @param {import("../asking/program.js").Program} program @param {any} policy */
export function refusalOf(program, policy) {
  const said = program.refusal(policy);
  return (FORM.test(said) && program.refusal(withoutKeys(policy))) || said;
}

/** What the module says to a whole policy, or behind that, with the part that is refused.
 * @param {import("../asking/program.js").Program} program @param {any} policy */
export function refusalOfPolicy(program, policy) {
  const said = refusalOf(program, policy);
  if (!FORM.test(said)) return said;
  const part = partsOf(policy).find((one) => FORM.test(refusalOf(program, asVariable(one.scope, one.text))));
  return part ? `K6 ${part.kind} ${part.place} W5` : said;
}

/** A document in which no macro of an expression uses an index or a key.
 * @param {any} value @returns {any} */
function withoutKeys(value) {
  if (Array.isArray(value)) return value.map(withoutKeys);
  if (value === null || typeof value !== "object") return value;
  const isText = (/** @type {string} */ key, /** @type {any} */ one) => /xpression$/.test(key) && typeof one === "string";
  return Object.fromEntries(Object.entries(value).map(([key, one]) => [key, isText(key, one) ? textWithoutKeys(one) : withoutKeys(one)]));
}

/** An expression in which the first name of a macro with two is one over null.
 * @param {string} text */
function textWithoutKeys(text) {
  const whole = tryCut(text);
  return whole ? text.slice(0, whole.begin) + changed(text, whole) + text.slice(whole.end) : text;
}

/** The text of a piece, with its macros changed.
 * @param {string} text @param {Piece} piece @returns {string} */
function changed(text, piece) {
  const parts = piece.parts.map((part) => changed(text, part)), names = piece.kind === "macro" ? piece.name.split(" ") : [];
  if (names.length === 2) return macro(piece.word, names, parts);
  let made = "", at = piece.begin;
  for (const [place, part] of piece.parts.entries()) {
    made += text.slice(at, part.begin) + parts[place];
    at = part.end;
  }
  return made + text.slice(at, piece.end);
}

/** A macro of two names over the range and with the texts after it, of which the first name is not used.
 * @param {string} word @param {string[]} names @param {string[]} parts */
function macro(word, [key, value], [range, ...bodies]) {
  const unused = `${key}0` === value ? `${key}1` : `${key}0`;
  const made = bodies.map((body, place) => {
    const isLast = word === LIST && place === bodies.length - 1;
    return isLast ? `[dyn(null)].map(${key},\n${body}\n)[0]` : `[dyn(null)].all(${key},\n${body}\n)`;
  });
  return `(\n${range}\n).${word}(${unused}, ${value}, ${made.join(", ")})`;
}
