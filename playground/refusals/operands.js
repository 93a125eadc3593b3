// What is wrong with the operands of a piece that is refused for their types (Y2), as the module answers for each.

import { TABLES } from "../data/tables.js";

/** @typedef {import("../cel/splitter.js").Piece} Piece */
/** @typedef {import("../asking/policies.js").Frame} Frame */

// the most characters of an operand that are shown
const MOST = 40;

/** The word for what a piece does.
 * @param {Piece} piece */
function nameOf(piece) {
  if (piece.kind === "ternary") return "ternary";
  if (piece.kind === "macro") return piece.word;
  return piece.form === "method" || piece.form === "call" ? piece.name : piece.form;
}

/** The type of an operand, empty if it is not known before the run.
 * @param {import("./places.js").Refusals} refusals @param {string} text @param {Frame[]} frames */
function typeOf(refusals, text, frames) {
  if (text.trim() === "null") return "null";
  const types = /** @type {[string, string][]} */ (Object.entries(TABLES.operandTypes));
  const taken = types.filter(([, form]) => !refusals.refusesText(form.replace("%s", () => text), frames));
  return taken.length === 1 ? taken[0][0] : "";
}

/** What a piece of a text takes, and which types its operands are known to have; empty if it is not known.
 * @param {import("./places.js").Refusals} refusals @param {string} text @param {Piece} piece @param {Frame[]} frames */
export function told(refusals, text, piece, frames) {
  const name = nameOf(piece), takes = TABLES.operandsTaken[name];
  if (!takes) return "";
  const found = [], alone = TABLES.operandsAlone[takes];
  for (const [place, [part, inner]] of [...refusals.parts(piece, frames)].entries()) {
    // of a map the keys alone
    if (name === "map" && place % 2) continue;
    const operand = text.slice(part.begin, part.end), kind = typeOf(refusals, operand, inner);
    const cut = operand.length <= MOST ? operand : `${operand.slice(0, MOST)}..`;
    if (kind && kind !== alone) found.push(`\`${cut.trim().split(/\s+/).join(" ")}\` is ${kind}`);
  }
  const shown = name === "field" ? `\`.${piece.name}\`` : TABLES.operandsShown[name] ?? `\`${name}\``;
  return found.length ? `${shown} takes ${takes}; ${found.join(", ")}` : "";
}
