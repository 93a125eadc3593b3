// An expression of the profile as a tree with macros expanded, in which each node knows its place in the text.

import { cutNarrow, NotCut } from "./splitter.js";

/** @typedef {import("./splitter.js").Piece} Piece */
/**
 * `type` is `literal`, `name`, `variable`, `selection`, `has`, `ternary`, `list`, `map`, `macro`, `operation`, `call` or
 * `method`; `word` is the name, the field, the operator, the function, the method or which macro it is.
 * @typedef {{ type: string, word: string, begin: number, end: number, parts: Node[], value?: any, item?: string }} Node
 */

const SIMPLE = { a: "\x07", b: "\b", f: "\f", n: "\n", r: "\r", t: "\t", v: "\v" };
const NUMBERED = /^(?:[xX]([0-9a-fA-F]{2})|u([0-9a-fA-F]{4})|U([0-9a-fA-F]{8})|([0-3][0-7]{2}))/;
/** @type {Record<string, any>} */
const WORDS = { true: true, false: false, null: null };
/** @type {Record<string, string>} */
const TYPES = { field: "selection", has: "has", list: "list", map: "map", call: "call", method: "method" };

/** What a text literal says.
 * @param {string} spelled @returns {string} */
export function textOf(spelled) {
  const isRaw = /^[rR]/.test(spelled);
  const inner = spelled.slice(isRaw ? 2 : 1, -1);
  if (isRaw) return inner;
  return inner.replace(/\\([xX][0-9a-fA-F]{2}|u[0-9a-fA-F]{4}|U[0-9a-fA-F]{8}|[0-3][0-7]{2}|[^])/g, (_, one) => {
    const numbered = NUMBERED.exec(one);
    if (!numbered) return SIMPLE[/** @type {keyof typeof SIMPLE} */ (one)] ?? one;
    const [, short, middle, long, octal] = numbered;
    return String.fromCodePoint(octal ? parseInt(octal, 8) : parseInt(short ?? middle ?? long, 16));
  });
}

/** The value of a literal; undefined if a leaf is none.
 * @param {Piece} piece @returns {any} */
function literalOf(piece) {
  if (piece.word in WORDS) return WORDS[piece.word];
  if (/^[rR]?["']/.test(piece.word)) return textOf(piece.word);
  if (piece.word === "-") return -BigInt(/** @type {string} */ (piece.digits));
  return /^[0-9]/.test(piece.word) ? BigInt(piece.word) : undefined;
}

/** @param {Piece} piece @returns {Node} */
function ofLeaf(piece) {
  const place = { begin: piece.begin, end: piece.end, parts: [] };
  if (piece.variable !== undefined) return { type: "variable", word: piece.variable, ...place };
  const value = literalOf(piece);
  if (value !== undefined) return { type: "literal", word: "", value, ...place };
  return { type: "name", word: piece.word, ...place };
}

/** The node of a piece.
 * @param {Piece} piece @returns {Node} */
function nodeOf(piece) {
  if (piece.kind === "leaf") return ofLeaf(piece);
  const parts = piece.parts.map(nodeOf), place = { begin: piece.begin, end: piece.end, parts };
  if (piece.kind === "ternary") return { type: "ternary", word: "", ...place };
  if (piece.kind === "macro") return { type: "macro", word: piece.word, item: piece.name, ...place };
  if (piece.form === "not" || piece.form === "minus") return { type: "operation", word: piece.form === "not" ? "!" : "-", ...place };
  if (piece.form === "index") return { type: "operation", word: "[]", ...place };
  if (!piece.form) throw new NotCut();
  return { type: TYPES[piece.form] ?? "operation", word: piece.name || piece.form, ...place };
}

/** The tree of an expression of the profile.
 * @param {string} text */
export const readNode = (text) => nodeOf(cutNarrow(text));

/** What texts with one tree have in common.
 * @param {Node} node @returns {string} */
function signature(node) {
  const value = node.type === "literal" ? `${typeof node.value} ${JSON.stringify(String(node.value))}` : node.item ?? "";
  return `(${node.type} ${node.word} ${value}${node.parts.map(signature).join("")})`;
}

/** What texts with one tree in the profile have in common; empty if a text has none.
 * @param {string} text */
export function treeKey(text) {
  try {
    return signature(readNode(text));
  } catch {
    return "";
  }
}

/** Whether two texts have the same tree in the profile.
 * @param {string} first @param {string} second */
export const isSame = (first, second) => first === second || (treeKey(first) !== "" && treeKey(first) === treeKey(second));

/** The words of the stack that the code of a node is given.
 * @param {Node} node @returns {number} */
export function need(node) {
  const needs = node.parts.map(need);
  if (!needs.length) return 1;
  if (node.type === "ternary") return Math.max(...needs);
  if (node.type === "list") return 1 + Math.max(...needs);
  if (node.type === "map") return Math.max(...needs.map((one, place) => 1 + (place % 2) + one));
  if (node.type === "macro") return Math.max(needs[0], 5 + Math.max(...needs.slice(1)));
  return Math.max(needs[0], ...needs.slice(1).map((one) => 1 + one));
}

const ENCODER = new TextEncoder();
/** The bytes of a text.
 * @param {string} text */
export const byteLength = (text) => ENCODER.encode(text).length;

/** The kind of a literal's value.
 * @param {any} value */
export function kindOf(value) {
  if (value === null) return "null";
  if (typeof value === "boolean") return "bool";
  return typeof value === "bigint" ? "int" : "text";
}
