// The sub-expressions that a run evaluated, as trees; which of them decide, and where an error begins.

import { kindOf } from "../cel/nodes.js";
import { readJson } from "../texts/json.js";
import { textOfSpan } from "../slots/mapping.js";

/** @typedef {import("../cel/nodes.js").Node} Node */
/** @typedef {import("../slots/mapping.js").Span} Span */

export const ERROR_REFERENCE = 0n, FALSE_REFERENCE = 2n, TRUE_REFERENCE = 3n;
// which truth of its predicate ends a macro
/** @type {Record<string, bigint>} */
const ENDING = { all: FALSE_REFERENCE, exists: TRUE_REFERENCE };

const DIVIDING = ["/", "%"];

/**
 * A node that was evaluated up to a step, with what was evaluated for it. A macro has its range in `parts`, and in `turns` an
 * evaluation for each item that it looked at, whose span is that of the loop's head.
 */
export class Evaluation {
  /** @param {Span} span @param {number} step @param {bigint} reference @param {Evaluation[]} [parts] @param {Evaluation[]} [turns] */
  constructor(span, step, reference, parts = [], turns = []) {
    this.span = span;
    this.step = step;
    this.reference = reference;
    this.parts = parts;
    this.turns = turns;
  }

  /** @returns {Node} */
  get node() {
    return /** @type {Node} */ (this.span.node);
  }

  get isTurn() {
    return this.span.role === "item";
  }

  /** The evaluation of one of the node's parts; undefined if it was not evaluated.
   * @param {Node} node */
  part(node) {
    return [...this.parts].reverse().find((one) => one.node === node);
  }
}

/** Takes the last evaluations whose code is in that of a span.
 * @param {Evaluation[]} open @param {Span} span */
function inside(open, span) {
  let at = open.length;
  while (at && span.first <= open[at - 1].span.first && open[at - 1].span.last <= span.last) at -= 1;
  return open.splice(at);
}

/** Adds an evaluation around those that are its parts.
 * @param {Evaluation[]} open @param {Evaluation} made */
function add(open, made) {
  const found = inside(open, made.span);
  const again = found.find((one) => one.span.node === made.node && one.step === made.step && !one.isTurn);
  if (again) {
    // a whole expression is marked with and without the field that it keeps
    open.push(again);
    return;
  }
  for (const one of found) {
    const last = made.turns[made.turns.length - 1];
    if (one.isTurn) made.turns.push(one);
    else (last ? last.parts : made.parts).push(one);
  }
  open.push(made);
}

/** The evaluations of whole parts, by the part's kind and place.
 * @param {import("./walk.js").Walk} walk */
export function evaluated(walk) {
  /** @type {Map<number, Evaluation[]>} */
  const frames = new Map(), /** @type {Map<string, Evaluation>} */ found = new Map();
  for (const { span, step, reference, depth } of walk.arrivals) {
    const open = frames.get(depth) ?? [];
    frames.set(depth, open);
    const made = new Evaluation(span, step, reference);
    if (made.isTurn) {
      open.push(made);
      continue;
    }
    add(open, made);
    if (span.depth === 0 && span.part) {
      found.set(`${span.part.kind} ${span.part.place}`, /** @type {Evaluation} */ (open.pop()));
      open.length = 0;
    }
  }
  return found;
}

/** What was evaluated for an evaluation, also for the items of a macro.
 * @param {Evaluation} one */
export const inner = (one) => [...one.parts, ...one.turns.flatMap((turn) => turn.parts)];

/** The innermost parts whose values make that of an evaluation; none of an error, which has origins instead.
 * @param {Evaluation} one @returns {Evaluation[]} */
export function deciding(one) {
  const parts = passedOn(one);
  if (parts.length) return parts.flatMap(deciding);
  return one.reference === ERROR_REFERENCE ? [] : [one];
}

/** The parts whose values decide that of an evaluation.
 * @param {Evaluation} one @returns {Evaluation[]} */
function passedOn(one) {
  const { type, word, parts: nodes } = one.node;
  const parts = /** @type {(Evaluation | undefined)[]} */ (nodes.map((node) => one.part(node)));
  const there = (/** @type {(Evaluation | undefined)[]} */ some) => /** @type {Evaluation[]} */ (some.filter(Boolean));
  if (type === "operation" && (word === "&&" || word === "||")) return there(parts).filter((part) => part.reference === one.reference);
  if (type === "operation" && word === "!" || type === "call" && word === "dyn") return there(parts);
  if (type === "ternary") return there(parts.slice(1));
  if (type === "macro" && one.turns.length && one.reference === ENDING[word]) {
    return there([one.turns[one.turns.length - 1].part(nodes[1])]);
  }
  return [];
}

/** The evaluations that are the error with no part that is.
 * @param {Evaluation} one @returns {Evaluation[]} */
export function origins(one) {
  const found = inner(one).flatMap(origins);
  return found.length || one.reference !== ERROR_REFERENCE ? found : [one];
}

/** What an evaluation lacks that is an error while its parts are none.
 * @param {Evaluation} one @param {Map<bigint, string>} values */
export function whyError(one, values) {
  const { type, word, parts } = one.node;
  if (type === "variable") return `the variable ${word} is the error`;
  const operand = parts.length ? one.part(parts[0]) : undefined;
  const isField = type === "selection" || type === "has";
  if (isField && !operand) return `there is no field ${word}`;
  const shown = kindShown(operand, values), text = operand ? textOfSpan(operand.span) : "";
  if (type === "selection" && shown === "map") return `there is no field ${word}`;
  if (isField) return `${text} is ${article(shown)}, which has no fields`;
  if (type === "macro" && shown !== "list" && shown !== "map") return `${text} is ${article(shown)}, which has no items`;
  if (type === "operation" && word === "[]") {
    return `${text} ${shown === "list" || shown === "map" ? "has no such item" : `is ${article(shown)}`}`;
  }
  const divisor = type === "operation" && DIVIDING.includes(word) ? one.part(parts[1]) : undefined;
  if (divisor && values.get(divisor.reference) === "0" && shown === "int") return "it divides by zero";
  return "its operands do not fit, or the result is too large";
}

/** The word for the kind of a value.
 * @param {Evaluation | undefined} one @param {Map<bigint, string>} values */
function kindShown(one, values) {
  const text = (one && values.get(one.reference)) ?? "error";
  if (text === "error") return "error";
  const value = readJson(text);
  if (Array.isArray(value)) return "list";
  return value !== null && typeof value === "object" ? "map" : kindOf(value);
}

/** @type {Record<string, string>} */
const ARTICLES = { int: "an int", error: "the error", null: "null" };
/** @param {string} word */
const article = (word) => ARTICLES[word] ?? `a ${word}`;
