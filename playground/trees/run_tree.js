// The tree of a part by a run: for each sub-expression its value, the ones that decide and errors marked.

import { oneLine } from "../asking/reasons.js";
import { readNode } from "../cel/nodes.js";
import { cut, isLiteral, isPath } from "../cel/splitter.js";
import { deciding, ERROR_REFERENCE, inner, origins, whyError } from "../runs/evaluations.js";
import { named, note, shortened, silent } from "./shown.js";

/** @typedef {import("../runs/evaluations.js").Evaluation} Evaluation */
/** @typedef {import("../cel/nodes.js").Node} Node */
/** @typedef {import("./shown.js").Shown} Shown */

// the most items of a macro that are shown beside those that decide
const MOST_ITEMS = 100;

/** The tree of one part; `values` has the JSON of references, and `isTold` says whether the part decides. */
export class RunTree {
  /** @param {import("../asking/policies.js").Part} part @param {Map<bigint, string>} values @param {Evaluation} whole @param {boolean} isTold @param {string} [written] the author's text, if it has the same tree */
  constructor(part, values, whole, isTold, written) {
    this.text = part.text;
    this.written = written ?? part.text;
    /** @type {Map<Node, Node>} */
    this.own = new Map();
    if (written !== undefined) this.pair(whole.node, readNode(written));
    this.places = new Map(part.scope.map((variable, place) => [variable.name, place]));
    this.values = values;
    this.whole = whole;
    this.deciding = new Set(isTold ? deciding(whole) : []);
    this.origins = new Set(origins(whole));
    /** @type {Set<Evaluation>} */
    this.opened = new Set();
    this.open(whole);
  }

  /** Whether an evaluation is or has one that decides or where an error begins; such ones are open.
   * @param {Evaluation} one @returns {boolean} */
  open(one) {
    const isInside = inner(one).map((part) => this.open(part)).some(Boolean);
    if (this.deciding.has(one) || this.origins.has(one)) this.openParts(one);
    if (isInside) this.opened.add(one);
    return this.opened.has(one);
  }

  /** Opens an evaluation and all of its parts, but not the items of macros.
   * @param {Evaluation} one */
  openParts(one) {
    this.opened.add(one);
    one.parts.forEach((part) => this.openParts(part));
  }

  /** Pairs the nodes of two texts with one tree.
   * @param {Node} node @param {Node} own */
  pair(node, own) {
    this.own.set(node, own);
    node.parts.forEach((part, place) => this.pair(part, own.parts[place]));
  }

  /** The text of a node, as it is written.
   * @param {Node} node */
  source(node) {
    const { begin, end } = this.own.get(node) ?? node;
    return oneLine((this.own.has(node) ? this.written : this.text).slice(begin, end));
  }

  /** @param {bigint} reference */
  value(reference) {
    return this.values.get(reference) ?? "error";
  }

  /** @param {Node} node */
  piece(node) {
    return cut(this.text.slice(node.begin, node.end));
  }

  /** The place of the variable that a node is, or that a path begins with.
   * @param {Node} node */
  variable(node) {
    let first = node;
    while (first.parts.length && isPath(this.piece(node))) first = first.parts[0];
    return first.type === "variable" ? this.places.get(first.word) : undefined;
  }

  /** The whole tree.
   * @returns {Shown} */
  all() {
    return this.tree(this.whole);
  }

  /** An evaluation, with its parts below it.
   * @param {Evaluation} one @returns {Shown} */
  tree(one) {
    const origin = this.origins.has(one) ? whyError(one, this.values) : undefined;
    return {
      type: "node", text: this.source(one.node), value: shortened(this.value(one.reference)), decides: this.deciding.has(one), origin,
      step: one.step, variable: this.variable(one.node), open: one === this.whole || this.opened.has(one), below: this.below(one),
    };
  }

  /** The parts of an evaluation that say more than it does.
   * @param {Evaluation} one @returns {Shown[]} */
  below(one) {
    if (one.node.type === "macro") return this.ofMacro(one);
    if (isPath(this.piece(one.node)) && one.reference !== ERROR_REFERENCE) return [];
    return one.node.parts.flatMap((node) => this.part(one, node));
  }

  /** A part of an evaluation; none if it is a literal, or was evaluated before and kept.
   * @param {Evaluation} around @param {Node} node @returns {Shown[]} */
  part(around, node) {
    if (isLiteral(this.piece(node))) return [];
    const found = around.part(node);
    if (found) return [this.tree(found)];
    return isPath(this.piece(around.node)) ? [] : [silent(this.source(node))];
  }

  /** The range of a macro and the items that it looked at.
   * @param {Evaluation} one @returns {Shown[]} */
  ofMacro(one) {
    const told = one.turns.filter((turn, number) => number < MOST_ITEMS || this.isTold(turn));
    const shown = [...this.part(one, one.node.parts[0]), ...told.map((turn) => this.turn(one, turn))];
    if (told.length < one.turns.length) shown.push(note(`and ${one.turns.length - told.length} items more`));
    if (!one.turns.length && one.reference !== ERROR_REFERENCE) shown.push(note("there are no items"));
    return shown;
  }

  /** Whether a part of an item decides, or is where an error begins.
   * @param {Evaluation} turn */
  isTold(turn) {
    return turn.parts.some((part) => this.opened.has(part));
  }

  /** An item, with the predicate and the transform for it.
   * @param {Evaluation} one @param {Evaluation} turn @returns {Shown} */
  turn(one, turn) {
    const parts = one.node.parts.slice(1).flatMap((node) => turn.part(node) ?? []);
    return {
      type: "item", text: `item ${one.turns.indexOf(turn)}: ${named(one.node.item ?? "", this.value(turn.reference))}`,
      value: parts.length ? shortened(this.value(parts[0].reference)) : "", open: this.isTold(turn), below: parts.map((part) => this.tree(part)),
    };
  }
}
