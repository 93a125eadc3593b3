// The map from slots to the parts of a policy and their sub-expressions.

import { NotCut } from "../cel/splitter.js";
import { programOf } from "./layout.js";
import { lineText, slotsOf } from "./lines.js";

/** There is no map: the listing is not that of the policy, or an expression is not cut in pieces. */
export class NotMapped extends Error {}

/**
 * Slots from `first` to `last` of one sub-expression, or of a part's or the program's own instructions.
 *
 * `role` is `expression`; `kept` for a field that is kept before its uses; `item` for the head of a macro's loop, which names
 * the next item; else what the instructions are for. `register` names the value in the slot after `last`; it is empty if there
 * is no value. `depth` counts the spans around this one.
 * @typedef {{ first: number, last: number, part: import("../asking/policies.js").Part | null, role: string, begin: number,
 *   end: number, register: string, depth: number, node: import("../cel/nodes.js").Node | null, number: number }} Span
 */

/** The source text of a span; empty for one without a sub-expression.
 * @param {Span} span */
export const textOfSpan = (span) => (span.part && span.node ? span.part.text.slice(span.begin, span.end) : "");

/** @param {import("./layout.js").Program} program @returns {Span[]} */
function spansOf(program) {
  /** @type {Span[]} */
  const found = [], /** @type {Span[]} */ around = [];
  for (const { mark, part } of program.marks) {
    const { first, last, node, register, role } = mark;
    while (around.length && around[around.length - 1].last < first) around.pop();
    const depth = around.filter((span) => span.first <= first && last <= span.last).length;
    const span = { first, last, part, role, begin: node ? node.begin : 0, end: node ? node.end : 0, register, depth, node, number: found.length };
    found.push(span);
    around.push(span);
  }
  return found;
}

/** The spans of a program: each before those in it, in the order of their first slots. */
export class SlotMap {
  /** @param {import("./layout.js").Program} program */
  constructor(program) {
    this.size = program.size;
    this.spans = spansOf(program);
    /** The line of each instruction by its slot; the second slot of a wide load has none.
     * @type {Map<number, string>} */
    this.lines = new Map();
    let slot = 0;
    for (const line of program.lines) {
      this.lines.set(slot, lineText(line, slot));
      slot += slotsOf(line);
    }
    /** @type {Span[]} */
    this.innermost = new Array(this.size);
    /** @type {Map<number, Span[]>} */
    this.ending = new Map();
    for (const span of this.spans) this.take(span);
  }

  /** @param {Span} span */
  take(span) {
    if (span.register) this.ending.set(span.last + 1, [...(this.ending.get(span.last + 1) ?? []), span]);
    for (let slot = span.first; slot <= span.last; slot++) this.innermost[slot] = span;
  }

  /** The spans whose value a register names in this slot, if the step before was in them.
   * @param {number} slot */
  valued(slot) {
    return this.ending.get(slot) ?? [];
  }
}

/** The map of a policy's program, which this is the listing of.
 * @param {any} policy @param {string} listing */
export function mapOf(policy, listing) {
  let made;
  try {
    made = new SlotMap(programOf(policy));
  } catch (fault) {
    if (fault instanceof NotCut || fault instanceof TypeError || fault instanceof RangeError) throw new NotMapped("an expression is not cut in pieces");
    throw fault;
  }
  if (listing.replace(/\n$/, "") !== [...made.lines.values()].join("\n")) throw new NotMapped("the listing is not that of the policy");
  return made;
}
