// Questions to the module about a policy and its documents: its answers say all, nothing is decided here.

import { writeJson } from "../texts/json.js";
import { slotsOf } from "../slots/lines.js";
import { isWrapped, tabled } from "./index_tables.js";

/**
 * The calls of the module. A status of 0 or 1 comes with a text or an image, any other with the line of a refusal.
 * @typedef {{ status: number, text: string, image?: Uint8Array }} Answer
 * @typedef {{
 *   review: (policy: string, review: string, namespace: string | null, params: string | null) => Answer,
 *   translate: (policy: string) => Answer,
 *   compile: (policy: string) => Answer,
 *   list: (image: Uint8Array) => Answer,
 *   debug: (image: Uint8Array, review: string | null, namespace: string | null, params: string | null, commands: string) => Answer,
 * }} Calls
 */
/** @typedef {{ review: string | null, namespace: string | null, params: string | null }} Documents */
/** A compiled translation, and whether it runs on params with a table of indices.
 * @typedef {{ bytes: Uint8Array, isWrapped: boolean }} Image */

/** The program refused what it was asked; `line` is what it said. */
export class NotAnswered extends Error {
  /** @param {string} line @param {number} status */
  constructor(line, status) {
    super(line);
    this.line = line;
    this.status = status;
  }
}

// where a compiled policy puts the result of its validation 0, and how many slots that is after the expression
const RESULT = "stdw [r1+8], 2", AFTER = 4;
// a line that goes on, and how many such lines are as many steps as a review may take
const GO = "c 1000000\n", MOST_LINES = 10;
const FRONT = "celbpf: ";
// the status of what is not asked any more
const OUT_OF_TIME = -1;
// what a refusal is if the module says no more
/** @type {Record<number, string>} */
const STATUSES = { 4: "N2", 5: "N3", 6: "N4", 7: "N5", 12: "N7" };

/** The text of an answer, which has to be no refusal.
 * @param {Answer} answer */
export function taken(answer) {
  if (answer.status > 1) {
    const line = answer.text.replace(/\n$/, "");
    throw new NotAnswered((line.startsWith(FRONT) ? line.slice(FRONT.length) : line) || STATUSES[answer.status] || `status ${answer.status}`, answer.status);
  }
  return answer;
}

/** The slot after the expression of the one validation.
 * @param {string} listing */
function afterExpression(listing) {
  let slot = 0, found = 0;
  for (const line of listing.split("\n")) {
    if (line === RESULT) found = slot - AFTER;
    slot += slotsOf(line);
  }
  return found;
}

/** What the answer to `v` shows.
 * @param {string} answer */
const valueOf = (answer) => (answer.startsWith("value ") ? answer.split(" ").slice(2).join(" ") : "error");

/** The module over these documents. */
export class Program {
  /** @param {Calls} calls @param {Documents} documents */
  constructor(calls, documents) {
    this.calls = calls;
    this.documents = documents;
    // until when values are asked for, in milliseconds
    this.end = Infinity;
  }

  /** The program over the documents that parts of a kind see: conditions have no namespace.
   * @param {string} kind */
  of(kind) {
    if (kind !== "condition") return this;
    const made = new Program(this.calls, { ...this.documents, namespace: null });
    made.end = this.end;
    return made;
  }

  /** The text of the translation of a policy that is accepted.
   * @param {string} policy */
  translation(policy) {
    return taken(this.calls.translate(policy)).text;
  }

  /** What is said to a policy, as `K6 validation 0 W5 url`; empty if it is accepted.
   * @param {any} policy */
  refusal(policy) {
    try {
      this.compiled(writeJson(policy));
      return "";
    } catch (why) {
      if (why instanceof NotAnswered) return why.line;
      throw why;
    }
  }

  /** The image of a translation.
   * @param {string} translation @returns {Image} */
  imageOf(translation) {
    const bytes = /** @type {Uint8Array} */ (taken(this.calls.compile(translation)).image);
    return { bytes, isWrapped: isWrapped(translation) };
  }

  /** The image of the translation of a policy that is accepted.
   * @param {string} policy */
  compiled(policy) {
    return this.imageOf(this.translation(policy));
  }

  /** The response to the review under a policy.
   * @param {string} policy */
  response(policy) {
    const { review, namespace, params } = this.documents;
    return taken(this.calls.review(policy, review ?? "", namespace, params)).text;
  }

  /** The lines of a session on an image.
   * @param {Image} image @returns {(commands: string) => string[]} */
  session(image) {
    const { review, namespace, params } = image.isWrapped ? tabled(this.documents) : this.documents;
    return (commands) => taken(this.calls.debug(image.bytes, review, namespace, params, commands)).text.split("\n").slice(0, -1);
  }

  /** The value of the first validation of a policy with one validation and no message, as `v` shows it.
   * @param {any} policy */
  value(policy) {
    if (performance.now() > this.end) throw new NotAnswered("it takes too long to ask for all values", OUT_OF_TIME);
    const image = this.compiled(writeJson(policy));
    const slot = afterExpression(taken(this.calls.list(image.bytes)).text), session = this.session(image);
    // one line goes on far enough, but for a run of more than a million steps
    for (let count = 1; count <= MOST_LINES; count++) {
      const go = `b ${slot}\n${GO.repeat(count)}`, replies = session(`${go}r\n`), move = replies[count];
      if (move.includes(` pc ${slot} running`)) return valueOf(session(`${go}v ${BigInt(replies[count + 1].split(" ")[1])}\n`)[count + 1]);
      if (!/^step [0-9]*000000 pc [0-9]+ running$/.test(move)) throw new NotAnswered(`the session answered ${move}`, 4);
    }
    throw new NotAnswered("N4", 6);
  }
}
