// The code of a whole policy: its variables' routines, conditions, validations with their messages, and the outcome.

import { parts } from "../asking/policies.js";
import { readNode } from "../cel/nodes.js";
import { Emitter, Texts } from "./expressions.js";
import { Code, code, ja, jump, lddw, loadAt, mov, moved, SCRATCH, storeAt, VERDICT } from "./lines.js";
import { NO, TEXT_KIND, YES } from "./tails.js";

/** @typedef {import("../asking/policies.js").Part} Part */
/** A mark at its slots of the program, of this part; of none if it belongs to the policy as a whole.
 * @typedef {{ mark: import("./lines.js").Mark, part: Part | null }} Placed */

const SKIPPED = 1, REJECTED = 2, DENIED = 3, ADMITTED = 4;
const FAILS = 1, ERRS = 2;
// the words of the verdict region with the texts of messages
const FIRST_MESSAGE = 66;

/** The code of a policy so far: its lines, how many slots they take, and the marks in them. */
export class Program {
  constructor() {
    /** @type {import("./lines.js").Line[]} */
    this.lines = [];
    /** @type {Placed[]} */
    this.marks = [];
    this.size = 0;
    this.texts = new Texts();
    /** @type {Map<string, { number: number, routine: number }>} */
    this.routines = new Map();
  }

  /** Adds code at the end.
   * @param {Part | null} part @param {Code} piece */
  put(part, piece) {
    this.lines.push(...piece.lines);
    this.marks.push(...moved(piece.marks, this.size).map((mark) => ({ mark, part })));
    this.size += piece.size;
  }

  /** Puts instructions that are of no expression, but of the part itself.
   * @param {Part | null} part @param {string} role @param {Code} piece */
  putOwn(part, role, piece) {
    this.put(part, piece.marked(null, "", role));
  }

  /** The code of a part's expression, whose texts are added.
   * @param {Part} part */
  expression(part) {
    const node = readNode(part.text);
    this.texts.take(node);
    return new Emitter(this.texts, this.routines).whole(node);
  }
}

/** The address of a word of the verdict region into R1.
 * @param {number} word */
const verdict = (word) => lddw("r1", VERDICT + 8n * BigInt(word));

/** True goes on, false ends the program, and an error leaves the outcome that it has if no condition is false.
 * @param {boolean} ignores */
function conditionTail(ignores) {
  const no = [mov("r0", SKIPPED), storeAt("r1", 0, "r0"), "exit"];
  const undecided = [jump("eq", "r0", YES, 8), mov("r2", ignores ? SKIPPED : REJECTED)];
  return code(...undecided, verdict(0), jump("ne", "r0", NO, 3), ...no, storeAt("r1", 0, "r2"));
}

const decided = () => code(verdict(0), loadAt("r0", "r1", 0), jump("eq", "r0", 0, 1), "exit");

/** The word of a validation and one more denial; its message takes `message` slots.
 * @param {boolean} ignores @param {number} place @param {number} message */
function result(ignores, place, message) {
  const word = `[r1+${8 * (place + 1)}]`;
  const error = [jump("eq", "r0", NO, 2), `stdw ${word}, ${ERRS}`, ja(ignores ? message + 4 : 1)];
  const count = [loadAt("r2", "r1", 0), "add64 r2, 1", storeAt("r1", 0, "r2")];
  return code(jump("eq", "r0", YES, message + 9), verdict(1), ...error, `stdw ${word}, ${FAILS}`, ...count);
}

/** @param {number} place */
function messageTail(place) {
  const kind = [mov("r6", "r0"), mov("r1", "r0"), "call 1", jump("ne", "r0", TEXT_KIND, 3)];
  return code(...kind, verdict(FIRST_MESSAGE + place), storeAt("r1", 0, "r6"));
}

/** The reference and 1 into the memo of a variable, and back from its routine.
 * @param {number} number */
function memoTail(number) {
  const memo = lddw("r1", SCRATCH + 8n * BigInt(number));
  return code(mov("r2", "r0"), "add64 r2, 1", memo, storeAt("r1", 0, "r2"), "exit");
}

function outcome() {
  const denied = [mov("r0", ADMITTED), jump("eq", "r2", 0, 1), mov("r0", DENIED)];
  return code(verdict(0), loadAt("r2", "r1", 8), ...denied, storeAt("r1", 0, "r0"));
}

/** A routine, with a jump over it.
 * @param {Program} program @param {Part} part */
function putVariable(program, part) {
  const number = program.routines.size, routine = program.expression(part), tail = memoTail(number);
  program.putOwn(part, "jump over", code(ja(routine.size + tail.size)));
  program.routines.set(part.name, { number, routine: program.size });
  program.put(part, routine);
  program.putOwn(part, "memo", tail);
}

/** A validation, and its message expression if it has one.
 * @param {Program} program @param {boolean} ignores @param {Part} part @param {Part | undefined} message */
function putValidation(program, ignores, part, message) {
  program.put(part, program.expression(part));
  if (!message) {
    program.putOwn(part, "result", result(ignores, part.place, 0));
    return;
  }
  const text = program.expression(message), tail = messageTail(part.place);
  program.putOwn(part, "result", result(ignores, part.place, text.size + tail.size));
  program.put(message, text);
  program.putOwn(message, "text", tail);
}

/** The code of a policy that is accepted.
 * @param {any} policy */
export function programOf(policy) {
  const program = new Program(), found = parts(policy), ignores = policy.spec.failurePolicy === "Ignore";
  const messages = new Map(found.filter((part) => part.kind === "message").map((part) => [part.place, part]));
  const conditions = found.filter((part) => part.kind === "condition");
  for (const part of found) if (part.kind === "variable") putVariable(program, part);
  for (const part of conditions) {
    program.put(part, program.expression(part));
    program.putOwn(part, "condition", conditionTail(ignores));
  }
  if (conditions.length) program.putOwn(null, "decided", decided());
  for (const part of found) {
    if (part.kind === "validation") putValidation(program, ignores, part, messages.get(part.place));
  }
  program.putOwn(null, "outcome", outcome());
  program.putOwn(null, "exit", code("exit"));
  return program;
}
