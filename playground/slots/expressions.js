// The code of an expression, with the slots of each sub-expression marked.

import { byteLength, kindOf, need } from "../cel/nodes.js";
import * as folds from "./folds.js";
import { clear, Code, code, CONSTANTS, ja, joined, jump, lddw, load, loadAt, mov, SCRATCH, store } from "./lines.js";
import * as tails from "./tails.js";

/** @typedef {import("../cel/nodes.js").Node} Node */

export const ROOTS = ["object", "oldObject", "params", "namespaceObject", "request"];
export const FIRST_ROOT = 4;
const MOST_NEED = 60;
// references of the literals that one instruction puts into a register
/** @param {any} value */
const referenceOf = (value) => (value === null ? 1 : value ? 3 : 2);
// the word of the first list that a frame keeps, the most of these, and the most beside a field of a root
const FIRST_LIST = 60, MOST_LISTS = 4, LISTS_WITH_PATH = 2;
// the nodes that begin with no field of a root
const NO_FRONT = ["call", "list", "map"];

/** The text that the code of a node itself names.
 * @param {Node} node @returns {string | null} */
function namedText(node) {
  if (node.type === "selection" || node.type === "has") return node.word;
  return node.type === "literal" && kindOf(node.value) === "text" ? node.value : null;
}

/** Where each text begins among the constants; texts are there once, in order of first use. */
export class Texts {
  constructor() {
    /** @type {Map<string, number>} */
    this.offsets = new Map();
    this.size = 0;
  }

  /** Adds the texts that the code of a node names.
   * @param {Node} node */
  take(node) {
    node.parts.forEach((part) => this.take(part));
    const text = namedText(node);
    if (text === null || this.offsets.has(text)) return;
    this.offsets.set(text, this.size);
    this.size += byteLength(text);
  }

  /** The address and the length of a text into two registers.
   * @param {string} text @param {string[]} registers */
  operands(text, registers) {
    const offset = BigInt(/** @type {number} */ (this.offsets.get(text)));
    return [lddw(registers[0], CONSTANTS + offset), mov(registers[1], byteLength(text))];
  }
}

/**
 * The first free word of the frame, the words of iteration names, the field of a root that word 0 keeps, and the lists of
 * literals that the words from `FIRST_LIST` on keep.
 * @typedef {{ word: number, items: [string, number][], path: string | null, lists: string[] }} Frame
 */

/** @param {Frame} frame @param {number} words @returns {Frame} */
const on = (frame, words) => ({ ...frame, word: frame.word + words });

/** The frame of a macro's turn; no path is kept in it.
 * @param {Frame} frame @param {string} name @returns {Frame} */
function turnOf(frame, name) {
  return { word: frame.word + folds.TURN, items: [[name, frame.word + folds.ITEM], ...frame.items], path: null, lists: frame.lists };
}

/** The root and the field of a node that is a field of a name.
 * @param {Node} node @returns {string[] | null} */
export function pathOf(node) {
  return node.type === "selection" && node.parts[0].type === "name" ? [node.parts[0].word, node.word] : null;
}

/** @param {Node} node */
const pathKey = (node) => pathOf(node)?.join(" ") ?? null;

/** The field of a root with which an expression begins.
 * @param {Node} node @returns {Node | null} */
function frontOf(node) {
  while (!pathOf(node)) {
    if (!node.parts.length || NO_FRONT.includes(node.type)) return null;
    node = node.parts[0];
  }
  return node;
}

/** What lists of the same literals have in common; null for another node.
 * @param {Node} node @returns {string | null} */
function literalsOf(node) {
  if (node.type !== "list" || !node.parts.every((part) => part.type === "literal")) return null;
  return JSON.stringify(node.parts.map((part) => [kindOf(part.value), String(part.value)]));
}

/** The lists of literals inside macros that the frame of an expression keeps.
 * @param {Node} node @param {boolean} inside @param {string[]} found */
function keptLists(node, inside = false, found = /** @type {string[]} */ ([])) {
  const literals = literalsOf(node);
  if (inside && literals !== null && !found.includes(literals) && found.length < MOST_LISTS) found.push(literals);
  node.parts.forEach((part, place) => keptLists(part, inside || (node.type === "macro" && place > 0), found));
  return found;
}

/** The one instruction that puts a simple operand into a register; null if there is none.
 * @param {Node} node @param {Frame} frame @param {string} register @returns {Code | null} */
function simple(node, frame, register) {
  let line = null;
  if (node.type === "literal" && ["null", "bool"].includes(kindOf(node.value))) line = mov(register, referenceOf(node.value));
  else if (node.type === "name") {
    const item = frame.items.find(([name]) => name === node.word);
    line = item ? load(register, item[1]) : mov(register, FIRST_ROOT + ROOTS.indexOf(node.word));
  } else if (frame.path !== null && pathKey(node) === frame.path) line = load(register, 0);
  return line === null ? null : code(line).marked(node, register);
}

/** Code for expressions over these texts, with the routines of the variables by name. */
export class Emitter {
  /** @param {Texts} texts @param {Map<string, { number: number, routine: number }>} routines */
  constructor(texts, routines) {
    this.texts = texts;
    this.routines = routines;
  }

  /** The code of a whole expression: the shorter of two, of which one keeps its first field of a root.
   * @param {Node} node @returns {Code} */
  whole(node) {
    const lists = keptLists(node), cleared = code(...lists.map((_, number) => clear(FIRST_LIST + number)));
    let plain = this.of(node, { word: 0, items: [], path: null, lists });
    if (lists.length) plain = cleared.then(plain).marked(node, "r0");
    const front = frontOf(node);
    if (front === null || lists.length > LISTS_WITH_PATH || 1 + need(node) > MOST_NEED) return plain;
    const kept = this.field(front, { word: 0, items: [], path: null, lists: [] }).then(code(store(0, "r0")));
    const inner = this.of(node, { word: 1, items: [], path: pathKey(front), lists });
    const keeping = kept.marked(front, "r0", "kept").then(cleared, inner);
    return plain.size <= keeping.size ? plain : keeping.marked(node, "r0");
  }

  /** The code of a node, which leaves the reference of its value in R0.
   * @param {Node} node @param {Frame} frame @returns {Code} */
  of(node, frame) {
    return simple(node, frame, "r0") ?? this.made(node, frame).marked(node, "r0");
  }

  /** @param {Node} node @param {Frame} frame @returns {Code} */
  made(node, frame) {
    if (node.type === "literal") return this.literal(node);
    if (node.type === "variable") return this.use(node.word);
    if (node.type === "selection" || node.type === "has") return this.field(node, frame);
    if (node.type === "ternary") return this.ternary(node, frame);
    if (node.type === "list") return this.list(node, frame);
    if (node.type === "map") return this.map(node, frame);
    return node.type === "macro" ? this.macro(node, frame) : this.applied(node, frame);
  }

  /** A list; one that a word keeps is made if the word is 0.
   * @param {Node} node @param {Frame} frame */
  list(node, frame) {
    const items = node.parts.map((part) => this.of(part, on(frame, 1)).then(tails.push(frame.word)));
    const made = code("call 16", store(frame.word, "r0")).then(...items), literals = literalsOf(node);
    if (literals === null || !frame.lists.includes(literals)) return made;
    const word = FIRST_LIST + frame.lists.indexOf(literals);
    return code(load("r0", word), jump("ne", "r0", 0, made.size + 1)).then(made, code(store(word, "r0")));
  }

  /** @param {Node} node */
  literal(node) {
    if (kindOf(node.value) === "int") return code(lddw("r1", node.value), "call 3");
    return code(...this.texts.operands(node.value, ["r1", "r2"]), "call 4");
  }

  /** The value of a variable from its memo, or from its routine if that is empty.
   * @param {string} name */
  use(name) {
    const { number, routine } = /** @type {{ number: number, routine: number }} */ (this.routines.get(name));
    const memo = [lddw("r1", SCRATCH + 8n * BigInt(number)), loadAt("r0", "r1", 0), "add64 r0, -1"];
    return code(...memo, jump("ne", "r0", -1, 1), { routine });
  }

  /** A field, or whether there is one.
   * @param {Node} node @param {Frame} frame */
  field(node, frame) {
    const named = this.texts.operands(node.word, ["r2", "r3"]);
    return this.operand(node.parts[0], frame, "r1").then(code(...named, `call ${node.type === "selection" ? 5 : 6}`));
  }

  /** An operand into a register.
   * @param {Node} node @param {Frame} frame @param {string} register */
  operand(node, frame, register) {
    return simple(node, frame, register) ?? this.of(node, frame).then(code(mov(register, "r0")));
  }

  /** Two operands into two registers.
   * @param {Node} node @param {Frame} frame @param {string[]} registers */
  operands(node, frame, registers) {
    const [left, right] = node.parts;
    const last = simple(right, frame, registers[1]);
    if (last) return this.operand(left, frame, registers[0]).then(last);
    const second = this.of(right, on(frame, 1)).then(code(mov(registers[1], "r0")));
    const first = simple(left, frame, registers[0]);
    if (first) return second.then(first);
    return this.of(left, frame).then(code(store(frame.word, "r0")), second, code(load(registers[0], frame.word)));
  }

  /** An operator, a function or a method.
   * @param {Node} node @param {Frame} frame @returns {Code} */
  applied(node, frame) {
    const sign = node.type === "operation" ? node.word : "";
    if (sign in tails.DECIDING) return this.logic(node, frame);
    if (node.parts.length === 2) {
      const tail = node.type === "method" ? tails.TESTS[node.word] : tails.BINARY[sign];
      return this.operands(node, frame, tails.REGISTERS[sign] ?? ["r1", "r2"]).then(tail);
    }
    if (node.type === "call" && node.word === "dyn") return this.of(node.parts[0], frame);
    const [register, tail] = sign ? tails.UNARY[sign] : tails.FUNCTIONS[node.type === "call" ? node.word : "size"];
    return this.operand(node.parts[0], frame, register).then(tail);
  }

  /** @param {Node} node @param {Frame} frame */
  logic(node, frame) {
    const [decides, other] = tails.DECIDING[node.word];
    const left = this.of(node.parts[0], frame), right = this.of(node.parts[1], on(frame, 1));
    const between = code(jump("eq", "r0", decides, right.size + tails.ABSORBED), store(frame.word, "r0"));
    return left.then(between, right, tails.absorbing(decides, other, frame.word));
  }

  /** @param {Node} node @param {Frame} frame */
  ternary(node, frame) {
    const [condition, chosen, other] = node.parts.map((part) => this.of(part, frame));
    const toOther = jump("eq", "r0", tails.NO, chosen.size + 2);
    const toError = jump("ne", "r0", tails.YES, chosen.size + other.size + 2);
    const error = code(ja(1), mov("r0", 0));
    return condition.then(code(toOther, toError), chosen, code(ja(other.size + 2)), other, error);
  }

  /** @param {Node} node @param {Frame} frame */
  map(node, frame) {
    let made = code("call 18", store(frame.word, "r0"));
    for (let place = 0; place < node.parts.length; place += 2) {
      made = made.then(this.of(node.parts[place], on(frame, 1)), code(store(frame.word + 1, "r0")));
      made = made.then(this.of(node.parts[place + 1], on(frame, 2)), tails.put(frame.word));
    }
    return made;
  }

  /** A loop over the items of a range; its head is marked as the item.
   * @param {Node} node @param {Frame} frame */
  macro(node, frame) {
    const word = frame.word, inside = turnOf(frame, /** @type {string} */ (node.item));
    const inner = node.parts.slice(1).map((part) => this.of(part, inside));
    const turn = inner[0].then(inner.length === 2 ? folds.mapWhereTurn(inner[1], word) : folds.TURNS[node.word](word));
    const head = folds.loopHead(word, turn.size).marked(node, "r0", "item");
    const loop = joined([head, turn, folds.loopTail(word, turn.size)]), first = code(folds.FIRST[node.word]);
    const range = this.of(node.parts[0], frame).then(folds.rangeTail(word, first.size + loop.size));
    const made = range.then(first, code(store(word + folds.ANSWER, "r0")), loop);
    return node.word === "exists_one" ? made.then(folds.EXISTS_ONE_END) : made;
  }
}
