// The fixed instructions of each construct: what is made of operands that are in their registers.

import { Code, code, ja, jump, lddw, load, mov, store } from "./lines.js";

export const NO = 2, YES = 3;
const INT_KIND = 3;
export const TEXT_KIND = 4;
const LEAST = 1n << 63n;
const INT_ANSWER = ["call 3", ja(1), mov("r0", 0)];
// a truth is turned around
const OPPOSITE = [mov("r1", "r0"), "call 23"];
// the slots that operands of arithmetic pass when they are no ints
const AFTER_LEFT = 9, AFTER_RIGHT = 6;

/** The ints that R6 and R7 name; if they name no ints, a jump to the slot `offset` after this.
 * @param {number} offset */
function intOperands(offset) {
  const left = [mov("r1", "r6"), "call 1", jump("ne", "r0", INT_KIND, offset + AFTER_LEFT)];
  const right = [mov("r1", "r7"), "call 1", jump("ne", "r0", INT_KIND, offset + AFTER_RIGHT)];
  const words = [mov("r1", "r6"), "call 2", mov("r6", "r0"), mov("r1", "r7"), "call 2", mov("r7", "r0")];
  return code(...left, ...right, ...words);
}

/** A sum or a difference that is the error if it does not fit.
 * @param {string} operation @param {string} below @param {string} above */
function checked(operation, below, above) {
  const fits = [jump("slt", "r7", 0, 2), jump(above, "r1", "r6", 4), ja(1), jump(below, "r1", "r6", 2)];
  return [mov("r1", "r6"), `${operation}64 r1, r7`, ...fits, ...INT_ANSWER];
}

/** A jump over `wayOn` slots for the least int and -1.
 * @param {number} wayOn */
const leastByMinusOne = (wayOn) => [jump("ne", "r7", -1, 3), lddw("r2", LEAST), jump("eq", "r6", "r2", wayOn)];

function product() {
  const begin = [mov("r1", "r6"), "mul64 r1, r7", jump("eq", "r7", 0, 7), ...leastByMinusOne(5)];
  return [...begin, mov("r2", "r1"), "sdiv64 r2, r7", jump("ne", "r2", "r6", 2), ...INT_ANSWER];
}

/** @param {string} operation */
const divided = (operation) =>
  [jump("eq", "r7", 0, 8), ...leastByMinusOne(4), mov("r1", "r6"), `${operation}64 r1, r7`, ...INT_ANSWER];

function negation() {
  const kind = [mov("r1", "r6"), "call 1", jump("ne", "r0", INT_KIND, 9)];
  const word = [mov("r1", "r6"), "call 2", mov("r1", "r0"), lddw("r2", LEAST), jump("eq", "r1", "r2", 3)];
  return [...kind, ...word, "neg64 r1", ...INT_ANSWER];
}

const JOIN = [ja(3), mov("r1", "r6"), mov("r2", "r7"), "call 11"];
const LESS = "call 10", EQUAL = "call 9";
/** @type {Record<string, Code>} */
export const BINARY = {
  "<": code(LESS), ">": code(LESS), "<=": code(LESS, ...OPPOSITE), ">=": code(LESS, ...OPPOSITE),
  "==": code(EQUAL), "!=": code(EQUAL, ...OPPOSITE), in: code("call 15"), "[]": code("call 7"),
  "+": intOperands(10).then(code(...checked("add", "sge", "slt"), ...JOIN)),
  "-": intOperands(8).then(code(...checked("sub", "sle", "sgt"))),
  "*": intOperands(12).then(code(...product())),
  "/": intOperands(9).then(code(...divided("sdiv"))),
  "%": intOperands(9).then(code(...divided("smod"))),
};
// the registers of the left and the right operand, where they are not R1 and R2
/** @type {Record<string, string[]>} */
export const REGISTERS = {
  "<=": ["r2", "r1"], ">": ["r2", "r1"],
  "+": ["r6", "r7"], "-": ["r6", "r7"], "*": ["r6", "r7"], "/": ["r6", "r7"], "%": ["r6", "r7"],
};
/** @type {Record<string, [string, Code]>} */
export const UNARY = { "!": ["r1", code("call 23")], "-": ["r6", code(...negation())] };
/** @type {Record<string, Code>} */
export const TESTS = { startsWith: code("call 12"), endsWith: code("call 13"), contains: code("call 14") };
const STRING = code(
  mov("r1", "r6"), "call 1", jump("ne", "r0", TEXT_KIND, 2), mov("r0", "r6"), ja(2), mov("r1", "r6"), "call 22",
);
// a function's operand is in this register for these instructions
/** @type {Record<string, [string, Code]>} */
export const FUNCTIONS = { size: ["r1", code("call 8")], string: ["r6", STRING] };
// the truths that decide `&&` and `||`, and the others
/** @type {Record<string, [number, number]>} */
export const DECIDING = { "&&": [NO, YES], "||": [YES, NO] };
// the slots that a deciding left side leaves out beside those of the right one
export const ABSORBED = 6;

/** The end of `&&` or `||`, with the left side in this word.
 * @param {number} decides @param {number} other @param {number} word */
export function absorbing(decides, other, word) {
  const tests = [jump("eq", "r0", decides, 3), jump("ne", "r1", other, 1), jump("eq", "r0", other, 1)];
  return code(load("r1", word), ...tests, mov("r0", 0));
}

/** Appends an item to the list in this word.
 * @param {number} word */
export const push = (word) => code(mov("r2", "r0"), load("r1", word), "call 17", store(word, "r0"));

/** Puts a value at the key of the next word into the map in this one.
 * @param {number} word */
export const put = (word) => code(mov("r3", "r0"), load("r2", word + 1), load("r1", word), "call 19", store(word, "r0"));
