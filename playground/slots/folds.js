// The fixed instructions of macros, which are loops over the items of a range.
//
// Five words of the frame from word k on serve a loop: the range, the number of its items, the place of the next one, the
// answer so far, and the item.

import { Code, code, ja, jump, load, mov, store } from "./lines.js";
import { NO, YES } from "./tails.js";

// words of a loop, counted from its first
const COUNT = 1, PLACE = 2;
export const ANSWER = 3, ITEM = 4, TURN = 5;
// slots that are left out beside those of the first answer, the loop and the turn
const NO_RANGE = 4, EXIT = 8, BACK = 7;
/** @type {Record<string, string>} */
export const FIRST = { all: mov("r0", YES), exists: mov("r0", NO), exists_one: mov("r0", NO), filter: "call 16", map: "call 16" };
export const EXISTS_ONE_END = code(jump("eq", "r0", 0, 2), jump("eq", "r0", YES, 1), mov("r0", NO));

/** After the range: its number of items; a jump over the loop if it is no list and no map.
 * @param {number} word @param {number} loop */
export function rangeTail(word, loop) {
  const noRange = [jump("ne", "r0", -1, 2), mov("r0", 0), ja(loop + NO_RANGE)];
  const kept = [store(word + COUNT, "r0"), mov("r0", 0), store(word + PLACE, "r0")];
  return code(store(word, "r0"), mov("r1", "r0"), "call 21", ...noRange, ...kept);
}

/** The next item into its word; a jump over the turn if there is none.
 * @param {number} word @param {number} turn */
export function loopHead(word, turn) {
  const left = [load("r1", word + COUNT), load("r2", word + PLACE), jump("eq", "r1", "r2", turn + EXIT)];
  return code(...left, load("r1", word), "call 20", store(word + ITEM, "r0"));
}

/** Back to the next item, and the answer after the last.
 * @param {number} word @param {number} turn */
export function loopTail(word, turn) {
  const place = [load("r2", word + PLACE), "add64 r2, 1", store(word + PLACE, "r2"), load("r1", word + COUNT)];
  return code(...place, jump("ne", "r1", "r2", -(turn + BACK + 1)), load("r0", word + ANSWER));
}

/** @param {number} decides @param {number} other @param {number} word */
function absorbingTurn(decides, other, word) {
  return code(jump("eq", "r0", decides, 9), jump("eq", "r0", other, 2), mov("r0", 0), store(word + ANSWER, "r0"));
}

/** @param {number} word */
function existsOneTurn(word) {
  const tests = [jump("eq", "r0", NO, 8), jump("ne", "r0", YES, 5), load("r1", word + ANSWER)];
  const again = [jump("eq", "r1", 0, 5), jump("eq", "r1", NO, 3)];
  return code(...tests, ...again, mov("r0", 1), ja(1), mov("r0", 0), store(word + ANSWER, "r0"));
}

/** @param {number} word */
function filterTurn(word) {
  const kept = [load("r1", word + ANSWER), load("r2", word + ITEM), "call 17", ja(1)];
  return code(jump("eq", "r0", NO, 7), jump("ne", "r0", YES, 4), ...kept, mov("r0", 0), store(word + ANSWER, "r0"));
}

/** @param {number} word */
const mapTurn = (word) => code(mov("r2", "r0"), load("r1", word + ANSWER), "call 17", store(word + ANSWER, "r0"));

/** The turn of `map` after its predicate.
 * @param {Code} transform @param {number} word */
export function mapWhereTurn(transform, word) {
  const tests = [jump("eq", "r0", NO, transform.size + 7), jump("ne", "r0", YES, transform.size + 4)];
  const kept = [mov("r2", "r0"), load("r1", word + ANSWER), "call 17", ja(1), mov("r0", 0), store(word + ANSWER, "r0")];
  return code(...tests).then(transform, code(...kept));
}

/** @type {Record<string, (word: number) => Code>} */
export const TURNS = {
  all: (word) => absorbingTurn(NO, YES, word),
  exists: (word) => absorbingTurn(YES, NO, word),
  exists_one: existsOneTurn,
  filter: filterTurn,
  map: mapTurn,
};
