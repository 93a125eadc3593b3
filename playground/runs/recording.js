// The states of a session of the debugger, step by step.

// the most steps that are recorded
export const MOST_STEPS = 20000;
const REGISTERS = 11;
// the most steps of one line of a session, and how many such lines are as many as a review may take
const LINE_STEPS = 1000000, LINES = 10;
const TO_THE_END = `c ${LINE_STEPS}\n`.repeat(LINES) + "w\n";
const FRAME_STORE = /^stxdw \[r10(-[0-9]+)\], r[0-9]+$/;

/** A step of a run: the slot, the status as a move says it, the registers' words, and the lines of open calls.
 * @typedef {{ pc: number, status: string, registers: bigint[], calls: string[] }} State */
/**
 * The states from step 0 on, the steps of the whole run, and the lines of the verdict at its end. `stored` has for a step the
 * address and the word that a frame got by it, and `values` the JSON of references.
 * @typedef {{ states: State[], steps: number, verdict: string[], stored: Map<number, [bigint, bigint]>, values: Map<bigint, string> }} Recording
 */
/** What asks a session: the commands, and its lines.
 * @typedef {(commands: string) => string[]} Session */

/** The step, the slot and the status in the line of a move.
 * @param {string} line @returns {[number, number, string]} */
export function move(line) {
  const [, step, , pc, ...status] = line.split(" ");
  return [Number(step), Number(pc), status.join(" ")];
}

/** The states in the answers to `r` and `f`, each after the line of a move.
 * @param {string[]} lines @returns {State[]} */
export function statesOf(lines) {
  const found = [];
  let at = 0;
  while (at < lines.length) {
    const [, pc, status] = move(lines[at]);
    const registers = lines.slice(at + 1, at + 1 + REGISTERS).map((line) => BigInt(line.split(" ")[1]));
    const depth = Number(lines[at + 1 + REGISTERS].split(" ")[1]);
    at += 2 + REGISTERS;
    found.push({ pc, status, registers, calls: lines.slice(at, at + depth) });
    at += depth;
  }
  return found;
}

/** For each step that stores into a frame the address.
 * @param {State[]} states @param {Map<number, string>} lines */
function stores(states, lines) {
  const found = /** @type {[number, bigint][]} */ ([]);
  states.slice(0, -1).forEach((before, step) => {
    const store = FRAME_STORE.exec(lines.get(before.pc) ?? "");
    if (store) found.push([step + 1, before.registers[10] + BigInt(store[1])]);
  });
  return found;
}

/** The word of the line of eight bytes of memory.
 * @param {string} line */
function wordOf(line) {
  return BigInt(`0x${line.split(" ").slice(1).reverse().join("")}`);
}

/** @param {bigint} word */
export const hex = (word) => `0x${word.toString(16).padStart(16, "0")}`;

/** The lines of a run's end: how many steps it takes, and its verdict.
 * @param {Session} session */
function endOf(session) {
  const end = session(TO_THE_END), moves = end.filter((line) => line.startsWith("step "));
  const last = moves.find((line) => !line.endsWith(" running")) ?? moves[moves.length - 1];
  return { steps: move(last)[0], verdict: end.filter((line) => !line.startsWith("step ")) };
}

/** The run of a session; `lines` has its instructions by slot.
 * @param {Session} session @param {Map<number, string>} lines @returns {Recording} */
export function recorded(session, lines) {
  const { steps, verdict } = endOf(session), kept = Math.min(steps, MOST_STEPS);
  const states = statesOf(session("g 0\nr\nf\n" + "s 1\nr\nf\n".repeat(kept)));
  const places = stores(states, lines);
  const asked = places.map(([step, address]) => `g ${step}\nm ${hex(address)} 8\n`).join("");
  const answers = asked ? session(asked).filter((_, place) => place % 2 === 1) : [];
  const stored = new Map(places.map(([step, address], place) => [step, /** @type {[bigint, bigint]} */ ([address, wordOf(answers[place])])]));
  return { states, steps, verdict, stored, values: new Map() };
}

/** Asks for the values of references, at the last state that is recorded.
 * @param {Recording} made @param {Session} session @param {bigint[]} references */
export function takeValues(made, session, references) {
  const answers = session(`g ${made.states.length - 1}\n` + references.map((one) => `v ${one}\n`).join(""));
  references.forEach((one, place) => {
    const answer = answers[place + 1], front = `value ${one} `;
    made.values.set(one, answer.startsWith(front) ? answer.slice(front.length) : answer);
  });
}
