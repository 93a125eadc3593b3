// Which sub-expression each step of a run ends, and which registers and words of frames name values by then.

const CALL = /^call ([0-9]+)$/;
const MOVE = /^mov64 r([0-9]+), (?:r([0-9]+)|-?[0-9]+)$/;
const LOAD = /^ldxdw r([0-9]+), \[r10(-[0-9]+)\]$/;
const STORE = /^stxdw \[r10(-[0-9]+)\], r([0-9]+)$/;
const MADE = /^(?:[a-z]+64|lddw|ldxdw) r([0-9]+)/;
// the helpers that return words, not references
const WORDS = [1, 2, 21];
const FIRST_KEPT = 6, LAST_KEPT = 9;

/** @typedef {import("../slots/mapping.js").Span} Span */
/** @typedef {import("./recording.js").State} State */
/** At this step the code of a span has ended, and the reference names its value; `depth` counts open calls.
 * @typedef {{ step: number, span: Span, reference: bigint, depth: number }} Arrival */
/**
 * The arrivals of a run, for each step the registers that name values, and the steps at which a word of a frame got a reference.
 * @typedef {{ arrivals: Arrival[], named: Set<number>[], words: Set<number> }} Walk
 */

/** A run that is walked through from its start. */
class Walker {
  /** @param {import("../slots/mapping.js").SlotMap} slots @param {import("./recording.js").Recording} run */
  constructor(slots, run) {
    this.slots = slots;
    this.run = run;
    /** @type {Set<number>} */
    this.registers = new Set();
    /** @type {Set<bigint>} */
    this.frames = new Set();
    /** @type {Set<number>[]} */
    this.kept = [];
    /** @type {Walk} */
    this.walk = { arrivals: [], named: [new Set()], words: new Set() };
  }

  all() {
    const { states } = this.run;
    for (let step = 1; step < states.length; step++) {
      const before = states[step - 1], after = states[step];
      if (after.status === "running") {
        this.moveNames(this.slots.lines.get(before.pc) ?? "", before, step);
        this.arrive(step, before, after);
      }
      this.walk.named.push(new Set(this.registers));
    }
    return this.walk;
  }

  /** What an instruction does to the names of values.
   * @param {string} line @param {State} before @param {number} step */
  moveNames(line, before, step) {
    const call = CALL.exec(line), store = STORE.exec(line), made = MADE.exec(line);
    if (call) {
      for (let one = 0; one < FIRST_KEPT; one++) this.registers.delete(one);
      if (!WORDS.includes(Number(call[1]))) this.registers.add(0);
    } else if (line.startsWith("call_local")) {
      this.kept.push(new Set([...this.registers].filter((one) => one >= FIRST_KEPT && one <= LAST_KEPT)));
    } else if (line === "exit") {
      const low = [...this.registers].filter((one) => one < FIRST_KEPT);
      this.registers = new Set([...low, ...(this.kept.pop() ?? [])]);
    } else if (store) {
      const address = before.registers[10] + BigInt(store[1]), isNamed = this.registers.has(Number(store[2]));
      if (isNamed) this.frames.add(address);
      else this.frames.delete(address);
      if (isNamed) this.walk.words.add(step);
    } else if (made) {
      if (this.isCopy(line, before)) this.registers.add(Number(made[1]));
      else this.registers.delete(Number(made[1]));
    }
  }

  /** Whether an instruction copies a reference.
   * @param {string} line @param {State} before */
  isCopy(line, before) {
    const load = LOAD.exec(line), move = MOVE.exec(line);
    if (load) return this.frames.has(before.registers[10] + BigInt(load[2]));
    return Boolean(move && move[2] && this.registers.has(Number(move[2])));
  }

  /** The spans that this step ends, the innermost first.
   * @param {number} step @param {State} before @param {State} after */
  arrive(step, before, after) {
    if (after.calls.length > before.calls.length) return;
    const origin = after.calls.length < before.calls.length ? after.pc - 1 : before.pc;
    for (const span of [...this.slots.valued(after.pc)].reverse()) {
      if (origin < span.first || origin > span.last) continue;
      const register = Number(span.register.slice(1));
      this.registers.add(register);
      this.walk.arrivals.push({ step, span, reference: after.registers[register], depth: after.calls.length });
    }
  }
}

/** The walk through a run of the program of this map.
 * @param {import("../slots/mapping.js").SlotMap} slots @param {import("./recording.js").Recording} run */
export const walked = (slots, run) => new Walker(slots, run).all();

/** All references that registers, words of frames and sub-expressions name in a run.
 * @param {import("./recording.js").Recording} run @param {Walk} walk */
export function references(run, walk) {
  const found = new Set(walk.arrivals.map((one) => one.reference));
  run.states.forEach((state, step) => walk.named[step].forEach((register) => found.add(state.registers[register])));
  walk.words.forEach((step) => found.add(/** @type {[bigint, bigint]} */ (run.stored.get(step))[1]));
  return [...found].sort((one, other) => (one < other ? -1 : one > other ? 1 : 0));
}
