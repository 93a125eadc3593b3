// What a run has at each of its steps, and where moves go.

/** @typedef {import("../explain/run_data.js").RunData} RunData */

// the bytes of a frame
const FRAME = 512n;

/** The number of sorted steps that are at most this one.
 * @param {number[]} steps @param {number} now */
function upTo(steps, now) {
  let low = 0, high = steps.length;
  while (low < high) {
    const middle = (low + high) >> 1;
    if (steps[middle] <= now) low = middle + 1;
    else high = middle;
  }
  return low;
}

/** The words of all registers at each step.
 * @param {RunData} data @returns {string[][]} */
function registersOf(data) {
  const found = /** @type {string[][]} */ ([]);
  for (const [step, changed] of data.registers.entries()) {
    const words = step ? found[step - 1].slice() : [];
    for (const [place, word] of changed) words[place] = word;
    found.push(words);
  }
  return found;
}

/** The data of a run by its steps. */
export class Steps {
  /** @param {RunData} data */
  constructor(data) {
    this.data = data;
    this.last = data.slots.length - 1;
    this.registers = registersOf(data);
    this.ends = new Map(data.ends);
    this.lineAt = new Map(data.lines.map((line, place) => [line[0], place]));
    this.madeSteps = data.made.map((one) => one[0]);
    this.callSteps = data.calls.map((one) => one[0]);
    this.stops = [...new Set(this.madeSteps)];
    const parts = data.slots.map((_, step) => this.spanAt(step)?.part ?? -1);
    this.borders = parts.flatMap((part, step) => (step && part !== parts[step - 1] ? [step] : []));
  }

  /** The sub-expression, or the part, of the instruction of a step.
   * @param {number} step */
  spanAt(step) {
    const place = this.lineAt.get(this.data.slots[step]);
    return place === undefined ? undefined : this.data.spans[this.data.lines[place][2]];
  }

  /** @param {number} step */
  statusAt(step) {
    return this.ends.get(step) ?? "running";
  }

  /** The value that a word names.
   * @param {string} word */
  valueOf(word) {
    return this.data.values[BigInt(word).toString()] ?? "error";
  }

  /** The text of a sub-expression on a line, or what its instructions are for.
   * @param {number} span */
  textOf(span) {
    const { part, role, begin, end } = this.data.spans[span];
    if (part < 0) return `the policy: ${role}`;
    const { title, text } = this.data.parts[part];
    return end > begin ? text.slice(begin, end).replace(/\s+/g, " ") : `${title}: ${role}`;
  }

  /** The lines of the open calls.
   * @param {number} step */
  callsAt(step) {
    return this.data.calls[upTo(this.callSteps, step) - 1][1];
  }

  /** The words of the frame that were written: the place, the word, and whether it names a value.
   * @param {number} step @returns {[number, string, boolean][]} */
  wordsAt(step) {
    const bottom = BigInt(this.registers[step][10]), words = /** @type {Map<number, [string, boolean]>} */ (new Map());
    for (const [at, address, word, isNamed] of this.data.stored) {
      const below = bottom - BigInt(address);
      if (at <= step && below > 0n && below <= FRAME) words.set(Number(below / 8n) - 1, [word, isNamed]);
    }
    return [...words].sort((one, other) => one[0] - other[0]).map(([place, [word, isNamed]]) => [place, word, isNamed]);
  }

  /** The newest values, at most `most`.
   * @param {number} step @param {number} most */
  madeAt(step, most) {
    const count = upTo(this.madeSteps, step);
    return this.data.made.slice(Math.max(0, count - most), count).reverse();
  }

  /** The step to which a move goes.
   * @param {string} move @param {number} now */
  moved(move, now) {
    const after = (/** @type {number[]} */ steps) => steps[upTo(steps, now)] ?? this.last;
    const before = (/** @type {number[]} */ steps) => steps[upTo(steps, now - 1) - 1] ?? 0;
    switch (move) {
      case "first": return 0;
      case "last": return this.last;
      case "step": return now + 1;
      case "step back": return now - 1;
      case "expression": return after(this.stops);
      case "expression back": return before(this.stops);
      case "part": return after(this.borders);
      case "part back": return before(this.borders);
      default: return now;
    }
  }
}
