// Instructions as the listing has them, and pieces of code that know where the code of each sub-expression is.

export const SCRATCH = 0x200000000n, VERDICT = 0x300000000n, CONSTANTS = 0x400000000n;

/** @typedef {import("../cel/nodes.js").Node} Node */
/** A line, or the call of a variable's routine, by the slot at which that begins.
 * @typedef {string | { routine: number }} Line */
/**
 * The slots from `first` to `last` are the code of a node; the register names its value in the slot after them.
 * @typedef {{ first: number, last: number, node: Node | null, register: string, role: string }} Mark
 */

/** Lines of code with the marks in them, whose slots are counted from the first of the piece. */
export class Code {
  /** @param {Line[]} lines @param {Mark[]} marks @param {number} size */
  constructor(lines = [], marks = [], size = 0) {
    this.lines = lines;
    this.marks = marks;
    this.size = size;
  }

  /** This code, and others after it.
   * @param {...Code} others */
  then(...others) {
    const lines = [...this.lines], marks = [...this.marks];
    let size = this.size;
    for (const other of others) {
      lines.push(...other.lines);
      marks.push(...moved(other.marks, size));
      size += other.size;
    }
    return new Code(lines, marks, size);
  }

  /** The code of a node, around the marks that are in it.
   * @param {Node | null} node @param {string} register @param {string} [role] */
  marked(node, register, role = "expression") {
    return new Code(this.lines, [{ first: 0, last: this.size - 1, node, register, role }, ...this.marks], this.size);
  }
}

/** Marks that are `by` slots further on.
 * @param {Mark[]} marks @param {number} by */
export const moved = (marks, by) => marks.map((one) => ({ ...one, first: one.first + by, last: one.last + by }));

/** The slots of a line: two of a wide load, else one.
 * @param {Line} line */
export const slotsOf = (line) => (typeof line === "string" && line.startsWith("lddw ") ? 2 : 1);

/** The text of a line at a slot.
 * @param {Line} line @param {number} slot */
export const lineText = (line, slot) => (typeof line === "string" ? line : `call_local ${signed(line.routine - slot - 1)}`);

/** @param {...Line} lines */
export const code = (...lines) => new Code(lines, [], lines.reduce((sum, line) => sum + slotsOf(line), 0));

/** Pieces of code one after another.
 * @param {Code[]} pieces */
export const joined = (pieces) => new Code().then(...pieces);

/** @param {number} number */
const signed = (number) => (number < 0 ? String(number) : `+${number}`);

/** @param {string} register @param {bigint} word */
export const lddw = (register, word) => `lddw ${register}, 0x${BigInt.asUintN(64, word).toString(16).padStart(16, "0")}`;

/** @param {string} register @param {string | number} source */
export const mov = (register, source) => `mov64 ${register}, ${source}`;

/** A jump by a comparison of 64 bits.
 * @param {string} comparison @param {string} register @param {string | number} other @param {number} offset */
export const jump = (comparison, register, other, offset) => `j${comparison}64 ${register}, ${other}, ${signed(offset)}`;

/** @param {number} offset */
export const ja = (offset) => `ja ${signed(offset)}`;

/** Where a word of the frame is, in bytes from R10.
 * @param {number} word */
const frameOffset = (word) => signed(-8 * (word + 1));

/** @param {string} register @param {number} word */
export const load = (register, word) => `ldxdw ${register}, [r10${frameOffset(word)}]`;
/** @param {number} word @param {string} register */
export const store = (word, register) => `stxdw [r10${frameOffset(word)}], ${register}`;
/** @param {number} word */
export const clear = (word) => `stdw [r10${frameOffset(word)}], 0`;
/** @param {string} register @param {string} base @param {number} offset */
export const loadAt = (register, base, offset) => `ldxdw ${register}, [${base}${signed(offset)}]`;
/** @param {string} base @param {number} offset @param {string} register */
export const storeAt = (base, offset, register) => `stxdw [${base}${signed(offset)}], ${register}`;
