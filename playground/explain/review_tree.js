// The review as a page shows it, with the fields that the run read marked.

import { ownParams, PARAMS } from "../asking/index_tables.js";
import { FIRST_ROOT, ROOTS } from "../slots/expressions.js";
import { isRecord, readJson, writeJson } from "../texts/json.js";
import { pathKey } from "../runs/reads.js";

/** @typedef {import("../runs/reads.js").Path} Path */
/**
 * A field: whether it was read, and its value on a line, or how many parts it has, with these. A field that is not there has
 * neither.
 * @typedef {{ name: string, isRead: boolean, isMissing?: boolean, value?: string, count?: string, open?: boolean, below?: Field[], more?: number }} Field
 */

// the most characters of a value, of a list or map that is shown on one line, and the most parts that are shown
const MOST_TEXT = 300, MOST_LINE = 80, MOST_PARTS = 500;

/** @param {any} value */
function leaf(value) {
  const text = writeJson(value, " ");
  return text.length <= MOST_TEXT ? text : `${text.slice(0, MOST_TEXT)}.. (${text.length} characters)`;
}

/** The values of the roots, and what was read of them. */
export class ReviewTree {
  /** @param {import("../runs/reads.js").Reads} reads */
  constructor(reads) {
    this.reads = reads;
    // what has something in it that was read
    this.around = new Set([...reads.paths.values()].flatMap((path) => path.slice(1).map((_, length) => pathKey(path.slice(0, length + 1)))));
    /** @type {Map<string, string[]>} */
    this.absent = new Map();
    for (const path of reads.missing.values()) {
      const key = pathKey(path.slice(0, -1));
      this.absent.set(key, [...(this.absent.get(key) ?? []), String(path[path.length - 1])].sort());
    }
  }

  /** Whether a value is on the line of its name: what has no parts, and what is short and was read as a whole.
   * @param {Path} path @param {any} value */
  isLine(path, value) {
    if (value === null || typeof value !== "object") return true;
    const key = pathKey(path);
    if (this.around.has(key)) return false;
    return Object.keys(value).length === 0 || (this.reads.paths.has(key) && leaf(value).length <= MOST_LINE);
  }

  /** A field with its value; other lists and maps can be opened, and are open if something in them was read.
   * @param {Path} path @param {any} value @returns {Field} */
  field(path, value) {
    const name = String(path[path.length - 1]), isRead = this.reads.paths.has(pathKey(path));
    if (this.isLine(path, value)) return { name, isRead, value: leaf(value) };
    const count = Object.keys(value).length, what = isRecord(value) ? "field" : "item";
    const below = this.fields(path, value), more = count > MOST_PARTS ? count - MOST_PARTS : 0;
    return { name, isRead, count: `${count} ${what}${count === 1 ? "" : "s"}`, open: this.around.has(pathKey(path)), below, more };
  }

  /** @param {Path} path @param {any} value @returns {Field[]} */
  fields(path, value) {
    const pairs = /** @type {[string | number, any][]} */ (Array.isArray(value) ? [...value.entries()] : Object.entries(value));
    const shown = pairs.filter(([key], place) => place < MOST_PARTS || this.around.has(pathKey([...path, key])));
    const missing = (this.absent.get(pathKey(path)) ?? []).map((name) => ({ name, isRead: true, isMissing: true }));
    return [...shown.map(([key, one]) => this.field([...path, key], one)), ...missing];
  }

  /** All roots that are not null or were read; of params with a table of indices the policy's own.
   * @param {Map<bigint, string>} values @param {boolean} isWrapped @returns {Field[]} */
  all(values, isWrapped) {
    return ROOTS.flatMap((root, place) => {
      const placed = readJson(values.get(BigInt(FIRST_ROOT + place)) ?? "null");
      const value = isWrapped && root === PARAMS ? ownParams(placed) : placed;
      return value !== null || this.reads.paths.has(pathKey([root])) ? [this.field([root], value)] : [];
    });
  }
}
