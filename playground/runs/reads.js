// The fields of the review that a run read.
//
// Where a value comes from is a path into the review, as ["object", "spec"]; or, for a list that the policy makes, a list of
// where each item comes from; or null. So a field is found again in an item of a list that `+`, `map` or `filter` made.

import { pathOf, ROOTS } from "../slots/expressions.js";
import { readJson } from "../texts/json.js";
import { ERROR_REFERENCE, TRUE_REFERENCE } from "./evaluations.js";

/** @typedef {import("./evaluations.js").Evaluation} Evaluation */
/** @typedef {(string | number)[]} Path */
/** @typedef {{ path: Path } | { items: Origin[] } | null} Origin */

/** What paths that are the same have in common.
 * @param {Path} path */
export const pathKey = (path) => JSON.stringify(path);

/** The paths of all reads; `missing` are those at which there is nothing. */
export class Reads {
  /** @param {Map<bigint, string>} values */
  constructor(values) {
    this.values = values;
    /** @type {Map<string, Origin>} */
    this.variables = new Map();
    /** @type {Map<string, Path>} */
    this.paths = new Map();
    /** @type {Map<string, Path>} */
    this.missing = new Map();
  }

  /** The value of an evaluation or an item; null also for the error.
   * @param {Evaluation} one */
  value(one) {
    const text = this.values.get(one.reference) ?? "error";
    return text === "error" ? null : readJson(text);
  }

  /** Where the value of an evaluation comes from; adds what it read. `items` has the same of iteration names.
   * @param {Evaluation} one @param {Map<string, Origin>} items @returns {Origin} */
  take(one, items) {
    const { type, word, parts: nodes } = one.node;
    const parts = new Map(one.parts.map((part) => [part.node, this.take(part, items)]));
    const given = nodes.map((node) => parts.get(node) ?? null);
    if (type === "name") return items.has(word) ? items.get(word) ?? null : this.read([word], true);
    if (type === "variable") return this.variables.get(word) ?? null;
    if (type === "selection" || type === "has") {
      // a field that is kept for all of its uses is a field of a root
      const base = one.parts.length ? given[0] : this.read((pathOf(one.node) ?? [""]).slice(0, 1), true);
      return this.field(one, base);
    }
    return type === "macro" ? this.turns(one, given[0], items) : this.passed(one, given);
  }

  /** @param {Path} path @param {boolean} isThere @returns {Origin} */
  read(path, isThere) {
    this.paths.set(pathKey(path), path);
    if (!isThere) this.missing.set(pathKey(path), path);
    return { path };
  }

  /** Changes each path; one that has no other is left out.
   * @param {(path: Path) => Path | null} change */
  change(change) {
    for (const paths of [this.paths, this.missing]) {
      const changed = [...paths.values()].map(change);
      paths.clear();
      for (const path of changed) if (path) paths.set(pathKey(path), path);
    }
  }

  /** The path of a field, if it is one of the review.
   * @param {Evaluation} one @param {Origin} base @returns {Origin} */
  field(one, base) {
    if (!base || !("path" in base) || this.missing.has(pathKey(base.path))) return null;
    const path = [...base.path, one.node.word];
    if (one.node.type === "has") {
      this.read(path, one.reference === TRUE_REFERENCE);
      return null;
    }
    return this.read(path, one.reference !== ERROR_REFERENCE);
  }

  /** Where the value of an operator, a conditional or a list comes from.
   * @param {Evaluation} one @param {Origin[]} given @returns {Origin} */
  passed(one, given) {
    const { type, word } = one.node;
    if (type === "ternary") return given[1] ?? given[2];
    if (type === "call" && word === "dyn") return given[0];
    if (type === "list") return { items: given };
    if (type === "operation" && word === "+" && Array.isArray(this.value(one))) {
      return { items: one.parts.slice(-2).flatMap((part, place) => this.items(part, given[place])) };
    }
    return type === "operation" && word === "[]" ? this.index(one, given) : null;
  }

  /** Where an item of a list, or the value at a key, comes from.
   * @param {Evaluation} one @param {Origin[]} given @returns {Origin} */
  index(one, given) {
    const asked = one.part(one.node.parts[1]), key = asked ? this.value(asked) : null;
    if (!given[0] || (typeof key !== "bigint" && typeof key !== "string")) return null;
    const place = typeof key === "bigint" ? Number(key) : key;
    if ("items" in given[0]) return given[0].items[/** @type {number} */ (place)] ?? null;
    return this.read([...given[0].path, place], one.reference !== ERROR_REFERENCE);
  }

  /** Where each item of a value comes from; the keys of a map are no fields.
   * @param {Evaluation} one @param {Origin} origin @returns {Origin[]} */
  items(one, origin) {
    const value = this.value(one);
    if (!Array.isArray(value)) return [];
    if (origin && "items" in origin) return origin.items;
    return value.map((_, place) => origin && { path: [...origin.path, place] });
  }

  /** Reads for the items of a macro; where those of a new list come from.
   * @param {Evaluation} one @param {Origin} base @param {Map<string, Origin>} names @returns {Origin} */
  turns(one, base, names) {
    const { word, item, parts: nodes } = one.node, found = /** @type {Origin[]} */ ([]);
    const range = one.part(nodes[0]), origins = range ? this.items(range, base) : [];
    one.turns.forEach((turn, number) => {
      const origin = origins[number] ?? null;
      if (origin && "path" in origin) this.paths.set(pathKey(origin.path), origin.path);
      const inside = new Map([...names, [/** @type {string} */ (item), origin]]);
      const given = turn.parts.map((part) => this.take(part, inside));
      if (this.isKept(one, turn)) found.push(word === "filter" ? origin : given[given.length - 1]);
    });
    return word === "filter" || word === "map" ? { items: found } : null;
  }

  /** Whether a `filter` keeps the item of a turn, or a `map` what it makes of it.
   * @param {Evaluation} one @param {Evaluation} turn */
  isKept(one, turn) {
    const last = turn.parts[turn.parts.length - 1];
    if (one.node.word === "filter") return last?.reference === TRUE_REFERENCE;
    return turn.parts.length === one.node.parts.length - 1;
  }
}

/** The reads of a run, of these parts; `names` has the name of each variable by its place.
 * @param {Map<string, Evaluation>} parts @param {string[]} names @param {Map<bigint, string>} values */
export function readsOf(parts, names, values) {
  const made = new Reads(values);
  for (const [key, one] of parts) {
    const origin = made.take(one, new Map()), [kind, place] = key.split(" ");
    if (kind === "variable") made.variables.set(names[Number(place)], origin);
  }
  for (const [key, path] of made.paths) if (!ROOTS.includes(String(path[0]))) made.paths.delete(key);
  return made;
}

