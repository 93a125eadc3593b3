// The key of a policy's document that is refused, as the module answers for each key alone, and why.

import { TRUE, whole } from "../asking/policies.js";
import { isRecord } from "../texts/json.js";
import { TABLES } from "../data/tables.js";
import { closest } from "../reviews/spelling.js";

/** @typedef {(string | number)[]} Path */
/** A key that is refused, with its value, or with what is missing in it; `repeats` is the item that has the same name.
 * @typedef {{ path: Path, value: any, missing?: string, repeats?: number }} Key */

// what an item of each list has at the least
/** @type {Record<string, Record<string, any>>} */
export const LEAST = {
  variables: { name: "item", expression: "true" }, matchConditions: { name: "item", expression: "true" }, validations: TRUE,
};

/** The module, and the number of the refusal that is looked for. */
export class Keys {
  /** @param {import("../asking/program.js").Program} program @param {string} number */
  constructor(program, number) {
    this.program = program;
    this.number = number;
  }

  /** Whether a policy with this specification and these other keys is refused so.
   * @param {any} spec @param {object} [beside] */
  refuses(spec, beside = {}) {
    return this.program.refusal({ ...whole(spec), ...beside }).split(" ")[0] === this.number;
  }

  /** The first key that is refused; null where it is none alone.
   * @param {any} policy @returns {Key | null} */
  ofPolicy(policy) {
    if (!isRecord(policy)) return null;
    for (const [key, value] of Object.entries(policy)) {
      if (!["apiVersion", "kind", "spec"].includes(key) && this.refuses({ validations: [TRUE] }, { [key]: value })) return { path: [key], value };
    }
    const { spec } = policy;
    if (!isRecord(spec)) return "spec" in policy ? { path: ["spec"], value: spec } : { path: [], value: policy, missing: "spec" };
    for (const [key, value] of Object.entries(spec)) {
      if (this.refuses({ validations: [TRUE], [key]: value })) {
        return key in LEAST && Array.isArray(value) ? this.ofList(key, value) : { path: ["spec", key], value };
      }
    }
    return "validations" in spec ? null : { path: ["spec"], value: spec, missing: "validations" };
  }

  /** Whether a list of these items is refused.
   * @param {string} key @param {any[]} items */
  inList(key, items) {
    return this.refuses({ validations: [TRUE], [key]: items });
  }

  /** The first item of a list that is refused, or the first with which the list is.
   * @param {string} key @param {any[]} items @returns {Key} */
  ofList(key, items) {
    for (const [place, item] of items.entries()) {
      const path = ["spec", key, place];
      if (this.inList(key, [item])) return this.ofItem(key, path, item);
      if (this.inList(key, items.slice(0, place + 1))) return this.ofRepeated(items, path);
    }
    return { path: ["spec", key], value: items };
  }

  /** An item with which a list is refused; its name, if an item before it has the same.
   * @param {any[]} items @param {Path} path @returns {Key} */
  ofRepeated(items, path) {
    const place = Number(path[2]), item = items[place], before = items.slice(0, place).findIndex((one) => one.name === item.name);
    return item.name !== undefined && before >= 0 ? { path: [...path, "name"], value: item.name, repeats: before } : { path, value: item };
  }

  /** The first key of an item that is refused, or the one that is missing.
   * @param {string} key @param {Path} path @param {any} item @returns {Key} */
  ofItem(key, path, item) {
    if (!isRecord(item)) return { path, value: item };
    for (const [inner, value] of Object.entries(item)) {
      if (this.inList(key, [{ ...LEAST[key], [inner]: value }])) return { path: [...path, inner], value };
    }
    return { path, value: item, missing: Object.keys(LEAST[key]).find((inner) => !(inner in item)) };
  }
}

/** A path as messages write it.
 * @param {Path} path */
export const pathText = (path) => path.map((step, place) => (typeof step === "number" ? `[${step}]` : place ? `.${step}` : step)).join("");

/** What a value is, in words.
 * @param {any} value */
function typeOf(value) {
  if (value === null) return "null";
  if (Array.isArray(value)) return "a list";
  const words = { boolean: "a bool", bigint: "a number", number: "a number", string: "a text", object: "an object" };
  return words[/** @type {keyof typeof words} */ (typeof value)] ?? "another value";
}

/** A value in a message: a short text or number as it is, else its type.
 * @param {any} value */
const shown = (value) => (value !== null && typeof value !== "object" && String(value).length <= 40 ? `\`${value}\`` : typeOf(value));

/** The keys that there are beside a key, each with its type.
 * @param {Path} path @returns {Record<string, string> | undefined} */
function knownBeside(path) {
  if (path.length === 1) return TABLES.keys.document;
  if (path.length === 2 && path[0] === "spec") return TABLES.keys.spec;
  return path.length === 4 ? TABLES.keys.items[path[1]] : undefined;
}

/** Why a key is refused; empty if that is not known.
 * @param {Key} key @returns {string} */
export function keyCause({ path, value, missing, repeats }) {
  if (missing) return `${missing} is missing`;
  if (repeats !== undefined) return `the name ${shown(value)} is that of item ${repeats} of ${path[1]} too`;
  const name = String(path[path.length - 1]), known = knownBeside(path);
  if (!known) return "";
  if (!(name in known)) {
    const near = closest(name, Object.keys(known));
    return `no such key; ${near ? `there is \`${near}\`` : `there are ${Object.keys(known).join(", ")}`}`;
  }
  if (typeOf(value) !== known[name]) return `it is ${typeOf(value)}, and not ${known[name]}`;
  const choices = TABLES.keys.values[name];
  if (choices) return choices.includes(value) ? "" : `it is ${shown(value)}; there are ${choices.join(", ")}`;
  const names = name === "name" ? TABLES.keys.names[path[1]] : undefined;
  return names ? `${shown(value)} is ${names}` : "";
}
