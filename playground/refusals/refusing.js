// All that is refused in a policy, with its place in the policy's text, in the words of one who writes policies.

import { API_VERSION, needed, parts, TRUE, whole } from "../asking/policies.js";
import { causeOf } from "../asking/values.js";
import { lineColumn } from "../texts/json.js";
import { keyMark } from "../texts/yaml.js";
import { TABLES } from "../data/tables.js";
import { Keys, keyCause, LEAST, pathText } from "./keys.js";
import { refusalOfPolicy } from "./hidden.js";
import { meaning, meaningOf, NO_ANNOTATIONS } from "./meanings.js";
import { Places } from "./places.js";
import { meant, told } from "./words.js";

/** @typedef {import("../asking/policies.js").Part} Part */
/** @typedef {import("../asking/program.js").Program} Program */
/** @typedef {import("../texts/yaml.js").Marks} Marks */
/** @typedef {import("./places.js").Found} Found */
/**
 * What is refused: the part or the key, what is meant, its code, what to write instead, and the line and column; of a part also
 * its text, with the place of what is refused in it.
 * @typedef {{ title: string, words: string, code: string, hint: string, line?: number, column?: number, source?: string,
 *   begin?: number, end?: number }} Refusal
 */

// what a part that is refused is replaced by, so that the parts after it are asked
/** @type {Record<string, string>} */
const VALID = { variable: "dyn(null)", condition: "true", validation: "true", message: "'a'" };
/** @type {Record<string, string>} */
const LISTS = { variable: "variables", condition: "matchConditions", validation: "validations", message: "validations" };
// what to write for a part of another type
/** @type {Record<string, string>} */
const HINTS = { K7: "a comparison, such as `e == 'a'`", K9: "`string(e)` of an int or a bool" };
const OF_KEYS = ["K3", "K5", "K8"], OF_TYPES = ["K7", "K9"], OF_SIZES = ["G3", "G4"];
// what replaces a piece that is refused
const STAND_IN = "dyn(null)";
/** A part that is refused as a whole.
 * @type {Found} */
const NOT_FOUND = { cause: "", begin: 0, end: 0, name: "", piece: null, around: [], frames: [], text: "", operands: "" };
// the most refusals that are looked for
const MOST = 50;

/** The key of a part's text.
 * @param {Part} part */
const keyOf = (part) => (part.kind === "message" ? "messageExpression" : "expression");

/** A policy in which a part has another text.
 * @param {any} policy @param {Part} part @param {string} text */
function withText(policy, part, text) {
  const list = LISTS[part.kind], changed = policy.spec[list].map((/** @type {any} */ one, /** @type {number} */ place) => (place === part.place ? { ...one, [keyOf(part)]: text } : one));
  return { ...policy, spec: { ...policy.spec, [list]: changed } };
}

/** A policy whose only condition, validation or message is this part.
 * @param {Part} part */
function madeFor(part) {
  const spec = { variables: needed(part.scope, part.text), validations: [TRUE] };
  if (part.kind === "condition") return whole({ ...spec, matchConditions: [{ name: part.name, expression: part.text }] });
  if (part.kind === "message") return whole({ ...spec, validations: [{ ...TRUE, messageExpression: part.text }] });
  return whole(part.kind === "validation" ? { ...spec, validations: [{ expression: part.text }] } : spec);
}

/** A policy without a key, so that what else is refused is shown; null if there is no such policy.
 * @param {any} policy @param {(string | number)[]} path @returns {any} */
function withoutKey(policy, path) {
  const last = path[path.length - 1];
  if (!path.length || last === "spec" || last === "validations" || typeof last === "number") return null;
  /** @type {(value: any, steps: (string | number)[]) => any} */
  const without = (value, steps) => {
    const [step, ...more] = steps;
    if (Array.isArray(value)) return value.map((one, place) => (place === step ? without(one, more) : one));
    const made = { ...value };
    if (more.length) made[step] = without(value[step], more);
    else delete made[step];
    return steps.length === 1 && path.length === 4 ? { ...LEAST[path[1]], ...(LEAST[path[1]].name ? { name: `item${path[2]}` } : {}), ...made } : made;
  };
  return without(policy, path);
}

/** A policy that is refused, and where the texts of it are. */
class Refusing {
  /** @param {Program} program @param {any} policy @param {Marks} marks @param {string} text */
  constructor(program, policy, marks, text) {
    this.program = program;
    this.policy = policy;
    this.marks = marks;
    this.text = text.replace(/^\uFEFF/, "").replaceAll("\r\n", "\n").replaceAll("\r", "\n");
    /** @type {Refusal[]} */
    this.found = [];
  }

  /** The line and the column of a place.
   * @param {import("../texts/yaml.js").Mark | undefined} mark @param {number} [begin] */
  position(mark, begin = 0) {
    if (!mark) return {};
    const { at, origins } = mark, last = origins && origins.length ? origins[origins.length - 1] + 1 : at;
    return lineColumn(this.text, origins ? origins[begin] ?? last : at);
  }

  /** The mark of a part's text.
   * @param {Part} part */
  markOf(part) {
    return this.marks.get(JSON.stringify(["spec", LISTS[part.kind], part.place, keyOf(part)]));
  }

  /** Takes what is refused in a part.
   * @param {Part} part @param {{ words: string, code: string, hint: string, begin: number, end: number }} one */
  take(part, one) {
    this.found.push({ title: part.title, source: part.text, ...one, ...this.position(this.markOf(part), one.begin) });
  }

  all() {
    const seen = new Set();
    let policy = this.policy;
    while (this.found.length < MOST) {
      const refusal = refusalOfPolicy(this.program, policy);
      if (!refusal) break;
      const next = this.next(policy, refusal, seen);
      if (next === null) break;
      policy = next;
    }
    return this.found;
  }

  /** Takes a refusal; the policy without what is refused, or null if nothing more is looked for.
   * @param {any} policy @param {string} refusal @param {Set<string>} seen */
  next(policy, refusal, seen) {
    const [number, kind, place] = refusal.split(" ");
    if (number === "K6") {
      const part = parts(policy).find((one) => one.kind === kind && one.place === Number(place));
      return part ? this.ofPart(policy, part, seen, refusal) : this.ofWhole(refusal);
    }
    if (OF_KEYS.includes(number)) return this.ofKey(policy, refusal, number);
    const all = parts(policy);
    const part = OF_TYPES.includes(number) ? all.find((one) => causeOf(this.program.refusal(madeFor(one))) === number)
      : OF_SIZES.includes(number) ? this.tooLarge(all, number) : undefined;
    if (!part) return this.ofWhole(refusal);
    this.take(part, { words: meaning(number), code: number, hint: HINTS[number] ?? "", begin: 0, end: part.text.length });
    if (OF_SIZES.includes(number) || seen.has(part.title)) return null;
    seen.add(part.title);
    return withText(policy, part, VALID[part.kind]);
  }

  /** Takes the refusals in a part.
   * @param {any} policy @param {Part} part @param {Set<string>} seen @param {string} refusal */
  ofPart(policy, part, seen, refusal) {
    if (seen.has(part.title)) return null;
    seen.add(part.title);
    const places = new Places(this.program, part), found = undeclared([...places.found()]);
    const all = found.length ? found : [{ ...NOT_FOUND, cause: causeOf(refusal), end: part.text.length }];
    // what replaces a refused piece says nothing of the operands around it
    const own = all.filter((one) => part.text.includes(STAND_IN) || !told(one, part.text)[0].includes(STAND_IN));
    for (const one of own.length ? own : all) {
      const [words, hint] = told(one, part.text);
      this.take(part, { words, code: one.cause, hint, begin: one.begin, end: one.end });
    }
    // of the kind that it would have, for the parts after it
    return withText(policy, part, part.kind === "variable" && places.text !== part.text ? places.text : VALID[part.kind]);
  }

  /** Takes the refusal of a key.
   * @param {any} policy @param {string} refusal @param {string} number */
  ofKey(policy, refusal, number) {
    const key = new Keys(this.program, number).ofPolicy(policy);
    if (!key) return this.ofWhole(refusal);
    const isAnnotations = key.path.includes("auditAnnotations");
    const words = isAnnotations ? NO_ANNOTATIONS : (number === "K3" ? keyCause(key) : "") || meaning(number);
    const mark = this.marks.get(keyMark(key.path)) ?? this.marks.get(JSON.stringify(key.path));
    this.found.push({ title: pathText(key.path) || "the policy", words, code: number, hint: "", ...this.position(mark) });
    return number === "K3" && !key.missing ? withoutKey(policy, key.path) : null;
  }

  /** The first part with which the policy up to it is too large.
   * @param {Part[]} all @param {string} number */
  tooLarge(all, number) {
    const spec = /** @type {Record<string, any[]>} */ ({ variables: [], matchConditions: [], validations: [] });
    return all.find((part) => {
      const list = spec[LISTS[part.kind]];
      if (part.kind === "message") list[list.length - 1] = { ...list[list.length - 1], messageExpression: part.text };
      else list.push(part.kind === "validation" ? { expression: part.text } : { name: part.name, expression: part.text });
      const made = { ...spec, validations: spec.validations.length ? spec.validations : [TRUE] };
      return causeOf(this.program.refusal(whole(made))) === number;
    });
  }

  /** Takes a refusal of the policy as a whole.
   * @param {string} refusal */
  ofWhole(refusal) {
    const isOther = refusal === "K2" && this.policy.apiVersion !== API_VERSION;
    const words = isOther ? `its apiVersion is ${this.policy.apiVersion}, and not ${API_VERSION}` : meaningOf(refusal);
    // what the engine cannot do has no code
    const code = /^[A-Z]+[0-9]+/.test(refusal) ? refusal : "";
    this.found.push({ title: "the policy", words, code, hint: "", ...this.position(this.marks.get(keyMark(isOther ? ["apiVersion"] : ["spec"]))) });
    return null;
  }
}

/** What is refused, without the names that calls around them would declare, if these were the macros that are meant.
 * @param {Found[]} all */
function undeclared(all) {
  const names = new Set(), found = [];
  for (const one of all) {
    const calls = one.around.filter((piece) => piece.form === "method" && piece.parts.length > 2 && TABLES.macros.includes(meant(piece.name)));
    for (const call of calls) if (call.parts[1].word === one.name) names.add(one.name);
    if (!calls.length || !names.has(one.name)) found.push(one);
  }
  return found;
}

/** All that is refused in a policy, sorted by its place.
 * @param {Program} program @param {any} policy @param {Marks} marks @param {string} text @returns {Refusal[]} */
export function refusals(program, policy, marks, text) {
  const found = new Refusing(program, policy, marks, text).all();
  return found.sort((one, other) => (one.line ?? 0) - (other.line ?? 0) || (one.column ?? 0) - (other.column ?? 0));
}
