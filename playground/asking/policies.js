// The parts of a policy, and small policies of one expression.

import { isRecord, record } from "../texts/json.js";

export const API_VERSION = "admissionregistration.k8s.io/v1";
export const KIND = "ValidatingAdmissionPolicy";
const WORD = /[A-Za-z_][A-Za-z0-9_]*/g;
// the place in a frame of a macro over an optional value
export const OF_OPTIONAL = "value";
export const TRUE = { expression: "true" };

/** @typedef {{ name: string, expression: string }} Variable */
/**
 * An expression of a policy: its kind as refusals name it, its place, its text, and the variables in scope.
 * @typedef {{ kind: string, place: number, text: string, scope: Variable[], name: string, title: string }} Part
 */
/** An item of a macro: the text of the range, the names, and which item it is; a place that is null is any item.
 * @typedef {[string, string, any]} Frame */

/** A policy with this specification.
 * @param {any} spec */
export const whole = (spec) => ({ apiVersion: API_VERSION, kind: KIND, spec });

/** @param {string} kind @param {number} place @param {any} text @param {Variable[]} scope @param {string} [name] @returns {Part} */
function part(kind, place, text, scope, name = "") {
  const title = `${kind === "message" ? "message of validation" : kind} ${place}${name ? ` ${name}` : ""}`;
  return { kind, place, text: typeof text === "string" ? text : "", scope, name, title };
}

/** The items of a list of a specification that are objects.
 * @param {any} spec @param {string} key @returns {any[]} */
const items = (spec, key) => (isRecord(spec) && Array.isArray(spec[key]) ? spec[key].map((/** @type {any} */ one) => (isRecord(one) ? one : record())) : []);

/** The parts of a policy in the order in which they are compiled; one that is not read as a policy has those that there are.
 * @param {any} policy @returns {Part[]} */
export function parts(policy) {
  const spec = isRecord(policy) ? policy.spec : null, variables = items(spec, "variables");
  const found = variables.map((one, place) => part("variable", place, one.expression, variables.slice(0, place), one.name));
  found.push(...items(spec, "matchConditions").map((one, place) => part("condition", place, one.expression, [], one.name)));
  items(spec, "validations").forEach((one, place) => {
    found.push(part("validation", place, one.expression, variables));
    // a message expression that is empty or null is absent, as in a cluster
    if (one.messageExpression) found.push(part("message", place, one.messageExpression, variables));
  });
  return found;
}

/** The variables in scope that a text may name, with those that these may name.
 * @param {Variable[]} scope @param {string} text */
export function needed(scope, text) {
  const words = new Set(text.match(WORD) ?? []);
  const found = [];
  for (const variable of [...scope].reverse()) {
    if (!words.has(variable.name)) continue;
    for (const word of String(variable.expression).match(WORD) ?? []) words.add(word);
    found.unshift(variable);
  }
  return found;
}

/** A policy whose one validation is this expression, of whatever type.
 * @param {Variable[]} scope @param {string} text */
export function asking(scope, text) {
  return whole({ variables: needed(scope, text), validations: [{ expression: `dyn(\n${text}\n)` }] });
}

/** A policy whose last variable is this expression.
 * @param {Variable[]} scope @param {string} text */
export function asVariable(scope, text) {
  const used = new Set(scope.map((variable) => variable.name));
  let number = 0;
  while (used.has(`piece${number}`)) number += 1;
  const variables = [...needed(scope, text), { name: `piece${number}`, expression: text }];
  return whole({ variables, validations: [TRUE] });
}

/** The policy with one of its validations alone, changed so, and without conditions.
 * @param {any} policy @param {number} place @param {object} [changed] */
export function alone(policy, place, changed = {}) {
  const { matchConditions: _, ...spec } = policy.spec;
  return whole({ ...spec, validations: [{ ...policy.spec.validations[place], ...changed }] });
}

/** The text with each iteration name standing for an item of these frames, outermost first.
 * @param {string} text @param {Frame[]} frames */
export function bound(text, frames) {
  return [...frames].reverse().reduce((inner, [range, names, place]) => {
    return inFrame(`(\n${range}\n)`, names.split(" "), place, `\n${inner}\n`);
  }, text);
}

/** @param {string} range @param {string[]} names @param {any} place @param {string} text */
function inFrame(range, names, place, text) {
  if (place === null) return [...names].reverse().reduce((inner, name) => `[null].map(${name},${inner})[0]`, text);
  if (names.length > 1) {
    const [key, value] = names;
    return `[${range}[${place}]].map(${value}, [${place}].map(${key},${text})[0])[0]`;
  }
  const item = place === OF_OPTIONAL ? `${range}.value()` : `${range}.map(${names[0]}, ${names[0]})[${place}]`;
  return `[${item}].map(${names[0]},${text})[0]`;
}
