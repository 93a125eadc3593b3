// The table of indices, on which a translation runs that uses the first name of a macro with two names.
//
// Such a translation has the params of the policy as `params.v`, and in `params.t.n` the ints 0, 1, .., as many as the
// widest list or map of a review's five roots has items or entries, and at least 16.

import { Fault, isRecord, readJson } from "../texts/json.js";

/** @typedef {import("./program.js").Documents} Documents */

// the texts of a translation, and how it names the indices of a list: no author's iteration name begins with celbpf_
const TEXT = /"(?:\\.|[^"\\])*"/g, INDICES = "params.t.n.filter(celbpf_";
// the fewest indices of a table
const LEAST = 16;
export const PARAMS = "params";
const OWN = "v";

/** The texts of the parts of a policy's `spec`.
 * @param {any} spec @returns {string[]} */
function expressions(spec) {
  const parts = [spec.variables, spec.matchConditions, spec.validations].flatMap((list) => list ?? []);
  return parts.flatMap((part) => [part.expression, part.messageExpression ?? ""]);
}

/** Whether a translation, as the module prints it, runs on params with a table of indices.
 * @param {string} translation */
export function isWrapped(translation) {
  return expressions(readJson(translation).spec).some((text) => text.replace(TEXT, '""').includes(INDICES));
}

/** How many items or entries the widest list or map in some values has.
 * @param {any[]} values */
function width(values) {
  const waiting = [...values];
  let widest = 0;
  while (waiting.length) {
    const one = waiting.pop();
    if (one === null || typeof one !== "object") continue;
    const parts = Object.values(one);
    widest = Math.max(widest, parts.length);
    for (const part of parts) waiting.push(part);
  }
  return widest;
}

/** The documents with params that have the table; those that the module refuses stay as they are.
 * @param {Documents} documents @returns {Documents} */
export function tabled(documents) {
  const { review, namespace, params } = documents;
  try {
    const read = [review, params, namespace].map((text) => readJson(text ?? "null")), request = read[0]?.request;
    if (!isRecord(request) || !(read[1] === null || isRecord(read[1]))) return documents;
    const { object, oldObject, ...rest } = request, length = Math.max(LEAST, width([object, oldObject, rest, read[1], read[2]]));
    return { review, namespace, params: `{"t":{"n":[${[...Array(length).keys()]}]},"${OWN}":${params ?? "null"}}` };
  } catch (why) {
    if (why instanceof Fault || why instanceof RangeError) return documents;
    throw why;
  }
}

/** The path of the policy's own documents that a path of wrapped ones is; null if it is of the table.
 * @param {(string | number)[]} path */
export function ownPath(path) {
  const [root, second, ...rest] = path;
  if (root !== PARAMS) return path;
  return second === OWN ? [PARAMS, ...rest] : null;
}

/** The policy's own params in those that have a table.
 * @param {any} params */
export const ownParams = (params) => params[OWN];
