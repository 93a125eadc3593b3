// What is wrong with a document that the module refuses, with its field and its place.

import { isRecord } from "../texts/json.js";
import { numberWords, undecided } from "../reviews/making.js";
import { Field } from "./fields.js";

/** @typedef {import("./case.js").Case} Case */
/** @typedef {import("./fields.js").Trouble} Trouble */

const REVIEWS = "admission.k8s.io/v1";
// the fields of which each refusal is
/** @type {Record<string, ("review" | "namespace" | "params")[]>} */
const FIELDS = { N2: ["review"], N3: ["namespace", "params"] };

/** What is wrong with a document, and the path of that; null if it is not known.
 * @param {string} name @param {any} value @returns {[string, (string | number)[]] | null} */
function cause(name, value) {
  if (!isRecord(value)) return [`it is ${Array.isArray(value) ? "a list" : "no map"}, and has to be a map`, []];
  if (name === "review" && value.apiVersion !== REVIEWS) return [`its apiVersion is ${value.apiVersion ?? "absent"}, and has to be ${REVIEWS}`, ["apiVersion"]];
  if (name === "review" && !isRecord(value.request)) return [`it has no request${isRecord(value.response) ? ": it is the response to a review" : ""}`, [isRecord(value.response) ? "response" : "request"]];
  const wrong = undecided(value);
  return wrong.length ? [numberWords(wrong), wrong[0].path] : null;
}

/** What is wrong with the documents of a case that a refusal is of; nothing if that is not known.
 * @param {Case} given @param {string} refusal @returns {Trouble[]} */
export function documentTroubles(given, refusal) {
  return (FIELDS[refusal] ?? []).flatMap((name) => {
    const field = new Field(name, given[name]), [value] = given[name].trim() ? field.documents() : [];
    const found = value === undefined ? null : cause(name, value);
    return found ? [field.wrong(found[0], 0, found[1]).trouble] : [];
  });
}
