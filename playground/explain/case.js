// A case: a policy, a review or a manifest, a namespace and params, as texts; and the documents that the module gets.

import { API_VERSION, KIND } from "../asking/policies.js";
import { isRecord, writeJson } from "../texts/json.js";
import { isBefore, isReview, NoReview, objectSent, reviewOf } from "../reviews/making.js";
import { called, Field, Wrong } from "./fields.js";
import { notices } from "./notices.js";

/**
 * `operation`, `user` and `where` (a namespace) are of the request that is made for a manifest.
 * @typedef {{ policy: string, review: string, namespace: string, params: string, operation: string, user: string, where: string }} Case
 */
/** @typedef {import("./fields.js").Trouble} Trouble */
/**
 * @typedef {{ policy: any, policyText: string, marks: import("../texts/yaml.js").Marks, documents: import("../asking/program.js").Documents,
 *   isManifest: boolean, troubles: Trouble[], notices: string[] }} Prepared
 */

/** @type {Case} */
export const EMPTY = { policy: "", review: "", namespace: "", params: "", operation: "CREATE", user: "", where: "" };
// which versions of policies a cluster stores as v1
const OLDER = [`${API_VERSION}beta1`, `${API_VERSION}alpha1`];

/** A map without the keys that are null, which an API server takes for absent.
 * @param {any} value */
function withoutNulls(value) {
  return isRecord(value) ? Object.fromEntries(Object.entries(value).filter(([, one]) => one !== null)) : value;
}

/** A policy as the module reads it: of v1, without what a cluster adds to it.
 * @param {any} policy */
function asStored(policy) {
  if (!isRecord(policy)) return policy;
  const { status: _, ...kept } = policy;
  if (OLDER.includes(kept.apiVersion)) kept.apiVersion = API_VERSION;
  return withoutNulls({ ...kept, ...("spec" in kept ? { spec: withoutNulls(kept.spec) } : {}) });
}

/** An object of the field, with its document and its path in that.
 * @typedef {{ thing: any, document: number, path: (string | number)[] }} Given */

/** The objects of a list, which may leave out what the list says of them; or the object itself.
 * @param {any} thing @param {number} document @returns {Given[]} */
function itemsOf(thing, document) {
  if (!isRecord(thing) || !/List$/.test(thing.kind) || !Array.isArray(thing.items)) return [{ thing, document, path: [] }];
  const own = thing.kind === "List" ? {} : { apiVersion: thing.apiVersion, kind: thing.kind.slice(0, -"List".length) };
  return thing.items.map((/** @type {any} */ item, /** @type {number} */ place) => ({ thing: isRecord(item) ? { ...own, ...item } : item, document, path: ["items", place] }));
}

/** The policy of a case with the marks of its text, and what is left out beside it.
 * @param {Case} given @returns {{ policy: any, marks: import("../texts/yaml.js").Marks, left: string[] }} */
function policyOf(given) {
  const field = new Field("policy", given.policy), all = /** @type {import("../texts/yaml.js").Marks[]} */ ([]);
  if (!given.policy.trim()) throw field.wrong("there is no policy yet: paste one, or choose an example");
  const found = field.documents(all).flatMap(itemsOf), [one, other] = found.filter(({ thing }) => isRecord(thing) && thing.kind === KIND);
  const first = found[0]?.thing, kind = isRecord(first) && typeof first.kind === "string" ? `, but a ${first.kind}` : "";
  if (!one) throw field.wrong(`it is no ${KIND}${kind}`);
  if (other) throw field.wrong(`one policy is decided at a time, and ${called(other.thing)} is another one: remove it`, other.document, other.path);
  const others = found.filter((beside) => beside !== one).map(({ thing, document, path }) => `${called(thing)} in line ${field.place(document, path).line}`);
  // the items of a list have no marks of their own
  const marks = one.path.length ? new Map() : all[one.document];
  return { policy: asStored(one.thing), marks, left: others.map((name) => `Left out: ${name} of the policy. Only the policy is decided.`) };
}

/** Refuses objects beside the first that are neither it as it was before nor define a kind.
 * @param {Field} field @param {Given[]} given @param {string} operation */
function refuseOthers(field, [first, ...others], operation) {
  const before = operation === "CREATE" ? undefined : others.find(({ thing }) => isBefore(first.thing, thing));
  const other = others.find((one) => one !== before && !(isRecord(one.thing) && one.thing.kind === "CustomResourceDefinition"));
  if (!other) return;
  const of = first.thing?.kind === other.thing?.kind ? "; only for UPDATE and DELETE a second one, of the same name, is the object as it was before" : "";
  throw field.wrong(`one object is decided at a time, and ${called(other.thing)} is another one: remove it${of}`, other.document, other.path);
}

/** The review of a case, as JSON, and whether it was made of a manifest.
 * @param {Case} given @returns {{ text: string, isManifest: boolean, review: any, hasBefore: boolean }} */
function reviewText(given) {
  const field = new Field("review", given.review), operation = given.operation || "CREATE";
  if (!given.review.trim()) throw field.wrong("there is no review yet: paste an AdmissionReview, or the manifest of an object");
  const found = field.documents();
  if (isReview(found[0])) {
    if (found.length > 1) throw field.wrong(`one review is decided at a time: remove what follows it, ${called(found[1])}`, 1);
    return { text: /^\s*\{/.test(given.review) ? given.review : writeJson(found[0]), isManifest: false, review: found[0], hasBefore: true };
  }
  const all = found.flatMap(itemsOf), things = all.map((one) => one.thing);
  try {
    const review = reviewOf(things, { operation, user: given.user, namespace: given.where });
    refuseOthers(field, all, operation);
    return { text: writeJson(review), isManifest: true, review, hasBefore: things.slice(1).some((one) => isBefore(things[0], one)) };
  } catch (why) {
    if (!(why instanceof NoReview)) throw why;
    const { thing, message, path } = why, at = all.find((one) => one.thing === thing);
    throw field.wrong(message, at?.document, [...(at?.path ?? []), ...path]);
  }
}

/** A namespace or params of a case; null if there are none.
 * @param {Case} given @param {"namespace" | "params"} name */
function beside(given, name) {
  const field = new Field(name, given[name]), found = given[name].trim() ? field.documents() : [];
  if (found.length > 1) throw field.wrong(`one document belongs here: remove ${called(found[1])}`, 1);
  return found.length ? objectSent(found[0]) : null;
}

/** The documents of a case, with what is wrong in its fields.
 * @param {Case} given @returns {Prepared} */
export function prepared(given) {
  const troubles = /** @type {Trouble[]} */ ([]);
  /** @template T @param {() => T} make @param {T} otherwise */
  const tried = (make, otherwise) => {
    try {
      return make();
    } catch (why) {
      if (!(why instanceof Wrong)) throw why;
      troubles.push(why.trouble);
      return otherwise;
    }
  };
  const { policy, marks, left } = tried(() => policyOf(given), { policy: null, marks: new Map(), left: [] });
  const made = tried(() => reviewText(given), { text: "", isManifest: false, review: null, hasBefore: true });
  const namespace = tried(() => beside(given, "namespace"), null), params = tried(() => beside(given, "params"), null);
  const json = (/** @type {any} */ value) => (value === null ? null : writeJson(value));
  return {
    policy, policyText: policy === null ? "" : writeJson(policy), marks, isManifest: made.isManifest, troubles,
    documents: { review: made.text, namespace: json(namespace), params: json(params) },
    notices: troubles.length ? [] : [...left, ...notices({ policy, review: made.review, namespace, params, hasBefore: made.hasBefore })],
  };
}
