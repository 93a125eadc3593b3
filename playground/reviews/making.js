// The review that an API server would send of an object in a manifest.

import { TABLES } from "../data/tables.js";
import { pathText } from "../refusals/keys.js";
import { isRecord, writeJson } from "../texts/json.js";
import { writeQuantities } from "./quantities.js";
import { near } from "./spelling.js";

/** An object of which no review is made, and why; `path` is what is wrong in it. */
export class NoReview extends Error {
  /** @param {string} words @param {any} thing @param {(string | number)[]} [path] */
  constructor(words, thing, path = []) {
    super(words);
    this.thing = thing;
    this.path = path;
  }
}

/** @typedef {{ group: string, version: string, kind: string, plural: string, namespaced: boolean }} Resource */
/** Who asks for what.
 * @typedef {{ operation: string, user: string, namespace: string }} Asked */

// the keys of a request, of its user and of metadata that are not sent with an empty text, list or map
const METADATA = ["name", "generateName", "namespace", "labels", "annotations", "finalizers", "ownerReferences"];
const NAME_LABEL = "kubernetes.io/metadata.name";
const LEAST = -(2n ** 63n), MOST = 2n ** 63n - 1n;
// the most numbers that a message names
const MOST_NUMBERS = 3;

/** Whether a value is empty, so that it is not sent.
 * @param {any} value */
const isEmpty = (value) => value === null || value === "" || (typeof value === "object" && Object.keys(value).length === 0);

/** An object as it is sent: without what is empty in its metadata, and a Namespace with the label of its name.
 * @param {any} value @returns {any} */
export function objectSent(value) {
  if (!isRecord(value) || !("metadata" in value)) return value;
  let { metadata } = value;
  if (!isRecord(metadata)) return value;
  if (value.apiVersion === "v1" && value.kind === "Namespace" && metadata.name && typeof metadata.name === "string") {
    if (metadata.labels === undefined || metadata.labels === null || isRecord(metadata.labels)) {
      metadata = { ...metadata, labels: { ...metadata.labels, [NAME_LABEL]: metadata.name } };
    }
  }
  const kept = Object.entries(metadata).filter(([key, one]) => !METADATA.includes(key) || !isEmpty(one));
  return { ...value, metadata: Object.fromEntries(kept) };
}

/** The resources of built-in kinds.
 * @returns {Resource[]} */
function builtIn() {
  return TABLES.kinds.flatMap((/** @type {any[]} */ [kind, plural, namespaced, group, ...versions]) =>
    versions.map((version) => ({ group, version, kind, plural, namespaced })));
}

/** The resources that a CustomResourceDefinition defines, none if it is not whole.
 * @param {any} definition @returns {Resource[]} */
function served(definition) {
  const spec = definition.spec;
  if (!isRecord(spec) || !isRecord(spec.names) || !Array.isArray(spec.versions)) return [];
  const { kind, plural } = spec.names, namespaced = spec.scope === "Namespaced";
  return spec.versions.filter((/** @type {any} */ one) => isRecord(one) && one.served !== false).map((/** @type {any} */ one) => ({ group: spec.group, version: one.name, kind, plural, namespaced }));
}

/** Group, which is empty for the core one, and version.
 * @param {string} apiVersion @returns {[string, string]} */
function groupVersion(apiVersion) {
  const at = apiVersion.lastIndexOf("/");
  return [apiVersion.slice(0, Math.max(0, at)), apiVersion.slice(at + 1)];
}

/** What may be meant by a kind that is not known.
 * @param {string} group @param {string} kind */
function advice(group, kind) {
  const known = builtIn(), own = known.filter((one) => one.kind === kind);
  const named = (/** @type {Resource} */ one) => `${one.group ? `${one.group}/` : ""}${one.version}`;
  if (group.includes(".") && !known.some((one) => one.group === group)) return "";
  const of = own.filter((one) => one.group === group);
  if (own.length) return `: ${kind} is ${named((of.length ? of : own)[0])}`;
  const meant = near(kind, known.filter((one) => one.group === group).map((one) => one.kind)) || near(kind, known.map((one) => one.kind));
  const first = known.find((one) => one.kind === meant);
  return first ? `: did you mean ${named(first)} ${meant}?` : "";
}

/** The resource of an object; objects beside it may define its kind.
 * @param {any} thing @param {any[]} beside @returns {Resource} */
function resourceOf(thing, beside) {
  if (typeof thing.apiVersion !== "string" || typeof thing.kind !== "string") throw new NoReview("it has no apiVersion and kind, so it is neither an AdmissionReview nor an object", thing);
  const [group, version] = groupVersion(thing.apiVersion);
  const defined = beside.filter((one) => isRecord(one) && one.kind === "CustomResourceDefinition").flatMap(served);
  const found = [...defined, ...builtIn()].find((one) => one.group === group && one.version === version && one.kind === thing.kind);
  if (!found) throw new NoReview(`the kind ${thing.apiVersion} ${thing.kind} is not known${advice(group, thing.kind) || "; paste its CustomResourceDefinition after it, between lines of ---"}`, thing, ["kind"]);
  return found;
}

/** Refuses metadata that an API server takes as texts alone.
 * @param {any} thing */
function refuseNoTexts(thing) {
  const { metadata } = thing, given = ["name", "namespace", "generateName"].map((key) => ({ path: [key], name: key, one: metadata[key] }));
  for (const key of ["labels", "annotations"]) {
    const own = isRecord(metadata[key]) ? Object.entries(metadata[key]) : [];
    given.push(...own.map(([name, one]) => ({ path: [key, name], name: `${key}[${JSON.stringify(name)}]`, one })));
  }
  const wrong = given.find(({ one }) => one !== undefined && one !== null && typeof one !== "string");
  if (!wrong) return;
  const advice = typeof wrong.one === "object" ? "" : "; write it in quotes";
  throw new NoReview(`metadata.${wrong.name} is ${writeJson(wrong.one)}, which is not a text${advice}`, thing, ["metadata", ...wrong.path]);
}

/** An object in its namespace with the values that are stored.
 * @param {any} thing @param {Resource} resource @param {Asked} asked */
function put(thing, resource, asked) {
  if (!isRecord(thing.metadata)) throw new NoReview("the object has no metadata", thing);
  refuseNoTexts(thing);
  const { namespace, ...others } = thing.metadata;
  const metadata = resource.namespaced ? { ...others, namespace: namespace || asked.namespace || "default" } : others;
  const made = objectSent({ ...thing, metadata });
  writeQuantities(made, resource.group);
  return made;
}

/** The numbers of a value that no document may have, with their paths.
 * @param {any} value @param {(string | number)[]} [path] @returns {{ path: (string | number)[], value: number | bigint }[]} */
export function undecided(value, path = []) {
  if (Array.isArray(value)) return value.flatMap((one, place) => undecided(one, [...path, place]));
  if (isRecord(value)) return Object.keys(value).flatMap((key) => undecided(value[key], [...path, key]));
  return typeof value === "number" || (typeof value === "bigint" && (value < LEAST || value > MOST)) ? [{ path, value }] : [];
}

/** What is said of such numbers.
 * @param {{ path: (string | number)[], value: number | bigint }[]} wrong @param {string} [before] what is before the paths */
export function numberWords(wrong, before = "") {
  const more = wrong.length > MOST_NUMBERS ? ` and ${wrong.length - MOST_NUMBERS} more` : "";
  const told = wrong.slice(0, MOST_NUMBERS).map(({ path, value }) => `${before}${pathText(path)} is ${value}`);
  return `${told.join(", ")}${more}: policies read 64-bit ints alone`;
}

/** Refuses an object with such numbers.
 * @param {any} value @param {any} thing of which the value is made @param {string} before */
function refuseNumbers(value, thing, before) {
  const wrong = undecided(value);
  if (wrong.length) throw new NoReview(numberWords(wrong, before), thing, wrong[0].path);
}

/** The groups that an API server gives a user.
 * @param {string} name */
function groupsOf(name) {
  const words = name.split(":"), isAccount = words.length === 4 && words[0] === "system" && words[1] === "serviceaccount";
  const all = name === "system:anonymous" ? "system:unauthenticated" : "system:authenticated";
  return isAccount ? ["system:serviceaccounts", `system:serviceaccounts:${words[2]}`, all] : [all];
}

/** The request for an object.
 * @param {any} object @param {any} old @param {Resource} resource @param {Asked} asked */
function requestOf(object, old, resource, asked) {
  const { group, version, kind, plural } = resource, { name } = object.metadata;
  const namespace = group === "" && plural === "namespaces" ? name : object.metadata.namespace;
  const kinds = { group, version, kind }, resources = { group, version, resource: plural };
  const isDeleted = asked.operation === "DELETE", word = asked.operation.toLowerCase();
  const options = { apiVersion: "meta.k8s.io/v1", kind: `${word[0].toUpperCase()}${word.slice(1)}Options` };
  return {
    uid: "1", kind: kinds, resource: resources, requestKind: kinds, requestResource: resources,
    ...(name ? { name } : {}), ...(namespace ? { namespace } : {}), operation: asked.operation,
    object: isDeleted ? null : object, oldObject: asked.operation === "CREATE" ? null : old, dryRun: false, options,
    ...(asked.user ? { userInfo: { username: asked.user, groups: groupsOf(asked.user) } } : {}),
  };
}

/** Whether a document is a review.
 * @param {any} value */
export const isReview = (value) => isRecord(value) && value.kind === "AdmissionReview";

/** Whether an object may be another as it was before: it has the same kind and name.
 * @param {any} thing @param {any} other */
export function isBefore(thing, other) {
  return isRecord(other) && other.kind === thing?.kind && other.apiVersion === thing?.apiVersion && other.metadata?.name === thing?.metadata?.name;
}

/**
 * The review of the first of these objects. The second of its kind and name is the object before, if it is updated or
 * deleted; any may define the first's kind.
 * @param {any[]} things @param {Asked} asked
 */
export function reviewOf(things, asked) {
  const [thing, ...beside] = things;
  if (!isRecord(thing)) throw new NoReview("it is neither an AdmissionReview nor an object", thing);
  const resource = resourceOf(thing, beside), object = put(thing, resource, asked);
  const before = beside.find((one) => isBefore(thing, one));
  const old = before ? put(before, resource, asked) : object;
  const request = requestOf(object, old, resource, asked);
  refuseNumbers(request.object, thing, "");
  if (request.oldObject !== request.object) refuseNumbers(request.oldObject, before ?? thing, "oldObject.");
  return { apiVersion: "admission.k8s.io/v1", kind: "AdmissionReview", request };
}
