// What a decision of the page lacks that one in a cluster has.

import { isRecord, writeJson } from "../texts/json.js";

/** A case; `hasBefore` is false if the object before is a copy of the object.
 * @typedef {{ policy: any, review: any, namespace: any, params: any, hasBefore: boolean }} Given */

/** Whether some rule of a policy may match a resource, of whatever group and version.
 * @param {any} policy @param {any} resource */
function isAsked(policy, resource) {
  const rules = policy?.spec?.matchConstraints?.resourceRules;
  if (!Array.isArray(rules) || !rules.length || typeof resource !== "string") return true;
  const names = rules.flatMap((rule) => (isRecord(rule) && Array.isArray(rule.resources) ? rule.resources : [])).map(String);
  return names.some((name) => name === "*" || name === "*/*" || [resource, "*"].includes(name.split("/")[0]));
}

/** What is odd with the namespace of a request; empty if nothing is.
 * @param {any} namespace @param {any} request @param {boolean} isRead */
function ofNamespace(namespace, request, isRead) {
  if (namespace === null) return isRead ? "The policy reads namespaceObject, which is null: it is what the field Namespace object has." : "";
  if (!isRecord(namespace)) return "";
  const { kind } = namespace, name = namespace.metadata?.name;
  if (kind !== undefined && kind !== "Namespace") return `The field Namespace object has a ${kind}, and not a Namespace.`;
  const isOther = typeof name === "string" && typeof request.namespace === "string" && name !== request.namespace;
  return isOther ? `The field Namespace object has ${name}, and the namespace of the request is ${request.namespace}.` : "";
}

/** What a decision lacks, in sentences.
 * @param {Given} given @returns {string[]} */
export function notices({ policy, review, namespace, params, hasBefore }) {
  const request = isRecord(review?.request) ? review.request : {}, spec = writeJson(policy?.spec ?? null), resource = request.resource?.resource;
  const reads = (/** @type {string} */ name) => new RegExp(`\\b${name}\\b`).test(spec);
  return [
    isAsked(policy, resource) ? "" : `Its matchConstraints have no rule for ${resource}: a cluster does not ask this policy.`,
    policy?.spec?.paramKind && params === null ? "The policy has a paramKind, and there are no params, so params is null." : "",
    spec.includes("userInfo") && !("userInfo" in request) ? "The policy reads request.userInfo, which the request has if you name a user." : "",
    ofNamespace(namespace, request, reads("namespaceObject")),
    request.operation === "UPDATE" && !hasBefore && reads("oldObject") ? "The policy reads oldObject, which is a copy of the object: paste the object as it was before after a line of ---, or an AdmissionReview." : "",
  ].filter(Boolean);
}
