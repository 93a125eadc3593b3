// What is said of an outcome: of what kind it is, and which parts are errors and why.

/** @typedef {import("../trees/shown.js").Shown} Shown */
/** @typedef {import("./parts.js").ShownPart} ShownPart */

/** @type {Record<string, string>} */
const PLAIN = {
  denied: "At least one validation denies the request.", admitted: "No validation denies the request.",
  skipped: "A condition did not hold, so the policy does not apply.", rejected: "A condition could not be decided, so the request is rejected.",
};
// how a part that is an error leads to the outcome
/** @type {Record<string, string>} */
const BY_ERROR = {
  denied: "is an error, which denies the request", admitted: "is an error, which failurePolicy Ignore lets pass",
  skipped: "is an error, and by failurePolicy Ignore the policy then does not apply", rejected: "is an error, so the request is rejected",
};

/** Where an error begins in a tree; null if that is not known.
 * @param {Shown | null} tree @returns {Shown | null} */
function originIn(tree) {
  if (!tree) return null;
  if (tree.origin !== undefined) return tree;
  for (const one of tree.below ?? []) {
    const found = originIn(one);
    if (found) return found;
  }
  return null;
}

/** Why a part is an error; if its variable is, why that is. Empty if it is not known.
 * @param {ShownPart} part @param {ShownPart[]} parts @returns {string} */
function whyError(part, parts) {
  const origin = originIn(part.tree);
  if (!origin) return "";
  const variable = parts.find((one) => one.kind === "variable" && one.place === origin.variable && one.value === "error");
  const inner = variable && variable !== part ? whyError(variable, parts) : "";
  if (variable && inner) return `: ${variable.title} is the error${inner}`;
  return origin.origin ? `: in \`${origin.text}\` ${origin.origin}` : `: it begins in \`${origin.text}\``;
}

/** The sentences on an outcome; empty if it is not known. Code is between backticks.
 * @param {string} outcome @param {ShownPart[]} parts */
export function outcomeWords(outcome, parts) {
  if (!(outcome in PLAIN)) return "";
  const kind = outcome === "denied" || outcome === "admitted" ? "validation" : "condition";
  const own = parts.filter((part) => part.kind === kind && (part.decides || outcome === "admitted")), wrong = own.filter((part) => part.value === "error");
  const isPlain = outcome === "admitted" || own.length > wrong.length || !wrong.length;
  const told = isPlain && outcome === "skipped" ? [] : wrong;
  const sentences = told.map((part) => `${part.title[0].toUpperCase()}${part.title.slice(1)} ${BY_ERROR[outcome]}${whyError(part, parts)}.`);
  return [...(isPlain ? [PLAIN[outcome]] : []), ...sentences].join(" ");
}
