// What refusals mean, in words.

import { TABLES } from "../data/tables.js";

// the number of words of a refusal of an expression before its place, as in `K6 validation 0 P4 at 7`
const EXPRESSION = 4;
const NO_ANNOTATIONS = "audit annotations are not supported yet: leave them out, and their values are not computed";

/** What a number of a refusal means; empty if it is not known.
 * @param {string} number @returns {string} */
export const meaning = (number) => TABLES.meanings[number] ?? "";

/** What is said of a refusal whose number is known.
 * @param {string[]} words */
function ofExpression([, kind, place, cause, ...more]) {
  const where = `${kind === "message" ? "message of validation" : kind} ${place}`, at = more.indexOf("at");
  return `${where}: ${meaning(cause) || "it is refused"}${at >= 0 ? ` at byte ${more[at + 1]}` : ""}`;
}

/** What a refusal means, without its code; the refusal itself if that is not known.
 * @param {string} refusal @returns {string} */
export function meaningOf(refusal) {
  const words = refusal.replace(/^N1 /, "").split(" ");
  if (TABLES.others[refusal]) return TABLES.others[refusal];
  if (words[0] === "K6" && words.length >= EXPRESSION) return ofExpression(words);
  if (words.join(" ") === "K3 auditAnnotations") return NO_ANNOTATIONS;
  return meaning(words[0]) || refusal;
}

export { NO_ANNOTATIONS };
