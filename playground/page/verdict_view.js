// The decision of a case: the outcome with its message, what is wrong in a field, or what is refused in the policy.

import { byId, element, fill } from "./dom.js";
import { placeButton } from "./editors.js";
import { laidOut, readJson } from "../texts/json.js";

/** @typedef {import("../explain/explaining.js").Decision} Decision */
/** @typedef {import("../refusals/refusing.js").Refusal} Refusal */

/** @type {Record<string, string>} */
const WORDS = {
  allowed: "The request is allowed.",
  denied: "The request is denied.",
  refused: "The policy is refused, so nothing is decided.",
  undecided: "The policy does not decide this request.",
  unread: "Something is to be mended first.",
};
/** @type {Record<string, string>} */
const TITLES = { unread: "not decided", undecided: "not decided", refused: "refused" };

/** A text with what is between backticks as code.
 * @param {string} text */
function withCode(text) {
  return text.split("`").map((piece, place) => (place % 2 ? element("code", {}, piece) : piece));
}

/** Shows a decision.
 * @param {Decision} decision @param {number} time in milliseconds */
export function showDecision(decision, time) {
  const { outcome } = decision, heading = byId("outcome");
  fill(heading, TITLES[outcome] ?? outcome);
  heading.className = `outcome ${outcome}`;
  fill(byId("words"), WORDS[outcome], outcome === "undecided" ? ` ${decision.words}.` : "");
  fill(byId("message"), outcome === "denied" || decision.message && outcome === "allowed" ? element("q", {}, decision.message) : "");
  fill(byId("time"), outcome === "allowed" || outcome === "denied" ? `decided in ${time < 10 ? time.toFixed(1) : Math.round(time)} ms` : "");
  fill(byId("notices"), ...decision.notices.map((one) => element("li", {}, one)));
  const troubles = decision.troubles.map(({ field, words, line, column }) => element("li", {}, placeButton(field, line, column), ": ", ...withCode(words)));
  fill(byId("troubles"), ...troubles);
  if (outcome === "undecided") fill(byId("troubles"), element("li", {}, element("code", {}, decision.message)));
  document.title = `${TITLES[outcome] ?? outcome}${decision.name ? `: ${decision.name}` : ""} - celbpf`;
}

/** Shows a text of JSON in an element that can be opened; it is laid out when it is open. No text hides the element.
 * @param {string} id @param {string} text */
export function showJson(id, text) {
  const holder = byId(id), shown = holder.querySelector("pre");
  const make = () => fill(shown, holder.open && text ? laidOut(readJson(text)) : "");
  holder.hidden = !text;
  holder.ontoggle = make;
  make();
}

/** Says of what kind a decision is, once the run is known.
 * @param {string} words */
export function showSaid(words) {
  if (words) fill(byId("words"), ...withCode(words));
}

/** Shows that the case is another, and is not decided yet. */
export function showDeciding() {
  const heading = byId("outcome");
  fill(heading, "deciding..");
  heading.className = "outcome busy";
  for (const id of ["words", "message", "time"]) fill(byId(id));
  document.title = "deciding.. - celbpf";
}

/** Shows that there is no decision, and nothing of one before.
 * @param {string} words */
export function showNoDecision(words) {
  const heading = byId("outcome");
  fill(heading, `not decided: ${words}`);
  heading.className = "outcome undecided";
  for (const id of ["words", "message", "time", "notices", "troubles"]) fill(byId(id));
  for (const id of ["response", "made-review"]) showJson(id, "");
  hideWhy();
  document.title = "not decided - celbpf";
}

/** Hides what is said of a decision beside it. */
export function hideWhy() {
  for (const id of ["why", "run", "debugger"]) byId(id).hidden = true;
}

/** The text of a part with what is refused in it marked.
 * @param {Refusal} refusal */
function source({ source, begin = 0, end = 0 }) {
  if (!source) return null;
  return element("pre", { class: "source" }, element("code", {}, source.slice(0, begin), element("mark", {}, source.slice(begin, end)), source.slice(end)));
}

/** Shows all that is refused in the policy.
 * @param {Refusal[]} refusals */
export function showRefusals(refusals) {
  fill(byId("troubles"), ...refusals.map((one) => element("li", {},
    placeButton("policy", one.line, one.column), " ", element("b", {}, one.title), ": ", ...withCode(one.words), one.code && element("span", { class: "of" }, ` (${one.code})`),
    source(one), one.hint && element("p", { class: "hint" }, "write ", ...withCode(one.hint)))));
}
