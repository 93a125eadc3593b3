// The parts of a policy with the trees of their values.

import { badge, element, openable } from "./dom.js";

/** @typedef {import("../trees/shown.js").Shown} Shown */
/** @typedef {import("../explain/parts.js").ShownPart} ShownPart */

const SILENT = () => element("span", { class: "value silent" }, "not evaluated");
const LATE = () => element("span", { class: "value silent" }, "not known: the run is longer than the steps that the page follows");

/** A button that shows a step of the run.
 * @param {number} step */
const go = (step) => element("button", { class: "go", type: "button", "data-step": step }, `step ${step}`);

/** What is said of a sub-expression beside its value.
 * @param {Shown} one */
function marks(one) {
  const found = [];
  if (one.decides) found.push(element("span", { class: "mark decides" }, "\u25c0 decides"), " ");
  if (one.origin !== undefined) {
    found.push(element("span", { class: "mark origin" }, `\u25c0 the error begins here${one.origin ? `: ${one.origin}` : ""}`), " ");
  }
  if (one.variable !== undefined) {
    // a link would take the place of the case in the address
    found.push(element("button", { class: "go", type: "button", "data-part": `variable-${one.variable}` }, `variable ${one.variable}`), " ");
  }
  if (one.step !== undefined) found.push(go(one.step));
  return found;
}

/** The line of a sub-expression or an item.
 * @param {Shown} one */
function line(one) {
  if (one.type === "item") return [element("code", {}, one.text), " ", one.value ? badge(one.value) : ""];
  return [element("code", {}, one.text), " is ", badge(one.value ?? ""), " ", ...marks(one)];
}

/** A tree as an item of a list.
 * @param {Shown} one @returns {Node} */
export function tree(one) {
  if (one.type === "note") return element("li", {}, one.text);
  if (one.type === "silent") return element("li", {}, element("div", { class: "leaf" }, element("code", {}, one.text), " ", SILENT()));
  const below = one.below ?? [];
  if (!below.length) return element("li", {}, element("div", { class: "leaf" }, ...line(one)));
  return element("li", {}, openable(Boolean(one.open), line(one), () => below.map(tree)));
}

/** @param {string} text */
const source = (text) => element("pre", { class: "source" }, element("code", {}, text));

/** @param {Shown | null} shown */
const treeOf = (shown) => shown && element("ul", { class: "tree" }, tree(shown));

/** A part with its value, its text and the tree of its values.
 * @param {ShownPart} part */
function section(part) {
  const { translation, message } = part;
  return element("section", { class: part.decides ? "part decides" : "part", id: part.id, tabindex: -1 },
    element("h3", {}, part.title, " ", part.value !== null ? badge(part.value) : part.late ? LATE() : SILENT(), " ", part.decides && element("span", { class: "mark decides" }, "\u25c0 decides")),
    message && element("p", { class: "message" }, "message: ", element("q", {}, message.text), ` (from ${message.from})`),
    part.hint && element("p", { class: "hint" }, part.hint),
    source(part.source), treeOf(part.tree),
    translation && element("details", { class: "translation" }, element("summary", {}, "the translation, which the run below is of"),
      source(translation.source), treeOf(translation.tree)));
}

/** @param {ShownPart[]} parts */
export const partsView = (parts) => parts.map(section);
