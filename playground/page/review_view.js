// The review, with the fields that the run read marked.

import { element, openable } from "./dom.js";

/** @typedef {import("../explain/review_tree.js").Field} Field */

/** The name of a field, marked if it was read.
 * @param {Field} one */
function named({ name, isRead }) {
  const sign = element("span", { class: "sign", title: isRead ? "read" : null }, isRead ? "\u25cf" : "");
  return [sign, element(isRead ? "mark" : "span", { class: "key" }, name)];
}

/** @param {Field} one @returns {Node} */
function field(one) {
  if (one.isMissing) return element("li", {}, ...named(one), " ", element("em", {}, "is not there"));
  if (one.value !== undefined) return element("li", {}, ...named(one), ": ", element("code", {}, one.value));
  const more = one.more ? [element("li", {}, `and ${one.more} more`)] : [];
  const inside = () => [...(one.below ?? []).map(field), ...more];
  return element("li", {}, openable(Boolean(one.open), [...named(one), " ", element("span", { class: "count" }, one.count)], inside));
}

/** @param {Field[]} fields */
export const reviewView = (fields) => element("ul", { class: "review" }, ...fields.map(field));
