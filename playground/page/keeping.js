// The page with its case as a file to keep.

import { element } from "./dom.js";

// the elements whose content is made by the script, and the one that has the case
const MADE = ["#outcome", "#words", "#message", "#time", "#files", "#notices", "#troubles", "#parts", "#review-tree", "#replies", "#example", "#example-review",
  "#source", "#frames", "#listing tbody", "#made tbody", "#registers tbody", "#frame-words tbody", "#status", ".json pre"];

/** A value as JSON that ends no element.
 * @param {any} value */
export const embedded = (value) => JSON.stringify(value).replace(/[<>&\u007f-\uffff]/g, (one) => `\\u${one.charCodeAt(0).toString(16).padStart(4, "0")}`);

/** The text of the page with a case in it.
 * @param {any} given */
export function pageText(given) {
  const copy = /** @type {HTMLElement} */ (document.documentElement.cloneNode(true));
  for (const selector of MADE) copy.querySelectorAll(selector).forEach((one) => one.replaceChildren());
  copy.querySelectorAll("[data-made]").forEach((one) => one.remove());
  // the page's rule allows no style of a single element, such as of a field whose size was changed
  for (const one of [copy, ...copy.querySelectorAll("[style]")]) one.removeAttribute("style");
  for (const name of ["data-decided", "data-state"]) copy.removeAttribute(name);
  const holder = /** @type {HTMLElement} */ (copy.querySelector("#case"));
  holder.textContent = embedded(given);
  return `<!DOCTYPE html>\n${copy.outerHTML}\n`;
}

/** Gives a text as a file.
 * @param {string} name @param {string} text */
export function download(name, text) {
  const address = URL.createObjectURL(new Blob([text], { type: "text/html" }));
  const link = /** @type {HTMLAnchorElement} */ (element("a", { href: address, download: name, "data-made": true }));
  document.body.append(link);
  link.click();
  link.remove();
  setTimeout(() => URL.revokeObjectURL(address), 1000);
}
