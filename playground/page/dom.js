// Elements of the page. A text becomes text alone, never markup.

// characters that would not show, or would turn the text around
const HIDDEN = /[\p{C}\p{Zl}\p{Zp}]|(?! )\p{Zs}/gu;

/** A text in which characters that would not show are shown by their numbers.
 * @param {string} text */
export function printable(text) {
  return text.replace(HIDDEN, (one) => (one === "\n" || one === "\t" ? one : `\\u${(one.codePointAt(0) ?? 0).toString(16).padStart(4, "0")}`));
}

/** The element of this id.
 * @param {string} id @returns {any} */
export const byId = (id) => document.getElementById(id);

/** @typedef {Node | string | null | undefined | false} Content */

/**
 * An element. An attribute that is true has no value; one that is false, null or undefined is left out; one whose name is
 * `on` and an event, such as `onclick`, is a listener.
 * @param {string} tag @param {Record<string, any>} attributes @param {...(Content | Content[])} content
 */
export function element(tag, attributes, ...content) {
  const made = document.createElement(tag);
  for (const [name, value] of Object.entries(attributes)) {
    if (typeof value === "function") made.addEventListener(name.slice(2), value);
    else if (value === true) made.setAttribute(name, "");
    else if (value !== false && value !== null && value !== undefined) made.setAttribute(name, String(value));
  }
  made.append(...content.flat().filter((one) => one || one === "").map((one) => (typeof one === "string" ? printable(one) : /** @type {Node} */ (one))));
  return made;
}

/** Shows this content in an element instead of what it has.
 * @param {Element} holder @param {...(Content | Content[])} content */
export function fill(holder, ...content) {
  holder.replaceChildren(...content.flat().filter((one) => one || one === "").map((one) => (typeof one === "string" ? printable(one) : /** @type {Node} */ (one))));
}

/** A part of a list that can be opened; what is in it is made when it is first open.
 * @param {boolean} isOpen @param {Content[]} head @param {() => Content[]} inside */
export function openable(isOpen, head, inside) {
  const list = element("ul", {}), made = element("details", { open: isOpen }, element("summary", {}, ...head), list);
  let isMade = false;
  const make = () => {
    if (isMade || !(/** @type {HTMLDetailsElement} */ (made).open)) return;
    isMade = true;
    list.append(...inside().map((one) => /** @type {Node} */ (one)));
  };
  made.addEventListener("toggle", make);
  make();
  return made;
}

/** Changes what is above a field in which someone writes, and keeps the field at its place in the window.
 * @param {() => void} change */
export function steady(change) {
  const field = document.activeElement, header = /** @type {HTMLElement} */ (document.querySelector("header"));
  const isWriting = field !== null && byId("inputs").contains(field), before = field ? field.getBoundingClientRect().top : 0;
  // what becomes shorter leaves its room
  header.style.minHeight = isWriting ? `${header.offsetHeight}px` : "";
  if (!isWriting) document.body.style.minHeight = "";
  change();
  if (!field || !isWriting) return;
  const top = window.scrollY + field.getBoundingClientRect().top - before;
  document.body.style.minHeight = `${Math.ceil(top + window.innerHeight)}px`;
  window.scrollTo({ top, behavior: /** @type {any} */ ("instant") });
}

/** A value, with a sign for truths and the error.
 * @param {string} text */
export function badge(text) {
  /** @type {Record<string, string>} */
  const signs = { true: "\u2713 ", false: "\u2717 ", error: "! " };
  return element("span", { class: `value ${text in signs ? text : "other"}` }, (signs[text] ?? "") + text);
}
