// The fields of a case, and the examples to choose from.

import { byId, element } from "./dom.js";

/** @typedef {import("../explain/case.js").Case} Case */
/** @typedef {Record<string, { policy: string, reviews: Record<string, string>, namespace: string, params: string }>} Examples */

const FIELDS = ["policy", "review", "namespace", "params", "operation", "user", "where"];

/** The fields of the page. */
export class Editors {
  /** @param {Examples} first the example with which the page begins @param {() => void} changed */
  constructor(first, changed) {
    /** @type {Examples} */
    this.examples = {};
    this.changed = changed;
    /** The example that is shown unchanged.
     * @type {{ example: string, review: string } | null} */
    this.shown = null;
    this.add(first);
    byId("example").addEventListener("change", () => this.choose(byId("example").value));
    byId("example-review").addEventListener("change", () => this.choose(byId("example").value, byId("example-review").value));
    for (const id of FIELDS) byId(id).addEventListener("input", () => this.edited());
  }

  /** Adds examples to those that can be chosen.
   * @param {Examples} examples */
  add(examples) {
    Object.assign(this.examples, examples);
    byId("example").append(...Object.keys(examples).map((name) => new Option(name)));
    byId("example").value = this.shown?.example ?? "";
  }

  edited() {
    this.shown = null;
    byId("example").value = "";
    byId("example-review").replaceChildren();
    this.changed();
  }

  /** Whether there is an example of this name, with this review if one is named.
   * @param {string} name @param {string} [review] */
  has(name, review) {
    return Object.hasOwn(this.examples, name) && (!review || Object.hasOwn(this.examples[name].reviews, review));
  }

  /** Shows an example, by default with its first review.
   * @param {string} name @param {string} [review] */
  choose(name, review) {
    const example = this.examples[name] ? name : Object.keys(this.examples)[0];
    const { policy, reviews, namespace, params } = this.examples[example];
    const chosen = review !== undefined && review in reviews ? review : Object.keys(reviews)[0];
    this.give({ policy, review: reviews[chosen], namespace, params });
    this.shown = { example, review: chosen };
    byId("example").value = example;
    byId("example-review").replaceChildren(...Object.keys(reviews).map((one) => new Option(one)));
    byId("example-review").value = chosen;
    this.changed();
  }

  /** Shows a case that is no example.
   * @param {Partial<Case>} given */
  give(given) {
    for (const id of FIELDS) byId(id).value = given[/** @type {keyof Case} */ (id)] ?? (id === "operation" ? "CREATE" : "");
    this.shown = null;
    byId("example").value = "";
    byId("example-review").replaceChildren();
    for (const id of ["namespace", "params"]) byId(`${id}-field`).open = Boolean(byId(id).value);
  }

  /** What the fields have.
   * @returns {Case} */
  case() {
    return /** @type {Case} */ (Object.fromEntries(FIELDS.map((id) => [id, byId(id).value])));
  }

  /** Shows what is made of a manifest: its operation, user and namespace.
   * @param {boolean} isManifest */
  showRequest(isManifest) {
    byId("request").hidden = !isManifest;
  }

  /** Goes to a place of a field.
   * @param {string} field @param {number} line @param {number} column */
  goTo(field, line, column) {
    byId("inputs").open = true;
    const area = byId(field), lines = area.value.split("\n");
    const begin = lines.slice(0, line - 1).reduce((/** @type {number} */ sum, /** @type {string} */ one) => sum + one.length + 1, 0) + column - 1;
    area.focus();
    area.setSelectionRange(begin, begin + 1);
    // the line is in the middle of the field
    area.scrollTop = Math.max(0, (line - 1) * (area.scrollHeight / lines.length) - area.clientHeight / 2);
  }
}

/** A button that goes to a place of a field.
 * @param {string} field @param {number | undefined} line @param {number | undefined} column */
export function placeButton(field, line, column) {
  if (!line) return element("span", { class: "place" }, field);
  return element("button", { type: "button", class: "place", "data-field": field, "data-line": line, "data-column": column ?? 1 }, `${field}, line ${line}, column ${column}`);
}
