// The run of the program, step by step: the slider, the listing, the values, the registers and the frames.

import { byId, element, fill } from "./dom.js";
import { Steps } from "./steps.js";

/** @typedef {import("../explain/run_data.js").RunData} RunData */

const LINES_BEFORE = 5, LINES_AFTER = 9, MOST_MADE = 14;
/** @type {Record<string, string>} */
const ROLES = {
  expression: "", kept: "This field is evaluated first and kept for its uses.", item: "The next item of the macro.",
  "jump over": "A jump over the routine of the variable.", memo: "The value is kept for the next use of the variable.",
  condition: "The value of the condition is tested.", result: "The value of the validation goes into the verdict.",
  text: "The text of the message goes into the verdict.", decided: "The outcome of the conditions.",
  outcome: "The outcome of the policy.", exit: "The end of the program.",
};
/** @type {Record<string, string>} */
const KEYS = { ArrowRight: "step", ArrowLeft: "step back", PageDown: "part", PageUp: "part back", Home: "first", End: "last" };

/** @param {string} tag @param {string} text @param {string} [name] */
const cell = (tag, text, name) => element(tag, { class: name }, text);
/** A long value is scrolled in its cell.
 * @param {string} text */
const valueCell = (text) => element("td", { class: "code value" }, element("div", {}, text));
/** @param {string} id @param {Node[]} rows */
const rows = (id, rows) => byId(id).querySelector("tbody").replaceChildren(...rows);

/** The view of a run. */
export class RunView {
  /** @param {(step: number) => void} moved */
  constructor(moved) {
    this.moved = moved;
    /** @type {Steps | null} */
    this.steps = null;
    this.now = 0;
    byId("slider").addEventListener("input", () => this.show(Number(byId("slider").value)));
    for (const button of document.querySelectorAll("button[data-move]")) {
      button.addEventListener("click", () => this.go(/** @type {HTMLElement} */ (button).dataset.move ?? ""));
    }
    byId("run").addEventListener("keydown", (/** @type {KeyboardEvent} */ event) => this.pressed(event));
  }

  /** Shows a run from a step on; without data nothing is shown.
   * @param {RunData | null} data @param {number} step */
  take(data, step) {
    byId("run").hidden = !data;
    this.steps = data && new Steps(data);
    if (!data || !this.steps) return;
    const { last } = this.steps;
    byId("slider").max = last;
    byId("most").textContent = last < data.steps ? `(this page ends at step ${last}, the run at step ${data.steps})` : `(the run ends at step ${last})`;
    this.show(step);
  }

  /** @param {KeyboardEvent} event */
  pressed(event) {
    if (event.ctrlKey || event.altKey || event.metaKey || !(event.key in KEYS)) return;
    const move = KEYS[event.key];
    event.preventDefault();
    this.go(event.shiftKey && move.startsWith("step") ? move.replace("step", "expression") : move);
  }

  /** @param {string} move */
  go(move) {
    if (this.steps) this.show(this.steps.moved(move, this.now));
  }

  /** Shows a step, and goes to it on the page.
   * @param {number} step */
  jump(step) {
    this.show(step);
    byId("run").scrollIntoView();
    byId("slider").focus({ preventScroll: true });
  }

  /** @param {number} step */
  show(step) {
    const { steps } = this;
    if (!steps) return;
    this.now = Math.min(steps.last, Math.max(0, step));
    byId("slider").value = this.now;
    byId("at").textContent = `step ${this.now} pc ${steps.data.slots[this.now]} ${steps.statusAt(this.now)}`;
    this.showPlace(steps);
    this.showListing(steps);
    this.showRegisters(steps);
    this.showFrames(steps);
    this.showMade(steps);
    this.moved(this.now);
  }

  /** The part and the sub-expression of the instruction.
   * @param {Steps} steps */
  showPlace(steps) {
    const { part, role, begin, end } = steps.spanAt(this.now) ?? { part: -1, role: "", begin: 0, end: 0 };
    fill(byId("part"), part < 0 ? "the policy" : steps.data.parts[part].title);
    byId("role").textContent = ROLES[role] ?? role;
    if (part < 0) return fill(byId("source"));
    const { text } = steps.data.parts[part];
    return fill(byId("source"), text.slice(0, begin), element("mark", {}, text.slice(begin, end)), text.slice(end));
  }

  /** @param {Steps} steps */
  showListing(steps) {
    const slot = steps.data.slots[this.now], place = steps.lineAt.get(slot) ?? 0, from = Math.max(0, place - LINES_BEFORE);
    rows("listing", steps.data.lines.slice(from, place + LINES_AFTER).map(([at, line, span]) => element("tr", { class: at === slot ? "now" : null },
      cell("td", at === slot ? "\u25b6" : "", "sign"), cell("td", String(at), "number"), cell("td", line, "code word"), cell("td", steps.textOf(span), "of"))));
  }

  /** @param {Steps} steps */
  showRegisters(steps) {
    const named = new Set(steps.data.named[this.now]), words = steps.registers[this.now], before = steps.registers[Math.max(0, this.now - 1)];
    rows("registers", words.map((word, place) => element("tr", {}, cell("th", `r${place}`),
      cell("td", word + (word === before[place] ? "" : " *"), "code word"), valueCell(named.has(place) ? steps.valueOf(word) : ""))));
  }

  /** @param {Steps} steps */
  showFrames(steps) {
    const calls = steps.callsAt(this.now);
    fill(byId("frames"), [`depth ${calls.length}`, ...calls].join("\n"));
    rows("frame-words", steps.wordsAt(this.now).map(([place, word, isNamed]) => element("tr", {},
      cell("td", `[r10-${8 * (place + 1)}]`, "code word"), cell("td", word, "code word"), valueCell(isNamed ? steps.valueOf(word) : ""))));
  }

  /** @param {Steps} steps */
  showMade(steps) {
    rows("made", steps.madeAt(this.now, MOST_MADE).map(([at, span, reference]) => element("tr", {}, cell("td", String(at), "number"),
      cell("td", (steps.data.spans[span].role === "item" ? "item of " : "") + steps.textOf(span), "code"), valueCell(steps.data.values[reference] ?? "error"))));
  }
}
