// The data of the slider: the states of a run as lists, with what changes from step to step.

import { hex } from "../runs/recording.js";

/** @typedef {import("./shown_run.js").ShownRun} ShownRun */
/**
 * `registers` has for each step the registers that have another word than before, `named` those that name values, `calls` the
 * steps at which the open calls change, `stored` what frames got, `made` the values of sub-expressions, `lines` the listing.
 * @typedef {{ steps: number, slots: number[], ends: [number, string][], registers: [number, string][][], named: number[][],
 *   calls: [number, string[]][], stored: [number, string, string, boolean][], made: [number, number, string][],
 *   spans: { part: number, role: string, begin: number, end: number }[], parts: { title: string, text: string }[],
 *   lines: [number, string, number][], values: Record<string, string> }} RunData
 */

// the most characters of a value
const MOST_VALUE = 2000;

/** @param {string} text */
const shortened = (text) => (text.length <= MOST_VALUE ? text : `${text.slice(0, MOST_VALUE)}.. (${text.length} characters)`);

/** For each step the registers that have another word than before.
 * @param {ShownRun} shown @returns {[number, string][][]} */
function changes({ run }) {
  return run.states.map((state, step) => {
    const before = step ? run.states[step - 1].registers : [];
    return state.registers.flatMap((word, place) => (word === before[place] ? [] : [/** @type {[number, string]} */ ([place, hex(word)])]));
  });
}

/** The steps at which the open calls change, with the lines of these.
 * @param {ShownRun} shown */
function calls({ run }) {
  const found = /** @type {[number, string[]][]} */ ([]);
  let last = null;
  for (const [step, state] of run.states.entries()) {
    const key = state.calls.join("\n");
    if (key !== last) found.push([step, state.calls]);
    last = key;
  }
  return found;
}

/** All that the page shows of a run.
 * @param {ShownRun} shown @returns {RunData} */
export function runData(shown) {
  const { slots, run, walk } = shown, parts = [...new Set(slots.spans.flatMap((span) => span.part ?? []))];
  const places = new Map(parts.map((part, place) => [part, place]));
  return {
    steps: run.steps,
    slots: run.states.map((state) => state.pc),
    ends: run.states.flatMap((state, step) => (state.status === "running" ? [] : [/** @type {[number, string]} */ ([step, state.status])])),
    registers: changes(shown),
    named: walk.named.map((one) => [...one].sort((first, second) => first - second)),
    calls: calls(shown),
    stored: [...run.stored].map(([step, [at, word]]) => [step, hex(at), hex(word), walk.words.has(step)]),
    made: walk.arrivals.map((one) => [one.step, one.span.number, String(one.reference)]),
    spans: slots.spans.map(({ part, role, begin, end }) => ({ part: part ? places.get(part) ?? -1 : -1, role, begin, end })),
    parts: parts.map(({ title, text }) => ({ title, text })),
    lines: [...slots.lines].map(([slot, line]) => [slot, line, slots.innermost[slot].number]),
    values: Object.fromEntries([...run.values].map(([one, text]) => [String(one), shortened(text)])),
  };
}
