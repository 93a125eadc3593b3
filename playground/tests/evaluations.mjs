// Prints what the page has of runs: for each case of standard input its translation, and each sub-expression that was
// evaluated with its value and those of the iteration names, so that an evaluator can compare them.

import { readFileSync } from "node:fs";
import { EMPTY } from "../explain/case.js";
import { Explaining } from "../explain/explaining.js";
import { textOfSpan } from "../slots/mapping.js";
import { CALLS } from "./giving.mjs";

/** The rows of an evaluation and of what was evaluated for it. */
function* rows(one, items, values) {
  const value = (of) => values.get(of.reference) ?? "error", text = textOfSpan(one.span);
  yield { text, value: value(one), items, step: one.step };
  for (const part of one.parts) yield* rows(part, items, values);
  for (const [place, turn] of one.turns.entries()) {
    const { begin, end } = one.node.parts[0];
    yield { text: one.span.part.text.slice(begin, end), place, value: value(turn), items, step: turn.step };
    for (const part of turn.parts) yield* rows(part, { ...items, [one.node.item]: value(turn) }, values);
  }
}

/** What is printed of a case. */
function shown(given) {
  const explaining = new Explaining(CALLS, { ...EMPTY, ...given }), { run, found } = explaining.run();
  const translation = explaining.program.translation(explaining.prepared.policyText);
  return { translation, rows: [...found.values()].flatMap((one) => [...rows(one, {}, run.values)]) };
}

process.stdout.write(JSON.stringify(JSON.parse(readFileSync(0, "utf8")).map(shown)));
