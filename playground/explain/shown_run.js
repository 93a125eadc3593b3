// The run of a policy's program: its map, its steps, and what was evaluated, once for all that is shown of it.

import { parts } from "../asking/policies.js";
import { taken } from "../asking/program.js";
import { evaluated } from "../runs/evaluations.js";
import { recorded, takeValues } from "../runs/recording.js";
import { references, walked } from "../runs/walk.js";
import { mapOf } from "../slots/mapping.js";
import { FIRST_ROOT, ROOTS } from "../slots/expressions.js";
import { readJson } from "../texts/json.js";

/**
 * @typedef {{ slots: import("../slots/mapping.js").SlotMap, run: import("../runs/recording.js").Recording,
 *   walk: import("../runs/walk.js").Walk, found: Map<string, import("../runs/evaluations.js").Evaluation>,
 *   translation: import("../asking/policies.js").Part[], image: import("../asking/program.js").Image }} ShownRun
 */

/** The run of a policy that is accepted.
 * @param {import("../asking/program.js").Program} program @param {string} policy @returns {ShownRun} */
export function shownRun(program, policy) {
  const text = program.translation(policy), translated = readJson(text);
  const image = program.imageOf(text), session = program.session(image);
  const slots = mapOf(translated, taken(program.calls.list(image.bytes)).text);
  const run = recorded(session, slots.lines), walk = walked(slots, run);
  const roots = ROOTS.map((_, place) => BigInt(FIRST_ROOT + place));
  takeValues(run, session, [...new Set([...roots, ...references(run, walk)])]);
  return { slots, run, walk, found: evaluated(walk), translation: parts(translated), image };
}
