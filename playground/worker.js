// Makes the calls of the module, apart from the page, which ends it if it takes too long.

import { giveTables } from "./data/tables.js";
import { Module } from "./calls/module.js";
import { Explaining } from "./explain/explaining.js";

/** @type {Module | null} */
let calls = null;
/** @type {Explaining | null} */
let explaining = null;

const ENDED = "the session was ended with its worker: decide again";

/** What is asked of the worker, each with what it is given.
 * @type {Record<string, (given: any) => any>} */
const ASKED = {
  begin({ module, tables }) {
    giveTables(tables);
    calls = new Module(module);
    return true;
  },
  decide(given) {
    explaining = new Explaining(/** @type {Module} */ (calls), given);
    return explaining.decision();
  },
  refusals: () => explaining?.refusals(),
  explain: () => explaining?.explanation(),
  run: () => explaining?.runData(),
  replies: (commands) => explaining?.replies(commands) ?? ENDED,
};

self.onmessage = ({ data: { id, name, given } }) => {
  try {
    self.postMessage({ id, found: ASKED[name](given) });
  } catch (fault) {
    self.postMessage({ id, fault: fault instanceof Error ? `${fault.name}: ${fault.message}` : String(fault) });
  }
};
