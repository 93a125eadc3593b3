// All that a page shows of a case: the decision, the parts with their trees, the review with its marks, and the run.

import { ownPath } from "../asking/index_tables.js";
import { parts } from "../asking/policies.js";
import { NotAnswered, Program } from "../asking/program.js";
import { readsOf } from "../runs/reads.js";
import { NotMapped } from "../slots/mapping.js";
import { readJson } from "../texts/json.js";
import { refusals } from "../refusals/refusing.js";
import { meaningOf } from "../refusals/meanings.js";
import { prepared } from "./case.js";
import { outcomeWords } from "./outcome_words.js";
import { Parts } from "./parts.js";
import { ReviewTree } from "./review_tree.js";
import { documentTroubles } from "./refused_documents.js";
import { runData } from "./run_data.js";
import { shownRun } from "./shown_run.js";

// how long values are asked for, in milliseconds, so that an explanation comes before the worker is ended
const PATIENCE = 4000;
const TOO_DEEP = "it is nested too deep for this browser";

/** @typedef {import("./case.js").Case} Case */
/** @typedef {import("../refusals/refusing.js").Refusal} Refusal */
/**
 * `outcome` is `allowed`, `denied`, `refused` (the policy is not accepted), `undecided`, or `unread` (a field cannot be used);
 * `review` is the one that is made of a manifest.
 * @typedef {{ outcome: string, message: string, name: string, response: string, isManifest: boolean, review: string,
 *   troubles: import("./case.js").Trouble[], notices: string[], words: string }} Decision
 */

/** The name of a policy, empty if it has none.
 * @param {any} policy */
function nameOf(policy) {
  const name = policy?.metadata?.name;
  return typeof name === "string" ? name : "";
}

/** Whether a fault is one that a case may have.
 * @param {unknown} why @returns {why is Error} */
const isKnown = (why) => why instanceof NotMapped || why instanceof NotAnswered || why instanceof RangeError;

/** What a fault of a case means.
 * @param {Error} why */
const wordsOf = (why) => (why instanceof RangeError ? TOO_DEEP : meaningOf(why.message));

/** One case, with its documents and its run. */
export class Explaining {
  /** @param {import("../asking/program.js").Calls} calls @param {Case} given @param {number} [patience] */
  constructor(calls, given, patience = PATIENCE) {
    this.given = given;
    this.patience = patience;
    this.prepared = prepared(given);
    this.program = new Program(calls, this.prepared.documents);
    /** @type {import("./shown_run.js").ShownRun | null} */
    this.shown = null;
  }

  /** @returns {Decision} */
  decision() {
    const { policy, policyText, isManifest, troubles, notices, documents } = this.prepared;
    const review = isManifest ? documents.review ?? "" : "";
    const decision = { outcome: "unread", message: "", name: nameOf(policy), response: "", isManifest, review, troubles, notices, words: "" };
    if (troubles.length) return decision;
    try {
      const response = this.program.response(policyText), { allowed, status } = readJson(response).response;
      return { ...decision, outcome: allowed ? "allowed" : "denied", message: status?.message ?? "", response };
    } catch (why) {
      if (!(why instanceof NotAnswered)) throw why;
      return { ...decision, ...this.notDecided(why) };
    }
  }

  /** Why a case is not decided.
   * @param {NotAnswered} why */
  notDecided(why) {
    const ofPolicy = this.program.refusal(this.prepared.policy);
    if (ofPolicy) return { outcome: "refused", words: meaningOf(ofPolicy), message: ofPolicy };
    const troubles = documentTroubles(this.given, why.line);
    if (troubles.length) return { outcome: "unread", troubles };
    return { outcome: "undecided", words: meaningOf(why.line), message: why.line };
  }

  /** All that is refused in the policy, with places.
   * @returns {Refusal[]} */
  refusals() {
    try {
      return refusals(this.program, this.prepared.policy, this.prepared.marks, this.given.policy);
    } catch (why) {
      if (why instanceof RangeError || why instanceof NotAnswered) return [{ title: "the policy", words: wordsOf(why), code: "", hint: "" }];
      throw why;
    }
  }

  /** The run, recorded once. */
  run() {
    this.shown = this.shown ?? shownRun(this.program, this.prepared.policyText);
    return this.shown;
  }

  /** The parts and the review, and what is said of the outcome; `words` says why there are none. */
  explanation() {
    try {
      const shown = this.run(), { policy } = this.prepared;
      this.program.end = performance.now() + this.patience;
      const made = new Parts(this.program, policy, shown);
      const names = parts(policy).filter((part) => part.kind === "variable").map((part) => part.name);
      const reads = readsOf(shown.found, names, shown.run.values);
      if (shown.image.isWrapped) reads.change(ownPath);
      const review = new ReviewTree(reads).all(shown.run.values, shown.image.isWrapped);
      const all = made.all();
      return { outcome: made.outcome, said: outcomeWords(made.outcome, all), parts: all, review, words: "" };
    } catch (why) {
      if (isKnown(why)) return { outcome: "", said: "", parts: [], review: [], words: wordsOf(why) };
      throw why;
    }
  }

  /** The data of the slider; null if there is no run. */
  runData() {
    try {
      return runData(this.run());
    } catch (why) {
      if (isKnown(why)) return null;
      throw why;
    }
  }

  /** The replies of a session to commands.
   * @param {string} commands */
  replies(commands) {
    try {
      const { image } = this.run();
      return this.program.session(image)(commands.endsWith("\n") ? commands : `${commands}\n`).join("\n");
    } catch (why) {
      if (isKnown(why)) return wordsOf(why);
      throw why;
    }
  }
}

