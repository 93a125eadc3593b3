// The parts of a policy as a page shows them: each with its value, its text, the tree of its values, and what to change.

import { alone, parts } from "../asking/policies.js";
import { NotAnswered } from "../asking/program.js";
import { MOST_STEPS } from "../runs/recording.js";
import { changeToTrue } from "../asking/reasons.js";
import { Asking } from "../asking/values.js";
import { isSame } from "../cel/nodes.js";
import { AskedTree } from "../trees/asked_tree.js";
import { RunTree } from "../trees/run_tree.js";
import { shortened } from "../trees/shown.js";
import { readJson, writeJson } from "../texts/json.js";

/** @typedef {import("../asking/policies.js").Part} Part */
/** @typedef {import("../asking/program.js").Program} Program */
/** @typedef {import("../trees/shown.js").Shown} Shown */
/**
 * `value` is null if the run did not evaluate the part, or is not known to have, if it is `late`; `decides` whether it decides the outcome; `message` is that of a
 * denial, with where it comes from; `hint` what to change; `translation` what is compiled instead, with its tree by the run.
 * @typedef {{ id: string, kind: string, place: number, title: string, source: string, value: string | null, late: boolean, decides: boolean,
 *   message?: { text: string, from: string }, hint?: string, tree: Shown | null, translation?: { source: string, tree: Shown | null } }} ShownPart
 */

/** @type {Record<string, string>} */
const OUTCOMES = { 1: "skipped", 2: "rejected", 3: "denied", 4: "admitted" };
const KINDS = ["condition", "validation", "message", "variable"];
// replaces a message, to see whether the message is what is answered
const MARK = "the message";
// the most characters of a value in a heading
const MOST_HEAD = 80;

/** The outcome of a verdict, and the places of the validations that deny.
 * @param {string[]} verdict */
function verdictOf(verdict) {
  const [first, ...others] = verdict;
  const denied = others.filter((line) => line.startsWith("validation ")).map((line) => Number(line.split(" ")[1]));
  return { outcome: OUTCOMES[first.split(" ")[1]] ?? "undecided", denied };
}

/** The message of the response to a policy; null if it allows.
 * @param {Program} program @param {any} policy @returns {string | null} */
function messageOf(program, policy) {
  const { response } = readJson(program.response(writeJson(policy)));
  return response.allowed ? null : response.status?.message ?? "";
}

/** Where the message of a denial comes from.
 * @param {Program} program @param {any} policy @param {number} place */
function originOf(program, policy, place) {
  const validation = policy.spec.validations[place];
  let why = "it has no message";
  if (validation.messageExpression) {
    if (messageOf(program, alone(policy, place, { message: MARK })) !== MARK) return "its message expression";
    why = "its message expression gives no message";
  }
  return validation.message ? "its message" : `its expression, since ${why}`;
}

/** The message of a denial, and where it comes from.
 * @param {Program} program @param {any} policy @param {number} place */
function denial(program, policy, place) {
  try {
    const text = messageOf(program, alone(policy, place));
    return text === null ? undefined : { text, from: originOf(program, policy, place) };
  } catch (why) {
    if (why instanceof NotAnswered) return undefined;
    throw why;
  }
}

/** All parts of a policy and what decides them. */
export class Parts {
  /** @param {Program} program @param {any} policy @param {import("./shown_run.js").ShownRun} shown */
  constructor(program, policy, shown) {
    this.program = program;
    this.policy = policy;
    this.shown = shown;
    const { outcome, denied } = verdictOf(shown.run.verdict);
    this.outcome = outcome;
    this.denied = denied;
  }

  /** @returns {ShownPart[]} */
  all() {
    const shown = parts(this.policy).map((part) => this.part(part));
    const order = (/** @type {ShownPart} */ one) => [one.decides ? 0 : 1, KINDS.indexOf(one.kind), one.place];
    return shown.sort((one, other) => order(one).map((value, place) => value - order(other)[place]).find((value) => value) ?? 0);
  }

  /** Whether a part is one that decides the outcome.
   * @param {Part} part @param {import("../runs/evaluations.js").Evaluation | undefined} whole */
  isTold(part, whole) {
    if (this.outcome === "denied") return part.kind === "validation" && this.denied.includes(part.place);
    if (part.kind !== "condition" || !whole) return false;
    return this.outcome === "skipped" ? whole.reference !== 3n : this.outcome === "rejected" && whole.reference !== 2n && whole.reference !== 3n;
  }

  /** @param {Part} part @returns {ShownPart} */
  part(part) {
    const whole = this.shown.found.get(`${part.kind} ${part.place}`), decides = this.isTold(part, whole);
    const asked = new Asking(this.program.of(part.kind), part.scope, part.text);
    const trees = this.trees(part, whole, decides, asked), { value } = trees;
    const isFalse = value === "false" && (part.kind === "validation" || part.kind === "condition");
    return {
      id: `${part.kind}-${part.place}`, kind: part.kind, place: part.place, title: part.title, source: part.text.replace(/^\n+|\n+$/g, ""),
      value: value === null ? null : shortened(value, MOST_HEAD), late: trees.late, decides, tree: trees.tree, translation: trees.translation,
      message: decides && part.kind === "validation" ? denial(this.program, this.policy, part.place) : undefined,
      hint: isFalse ? changeToTrue(asked) ?? undefined : undefined,
    };
  }

  /** The value of a part that the run evaluated after the last step that is recorded, and its tree; null of one that it did not.
   * @param {Part} part @param {boolean} decides @param {Asking} asked @returns {Pick<ShownPart, "value" | "late" | "tree" | "translation">} */
  afterCut(part, decides, asked) {
    const isCut = this.shown.run.steps > MOST_STEPS, isRun = this.outcome === "denied" || this.outcome === "admitted";
    const isEvaluated = part.kind === "message" ? this.denied.includes(part.place) : isRun;
    const tree = isCut && isEvaluated ? new AskedTree(asked, decides, null).all() : null;
    const value = asked.known(part.text) ?? null, isLeft = ["skipped", "rejected"].includes(this.outcome) && part.kind !== "condition";
    return { value, late: isCut && value === null && !isLeft && (part.kind !== "message" || isEvaluated), tree };
  }

  /** The value of a part and its tree by the run; if it is translated, that of the author's text, and the translation.
   * @param {Part} part @param {import("../runs/evaluations.js").Evaluation | undefined} whole @param {boolean} decides @param {Asking} asked
   * @returns {Pick<ShownPart, "value" | "late" | "tree" | "translation">} */
  trees(part, whole, decides, asked) {
    const translated = this.shown.translation.find((one) => one.kind === part.kind && one.place === part.place);
    if (!whole || !translated) return this.afterCut(part, decides, asked);
    const { values } = this.shown.run, run = new RunTree(translated, values, whole, decides), value = run.value(whole.reference);
    if (isSame(part.text, translated.text)) return { value, late: false, tree: new RunTree(translated, values, whole, decides, part.text).all() };
    const tree = new AskedTree(asked, decides, whole).all();
    return { value: asked.known(part.text) ?? value, late: false, tree, translation: { source: translated.text, tree: run.all() } };
  }
}
