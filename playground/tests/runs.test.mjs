// A run of `object.spec.replicas <= 3`, worked by hand from docs/CODE.md and docs/HELPERS.md: its sub-expressions, what
// decides, where an error begins, and what was read.

import assert from "node:assert/strict";
import { test } from "node:test";
import { ReviewTree } from "../explain/review_tree.js";
import { runData } from "../explain/run_data.js";
import { deciding, evaluated, Evaluation, origins, whyError } from "../runs/evaluations.js";
import { Reads, pathKey, readsOf } from "../runs/reads.js";
import { statesOf } from "../runs/recording.js";
import { references, walked } from "../runs/walk.js";
import { programOf } from "../slots/layout.js";
import { SlotMap, textOfSpan } from "../slots/mapping.js";
import { RunTree } from "../trees/run_tree.js";
import { Steps } from "../page/steps.js";

const BOTTOM = 0x100000200n, TEXT = "object.spec.replicas <= 3";
// the slot and the words of R0 to R3 after each step; `field` is the reference that helper 5 returns for the second field,
// `int` that of helper 3, `less` and `whole` those of helpers 10 and 23
const ROWS = [
  [0, 0, 0, 0, 0], [1, 0, 4, 0, 0], [3, 0, 4, 0x400000000, 0], [4, 0, 4, 0x400000000, 4], [5, 9, 0, 0, 0], [6, 9, 9, 0, 0],
  [8, 9, 9, 0x400000004, 0], [9, 9, 9, 0x400000004, 8], [10, "field", 0, 0, 0], [11, "field", 0, 0, 0], [13, "field", 3, 0, 0],
  [14, "int", 0, 0, 0], [15, "int", "int", 0, 0], [16, "int", "int", "field", 0], [17, "less", 0, 0, 0], [18, "less", "less", 0, 0],
  [19, "whole", 0, 0, 0],
];
const FIVE = { field: 10, int: 11, less: 3, whole: 2 }, MISSING = { field: 0, int: 10, less: 0, whole: 0 };
const VALUES = new Map([[0n, "error"], [2n, "false"], [3n, "true"], [9n, '{"replicas":5}'], [10n, "5"], [11n, "3"], [4n, '{"spec":{"replicas":5}}']]);

const part = (text, scope = []) => ({ kind: "validation", place: 0, text, scope, name: "", title: "validation 0" });
const slotsOf = (text, variables = []) => new SlotMap(programOf({ spec: { variables, validations: [{ expression: text }] } }));

/** The run of the expression with the references that some helpers answer. */
function recording(named) {
  const states = ROWS.map(([pc, ...words]) => {
    const given = words.map((word) => BigInt(named[word] ?? word));
    return { pc, status: "running", registers: [...given, 0n, 0n, 0n, 0n, 0n, 0n, BOTTOM], calls: [] };
  });
  return { states, steps: 30, verdict: [], stored: new Map([[9, [BOTTOM - 8n, BigInt(named.field)]]]), values: new Map(VALUES) };
}

/** An evaluation of the last sub-expression with this text. */
function of(slots, text, reference, parts = [], turns = []) {
  const span = [...slots.spans].reverse().find((one) => textOfSpan(one) === text && one.role === "expression");
  return new Evaluation(span, 1, BigInt(reference), parts, turns);
}

const texts = (found) => found.map((one) => textOfSpan(one.span));
const SLOTS = slotsOf(TEXT);
const walk = (named) => walked(SLOTS, recording(named));
const whole = (named) => evaluated(walk(named)).get("validation 0");
const lines = (one) => [one.text, ...(one.below ?? []).flatMap(lines)];

test("the steps at which sub-expressions end", () => {
  const found = walk(FIVE).arrivals.map((one) => [one.step, textOfSpan(one.span), Number(one.reference)]);
  assert.deepEqual(found, [[1, "object", 4], [4, "object.spec", 9], [8, "object.spec.replicas", 10], [11, "3", 11], [16, TEXT, 2]]);
});

test("which registers and words name values", () => {
  const { named, words } = walk(FIVE);
  // the address and the length of a text name nothing; a copy names what it is copied from, also over a word
  assert.deepEqual([0, 3, 5, 13, 14].map((step) => [...named[step]].sort()), [[], [1], [0, 1], [0, 1, 2], [0]]);
  assert.deepEqual([...words], [9]);
  assert.deepEqual(references(recording(FIVE), walk(FIVE)), [2n, 3n, 4n, 9n, 10n, 11n]);
});

test("the tree of evaluations", () => {
  const found = whole(FIVE);
  assert.deepEqual([textOfSpan(found.span), found.reference], [TEXT, 2n]);
  assert.deepEqual(texts(found.parts), ["object.spec.replicas", "3"]);
  assert.deepEqual(texts(found.parts[0].parts), ["object.spec"]);
  assert.deepEqual(texts(deciding(found)), [TEXT]);
  assert.deepEqual(origins(found), []);
});

test("where an error begins", () => {
  const found = whole(MISSING), [origin] = origins(found);
  assert.equal(textOfSpan(origin.span), "object.spec.replicas");
  assert.equal(whyError(origin, VALUES), "there is no field replicas");
  const tree = new RunTree(part(TEXT), VALUES, found, true).all();
  assert.deepEqual([tree.open, tree.below[0].text, tree.below[0].origin], [true, "object.spec.replicas", "there is no field replicas"]);
  const reads = readsOf(new Map([["validation 0", found]]), [], VALUES);
  assert.deepEqual([...reads.missing.values()], [["object", "spec", "replicas"]]);
});

test("what was read", () => {
  const reads = readsOf(evaluated(walk(FIVE)), [], VALUES);
  assert.deepEqual([...reads.paths.values()].sort(), [["object"], ["object", "spec"], ["object", "spec", "replicas"]]);
  assert.equal(reads.missing.size, 0);
  const [object] = new ReviewTree(reads).all(VALUES);
  assert.deepEqual(object.below[0].below[0], { name: "replicas", isRead: true, value: "5" });
});

test("the data of the slider", () => {
  const data = runData({ slots: SLOTS, run: recording(FIVE), walk: walk(FIVE) });
  assert.equal(data.slots[data.slots.length - 1], 19);
  assert.deepEqual(data.registers[1], [[1, "0x0000000000000004"]]);
  assert.deepEqual(data.stored, [[9, "0x00000001000001f8", "0x000000000000000a", true]]);
  assert.deepEqual(data.lines.slice(0, 2), [[0, "mov64 r1, 4", 3], [1, "lddw r2, 0x0000000400000000", 2]]);
});

test("where moves of the slider go", () => {
  const steps = new Steps(runData({ slots: SLOTS, run: recording(FIVE), walk: walk(FIVE) }));
  const rows = [["first", 5, 0], ["last", 0, 16], ["step", 3, 4], ["step back", 3, 2], ["expression", 0, 1], ["expression", 4, 8], ["expression back", 8, 4], ["expression", 16, 16]];
  for (const [move, from, to] of rows) assert.equal(steps.moved(move, from), to, `${move} from ${from}`);
  assert.deepEqual(steps.wordsAt(9), [[0, "0x000000000000000a", true]]);
  assert.deepEqual(steps.wordsAt(8), []);
  assert.deepEqual(steps.madeAt(8, 2).map((one) => one[0]), [8, 4]);
});

test("the lines of a session", () => {
  const registers = Array.from({ length: 11 }, (_, place) => `r${place} 0x${place.toString(16).padStart(16, "0")}`);
  const [state] = statesOf(["step 3 pc 12 running", ...registers, "depth 1", "return 7 r6 0x0"]);
  assert.deepEqual([state.pc, state.status, state.registers[10], state.calls], [12, "running", 10n, ["return 7 r6 0x0"]]);
});

test("which side of && decides", () => {
  const text = "object.a && object.b", slots = slotsOf(text);
  const left = of(slots, "object.a", 3), right = of(slots, "object.b", 2);
  assert.deepEqual(texts(deciding(of(slots, text, 2, [left, right]))), ["object.b"]);
  assert.deepEqual(texts(deciding(of(slots, text, 2, [of(slots, "object.a", 2)]))), ["object.a"]);
});

test("a variable, and a path that begins with one", () => {
  const scope = [{ name: "a", expression: "object" }, { name: "b", expression: "object.b" }];
  let slots = slotsOf("variables.b == 1", scope);
  let tree = new RunTree(part("variables.b == 1", scope), VALUES, of(slots, "variables.b == 1", 2, [of(slots, "variables.b", 11)]), true).all();
  assert.deepEqual([tree.below[0].text, tree.below[0].value, tree.below[0].variable], ["variables.b", "3", 1]);
  slots = slotsOf("variables.a.b == 1", scope);
  const field = of(slots, "variables.a.b", 11, [of(slots, "variables.a", 4)]);
  tree = new RunTree(part("variables.a.b == 1", scope), VALUES, of(slots, "variables.a.b == 1", 2, [field]), true).all();
  // the line of the path leads to the variable; the comparison, which is no path, does not
  assert.deepEqual([tree.variable, tree.below[0].variable], [undefined, 0]);
});

test("the item that decides a macro", () => {
  const text = "object.a.all(i, i == 1)", slots = slotsOf(text), head = slots.spans.find((span) => span.role === "item");
  const turns = [new Evaluation(head, 1, 9n, [of(slots, "i == 1", 3)]), new Evaluation(head, 2, 10n, [of(slots, "i == 1", 2)])];
  assert.deepEqual(deciding(of(slots, text, 2, [of(slots, "object.a", 8)], turns)), [turns[1].parts[0]]);
  // of the error no part decides
  assert.deepEqual(deciding(of(slots, text, 0)), []);
});

test("fields of the items of a list that is made", () => {
  const text = "([object.a] + object.b).all(i, i.c)", slots = slotsOf(text);
  const values = new Map([[9n, "[1]"], [10n, "[2]"], [11n, "[1,2]"], [3n, "true"], [4n, "{}"]]);
  const first = slots.spans.find((one) => textOfSpan(one) === "object" && one.role === "expression");
  const made = of(slots, "[object.a]", 9, [of(slots, "object.a", 12, [new Evaluation(first, 1, 4n)])]);
  const other = of(slots, "object.b", 10, [of(slots, "object", 4)]), head = slots.spans.find((span) => span.role === "item");
  const turns = [1, 2].map(() => new Evaluation(head, 1, 12n, [of(slots, "i.c", 3, [of(slots, "i", 12)])]));
  const found = readsOf(new Map([["validation 0", of(slots, text, 3, [of(slots, "([object.a] + object.b)", 11, [made, other])], turns)]]), [], values).paths;
  assert.ok(found.has(pathKey(["object", "a", "c"])) && found.has(pathKey(["object", "b", 0, "c"])));
});

test("a field that is kept is evaluated by one load, and its root by none", () => {
  const slots = slotsOf("object.a.b == 1"), kept = of(slots, "object.a", 9);
  const found = of(slots, "object.a.b == 1", 2, [of(slots, "object.a.b", 10, [kept])]);
  const reads = readsOf(new Map([["validation 0", found]]), [], new Map([[9n, '{"b":5}'], [10n, "5"]]));
  assert.deepEqual([...reads.paths.values()].sort(), [["object"], ["object", "a"], ["object", "a", "b"]]);
});

/** The field `object` of a review with what was read in it. */
function shown(paths, missing, value) {
  const reads = new Reads(new Map());
  for (const path of [...paths, ...missing]) reads.paths.set(pathKey(path), path);
  for (const path of missing) reads.missing.set(pathKey(path), path);
  return new ReviewTree(reads).all(new Map([[4n, JSON.stringify(value)]]))[0];
}

const VERBS = ["object", "verbs"];
const REVIEWS = [
  ["a short value that was read", [VERBS], { verbs: ["get"] }, "value", '["get"]'], ["a long value", [VERBS], { verbs: ["x".repeat(100)] }, "count", "1 item"],
  ["a value of which an item was read", [VERBS, [...VERBS, 0]], { verbs: ["get"] }, "count", "1 item"],
  ["a value that was not read", [["object"], ["object", "other"]], { verbs: ["get"], other: 1 }, "count", "1 item"],
];
for (const [name, paths, value, key, text] of REVIEWS) {
  test(`the review: ${name}`, () => assert.equal(shown(paths, [], value).below[0][key], text));
}

test("the review: a field that an empty map lacks", () => {
  const found = shown([["object", "labels"]], [["object", "labels", "team"]], { labels: {} });
  assert.deepEqual(found.below[0].below, [{ name: "team", isRead: true, isMissing: true }]);
});

test("a tree has each sub-expression that says more than its parts", () => {
  assert.deepEqual(lines(new RunTree(part(TEXT), VALUES, whole(FIVE), true).all()), [TEXT, "object.spec.replicas"]);
});
