// Cases: decisions of all examples, reviews of manifests, trees, what to change, refusals, and hostile texts.

import assert from "node:assert/strict";
import { existsSync, readdirSync, readFileSync } from "node:fs";
import { join } from "node:path";
import { test } from "node:test";
import { EMPTY } from "../explain/case.js";
import { Explaining } from "../explain/explaining.js";
import { stored } from "../reviews/quantities.js";
import { closest } from "../reviews/spelling.js";
import { isReview, reviewOf } from "../reviews/making.js";
import { readDocuments } from "../texts/documents.js";
import { ASKING, CALLS, IS_MODULE, python, ROOT } from "./giving.mjs";

const EXAMPLES = join(ROOT, "examples", "policies");
const HEAD = "apiVersion: admissionregistration.k8s.io/v1\nkind: ValidatingAdmissionPolicy\nmetadata: {name: x}\nspec:\n";
const explaining = (given) => new Explaining(CALLS, { ...EMPTY, ...given }, Infinity);
const reviewed = (object) => JSON.stringify({ apiVersion: "admission.k8s.io/v1", kind: "AdmissionReview", request: { uid: "1", object } });
const policyOf = (...expressions) => JSON.stringify({
  apiVersion: "admissionregistration.k8s.io/v1", kind: "ValidatingAdmissionPolicy", spec: { validations: expressions.map((expression) => ({ expression })) },
});
const text = (...names) => (existsSync(join(...names)) ? readFileSync(join(...names), "utf8") : "");

test("the examples are decided as their responses say, each with its trees and its run", ASKING, () => {
  let count = 0;
  for (const name of readdirSync(EXAMPLES).filter((one) => existsSync(join(EXAMPLES, one, "policy.json")))) {
    const reviews = readdirSync(join(EXAMPLES, name)).filter((one) => one.endsWith(".review.json"));
    for (const file of IS_MODULE ? reviews : reviews.slice(0, 1)) {
      const { response } = JSON.parse(text(EXAMPLES, name, file.replace(".review.", ".response.")));
      const case_ = explaining({
        policy: text(EXAMPLES, name, "policy.json"), review: text(EXAMPLES, name, file),
        namespace: text(EXAMPLES, name, "namespace.json"), params: text(EXAMPLES, name, "params.json"),
      });
      const { outcome, message } = case_.decision(), { parts, review, words } = case_.explanation();
      assert.deepEqual([outcome, message, words], [response.allowed ? "allowed" : "denied", response.status?.message ?? "", ""], `${name} ${file}`);
      assert.ok(parts.every((part) => part.value === null || part.tree) && review.length, `${name} ${file}`);
      assert.equal(parts.some((part) => part.decides), outcome === "denied" || parts.some((part) => part.kind === "condition" && part.decides));
      count += 1;
    }
  }
  assert.ok(count >= (IS_MODULE ? 270 : 70));
});

const CHANGES = [
  ["a relation", "object.n <= 3", { n: 5 }, "to be true: object.n has to be at most 3"],
  ["an item of all", "object.a.all(x, x.n <= 2 && has(x.on)) || !(object.b in [1, 2])", { a: [{ n: 1, on: true }, { n: 5 }], b: 1 },
    "to be true: object.a[1].n has to be at most 2 and object.a[1] has to have the field on, or object.b has to be not in [1, 2]"],
  ["an item of exists", "object.a.exists(x, x.n == 9)", { a: [] }, "to be true: object.a has to have an item x for which x.n == 9 is true"],
  ["one item", "object.a.exists_one(x, x.n < 3)", { a: [] }, "to be true: object.a has to have exactly one item x for which x.n < 3 is true"],
  ["the branch that is taken", "object.b == 1 ? object.t.startsWith('a') : true", { b: 1, t: "bc" }, "to be true: object.t has to start with 'a'"],
  ["a literal on the left", "[].exists(x, x == 1) || 3 <= object.b", { b: 1 }, "to be true: [] has to have an item x for which x == 1 is true, or object.b has to be at least 3"],
  ["a field that has to be missing", "!has(object.n)", { n: 5 }, "to be true: object must not have the field n"],
  ["an item that has to be missing", "!('x' in object.l)", { l: ["x"] }, "to be true: object.l must not have 'x'"],
  ["an optional field", "object.?n.orValue(5) <= 3", {}, "to be true: object has to have the field n and object.n has to be at most 3"],
];
for (const [name, expression, object, hint] of CHANGES) {
  test(`what to change: ${name}`, ASKING, () => {
    const { parts } = explaining({ policy: policyOf(expression), review: reviewed(object) }).explanation();
    assert.equal(parts[0].hint, hint);
  });
}

test("a tree of what is translated has the author's text, with the step at which the run had the same", ASKING, () => {
  const [part] = explaining({ policy: policyOf("object.spec.?replicas.orValue(1) <= 3"), review: reviewed({ spec: { replicas: 5 } }) }).explanation().parts;
  const { tree, translation } = part;
  assert.deepEqual([tree.text, tree.value, tree.decides, tree.below[0].text, tree.below[0].value], ["object.spec.?replicas.orValue(1) <= 3", "false", true, "object.spec.?replicas.orValue(1)", "5"]);
  assert.ok(translation.source.includes("has(object.spec.replicas)") && translation.tree.step === tree.step);
});

test("a policy that uses the first name of two runs on params with a table of indices, and is shown with its own params", ASKING, () => {
  const policy = policyOf("object.l.all(i, x, i != params.at)", "object.m.all(k, v, k != v || params.?on.orValue(false))"), l = Array.from({ length: 18 }, (_, place) => place + 1);
  const shown = explaining({ policy, review: reviewed({ l, m: { a: "a", b: "c" } }), params: '{"apiVersion": "v1", "kind": "ConfigMap", "at": 17}' });
  assert.deepEqual([shown.decision().outcome, shown.decision().message], ["denied", "failed expression: object.l.all(i, x, i != params.at); failed expression: object.m.all(k, v, k != v || params.?on.orValue(false))"]);
  const { parts, review, words } = shown.explanation(), [first, second] = parts;
  assert.deepEqual([words, first.title, first.value, first.hint, second.value, second.hint], ["", "validation 0", "false", "to be true: the index 17 of object.l has to be other than 17 (params.at)", "false",
    "to be true: the key 'a' of object.m has to be other than \"a\" (object.m['a']), or params.on has to be true"]);
  const names = first.tree.below.map((one) => one.text);
  assert.deepEqual([names.length, names[1], names[11], first.tree.below[11].value], [12, "item 0: i = 0, x = 1", "item 17: i = 17, x = 18", "false"]);
  const params = review.find((one) => one.name === "params"), fields = params.below.map((one) => [one.name, one.isRead, one.isMissing ?? false]);
  assert.deepEqual(fields, [["apiVersion", false, false], ["at", true, false], ["kind", false, false], ["on", true, true]]);
  assert.ok(first.translation.source.includes("params.t.n") && shown.runData() && shown.replies("v 6").startsWith('value 6 {"t":{"n":[0,1,2,3,4,5,6,7,8,9,10,11,12,13,14,15,16,17]},"v":{'));
});

test("a part that is evaluated after the steps of the page is asked", ASKING, () => {
  const review = reviewed({ l: Array.from({ length: 3000 }, (_, place) => place) });
  const [part] = explaining({ policy: policyOf("object.l.all(x, x < 5)", "object.l.all(x, x >= 0)"), review }).explanation().parts;
  assert.deepEqual([part.title, part.value, part.decides, part.hint], ["validation 0", "false", true, "to be true: object.l[5] has to be below 5; object.l[6] has to be below 5; object.l[7] has to be below 5; and 92 items more"]);
  const { parts } = explaining({ policy: policyOf("object.l.all(x, x >= 0)", "object.l[1] == 2"), review }).explanation();
  assert.deepEqual(parts.map((one) => [one.title, one.value, one.decides, one.tree.below.length]), [["validation 1", "false", true, 1], ["validation 0", "true", false, 12]]);
});

test("a match condition that is false decides, and what comes after it is not evaluated", ASKING, () => {
  const policy = `${HEAD}  matchConditions: [{name: a, expression: object.n == 1}, {name: b, expression: 'true'}]\n  validations: [{expression: 'false'}]\n`;
  const { outcome, parts } = explaining({ policy, review: reviewed({ n: 2 }) }).explanation();
  assert.deepEqual([outcome, parts.map((part) => [part.title, part.value, part.decides])], ["skipped", [["condition 0 a", "false", true], ["condition 1 b", null, false], ["validation 0", null, false]]]);
});

const MANIFEST = "apiVersion: apps/v1\nkind: Deployment\nmetadata: {name: web, labels: {}}\nspec:\n  replicas: 3.0\n  template: {spec: {containers: [{name: a, resources: {limits: {cpu: 0.5}}}]}}\n";
test("the review of a manifest is the one of the tools", () => {
  const line = "from celbpf_tools.vapctl.requests import Asked, Reviews\nfrom celbpf_tools.vapctl.inputs import Inputs\nfrom celbpf_tools.manifests.kinds import Resources\n"
    + "import os, tempfile\nfile = os.path.join(tempfile.mkdtemp(), 'm.yaml')\nopen(file, 'w').write(json.load(sys.stdin))\n"
    + "(thing,) = Inputs().things([file])\nprint(Reviews(Resources(), Asked('shop', '', 'ann')).text(thing, '1')[1])";
  const made = reviewOf(readDocuments(MANIFEST), { operation: "CREATE", user: "ann", namespace: "shop" });
  const plain = JSON.parse(JSON.stringify(made, (_, one) => (typeof one === "bigint" ? Number(one) : one)));
  assert.deepEqual(plain, python(line, MANIFEST));
  assert.ok(isReview(made));
});

const OPERATIONS = [["CREATE", 2, undefined], ["UPDATE", 2, 1], ["DELETE", undefined, 1]];
for (const [operation, replicas, before] of OPERATIONS) {
  test(`the request of a manifest and of the object before: ${operation}`, () => {
    const things = readDocuments("apiVersion: apps/v1\nkind: Deployment\nmetadata: {name: a}\nspec: {replicas: 2}\n---\napiVersion: apps/v1\nkind: Deployment\nmetadata: {name: a}\nspec: {replicas: 1}\n");
    const { request } = reviewOf(things, { operation, user: "", namespace: "" });
    const of = (object) => (object ? Number(object.spec.replicas) : undefined);
    assert.deepEqual([of(request.object), of(request.oldObject)], [replicas, before]);
  });
}

const NO_REVIEWS = [
  ["a kind that is misspelt", "apiVersion: apps/v1\nkind: Deployement\nmetadata: {name: a}\n", /did you mean apps\/v1 Deployment\?/],
  ["a kind of another group", "apiVersion: v1\nkind: Deployment\nmetadata: {name: a}\n", /Deployment is apps\/v1/],
  ["a label that is a number", "apiVersion: v1\nkind: Pod\nmetadata: {name: a, labels: {a: 1}}\n", /labels\["a"\] is 1, which is not a text; write it in quotes/],
  ["a fraction", "apiVersion: v1\nkind: Pod\nmetadata: {name: a}\nspec: {a: 1.5}\n", /spec\.a is 1\.5: policies read 64-bit ints alone/],
  ["no object", "- a\n", /neither an AdmissionReview nor an object/],
];
for (const [name, review, words] of NO_REVIEWS) {
  test(`a manifest of which no review is made: ${name}`, ASKING, () => {
    const { outcome, troubles } = explaining({ policy: policyOf("true"), review }).decision();
    assert.deepEqual([outcome, troubles.map((one) => one.field)], ["unread", ["review"]]);
    assert.match(troubles[0].words, words);
  });
}

const POLICY = `${HEAD}  validations: [{expression: "true"}]\n`;
const DEPLOYMENT = "apiVersion: apps/v1\nkind: Deployment\nmetadata: {name: web}\n";
const OTHERS = [
  ["two policies", { policy: `${POLICY}---\n${POLICY}`, review: DEPLOYMENT }, "policy", 7, /one policy is decided at a time, and ValidatingAdmissionPolicy x is another one/],
  ["two objects", { policy: POLICY, review: `${DEPLOYMENT}---\n# c\n${DEPLOYMENT.replace("web", "b")}` }, "review", 6, /and Deployment b is another one/],
  ["an object before, as one is created", { policy: POLICY, review: `${DEPLOYMENT}---\n${DEPLOYMENT}` }, "review", 5, /only for UPDATE and DELETE/],
  ["another name, as one is updated", { policy: POLICY, operation: "UPDATE", review: `${DEPLOYMENT}---\n${DEPLOYMENT.replace("web", "b")}` }, "review", 5, /of the same name/],
  ["a list of two", { policy: POLICY, review: "kind: List\nitems:\n- {apiVersion: apps/v1, kind: Deployment, metadata: {name: a}}\n- {apiVersion: apps/v1, kind: Deployment, metadata: {name: b}}\n" }, "review", 4, /and Deployment b is another/],
  ["two reviews", { policy: POLICY, review: `${reviewed({})}\n`.replace(/^/, "---\n").concat("---\n", reviewed({})) }, "review", 4, /one review is decided at a time/],
  ["two namespaces", { policy: POLICY, review: DEPLOYMENT, namespace: "kind: Namespace\n---\nkind: Namespace\n" }, "namespace", 3, /one document belongs here/],
];
for (const [name, given, field, line, words] of OTHERS) {
  test(`what is beside the one that is decided is refused: ${name}`, ASKING, () => {
    const { outcome, troubles } = explaining(given).decision();
    assert.deepEqual([outcome, troubles.map((one) => [one.field, one.line])], ["unread", [[field, line]]]);
    assert.match(troubles[0].words, words);
  });
}

test("what is beside a policy is named, and places are those of the policy", ASKING, () => {
  const binding = "kind: ValidatingAdmissionPolicyBinding\nmetadata: {name: b}\n", policy = `${HEAD}  validations: [{expression: "objct"}]\n`;
  const case_ = explaining({ policy: `${binding}---\n${policy}---\n${binding}`, review: DEPLOYMENT });
  assert.deepEqual([case_.decision().notices, case_.refusals().map((one) => one.line)], [
    [1, 10].map((line) => `Left out: ValidatingAdmissionPolicyBinding b in line ${line} of the policy. Only the policy is decided.`), [8],
  ]);
});

const PLACED = [
  ["a fraction", { review: `${DEPLOYMENT}status:\n  x: 0.5\n` }, ["review", 5, 3], /^status\.x is 0\.5/],
  ["a label that is a number", { review: `${DEPLOYMENT.replace("}", ", labels: {a: 1}}")}` }, ["review", 3, 32], /labels\["a"\] is 1/],
  ["a fraction of the object before", { review: `${DEPLOYMENT}---\n${DEPLOYMENT}spec:\n  x: 0.5\n`, operation: "UPDATE" }, ["review", 9, 3], /^oldObject\.spec\.x is 0\.5/],
  ["a kind", { review: DEPLOYMENT.replace("Deployment", "Depoyment") }, ["review", 2, 1], /did you mean/],
  ["a namespace that is a list", { review: DEPLOYMENT, namespace: "\n- a\n" }, ["namespace", 2, 1], /^it is a list, and has to be a map$/],
  ["an annotation that is a fraction", { review: DEPLOYMENT, namespace: "metadata:\n  annotations:\n    a: 1.5\n" }, ["namespace", 3, 5], /^metadata\.annotations\.a is 1\.5/],
  ["params with a number that is too large", { review: DEPLOYMENT, params: "{\"a\":\n 9223372036854775808}" }, ["params", 1, 2], /^a is 9223372036854775808/],
  ["a review of another version", { review: "{\n\"kind\": \"AdmissionReview\",\n\"apiVersion\": \"admission.k8s.io/v1beta1\", \"request\": {\"uid\": \"1\"}}" }, ["review", 3, 1], /v1beta1, and has to be admission\.k8s\.io\/v1/],
  ["a response", { review: "apiVersion: admission.k8s.io/v1\nkind: AdmissionReview\nresponse: {uid: '1', allowed: true}\n" }, ["review", 3, 1], /it is the response/],
];
for (const [name, given, place, words] of PLACED) {
  test(`the field and the place of what cannot be used: ${name}`, ASKING, () => {
    const { outcome, troubles: [one, ...others] } = explaining({ policy: POLICY, ...given }).decision();
    assert.deepEqual([outcome, [one.field, one.line, one.column], others], ["unread", place, []]);
    assert.match(one.words, words);
  });
}

test("a division by zero is told", ASKING, () => {
  const [part] = explaining({ policy: policyOf("1 / object.n == 0"), review: reviewed({ n: 0 }) }).explanation().parts;
  assert.match(JSON.stringify(part.tree, (_, one) => (typeof one === "bigint" ? String(one) : one)), /"origin":"it divides by zero"/);
});

const NAMESPACES = [
  ["of another name", "kind: Namespace\nmetadata: {name: dev}\n", "The field Namespace object has dev, and the namespace of the request is default."],
  ["of another kind", "kind: Pod\nmetadata: {name: default}\n", "The field Namespace object has a Pod, and not a Namespace."],
];
for (const [name, namespace, words] of NAMESPACES) {
  test(`a namespace object ${name} is told`, ASKING, () => assert.deepEqual(explaining({ policy: POLICY, review: DEPLOYMENT, namespace }).decision().notices, [words]));
}

test("an object before that is a copy is told, if it is read", ASKING, () => {
  const policy = `${HEAD}  validations: [{expression: object == oldObject}]\n`, given = { policy, review: DEPLOYMENT, operation: "UPDATE" };
  assert.match(explaining(given).decision().notices.join(), /^The policy reads oldObject, which is a copy of the object/);
  assert.deepEqual(explaining({ ...given, review: `${DEPLOYMENT}---\n${DEPLOYMENT}` }).decision().notices, []);
});

test("quantities are stored as the tools store them", () => {
  const texts = ["0.5", "1", "1.5", "0.0001", "1e3", "1E3", "1e-3", "1000m", "1024Mi", "1.5Gi", "1023", "-1.5", "+5", "00012", "12345678901234567890", "1000k", "16Ei",
    "0Ki", "abc", "1x", "", "0.0015", "9223372036854775808", "1.123456789012", "1500u", "1.25Mi", "1e1000", " 1 "];
  const wanted = python("from celbpf_tools.vapctl.quantity_texts import stored\nprint(json.dumps([[stored(one), stored(one, True)] for one in json.load(sys.stdin)]))", texts);
  assert.deepEqual(texts.map((one) => [stored(one), stored(one, true)]), wanted);
});

test("words that are alike are those of Python's difflib", () => {
  const known = ["object", "oldObject", "params", "namespaceObject", "request", "variables", "startsWith", "size", "exists"];
  const words = ["objct", "oldobject", "param", "namespace", "reqest", "x", "starsWith", "siz", "exist", "exsts", "variable"];
  const wanted = python("import difflib\nknown, words = json.load(sys.stdin)\nprint(json.dumps([(difflib.get_close_matches(one, known, 1, 0.75) or [''])[0] for one in words]))", [known, words]);
  assert.deepEqual(words.map((one) => closest(one, known)), wanted);
});

const REFUSALS = [
  ["a name", "  validations:\n  - expression: objct.a == 1\n", 6, 17, "`objct` is no name here", "`object`"],
  ["operands", "  validations:\n  - expression: object.a == 1 && 1 + 'a' == 2\n", 6, 34, "`+` takes two ints, two texts or two lists; `1` is an int, `'a'` is a text", ""],
  ["an operator", "  validations:\n  - expression: object.a and object.b\n", 6, 26, "`and` is no operator here", "`&&`"],
  ["a function", "  validations:\n  - expression: object.a.matches('x')\n", 6, 26, "`matches` is not supported yet", "startsWith, endsWith or contains for a fixed text, `e in ['a', 'b']` for a choice"],
  ["a bracket", "  validations:\n  - expression: (object.a\n", 6, 26, "the `(` in column 1 of the text is not closed", ""],
  ["a key", "  validations:\n  - expression: 'true'\n    mesage: x\n", 7, 5, "no such key; there is `message`", ""],
  ["a part that is no bool", "  validations:\n  - expression: \"'a'\"\n", 6, 18, "a condition or validation is known to be no bool", "a comparison, such as `e == 'a'`"],
  ["a name twice", "  variables: [{name: a, expression: '1'}, {name: a, expression: '2'}]\n  validations:\n  - expression: 'true'\n", 5, 44, "the name `a` is that of item 0 of variables too", ""],
  ["no validation", "  validations: []\n", 4, 1, "there is no validation", ""],
  ["annotations", "  auditAnnotations: [{key: a, valueExpression: \"'x'\"}]\n  validations:\n  - expression: 'true'\n", 5, 3, "audit annotations are not supported yet: leave them out, and their values are not computed", ""],
];
for (const [name, spec, line, column, words, hint] of REFUSALS) {
  test(`a refusal: ${name}`, ASKING, () => {
    const case_ = explaining({ policy: HEAD + spec, review: reviewed({}) });
    assert.equal(case_.decision().outcome, "refused");
    const [found] = case_.refusals();
    assert.deepEqual({ line: found.line, column: found.column, words: found.words, hint: found.hint }, { line, column, words, hint });
  });
}

const BINDING = "apiVersion: admissionregistration.k8s.io/v1\nkind: ValidatingAdmissionPolicyBinding\nmetadata: {name: b}\nspec: {policyName: x}\n";
test("a policy beside its binding is found, with the places of its text", ASKING, () => {
  const policy = `${BINDING}---\n${HEAD}  validations:\n  - expression: objct.a\n`;
  assert.deepEqual(explaining({ policy, review: reviewed({}) }).refusals().map((one) => [one.line, one.column]), [[11, 17]]);
  const { troubles } = explaining({ policy: BINDING, review: reviewed({}) }).decision();
  assert.equal(troubles[0].words, "it is no ValidatingAdmissionPolicy, but a ValidatingAdmissionPolicyBinding");
});

test("all that is refused is told, each once", ASKING, () => {
  const policy = `${HEAD}  variables:\n  - {name: a, expression: nothing}\n  validations:\n  - expression: variables.a && objct.b\n  - expression: object.c == foo\n`;
  const found = explaining({ policy, review: reviewed({}) }).refusals();
  assert.deepEqual(found.map((one) => [one.title, one.line, one.words]), [["variable 0 a", 6, "`nothing` is no name here"], ["validation 0", 8, "`objct` is no name here"], ["validation 1", 9, "`foo` is no name here"]]);
});

const HOSTILE = [
  ["4,094 signs", policyOf(`${"!".repeat(4094)}object.a`), reviewed({ a: true })],
  ["4,000 brackets", policyOf(`${"(".repeat(4000)}true${")".repeat(4000)}`), reviewed({})],
  ["a policy nested deep", "[".repeat(100000), reviewed({})],
  ["a review nested deep", policyOf("true"), `{"apiVersion":"admission.k8s.io/v1","kind":"AdmissionReview","request":{"uid":"1","object":${"[".repeat(100000)}${"]".repeat(100000)}}}`],
  ["a text of five million bytes", policyOf("size(object.a) == 5000000"), reviewed({ a: "x".repeat(5000000) })],
  ["loops in loops", policyOf("object.l.all(a, object.l.all(b, object.l.all(c, object.l.all(d, object.l.all(e, a + b + c + d + e >= 0)))))"), reviewed({ l: Array.from({ length: 40 }, (_, n) => n) })],
];
for (const [name, policy, review] of HOSTILE) {
  test(`hostile: ${name}: an answer or a message, and the next decision is right`, ASKING, () => {
    const decision = explaining({ policy, review }).decision();
    assert.ok(["allowed", "refused", "undecided", "unread"].includes(decision.outcome), decision.outcome);
    assert.ok(decision.outcome === "allowed" || decision.words || decision.troubles[0].words);
    assert.equal(explaining({ policy: policyOf("object.n == 1"), review: reviewed({ n: 1 }) }).decision().outcome, "allowed");
  });
}

test("a session answers its commands", ASKING, () => {
  const case_ = explaining({ policy: policyOf("object.n == 1"), review: reviewed({ n: 2 }) });
  assert.equal(case_.replies("v 4\ng 1\nnothing"), 'value 4 {"n":2}\nstep 1 pc 1 running\n? what');
});

test("what a decision lacks is told", ASKING, () => {
  const policy = `${HEAD}  paramKind: {apiVersion: v1, kind: ConfigMap}\n  matchConstraints: {resourceRules: [{apiGroups: [''], apiVersions: [v1], operations: [CREATE], resources: [pods]}]}\n`
    + "  validations: [{expression: 'request.userInfo.username == params.a || namespaceObject == null'}]\n";
  assert.deepEqual(explaining({ policy, review: MANIFEST }).decision().notices, [
    "Its matchConstraints have no rule for deployments: a cluster does not ask this policy.", "The policy has a paramKind, and there are no params, so params is null.",
    "The policy reads request.userInfo, which the request has if you name a user.", "The policy reads namespaceObject, which is null: it is what the field Namespace object has.",
  ]);
});

const FAULTY = [
  ["a validation", { spec: "  validations: [{expression: object.spec.replicas <= 5}]\n" }, "denied", "Validation 0 is an error, which denies the request: in `object.spec.replicas` there is no field replicas."],
  ["a false one beside it", { spec: "  validations: [{expression: object.n == 1}, {expression: object.m == 1}]\n" }, "denied",
    "At least one validation denies the request. Validation 1 is an error, which denies the request: in `object.m` there is no field m."],
  ["a variable", { spec: "  variables: [{name: v, expression: object.m}]\n  validations: [{expression: variables.v == 1}]\n" }, "denied",
    "Validation 0 is an error, which denies the request: variable 0 v is the error: in `object.m` there is no field m."],
  ["Ignore", { spec: "  failurePolicy: Ignore\n  validations: [{expression: object.m == 1}]\n" }, "allowed",
    "No validation denies the request. Validation 0 is an error, which failurePolicy Ignore lets pass: in `object.m` there is no field m."],
  ["a condition", { spec: "  matchConditions: [{name: a, expression: object.m == 1}]\n  validations: [{expression: 'true'}]\n" }, "denied",
    "Condition 0 a is an error, so the request is rejected: in `object.m` there is no field m."],
  ["a condition with Ignore", { spec: "  failurePolicy: Ignore\n  matchConditions: [{name: a, expression: object.m == 1}]\n  validations: [{expression: 'true'}]\n" }, "allowed",
    "Condition 0 a is an error, and by failurePolicy Ignore the policy then does not apply: in `object.m` there is no field m."],
  ["none", { spec: "  validations: [{expression: object.n == 1}]\n" }, "denied", "At least one validation denies the request."],
];
for (const [name, { spec }, outcome, words] of FAULTY) {
  test(`an error is told beside the outcome: ${name}`, ASKING, () => {
    const case_ = explaining({ policy: HEAD + spec, review: reviewed({ n: 2, spec: {} }) });
    assert.deepEqual([case_.decision().outcome, case_.explanation().said], [outcome, words]);
  });
}

test("a condition that is evaluated after the steps of the page is not told as not evaluated", ASKING, () => {
  const policy = `${HEAD}  matchConditions: [{name: a, expression: 'object.l.all(x, x >= 0)'}, {name: b, expression: 'object.l[1] == 2'}]\n  validations: [{expression: 'true'}]\n`;
  const { outcome, parts } = explaining({ policy, review: reviewed({ l: Array.from({ length: 3000 }, (_, place) => place) }) }).explanation();
  assert.deepEqual([outcome, parts.map((part) => [part.title, part.value, part.late, part.decides])], ["skipped", [
    ["condition 0 a", null, true, false], ["condition 1 b", null, true, false], ["validation 0", null, false, false],
  ]]);
});
