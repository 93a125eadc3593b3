// What is refused in policies, beside `vapctl lint`, which asks the programs.

import assert from "node:assert/strict";
import { spawnSync } from "node:child_process";
import { mkdtempSync, readFileSync, rmSync, writeFileSync } from "node:fs";
import { tmpdir } from "node:os";
import { join } from "node:path";
import { test } from "node:test";
import { EMPTY } from "../explain/case.js";
import { Explaining } from "../explain/explaining.js";
import { CALLS, programOf, ROOT } from "./giving.mjs";

const HEAD = "apiVersion: admissionregistration.k8s.io/v1\nkind: ValidatingAdmissionPolicy\nmetadata:\n  name: x\nspec:\n";
const EXPRESSIONS = [
  "objct.spec.replicas <= 3", "object.spec.replicas <= 'a' + 1", "1 + 'a' == 2", "object.spec.replicas = 3", "object.a & object.b",
  "object.a | object.b", "object.a and object.b", "not object.a", "if object.a then true else false", "object.a ?? 1", "object?.a", "object.a <> 1",
  "object.a in ('a', 'b')", "(object.a", "object.a)", "[object.a", "object.labels.my-app == 'x'", "object.a.length() == 3", "object.a.matches('x')",
  "object.a.split(',')[0] == 'a'", "size(1) == 1", "size() == 1", "object.a.startsWith() ", "'a'.startsWith(1)", "object.a.strtsWith('x')",
  "object.a.exist(x, x == 1)", "object.items.any(x, x.y == 1)", "object.items.every(x, x.y == 1)", "object.items.all(x)",
  "object.items.all(1, true)", "object.items.all(celbpf_x, true)", "has(object)", "has(object.a, 1)", "1.5 < object.a", "1u + 2u == 3u",
  "b'abc' == object.a", "object.?a", "object.?a.orValue(1) == optional.of(1)", "object.a.orValue(1)", "optional.of(object.a)", "variables.x == 1",
  "variables.nope == 1", "authorizer.group('apps').resource('deployments').check('create').allowed()", "cel.bind(x, 1, x == 1)",
  "math.greatest(1, 2) == 2", "object.a.transformMap(k, v, v)", "object.a.all(k, v, v == 1)", "(object.a + object.b).all(i, v, i == 1)", "(object.a + object.b).exists(v, v.all(i, x, i == x))", "object.a.all(k, v, k != v) && object.?b", "object.l.map(x, object.a.all(k, v, k != v) && object.?b)",
  "object.a.transformList(k, v, k == 1u + v, k) == object.?b", "object.?a.optMap(d, d.all(k, v, k != v))", "object.map(k, v, v)", "type(object.a) == string",
  "int(object.a) == 1", "string == 'a'", "sets == 1", "'abc", "\"abc", "'\\q' == object.a", "'a\\u12' == object.a",
  "99999999999999999999 == object.a", "object.a == 1 2", "object.a..b", "object.a.", ".object", "object.a ? 1 : 'x'", "object.a ? true", "!1",
  "-'a' == 1", "-object == 1", "object['a'][1 > 2]", "{1: 2}.a == 1", "{'a': 1, 'b'} == 1", "object.items.filter(x, x + 1)",
  "object.items.exists_one(x, x)", "object.items.existsOne(x, x)", "object.items.map(x, y, z)", "unknown(object.a)", "object.a.unknown()",
  "url(object.a).getHost() == 'x'", "quantity(object.a).isGreaterThan(quantity('1'))", "object.a == duration('1h')", "object.a in 1", "'a' in 'b'",
  "1 in {}", "null.a == 1", "true && 1", "1 || true", "object.a == null || nothing", "[1, 'a'] == [1]", "size(object.a) == 'a'",
  "object.spec.containers.all(c, c.image.startsWith('x') && c.nme == foo)", "object.spec.containers.all(c, c.image.strtsWith('x') && objct)",
  "object.a.indexOf('a') == 1 && object.b.trim() == 'x'", "string(object.a) + 1 == 'x'", "  object.b =! 1", "object.a && // comment",
  "oldObjct == 1 && reqest.name == 'a' && prams.x", "namespaceObjct.metadata", "request.userInfo.name == usr", "\"a\" + 1",
  "object.metadata.name.?x", "optional.none()", "[?object.?a] == []", "{?'a': object.?a} == {}", "{?'a': object.a} == {}", "dyn(1)", "'a'", "1",
  "null", "[]", "object.a % 'x' == 1", "'a' * 2 == 1", "'a' - 'b' == 1", "'a' < 1", "true < 1", "[1] < [2]", "object.x.y(1, 2, 3)",
  "string() == 'a'", "string(1, 2) == 'a'", "size(object.a, object.b) == 1", "has(object.a.b().c)", "has(object[0])", "object.a['x' + 1]",
  "“a” == object.a", "a^b", "$x", "@x", "#x", "object.a \\n == 1",
];
const SPECS = [
  "  variables:\n  - name: w\n    expression: object.a.transformList(k, v, k)\n  - name: f\n    expression: object.a + object.b\n  validations:\n"
    + "  - expression: variables.w == object.?d\n  - expression: variables.w.all(i, x, i > 0)\n  - expression: variables.f.all(i, x, i > 0)\n    messageExpression: variables.w[0].trim()\n",
  "  validation: []\n", "  validations:\n  - expresion: 'true'\n", "  validations:\n  - expression: 'true'\n    reason: No\n", "  validations:\n  - expression: 'true'\n    mesage: x\n",
  "  failurePolicy: fail\n  validations:\n  - expression: 'true'\n", "  validations:\n  - expression: true\n", "  validations:\n  - expression: 'true'\n    message: \"a\\nb\"\n",
  "  validations: x\n", "  variables:\n  - name: 1a\n    expression: 'true'\n  validations:\n  - expression: 'true'\n", "  variables:\n  - expression: 'true'\n  validations:\n  - expression: 'true'\n",
  "  matchConditions:\n  - name: a b\n    expression: 'true'\n  validations:\n  - expression: 'true'\n", "  matchConditions:\n  - name: ab\n    expression: variables.x\n  validations:\n  - expression: 'true'\n",
  "  validations:\n  - expression: 'true'\n    messageExpression: '1'\n", "  validations:\n  - expression: '1'\n  - expression: 'nope'\n", "  validations:\n  - {}\n", "  unknown: 1\n  validations:\n  - expression: 'true'\n",
  `  validations:\n${"  - expression: 'true'\n".repeat(65)}`, `  validations:\n  - expression: '${Array.from({ length: 200 }, (_, place) => `object.a${place}`).join(" && ")}'\n`,
];
const POLICIES = [...EXPRESSIONS.map((one) => `${HEAD}  validations:\n    - expression: ${JSON.stringify(one)}\n`), ...SPECS.map((spec) => HEAD + spec)];

/** What `vapctl lint` finds in each policy. */
function linted() {
  const folder = mkdtempSync(join(tmpdir(), "playground-")), policies = join(folder, "policies");
  try {
    spawnSync("mkdir", [policies]);
    POLICIES.forEach((text, place) => writeFileSync(join(policies, `${place}.yaml`), text));
    const words = ["lint", "-o", `json=${join(folder, "found.json")}`, "--program", programOf("celbpf"), "--gatekeeper", programOf("gatekeeper"), policies];
    spawnSync(join(ROOT, "vapctl"), words);
    const { refusals } = JSON.parse(readFileSync(join(folder, "found.json"), "utf8"));
    return POLICIES.map((_, place) => refusals.filter((one) => one.file.endsWith(`/${place}.yaml`)));
  } finally {
    rmSync(folder, { recursive: true });
  }
}

const isAsked = CALLS !== null && programOf("celbpf") !== "" && programOf("gatekeeper") !== "";
test("refusals are told as `vapctl lint` tells them", isAsked ? {} : { skip: "there are no programs" }, () => {
  const wanted = linted();
  POLICIES.forEach((policy, place) => {
    const found = new Explaining(CALLS, { ...EMPTY, policy, review: "kind: AdmissionReview\nrequest: {uid: a}" }).refusals();
    const mine = found.map(({ line, column, title, words, code, hint }) => `${line}:${column} ${title}: ${words} (${code}) write ${hint}`).sort();
    const theirs = wanted[place].map(({ line, column, message, write = "" }) => `${line}:${column} ${message} write ${write}`).sort();
    assert.deepEqual(mine, theirs, policy);
  });
});
