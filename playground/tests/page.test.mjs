// The state in the address, and texts that would be markup in a file to keep.

import assert from "node:assert/strict";
import { test } from "node:test";
import { bytesOf, hashOf, stateOf } from "../page/address.js";
import { HELP, usage } from "../page/commands.js";
import { printable } from "../page/dom.js";
import { embedded } from "../page/keeping.js";

const GIVEN = { policy: "a: 1\n\u{1F600} <b>", review: "x".repeat(50000), namespace: "", params: "", operation: "CREATE", user: "", where: "" };

test("a case is found again in the address", async () => {
  const hash = await hashOf({ given: GIVEN, step: 16 });
  assert.match(hash, /^#case=[A-Za-z0-9_-]+&step=16$/);
  assert.ok(hash.length < 600);
  assert.deepEqual(await stateOf(hash), { given: GIVEN, step: 16 });
});

test("an example is found again by its name", async () => {
  const hash = await hashOf({ example: "limits, in YAML", review: "no resources", step: 0 });
  assert.equal(hash, "#example=limits%2C+in+YAML&review=no+resources");
  assert.deepEqual(await stateOf(hash), { example: "limits, in YAML", review: "no resources", step: 0 });
});

const BROKEN = ["", "#", "#case=!!", "#case=AAAA", "#other=1", "#step=3"];
for (const hash of BROKEN) test(`an address without a state: ${hash || "empty"}`, async () => assert.equal(await stateOf(hash), null));

test("bytes in base64", () => assert.deepEqual([...bytesOf("AP8Q")], [0, 255, 16]));

const USAGES = [
  ["help", ["help"], ["? what"], `commands: ${HELP}`], ["a number that is missing", ["c"], ["? what"], "write c N: on to a breakpoint, at most N steps"],
  ["another base", ["m 0 16"], ["? what"], "write m A L: L bytes of memory from A on, as m 0x300000000 16"],
  ["one of two", ["r", "s"], ["r0 0", "? what"], `commands: ${HELP}`], ["none", ["r"], ["r0 0"], ""], ["a number out of range", ["s 0"], ["? range"], ""],
];
for (const [name, lines, replies, words] of USAGES) test(`the usage after commands: ${name}`, () => assert.equal(usage(lines, replies), words));

test("texts that would be markup", () => {
  const text = embedded({ "</script>": "<!-- \u2028 & \u{1F600}" });
  assert.ok(/^[\x20-\x7e]*$/.test(text) && !/[<>&]/.test(text));
  assert.deepEqual(JSON.parse(text), { "</script>": "<!-- \u2028 & \u{1F600}" });
  assert.equal(printable("a\u202eb\0\n\u00a0"), "a\\u202eb\\u0000\n\\u00a0");
});
