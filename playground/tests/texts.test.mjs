// Documents in JSON and YAML, beside the readers of the tools.

import assert from "node:assert/strict";
import { execFileSync } from "node:child_process";
import { readFileSync } from "node:fs";
import { join } from "node:path";
import { test } from "node:test";
import { readDocuments } from "../texts/documents.js";
import { Fault, laidOut, lineColumn, readJson, writeJson } from "../texts/json.js";
import { keyMark, readYaml } from "../texts/yaml.js";
import { python, ROOT } from "./giving.mjs";
import { ODD } from "./odd_yaml.mjs";
import { spoiled } from "./seeded_yaml.mjs";

const READ = `
from celbpf_tools.documents import Unreadable, yaml_of
found = []
for text in json.load(sys.stdin):
    try:
        found.append(json.dumps(json.dumps(yaml_of(text, "x"), ensure_ascii=False, allow_nan=False)))
    except (Unreadable, ValueError):
        found.append("null")
print(f"[{', '.join(found)}]")`;

// what the tools read and the page refuses: anchors, aliases, tags, directives, other keys, and what JSON does not have
const STRICTER = /names \((anchors|aliases)\)|as a tag|keys after|`<<` is not read|JSON has no|needs braces|lines that begin with|is not closed|not on the line of its|needs a blank|in brackets begins with/;

/** What the reader of YAML finds, as JSON, or why it refuses the text. */
function found(text) {
  try {
    return { json: writeJson(readYaml(text)), words: "" };
  } catch (fault) {
    if (fault instanceof Fault) return { json: null, words: fault.words };
    throw fault;
  }
}

/** Compares what the reader finds with what the tools find; how many texts the page alone refuses. */
function compared(texts) {
  const wanted = python(READ, texts);
  return texts.filter((text, place) => {
    const { json, words } = found(text), theirs = wanted[place] === null ? null : writeJson(readJson(wanted[place]));
    if (json === null && theirs !== null) assert.match(words, STRICTER, JSON.stringify(text));
    else assert.equal(json, theirs, JSON.stringify(text));
    return json === null && theirs !== null;
  }).length;
}

/** The texts in YAML of the repository. */
function files() {
  const names = execFileSync("git", ["ls-files", "*.yaml", "*.yml"], { cwd: ROOT, encoding: "utf8" }).trim().split("\n");
  return names.map((name) => readFileSync(join(ROOT, name), "utf8").replaceAll("\r\n", "\n"));
}

test("YAML is read as the tools read it", () => {
  assert.ok(compared([...ODD, ...files()]) <= 12);
});

test("YAML from a seed is read as the tools read it", () => {
  const texts = spoiled([...ODD, ...files().filter((text) => text.length < 3000)], 1500, 7);
  // half a pair of surrogates is no text in UTF-8
  compared(texts.filter((text) => !/[\ud800-\udfff]/u.test(text)));
});

const FAULTS = [
  ["a colon in a text", "a: b: c\n", "a text has `: ` in it; put it into quotes", 1, 5],
  ["a tab", "a:\n\tb: 1\n", "a tab is no indentation; write blanks", 2, 1],
  ["a key twice", "a: 1\nb: 2\na: 3\n", "the key 'a' of line 1 is repeated", 3, 1],
  ["an anchor", "a: &x 1\n", "a text begins with `&`, and names (anchors) are not read here; put it into quotes, or write the value again", 1, 4],
  ["a tag", "expression: !has(a)\n", "a text begins with `!`, which is read as a tag; put it into quotes", 1, 13],
  ["a quote that is open", "a: \"x\n", "the quoted text that begins in line 1 does not end", 2, 1],
  ["a bracket that is open", "a: [1\n", "the `[` of line 1 is not closed, or a comma is missing", 2, 1],
  ["a comma in JSON", "{\"a\": 1 \"b\": 2}", "a comma or `}` is missing", 1, 9],
  ["JSON that ends", "{\"a\": [1, 2}", "a comma or `]` is missing", 1, 12],
  ["text after JSON", "{} x", "text follows the end of the value", 1, 4],
];
for (const [name, text, words, line, column] of FAULTS) {
  test(`a fault: ${name}`, () => {
    assert.throws(() => readDocuments(text), (fault) => {
      assert.deepEqual({ words: fault.words, ...lineColumn(text, fault.at) }, { words, line, column });
      return true;
    });
  });
}

const COMMENTS = [
  ["single quotes", "- name: 'a' # first\n  b: 1\n", '[{"name":"a","b":1}]'], ["double quotes", "a: \"x\"  # c\nb: 'y' # d", '{"a":"x","b":"y"}'],
  ["an item", "- 'a' # c\n- \"b\"\n", '["a","b"]'], ["brackets", "a: ['x' # c\n  , z] # d\nb: {c: \"d\"} # e\n", '{"a":["x","z"],"b":{"c":"d"}}'],
  ["a key", "'a' : \"b\" # c\n", '{"a":"b"}'],
];
for (const [name, text, json] of COMMENTS) test(`a comment after a quoted text: ${name}`, () => assert.equal(writeJson(readYaml(text)[0]), json));

test("a sign right after a quoted text begins no comment", () => assert.throws(() => readYaml("a: 'b'#c\n"), Fault));

const LONG = 1_000_000;
const LONG_TEXTS = [
  ["double quotes", `a: "${"x".repeat(LONG)}"\n`], ["single quotes", `a: '${"x".repeat(LONG)}'\n`], ["words in quotes", `a: "${"it's a ".repeat(LONG / 7)}"\n`],
  ["escapes", `a: "${"\\n".repeat(LONG / 2)}"\n`], ["a plain text", `a: ${"x".repeat(LONG)}\n`], ["brackets on a line", `a: {${Array.from({ length: LONG / 20 }, (_, n) => `k${n}: "x"`)}}\n`],
];
for (const [name, text] of LONG_TEXTS) {
  test(`a long text is read in time that grows as it does: ${name}`, () => {
    const begin = performance.now();
    readYaml(text, []);
    // what reads a line again for each character takes minutes
    assert.ok(performance.now() - begin < 3000);
  });
}

test("JSON nested deep is told, and no fault of the reader", () => {
  assert.throws(() => readDocuments("[".repeat(100000)), Fault);
  assert.throws(() => readDocuments("a:\n".repeat(1) + Array.from({ length: 400 }, (_, n) => `${" ".repeat(n)}a:\n`).join("")), Fault);
});

test("JSON is laid out as JSON.stringify lays it out", () => {
  const value = { a: [1, { b: "x\n" }, [], {}], c: null, "d e": true };
  assert.equal(laidOut(readJson(JSON.stringify(value))), JSON.stringify(value, null, 2));
});

test("ints stay exact, and objects have no prototype", () => {
  assert.equal(writeJson(readJson("[9223372036854775807, -1, 1.5, 1e3, \"\\u00e9\", {\"__proto__\": 1}]")), '[9223372036854775807,-1,1.5,1000,"é",{"__proto__":1}]');
});

const PLACES = [
  ["a plain text", "spec:\n  expression: object.a <= 3\n", 0, 2, 15], ["in it", "spec:\n  expression: object.a <= 3\n", 9, 2, 24],
  ["a quoted text", "spec:\n  expression: \"a \\\"b\\\" c\"\n", 2, 2, 18], ["after an escape", "spec:\n  expression: \"a \\\"b\\\" c\"\n", 4, 2, 21],
  ["single quotes", "spec: {expression: 'a ''b'}\n", 3, 1, 25], ["a block", "spec:\n  expression: |\n    object.a\n    && b\n", 9, 4, 5],
  ["a block that is folded", "spec:\n  expression: >-\n    object.a\n    && b\n", 9, 4, 5], ["JSON", "{\"spec\": {\"expression\": \"a \\n b\"}}", 4, 1, 31],
];
for (const [name, text, at, line, column] of PLACES) {
  test(`the place of a character: ${name}`, () => {
    const all = [];
    readDocuments(text, all);
    const { origins } = all[0].get(JSON.stringify(["spec", "expression"]));
    assert.deepEqual(lineColumn(text, origins[at]), { line, column });
  });
}

test("the place of a key", () => {
  const all = [];
  readDocuments("---\n---\na: 1\nspec:\n  b: 2\n---\na: 1\n", all);
  assert.deepEqual([all.length, all[0].get(keyMark(["spec", "b"])).at, all[1].get(keyMark(["a"])).at], [2, 21, 30]);
});
