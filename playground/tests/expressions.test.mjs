// Expressions in pieces and as trees, beside those of the tools.

import assert from "node:assert/strict";
import { readdirSync, readFileSync, existsSync } from "node:fs";
import { join } from "node:path";
import { test } from "node:test";
import { isSame, readNode, textOf, treeKey } from "../cel/nodes.js";
import { cut, cutNarrow, tryCut } from "../cel/splitter.js";
import { python, ROOT } from "./giving.mjs";

const TEXTS = [
  "object.a && !object.b || -object.c < 3", "a ? b : c ? d : e", "object.?a.orValue(1)[?'x'].b", "[1, ?object.?a, [2]]", "{'a': 1, ?'b': object.?c}", "object.l.all(k, v, k == v)",
  "object.l.map(x, x > 1, x + 1)", "sets.contains([1], object.l)", "optional.of(1).optMap(v, v + 1).orValue(0)", "has(object.a.b)", "variables.x.y[0].z('a', 1)", ".5e3 + 1u + 0x1F", "b'x' + r\"\\d\" + '''a\nb'''",
  "object.`a-b/c`", "- 5 - -3", "(a + (b))", "a // comment\n && b", "size(object.a) in [1, 2,]", "cel.bind(x, 1, x)", "a..b", "", "(a", "a b", "'abc", "object.a.all(1, x)", "object.a.existsOne(x, x)", "!!!a", "--a",
];
const CUT = `
from celbpf_tools.asking import splitter, wide_splitter
def shown(piece):
    if piece is None:
        return None
    optional = [[one.begin, one.end] for one in getattr(piece, "optional", [])]
    parts = [shown(part) for part in piece.parts]
    return [piece.begin, piece.end, piece.kind, piece.word, piece.name, piece.form, optional, parts]
def tried(cut, text):
    try:
        return cut(text)
    except (splitter.NotCut, IndexError):
        return None
print(json.dumps([[shown(tried(splitter.cut, one)), shown(tried(wide_splitter.cut, one))] for one in json.load(sys.stdin)]))`;

/** A piece as lists. */
function shown(piece) {
  if (!piece) return null;
  const { begin, end, kind, word, name, form, optional, parts } = piece;
  return [begin, end, kind, word, name, form, optional.map((one) => [one.begin, one.end]), parts.map(shown)];
}

/** The pieces of a text of the profile, or null. */
function narrow(text) {
  try {
    return cutNarrow(text);
  } catch {
    return null;
  }
}

/** All expressions of the examples. */
function examples() {
  const folder = join(ROOT, "examples", "policies"), found = [];
  for (const name of readdirSync(folder).filter((one) => existsSync(join(folder, one, "policy.json")))) {
    const { variables = [], matchConditions = [], validations } = JSON.parse(readFileSync(join(folder, name, "policy.json"), "utf8")).spec;
    found.push(...[...variables, ...matchConditions, ...validations].flatMap((one) => [one.expression, one.messageExpression ?? "true"]));
  }
  return found;
}

test("texts are cut as the tools cut them", () => {
  const texts = [...TEXTS, ...examples()], wanted = python(CUT, texts);
  texts.forEach((text, place) => assert.deepEqual([shown(narrow(text)), shown(tryCut(text))], wanted[place], text));
});

test("a text that is nested too deep is not cut", () => assert.equal(tryCut(`${"(".repeat(100000)}a${")".repeat(100000)}`), null));

const LITERALS = [["'a\\n\\x41\\u00e9\\101\\''", "a\nA\u00e9A'"], ["r'a\\n'", "a\\n"], ["\"\\U0001F600\"", "\u{1F600}"]];
for (const [spelled, value] of LITERALS) test(`the literal ${spelled}`, () => assert.equal(textOf(spelled), value));

test("numbers", () => assert.deepEqual(["0x10", "- 5", "9223372036854775807"].map((one) => readNode(one).value), [16n, -5n, 9223372036854775807n]));

test("texts with one tree", () => {
  assert.ok(isSame("object.a<=3", "((object.a) <= 3)") && isSame("'a'", "\"a\"") && !isSame("1", "'1'") && !isSame("a.b", "has(a.b)"));
  assert.equal(treeKey("object.?a"), "");
  assert.equal(cut("a.?b").word, "?");
});
