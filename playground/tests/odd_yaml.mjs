// Texts in YAML, as people and tools write them and as they get them wrong.

export const ODD = [
  "", "\n\n", "# only a comment\n", "---\n", "a: 1", "a: 1\n", "a:\n", "a: ~\nb: null\nc: Null\nd: NULL\n", "a: yes\nb: No\nc: on\nd: OFF\n",
  "a: y\nb: N\nc: n\nd: Y\ne: yess\n", "a: 010\nb: 0x1F\nc: 0b101\nd: 0o17\ne: 08\nf: 1_000\n", "a: +1\nb: -1\nc: -0x10\nd: +0\n",
  "a: 1.5\nb: 3.0\nc: 1e3\nd: 1e400\ne: .5\nf: 5.\ng: -2.5e-3\n", "a: 18446744073709551615\nb: 0xFFFFFFFFFFFFFFFFF\n",
  "a: 9223372036854775808\n", "a: 1:30\nb: 2026-11-26\nc: =\nd: 12:30:45\n", "a: .inf\n", "1: a\ntrue: b\nnull: c\n1.0: d\n", "yes: a\ntrue: b\n",
  "a: 1\na: 2\n", "a: {b: 1, b: 2}\n", "a:\n- 1\n- 2\n", "a:\n  - 1\n  - b: 2\n    c: 3\n  -\n    d: 4\n  - - 5\n    - 6\n", "- a\n-\n- b\n",
  "a: b: c\n", "message: no: way\n", "a: b\n  c: d\n", "a: b\n c\n d\n", "a: b\n\n  c\n\n\n  d\ne: f\n", "a: b # comment\n", "a: b#c\n", "a: #c\n", "a: 'it''s'\n",
  "a: \"x\\n\\t\\u00e9\\x41\\\"\\\\\"\n", "a: \"x \\\n   y\"\n", "a: \"x\n  y\n\n  z\"\n", "a: 'x\n  y'\n", "a: \"\\q\"\n", "a: \"x\n", "a: 'x' y\n", "'a b': 1\n\"c d\": 2\n",
  "a: |\n  x\n  y\n\n", "a: |-\n  x\n", "a: |+\n  x\n\n\nb: 1\n", "a: >\n  x\n  y\n\n  z\n   k\n  l\n", "a: >-\n  x\n  y\n", "a: |2\n    x\n   y\n", "a: |\nb: 1\n", "- |\n x\n- >\n y\n",
  "a: |\n  x", "a: |\n  # no comment\n  x\n", "a: | # comment\n  x\n", "a:\n  b: |\n    x\n  c: 1\n", "a: |\n\n  x\n", "a: |\n   \n  x\n", "|\n x\n", "a: >\n\n  x\n\n y\n",
  "a: [1, 2, 'x', \"y\", {b: c}]\n", "a: [1, 2,]\n", "a: [1,,2]\n", "a: []\nb: {}\n", "a: {b: , c}\n", "{\"a\":1,\"b\":[true,null]}\n", "a: [x,\n  y]\n", "a: [x y, z]\n", "a: [1\n", "a: {b\n", "a: ]\n",
  "[a, b]: c\n", "{a: b}: c\n", "a: {? b : c}\n", "? a\n: b\n", "a: &x 1\nb: *x\n", "a: !!str 1\n", "expression: !has(object.a)\n", "a: *x\n", "a: @x\n", "a: `x`\n", "a: %x\n", "%YAML 1.1\n---\na: 1\n",
  "a:\tb\n", "\ta: b\n", "a:\n\tb: 1\n", "a: b\tc\n", "a: 'x\ty'\n", "a: b\n---\nc: d\n...\n---\ne: f\n", "--- a\n", "--- {a: 1}\n", "---\na: 1\n---\n", "--- # comment\na: 1\n", "a: 1\n...\n", "a\n", "- a\nb: c\n", "a: 1\nb\n",
  "a: 1\n  b: 2\n", "a:\n  b: 1\n c: 2\n", "a:\n    b: 1\n  c: 2\n", "a: - b\n", "a:\n- b\nc: d\n", "- a: 1\n  b: 2\n- c: 3\n", "-a: 1\n", "- -1\n", "a: -\n", "a: - \n", "- - - a\n", "a: ''\nb: \"\"\n", "a: x'y\"z\n", "a: http://b/c\n", "a:b\n",
  "a: 'b'\n  c\n", "a: {b: c} d\n", "a: [b] # comment\n", "a : b\n", "a: b:c\n", "a: b:\n", "a: ?b\n", "a: -b\n", "a: :b\n", "? \n", ": a\n", "a: \"b\": c\n", "x: |3\n   a\n", "x: |0\n a\n", "x: |a\n", "x: > \n  a\n  b\n",
  "a: <<\n", "<<: {a: 1}\n", "a: 1\n\n\n# end\n", "  a: 1\n  b: 2\n", "  a: 1\n b: 2\n", "a: \u00e9\u4e2d\ud83d\ude00\n", "a: \x07\n", "a: ~x\n", "a: nullx\n", "a: 0\nb: -0\nc: 00\nd: 0_0\n", "a: 1__0\nb: _1\n", "a: 0x_\n", "a: 1e5\nb: 1E+2\n",
  "a: 'b'   \nc: d   \n", "a:   \n  - b\n", "a:\n\n\n  b: 1\n", "a:\n  # comment\n  b: 1\n# comment\n  c: 2\n", "a: b\n# comment\n  c\n", "a:\n- b\n  c\n- d\n", "a: {b: 'c d', \"e\": f g}\n", "a: {b: c, }\n", "a: [[1], [2, [3]]]\n", "a: {b: [1, {c: d}]}\n",
  "a: [b: c]\n", "a: {\"b\":c}\n", "a: {b:c}\n", "a: [a ? b : c]\n", "a: 'x\n---\ny'\n", "expression: \"object.spec.replicas <= 5\"\n", "expression: object.spec.?replicas.orValue(1) <= 5\n", "expression: >-\n  object.a\n  && object.b\n", "expression: a ? b : c\n",
];
