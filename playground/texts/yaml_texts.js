// The texts of YAML: plain ones, quoted ones and blocks, with the place of each of their characters.

/** @typedef {import("./yaml.js").Reader} Reader */

// what no plain text begins with, and what is said of it
/** @type {Record<string, string>} */
export const REFUSED = {
  "&": "a text begins with `&`, and names (anchors) are not read here; put it into quotes, or write the value again",
  "*": "a text begins with `*`, and names (aliases) are not read here; put it into quotes, or write the value again",
  "!": "a text begins with `!`, which is read as a tag; put it into quotes",
  "%": "a text begins with `%`; put it into quotes",
  "@": "a text begins with `@`; put it into quotes",
  "`": "a text begins with a backtick; put it into quotes",
  "#": "a text begins with `#`; put it into quotes, or a blank before it",
};

/** A text that is made from pieces of another. */
class Made {
  constructor() {
    this.text = "";
    /** @type {number[]} */
    this.origins = [];
  }

  /** Adds a piece that is in the source as it is.
   * @param {string} piece @param {number} at */
  copy(piece, at) {
    this.text += piece;
    for (let place = 0; place < piece.length; place++) this.origins.push(at + place);
  }

  /** Adds characters that the source has at a place in another form.
   * @param {string} piece @param {number} at */
  add(piece, at) {
    this.text += piece;
    for (let place = 0; place < piece.length; place++) this.origins.push(at);
  }
}

/** Skips line ends and blanks; how many line ends there were.
 * @param {Reader} reader */
function skipLines(reader) {
  let lines = 0;
  for (;;) {
    while (reader.peek() === " " || (lines === 0 && reader.peek() === "\t")) reader.at += 1;
    if (reader.peek() !== "\n") return lines;
    reader.at += 1;
    lines += 1;
  }
}

/** What line ends are in a text that is folded.
 * @param {number} lines */
const folded = (lines) => (lines > 1 ? "\n".repeat(lines - 1) : " ");

/** The end of a plain text on this line.
 * @param {Reader} reader @param {boolean} isFlow */
function plainEnd(reader, isFlow) {
  const { text } = reader;
  let at = reader.at;
  for (; at < text.length && text[at] !== "\n"; at++) {
    const one = text[at];
    if (one === "\t") reader.refuse("a text has a tab; put it into quotes", at);
    if (one === "#" && at > reader.at && text[at - 1] === " ") break;
    if (isFlow && ",[]{}".includes(one)) break;
    if (isFlow && one === "?") reader.refuse("a text in brackets has `?`; put it into quotes", at);
    if (one === ":" && (at + 1 >= text.length || " \n".includes(text[at + 1]) || (isFlow && ",[]{}".includes(text[at + 1])))) break;
  }
  while (at > reader.at && text[at - 1] === " ") at -= 1;
  return at;
}

/** A plain text, on lines that are indented more than what is around it; with `Infinity` on one line.
 * @param {Reader} reader @param {number} around @param {boolean} isFlow */
export function readPlain(reader, around, isFlow) {
  const made = new Made(), first = reader.at;
  if ("-?:".includes(reader.peek()) && (reader.isGap(1) || (isFlow && ",[]{}".includes(reader.peek(1))))) {
    reader.refuse(reader.peek() === ":" ? "a key is missing before `:`" : "an item of a list is where a text has to be");
  }
  if (",]}".includes(reader.peek()) && !reader.isEnd) reader.refuse(`\`${reader.peek()}\` closes no bracket, or a value before it is missing`);
  if (isFlow && "?:|>".includes(reader.peek())) reader.refuse(`a text in brackets begins with \`${reader.peek()}\`; put it into quotes`);
  for (;;) {
    const end = plainEnd(reader, isFlow);
    made.copy(reader.text.slice(reader.at, end), reader.at);
    reader.at = end;
    const before = reader.at, lines = around === Infinity ? 0 : skipLines(reader), mark = reader.peek();
    const goesOn = lines > 0 && !reader.isEnd && mark !== "#" && !reader.isMarker() && (isFlow || reader.column() > around);
    if (!goesOn || (isFlow && ",[]{}:".includes(mark))) {
      reader.at = before;
      break;
    }
    if (mark === "\t") reader.refuse("a tab is no indentation; write blanks");
    made.add(folded(lines), before);
  }
  refuseColon(reader, around, isFlow, first);
  return made;
}

/** Refuses `: ` in a text that is no key.
 * @param {Reader} reader @param {number} around @param {boolean} isFlow @param {number} first */
function refuseColon(reader, around, isFlow, first) {
  const rest = /^ *:(?=[ \n]|$)/.exec(reader.text.slice(reader.at, reader.at + 80));
  if (!rest || isFlow || around === Infinity) return;
  const line = reader.text.lastIndexOf("\n", reader.at - 1) + 1, isFirst = line <= first;
  const at = reader.at + rest[0].length - 1;
  if (isFirst) reader.refuse("a text has `: ` in it; put it into quotes", at);
  reader.refuse("this line is indented more than the one before it, whose value is a text; indent both alike", at);
}

/** @type {Record<string, string>} */
const ESCAPES = {
  0: "\0", a: "\x07", b: "\b", t: "\t", "\t": "\t", n: "\n", v: "\v", f: "\f", r: "\r", e: "\x1b", " ": " ", '"': '"', "/": "/",
  "\\": "\\", N: "\x85", _: "\xa0", L: "\u2028", P: "\u2029",
};
/** @type {Record<string, number>} */
const NUMBERED = { x: 2, u: 4, U: 8 };

// characters of a quoted text; the first may be one that is read otherwise in the other quotes
const RUN = /[^][^ \t\n"'\\]*/y;

/** A quoted text.
 * @param {Reader} reader */
export function readQuoted(reader) {
  const made = new Made(), begin = reader.at, quote = reader.peek();
  reader.at += 1;
  for (;;) {
    const at = reader.at, mark = reader.peek();
    if (reader.isEnd || reader.isMarker()) {
      reader.refuse(`the quoted text that begins in line ${reader.text.slice(0, begin).split("\n").length} does not end`);
    }
    if (mark === quote && quote === "'" && reader.peek(1) === "'") {
      made.add("'", at);
      reader.at += 2;
    } else if (mark === quote) {
      reader.at += 1;
      return made;
    } else if (mark === "\\" && quote === '"') readEscape(reader, made);
    else if (" \t\n".includes(mark)) readGap(reader, made);
    else readRun(reader, made);
  }
}

/** The characters of a quoted text up to one that is read otherwise.
 * @param {Reader} reader @param {Made} made */
function readRun(reader, made) {
  RUN.lastIndex = reader.at;
  const [run] = /** @type {RegExpExecArray} */ (RUN.exec(reader.text));
  made.copy(run, reader.at);
  reader.at += run.length;
}

/** Blanks of a quoted text, or line ends that are folded.
 * @param {Reader} reader @param {Made} made */
function readGap(reader, made) {
  const at = reader.at;
  while (" \t".includes(reader.peek()) && !reader.isEnd) reader.at += 1;
  if (reader.peek() !== "\n") {
    made.copy(reader.text.slice(at, reader.at), at);
    return;
  }
  made.add(folded(quotedLines(reader)), at);
}

/** Skips the line ends of a quoted text; how many there are.
 * @param {Reader} reader */
function quotedLines(reader) {
  let lines = 0;
  while (reader.peek() === "\n") {
    reader.at += 1;
    lines += 1;
    if (reader.isMarker()) return lines;
    while (" \t".includes(reader.peek()) && !reader.isEnd) reader.at += 1;
  }
  return lines;
}

/** @param {Reader} reader @param {Made} made */
function readEscape(reader, made) {
  const at = reader.at, mark = reader.peek(1), count = NUMBERED[mark];
  if (mark === "\n") {
    reader.at += 1;
    const lines = quotedLines(reader);
    if (lines > 1) made.add("\n".repeat(lines - 1), at);
    return;
  }
  if (count) {
    const digits = reader.text.slice(at + 2, at + 2 + count);
    const number = /^[0-9a-fA-F]+$/.test(digits) && digits.length === count ? parseInt(digits, 16) : Infinity;
    if (number > 0x10ffff) reader.refuse(`\`\\${mark}\` is followed by ${count} hex digits of a character`);
    made.add(String.fromCodePoint(number), at);
    reader.at += 2 + count;
    return;
  }
  if (!(mark in ESCAPES) || mark === "") reader.refuse(`\`\\${mark}\` is no escape in double quotes; write \`\\\\${mark}\`, or single quotes`);
  made.add(ESCAPES[mark], at);
  reader.at += 2;
}

/** The end of this line.
 * @param {Reader} reader */
function lineEnd(reader) {
  const at = reader.text.indexOf("\n", reader.at);
  return at < 0 ? reader.text.length : at;
}

/** The indentation of the first line of a block that has content.
 * @param {Reader} reader */
function blockIndent(reader) {
  let most = 0;
  for (let at = reader.at; ; at++) {
    const begin = at;
    while (reader.text[at] === " ") at += 1;
    most = Math.max(most, at - begin);
    if (reader.text[at] !== "\n") return most;
  }
}

/** Skips at most `indent` blanks, and lines that have no more; returns where these lines end.
 * @param {Reader} reader @param {number} indent */
function blockBreaks(reader, indent) {
  const found = [];
  for (;;) {
    for (let count = 0; count < indent && reader.peek() === " "; count++) reader.at += 1;
    if (reader.peek() !== "\n") return found;
    found.push(reader.at);
    reader.at += 1;
  }
}

/** A text in a block, after `|` or `>`.
 * @param {Reader} reader @param {number} around */
export function readBlockText(reader, around) {
  const made = new Made(), isFolded = reader.peek() === ">";
  const header = /^[|>](?:([-+])([1-9])?|([1-9])([-+])?)?(?= *(?: #[^\n]*)?(?:\n|$))/.exec(reader.text.slice(reader.at, lineEnd(reader) + 1));
  if (!header) reader.refuse("a text begins with `|` or `>`; put it into quotes");
  const [, before, more, digit, after] = /** @type {RegExpExecArray} */ (header), chomp = before ?? after, given = more ?? digit;
  reader.at = Math.min(lineEnd(reader) + 1, reader.text.length);
  const least = Math.max(1, around + 1), indent = given ? least + Number(given) - 1 : Math.max(least, blockIndent(reader));
  let breaks = blockBreaks(reader, indent), last = -1;
  while (reader.column() === indent && !reader.isEnd) {
    breaks.forEach((at) => made.add("\n", at));
    const isWord = !" \t".includes(reader.peek()), end = lineEnd(reader);
    made.copy(reader.text.slice(reader.at, end), reader.at);
    last = end < reader.text.length ? end : -1;
    reader.at = Math.min(end + 1, reader.text.length);
    breaks = last < 0 ? [] : blockBreaks(reader, indent);
    if (reader.column() !== indent || reader.isEnd) break;
    if (isFolded && isWord && !" \t".includes(reader.peek())) {
      if (!breaks.length) made.add(" ", last);
    } else made.add("\n", last);
  }
  if (reader.peek() === "\t" && reader.column() < indent) reader.refuse("a tab is no indentation; write blanks");
  if (chomp !== "-" && last >= 0) made.add("\n", last);
  if (chomp === "+") breaks.forEach((at) => made.add("\n", at));
  // the line that ends the block is read from the line end before it
  if (!reader.isEnd) reader.at -= reader.column() + 1;
  return made;
}
