// YAML as manifests use it, as `kubectl` reads it: maps and lists of blocks and in brackets, and all forms of texts.
// Anchors, aliases, tags, directives and keys that are no texts of one line are refused, with their place.

import { Fault, record } from "./json.js";
import { keyText, plainValue } from "./scalars.js";
import { readBlockText, readPlain, readQuoted, REFUSED } from "./yaml_texts.js";

/**
 * The value at a place of a document: where it begins, and for a text where each of its characters is.
 * @typedef {{ at: number, origins: number[] | null }} Mark
 */
/** The marks of values by their paths, as JSON.
 * @typedef {Map<string, Mark>} Marks */

/** By what the mark of a key is found.
 * @param {(string | number)[]} path */
export const keyMark = (path) => `key ${JSON.stringify(path)}`;

// the most lists and maps that are inside one another
const DEEPEST = 300;
// a colon after blanks, at the end of a key, and what begins or ends a document
const COLON = / *:(?=[ \n]|$)/y, MARKER = /^(?:---|\.\.\.)(?=[ \n]|$)/;

/** A text that is read. Places are those of the text. */
export class Reader {
  /** @param {string} text @param {Marks[] | null} all takes the marks of each document */
  constructor(text, all) {
    this.text = text;
    this.at = 0;
    this.all = all;
    /** @type {Marks | null} */
    this.marks = null;
    /** @type {(string | number)[]} */
    this.path = [];
  }

  /** @param {string} words @param {number} [at] @returns {never} */
  refuse(words, at = this.at) {
    throw new Fault(words, at);
  }

  /** The character here, empty at the end.
   * @param {number} [ahead] */
  peek(ahead = 0) {
    return this.text.charAt(this.at + ahead);
  }

  /** Whether the character at a place ends a word: a blank, a line end or the end.
   * @param {number} [ahead] */
  isGap(ahead = 0) {
    return " \n".includes(this.peek(ahead));
  }

  /** The column of a place, from 0.
   * @param {number} [at] */
  column(at = this.at) {
    return at - (this.text.lastIndexOf("\n", at - 1) + 1);
  }

  get isEnd() {
    return this.at >= this.text.length;
  }

  /** Whether a line begins here. */
  get isLineBegin() {
    return this.at === 0 || this.text[this.at - 1] === "\n";
  }

  /** Whether a line begins here that begins or ends a document. */
  isMarker() {
    return this.isLineBegin && MARKER.test(this.text.slice(this.at, this.at + 4));
  }

  /** Skips blanks on this line, and a comment. */
  skipBlanks() {
    const before = this.at;
    while (this.peek() === " ") this.at += 1;
    if (this.peek() === "\t") this.refuse("a tab is no indentation; write blanks");
    if (this.peek() === "#" && (this.at > before || this.isLineBegin)) while (!this.isEnd && this.peek() !== "\n") this.at += 1;
  }

  /** Goes to the next content; whether it is on another line. */
  skipToContent() {
    let isOther = false;
    this.skipBlanks();
    while (this.peek() === "\n") {
      isOther = true;
      this.at += 1;
      this.skipBlanks();
    }
    return isOther;
  }

  /** Whether an item of a list begins here. */
  isItem() {
    return this.peek() === "-" && this.isGap(1);
  }

  /** Reads a part of the value at a path.
   * @template T @param {string | number} step @param {() => T} read */
  within(step, read) {
    this.path.push(step);
    if (this.path.length > DEEPEST) this.refuse("it is nested too deep");
    const found = read();
    this.path.pop();
    return found;
  }

  /** Notes where the value of this path is.
   * @param {number} at @param {number[] | null} [origins] */
  mark(at, origins = null) {
    if (this.marks) this.marks.set(JSON.stringify(this.path), { at, origins });
  }

  /** Notes where a key of the map of this path is.
   * @param {string} key @param {number} at */
  markKey(key, at) {
    if (this.marks) this.marks.set(keyMark([...this.path, key]), { at, origins: null });
  }

  /** The documents of the text. */
  documents() {
    const found = [];
    this.skipToContent();
    while (!this.isEnd) {
      if (this.peek() === "%" && this.column() === 0) this.refuse("lines that begin with `%` are not read here");
      const begins = this.isMarker(), at = this.at;
      if (begins) this.at += 3;
      const isOther = begins && this.skipToContent();
      if (this.isEnd || (begins && this.isMarker())) continue;
      if (!begins || this.text.startsWith("---", at)) found.push(...this.document(begins && !isOther));
      this.skipToContent();
      if (!this.isEnd && !this.isMarker()) this.refuse("this line is indented neither as the lines before it nor as a part of them");
    }
    return found;
  }

  /** The document here; none if it is empty.
   * @param {boolean} isInline @returns {any[]} */
  document(isInline) {
    this.marks = this.all ? new Map() : null;
    const value = isInline ? this.inline(-1) : this.block(-1);
    if (value === null) return [];
    if (this.marks) this.all?.push(this.marks);
    return [value];
  }

  /** The value whose content begins here, in a collection of this indentation.
   * @param {number} around @returns {any} */
  block(around) {
    const column = this.column();
    if (this.isItem()) return this.list(column);
    if (this.peek() === "?" && this.isGap(1)) this.refuse("keys after `? ` are not read here");
    if (this.isKey()) return this.map(column);
    return this.inline(around);
  }

  /** Whether a key of a map is here: a text of one line, and a colon. */
  isKey() {
    const line = this.text.slice(this.at, this.text.indexOf("\n", this.at) < 0 ? undefined : this.text.indexOf("\n", this.at));
    if (line[0] === '"') return /^"(?:[^"\\]|\\.)*" *:(?: |$)/.test(line);
    if (line[0] === "'") return /^'(?:[^']|'')*' *:(?: |$)/.test(line);
    if ("[{|>".includes(line[0])) return false;
    const colon = line.search(/:(?: |$)/), comment = line.search(/ #/);
    return colon >= 0 && (comment < 0 || colon < comment);
  }

  /** @param {number} indent */
  list(indent) {
    const found = /** @type {any[]} */ ([]);
    this.mark(this.at);
    for (;;) {
      this.at += 1;
      found.push(this.within(found.length, () => this.item(indent)));
      if (!this.goesOn(indent) || !this.isItem()) return found;
    }
  }

  /** @param {number} indent */
  item(indent) {
    this.skipToContent();
    if (this.isEnd || this.isMarker() || this.column() <= indent) return this.absent();
    return this.block(indent);
  }

  /** The null of a value that is not there. */
  absent() {
    this.mark(this.at);
    return null;
  }

  /** Whether a collection of this indentation goes on at the next content.
   * @param {number} indent */
  goesOn(indent) {
    this.skipToContent();
    if (this.isEnd || this.isMarker() || this.column() < indent) return false;
    if (this.column() > indent || this.text.slice(this.at - indent, this.at).trim()) this.refuse(this.unexpected());
    return true;
  }

  unexpected() {
    const before = this.text.slice(0, this.at).trimEnd().slice(-1);
    if ("]}".includes(this.peek()) && !this.isEnd) return `\`${this.peek()}\` closes no bracket`;
    if (/[\]}]/.test(before) && this.peek() === "#") return "a comment after a bracket needs a blank before its `#`";
    if (/["']/.test(before)) return "text follows the closing quote; in single quotes write `''` for `'`, in double quotes `\\\"` for `\"`";
    return "this line is indented neither as the lines before it nor as a part of them";
  }

  /** @param {number} indent */
  map(indent) {
    const found = record(), seen = new Map();
    this.mark(this.at);
    do {
      if (this.isItem()) this.refuse("an item of a list is where a key has to be");
      if (!this.isKey() && "|>".includes(this.peek())) this.refuse("what begins with `|` or `>` is not on the line of its key");
      if (!this.isKey()) this.refuse("this line is neither a key, which ends with `:`, nor indented as part of a text");
      this.entry(found, seen, () => this.entryValue(indent));
    } while (this.goesOn(indent));
    return found;
  }

  /** Reads a key and its value.
   * @param {Record<string, any>} found @param {Map<string, number>} seen @param {() => any} read */
  entry(found, seen, read) {
    const at = this.at, { raw, key } = this.key(), before = seen.get(raw);
    if (before !== undefined) {
      const line = this.text.slice(0, before).split("\n").length;
      this.refuse(`the key '${raw}' of line ${line} is repeated`, at);
    }
    seen.set(raw, at);
    this.markKey(key, at);
    found[key] = this.within(key, read);
  }

  /** A key, with the colon after it. */
  key() {
    const at = this.at, mark = this.peek();
    if (mark in REFUSED) this.refuse(REFUSED[mark]);
    let raw, key;
    if (mark === '"' || mark === "'") raw = key = readQuoted(this).text;
    else {
      raw = readPlain(this, Infinity, false).text;
      if (raw === "<<") this.refuse("`<<` is not read here; write the keys again", at);
      key = keyText(plainValue(raw, at));
    }
    while (this.peek() === " ") this.at += 1;
    if (this.peek() !== ":") this.refuse("a `:` is missing");
    this.at += 1;
    return { raw, key };
  }

  /** The value after a key of a map of this indentation.
   * @param {number} indent */
  entryValue(indent) {
    const isOther = this.skipToContent();
    if (this.isEnd || (isOther && this.isMarker())) return this.absent();
    if (!isOther) {
      if (this.isItem()) this.refuse("an item of a list is not on the line of a key; write it on the next line");
      return this.inline(indent);
    }
    if (this.column() > indent) return this.block(indent);
    return this.column() === indent && this.isItem() ? this.list(indent) : this.absent();
  }

  /** A text, or a list or a map in brackets.
   * @param {number} around @returns {any} */
  inline(around) {
    const at = this.at, mark = this.peek();
    if (mark in REFUSED) this.refuse(REFUSED[mark]);
    if (mark === "[" || mark === "{") return this.flow();
    if (mark === "|" || mark === ">") return this.texted(at, readBlockText(this, around));
    if (mark === '"' || mark === "'") {
      const found = this.texted(at, readQuoted(this));
      this.refuseColon("a text has `: ` after it; put all of it into quotes");
      return found;
    }
    const { text, origins } = readPlain(this, around, false), value = plainValue(text, at);
    this.mark(at, typeof value === "string" ? origins : null);
    return value;
  }

  /** @param {number} at @param {{ text: string, origins: number[] }} found */
  texted(at, found) {
    this.mark(at, found.origins);
    return found.text;
  }

  /** A list or a map in brackets, or what is in one.
   * @returns {any} */
  flow() {
    const at = this.at, mark = this.peek();
    if (mark !== "[" && mark !== "{") return this.flowText();
    this.mark(at);
    this.at += 1;
    const found = mark === "[" ? this.flowList(at) : this.flowMap(at);
    this.refuseColon("a key is a list or a map; put a text that begins with `{` or `[` into quotes", this.at);
    return found;
  }

  /** Refuses a colon after a value on its line. A comment after it is left, with the blanks before it.
   * @param {string} words @param {number} [at] the place that is told, by default the colon */
  refuseColon(words, at) {
    COLON.lastIndex = this.at;
    if (COLON.test(this.text)) this.refuse(words, at ?? COLON.lastIndex - 1);
  }

  flowText() {
    const at = this.at, mark = this.peek();
    if (mark in REFUSED) this.refuse(REFUSED[mark]);
    if (mark === '"' || mark === "'") return this.texted(at, readQuoted(this));
    const { text, origins } = readPlain(this, -1, true), value = plainValue(text, at);
    this.mark(at, typeof value === "string" ? origins : null);
    return value;
  }

  /** Goes to the next content in brackets that begin at a place.
   * @param {number} begin */
  inFlow(begin) {
    this.skipToContent();
    if (!this.isEnd && !this.isMarker()) return;
    const line = this.text.slice(0, begin).split("\n").length;
    this.refuse(`the \`${this.text[begin]}\` of line ${line} is not closed, or a comma is missing`);
  }

  /** @param {number} begin */
  flowList(begin) {
    const found = /** @type {any[]} */ ([]);
    for (;;) {
      this.inFlow(begin);
      if (this.peek() === "]") return this.closed(found);
      if (this.peek() === ",") this.refuse("a value is missing, or a bracket before it is not closed");
      found.push(this.within(found.length, () => this.flow()));
      this.inFlow(begin);
      if (this.peek() === ":") this.refuse("a map in a list in brackets needs braces");
      if (this.between(begin, "]")) return this.closed(found);
    }
  }

  /** Skips a comma; whether the bracket closes instead.
   * @param {number} begin @param {string} closing */
  between(begin, closing) {
    if (this.peek() === closing) return true;
    if (this.peek() !== ",") this.refuse(`the \`${this.text[begin]}\` of line ${this.text.slice(0, begin).split("\n").length} is not closed, or a comma is missing`);
    this.at += 1;
    return false;
  }

  /** @template T @param {T} found */
  closed(found) {
    this.at += 1;
    return found;
  }

  /** @param {number} begin */
  flowMap(begin) {
    const found = record(), seen = new Map();
    for (;;) {
      this.inFlow(begin);
      if (this.peek() === "}") return this.closed(found);
      if (this.peek() === "," || this.peek() === "?") this.refuse("a value is missing, or a bracket before it is not closed");
      if ("[{".includes(this.peek())) this.refuse("a key is a list or a map; put a text that begins with `{` or `[` into quotes");
      this.flowEntry(begin, found, seen);
      this.inFlow(begin);
      if (this.between(begin, "}")) return this.closed(found);
    }
  }

  /** @param {number} begin @param {Record<string, any>} found @param {Map<string, number>} seen */
  flowEntry(begin, found, seen) {
    const at = this.at, mark = this.peek();
    if (mark in REFUSED) this.refuse(REFUSED[mark]);
    const isQuoted = mark === '"' || mark === "'";
    const raw = isQuoted ? readQuoted(this).text : readPlain(this, Infinity, true).text, end = this.at;
    if (raw === "<<" && !isQuoted) this.refuse("`<<` is not read here; write the keys again", at);
    const key = isQuoted ? raw : keyText(plainValue(raw, at));
    if (seen.has(raw)) this.refuse(`the key '${raw}' of line ${this.text.slice(0, seen.get(raw)).split("\n").length} is repeated`, at);
    seen.set(raw, at);
    this.markKey(key, at);
    this.inFlow(begin);
    if (this.peek() === ":" && this.text.slice(at, this.at).includes("\n")) this.refuse("a key in brackets is not on the line of its `:`", end);
    if (this.peek() !== ":") {
      found[key] = this.within(key, () => this.absent());
      return;
    }
    this.at += 1;
    this.inFlow(begin);
    found[key] = this.within(key, () => (",}".includes(this.peek()) ? this.absent() : this.flow()));
  }
}

/** The documents of a text, without empty ones.
 * @param {string} text @param {Marks[] | null} [all] takes the marks of each document @returns {any[]} */
export function readYaml(text, all = null) {
  const refused = /[\x00-\x08\x0b\x0c\x0e-\x1f\x7f]/.exec(text);
  if (refused) {
    throw new Fault(`the character U+${refused[0].charCodeAt(0).toString(16).toUpperCase().padStart(4, "0")} is not allowed in YAML`, refused.index);
  }
  return new Reader(text, all).documents();
}
