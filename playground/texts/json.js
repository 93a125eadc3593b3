// JSON texts: ints of any size stay exact, and a fault has its place. Objects have no prototype.

/** A text that cannot be read: what is wrong, and at which place of the text. */
export class Fault extends Error {
  /** @param {string} words @param {number} at */
  constructor(words, at) {
    super(words);
    this.words = words;
    this.at = at;
  }
}

/** An object without keys.
 * @returns {Record<string, any>} */
export const record = () => Object.create(null);

/** Whether a value is an object with keys.
 * @param {any} value */
export const isRecord = (value) => value !== null && typeof value === "object" && !Array.isArray(value);

const NUMBER = /-?(?:0|[1-9][0-9]*)(\.[0-9]+)?([eE][-+]?[0-9]+)?/y;
const BLANK = /[ \t\n\r]*/y;
const WORDS = { true: true, false: false, null: null };
const ESCAPES = { '"': '"', "\\": "\\", "/": "/", b: "\b", f: "\f", n: "\n", r: "\r", t: "\t" };
// the most lists and objects that are inside one another
const DEEPEST = 2000;

class Reader {
  /** @param {string} text @param {import("./yaml.js").Marks | null} marks */
  constructor(text, marks) {
    this.text = text;
    this.at = 0;
    this.depth = 0;
    this.marks = marks;
    /** @type {(string | number)[]} */
    this.path = [];
  }

  /** @param {string} words @param {number} [at] @returns {never} */
  refuse(words, at = this.at) {
    throw new Fault(words, at);
  }

  skip() {
    BLANK.lastIndex = this.at;
    BLANK.exec(this.text);
    this.at = BLANK.lastIndex;
  }

  /** The next character after blanks, empty at the end. */
  next() {
    this.skip();
    return this.text.charAt(this.at);
  }

  /** Reads a part of the value at a path.
   * @param {string | number} step */
  within(step) {
    this.path.push(step);
    const found = this.value();
    this.path.pop();
    return found;
  }

  /** @returns {any} */
  value() {
    const mark = this.next();
    if (this.marks) return this.marked(this.marks, mark);
    return this.found(mark);
  }

  /** Notes where a value is, and of a text where its characters are.
   * @param {import("./yaml.js").Marks} marks @param {string} mark */
  marked(marks, mark) {
    const at = this.at, path = JSON.stringify(this.path), origins = mark === '"' ? /** @type {number[]} */ ([]) : null;
    marks.set(path, { at, origins });
    return origins ? this.string(origins) : this.found(mark);
  }

  /** @param {string} mark @returns {any} */
  found(mark) {
    if (mark === "{") return this.inside(() => this.object());
    if (mark === "[") return this.inside(() => this.list());
    if (mark === '"') return this.string();
    for (const [word, value] of Object.entries(WORDS)) {
      if (this.text.startsWith(word, this.at)) {
        this.at += word.length;
        return value;
      }
    }
    return this.number();
  }

  /** @param {() => any} read */
  inside(read) {
    if (++this.depth > DEEPEST) this.refuse("it is nested too deep");
    this.at += 1;
    const found = read();
    this.depth -= 1;
    return found;
  }

  object() {
    const found = record();
    if (this.next() === "}") return this.closed(found);
    for (;;) {
      if (this.next() !== '"') this.refuse("a key in double quotes is missing");
      const at = this.at, key = this.string();
      if (this.marks) this.marks.set(`key ${JSON.stringify([...this.path, key])}`, { at, origins: null });
      if (this.next() !== ":") this.refuse("a `:` is missing");
      this.at += 1;
      found[key] = this.within(key);
      if (this.next() === "}") return this.closed(found);
      if (this.next() !== ",") this.refuse("a comma or `}` is missing");
      this.at += 1;
    }
  }

  list() {
    /** @type {any[]} */
    const found = [];
    if (this.next() === "]") return this.closed(found);
    for (;;) {
      found.push(this.within(found.length));
      if (this.next() === "]") return this.closed(found);
      if (this.next() !== ",") this.refuse("a comma or `]` is missing");
      this.at += 1;
    }
  }

  /** @param {any} found */
  closed(found) {
    this.at += 1;
    return found;
  }

  number() {
    NUMBER.lastIndex = this.at;
    const found = NUMBER.exec(this.text);
    if (!found) this.refuse("a value is missing");
    const [all, fraction, exponent] = /** @type {RegExpExecArray} */ (found);
    this.at += all.length;
    return fraction || exponent ? Number(all) : BigInt(all);
  }

  /** @param {number[]} [origins] takes the place of each character */
  string(origins) {
    const begin = this.at++;
    let made = "";
    for (;;) {
      const from = this.at;
      while (this.at < this.text.length && !'"\\'.includes(this.text[this.at]) && this.text[this.at] >= " ") this.at += 1;
      made += this.text.slice(from, this.at);
      for (let at = from; origins && at < this.at; at++) origins.push(at);
      const mark = this.text.charAt(this.at);
      if (mark === "") this.refuse("a text does not end", begin);
      if (mark < " ") this.refuse("a text has a line end or another character that needs an escape");
      this.at += 1;
      if (mark === '"') return made;
      if (origins) origins.push(this.at - 1);
      made += this.escaped();
    }
  }

  escaped() {
    const mark = this.text.charAt(this.at);
    if (mark in ESCAPES) {
      this.at += 1;
      return ESCAPES[/** @type {keyof typeof ESCAPES} */ (mark)];
    }
    const digits = /^u([0-9a-fA-F]{4})/.exec(this.text.slice(this.at, this.at + 5));
    if (!digits) return this.refuse("a text has a wrong escape", this.at - 1);
    this.at += 5;
    return String.fromCharCode(parseInt(digits[1], 16));
  }
}

/** The value of a text; ints are BigInt.
 * @param {string} text @param {import("./yaml.js").Marks | null} [marks] @returns {any} */
export function readJson(text, marks = null) {
  const reader = new Reader(text, marks);
  const found = reader.value();
  if (reader.next() !== "") reader.refuse("text follows the end of the value");
  return found;
}

/** The text of a value, on one line.
 * @param {any} value @param {string} [blank] after commas and colons @returns {string} */
export function writeJson(value, blank = "") {
  if (typeof value === "bigint") return String(value);
  if (Array.isArray(value)) return `[${value.map((one) => writeJson(one, blank)).join(`,${blank}`)}]`;
  if (!isRecord(value)) return JSON.stringify(value);
  return `{${Object.keys(value).map((key) => `${JSON.stringify(key)}:${blank}${writeJson(value[key], blank)}`).join(`,${blank}`)}}`;
}

/** The text of a value, a line for each part.
 * @param {any} value @param {string} [indent] of the line that it begins on @returns {string} */
export function laidOut(value, indent = "") {
  const inner = `${indent}  `, isList = Array.isArray(value);
  if (!(isList || isRecord(value)) || !Object.keys(value).length) return writeJson(value);
  const parts = Object.keys(value).map((key) => `${inner}${isList ? "" : `${JSON.stringify(key)}: `}${laidOut(value[key], inner)}`);
  return `${isList ? "[" : "{"}\n${parts.join(",\n")}\n${indent}${isList ? "]" : "}"}`;
}

/** The line and the column of a place, counted from 1.
 * @param {string} text @param {number} at */
export function lineColumn(text, at) {
  const before = text.slice(0, at);
  return { line: before.split("\n").length, column: at - before.lastIndexOf("\n") };
}
