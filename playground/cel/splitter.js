// An expression's text in pieces: for each operand, argument, item and branch its place in the text.
// It goes by the grammars of docs/CEL.md and docs/LANGUAGE.md and asks no meaning.

/** A text that is not cut. */
export class NotCut extends Error {}

/**
 * A piece with its place in the text; its parts in the order in which they are evaluated.
 *
 * `kind` is `leaf`, `ternary`, `macro` or `other`. A macro's first part is its range, and `name` has the names of an item in
 * those after it; `word` is which macro it is. Of others `form` is the operator between two operands, or `not`, `minus`,
 * `field`, `index`, `method`, `call`, `has`, `list` or `map`; `name` is the name of a field, a method or a function. `word` is
 * `?` after a question mark, and `optional` has the parts of a literal that follow one.
 * @typedef {{ begin: number, end: number, kind: string, parts: Piece[], word: string, name: string, form: string,
 *   optional: Piece[], digits?: string, variable?: string }} Piece
 */

const GAP = "(?<gap>(?:[ \\t\\n\\f\\r]|//[^\\n]*)+)";
const ENDING = "(?<int>0x[0-9a-fA-F]+|[0-9]+)|(?<name>[_a-zA-Z][_a-zA-Z0-9]*)";
const MARK = "(?<mark>\\|\\||&&|<=|>=|==|!=|[?:<>+\\-*/%!.,()\\[\\]{}])";
const NARROW_TEXT =
  "(?<text>[rR]\"[^\"\\n\\r]*\"|[rR]'[^'\\n\\r]*'|\"(?:\\\\.|[^\"\\\\\\n\\r])*\"|'(?:\\\\.|[^'\\\\\\n\\r])*')";
const WIDE_TEXT =
  "(?<text>[bB]?(?:[rR](?:'''.*?'''|\"\"\".*?\"\"\"|'[^'\\n\\r]*'|\"[^\"\\n\\r]*\")" +
  "|'''(?:\\\\.|[^\\\\])*?'''|\"\"\"(?:\\\\.|[^\\\\])*?\"\"\"|'(?:\\\\.|[^'\\\\\\n\\r])*'|\"(?:\\\\.|[^\"\\\\\\n\\r])*\"))";
const EXPONENT = "[eE][+-]?[0-9]+";
const NUMBERS = `(?<double>[0-9]*\\.[0-9]+(?:${EXPONENT})?|[0-9]+${EXPONENT})|(?<uint>(?:0x[0-9a-fA-F]+|[0-9]+)[uU])`;
const QUOTED = "(?<quoted>`[A-Za-z0-9_.\\-/ ]+`)";
const NARROW = new RegExp([GAP, NARROW_TEXT, ENDING, MARK].join("|"), "y");
const WIDE = new RegExp([GAP, WIDE_TEXT, NUMBERS, ENDING, QUOTED, MARK].join("|"), "ys");
// operators between two operands, from the loosest on
const LEVELS = [["||"], ["&&"], ["<", "<=", ">", ">=", "==", "!=", "in"], ["+", "-"], ["*", "/", "%"]];
/** @type {Record<string, string>} */
const CLOSING = { "(": ")", "[": "]", "{": "}" };
const WORD = /^[_a-zA-Z][_a-zA-Z0-9]*$/;
// the macros of the profile; and by its word and the number of its arguments how many names a macro has
const MACROS = ["all", "exists", "exists_one", "filter", "map"];
/** @type {Record<string, number>} */
const NARROW_NAMES = { "all 2": 1, "exists 2": 1, "exists_one 2": 1, "filter 2": 1, "map 2": 1, "map 3": 1 };
/** @type {Record<string, number>} */
const WIDE_NAMES = {
  ...NARROW_NAMES, "all 3": 2, "exists 3": 2, "exists_one 3": 2, "existsOne 3": 2, "transformList 3": 2, "transformList 4": 2,
  "optMap 2": 1, "optFlatMap 2": 1, "existsOne 2": 1,
};
// namespaces of functions, which are no names of values
export const NAMESPACES = ["sets", "optional", "math", "cel", "lists", "strings", "format", "regex", "base64", "authorizer"];
export const OVER_OPTIONAL = ["optMap", "optFlatMap"];

/** @typedef {{ kind: string, text: string, begin: number, end: number }} Token */

/** The tokens of a text.
 * @param {string} text @param {RegExp} form @returns {Token[]} */
function tokens(text, form) {
  const found = [];
  let at = 0;
  while (at < text.length) {
    form.lastIndex = at;
    const match = form.exec(text);
    if (!match || !match.groups) throw new NotCut();
    const groups = match.groups;
    const kind = /** @type {string} */ (Object.keys(groups).find((one) => groups[one] !== undefined));
    at += match[0].length;
    if (kind !== "gap") found.push({ kind, text: match[0], begin: at - match[0].length, end: at });
  }
  return found;
}

/** Tokens that are read into pieces. */
class Reader {
  /** @param {string} text @param {boolean} isWide */
  constructor(text, isWide) {
    this.isWide = isWide;
    this.names = isWide ? WIDE_NAMES : NARROW_NAMES;
    this.tokens = tokens(text, isWide ? WIDE : NARROW);
    this.at = 0;
  }

  /** The kind and the text of a token, empty ones after the last. */
  token(ahead = 0) {
    return this.tokens[this.at + ahead] ?? { kind: "", text: "", begin: this.end(), end: this.end() };
  }

  /** @param {...string} words */
  isNext(...words) {
    const { kind, text } = this.token();
    return (kind === "mark" || kind === "name") && words.includes(text);
  }

  begin() {
    return this.token().begin;
  }

  /** Where the last token that was taken ends.
   * @returns {number} */
  end() {
    return this.at ? this.tokens[this.at - 1].end : 0;
  }

  /** Takes the next token, which has to be one of these.
   * @param {...string} words */
  take(...words) {
    if (!this.isNext(...words)) throw new NotCut();
    return this.tokens[this.at++].text;
  }

  /** @param {number} begin @param {string} kind @param {Piece[]} parts @param {object} [named] @returns {Piece} */
  made(begin, kind, parts, named = {}) {
    return { begin, end: this.end(), kind, parts, word: "", name: "", form: "", optional: [], ...named };
  }

  /** @returns {Piece} */
  expression() {
    const condition = this.level(0);
    if (!this.isNext("?")) return condition;
    this.take("?");
    const chosen = this.level(0);
    this.take(":");
    return this.made(condition.begin, "ternary", [condition, chosen, this.expression()]);
  }

  /** @param {number} number @returns {Piece} */
  level(number) {
    if (number === LEVELS.length) return this.unary();
    let left = this.level(number + 1);
    while (this.isNext(...LEVELS[number])) {
      const form = this.take(...LEVELS[number]);
      left = this.made(left.begin, "other", [left, this.level(number + 1)], { form });
    }
    return left;
  }

  unary() {
    const begins = [];
    const sign = ["!", "-"].find((mark) => this.isNext(mark));
    while (sign && this.isNext(sign) && !this.isSignedInt()) {
      begins.push(this.begin());
      this.take(sign);
    }
    let piece = this.member();
    for (const begin of begins.reverse()) {
      piece = this.made(begin, "other", [piece], { form: sign === "!" ? "not" : "minus" });
    }
    return piece;
  }

  isSignedInt() {
    return this.isNext("-") && this.token(1).kind === "int";
  }

  member() {
    let piece = this.primary();
    while (this.isNext(".", "[")) {
      if (this.take(".", "[") === ".") {
        piece = this.afterDot(piece);
        continue;
      }
      const word = this.questionMark();
      const inner = this.expression();
      this.take("]");
      piece = this.made(piece.begin, "other", [piece, inner], { form: "index", word });
    }
    return piece;
  }

  /** Takes a question mark if it comes, and returns it. */
  questionMark() {
    return this.isWide && this.isNext("?") ? this.take("?") : "";
  }

  /** @param {Piece} target @returns {Piece} */
  afterDot(target) {
    const word = this.questionMark();
    const { kind, text } = this.token();
    if (kind !== "name" && kind !== "quoted") throw new NotCut();
    this.at += 1;
    if (!word && kind === "name" && this.isNext("(")) return this.method(target, text);
    if (!word && kind === "name" && target.kind === "leaf" && target.word === "variables") {
      return this.made(target.begin, "leaf", [], { variable: text });
    }
    const name = text.replace(/^`+|`+$/g, "");
    return this.made(target.begin, "other", [target], { form: "field", name, word });
  }

  /** @param {Piece} target @param {string} word */
  method(target, word) {
    const given = this.series("(", () => this.expression());
    const count = this.names[`${word} ${given.length}`] ?? 0;
    const names = given.slice(0, count);
    if (count && names.every((one) => one.kind === "leaf" && WORD.test(one.word))) {
      const name = names.map((one) => one.word).join(" ");
      return this.made(target.begin, "macro", [target, ...given.slice(count)], { word, name });
    }
    if (MACROS.includes(word)) return this.made(target.begin, "other", [target]);
    return this.made(target.begin, "other", [target, ...given], { form: "method", name: word });
  }

  /** @returns {Piece} */
  primary() {
    const begin = this.begin();
    if (this.isNext("(")) return this.bracketed(begin);
    if (this.isNext("[")) return this.listLiteral(begin);
    if (this.isNext("{")) return this.mapLiteral(begin);
    if (this.isWide && this.isNext(".")) {
      this.take(".");
      return { ...this.primary(), begin };
    }
    const { kind, text } = this.token();
    const isSigned = this.isSignedInt();
    this.at += isSigned ? 2 : 1;
    if (!["int", "text", "name", "double", "uint"].includes(kind) && text !== "-") throw new NotCut();
    if (kind === "name" && this.isNext("(")) return this.call(begin, text);
    return this.made(begin, "leaf", [], { word: text, digits: isSigned ? this.tokens[this.at - 1].text : text });
  }

  /** @param {number} begin */
  bracketed(begin) {
    this.take("(");
    const piece = this.expression();
    this.take(")");
    return { ...piece, begin, end: this.end() };
  }

  /** @param {number} begin */
  listLiteral(begin) {
    const found = this.series("[", () => ({ mark: this.questionMark(), parts: [this.expression()] }));
    return this.literal(begin, "list", found);
  }

  /** @param {number} begin */
  mapLiteral(begin) {
    return this.literal(begin, "map", this.series("{", () => this.entry()));
  }

  entry() {
    const mark = this.questionMark(), key = this.expression();
    this.take(":");
    return { mark, parts: [key, this.expression()] };
  }

  /** @param {number} begin @param {string} form @param {{ mark: string, parts: Piece[] }[]} found */
  literal(begin, form, found) {
    const optional = found.filter((one) => one.mark).map((one) => one.parts[one.parts.length - 1]);
    return this.made(begin, "other", found.flatMap((one) => one.parts), { form, optional });
  }

  /** @param {number} begin @param {string} name */
  call(begin, name) {
    const given = this.series("(", () => this.expression());
    // what `has` selects from is evaluated, the selection is not
    if (name === "has" && given.length) return this.made(begin, "other", given[0].parts, { form: "has", name: given[0].name });
    return this.made(begin, "other", given, { form: "call", name });
  }

  /**
   * Parts between brackets, with commas between them and perhaps one after them.
   * @template T @param {string} opening @param {() => T} part @returns {T[]}
   */
  series(opening, part) {
    const closing = CLOSING[this.take(opening)];
    const found = [];
    while (!this.isNext(closing)) {
      if (found.length || this.isNext(",")) {
        this.take(",");
        if (this.isNext(closing)) break;
      }
      found.push(part());
    }
    this.take(closing);
    return found;
  }
}

/** @param {string} text @param {boolean} isWide @returns {Piece} */
function whole(text, isWide) {
  const reader = new Reader(text, isWide);
  const piece = reader.expression();
  if (reader.at < reader.tokens.length) throw new NotCut();
  return piece;
}

/** The pieces of a text of the profile.
 * @param {string} text */
export const cutNarrow = (text) => whole(text, false);

/** The pieces of a text as clusters store it.
 * @param {string} text */
export const cut = (text) => whole(text, true);

/** The pieces of a text as clusters store it; null if it is not cut.
 * @param {string} text @returns {Piece | null} */
export function tryCut(text) {
  try {
    return cut(text);
  } catch (fault) {
    // a text that is nested too deep for the engine's stack is not cut either
    if (fault instanceof NotCut || fault instanceof RangeError) return null;
    throw fault;
  }
}

/** The namespace of a function that is called as a method, such as `sets`; empty if there is none.
 * @param {Piece} piece */
export function namespaceOf(piece) {
  const target = piece.form === "method" ? piece.parts[0] : null;
  return target && target.kind === "leaf" && NAMESPACES.includes(target.word) ? target.word : "";
}

/** Whether a piece is a macro over an optional value.
 * @param {Piece} piece */
export const isOverOptional = (piece) => piece.kind === "macro" && OVER_OPTIONAL.includes(piece.word);

const LITERAL = /^(?:(?:true|false|null)$|[rRbB]*["']|-|\.?[0-9])/;

/** Whether a leaf says its value itself.
 * @param {string} word */
const isLiteralWord = (word) => LITERAL.test(word);

/** Whether a piece says its value itself.
 * @param {Piece} piece @returns {boolean} */
export function isLiteral(piece) {
  if (piece.form === "list" || piece.form === "map") return piece.parts.every(isLiteral);
  return piece.kind === "leaf" && isLiteralWord(piece.word);
}

/** Whether a piece is a name with fields and literal indices, whose parts say no more than it does.
 * @param {Piece} piece @returns {boolean} */
export function isPath(piece) {
  if (piece.kind === "leaf") return !isLiteralWord(piece.word);
  if (piece.form === "field") return isPath(piece.parts[0]);
  return piece.form === "index" && isPath(piece.parts[0]) && piece.parts[1].kind === "leaf";
}

/** The operands of `a && b && c`, or of such a chain of `||`.
 * @param {Piece} piece @returns {Piece[]} */
export function operands(piece) {
  return piece.parts.flatMap((part) => (part.form === piece.form ? operands(part) : [part]));
}
