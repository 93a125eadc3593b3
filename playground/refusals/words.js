// What the refusals of an expression mean, and what to write instead.

import { TABLES } from "../data/tables.js";
import { namespaceOf, NAMESPACES } from "../cel/splitter.js";
import { closest } from "../reviews/spelling.js";
import { meaning } from "./meanings.js";
import { OF_OPTIONALS } from "./places.js";
import { syntaxTold } from "./syntax.js";

/** @typedef {import("./places.js").Found} Found */
/** What is meant, and what to write instead or no text.
 * @typedef {[string, string]} Told */

// the names that an expression begins with
const NAMES = ["object", "oldObject", "params", "namespaceObject", "request", "variables"];
// names of types, which are no values here
const TYPES = ["int", "uint", "double", "string", "bool", "bytes", "null_type", "list", "map", "type"];
const INDEX_HINT = "a macro over each list of the sum, or one with a single name";
// a name after a dot, and a minus
const DASHED = /\.([A-Za-z_]\w*(?:-[A-Za-z_]\w*)*)-$/;
const AS_VALUE = "`.orValue(..)` for its value, or `.hasValue()`";

/** The word that may be meant by one that is not known: one that begins so, or one that is alike.
 * @param {string} word @param {string[]} known */
function similar(word, known) {
  const begun = word.length > 2 ? known.find((one) => one.startsWith(word)) : undefined;
  return begun ?? closest(word, known);
}

/** The function or macro that may be meant by a name that is none; empty if that is not known.
 * @param {string} name @returns {string} */
export const meant = (name) => TABLES.elsewhere[name] ?? similar(name, TABLES.functions);

/** @type {Record<string, (found: Found, text: string) => Told>} */
const OF_CAUSES = {
  P1: (found, text) => syntaxTold(found.cause, text, found.begin),
  P4: (found, text) => syntaxTold(found.cause, text, found.begin),
  M3: () => [meaning("M3"), "`has(e.f)`, or `k in e` for a key"],
  W1: ({ begin, end }, text) => [`bytes, such as ${text.slice(begin, end)}, are not supported`, `\`${text.slice(begin, end).replace(/^[bB]+/, "")}\``],
  W2: numberTold,
  W3: () => ["`transformMap` and `transformMapEntry` are not supported", "a list by `map`, or `all` and `exists`"],
  W4: optionalTold,
  W5: nameTold,
  W6: () => ["of a map at most three entries have a question mark, with keys that are texts, written out", "`has(e.f) ? {..} : {..}`"],
  W10: () => [meaning("W10"), "variables for parts of it"],
};

/** What a refusal means, and what to write instead or no text.
 * @param {Found} found @param {string} text @returns {Told} */
export function told(found, text) {
  if (found.cause in OF_CAUSES) return OF_CAUSES[found.cause](found, text);
  return [found.operands || meaning(found.cause) || "it is refused", ""];
}

/** A double, or an unsigned int.
 * @param {Found} found @param {string} text @returns {Told} */
function numberTold({ begin, end }, text) {
  const number = text.slice(begin, end);
  if (/[uU]$/.test(number)) return [`an unsigned int, ${number}, is taken beside == != < <= > >= alone`, `\`${number.slice(0, -1)}\``];
  return [`numbers with a fraction, such as ${number}, are not supported`, "an int"];
}

/** An optional value in a wrong place, or none where one is needed.
 * @param {Found} found @returns {Told} */
function optionalTold({ piece }) {
  if (!piece) return ["its result is an optional value", AS_VALUE];
  if (piece.form === "index") return ["what is between `[` and `]` is an optional value", AS_VALUE];
  if (piece.form === "method" && (piece.name === "or" || piece.name === "orValue")) {
    const wanted = piece.name === "or" ? "an optional value" : "a value, and no optional one,";
    return [`\`${piece.name}\` needs ${wanted} between its brackets`, "`or` with an optional value, `orValue` with another"];
  }
  if (piece.kind === "macro" && OF_OPTIONALS.includes(piece.word)) {
    return [`\`${piece.word}\` is for an optional value, and what it makes has to fit`, "`optMap` to make a value, `optFlatMap` to make an optional one"];
  }
  return ["an optional value stands where a value is needed", AS_VALUE];
}

/** A name or a form that is not known.
 * @param {Found} found @param {string} text @returns {Told} */
function nameTold(found, text) {
  const { piece, name } = found;
  if (!piece) return [name ? `\`${name}\` is not known here` : meaning("W5"), ""];
  if (!name) return formTold(found);
  if (piece.kind === "macro" && name !== piece.word) return [`\`${name}\` is not taken as the name of an item`, "another name"];
  if (piece.kind === "leaf") {
    const dashed = DASHED.exec(text.slice(0, found.begin));
    if (dashed) return [`\`-\` is no part of a name after a dot: \`${name}\` is read as a name`, `\`['${dashed[1]}-${name}']\` without the dot`];
    return leafTold(name, found.text);
  }
  const space = namespaceOf(piece);
  if (space === "authorizer") return ["the decisions of the authorizer are not known here", ""];
  return functionTold(space ? `${space}.${name}` : name);
}

/** A function that is not supported, or that is none.
 * @param {string} name @returns {Told} */
function functionTold(name) {
  if (name in TABLES.notThere) return [`no API server up to 1.36 has \`${name}\``, TABLES.notThere[name]];
  if (OF_OPTIONALS.includes(name)) return [`\`${name}\` follows an optional value alone`, "`.?` before the field that it follows"];
  if (name in TABLES.later) return [`\`${name}\` is not supported yet`, TABLES.later[name]];
  const near = meant(name);
  return [`there is no function \`${name}\` with these arguments`, near && near !== name ? `\`${near}\`` : ""];
}

/** A name that is none, or a variable.
 * @param {string} name @param {string} text @returns {Told} */
function leafTold(name, text) {
  if (name === "authorizer") return ["the decisions of the authorizer are not known here", ""];
  if (text.replace(/^\.+/, "").startsWith("variables")) {
    return [`no variable \`${name}\` is known here`, "a variable that comes before; a match condition has none"];
  }
  if (TYPES.includes(name)) return [`a type, such as \`${name}\`, is no value here`, ""];
  if (NAMESPACES.includes(name)) return [`\`${name}\` is followed by a function`, ""];
  const near = similar(name, NAMES);
  return [`\`${name}\` is no name here`, near ? `\`${near}\`` : "object, oldObject, params, namespaceObject, request, or `variables.` and a name"];
}

/** A form that is not supported.
 * @param {Found} found @returns {Told} */
function formTold({ piece }) {
  if (piece && piece.kind === "macro") {
    return ["a macro uses the index or key of what may be longer than the documents' lists and maps, as a sum may", INDEX_HINT];
  }
  return [meaning("W5"), ""];
}
