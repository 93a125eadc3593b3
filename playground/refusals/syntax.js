// What is meant where a text is no expression of CEL, by the slips that are common.

import { TABLES } from "../data/tables.js";
import { meaning } from "./meanings.js";

/** @type {Record<string, string>} */
const CLOSING = { ")": "(", "]": "[", "}": "{" };
const OPENING = Object.values(CLOSING);
// a text literal, or a bracket
const PIECE = /r?'''.*?'''|r?""".*?"""|r'[^']*'|r"[^"]*"|'(?:[^'\\]|\\.)*'|"(?:[^"\\]|\\.)*"|[()\[\]{}]/gs;
// a field of what may be null, as other languages write it
const CHAINED = /[\w\])]\?\.[A-Za-z_]/;
/** @type {Record<string, string>} */
const CHARACTERS = { "=": "`==`", "&": "`&&`", "|": "`||`", "^": "`!=` of two bools", "\u201c": "`\"`", "\u201d": "`\"`", "\u2018": "`'`", "\u2019": "`'`" };

/** The brackets that are open at the end of a text, each with its place.
 * @param {string} text @returns {[string, number][]} */
function openBrackets(text) {
  const found = /** @type {[string, number][]} */ ([]);
  for (const piece of text.matchAll(PIECE)) {
    const mark = piece[0];
    if (OPENING.includes(mark)) found.push([mark, piece.index ?? 0]);
    else if (mark in CLOSING && found.length && found[found.length - 1][0] === CLOSING[mark]) found.pop();
  }
  return found;
}

/** What is wrong with a token that does not fit, and what to write; both empty if that is not known.
 * @param {string} text @param {number} at @returns {[string, string]} */
function ofToken(text, at) {
  const here = text.slice(at), before = text.slice(0, at), words = TABLES.operators;
  const word = /^[A-Za-z_]\w*/.exec(here), last = /([A-Za-z_]\w*)\s*$/.exec(before);
  if (word && word[0] in words) return [`\`${word[0]}\` is no operator here`, words[word[0]]];
  if (last && ["not", "if"].includes(last[1]) && here) return [`\`${last[1]}\` is no operator here`, words[last[1]]];
  if (before.endsWith(".?") && /^['"]/.test(here)) return ["a name follows `.?`", `\`[?${here[0]}${here.split(here[0])[1]}${here[0]}]\``];
  if (here.startsWith(">") && before.endsWith("<")) return ["`<>` is no operator here", "`!=`"];
  if (here.startsWith("?") && before.endsWith("?")) return ["`??` is no operator here", "`.?` before the field, and `.orValue(..)` after it"];
  const opened = openBrackets(before), lastOpened = opened[opened.length - 1];
  if (here.startsWith(",") && lastOpened && /\bin\s*$/.test(before.slice(0, lastOpened[1]))) return ["a list has square brackets", "`in ['a', 'b']`"];
  return ofBrackets(text, at, opened);
}

/** What is wrong with brackets.
 * @param {string} text @param {number} at @param {[string, number][]} opened @returns {[string, string]} */
function ofBrackets(text, at, opened) {
  const here = text.charAt(at);
  if (!text.trim()) return ["the text is empty", ""];
  if (here in CLOSING && !opened.length) return [`no bracket is open that \`${here}\` closes`, ""];
  if (text.slice(at).trim()) return ["", ""];
  if (opened.length) {
    const [mark, place] = opened[opened.length - 1];
    return [`the \`${mark}\` in column ${place + 1} of the text is not closed`, ""];
  }
  return CHAINED.test(text) ? ["`?.` is no operator here", "`.?`"] : ["the text ends too early", ""];
}

/** What P1 or P4 at a place means, and what to write instead or no text.
 * @param {string} cause @param {string} text @param {number} at @returns {[string, string]} */
export function syntaxTold(cause, text, at) {
  if (cause === "P1") return [meaning(cause), CHARACTERS[text.charAt(at)] ?? ""];
  const [found, hint] = ofToken(text, at);
  return [found || meaning(cause), hint];
}
