// What a plain scalar of YAML is, as `kubectl` reads it: numbers and bools are those of YAML 1.1, without dates and without
// numbers to the base of 60. What a number is too large for is a text, as 1e400.

import { Fault } from "./json.js";

const NULL = /^(?:~|null|Null|NULL|)$/;
const TRUE = /^(?:yes|Yes|YES|true|True|TRUE|on|On|ON|y|Y)$/;
const FALSE = /^(?:no|No|NO|false|False|FALSE|off|Off|OFF|n|N)$/;
const INT = /^[-+]?(?:0|[1-9][0-9_]*|0x[0-9a-fA-F_]+|0o?[0-7_]+|0b[01_]+)$/;
const FLOAT = /^(?:[-+]?(?:\._*[0-9][0-9_]*|[0-9][0-9_]*(?:\.[0-9_]*)?)(?:[eE][-+]?[0-9]+)?|[-+]?\.(?:inf|Inf|INF)|\.(?:nan|NaN|NAN))$/;
const BASED = /^0[xob]/;
const LEAST = -(2n ** 63n), MOST = 2n ** 64n - 1n, MOST_SIGNED = 2n ** 63n - 1n;

/** The int of digits without a sign; null if there are no digits.
 * @param {string} digits */
function unsigned(digits) {
  if (BASED.test(digits)) return digits.length > 2 ? BigInt(digits) : null;
  return digits.length > 1 && digits[0] === "0" ? BigInt(`0o${digits}`) : BigInt(digits);
}

/** A number as it is sent: one without a fraction is an int.
 * @param {number} number */
export function sent(number) {
  if (!Number.isInteger(number)) return number;
  const whole = BigInt(number);
  return whole >= LEAST && whole <= MOST_SIGNED ? whole : number;
}

/** The value of a plain scalar.
 * @param {string} text @param {number} at @returns {any} */
export function plainValue(text, at) {
  if (NULL.test(text)) return null;
  if (TRUE.test(text)) return true;
  if (FALSE.test(text)) return false;
  const isNegative = text[0] === "-", digits = text.replaceAll("_", "").replace(/^[-+]/, "");
  if (INT.test(text)) {
    const found = unsigned(digits);
    if (found === null) throw new Fault("a number has no digits", at);
    const whole = isNegative ? -found : found;
    return BASED.test(digits) && (whole < LEAST || whole > MOST) ? text : whole;
  }
  if (!FLOAT.test(text)) return text;
  const number = Number(digits) * (isNegative ? -1 : 1);
  if (Number.isNaN(number)) throw new Fault("JSON has no such number", at);
  return Number.isFinite(number) ? sent(number) : text;
}

/** The text of a key that is no text in YAML.
 * @param {any} value */
export const keyText = (value) => (value === null ? "null" : String(value));
