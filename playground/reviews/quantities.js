// Quantities of objects of built-in kinds, as an API server stores them.
//
// A text that is canonical enough is stored as it was read. Others become the canonical form: no fraction, and the largest
// suffix. Those of lists of resources are rounded up to thousandths.

import { TABLES } from "../data/tables.js";
import { isRecord } from "../texts/json.js";

const SUFFIXES = ["n", "u", "m", "", "k", "M", "G", "T", "P", "E"], LEAST_SUFFIX = -9;
const BINARY = ["", "Ki", "Mi", "Gi", "Ti", "Pi", "Ei"];
const QUANTITY = /^([+-]?)0*([0-9]*)(?:\.([0-9]*))?(?:[eE]([+-]?[0-9]{1,3})|([numkMGTPE]|[KMGTPE]i))?$/;
const MOST_DIGITS = 40, FEW = 18;
const NANO = -9, MILLI = -3;
const LARGEST = 2n ** 63n - 1n;

/** A number of these digits at this place of ten.
 * @typedef {{ digits: bigint, place: number }} Decimal */

/** @param {bigint} one */
const abs = (one) => (one < 0n ? -one : one);

/** A number without digits beyond a place, rounded away from zero.
 * @param {Decimal} number @param {number} place @returns {Decimal} */
function rounded(number, place) {
  if (number.place >= place) return number;
  const by = 10n ** BigInt(place - number.place), whole = abs(number.digits) / by;
  const up = whole + (abs(number.digits) % by ? 1n : 0n);
  return { digits: number.digits < 0n ? -up : up, place };
}

/** A number without zeros at its end.
 * @param {Decimal} number @returns {Decimal} */
function normal(number) {
  let { digits, place } = number;
  while (digits !== 0n && digits % 10n === 0n) [digits, place] = [digits / 10n, place + 1];
  return { digits, place };
}

/** The int that a number is; null if it has a fraction.
 * @param {Decimal} number */
function wholeOf(number) {
  const { digits, place } = normal(number);
  return place < 0 ? null : digits * 10n ** BigInt(place);
}

/** The canonical text with a decimal suffix or an exponent.
 * @param {Decimal} number @param {boolean} hasExponent */
function decimalText(number, hasExponent) {
  const { digits, place } = normal(number), exponent = Math.floor(place / 3) * 3;
  const shown = String(digits * 10n ** BigInt(place - exponent));
  if (hasExponent) return exponent ? `${shown}e${exponent}` : shown;
  return shown + (SUFFIXES[(exponent - LEAST_SUFFIX) / 3] ?? "");
}

/** The canonical text with a binary suffix; one below 1,024, or with a fraction, has a decimal suffix.
 * @param {Decimal} number */
function binaryText(number) {
  let whole = wholeOf(number);
  if (whole === null || abs(whole) < 1024n) return decimalText(number, false);
  let power = 0;
  while (whole % 1024n === 0n && power < BINARY.length - 1) [whole, power] = [whole / 1024n, power + 1];
  return `${whole}${BINARY[power]}`;
}

/** What is read of a text: the number, its form, whether it is stored as it was read, and the place of its last digit.
 * @param {RegExpExecArray} found */
function read(found) {
  const [, sign, whole, fraction = "", exponent, suffix = ""] = found, digits = (whole || "0") + fraction;
  const signed = BigInt(digits) * (sign === "-" ? -1n : 1n);
  if (suffix.length === 2) {
    const power = 10 * BINARY.indexOf(suffix);
    const isFew = !fraction && (whole || "0").length < 15 - Math.floor((power * 3) / 10);
    const number = { digits: signed << BigInt(power), place: -fraction.length };
    return { number, form: "binary", isKept: isFew && (BigInt(whole || "0") & 7n) !== 0n, scale: 0 };
  }
  const place = exponent ? Number(exponent) : SUFFIXES.indexOf(suffix) * 3 + LEAST_SUFFIX, scale = place - fraction.length;
  const isFew = digits.length <= FEW && scale >= NANO;
  const isKept = isFew && scale % 3 === 0 && !digits.endsWith("000") && digits[0] !== "0";
  return { number: { digits: signed, place: scale }, form: exponent ? "exponent" : "decimal", isKept, scale };
}

/** The text that is stored of a quantity; a text that is none is unchanged, and so is one of too many digits.
 * @param {string} text @param {boolean} isResource */
export function stored(text, isResource = false) {
  const found = text.length <= MOST_DIGITS ? QUANTITY.exec(text.trim()) : null;
  if (!found || !/[0-9]/.test(text.split(/[eE]/)[0])) return text;
  const one = read(found);
  let number = rounded(one.number, NANO);
  const whole = wholeOf(rounded(number, 0)) ?? 0n;
  if (one.form === "binary" && abs(whole) > LARGEST) number = { digits: whole < 0n ? -LARGEST : LARGEST, place: 0 };
  if (isResource && (one.scale < MILLI || (one.form === "binary" && !one.isKept))) number = rounded(number, MILLI);
  else if (one.isKept) return text.trim();
  if (number.digits === 0n) return "0";
  return one.form === "binary" ? binaryText(number) : decimalText(number, one.form === "exponent");
}

/** Replaces the quantities at a path, which is cut into steps; `*` is any key, `[]` any item.
 * @param {any} value @param {string[]} steps */
function write(value, [step, ...below]) {
  if (step === "[]") {
    if (Array.isArray(value)) value.forEach((item) => write(item, below));
    return;
  }
  if (!isRecord(value)) return;
  for (const key of step === "*" ? Object.keys(value) : step in value ? [step] : []) {
    if (below.length) write(value[key], below);
    else if (typeof value[key] === "string") value[key] = stored(value[key], step === "*");
    else if (["bigint", "number"].includes(typeof value[key])) value[key] = stored(String(value[key]), step === "*");
  }
}

/** Replaces the quantities of an object by what an API server stores.
 * @param {any} thing @param {string} group */
export function writeQuantities(thing, group) {
  for (const path of TABLES.quantities[`${group}/${thing.kind}`] ?? []) {
    write(thing, path.split(".").flatMap((/** @type {string} */ part) => (part.endsWith("[]") ? [part.slice(0, -2), "[]"] : [part])));
  }
}
