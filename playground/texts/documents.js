// Documents as people write them: JSON or YAML.

import { Fault, readJson } from "./json.js";
import { readYaml } from "./yaml.js";

/** The documents of a text.
 * @param {string} text @param {import("./yaml.js").Marks[] | null} [all] takes the marks of each document @returns {any[]} */
export function readDocuments(text, all = null) {
  if (!/^\s*[{[]/.test(text)) return readYaml(text, all);
  try {
    const marks = all ? new Map() : null, value = readJson(text, marks);
    if (marks) all?.push(marks);
    return [value];
  } catch (fault) {
    if (!(fault instanceof Fault)) throw deep(fault);
    // a map or a list in brackets may be YAML; if it is neither, it is told as JSON
    try {
      return readYaml(text, all);
    } catch {
      throw fault;
    }
  }
}

/** @param {unknown} fault */
const deep = (fault) => (fault instanceof RangeError ? new Fault("it is nested too deep", 0) : fault);
