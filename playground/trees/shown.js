// The trees of a part, as data that the page shows.

/**
 * A sub-expression with its value, an item of a macro, one that the run did not evaluate, or a note.
 *
 * `decides` and `origin` are marks; `origin` says why. `step` is the step of the run at which the value was made, `variable`
 * the place of the variable that it is or begins with.
 * @typedef {{ type: "node" | "item" | "silent" | "note", text: string, value?: string, decides?: boolean, origin?: string,
 *   step?: number, variable?: number, open?: boolean, below?: Shown[] }} Shown
 */

// the most characters of a value in a tree, and of one that is beside the name of an item
const MOST_VALUE = 200, MOST_NAMED = 80;

/** @param {string} text @param {number} [most] */
export const shortened = (text, most = MOST_VALUE) => (text.length <= most ? text : `${text.slice(0, most)}.. (${text.length} characters)`);

/** An iteration name with its value.
 * @param {string} name @param {string} value */
export const named = (name, value) => `${name} = ${shortened(value, MOST_NAMED)}`;

/** @param {string} text @returns {Shown} */
export const silent = (text) => ({ type: "silent", text });
/** @param {string} text @returns {Shown} */
export const note = (text) => ({ type: "note", text });
