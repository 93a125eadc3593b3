// Tables that the tools have too: kinds and their resources, quantities, functions, and the words of refusals.
// The page has them as a text of JSON beside its script; whoever runs the modules gives them once.

/** @type {Record<string, any>} */
export const TABLES = {};

/** @param {Record<string, any>} tables */
export const giveTables = (tables) => Object.assign(TABLES, tables);
