// The fields of a case as documents, with the places of these and of what is in them.

import { Fault, isRecord, lineColumn } from "../texts/json.js";
import { readDocuments } from "../texts/documents.js";
import { keyMark } from "../texts/yaml.js";

/** What is wrong with a field of a case.
 * @typedef {{ field: string, words: string, line?: number, column?: number }} Trouble */

/** A field of a case that cannot be used. */
export class Wrong extends Error {
  /** @param {Trouble} trouble */
  constructor(trouble) {
    super(trouble.words);
    this.trouble = trouble;
  }
}

/** What an object is called in a message.
 * @param {any} thing */
export function called(thing) {
  const kind = isRecord(thing) && typeof thing.kind === "string" ? thing.kind : "document", name = thing?.metadata?.name;
  return typeof name === "string" && name ? `${kind} ${name}` : kind;
}

/** The name and the text of a field. */
export class Field {
  /** @param {string} name @param {string} text */
  constructor(name, text) {
    this.name = name;
    this.text = text.replace(/^\uFEFF/, "").replaceAll("\r\n", "\n").replaceAll("\r", "\n");
  }

  /** The documents of the field.
   * @param {import("../texts/yaml.js").Marks[] | null} [all] takes the marks of each @returns {any[]} */
  documents(all = null) {
    try {
      return readDocuments(this.text, all);
    } catch (fault) {
      if (!(fault instanceof Fault)) throw fault;
      throw new Wrong({ field: this.name, words: fault.words, ...lineColumn(this.text, fault.at) });
    }
  }

  /** The place of what has a path in a document, or of the nearest that is around it.
   * @param {number} document @param {(string | number)[]} path @returns {{ line?: number, column?: number }} */
  place(document, path) {
    // the text is read again, since it is seldom wrong and marks take memory
    const all = /** @type {import("../texts/yaml.js").Marks[]} */ ([]);
    this.documents(all);
    for (let length = path.length; length >= 0; length--) {
      const some = path.slice(0, length), mark = all[document]?.get(keyMark(some)) ?? all[document]?.get(JSON.stringify(some));
      if (mark) return lineColumn(this.text, mark.at);
    }
    return {};
  }

  /** What is wrong with a part of a document.
   * @param {string} words @param {number} [document] @param {(string | number)[]} [path] */
  wrong(words, document = 0, path = []) {
    return new Wrong({ field: this.name, words, ...this.place(document, path) });
  }
}
