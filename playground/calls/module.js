// The calls of the module over texts, for what asks it.

import { Celbpf, Failed, READS, STEPS } from "../../embed/wasm/celbpf.mjs";
import { NotAnswered } from "../asking/program.js";

/** @typedef {import("../asking/program.js").Answer} Answer */

const DECODER = new TextDecoder();
// the status of a call for which there is no memory
const NO_MEMORY = 9;

/** The calls of a module. */
export class Module {
  /** @param {WebAssembly.Module} module */
  constructor(module) {
    this.celbpf = new Celbpf(module);
  }

  /** @param {string} name @param {(Uint8Array | string | null)[]} given @param {bigint[]} [numbers] */
  call(name, given, numbers) {
    try {
      return this.celbpf.call(name, given.map((one) => one ?? undefined), numbers);
    } catch (fault) {
      if (!(fault instanceof Failed)) throw fault;
      throw new NotAnswered("it is nested too deep for this browser, or takes too much memory", NO_MEMORY);
    }
  }

  /** @param {string} name @param {(Uint8Array | string | null)[]} given @param {bigint[]} [numbers] @returns {Answer} */
  text(name, given, numbers) {
    const { status, text } = this.call(name, given, numbers);
    return { status, text: DECODER.decode(text) };
  }

  /** @param {string} policy @param {string} review @param {string | null} namespace @param {string | null} params */
  review(policy, review, namespace, params) {
    return this.text("celbpf_page_review", [policy, review, namespace, params], [STEPS, READS]);
  }

  /** @param {string} policy */
  translate(policy) {
    return this.text("celbpf_page_translate", [policy]);
  }

  /** The image of a policy of the profile.
   * @param {string} policy @returns {Answer} */
  compile(policy) {
    const { status, text } = this.call("celbpf_page_compile", [policy]);
    return status === 0 ? { status, text: "", image: text } : { status, text: DECODER.decode(text) };
  }

  /** @param {Uint8Array} image */
  list(image) {
    return this.text("celbpf_page_list", [image]);
  }

  /** @param {Uint8Array} image @param {string | null} review @param {string | null} namespace @param {string | null} params @param {string} commands */
  debug(image, review, namespace, params, commands) {
    return this.text("celbpf_page_debug", [image, review, namespace, params, commands]);
  }
}
