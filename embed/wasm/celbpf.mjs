/**
 * Decisions of celbpf in JavaScript, by its WebAssembly module: in Node, Deno, browsers and workers, without any other
 * file. A call that cannot be made to its end takes its instance of the module with it, and the next call has a new one.
 *
 * A document is a text or the bytes of its UTF-8.
 * @typedef {string | Uint8Array} Document
 *
 * What an answer is: its status, and its text in bytes.
 * @typedef {{ status: number, text: Uint8Array }} Answer
 *
 * The documents beside a review, and the bounds of a decision.
 * @typedef {{ namespace?: Document, params?: Document, steps?: number | bigint, reads?: number | bigint }} Beside
 */

/** The statuses of answers. */
export const Status = Object.freeze({
  ALLOWED: 0, DENIED: 1, POLICY_UNREAD: 2, POLICY_UNCOMPILED: 3, REVIEW_REFUSED: 4, DOCUMENT_REFUSED: 5, OUT_OF_STEPS: 6,
  OVER_LIMIT: 7, NO_MEMORY: 9, OUT_OF_READS: 12, IMAGE_REFUSED: 13,
});

/** The steps and the reads that a decision may take if it is not told otherwise, as those of the gatekeeper. */
export const STEPS = 10_000_000n;
export const READS = 16_777_216n;

const FIRST_ROOM = 65_536;
/** An instance whose memory has grown beyond this is not kept. */
const MOST_KEPT = 268_435_456;
/** A module that has a table and a memory of 64 bits. */
const WIDE = Uint8Array.of(0, 97, 115, 109, 1, 0, 0, 0, 4, 4, 1, 112, 4, 0, 5, 3, 1, 4, 0);

/** Whether this engine takes the module as it is built; if not, the lowered one has to be loaded. */
export const hasWideMemory = () => WebAssembly.validate(WIDE);

/** What was asked is refused. `line` says why, such as `celbpf: K6 validation 0 W5 url`. */
export class Refused extends Error {
  /** @param {number} status @param {string} line */
  constructor(status, line) {
    super(line);
    this.name = 'Refused';
    this.status = status;
    this.line = line;
  }
}

/** The engine did not get to the end of a call: its memory or its stack was too small, or the module is not celbpf's. */
export class Failed extends Error {
  /** @param {unknown} cause */
  constructor(cause) {
    super(`the call did not end: ${cause instanceof Error ? cause.message : cause}`, { cause });
    this.name = 'Failed';
  }
}

const encoder = new TextEncoder();
const decoder = new TextDecoder('utf-8', { ignoreBOM: true });

/** @param {Document | undefined} document */
const bytesOf = document => typeof document === 'string' ? encoder.encode(document) : document ?? new Uint8Array(0);

/** The blocks that a call holds in the memory of an instance. */
class Blocks {
  /** @param {WebAssembly.Exports} exports */
  constructor(exports) {
    this.exports = /** @type {any} */ (exports);
    /** @type {bigint[]} */
    this.held = [];
  }

  /** @param {number} size @returns {bigint} the address of so many bytes */
  take(size) {
    const at = this.exports.host_alloc(BigInt(size));
    if (at === 0n) throw new Error('out of memory');
    this.held.push(at);
    return at;
  }

  /** @param {Uint8Array} bytes @returns {bigint[]} the address of a copy, and its length */
  put(bytes) {
    const at = this.take(bytes.length);
    new Uint8Array(this.exports.memory.buffer).set(bytes, Number(at));
    return [at, BigInt(bytes.length)];
  }

  /** @param {bigint} at @param {number} length @returns {Uint8Array} a copy of what is there */
  copy(at, length) {
    return new Uint8Array(this.exports.memory.buffer).slice(Number(at), Number(at) + length);
  }

  giveBack() {
    for (const at of this.held) this.exports.host_free(at);
  }
}

export class Celbpf {
  /** @param {WebAssembly.Module} module */
  constructor(module) {
    this.module = module;
    /** @type {WebAssembly.Exports | undefined} */
    this.exports = undefined;
    this.room = FIRST_ROOM;
  }

  /**
   * Compiles the module, which is `celbpf.wasm`, or `celbpf32.wasm` if the engine has no wide memory.
   * @param {BufferSource | WebAssembly.Module | Response | Promise<Response>} source its bytes, or what `fetch` gives
   */
  static async load(source) {
    const given = await source;
    if (given instanceof WebAssembly.Module) return new Celbpf(given);
    const bytes = 'arrayBuffer' in given ? await given.arrayBuffer() : given;
    return new Celbpf(await WebAssembly.compile(bytes));
  }

  /**
   * Makes a call of the module.
   * @param {string} name @param {(Document | undefined)[]} documents @param {bigint[]} numbers
   * @returns {Answer}
   */
  call(name, documents, numbers = []) {
    try {
      this.exports ??= new WebAssembly.Instance(this.module).exports;
      const blocks = new Blocks(this.exports);
      const answer = this.#answer(blocks, name, documents.map(bytesOf), numbers);
      blocks.giveBack();
      if (answer.status === Status.NO_MEMORY || blocks.exports.memory.buffer.byteLength > MOST_KEPT) this.exports = undefined;
      return answer;
    } catch (cause) {
      this.exports = undefined;
      throw new Failed(cause);
    }
  }

  /**
   * @param {Blocks} blocks @param {string} name @param {Uint8Array[]} documents @param {bigint[]} numbers
   * @returns {Answer}
   */
  #answer(blocks, name, documents, numbers) {
    const words = [...documents.flatMap(bytes => blocks.put(bytes)), ...numbers];
    const length = blocks.take(8);
    for (let again = false; ; again = true) {
      const room = blocks.take(this.room);
      const status = blocks.exports[name](...words, room, BigInt(this.room), length);
      const count = Number(new DataView(blocks.exports.memory.buffer).getBigUint64(Number(length), true));
      if (count <= this.room) return { status, text: blocks.copy(room, count) };
      if (again) throw new Error(`a room of ${this.room} bytes is too small for the same answer`);
      this.room = count;
    }
  }

  /** The bytes of an answer, which is no refusal. @param {Answer} answer */
  #bytes({ status, text }) {
    if (status > Status.DENIED) throw new Refused(status, decoder.decode(text).trimEnd());
    return text;
  }

  /**
   * Decides a review under a policy as clusters store it.
   * @param {Document} policy @param {Document} review @param {Beside} beside
   * @returns {{ allowed: boolean, json: string }} `json` is the response, an AdmissionReview
   */
  review(policy, review, { namespace, params, steps = STEPS, reads = READS } = {}) {
    const answer = this.call('celbpf_page_review', [policy, review, namespace, params], [BigInt(steps), BigInt(reads)]);
    return { allowed: answer.status === Status.ALLOWED, json: decoder.decode(this.#bytes(answer)) };
  }

  /** The translation of a policy as clusters store it, which `compile` takes. @param {Document} policy */
  translate(policy) {
    return decoder.decode(this.#bytes(this.call('celbpf_page_translate', [policy])));
  }

  /** The image of a policy. @param {Document} policy */
  compile(policy) {
    return this.#bytes(this.call('celbpf_page_compile', [policy]));
  }

  /** The listing of an image. @param {Uint8Array} image */
  list(image) {
    return decoder.decode(this.#bytes(this.call('celbpf_page_list', [image])));
  }

  /**
   * What a debugger replies to commands, one on each line, on the run of an image over these documents.
   * @param {Uint8Array} image @param {Document} commands
   * @param {{ review?: Document, namespace?: Document, params?: Document }} documents
   */
  debug(image, commands, { review, namespace, params } = {}) {
    return decoder.decode(this.#bytes(this.call('celbpf_page_debug', [image, review, namespace, params, commands])));
  }

  /** The version of the module's interface. */
  version() {
    this.exports ??= new WebAssembly.Instance(this.module).exports;
    return /** @type {any} */ (this.exports).celbpf_page_version();
  }
}
