/**
 * Makes the calls of cases, and compares the answers with the programs'. It runs in Node, in Deno and in a page.
 *
 * A case is a call with its documents and numbers, and the status and the text that are wanted. A case `may`
 * fail if the engine's stack may be too small for it. After one that is `hostile` the first case is decided again.
 * @typedef {{ name: string, call: string, documents: string[], numbers: string[], status: number, text: string, kind: string,
 *   may?: boolean }} Case
 */
import { Celbpf, Failed, Refused, Status } from '../celbpf.mjs';

const HALF = 1n << 30n;
const PART = 1n << 24n;
const TURNS = 3_000;

/** @param {string} text in base64 */
const bytesOf = text => Uint8Array.from(atob(text), one => one.charCodeAt(0));

/** @param {Uint8Array} one @param {Uint8Array} other */
const isSame = (one, other) => one.length === other.length && one.every((byte, place) => byte === other[place]);

/** @param {Uint8Array} text */
const shown = text => JSON.stringify(new TextDecoder().decode(text.slice(0, 200)));

export class Checks {
  /** @param {Celbpf} celbpf @param {Case[]} cases */
  constructor(celbpf, cases) {
    this.celbpf = celbpf;
    this.cases = cases;
    /** @type {Map<string, number>} how many of each kind have the wanted answer */
    this.passed = new Map();
    /** @type {string[]} */
    this.faults = [];
    this.failed = 0;
  }

  /** @param {string} kind @param {string} name @param {string} fault what is wrong, if anything */
  note(kind, name, fault) {
    if (fault) this.faults.push(`${kind} ${name}: ${fault}`);
    else this.passed.set(kind, (this.passed.get(kind) ?? 0) + 1);
  }

  /** What is wrong with the answer to a case. @param {Case} one */
  fault(one) {
    const wanted = bytesOf(one.text);
    try {
      const { status, text } = this.celbpf.call(one.call, one.documents.map(bytesOf), one.numbers.map(BigInt));
      const held = /** @type {any} */ (this.celbpf.exports)?.heap_used() ?? 0n;
      if (held !== 0n) return `${held} bytes are still held`;
      if (status === one.status && isSame(text, wanted)) return '';
      return `wanted ${one.status} ${shown(wanted)}, got ${status} ${shown(text)}`;
    } catch (why) {
      if (!(why instanceof Failed && one.may)) return String(why);
      this.failed += 1;
      return '';
    }
  }

  /** Each case, and the first one again after each that is hostile. */
  compare() {
    for (const one of this.cases) {
      this.note(one.kind, one.name, this.fault(one));
      if (one.kind === 'hostile') this.note('decision after it', one.name, this.fault(this.cases[0]));
    }
  }

  /** An instance whose memory is taken refuses what needs more, and the next call has a new one. */
  fullMemory() {
    this.celbpf.version();
    const { host_alloc: take } = /** @type {any} */ (this.celbpf.exports);
    const held = this.celbpf.exports;
    take(HALF);
    while (take(PART) !== 0n);
    this.note('memory', 'full', this.fullFault());
    this.note('memory', 'a new instance', this.celbpf.exports === held ? 'the old one is kept' : '');
    this.note('decision after it', 'full memory', this.fault(this.cases[0]));
  }

  fullFault() {
    try {
      const { status } = this.celbpf.call('celbpf_page_review', ['x'.repeat(Number(PART)), '', '', ''], [1n, 1n]);
      return status === Status.NO_MEMORY ? '' : `status ${status}`;
    } catch (why) {
      return why instanceof Failed ? '' : String(why);
    }
  }

  /** Wrong answers are noticed: of another status, cut, and of a call that is none. */
  notices() {
    const [one] = this.cases, cut = btoa(atob(one.text).slice(0, -1));
    const wrong = { 'another status': { status: one.status + 1 }, 'a text that is cut': { text: cut }, 'no such call': { call: 'none' } };
    for (const [name, other] of Object.entries(wrong)) {
      this.note('wrong answers', name, this.fault({ ...one, ...other }) ? '' : 'it is not noticed');
    }
  }

  /** Blocks of many sizes, each filled with a byte of its own: they are apart, and are there until they are given back. */
  heap() {
    this.celbpf.version();
    const { host_alloc: take, host_free: give, heap_used: used, memory } = /** @type {any} */ (this.celbpf.exports);
    /** @type {{ at: bigint, size: number, mark: number }[]} */
    const blocks = [];
    let faults = 0, seed = 1;
    /** @param {number} most */
    const next = most => (seed = (seed * 48_271) % 2_147_483_647) % most;
    /** @param {typeof blocks[0]} block */
    const drop = ({ at, size, mark }) => {
      const bytes = new Uint8Array(memory.buffer, Number(at), size);
      if (!bytes.every(byte => byte === mark) || at % 16n !== 0n) faults += 1;
      give(at);
    };
    for (let turn = 0; turn < TURNS; turn += 1) {
      const size = next(turn % 10 === 0 ? 1_000_000 : 2_000), at = take(BigInt(size)), mark = next(256);
      new Uint8Array(memory.buffer, Number(at), size).fill(mark);
      blocks.push({ at, size, mark });
      if (turn % 3 !== 0) drop(blocks.splice(next(blocks.length), 1)[0]);
    }
    blocks.forEach(drop);
    this.note('heap', `${TURNS} blocks`, faults ? `${faults} blocks are wrong` : '');
    this.note('heap', 'empty', used() === 0n ? '' : `${used()} bytes are held`);
    this.note('heap', 'too large', take((1n << 32n) + 1n) === 0n && take(~0n & ((1n << 64n) - 1n)) === 0n ? '' : 'it is given');
  }

  /** A call that traps takes its instance with it, and an instance that a call has left so traps again. */
  traps() {
    this.note('trap', 'an address that is none', this.trapFault());
    this.note('decision after it', 'trap', this.fault(this.cases[0]));
  }

  trapFault() {
    this.celbpf.version();
    const { celbpf_page_compile: compile } = /** @type {any} */ (this.celbpf.exports);
    for (const turn of ['first', 'second']) {
      try {
        // in the second turn nothing else is wrong than that the first has not ended
        if (turn === 'first') compile(1n << 31n, 8n, 0n, 0n, 1n << 31n);
        else compile(0n, 0n, 16n, 0n, 16n);
        return `the ${turn} call ends`;
      } catch (why) {
        if (!(why instanceof WebAssembly.RuntimeError)) return String(why);
      }
    }
    this.celbpf.exports = undefined;
    return '';
  }

  /** The calls of the wrapper, on the first policy and review. */
  wrapper() {
    const [policy, review] = this.cases[0].documents.map(bytesOf);
    const decided = this.celbpf.review(new TextDecoder().decode(policy), review);
    this.note('wrapper', 'review', decided.allowed === JSON.parse(decided.json).response.allowed ? '' : decided.json);
    const image = this.celbpf.compile(policy);
    this.note('wrapper', 'list', this.celbpf.list(image).endsWith('exit\n') ? '' : 'no listing');
    this.note('wrapper', 'debug', this.celbpf.debug(image, 'g 0\n', { review }).startsWith('step 0 ') ? '' : 'no session');
    this.note('wrapper', 'translate', JSON.parse(this.celbpf.translate(policy)).kind ? '' : 'no translation');
    this.note('wrapper', 'version', this.celbpf.version() === 1 ? '' : 'another version');
    this.note('wrapper', 'refusal', this.refusedFault(() => this.celbpf.compile('[]'), Status.POLICY_UNREAD, 'celbpf: K2'));
    const none = () => this.celbpf.review(policy, review, { steps: 1 });
    this.note('wrapper', 'steps', this.refusedFault(none, Status.OUT_OF_STEPS, 'celbpf: N4'));
  }

  /** @param {() => unknown} call @param {number} status @param {string} line */
  refusedFault(call, status, line) {
    try {
      return `it gives ${call()}`;
    } catch (why) {
      if (why instanceof Refused && why.status === status && why.line === line) return '';
      return String(why);
    }
  }
}

/**
 * @param {BufferSource | Response} module @param {Case[]} cases
 * @returns {Promise<{ told: string, faults: string[] }>}
 */
export async function checked(module, cases) {
  const checks = new Checks(await Celbpf.load(module), cases);
  checks.wrapper();
  checks.compare();
  checks.notices();
  checks.heap();
  checks.fullMemory();
  checks.traps();
  const counts = [...checks.passed].map(([kind, count]) => `${count} of ${kind}`);
  return { told: `${counts.join(', ')}; ${checks.failed} failed as they may`, faults: checks.faults };
}
