// The worker that makes the calls. One that takes longer than ten seconds is ended, and another is begun.

const LIMIT = 10000;
export const STOPPED = "stopped after ten seconds";

/** What was asked was stopped, or is of no use any more. */
export class Stopped extends Error {}

/** Asks a worker, one question after another. */
export class Calls {
  /** @param {string} script @param {Promise<WebAssembly.Module>} module @param {any} tables */
  constructor(script, module, tables) {
    this.address = URL.createObjectURL(new Blob([script], { type: "text/javascript" }));
    this.module = module;
    this.tables = tables;
    /** @type {Map<number, { done: (found: any) => void, failed: (why: Error) => void, timer: number }>} */
    this.waiting = new Map();
    this.next = 0;
    this.begin();
  }

  begin() {
    const worker = new Worker(this.address);
    this.worker = worker;
    this.worker.onmessage = ({ data: { id, found, fault } }) => {
      const one = this.waiting.get(id);
      if (!one) return;
      this.waiting.delete(id);
      clearTimeout(one.timer);
      if (fault) one.failed(new Error(fault));
      else one.done(found);
    };
    this.worker.onerror = (event) => this.end(new Error(event.message));
    // the worker begins while the module is still compiled
    this.begun = this.module.then((module) => worker.postMessage({ id: -1, name: "begin", given: { module, tables: this.tables } }));
  }

  /** Ends the worker with all that was asked of it, and begins another.
   * @param {Error} why */
  end(why) {
    this.worker?.terminate();
    const all = [...this.waiting.values()];
    this.waiting.clear();
    for (const one of all) {
      clearTimeout(one.timer);
      one.failed(why);
    }
    this.begin();
  }

  /** Ends what is still asked, since something else is wanted. */
  drop() {
    if (this.waiting.size) this.end(new Stopped("another case is decided"));
  }

  /** The answer of the worker.
   * @param {string} name @param {any} [given] @returns {Promise<any>} */
  async ask(name, given) {
    await this.begun;
    return new Promise((done, failed) => {
      const id = this.next++, timer = window.setTimeout(() => this.end(new Stopped(STOPPED)), LIMIT);
      this.waiting.set(id, { done, failed, timer });
      this.worker?.postMessage({ id, name, given });
    });
  }
}
