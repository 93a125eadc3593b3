// The page: it decides a case whenever one is given or changed, and then shows why.

import { bytesOf, hashOf, stateOf, unzipped } from "./page/address.js";
import { Calls, Stopped, STOPPED } from "./page/calls.js";
import { byId, fill, steady } from "./page/dom.js";
import { Editors } from "./page/editors.js";
import { download, pageText } from "./page/keeping.js";
import { partsView } from "./page/parts_view.js";
import { reviewView } from "./page/review_view.js";
import { RunView } from "./page/run_view.js";
import { SessionView } from "./page/session_view.js";
import { hideWhy, showDecision, showDeciding, showJson, showNoDecision, showRefusals, showSaid } from "./page/verdict_view.js";

// how long a change waits for the next one, in milliseconds
const PAUSE = 250;
// the longest address that browsers and mail keep whole
const LONGEST = 30000;

/** The value of an element that holds JSON.
 * @param {string} id */
const held = (id) => JSON.parse(byId(id).textContent || "null");
/** What an element holds in compressed bytes.
 * @param {string} id @param {string} type */
const heldBytes = (id, type) => unzipped(bytesOf(byId(id).textContent.trim()), type);

class Page {
  /** @param {Calls} calls */
  constructor(calls) {
    this.calls = calls;
    this.editors = new Editors(held("first"), () => this.changed());
    this.run = new RunView(() => this.keepAddress());
    this.session = new SessionView((commands) => this.calls.ask("replies", commands));
    this.timer = 0;
    /** What was put into the address last.
     * @type {string | undefined} */
    this.hash = undefined;
    this.isDecided = false;
    this.firstStep = 0;
    this.token = 0;
    /** What waits for the examples.
     * @type {Promise<void> | null} */
    this.examples = null;
    byId("decide").addEventListener("click", () => this.decide());
    byId("link").addEventListener("click", () => this.copyLink());
    byId("keep").addEventListener("click", () => download("decision.html", pageText(this.state())));
    document.addEventListener("keydown", (event) => {
      if (event.key === "Enter" && (event.ctrlKey || event.metaKey)) this.decide();
    });
    document.addEventListener("click", (event) => this.clicked(/** @type {Element} */ (event.target)));
    window.addEventListener("hashchange", () => this.fromAddress());
    /** Whether the address has what cannot be read; it is kept until a field changes.
     * @type {boolean} */
    this.isBroken = false;
  }

  /** What the page shows, as its address and a kept file have it. */
  state() {
    return { given: this.editors.case(), step: this.run.now };
  }

  /** Begins with what the address has, or the file, or the first example. */
  async begin() {
    const kept = held("case");
    if (await this.fromAddress()) return;
    if (!kept) {
      this.editors.choose("");
      return;
    }
    byId("inputs").open = false;
    fill(byId("files"), (kept.files ?? []).join(", "));
    this.give(kept);
  }

  /** Reads the examples, once, after what is decided first. */
  loadExamples() {
    this.examples ??= heldBytes("examples", "application/json").json().then((found) => this.editors.add(found));
    return this.examples;
  }

  /** Shows a state.
   * @param {import("./page/address.js").State} state */
  give(state) {
    this.firstStep = state.step ?? 0;
    this.isBroken = false;
    if (state.given) {
      this.editors.give(state.given);
      this.decide();
    } else this.editors.choose(state.example ?? "", state.review);
  }

  /** Shows the state of the address, if it has one; of one that cannot be read no other case is shown instead. */
  async fromAddress() {
    if (location.hash === this.hash) return true;
    if (location.hash.length < 2 || byId(location.hash.slice(1))) return false;
    const state = await stateOf(location.hash);
    if (state?.example) await this.loadExamples();
    const isThere = Boolean(state) && (!state?.example || this.editors.has(state.example, state.review));
    if (isThere && state) this.give(state);
    else this.giveNothing(state ? "The page has no example of this name." : "The address has no case that can be read: the link may be cut.");
    return true;
  }

  /** Shows empty fields, and why; the address stays.
   * @param {string} words */
  giveNothing(words) {
    this.editors.give({});
    this.decide();
    this.isBroken = true;
    this.hash = undefined;
    this.say(`${words} Choose an example, or paste a policy and a review.`);
  }

  /** Decides after a pause, in which there may be another change. */
  changed() {
    clearTimeout(this.timer);
    // what is still decided is of the case before
    this.token += 1;
    this.isBroken = false;
    steady(() => {
      fill(byId("files"));
      showDeciding();
    });
    document.documentElement.dataset.state = "busy";
    this.timer = window.setTimeout(() => this.decide(), this.editors.shown ? 0 : PAUSE);
  }

  /** Goes where a button or a link leads.
   * @param {Element} target */
  clicked(target) {
    const step = target.closest("button[data-step]"), place = target.closest("button.place"), part = target.closest("button[data-part]");
    const data = (/** @type {Element} */ one) => /** @type {HTMLElement} */ (one).dataset;
    if (step) this.run.jump(Number(data(step).step));
    if (place) this.editors.goTo(data(place).field ?? "", Number(data(place).line), Number(data(place).column));
    if (part) {
      byId(data(part).part ?? "").scrollIntoView();
      byId(data(part).part ?? "").focus({ preventScroll: true });
    }
  }

  /** Decides the case, and shows the decision and why. */
  async decide() {
    clearTimeout(this.timer);
    const token = ++this.token, { dataset } = document.documentElement;
    this.calls.drop();
    steady(() => {
      if (!this.isBroken) fill(byId("status"));
      showDeciding();
    });
    dataset.state = "busy";
    this.isDecided = false;
    try {
      const begin = performance.now(), decision = await this.calls.ask("decide", this.editors.case());
      if (token !== this.token) return;
      this.isDecided = true;
      steady(() => this.show(decision, performance.now() - begin));
      dataset.state = "explaining";
      dataset.decided ??= String(Math.round(performance.now()));
      this.loadExamples();
      await this.explain(decision, token);
      if (token === this.token) this.keepAddress();
    } catch (why) {
      if (token === this.token) this.failed(/** @type {Error} */ (why));
    }
    if (token === this.token) dataset.state = "done";
  }

  /** Shows a decision.
   * @param {import("./explain/explaining.js").Decision} decision @param {number} time in milliseconds */
  show(decision, time) {
    showDecision(decision, time);
    this.editors.showRequest(decision.isManifest);
    showJson("response", decision.response);
    showJson("made-review", decision.review);
  }

  /** Shows why a decision is as it is.
   * @param {import("./explain/explaining.js").Decision} decision @param {number} token */
  async explain(decision, token) {
    const isDecided = ["allowed", "denied", "undecided"].includes(decision.outcome);
    byId("why").hidden = byId("debugger").hidden = !isDecided;
    if (decision.outcome === "refused") {
      const refusals = await this.calls.ask("refusals");
      if (token === this.token) steady(() => showRefusals(refusals));
    }
    if (!isDecided) {
      this.run.take(null, 0);
      return;
    }
    const { said, parts, review, words } = await this.calls.ask("explain");
    if (token !== this.token) return;
    if (decision.outcome !== "undecided") steady(() => showSaid(said));
    fill(byId("parts"), ...partsView(parts), words);
    fill(byId("review-tree"), reviewView(review));
    this.session.begin();
    const data = await this.calls.ask("run");
    if (token === this.token) this.run.take(data, this.firstStep);
    this.firstStep = 0;
  }

  /** Says what kept the page from an answer.
   * @param {Error} why */
  failed(why) {
    if (why instanceof Stopped && why.message !== STOPPED) return;
    const words = why instanceof Stopped ? STOPPED : `the page has a fault: ${why.message}`;
    if (!this.isDecided) showNoDecision(words);
    else {
      hideWhy();
      this.say(`Why it is so is not shown: ${words}.`);
    }
  }

  /** Says something of the page itself.
   * @param {string} words */
  say(words) {
    fill(byId("status"), words);
  }

  /** Puts the state into the address. */
  keepAddress() {
    clearTimeout(this.keeping);
    if (this.isBroken) return;
    this.keeping = window.setTimeout(async () => {
      const hash = await this.hashNow();
      this.hash = hash.length <= LONGEST ? hash : "#";
      history.replaceState(null, "", this.hash);
    }, PAUSE);
  }

  hashNow() {
    return hashOf({ ...(this.editors.shown ?? { given: this.editors.case() }), step: this.run.now });
  }

  async copyLink() {
    const link = location.href.split("#")[0] + (await this.hashNow());
    try {
      await navigator.clipboard.writeText(link);
      this.say(link.length > LONGEST ? "The link is copied. It is long, and some programs cut it: keep a file instead." : "The link is copied.");
    } catch {
      this.say("The address of this page is the link.");
    }
  }
}

/** Begins the page. */
async function begin() {
  try {
    const module = WebAssembly.compileStreaming(heldBytes("module", "application/wasm"));
    await new Page(new Calls(byId("worker").textContent, module, held("tables"))).begin();
    await module;
  } catch (why) {
    fill(byId("status"), `This browser cannot run the page: ${why instanceof Error ? why.message : why}`);
  }
}

begin();
