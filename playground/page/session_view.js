// A session of the debugger: commands, and the replies to all of them. A session is a function of its commands, so that
// nothing is kept of it but these.

import { byId, element, fill } from "./dom.js";
import { Stopped } from "./calls.js";
import { HELP, usage } from "./commands.js";

/** The commands so far with their replies. */
export class SessionView {
  /** @param {(commands: string) => Promise<string>} ask */
  constructor(ask) {
    this.ask = ask;
    /** The commands so far.
     * @type {string} */
    this.commands = "";
    this.lines = 0;
    this.begin();
    byId("commands-help").textContent = HELP;
    byId("session").addEventListener("submit", (/** @type {Event} */ event) => {
      event.preventDefault();
      this.take(byId("command").value);
    });
    byId("restart").addEventListener("click", () => this.begin());
  }

  /** Begins a session without commands. */
  begin() {
    this.commands = "";
    this.lines = 0;
    fill(byId("replies"));
  }

  /** Takes commands, several if they are separated by semicolons.
   * @param {string} given */
  async take(given) {
    const lines = given.split(";").map((one) => one.trim()).filter(Boolean);
    if (!lines.length) return;
    const commands = this.commands + lines.map((line) => `${line}\n`).join("");
    try {
      const replies = (await this.ask(commands)).split("\n"), shown = replies.slice(this.lines);
      this.commands = commands;
      this.lines = replies.length;
      byId("replies").append(element("b", {}, `> ${lines.join("; ")}\n`), element("span", {}, `${shown.join("\n")}\n`), usage(lines, shown) && element("em", {}, `${usage(lines, shown)}\n`));
      byId("replies").scrollTop = byId("replies").scrollHeight;
      byId("command").value = "";
    } catch (why) {
      if (!(why instanceof Stopped)) throw why;
      byId("replies").append(element("b", {}, `> ${lines.join("; ")}\n`), `${why.message}\n`);
    }
  }
}
