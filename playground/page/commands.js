// The commands of a session, and what is said of one that is not known.

// each with what it does
/** @type {[string, string][]} */
const COMMANDS = [
  ["s N", "N steps on"], ["rs N", "N steps back"], ["g K", "step K"], ["c N", "on to a breakpoint, at most N steps"], ["rc", "back to a breakpoint"],
  ["b N", "breakpoint at slot N"], ["d N", "without it"], ["r", "registers"], ["v H", "value H"], ["m A L", "L bytes of memory from A on, as m 0x300000000 16"],
  ["f", "calls"], ["l", "listing"],
  ["w", "verdict: the outcome (1 skipped, 2 rejected, 3 denied, 4 admitted) and the number of denials; for validations 1 false, 2 error; for messages a value"],
];
const SHOWN = COMMANDS.map(([form, words]) => `${form}: ${words}`);
// the answer to what is no command
const UNKNOWN = "? what";

/** What is beside the input. */
export const HELP = SHOWN.join(" \u00b7 ");

/** What is said after these replies to lines: how commands that were not known are written; empty if all were.
 * @param {string[]} lines @param {string[]} replies */
export function usage(lines, replies) {
  if (!replies.includes(UNKNOWN)) return "";
  const word = lines.length === 1 ? lines[0].split(" ")[0] : "", own = SHOWN.filter((_, place) => COMMANDS[place][0].split(" ")[0] === word);
  return own.length ? `write ${own.join("")}` : `commands: ${HELP}`;
}
