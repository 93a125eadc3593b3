// Words that are alike: which of some may be meant by one that is none of them.

// how alike words are of which one may be meant by the other
const ALIKE = 0.75;

/** The longest text that two texts share, as its places in both.
 * @param {string} one @param {string} other */
function longest(one, other) {
  let best = { length: 0, at: 0, there: 0 };
  for (let at = 0; at < one.length; at++) {
    for (let there = 0; there < other.length; there++) {
      let length = 0;
      while (at + length < one.length && one[at + length] === other[there + length]) length += 1;
      if (length > best.length) best = { length, at, there };
    }
  }
  return best;
}

/** How many characters two texts share, counted from the longest text that they share (Ratcliff and Obershelp).
 * @param {string} one @param {string} other @returns {number} */
function shared(one, other) {
  const { length, at, there } = longest(one, other);
  if (!length) return 0;
  return length + shared(one.slice(0, at), other.slice(0, there)) + shared(one.slice(at + length), other.slice(there + length));
}

/** The word that is most alike, if one is alike enough; else an empty text.
 * @param {string} word @param {string[]} known */
export function closest(word, known) {
  let best = "", most = ALIKE;
  for (const one of known) {
    const ratio = (2 * shared(one, word)) / (one.length + word.length);
    if (ratio > most || (ratio === most && (!best || one > best))) [best, most] = [one, ratio];
  }
  return best;
}

/** The word that is most alike, whatever its capitals are.
 * @param {string} word @param {string[]} known */
export function near(word, known) {
  const byLetters = new Map(known.map((one) => [one.toLowerCase(), one]));
  return byLetters.get(closest(word.toLowerCase(), [...byLetters.keys()])) ?? "";
}
