// Texts in YAML from a seed: pieces of others, with characters that are put in, left out or changed.

const BITS = [
  " ", "\n", ":", ": ", "- ", "#", " #", "'", '"', "{", "}", "[", "]", ",", "|", ">", "\n\n", "  ", "\\", "&a", "!", "?", "~", "-", "0", "1.5", "\t", "...", "---\n",
  "|-\n", ">+\n", "% ", "\n  x: y\n", "a: b", "\\n",
];
const MOST_LINES = 10;

/** Numbers below another from a seed. */
export function numbers(seed) {
  let state = seed;
  return (most) => {
    state = (state * 1103515245 + 12345) % 2147483648;
    return Math.floor(state / 65536) % most;
  };
}

/** A few lines of a text, as far to the left as they can be. */
function cutOut(text, number) {
  const lines = text.split("\n"), begin = lines.length > MOST_LINES ? number(lines.length - MOST_LINES) : 0;
  const some = lines.slice(begin, begin + MOST_LINES), words = some.filter((line) => line.trim());
  const least = words.length ? Math.min(...words.map((line) => /^ */.exec(line)[0].length)) : 0;
  return some.map((line) => line.slice(least)).join("\n");
}

/** So many texts that are made of these. */
export function spoiled(texts, count, seed) {
  const number = numbers(seed);
  return Array.from({ length: count }, () => {
    let text = cutOut(texts[number(texts.length)], number);
    for (let changes = number(4); changes > 0; changes--) {
      const at = number(text.length + 1), bit = number(3) ? BITS[number(BITS.length)] : "";
      text = text.slice(0, at) + bit + text.slice(at + (number(2) ? number(4) : 0));
    }
    return text;
  });
}
