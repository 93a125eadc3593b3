// The state of the page in its address, after `#`: an example by its name, or a whole case, compressed.

// which checkers of types do not know yet
const { CompressionStream, DecompressionStream } = /** @type {any} */ (globalThis);

/** What a page shows: an example and its review, or a case; and the step of the run.
 * @typedef {{ example?: string, review?: string, given?: any, step?: number }} State */

/** Bytes through a stream.
 * @param {Uint8Array} bytes @param {any} stream */
async function through(bytes, stream) {
  const blob = new Blob([/** @type {any} */ (bytes)]);
  return new Uint8Array(await new Response(blob.stream().pipeThrough(stream)).arrayBuffer());
}

/** @param {Uint8Array} bytes */
function toText(bytes) {
  let text = "";
  for (let at = 0; at < bytes.length; at += 8192) text += String.fromCharCode(...bytes.subarray(at, at + 8192));
  return btoa(text).replaceAll("+", "-").replaceAll("/", "_").replace(/=+$/, "");
}

/** The bytes of a text in base64.
 * @param {string} text */
export function bytesOf(text) {
  const read = /** @type {any} */ (Uint8Array).fromBase64;
  if (read) return read.call(Uint8Array, text);
  const found = atob(text), bytes = new Uint8Array(found.length);
  for (let at = 0; at < found.length; at++) bytes[at] = found.charCodeAt(at);
  return bytes;
}

/** What compressed bytes are, as the answer to a request would have it.
 * @param {Uint8Array} bytes @param {string} type */
export function unzipped(bytes, type) {
  const stream = new Blob([/** @type {any} */ (bytes)]).stream().pipeThrough(new DecompressionStream("gzip"));
  return new Response(stream, { headers: { "Content-Type": type } });
}

/** A value as a part of an address.
 * @param {any} given */
async function packed(given) {
  return toText(await through(new TextEncoder().encode(JSON.stringify(given)), new CompressionStream("deflate-raw")));
}

/** The value of a part of an address.
 * @param {string} text */
async function unpacked(text) {
  return JSON.parse(new TextDecoder().decode(await through(bytesOf(text.replaceAll("-", "+").replaceAll("_", "/")), new DecompressionStream("deflate-raw"))));
}

/** What follows `#` for a state.
 * @param {State} state */
export async function hashOf({ example, review, given, step }) {
  const words = new URLSearchParams();
  if (given) words.set("case", await packed(given));
  else {
    words.set("example", example ?? "");
    words.set("review", review ?? "");
  }
  if (step) words.set("step", String(step));
  return `#${words}`;
}

/** The state that an address has after `#`; null if it has none, or one that cannot be read.
 * @param {string} hash @returns {Promise<State | null>} */
export async function stateOf(hash) {
  const words = new URLSearchParams(hash.replace(/^#/, "")), step = Number(words.get("step")) || 0;
  try {
    const given = words.get("case");
    if (given) return { given: await unpacked(given), step };
  } catch {
    return null;
  }
  const example = words.get("example"), review = words.get("review");
  return example ? { example, review: review ?? "", step } : null;
}
