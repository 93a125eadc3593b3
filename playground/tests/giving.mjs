// What the tests are given: the tables of the tools, and calls to the module, or to the programs if there is no module.

import { execFileSync, spawnSync } from "node:child_process";
import { existsSync, mkdtempSync, readFileSync, rmSync, writeFileSync } from "node:fs";
import { tmpdir } from "node:os";
import { dirname, join } from "node:path";
import { fileURLToPath } from "node:url";
import { giveTables } from "../data/tables.js";

export const ROOT = join(dirname(fileURLToPath(import.meta.url)), "..", "..");
const OUT = join(ROOT, "crates");
const MODULES = ["wasm", "quick"].map((kind) => join(OUT, "celbpf_page", "out", kind, "celbpf32.wasm"));

/** What a function of the tools prints as JSON.
 * @param {string} line @param {any} [given] */
export function python(line, given = null) {
  const words = `import json, sys\nsys.path.insert(0, ${JSON.stringify(join(ROOT, "tools"))})\nsys.dont_write_bytecode = True\n${line}`;
  return JSON.parse(execFileSync("python3", ["-c", words], { encoding: "utf8", input: JSON.stringify(given), maxBuffer: 1e9 }));
}

giveTables(python("from celbpf_tools.playground.tables import tables\nprint(json.dumps(tables()))"));

/** The program of this name, proved or else not; empty if there is none.
 * @param {string} name */
export function programOf(name) {
  const given = process.env.CELBPF_PROGRAM;
  if (given) return name === "celbpf" ? given : join(dirname(given), name);
  return [join(OUT, name, "out", name), join(OUT, name, "out", "quick", name)].find(existsSync) ?? "";
}

/** The calls of the module by the programs, for a machine on which there is no module. */
class Programs {
  constructor() {
    this.folder = mkdtempSync(join(tmpdir(), "playground-"));
    process.on("exit", () => rmSync(this.folder, { recursive: true, force: true }));
  }

  /** @param {string} name @param {string | Uint8Array} content */
  file(name, content) {
    const path = join(this.folder, name);
    writeFileSync(path, content);
    return path;
  }

  /** @param {string | null} review @param {string | null} namespace @param {string | null} params */
  documents(review, namespace, params) {
    const given = Object.entries({ review, namespace, params });
    return given.flatMap(([name, text]) => (text ? [`--${name}`, this.file(`${name}.json`, text)] : []));
  }

  /** @param {string} name @param {string[]} words @param {string} [input] */
  ran(name, words, input = "") {
    const ran = spawnSync(programOf(name), words, { input, encoding: "utf8", maxBuffer: 1e9 });
    const line = words.reduce((said, word) => said.replace(`celbpf: ${word}: `, "celbpf: "), ran.stderr);
    return { status: ran.status ?? 9, text: (ran.status ?? 9) > 1 ? line : ran.stdout };
  }

  /** The gatekeeper's response to a review on a line.
   * @param {string} policy @param {string} review @param {string | null} namespace @param {string | null} params */
  review(policy, review, namespace, params) {
    const words = ["--policy", this.file("wide.json", policy), ...this.documents(null, namespace, params)];
    const ran = this.ran("gatekeeper", words, `${review.replace(/[\r\n]/g, " ")}\n`);
    if (ran.status) return ran;
    const { refused, response } = JSON.parse(ran.text);
    return refused ? { status: 4, text: `celbpf: ${refused}` } : { status: response.allowed ? 0 : 1, text: ran.text };
  }

  /** @param {string} policy */
  translate(policy) {
    return this.ran("gatekeeper", ["--translate", this.file("wide.json", policy)]);
  }

  /** @param {string} policy */
  compile(policy) {
    const image = join(this.folder, "policy.img"), ran = this.ran("celbpf", ["compile", this.file("policy.json", policy), image]);
    return ran.status ? ran : { ...ran, image: new Uint8Array(readFileSync(image)) };
  }

  /** @param {Uint8Array} image */
  list(image) {
    return this.ran("celbpf", ["list", this.file("listed.img", image)]);
  }

  /** @param {Uint8Array} image @param {string | null} review @param {string | null} namespace @param {string | null} params @param {string} commands */
  debug(image, review, namespace, params, commands) {
    return this.ran("celbpf", ["debug", this.file("debugged.img", image), ...this.documents(review, namespace, params)], commands);
  }
}

/** The calls of a module that is there, or of the programs; null if there is neither. */
async function callsOf() {
  const given = process.env.CELBPF_MODULE ?? "";
  // an engine that does not take the module takes the one for memories of 32 bits that is beside it
  const files = [given, join(dirname(given), "celbpf32.wasm"), ...MODULES].filter(existsSync);
  const bytes = files.map((file) => readFileSync(file)).find((one) => WebAssembly.validate(one));
  if (bytes) {
    const { Module } = await import("../calls/module.js");
    return new Module(new WebAssembly.Module(bytes));
  }
  return programOf("celbpf") && programOf("gatekeeper") ? new Programs() : null;
}

/** @type {import("../asking/program.js").Calls | null} */
export const CALLS = await callsOf();
/** Whether the answers are those of a module, which answers a thousand times as fast as programs that are started. */
export const IS_MODULE = CALLS !== null && !(CALLS instanceof Programs);
/** What a test is told if there is nothing to ask. */
export const ASKING = CALLS ? {} : { skip: "there is neither a module nor the programs" };
