// Decides a review under a policy. usage: node example.mjs MODULE POLICY REVIEW
import { readFile } from 'node:fs/promises';
import { Celbpf, Refused } from './celbpf.mjs';

const [module, policy, review] = await Promise.all(process.argv.slice(2).map(file => readFile(file)));
const celbpf = await Celbpf.load(module);
try {
  const { allowed, json } = celbpf.review(policy, review);
  console.log(allowed ? 'allowed' : 'denied', json);
} catch (why) {
  if (!(why instanceof Refused)) throw why;
  console.error(why.line);
  process.exitCode = 3;
}
