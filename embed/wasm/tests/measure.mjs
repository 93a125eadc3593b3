// How fast a module decides the examples. usage: node measure.mjs MODULE [EXAMPLES]
import { existsSync, readdirSync, readFileSync } from 'node:fs';
import { fileURLToPath } from 'node:url';
import { Celbpf } from '../celbpf.mjs';

const REVIEW = '.review.json';
const SECONDS = 3;
const [file, folder = fileURLToPath(new URL('../../../examples/policies', import.meta.url))] = process.argv.slice(2);

/** The policies, the reviews and the documents beside them. */
function* documents() {
  for (const name of readdirSync(folder).sort()) {
    const read = of => existsSync(`${folder}/${name}/${of}`) ? readFileSync(`${folder}/${name}/${of}`) : undefined;
    const policy = read('policy.json');
    if (!policy) continue;
    for (const review of readdirSync(`${folder}/${name}`).filter(one => one.endsWith(REVIEW))) {
      const stem = review.slice(0, -REVIEW.length), beside = kind => read(`${stem}.${kind}.json`) ?? read(`${kind}.json`);
      yield [policy, read(review), { namespace: beside('namespace'), params: beside('params') }];
    }
  }
}

const given = [...documents()], bytes = readFileSync(file);
const begin = performance.now();
const celbpf = await Celbpf.load(bytes);
celbpf.version();
const made = performance.now();
celbpf.review(...given[0]);
const decided = performance.now();
console.log(`an instance in ${(made - begin).toFixed(0)} ms, its first decision in ${(decided - made).toFixed(0)} ms more`);
for (let turn = 0; turn < 2; turn += 1) {
  const from = performance.now();
  let count = 0;
  for (; performance.now() - from < 1000 * SECONDS; count += given.length) for (const one of given) celbpf.review(...one);
  const rate = 1000 * count / (performance.now() - from);
  console.log(`${given.length} reviews over and over: ${rate.toFixed(0)} a second, each with its policy compiled anew`);
}
