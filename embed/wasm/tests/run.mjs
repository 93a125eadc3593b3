// Compares the answers of a module with those of cases. usage: node run.mjs MODULE CASES
import { readFile } from 'node:fs/promises';
import { hasWideMemory } from '../celbpf.mjs';
import { checked } from './checks.mjs';

const [module, cases] = process.argv.slice(2);
if (module === '--wide') {
  console.log(hasWideMemory());
} else {
  const { told, faults } = await checked(await readFile(module), JSON.parse(await readFile(cases, 'utf8')));
  for (const fault of faults) console.error(fault);
  console.log(told);
  process.exitCode = faults.length ? 1 : 0;
}
