// Whether the page's plans of searches, by which it says when one ends, are those of tools/search.py:
//
//   python3 web/test_plans.py | node web/test_plans.mjs
import fs from 'node:fs';
import { load } from './load.mjs';

const { planOf } = load(['fields.js'], ['planOf']);
let failed = 0;
const codes = JSON.parse(fs.readFileSync(0, 'utf8'));
for (const { size, rows, ends } of codes) {
  const length = rows[0].length;
  const got = planOf(size, rows).ends.map((end) => [end.blocks, end.bound]);
  // (where a level is whole tools/search.py gives the least weight, here 999, and above the length the page goes no further)
  const wanted = ends.map(([blocks, bound]) => [blocks, bound === 999 ? null : bound]);
  const compared = wanted.slice(0, Math.min(wanted.length, got.length));
  const same = compared.every(([blocks, bound], i) => got[i][0] === blocks && got[i][1] === (bound ?? Infinity)) && compared.length >= Math.min(wanted.length, 1);
  const stops = got.length >= wanted.length || got[got.length - 1][1] > length;
  if (!same || !stops) {
    failed += 1;
    console.log(`failed: a code of length ${length} over ${size} elements: ${JSON.stringify(got.slice(0, 12))}, wanted ${JSON.stringify(wanted)}`);
  }
}
console.log(`${codes.length - failed} passed, ${failed} failed`);
process.exit(failed ? 1 : 0);
