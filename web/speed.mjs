// Prints how long the module and the native program take for some searches, in seconds of processor time:
//
//   node web/speed.mjs MODULE.wasm PROGRAM
import { spawnSync } from 'node:child_process';
import fs from 'node:fs';
import { load } from './load.mjs';

const { hostOf, Ended } = load(['host.js'], ['hostOf', 'Ended']);
const [moduleFile, program] = process.argv.slice(2);
const module = new WebAssembly.Module(fs.readFileSync(moduleFile));
const SEARCHES = [
  ['BCHCode(63,11,GF(2))', 1048576], ['BCHCode(127,27,GF(2))', 300000], ['BCHCode(255,45,GF(2))', 60000],
  ['BCHCode(80,14,GF(3))', 40000], ['BCHCode(85,14,GF(4))', 40000], ['BCHCode(80,20,GF(9))', 20000],
];

function ofModule(input, budget) {
  const before = process.cpuUsage();
  let text = '';
  const host = hostOf({ words: ['codes', 'run', `budget=${budget}`], input, hears: { output: (piece) => { text += Buffer.from(piece).toString(); }, errors: () => {}, changed: () => {} } });
  const instance = new WebAssembly.Instance(module, host.imports);
  host.use(instance);
  try {
    instance.exports.run();
  } catch (thrown) {
    if (!(thrown instanceof Ended)) throw thrown;
  }
  const { user, system } = process.cpuUsage(before);
  return { seconds: (user + system) / 1e6, text, bytes: instance.exports.memory.buffer.byteLength };
}

// in a shell, whose `times` has the seconds of its children
function ofProgram(input, budget) {
  const { stdout, stderr } = spawnSync('bash', ['-c', `"$0" run budget=${budget} 2>/dev/null; times >&2`, program], { input });
  const [minutes, seconds] = stderr.toString().trim().split('\n').pop().split(' ')[0].replace('s', '').split('m').map(Number);
  return { seconds: 60 * minutes + seconds, text: stdout.toString() };
}

for (const [code, budget] of SEARCHES) {
  const input = Buffer.from(`MinimumDistance(${code});`);
  const [a, b] = [ofModule(input, budget), ofProgram(input, budget)];
  const blocks = /blocks (\d+)/.exec(a.text)[1];
  console.log(`${code} blocks ${blocks}: module ${a.seconds.toFixed(2)} s, native ${b.seconds.toFixed(2)} s, ${(a.seconds / b.seconds).toFixed(1)} times; ${(a.bytes / 1e6).toFixed(1)} MB; ${a.text === b.text ? 'same text' : 'OTHER TEXT'}`);
}
