// The parts of the page are scripts that build.py joins; here node reads some of them, in that order, as one script.
//
//   load(['host.js'], ['resultOf']) gives { resultOf }
import fs from 'node:fs';
import path from 'node:path';
import { fileURLToPath } from 'node:url';

const here = path.dirname(fileURLToPath(import.meta.url));
let constants = {};

// what build.py puts before the parts as the constant TEXTS
export function texts(value) {
  constants = value;
}

export function load(parts, names) {
  const text = parts.map((part) => fs.readFileSync(path.join(here, part), 'utf8')).join('\n');
  return new Function('TEXTS', `${text}\nreturn { ${names.join(', ')} };`)(constants);
}
