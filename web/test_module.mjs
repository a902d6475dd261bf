// Runs the module on each case of the folders, in this one process, over host.js as the page does, and compares as .ci/scripts.sh does:
//
//   node web/test_module.mjs MODULE.wasm FOLDER..
//
// A case is a file NAME.codes (the script), with NAME.out (the text), and where they are there NAME.status (else 0), NAME.err (standard
// error without record lines, else nothing) and NAME.arguments (one argument a line, else `run`). Where a search is made it is
// stopped and resumed too, and must give the same text. The last line is 'N passed, M failed'.
import fs from 'node:fs';
import path from 'node:path';
import { load } from './load.mjs';

const { resultOf, runModule } = load(['host.js'], ['resultOf', 'runModule']);
const [moduleFile, ...folders] = process.argv.slice(2);
const module = new WebAssembly.Module(fs.readFileSync(moduleFile));
let [passed, failed] = [0, 0];

const read = (file, other) => (fs.existsSync(file) ? fs.readFileSync(file) : Buffer.from(other));
const isRecord = (line) => /^query \d+ blocks \d+ bound \d+ best \d+$/.test(line);
const withoutRecords = (bytes) => Buffer.from(bytes).toString('latin1').split('\n').filter((line) => !isRecord(line)).join('\n');

function count(text, why) {
  if (!why) passed += 1;
  else {
    failed += 1;
    console.log(`failed: ${text}: ${why}`);
  }
}

function compared(front) {
  const words = fs.existsSync(`${front}.arguments`) ? read(`${front}.arguments`, '').toString().replace(/\n$/, '').split('\n') : ['run'];
  const none = fs.existsSync(`${front}.arguments`) && fs.statSync(`${front}.arguments`).size === 0;
  const input = fs.readFileSync(`${front}.codes`);
  const wanted = { output: fs.readFileSync(`${front}.out`), errors: read(`${front}.err`, '').toString('latin1'), status: Number(read(`${front}.status`, '0').toString()) };
  const got = resultOf(module, none ? [] : words, input);
  if (got.status !== wanted.status) return `status ${got.status}, wanted ${wanted.status}`;
  if (Buffer.compare(Buffer.from(got.output), wanted.output)) return `standard output: ${Buffer.from(got.output).toString('latin1').slice(0, 200)}`;
  if (withoutRecords(got.errors) !== wanted.errors) return `standard error: ${withoutRecords(got.errors).slice(0, 200)}`;
  return words.length === 1 && words[0] === 'run' && got.errors.length ? resumed(input, got) : '';
}

// the session is killed after its second record, and resumed over the slots that it left
function resumed(input, wanted) {
  const files = new Map();
  let records = 0;
  const hears = {
    output: () => {},
    errors: () => {
      records += 1;
      if (records === 2) throw new Error('killed');
    },
    changed: (name, bytes) => (bytes ? files.set(name, bytes) : files.delete(name)),
  };
  try {
    runModule(module, { words: ['codes', 'run', 'keep=yes'], input, hears });
  } catch (thrown) {
    if (thrown.message !== 'killed') throw thrown;
  }
  const got = resultOf(module, ['resume', 'keep=yes'], input, files);
  if (got.status !== wanted.status || Buffer.compare(Buffer.from(got.output), Buffer.from(wanted.output))) return `killed and resumed: status ${got.status}, ${Buffer.from(got.output).toString('latin1').slice(0, 200)}`;
  return '';
}

for (const folder of folders) {
  for (const name of fs.readdirSync(folder).filter((name) => name.endsWith('.codes')).sort()) {
    const front = path.join(folder, name.slice(0, -'.codes'.length));
    let why;
    try {
      why = compared(front);
    } catch (thrown) {
      why = String(thrown);
    }
    count(front, why);
  }
}
console.log(`${passed} passed, ${failed} failed`);
process.exit(failed ? 1 : 0);
