// Whether the page explains what `./codes explain` explains, in the same words:
//
//   node web/test_explain.mjs MODULE.wasm TEXTS.json FOLDER
//
// FOLDER has files NAME.codes or NAME.json, and what tools/explain.py writes of each to standard error, NAME.err or NAME.json.err. TEXTS.json is what
// web/build.py --texts prints. The last line is 'N passed, M failed'.
import fs from 'node:fs';
import path from 'node:path';
import { load, texts } from './load.mjs';

const [moduleFile, textsFile, folder] = process.argv.slice(2);
texts(JSON.parse(fs.readFileSync(textsFile, 'utf8')));
const { explained } = load(['host.js', 'language.js', 'fields.js', 'explain.js', 'explain_bytes.js', 'explain_certificate.js', 'explained.js'], ['explained']);
const module = new WebAssembly.Module(fs.readFileSync(moduleFile));
const isRecord = (line) => /^query \d+ blocks \d+ bound \d+ best \d+$/.test(line);
let [passed, failed] = [0, 0];

for (const name of fs.readdirSync(folder).filter((it) => /\.(codes|json)$/.test(it)).sort()) {
  const file = path.join(folder, name);
  const said = [`${file}.err`, file.replace(/\.\w+$/, '.err')].find((it) => fs.existsSync(it));
  const wanted = fs.readFileSync(said, 'utf8').split('\n').filter((line) => line && line !== 'codes: rejected' && !isRecord(line));
  let got;
  try {
    got = explained(module, new Uint8Array(fs.readFileSync(file)));
  } catch (thrown) {
    got = [thrown.stack];
  }
  if (got.join('\n') === wanted.join('\n')) passed += 1;
  else {
    failed += 1;
    console.log(`failed: ${file}\n  wanted: ${wanted.join('\n          ')}\n  got:    ${got.join('\n          ')}`);
  }
}
console.log(`${passed} passed, ${failed} failed`);
process.exit(failed ? 1 : 0);
