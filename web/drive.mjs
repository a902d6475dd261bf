// Drives the page in Chromium, from the disk, as a person does:
//
//   node web/drive.mjs CHROMIUM [PICTURE.png]
//
// Every example gives its stored text; faults are explained and pointed at; a search is stopped, the page is opened again, and the search
// goes on to the text that the module gives without a stop; certificates are checked; the keyboard alone will do; all this at two widths, light and dark,
// with no message in the console and nothing asked of a network. With a second argument the picture of the README is taken. The last line
// is 'N passed, M failed'.
import fs from 'node:fs';
import os from 'node:os';
import path from 'node:path';
import { fileURLToPath, pathToFileURL } from 'node:url';
import { Browser } from './chromium.mjs';

const top = path.join(path.dirname(fileURLToPath(import.meta.url)), '..');
const [program, pictureFile] = process.argv.slice(2);
const address = pathToFileURL(path.join(top, 'web/index.html')).href;
const WIDE = { width: 1280, height: 900 };
const NARROW = { width: 390, height: 844, mobile: true, dark: true };
let [passed, failed] = [0, 0];

function wanted(holds, text) {
  if (!holds) throw new Error(text);
}

// a check on a page of its own
async function check(browser, text, size, does, hash = '') {
  const page = await browser.open(address + hash, size);
  try {
    await does(page);
    wanted(page.said.length === 0, `the console has: ${page.said.join('; ')}`);
    passed += 1;
  } catch (thrown) {
    failed += 1;
    console.log(`failed: the page, ${size.width} wide: ${text}: ${thrown.message}`);
  }
  await page.evaluate('localStorage.clear()').catch(() => {});
  await page.close();
}

const ended = "/^(Done|A fault|The certificate|There is|The program|The script)/.test(document.getElementById('status').textContent)";
const shownText = "document.getElementById('text').textContent";
const textOf = (selector) => `(document.querySelector(${JSON.stringify(selector)})?.textContent ?? '')`;
const press = (page, id) => page.evaluate(`document.getElementById('${id}').click()`);

async function put(page, script) {
  await page.evaluate(`(() => { const field = document.getElementById('field'); field.focus(); field.select(); })()`);
  await page.type(script);
}

async function run(page, script) {
  await put(page, script);
  await page.press('Enter', 'Enter', 2);
  await page.until(ended);
}

async function fits(page) {
  const wide = await page.evaluate('document.documentElement.scrollWidth - document.documentElement.clientWidth');
  wanted(wide <= 0, `it is ${wide} pixels wider than the window`);
}

const examples = fs.readdirSync(path.join(top, 'examples')).filter((name) => name.endsWith('.codes')).map((name) => name.slice(0, -6));

async function allExamples(page) {
  for (const name of examples) {
    await page.evaluate(`(() => { const list = document.getElementById('examples'); list.value = '${name}'; list.dispatchEvent(new Event('change')); document.getElementById('status').textContent = ''; document.getElementById('run').click(); })()`);
    await page.until(ended);
    const text = fs.readFileSync(path.join(top, 'examples', `${name}.out`), 'utf8');
    wanted(await page.evaluate(shownText) === text, `${name} gives another text`);
    const answers = text.split('\n').filter((line) => line && !line.startsWith('fault ')).length;
    wanted(await page.evaluate("document.querySelectorAll('#answers .source').length") === answers, `${name} has other answers than lines`);
    await fits(page);
  }
}

async function oneFault(page) {
  await run(page, 'C := RepetitionCode(4, GF(3));\nIsCodeword(C, [1,1,1,3]);\n');
  wanted((await page.evaluate(textOf('#fault'))).includes("Line 2, column 1: an argument has a value that it can't have"), 'the fault is not explained');
  wanted((await page.evaluate(textOf('#fault'))).includes('entry 4 of the list is 3; the elements of GF(3) are 0 to 2'), 'the entry is not named');
  wanted(await page.evaluate(textOf('#shown .wrong')) === '3', 'another sign is underlined');
  await run(page, 'C := GF(2)\nC;');
  wanted(await page.evaluate("document.querySelectorAll('#shown .line')[0].querySelector('.missing') !== null"), 'the missing semicolon is not pointed at');
  await put(page, 'C := GF(2);\nC;');
  wanted(await page.evaluate("document.querySelector('#shown .wrong, #shown .missing') === null"), 'the marks stay when the script is changed');
  await fits(page);
}

const LONG = 'C := BCHCode(127,27,GF(2));\nMinimumDistance(C);\n';

async function stopAndGoOn(page) {
  await put(page, LONG);
  await press(page, 'run');
  await page.until("document.querySelector('#search svg')");
  await page.until("/in about/.test(document.getElementById('search').textContent)");
  await press(page, 'stop');
  await page.until("/^Stopped after/.test(document.getElementById('status').textContent)");
  const blocks = await page.evaluate("Number(/[0-9,]+/.exec(document.getElementById('status').textContent)[0].replaceAll(',', ''))");
  wanted(blocks > 0, 'it stopped before the first record');
  await page.reload();
  wanted(await page.evaluate("document.getElementById('field').value") === LONG, 'the script is gone after a reload');
  await page.until(`/^Stopped after/.test(document.getElementById('status').textContent) && !document.getElementById('resume').hidden`);
  await press(page, 'resume');
  await page.until("!document.getElementById('stop').hidden");
  await page.until(`Number(/([0-9,]+) blocks/.exec(document.getElementById('search').textContent)[1].replaceAll(',', '')) > ${blocks}`);
  // (the rest of it would take long: the next check does a smaller one to its end)
  await press(page, 'stop');
}

async function resumedToTheEnd(page) {
  // (three searches, so that it is stopped before the end on any machine)
  await run(page, `C := BCHCode(63,11,GF(2));\n${'MinimumDistance(C);\n'.repeat(3)}`);
  const text = await page.evaluate(shownText);
  wanted(/^(distance 11 word .* blocks \d+\n){3}$/.test(text), `the text is ${text}`);
  await page.evaluate("document.getElementById('status').textContent = ''");
  await press(page, 'run');
  await page.until("document.querySelector('#search svg')");
  await press(page, 'stop');
  await page.until("!document.getElementById('resume').hidden");
  await press(page, 'resume');
  await page.until(ended);
  wanted(await page.evaluate(shownText) === text, 'a search that was stopped and went on gives another text');
  wanted(await page.evaluate("document.querySelector('#answers svg.chart') !== null"), 'there is no picture of the search');
}

async function certificates(page) {
  await run(page, 'Certificate(HammingCode(3, GF(2)));');
  await page.evaluate("document.querySelector('#answers .check').click()");
  await page.until("/✓ accepted distance 3/.test(document.querySelector('#answers .certificate [role=status]').textContent)");
  for (const name of ['golay_23', 'tree_uuv']) {
    await run(page, fs.readFileSync(path.join(top, `examples/certificates/${name}.json`), 'utf8'));
    wanted((await page.evaluate(shownText)).startsWith('accepted distance '), `${name} is not accepted`);
  }
  await run(page, fs.readFileSync(path.join(top, 'tests/explain/other_distance.json'), 'utf8'));
  wanted((await page.evaluate(textOf('#answers'))).includes('the word has weight 3, and distance is 4'), 'a rejected certificate is not explained');
  // a file that is dropped
  const file = JSON.stringify(fs.readFileSync(path.join(top, 'examples/certificates/hexacode.json'), 'utf8'));
  await page.evaluate(`(() => { const data = new DataTransfer(); data.items.add(new File([${file}], 'hexacode.json')); document.dispatchEvent(new DragEvent('drop', { dataTransfer: data, bubbles: true, cancelable: true })); })()`);
  await page.until("/^accepted distance 4/.test(document.getElementById('text').textContent)");
  await fits(page);
}

// the bytes of a file are taken as they are: line ends of two bytes, and a byte that is no text
async function bytesAsTheyAre(page) {
  await page.evaluate("(() => { const data = new DataTransfer(); data.items.add(new File([new Uint8Array([35, 255, 13, 10, 71, 70, 40, 50, 41, 59, 13, 10, 255])], 'other.codes')); document.dispatchEvent(new DragEvent('drop', { dataTransfer: data, bubbles: true, cancelable: true })); })()");
  await page.until("/^Opened/.test(document.getElementById('status').textContent)");
  await press(page, 'run');
  await page.until(ended);
  wanted(await page.evaluate(shownText) === 'fault 40 at 12\n', `the text is ${await page.evaluate(shownText)}`);
  wanted((await page.evaluate(textOf('#fault'))).includes('byte 255 is no part of a text in UTF-8'), 'the byte is not explained');
}

async function byKeyboard(page) {
  await put(page, '');
  await page.type('C := Hamm');
  await page.until("!document.getElementById('offers').hidden");
  await page.press('Enter', 'Enter');
  wanted(await page.evaluate("document.getElementById('field').value") === 'C := HammingCode(', 'the call is not completed');
  wanted((await page.evaluate(textOf('#help'))).startsWith('HammingCode(r, F)'), 'the call is not explained');
  await page.type('3, GF(2));\nWordLength(C);');
  await page.press('Enter', 'Enter', 2);
  await page.until(ended);
  wanted(await page.evaluate(shownText) === '7\n', 'Ctrl+Enter does not run the script');
  // from the field Tab leads on, and each thing to press has a name
  await page.press('Escape', 'Escape');
  await page.press('Tab', 'Tab');
  wanted(await page.evaluate("document.activeElement.id !== 'field'"), 'Tab does not leave the field');
  const nameless = await page.evaluate("[...document.querySelectorAll('button, select, input, textarea, svg[role=img]')].filter((it) => !(it.getAttribute('aria-label') || it.textContent.trim() || it.labels?.length)).map((it) => it.outerHTML.slice(0, 80)).join()");
  wanted(nameless === '', `no name: ${nameless}`);
}

// contrast of each piece of text that is seen with what is below it, by the definition of WCAG 2
const CONTRAST = `(() => {
  const parts = (colour) => colour.match(/[\\d.]+/g).map(Number);
  const light = ([r, g, b]) => [r, g, b].map((c) => c / 255).map((c) => (c <= 0.03928 ? c / 12.92 : ((c + 0.055) / 1.055) ** 2.4)).reduce((sum, c, i) => sum + c * [0.2126, 0.7152, 0.0722][i], 0);
  const ground = (it) => { for (let at = it; at; at = at.parentElement) { const colour = parts(getComputedStyle(at).backgroundColor); if (colour.length === 3 || colour[3] === 1) return colour; } return [255, 255, 255]; };
  const low = [];
  const walker = document.createTreeWalker(document.body, NodeFilter.SHOW_TEXT);
  for (let node = walker.nextNode(); node; node = walker.nextNode()) {
    const it = node.parentElement;
    if (!node.textContent.trim() || !it.checkVisibility?.() || it.closest('script, style, svg, textarea, option')) continue;
    const [a, b] = [light(parts(getComputedStyle(it).color)), light(ground(it))].sort((x, y) => y - x);
    if ((a + 0.05) / (b + 0.05) < 4.5) low.push(it.className + ' ' + node.textContent.trim().slice(0, 20) + ' ' + ((a + 0.05) / (b + 0.05)).toFixed(2));
  }
  return low.join('; ');
})()`;

async function contrast(page) {
  for (const name of ['hexacode', 'fault_uneven_rows', 'weights', 'certificates', 'decoding']) {
    await page.evaluate(`(() => { const list = document.getElementById('examples'); list.value = '${name}'; list.dispatchEvent(new Event('change')); document.getElementById('status').textContent = ''; document.getElementById('run').click(); })()`);
    await page.until(ended);
    const low = await page.evaluate(CONTRAST);
    wanted(low === '', `contrast below 4.5 in ${name}: ${low.slice(0, 300)}`);
  }
}

async function byLink(page) {
  await page.until(ended);
  wanted(await page.evaluate(shownText) === fs.readFileSync(path.join(top, 'examples/hamming.out'), 'utf8'), 'the link does not run the example');
  await put(page, 'GF(16);');
  await press(page, 'link');
  await page.until("location.hash.startsWith('#script=')");
  const link = await page.evaluate('location.href');
  await put(page, 'GF(2);');
  wanted(await page.evaluate('location.hash') === '', 'the link stays when the script is changed');
  await page.evaluate(`location.href = ${JSON.stringify(link)}`);
  await page.until("document.getElementById('field').value === 'GF(16);'");
}

// the page into which `./codes page FILE` puts a script
async function withAScript(page) {
  const file = path.join(os.tmpdir(), `codes-given-${process.pid}.html`);
  const script = Buffer.from('WordLength(BinaryGolayCode());\n').toString('base64');
  fs.writeFileSync(file, fs.readFileSync(path.join(top, 'web/index.html'), 'utf8').replace('<!-- given -->', `<script type="application/octet-stream" id="given" data-name="mine.codes">${script}</script>`));
  try {
    await page.go(pathToFileURL(file).href);
    await press(page, 'run');
    await page.until(ended);
    wanted(await page.evaluate(shownText) === '23\n', 'the script that was put into the page is not there');
  } finally {
    fs.unlinkSync(file);
  }
}

const README_SCRIPT = `# A code over four elements, and a word with an error.
H := CheckMatCode([[1,0,0,1,2,3],
                   [0,1,0,1,3,2],
                   [0,0,1,1,1,1]], GF(4));
GeneratorMat(H);
Decode(H, [1,0,0,1,3,1]);

# The lightest word falls and the bound rises,
# until they meet.
MinimumDistance(BCHCode(40, 8, GF(3)));
`;

async function forTheReadme(page) {
  await run(page, README_SCRIPT);
  await page.evaluate("document.getElementById('field').blur()");
  await page.picture(pictureFile);
}

const browser = new Browser(program);
try {
  if (pictureFile) await check(browser, 'the picture', { width: 1200, height: 780 }, forTheReadme);
  else {
    for (const size of [WIDE, NARROW]) {
      await check(browser, 'every example gives its text', size, allExamples);
      await check(browser, 'a fault is explained and pointed at', size, oneFault);
      await check(browser, 'a search is stopped, goes on after a reload', size, stopAndGoOn);
      await check(browser, 'a search that was stopped gives the same text', size, resumedToTheEnd);
      await check(browser, 'certificates are checked', size, certificates);
      await check(browser, 'by keyboard alone', size, byKeyboard);
      await check(browser, 'contrast', size, contrast);
    }
    await check(browser, 'contrast, in the other colours', { ...WIDE, dark: true }, contrast);
    await check(browser, 'a file is taken as its bytes', WIDE, bytesAsTheyAre);
    await check(browser, 'a link has the script', WIDE, byLink, '#run=hamming');
    await check(browser, 'with a script in it', WIDE, withAScript);
  }
} finally {
  await browser.close();
}
console.log(`${passed} passed, ${failed} failed`);
process.exit(failed ? 1 : 0);
