'use strict';
// The worker of the page: it runs the module on a script, or on a certificate, and tells what it writes while it runs.
//
// It is given { kind: 'module', bytes } first, and then
//   { kind: 'run', words, input, files }    the program with these arguments
//   { kind: 'check', input }                `check`
//   { kind: 'plans', script }               the plan of each search of a script
// and answers with { kind: 'news', records, files } while a session runs, and at the end with 'done', 'plans' or 'failed'.

const PAUSE = 16; // milliseconds at least between two messages of news

let module = null;

// news, gathered for a moment
class News {
  constructor() {
    this.last = 0;
    this.clear();
  }
  clear() {
    this.records = '';
    this.files = new Map();
  }
  send() {
    if (!this.records && !this.files.size) return;
    self.postMessage({ kind: 'news', records: this.records, files: this.files });
    this.clear();
    this.last = performance.now();
  }
  sendSometimes() {
    if (performance.now() - this.last >= PAUSE) this.send();
  }
}

function runHere({ words, input, files }) {
  const news = new News();
  const output = [];
  const hears = {
    output: (piece) => output.push(piece),
    errors: (piece) => {
      news.records += textIn(piece);
      news.sendSometimes();
    },
    changed: (name, bytes) => news.files.set(name, bytes),
  };
  const status = runModule(module, { words: ['codes', ...words], input, files, hears });
  news.send();
  const text = textIn(joined(output));
  const fault = status === 1 ? faultOf(text) : null;
  const script = signsOf(input);
  self.postMessage({ kind: 'done', status, text, fault: fault && { number: fault.number, place: fault.place, values: fault.values }, explanation: fault && explanationOf(script, fault, asker(module)) });
}

function checkHere({ input }) {
  const began = performance.now();
  const { status, output } = resultOf(module, ['check'], input);
  const seconds = (performance.now() - began) / 1000;
  const text = textIn(output);
  self.postMessage({ kind: 'done', status, text, seconds, lines: status === 11 ? linesOfRejection(signsOf(input), text) : [] });
}

const MOST_PLANS = 40;

// For each statement that searches: its index, and its plan if its code has a word that isn't zero. Of many searches the first ones have plans.
function plansHere({ script }) {
  const { statements } = readScript(script);
  const searching = [];
  let asks = '';
  statements.forEach(({ target, expression }, index) => {
    if (target !== null) asks += `${target}:=${written(expression)};`;
    else if (expression.kind === 'call' && SEARCHES.includes(expression.value) && expression.parts.length) {
      const code = written(expression.parts[0]);
      const isPlanned = searching.length < MOST_PLANS;
      asks += isPlanned ? `${code};GeneratorMat(${code});` : `${code};`;
      searching.push({ index, isPlanned });
    }
  });
  const lines = textIn(resultOf(module, ['run'], bytesOf(asks)).output).split('\n').filter((line) => line && !line.startsWith('fault '));
  const plans = [];
  for (const { index, isPlanned } of searching) {
    const [code, matrix] = lines.splice(0, isPlanned ? 2 : 1).map(valueIn);
    if (!code || (isPlanned && !matrix)) break;
    if (code.dimension) plans.push({ index, plan: isPlanned ? planOf(code.size, matrix) : null });
  }
  self.postMessage({ kind: 'plans', plans });
}

self.onmessage = ({ data }) => {
  try {
    if (data.kind === 'module') module = new WebAssembly.Module(data.bytes);
    else ({ run: runHere, check: checkHere, plans: plansHere })[data.kind](data);
  } catch (thrown) {
    self.postMessage({ kind: 'failed', message: String(thrown.message ?? thrown) });
  }
};
