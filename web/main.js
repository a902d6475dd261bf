'use strict';
// The page: its buttons, and what they show.

const page = Object.fromEntries(['field', 'shown', 'offers', 'help', 'run', 'stop', 'resume', 'examples', 'budget', 'open', 'save', 'link', 'file', 'theme', 'status', 'search', 'answers', 'legends', 'text', 'fault', 'script', 'raw'].map((id) => [id, byId(id)]));
const editor = new Editor({ field: page.field, shown: page.shown, list: page.offers, help: page.help, told: byId('told') });
const LONG = 60; // seconds of a stopped search that aren't given up unasked
let fileName = 'script.codes';
let drawnAt = 0;
let redraw = null;

const session = new Session({
  changed: (it) => {
    const isRunning = it.state === 'running';
    const hadFocus = document.activeElement === page.run;
    page.stop.hidden = !isRunning;
    page.run.hidden = isRunning;
    page.resume.hidden = it.state !== 'stopped';
    page.run.textContent = it.state === 'stopped' ? 'Start anew' : 'Run';
    if (isRunning && hadFocus) page.stop.focus();
    // pictures at most ten times a second
    if (!redraw) redraw = setTimeout(() => { redraw = null; showSearch(it); }, Math.max(0, 100 - (performance.now() - drawnAt)));
  },
  ended: (it) => {
    clearTimeout(redraw);
    redraw = null;
    const hadFocus = document.activeElement === page.stop;
    page.stop.hidden = page.resume.hidden = true;
    page.run.hidden = false;
    page.run.textContent = 'Run';
    if (hadFocus) page.run.focus();
    showEnd(it);
    // (below the script, where the window is narrow)
    if (matchMedia('(max-width: 960px)').matches) byId('results').scrollIntoView();
  },
});

// --- what a session shows

function say(text, kind = '') {
  if (page.status.textContent !== text) page.status.textContent = text;
  page.status.className = kind;
}

function clearAnswers() {
  for (const part of [page.answers, page.legends, page.fault, page.search]) part.replaceChildren();
  page.raw.hidden = true;
  editor.mark([]);
}

function showSearch(it) {
  drawnAt = performance.now();
  const { searches } = it;
  if (it.state !== 'running' && it.state !== 'stopped') return;
  const records = searches.last === undefined ? null : searches.all.get(searches.last);
  if (!records) {
    say(it.state === 'running' ? 'Running ..' : 'Stopped. Go on starts again.');
    page.search.replaceChildren();
    return;
  }
  const known = searches.plans.get(searches.last);
  const statement = known && readScript(signsOf(it.input)).statements[known.index];
  const last = records[records.length - 1];
  const title = statement ? readable(signsOf(it.input).slice(statement.place, statement.end)) : `Search ${searches.last + 1}`;
  const stopped = it.state === 'stopped';
  say(stopped ? `Stopped after ${grouped(last.blocks)} blocks. Go on resumes the search there${it.isKept === false ? '' : ', also after a reload of this page'}.` : `Searching: the distance is between ${last.bound} and ${last.best}.`);
  page.search.replaceChildren(element('h3', {}, title.length > 90 ? `${title.slice(0, 90)} ..` : title), searchPicture(records),
    element('p', { class: 'note' }, `${grouped(last.blocks)} blocks. ${stopped ? '' : endTold(records, known?.plan, it.budget, searches.rate())}`));
}

function showEnd(it) {
  clearAnswers();
  if (it.state === 'failed') return say(`The program could not go on: ${it.result.message}.`, 'bad');
  const { status, text, fault, explanation } = it.result;
  const says = { 0: 'Done', 1: 'A fault', 7: 'There is not enough memory', 12: 'The script is longer than 1,048,576 bytes' }[status] ?? `The program ended with status ${status}`;
  say(`${says}, after ${duration(it.seconds)}.`, status === 0 ? 'good' : 'bad');
  const script = signsOf(it.input);
  const answers = new Answers({ script, text, searches: it.searches, check: checkCertificate });
  page.answers.replaceChildren(...answers.items());
  page.legends.replaceChildren(...answers.legends());
  if (fault) showFault(script, fault, explanation);
  if (status === 0 && !text) page.answers.replaceChildren(element('li', {}, element('p', { class: 'note' }, script.trim() ? 'The script prints nothing: each of its statements gives a name to a value.' : 'The script is empty.')));
  page.text.textContent = text;
  page.raw.hidden = !text;
  return undefined;
}

// the lines of the script that the points are in, with the points marked
function pointed(script, fault, points) {
  const lineAt = (place) => script.lastIndexOf('\n', place - 1) + 1;
  const near = points.filter(([from, to]) => Math.abs(from - fault.place) < 300 && to - from < 300);
  const first = Math.min(fault.place, ...near.map(([from]) => from));
  const last = Math.max(fault.place, ...near.map(([, to]) => to));
  const stop = script.indexOf('\n', last);
  const end = Math.min(stop < 0 ? script.length : stop, last + 200);
  const start = Math.max(first ? lineAt(first) : 0, first - 120);
  const whole = element('pre', {});
  let at = start;
  for (const [from, to] of near.filter((pair) => pair[0] >= start && pair[1] <= Math.max(end, pair[0])).sort((a, b) => a[0] - b[0])) {
    if (from < at) continue;
    whole.append(readable(script.slice(at, from)), from === to ? element('span', { class: 'missing' }) : element('span', { class: 'wrong' }, readable(script.slice(from, to)) || ' '));
    at = to;
  }
  whole.append(readable(script.slice(at, Math.max(at, end))));
  return whole;
}

function showFault(script, fault, { row, column, meaning, detail }) {
  const points = pointsOf(script, new Fault(fault.number, fault.place, fault.values));
  const isHere = signsOf(editor.bytes()) === script;
  page.fault.replaceChildren(element('h3', {}, `Line ${row}, column ${column}: ${meaning}`), pointed(script, fault, points),
    ...(detail ? [element('p', { class: 'detail' }, codes(detail))] : []),
    element('div', { class: 'row' }, button('Show it in the script', () => editor.goTo(fault.place)), element('span', { class: 'note' }, `fault ${fault.number} at byte ${fault.place}`)));
  if (isHere) editor.mark(points);
}

async function checkCertificate(line, result) {
  result.textContent = 'Checking ..';
  const answer = await asked({ kind: 'check', input: new TextEncoder().encode(`${line}\n`) });
  tellCheck(answer, result);
}

function tellCheck(answer, result) {
  if (answer.kind === 'failed') result.textContent = `The checker could not go on: ${answer.message}.`;
  else if (answer.status === 0) result.textContent = `✓ ${answer.text.trim()}, in ${duration(answer.seconds)}: the checker, another part of the program, looked at what the certificate says`;
  else result.replaceChildren(`✗ ${answer.text.trim()}`, ...answer.lines.map((line) => element('span', { class: 'line' }, codes(line))));
  result.className = `note ${answer.status === 0 ? 'yes' : 'no'}`;
}

// a certificate in the editor
async function checkEditor(bytes) {
  session.end();
  clearAnswers();
  say('Checking the certificate ..');
  const answer = await asked({ kind: 'check', input: bytes });
  const accepted = answer.kind === 'done' && answer.status === 0;
  say(accepted ? 'The certificate is accepted.' : answer.kind === 'failed' ? 'The checker could not go on.' : 'The certificate is rejected.', accepted ? 'good' : 'bad');
  const result = element('p', { class: 'note' });
  tellCheck(answer, result);
  let box = null;
  const sizes = [];
  try {
    box = certificateBox(new TextDecoder().decode(bytes).trim(), checkCertificate, (size) => sizes.push(size), accepted ? undefined : 'It claims that the minimum distance is');
  } catch {
    box = null; // it can't be drawn
  }
  page.answers.replaceChildren(element('li', {}, element('div', { class: 'answer' }, result, box)));
  page.legends.replaceChildren(...sizes.filter((size) => size > 2).map(legend));
  page.text.textContent = answer.text ?? '';
  page.raw.hidden = !answer.text;
}

// a session that was stopped goes on only with its own script
function offerToGoOn() {
  const isSame = signsOf(editor.bytes()) === signsOf(session.input);
  if (page.resume.hidden === !isSame) return;
  page.resume.hidden = !isSame;
  page.run.textContent = isSame ? 'Start anew' : 'Run';
  if (isSame) showSearch(session);
  else {
    page.search.replaceChildren();
    say('A search was stopped. It can go on with its script as it was.');
  }
}

// --- buttons

function budgetHere() {
  const text = page.budget.value.replace(/[\s,]/g, '');
  const power = /^2\^(\d{1,2})$/.exec(text);
  const number = power ? 2 ** Number(power[1]) : /^\d+$/.test(text) ? Number(text) : NaN;
  return number <= 2 ** 40 ? number : NaN;
}

function run() {
  if (session.state === 'running') return undefined;
  const bytes = editor.bytes();
  if (/^\s*\{/.test(signsOf(bytes.subarray(0, 200)))) return checkEditor(bytes);
  const budget = budgetHere();
  page.budget.setAttribute('aria-invalid', String(Number.isNaN(budget)));
  if (Number.isNaN(budget)) return say('The budget is a number of blocks from 0 to 2^40, as 1000000 or 2^20.', 'bad');
  if (session.state === 'stopped' && session.spent > LONG && !confirm(`The search that was stopped took ${duration(session.spent)} so far. It can't go on any more if another one is started. Start it?`)) return undefined;
  clearAnswers();
  say('Running ..');
  return session.run(bytes.slice(), budget);
}

function show(bytes, name) {
  fileName = name;
  page.examples.value = '';
  editor.setBytes(bytes);
}

async function showLink() {
  const bytes = editor.bytes();
  const code = toBase64(await packed(bytes, 'deflate-raw')).replace(/\+/g, '-').replace(/\//g, '_').replace(/=+$/, '');
  history.replaceState(null, '', `#script=${code}`);
  await copy(location.href, page.link);
}

async function openFile(file) {
  if (!file) return;
  show(new Uint8Array(await file.arrayBuffer()), file.name);
  say(`Opened ${file.name}.`);
  if (/^\s*\{/.test(page.field.value)) run();
}

// `#script=..` has a script, `#show=..` and `#run=..` the name of an example; whether it was there
async function follow(hash) {
  const [, word, value] = /^#(script|show|run)=(.*)$/.exec(hash) ?? [];
  if (!word) return false;
  if (word === 'script') show(await unpacked(fromBase64(value.replace(/-/g, '+').replace(/_/g, '/')), 'deflate-raw'), 'script.codes');
  else {
    const example = EXAMPLES.find((it) => it.name === value);
    if (!example) return false;
    showExample(example);
    if (word === 'run') run();
  }
  return true;
}

function showExample({ name, script }) {
  show(new TextEncoder().encode(script), `${name}.codes`);
  page.examples.value = name;
}

function setTheme(theme) {
  if (theme) document.documentElement.dataset.theme = theme;
  else delete document.documentElement.dataset.theme;
}

function otherTheme() {
  const isDark = document.documentElement.dataset.theme ? document.documentElement.dataset.theme === 'dark' : matchMedia('(prefers-color-scheme: dark)').matches;
  setTheme(isDark ? 'light' : 'dark');
  store.set('theme', isDark ? 'light' : 'dark');
}

function listen() {
  page.run.addEventListener('click', run);
  page.stop.addEventListener('click', () => { session.stop(); page.resume.focus(); });
  page.resume.addEventListener('click', () => { session.resume(); page.stop.focus(); });
  page.open.addEventListener('click', () => page.file.click());
  page.file.addEventListener('change', () => { openFile(page.file.files[0]); page.file.value = ''; });
  page.save.addEventListener('click', () => saveFile(fileName, editor.bytes()));
  page.link.addEventListener('click', showLink);
  page.theme.addEventListener('click', otherTheme);
  byId('copy').addEventListener('click', (event) => copy(page.text.textContent, event.target));
  page.examples.addEventListener('change', () => {
    const example = EXAMPLES.find((it) => it.name === page.examples.value);
    if (example) showExample(example);
  });
  document.addEventListener('keydown', (event) => {
    if (event.key === 'Enter' && (event.ctrlKey || event.metaKey)) {
      event.preventDefault();
      if (!page.resume.hidden && budgetHere() === session.budget) session.resume();
      else run();
    }
  });
  for (const name of ['dragover', 'drop']) document.addEventListener(name, (event) => event.preventDefault());
  document.addEventListener('drop', (event) => openFile(event.dataTransfer?.files[0]));
  addEventListener('hashchange', () => follow(location.hash));
  editor.listeners.push(() => {
    store.set('script', { name: fileName, bytes: toBase64(editor.bytes()) });
    // the address is that of another script from now on
    if (editor.isTyped() && location.hash) history.replaceState(null, '', '#');
    if (editor.isTyped()) page.examples.value = '';
    if (session.state === 'stopped') offerToGoOn();
  });
  page.budget.addEventListener('change', () => store.set('budget', page.budget.value));
}

// the script that `./codes page FILE` put into the page
function givenScript() {
  const it = byId('given');
  return it ? { bytes: fromBase64(it.textContent.trim()), name: it.dataset.name || 'script.codes' } : null;
}

async function begin() {
  setTheme(store.get('theme'));
  const known = await unpacked(fromBase64(byId('texts').textContent.trim()), 'gzip');
  ({ texts: TEXTS, calls: CALLS, examples: EXAMPLES, worker: WORKER } = JSON.parse(new TextDecoder().decode(known)));
  page.examples.append(element('option', { value: '' }, 'Examples ..'), ...EXAMPLES.map(({ name, says }) => element('option', { value: name, title: says }, name.replaceAll('_', ' '))));
  page.budget.value = store.get('budget') ?? '2^20';
  moduleBytes = await unpacked(fromBase64(byId('module').textContent.trim()), 'gzip');
  const kept = store.get('session');
  const script = givenScript();
  if (script) show(script.bytes, script.name);
  else if (!(await follow(location.hash))) {
    const last = store.get('script');
    if (kept) show(fromBase64(kept.script), last?.name ?? 'script.codes');
    else if (last?.bytes) show(fromBase64(last.bytes), last.name);
    else showExample(EXAMPLES.find(({ name }) => name === 'hamming') ?? EXAMPLES[0]);
  }
  listen();
  // (a session that was stopped is that of its own script alone)
  if (kept && session.state === 'none' && signsOf(editor.bytes()) === atob(kept.script)) session.restore();
  editor.tellCall();
  document.documentElement.dataset.ready = 'yes';
}

begin();
