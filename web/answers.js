'use strict';
// The text of a session, drawn: each line below the statement that it answers.

const WORD = String.raw`\[[0-9,]*\]`;
const FORMS = [
  { form: new RegExp(`^distance (\\d+) word (${WORD}) blocks (\\d+)$`), says: (found) => `Minimum distance ${found[1]}`, note: (found) => `a word of this weight; the search looked at ${grouped(Number(found[3]))} blocks`, word: 2 },
  { form: new RegExp(`^distance between (\\d+) and (\\d+) word (${WORD}) blocks (\\d+)$`), says: (found) => `Minimum distance between ${found[1]} and ${found[2]}`, note: (found) => `the lightest word found; the budget ended the search after ${grouped(Number(found[4]))} blocks`, word: 3 },
  { form: /^distance none$/, says: () => 'No minimum distance', note: () => 'the zero word is the only one' },
  { form: new RegExp(`^least (\\d+) word (${WORD})$`), says: (found) => `Least weight ${found[1]}`, note: () => 'the first word of this weight', word: 2 },
  { form: /^least none$/, says: () => 'No least word', note: () => 'the zero word is the only one' },
  { form: new RegExp(`^nearest (${WORD}) at (\\d+) blocks (\\d+)$`), says: (found) => `A nearest word, at distance ${found[2]}`, note: (found) => `the search looked at ${grouped(Number(found[3]))} blocks`, word: 1 },
  { form: new RegExp(`^nearest between (\\d+) and (\\d+) word (${WORD}) blocks (\\d+)$`), says: (found) => `The nearest word is at a distance between ${found[1]} and ${found[2]}`, note: (found) => `the nearest word found; the budget ended the search after ${grouped(Number(found[4]))} blocks`, word: 3 },
  { form: /^certificate none$/, says: () => 'No certificate', note: () => 'the zero word is the only one' },
  { form: /^certificate none between (\d+) and (\d+)$/, says: () => 'No certificate', note: (found) => `the budget ended the search: the distance is between ${found[1]} and ${found[2]}` },
  { form: /^certificate none cost (\d+)$/, says: () => 'No certificate', note: (found) => `a checker would have to look at ${grouped(BigInt(found[1]))} words` },
  { form: /^none$/, says: () => 'None', note: (_, call) => (call === 'FillErasures' ? 'no word of the code has these symbols' : 'no word of the code is near enough') },
  { form: /^many$/, says: () => 'Many', note: () => 'several words of the code have these symbols' },
  { form: /^code \[(\d+),(\d+)\] GF\((\d+)\)$/, says: (found) => `A [${found[1]}, ${found[2]}] code over GF(${found[3]})`, note: (found) => `length ${found[1]}, dimension ${found[2]}, ${wordsTold(Number(found[3]), Number(found[2]))}` },
];
const wordsTold = (size, dimension) => (size ** dimension < 1e7 ? `${grouped(size ** dimension)} ${dimension ? 'words' : 'word'}` : `${size}^${dimension} words`);
const DECODERS = ['Decode', 'AlgebraicDecode', 'NearestWord'];
const SHOWN_AT_FIRST = 150;
const SHORT_SEARCH = 8; // a search of fewer blocks has no picture

// a list of numbers that is written in the script, perhaps under a name
function listIn(expression, statements) {
  const it = expression?.kind === 'name' ? given(statements, expression.value, expression.place) : expression;
  return it?.kind === 'list' && it.parts.every((part) => part.kind === 'number') ? it.parts.map((part) => Number(part.value)) : null;
}

class Answers {
  // `check` is given a certificate and an element that tells what came of it
  constructor({ script, text, searches, check }) {
    Object.assign(this, { script, searches, check, sizes: new Set() });
    this.lines = text.split('\n').slice(0, -1);
    this.statements = readScript(script).statements;
  }

  // the statements that print, each with its line
  pairs() {
    const printing = this.statements.map((it, index) => ({ ...it, index })).filter((it) => it.target === null);
    return this.lines.filter((line) => !line.startsWith('fault ')).map((line, i) => ({ line, statement: printing[i] ?? null }));
  }

  // the elements of the list of answers
  items() {
    const pairs = this.pairs();
    const list = pairs.slice(0, SHOWN_AT_FIRST).map((pair) => this.item(pair));
    if (pairs.length > SHOWN_AT_FIRST) {
      const more = element('li', {}, button(`Show the other ${grouped(pairs.length - SHOWN_AT_FIRST)} answers`, () => more.replaceWith(...pairs.slice(SHOWN_AT_FIRST).map((pair) => this.item(pair)))));
      list.push(more);
    }
    return list;
  }

  item({ line, statement }) {
    const source = statement ? readable(this.script.slice(statement.place, statement.end)) : '';
    const drawn = this.drawn(line, statement);
    return element('li', {}, element('pre', { class: 'source' }, source.length > 400 ? `${source.slice(0, 400)} ..` : source), element('div', { class: 'answer' }, ...drawn));
  }

  sizeFor(statement, entries) {
    const seen = statement ? fieldOf(statement.expression, this.statements) : 0;
    const most = Math.max(1, ...entries);
    const size = SYMBOL_SIZES.includes(seen) && most < seen ? seen : SYMBOL_SIZES.find((q) => q > most) ?? 0;
    if (size) this.sizes.add(size);
    return size;
  }

  drawn(line, statement) {
    if (line.startsWith('{')) return [certificateBox(line, this.check, (size) => this.sizes.add(size)), ...this.chart(statement)];
    if (line.startsWith('[')) return this.list(JSON.parse(line.replace(/\d{16,}/g, '"$&"')), line, statement);
    if (line === 'true' || line === 'false') return [element('p', { class: `says ${line === 'true' ? 'yes' : 'no'}` }, line === 'true' ? '✓ true' : '✗ false')];
    for (const { form, says, note, word } of FORMS) {
      const found = form.exec(line);
      if (found) return [element('p', { class: 'says' }, says(found)), ...(word ? [this.word(JSON.parse(found[word]), statement)] : []), element('p', { class: 'note' }, note(found, statement?.expression.value)), ...this.chart(statement)];
    }
    return [element('p', { class: 'says' }, line)];
  }

  word(word, statement) {
    const { expression } = statement ?? {};
    const received = expression?.kind === 'call' && DECODERS.includes(expression.value) ? listIn(expression.parts[1], this.statements) : null;
    const size = this.sizeFor(statement, [...word, ...(received ?? [])]);
    return received?.length === word.length ? decodedPicture(received, word) : wordPicture(word, size);
  }

  list(value, line, statement) {
    const plainText = [element('p', { class: 'says list' }, line)];
    if (!value.length) return plainText;
    const isCall = statement?.expression.kind === 'call' ? statement.expression.value : '';
    if (isCall === 'WeightDistribution') return [barsPicture(value)];
    const rows = isList(value[0]) ? value : [value];
    const entries = rows.flat();
    if (entries.some((a) => typeof a !== 'number' || a > 15) || !entries.length) return plainText;
    // (a list of numbers that is about no field may be anything)
    const isWord = statement && fieldOf(statement.expression, this.statements) > 0;
    if (!isList(value[0])) return isWord || (value.length > 2 && entries.every((a) => a < 2)) ? [this.word(value, statement)] : plainText;
    return [matrixPicture(rows, this.sizeFor(statement, entries)), element('p', { class: 'note' }, `${rows.length} ${rows.length === 1 ? 'row' : 'rows'} of ${rows[0].length}`)];
  }

  chart(statement) {
    const records = statement ? this.searches.ofStatement(statement.index) : null;
    return records && records[records.length - 1].blocks >= SHORT_SEARCH ? [searchPicture(records)] : [];
  }

  // the legends of the fields that occur, but for that of two elements
  legends() {
    return [...this.sizes].sort((a, b) => a - b).filter((size) => size > 2).map(legend);
  }
}

const isList = Array.isArray;
const CLAIM_PARTS = ['left', 'right', 'outer', 'inner', 'of'];

// a certificate: what it says, its rows and its word, and a button that checks it
function certificateBox(line, check, sees = () => {}, says = 'A certificate that the minimum distance is') {
  const value = JSON.parse(line);
  if (SYMBOL_SIZES.includes(value.field)) sees(value.field);
  const result = element('p', { class: 'note', role: 'status' });
  const how = value.claim ? 'by construction' : value.by === 'scan' ? 'by a scan of all words' : 'by levels of information sets';
  const rows = value.rows ?? [];
  return element('div', { class: 'certificate' },
    element('p', { class: 'says' }, `${says} ${value.distance}`),
    element('p', { class: 'note' }, `over GF(${value.field}), ${how}; ${grouped(line.length)} bytes`),
    isList(value.word) ? wordPicture(value.word, value.field) : '',
    element('div', { class: 'row' }, button('Check it', () => check(line, result), { class: 'check' }), button('Copy', (event) => copy(`${line}\n`, event.target)), button('Save', () => saveFile('certificate.json', `${line}\n`))),
    result,
    rows.length ? element('details', {}, element('summary', {}, `its ${rows.length} rows`), matrixPicture(rows, value.field)) : '',
    value.claim ? element('details', { open: true }, element('summary', {}, 'its claims'), element('ul', { class: 'claims' }, claimItem(value.claim))) : '');
}

function claimItem(claim) {
  const own = ['locator', 'r', 'points', 'multipliers', 'large', 'places', 'distance'].filter((key) => key in claim).map((key) => `${key} ${JSON.stringify(claim[key])}`).join(', ');
  const below = CLAIM_PARTS.filter((key) => claim[key] && typeof claim[key] === 'object').map((key) => claimItem(claim[key]));
  return element('li', {}, element('b', {}, String(claim.kind)), own ? ` ${own.length > 160 ? `${own.slice(0, 160)} ..` : own}` : '', below.length ? element('ul', {}, ...below) : '');
}
