'use strict';
// Why a certificate is rejected: tools/explain_certificate.py and tools/explain_tree.py once more. Objects are Maps.

// --- JSON, with the errors that Python gives

class JsonError extends Error {
  constructor(message, text, at) {
    super(message);
    this.row = text.slice(0, at).split('\n').length;
    this.column = [...text.slice(text.lastIndexOf('\n', at - 1) + 1, at)].length + 1;
  }
}

class JsonReader {
  constructor(text) {
    this.text = text;
    this.at = 0;
  }
  fail(message, at = this.at) {
    throw new JsonError(message, this.text, at);
  }
  skip() {
    while (' \t\n\r'.includes(this.text[this.at] || '.')) this.at += 1;
  }
  whole() {
    if (this.text.startsWith('\ufeff')) this.fail('unexpected UTF-8 BOM (decode using utf-8-sig)');
    this.skip();
    const value = this.value();
    this.skip();
    if (this.at < this.text.length) this.fail('extra data');
    return value;
  }
  value() {
    const sign = this.text[this.at];
    if (sign === '{') return this.object();
    if (sign === '[') return this.array();
    if (sign === '"') return this.string();
    const rest = this.text.slice(this.at, this.at + 400);
    const word = ['null', 'true', 'false', 'NaN', 'Infinity', '-Infinity'].find((it) => rest.startsWith(it));
    if (word) {
      this.at += word.length;
      return { null: null, true: true, false: false }[word] ?? (word === 'null' ? null : { float: word });
    }
    const number = /^-?(?:0|[1-9]\d*)(\.\d+)?([eE][-+]?\d+)?/.exec(rest.length < 400 ? rest : this.text.slice(this.at));
    if (!number) this.fail('expecting value');
    this.at += number[0].length;
    if (number[1] || number[2]) return { float: String(Number(number[0])).replace(/^-?\d+$/, '$&.0') };
    const value = Number(number[0]);
    return Number.isSafeInteger(value) ? value : BigInt(number[0]);
  }
  string() {
    const start = this.at;
    let text = '';
    this.at += 1;
    for (;;) {
      const sign = this.text[this.at];
      if (sign === undefined) this.fail('unterminated string starting at', start);
      if (sign === '"') break;
      if (sign < ' ') this.fail('invalid control character at');
      if (sign === '\\') text += this.escape(start);
      else {
        text += sign;
        this.at += 1;
      }
    }
    this.at += 1;
    return text;
  }
  escape(start) {
    const sign = this.text[this.at + 1];
    if (sign === undefined) this.fail('unterminated string starting at', start);
    const plain = { '"': '"', '\\': '\\', '/': '/', b: '\b', f: '\f', n: '\n', r: '\r', t: '\t' }[sign];
    if (plain !== undefined) {
      this.at += 2;
      return plain;
    }
    if (sign !== 'u') this.fail('invalid \\escape: ' + JSON.stringify(sign).replaceAll('"', "'"), this.at);
    const digits = this.text.slice(this.at + 2, this.at + 6);
    if (!/^[0-9a-fA-F]{4}$/.test(digits)) this.fail('invalid \\uXXXX escape', this.at + 1);
    this.at += 6;
    return String.fromCharCode(parseInt(digits, 16));
  }
  array() {
    const values = [];
    this.at += 1;
    this.skip();
    if (this.text[this.at] === ']') {
      this.at += 1;
      return values;
    }
    for (;;) {
      values.push(this.value());
      this.skip();
      const sign = this.text[this.at];
      if (sign !== ',' && sign !== ']') this.fail("expecting ',' delimiter");
      this.at += 1;
      if (sign === ']') return values;
      this.skip();
    }
  }
  object() {
    const values = new Map();
    this.at += 1;
    this.skip();
    if (this.text[this.at] === '}') {
      this.at += 1;
      return values;
    }
    for (;;) {
      if (this.text[this.at] !== '"') this.fail('expecting property name enclosed in double quotes');
      const key = this.string();
      this.skip();
      if (this.text[this.at] !== ':') this.fail("expecting ':' delimiter");
      this.at += 1;
      this.skip();
      values.set(key, this.value());
      this.skip();
      const sign = this.text[this.at];
      if (sign !== ',' && sign !== '}') this.fail("expecting ',' delimiter");
      this.at += 1;
      if (sign === '}') return values;
      this.skip();
    }
  }
}

const readJson = (text) => new JsonReader(text).whole();

// a value as Python writes it
function dumped(value) {
  if (value === null || typeof value === 'boolean' || isNumeric(value)) return String(value);
  if (typeof value === 'string') return JSON.stringify(value).replace(/[^\x20-\x7e]/g, (sign) => `\\u${sign.charCodeAt(0).toString(16).padStart(4, '0')}`);
  if (isList(value)) return `[${value.map(dumped).join(', ')}]`;
  if (value instanceof Map) return `{${[...value].map(([key, it]) => `${dumped(key)}: ${dumped(it)}`).join(', ')}}`;
  return value.float;
}

function shown(value) {
  const text = dumped(value);
  return text.length > 80 ? `${text.slice(0, 80)}..` : text;
}

// --- which file is a certificate, and which is none

function isCertificate(script) {
  return /^[ \t\n\r\f\v]*\{/.test(script) || script.split('\n').some((line) => line.trim().startsWith('{"'));
}

function isJson(line) {
  try {
    readJson(line);
    return true;
  } catch {
    return false;
  }
}

function whyNoJson(script) {
  if (!script.trim()) return 'the file is empty';
  const rows = readable(script).split('\n');
  const found = rows.map((line, i) => (line.trim().startsWith('{"') ? i + 1 : 0)).filter(Boolean);
  const others = rows.filter((line) => line.trim() && !line.trim().startsWith('{"'));
  if (found.length > 1) return `lines ${found.join(', ')} are a certificate each: save each in a file of its own`;
  if (found.length && others.length && isJson(rows[found[0] - 1])) return `line ${found[0]} is the certificate: save it in a file of its own`;
  try {
    readJson(new TextDecoder('utf-8', { fatal: true, ignoreBOM: true }).decode(bytesOf(script)));
  } catch (error) {
    if (error instanceof JsonError) return `line ${error.row}, column ${error.column}: ${error.message}`;
    return `byte ${firstWrongByte(script)} is no part of a text in UTF-8`;
  }
  return 'arrays and objects nest more than 127 deep, a number is too large, or a surrogate is escaped without its pair';
}

function firstWrongByte(script) {
  let at = 0;
  while (at < script.length) {
    const sign = characterAt(script, at);
    if (sign === null) return at;
    at += new TextEncoder().encode(sign).length;
  }
  return at;
}

// --- certificates of a search

const isNumber = (value) => isNumeric(value) && value >= 0 && value <= WIDEST;
const isNumbers = (value) => isList(value) && value.every(isNumber);
const isEntries = (value, length, size) => isNumbers(value) && value.length === length && value.every((a) => a < size);
const areColumns = (value, length) => isNumbers(value) && value.every((a, i) => a < length && (i === 0 || value[i - 1] < a));
const isTree = (value) => value instanceof Map && isNumber(value.get('version')) && Number(value.get('version')) === 2;

function whyNoCertificate(value, rule) {
  const [key, wanted] = TEXTS.certificate.rules[rule];
  if (rule === 2 && isTree(value)) return '`version` is 2, and this program reads no certificates by construction';
  if (!key) return `wanted: ${wanted}`;
  if (!value.has(key)) return `wanted: ${wanted}; there is no key \`${key}\``;
  return `wanted: ${wanted}; here is ${shown(value.get(key))}`;
}

function whyNotProved(value, number, values) {
  const rows = value.get('rows');
  const sets = value.get('sets') ?? [];
  const distance = value.get('distance');
  if (number === 32) return `here are rows of length ${rows[0].length}, ${rows.length} rows and ${sets.length} sets`;
  if (number === 34) return `the word has weight ${values[0]}, and \`distance\` is ${distance}`;
  if (number === 35) {
    const rank = systematic(fieldOfSize(value.get('field')), rows, [...rows[0].keys()]).basis.length;
    return `set ${values[0]}, counted from 1, has ${sets[values[0] - 1].get('basis').length} columns; the dimension is ${rank}`;
  }
  if (number === 36) return `column ${values[0]}, counted from 0, is fresh in sets ${sets.map((set, i) => (set.get('fresh').includes(values[0]) ? i + 1 : 0)).filter(Boolean).join(' and ')}`;
  if (number === 37) return `the word [${values.join(',')}] has weight ${weightOf(values)}, and \`distance\` is ${distance}`;
  if (number === 38) return `they prove that it is ${values[0]} at least, and \`distance\` is ${distance}`;
  if (number === 39) return `they are ${grouped(values[0])}; a checker looks at ${grouped(TEXTS.certificate.mostWords)} at most`;
  return '';
}

const grouped = (number) => String(number).replace(/\B(?=(\d{3})+$)/g, ',');

// --- certificates by construction

const named = (keys) => [...keys].sort().map((key) => `\`${key}\``).join(', ');
const sameKeys = (value, keys) => value.size === keys.length && keys.every((key) => value.has(key));
const withSize = (text, q) => text.replaceAll('{q}', q);

function isOwn(key, value, q) {
  if (key === 'points' || key === 'multipliers') return isNumbers(value) && value.every((a) => a <= 255);
  if (key === 'places') return isNumbers(value);
  if (key === 'rows') return isList(value) && value.every((row) => isNumbers(row) && row.every((a) => a < q));
  return isNumber(value) && (key !== 'large' || SYMBOL_SIZES.includes(Number(value)));
}

// the first of the rules 4 to 10 that a search over q elements breaks, or 0
function brokenRule(value, q) {
  const rows = value.get('rows');
  const sets = value.get('sets');
  if (!(isList(rows) && rows.length && isList(rows[0]) && rows[0].length && rows.every((row) => isEntries(row, rows[0].length, q)))) return 4;
  const { length } = rows[0];
  if (!isEntries(value.get('word'), length, q)) return 5;
  if (!(isNumber(value.get('distance')) && value.get('distance') >= 1)) return 6;
  const by = value.get('by');
  if (by !== 'levels' && by !== 'scan') return 7;
  if (by === 'scan') return value.has('sets') ? 8 : 0;
  if (!(isList(sets) && sets.length && sets.every((set) => set instanceof Map))) return 8;
  if (!sets.every((set) => areColumns(set.get('basis'), length) && areColumns(set.get('fresh'), length) && isNumber(set.get('level')))) return 9;
  return sets.every((set) => set.get('fresh').every((c) => set.get('basis').includes(c))) ? 0 : 10;
}

function whyNoSearch(value, q, where) {
  const rule = brokenRule(value, q);
  if (rule) return `wanted: of the search \`${where}\`, ${withSize(TEXTS.tree.searchRules[rule], q)}`;
  const keys = ['kind', 'by', 'distance', 'rows', 'word', ...(value.get('by') === 'levels' ? ['sets'] : [])];
  return sameKeys(value, keys) ? '' : `\`${where}\` is a search: its keys are ${named(keys)}; here are ${named(value.keys())}`;
}

// what is wrong with a claim over q elements, by rule 12; nothing if it is one
function whyNoClaim(value, q, where) {
  if (!(value instanceof Map)) return `\`${where}\` is no object`;
  const kind = value.get('kind');
  const kinds = ['search', ...Object.keys(TEXTS.tree.kinds)];
  if (!kinds.includes(kind)) return `wanted: \`kind\` of \`${where}\` is one of ${kinds.join(', ')}; here is ${value.has('kind') ? shown(kind) : 'none'}`;
  if (kind === 'search') return whyNoSearch(value, q, where);
  const [parts, own] = TEXTS.tree.kinds[kind];
  const keys = ['kind', ...parts, ...own];
  if (!sameKeys(value, keys)) return `\`${where}\` is a claim \`${kind}\`: its keys are ${named(keys)}; here are ${named(value.keys())}`;
  const wrong = own.find((key) => !isOwn(key, value.get(key), q));
  if (wrong) return `wanted: \`${wrong}\` of \`${where}\` is ${withSize(TEXTS.tree.own[wrong], q)}; here is ${shown(value.get(wrong))}`;
  return parts.map((key) => whyNoClaim(value.get(key), key === 'outer' ? Number(value.get('large')) : q, `${where}.${key}`)).find(Boolean) ?? '';
}

function whyNoTree(value, rule) {
  if (rule === 12) return value.has('claim') ? whyNoClaim(value.get('claim'), Number(value.get('field')), 'claim') : 'there is no key `claim`';
  const wanted = { 3: ['field', TEXTS.tree.own.large], 5: ['word', 'a nonempty list of whole numbers below the size of the field'], 6: ['distance', 'a whole number of at least 1'] }[rule];
  if (!wanted) return 'wanted: there are no other keys, in the whole and in the sets of its searches';
  const [key, what] = wanted;
  return `wanted: \`${key}\` is ${what}; ${value.has(key) ? `here is ${shown(value.get(key))}` : `there is no key \`${key}\``}`;
}

// each claim and how it is reached, in the order of the numbers
function claimsOf(value, where = 'claim') {
  const parts = TEXTS.tree.kinds[value.get('kind')]?.[0] ?? [];
  return [[where, value], ...parts.flatMap((key) => claimsOf(value.get(key), `${where}.${key}`))];
}

function whyTooLarge(value) {
  const claims = claimsOf(value.get('claim'));
  const lists = [['`word`', value.get('word')]];
  for (const [where, claim] of claims) {
    for (const key of ['rows', 'sets', 'points', 'multipliers', 'places']) if (claim.has(key)) lists.push([`\`${key}\` of \`${where}\``, claim.get(key)]);
    (claim.get('rows') ?? []).forEach((row, i) => lists.push([`row ${i + 1}, counted from 1, of \`${where}\``, row]));
  }
  const long = lists.find(([, entries]) => entries.length > TEXTS.longest);
  if (long) return `${long[0]} has ${long[1].length} entries`;
  const depth = Math.max(...claims.map(([where]) => where.split('.').length));
  return `here are ${grouped(claims.length)} claims, ${depth} deep; the limits are ${grouped(TEXTS.tree.mostClaims)} and ${TEXTS.tree.mostNested}`;
}

function whyRefused(value, number, refused) {
  const [where, claim] = claimsOf(value.get('claim'))[number];
  const meaning = claim.get('kind') === 'search' ? TEXTS.certificate.meanings[refused] : TEXTS.tree.refusals[refused] ?? '';
  return `claim ${number}, counted from 0 in the order of the tree, is the \`${claim.get('kind')}\` at \`${where}\`. Its refusal is ${refused}: ${meaning}`;
}

function ofTree(value, number, values) {
  if (number === 31) return whyNoTree(value, values[0]);
  if (number === 32) return whyTooLarge(value);
  if (number === 48) return whyRefused(value, ...values);
  if (number === 34) return `the word has weight ${values[0]}, and \`distance\` is ${value.get('distance')}`;
  if (number === 49) return `the tree proves that it is ${values[0]} at least, and \`distance\` is ${value.get('distance')}`;
  return '';
}

// The lines of an explanation of what `check` printed of a file; none if the certificate is accepted.
function linesOfRejection(script, printed) {
  const words = printed.trim().split(/\s+/);
  if (words[0] !== 'rejected') return [];
  const [number, ...values] = [words[1], ...words.slice(3)].map((word) => valueIn(word));
  let meaning = TEXTS.certificate.meanings[number];
  let detail;
  if (number === 30) detail = whyNoJson(script);
  else {
    const value = readJson(readable(script));
    if (isTree(value) && !(number === 31 && values[0] === 2)) {
      meaning = TEXTS.certificate.ofTrees[number] ?? meaning;
      detail = ofTree(value, number, values);
    } else detail = number === 31 ? whyNoCertificate(value, values[0]) : whyNotProved(value, number, values);
  }
  return [`reason ${number}: ${meaning}`, ...(detail ? [detail] : [])];
}
