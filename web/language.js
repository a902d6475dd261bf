'use strict';
// Scripts: tokens, statements and faults of reading, by the rules of docs/FORMATS.md. A script is a text with one sign for each byte, so that
// places in it are offsets. tools/reference.py says the same in Python.

const DEEPEST = 32;
const WIDEST = 2n ** 64n - 1n;
const END_OF_SCRIPT = 'end of script';

class Fault extends Error {
  constructor(number, place, values = []) {
    super(`fault ${number} at ${place}`);
    Object.assign(this, { number, place, values });
  }
}

// the bytes as a text with one sign for each
function signsOf(bytes) {
  let text = '';
  for (let at = 0; at < bytes.length; at += 8192) text += String.fromCharCode(...bytes.subarray(at, at + 8192));
  return text;
}

function bytesOf(signs) {
  return Uint8Array.from(signs, (sign) => sign.charCodeAt(0));
}

// a piece of such a text as it is read
function readable(signs) {
  return new TextDecoder('utf-8', { ignoreBOM: true }).decode(bytesOf(signs));
}

class Tokens {
  constructor(script) {
    Object.assign(this, { script, at: 0, open: 0, next: null, allowed: [], end: 0 });
  }

  skipBlanks() {
    const blanks = /(?:[ \t\r\n]|#[^\n]*)*/y;
    blanks.lastIndex = this.at;
    this.at += blanks.exec(this.script)[0].length;
  }

  read() {
    this.skipBlanks();
    const place = this.at;
    if (place === this.script.length) return { kind: END_OF_SCRIPT, place, text: '' };
    const token = /([A-Za-z][A-Za-z0-9_]*)|([0-9]+)|:=|[()[\],;]/y;
    token.lastIndex = place;
    const found = token.exec(this.script);
    if (!found) throw new Fault(40, place);
    const [text, name, digits] = found;
    if (digits && BigInt(digits.replace(/^0+/, '').slice(0, 21) || '0') > WIDEST) throw new Fault(43, place);
    this.at = place + text.length;
    return { kind: name ? 'name' : digits ? 'number' : text, place, text };
  }

  peek() {
    if (!this.next) {
      this.next = this.read();
      if ((this.next.kind === '(' || this.next.kind === '[') && this.open === DEEPEST) throw new Fault(42, this.next.place);
    }
    return this.next;
  }

  // the next token, which is of one of these kinds; the kinds that were allowed last are remembered, and where the last token ended
  take(...allowed) {
    this.allowed = allowed;
    const token = this.peek();
    if (!allowed.includes(token.kind)) throw new Fault(41, token.place);
    this.next = null;
    this.open += '(['.includes(token.kind) ? 1 : ')]'.includes(token.kind) ? -1 : 0;
    this.end = token.place + token.text.length;
    return token;
  }
}

function readParts(tokens, closing) {
  const parts = [];
  if (tokens.peek().kind === closing) {
    tokens.take(closing);
    return parts;
  }
  for (;;) {
    parts.push(readExpression(tokens));
    if (tokens.take(',', closing).kind === closing) return parts;
  }
}

function readAfterName(tokens, name) {
  const it = { kind: 'name', place: name.place, value: name.text, parts: [] };
  if (tokens.peek().kind === '(') {
    tokens.take('(');
    it.kind = 'call';
    it.parts = readParts(tokens, ')');
    it.end = tokens.end;
  }
  return { end: name.place + name.text.length, ...it };
}

function readExpression(tokens) {
  const first = tokens.take('number', 'name', '[');
  if (first.kind === 'number') return { kind: 'number', place: first.place, value: first.text.replace(/^0+(?=\d)/, ''), parts: [], end: tokens.end };
  if (first.kind === '[') {
    const parts = readParts(tokens, ']');
    return { kind: 'list', place: first.place, value: null, parts, end: tokens.end };
  }
  return readAfterName(tokens, first);
}

function readStatement(tokens) {
  let target = null;
  let expression;
  const { place } = tokens.peek();
  if (tokens.peek().kind === 'name') {
    const name = tokens.take('name');
    if (tokens.peek().kind === ':=') {
      tokens.take(':=');
      target = name.text;
      expression = readExpression(tokens);
    } else expression = readAfterName(tokens, name);
  } else expression = readExpression(tokens);
  tokens.take(';');
  return { target, expression, place, end: tokens.end };
}

// The statements; or those before the fault, the fault, what was allowed there, and where the token before it ends.
function readScript(script) {
  const tokens = new Tokens(script);
  const statements = [];
  try {
    while (tokens.peek().kind !== END_OF_SCRIPT) statements.push(readStatement(tokens));
  } catch (fault) {
    if (!(fault instanceof Fault)) throw fault;
    return { statements, fault, allowed: tokens.allowed, end: tokens.end };
  }
  return { statements, fault: null, allowed: [], end: tokens.end };
}

// the expression as it may stand in a script
function written(expression) {
  const parts = expression.parts.map(written).join(',');
  if (expression.kind === 'number') return expression.value;
  if (expression.kind === 'list') return `[${parts}]`;
  return expression.value + (expression.kind === 'call' ? `(${parts})` : '');
}

// the queries whose searches have record lines
const SEARCHES = ['MinimumDistance', 'Certificate', 'ScanCertificate'];
// what gives a name its value, before a place
function given(statements, name, place) {
  return statements.filter((it) => it.target === name && it.end <= place).pop()?.expression ?? null;
}

// The size of the field that an expression is about, as far as it can be seen without its values; else 0.
function fieldOf(expression, statements, depth = 0) {
  if (!expression || depth > 64) return 0;
  if (expression.kind === 'name') return fieldOf(given(statements, expression.value, expression.place), statements, depth + 1);
  if (expression.kind !== 'call') return 0;
  const { value: name, parts } = expression;
  if (name === 'GF') return parts[0]?.kind === 'number' ? Number(parts[0].value) : 0;
  if (name === 'ReedSolomonCode') return parts[0]?.kind === 'number' ? Number(parts[0].value) + 1 : 0;
  if (name === 'ReedMullerCode' || name.endsWith('BinaryGolayCode')) return 2;
  if (name.endsWith('TernaryGolayCode')) return 3;
  if (name === 'ConcatenatedCode') return fieldOf(parts[1], statements, depth + 1);
  const last = parts[parts.length - 1];
  const ofLast = ['IsCodeword', 'Decode', 'AlgebraicDecode', 'NearestWord', 'AlternantCertificate', 'PuncturedCode', 'ShortenedCode'].includes(name) ? 0 : fieldOf(last, statements, depth + 1);
  return ofLast || fieldOf(parts[0], statements, depth + 1);
}

// the value that a line of a text shows; of a code its rows aren't known
function valueIn(line) {
  const code = /^code \[(\d+),(\d+)\] GF\((\d+)\)$/.exec(line);
  if (code) return { kind: 'code', length: Number(code[1]), dimension: Number(code[2]), size: Number(code[3]) };
  const field = /^GF\((\d+)\)$/.exec(line);
  if (field) return { kind: 'field', size: Number(field[1]) };
  return JSON.parse(line.replace(/\d{16,}/g, '"$&"'), (_, value) => (typeof value === 'string' ? BigInt(value) : value));
}
