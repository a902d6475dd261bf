'use strict';
// What a fault line means, in the words of tools/explain.py: its tables are in TEXTS, which build.py takes from it; its sentences with numbers
// are written here once more. web/test_explain.mjs compares both on tests/explain.

const isList = Array.isArray;
const isNumeric = (value) => typeof value === 'number' || typeof value === 'bigint';
const power = (base, exponent) => BigInt(base) ** BigInt(exponent);

function told(value) {
  if (typeof value === 'boolean') return 'a truth value';
  if (isList(value)) return value.every(isNumeric) ? 'a list of numbers' : 'a list of lists';
  if (isNumeric(value)) return 'a number';
  return value.kind === 'field' ? `the field GF(${value.size})` : `a code of length ${value.length}`;
}

// --- names that look alike, as difflib of Python compares them

function longestMatch(a, b, aLow, aHigh, bLow, bHigh) {
  let best = { i: aLow, j: bLow, size: 0 };
  let before = new Map();
  for (let i = aLow; i < aHigh; i += 1) {
    const here = new Map();
    for (let j = bLow; j < bHigh; j += 1) {
      if (a[i] !== b[j]) continue;
      const size = (before.get(j - 1) ?? 0) + 1;
      here.set(j, size);
      if (size > best.size) best = { i: i - size + 1, j: j - size + 1, size };
    }
    before = here;
  }
  return best;
}

function matched(a, b, aLow = 0, aHigh = a.length, bLow = 0, bHigh = b.length) {
  const { i, j, size } = longestMatch(a, b, aLow, aHigh, bLow, bHigh);
  return size ? size + matched(a, b, aLow, i, bLow, j) + matched(a, b, i + size, aHigh, j + size, bHigh) : 0;
}

function near(name, known) {
  const small = new Map();
  for (const one of [...known].reverse()) small.set(one.toLowerCase(), one);
  const word = name.toLowerCase();
  let best = null;
  for (const one of small.keys()) {
    const score = one.length + word.length ? (2 * matched(one, word)) / (one.length + word.length) : 1;
    if (score >= 0.6 && (!best || score > best.score || (score === best.score && one > best.one))) best = { score, one };
  }
  return best ? `did you mean \`${small.get(best.one)}\`?` : 'no name is near it';
}

// --- refusals of calls

const uneven = (rows) => {
  const row = rows.findIndex((r) => r.length !== rows[0].length);
  return `row ${row + 1} has ${entries(rows[row].length)}, the first row has ${rows[0].length}`;
};

function tooLarge(rows, size) {
  const row = rows.findIndex((r) => r.some((a) => a >= size));
  const column = rows[row].findIndex((a) => a >= size);
  return `entry ${column + 1} of row ${row + 1} is ${rows[row][column]}; the elements of GF(${size}) are 0 to ${size - 1}`;
}

const tooLargeInList = (list, size) => tooLarge([list], size).replaceAll('of row 1 ', 'of the list ');
const counted = (count, thing) => `${count} ${thing}${count === 1 ? '' : 's'}`;

function listRefusal(name, values, fault) {
  const argument = fault.values.length ? fault.values[0] : 0;
  if (fault.number === 8) return `points ${fault.values[0] + 1} and ${fault.values[1] + 1} are both ${values[1][fault.values[0]]}`;
  if (fault.number === 9) return `the polynomial is 0 at point ${fault.values[0] + 1}, which is ${values[1][fault.values[0]]}`;
  if (fault.number === 12) return `here are ${counted(values[1].length, 'point')} and ${counted(values[2].length, 'multiplier')}`;
  if (name === 'AlternantCode' && argument === 1) return `here are ${counted(values[1].length, 'point')} and r is ${values[0]}; r is 1 to the number of points`;
  const { size } = values[values.length - (name === 'GeneratorPolCode' || name === 'CheckPolCode' ? 1 : 2)];
  const entries = argument === 1 ? values[0] : values[argument - 1];
  if (entries.some((a) => a >= size)) return tooLargeInList(entries, size);
  if (argument === 3) return `multiplier ${entries.indexOf(0) + 1} is 0`;
  return entries.every((a) => a === 0) ? 'the polynomial is 0' : 'the polynomial has degree 0, or one above 255';
}

function coordinatesRefusal(code, places) {
  for (const [i, place] of places.entries()) {
    if (place >= code.length) return `coordinate ${place} isn't below the length ${code.length}`;
    if (i && place <= places[i - 1]) return `coordinate ${place} doesn't rise after ${places[i - 1]}`;
  }
  return 'no coordinate would be left';
}

function combinedRefusal(name, values, fault) {
  const [a, b] = [values[0], values[values.length - 1]];
  if (fault.number === 2 && name === 'ExtendedCode') return `the code has length ${a.length} already, the longest is ${TEXTS.longest}`;
  if (fault.number === 2) return `the length ${a.length} ${['DirectSumCode', 'UUVCode'].includes(name) ? '+' : 'times'} ${b.length} is above ${TEXTS.longest}`;
  if (fault.number === 3) return `the code is over GF(${a.size}), not over GF(2)`;
  if (fault.number === 11 && name === 'ConcatenatedCode') return `${a.size} is no power of ${b.size}`;
  if (fault.number === 11) return `the first code is over GF(${a.size}), the second over GF(${b.size})`;
  if (fault.number === 12) return `the first code has length ${a.length}, the second ${b.length}`;
  if (fault.number === 13) return coordinatesRefusal(a, b);
  const [dimension, degree] = fault.values;
  return `the inner code has dimension ${dimension}; ${a.size} is ${b.size}^${degree}, so it needs ${degree}`;
}

// why the length is none of a quadratic residue code
function noResidueLength(length, size) {
  if (length < 3) return `${length} is no odd prime`;
  for (let d = 2; d < length; d++) if (length % d === 0) return `${length} is no prime: ${d} divides it`;
  if (size % length === 0) return `${size} is 0 modulo ${length}`;
  return `${size} is not a square modulo ${length}`;
}

const entries = (count) => (count === 1 ? '1 entry' : `${count} entries`);

// why a word, or some words, whose cyclic shifts span a code are refused
function circulantRefusal(name, values, fault) {
  const [words, n, { size }] = values;
  const one = name === 'CirculantCode';
  if (fault.number === 2 && !one && !words.length) return 'the matrix has no rows';
  if (fault.number === 2) return `the length ${one ? n : `${n} times ${words.length}`} is not one of 1 to ${TEXTS.longest}`;
  if (fault.number === 12 && one) return `the list has ${entries(words.length)}, n is ${n}`;
  if (fault.number === 12) {
    const row = words.findIndex((r) => BigInt(r.length) !== BigInt(n));
    return `row ${row + 1} has ${entries(words[row].length)}, n is ${n}`;
  }
  return one ? tooLargeInList(words, size) : tooLarge(words, size);
}

// why a code, a subcode and a code for the tails are refused
function constructionXRefusal(values, fault) {
  const [code, part, tails] = values;
  if (fault.number === 11) {
    const [other, which] = part.size === code.size ? [tails, 'third'] : [part, 'second'];
    return `the first code is over GF(${code.size}), the ${which} over GF(${other.size})`;
  }
  if (fault.number === 12) return `the first code has length ${code.length}, the second ${part.length}`;
  if (fault.number === 51) return '`IsSubcode` says whether each word of a code is one of another code';
  if (fault.number === 14) return `the third code has dimension ${fault.values[0]}; the first one has ${counted(fault.values[1], 'dimension')} more than the second`;
  return `the length ${code.length} + ${tails.length} is above ${TEXTS.longest}`;
}

// why two words, or an element and a word, are refused
function twoListsRefusal(values, fault) {
  if (fault.number === 12) return `the first list has ${entries(values[0].length)}, the second ${values[1].length}`;
  const [argument] = fault.values;
  const { size } = values[2];
  const given = values[argument - 1];
  if (isNumeric(given)) return `it is ${given}; the elements of GF(${size}) are 0 to ${size - 1}`;
  return tooLarge([given], size).replaceAll('of row 1 ', `of argument ${argument} `);
}

function lengthsRefusal(name, values) {
  if (name === 'Encode') return `the list has ${entries(values[1].length)}; a message of this code has as many as \`Dimension(C)\` says`;
  if (name === 'AugmentedCode') {
    const row = values[1].findIndex((r) => r.length !== values[0].length);
    return `row ${row + 1} has ${entries(values[1][row].length)}, the words of the code have ${values[0].length}`;
  }
  if (OF_WORDS.includes(name)) return `the list has ${entries(values[1].length)}, the words of the code have ${values[0].length}`;
  return uneven(values[0]);
}

function attainedRefusal(weight, distance) {
  const checks = `one more than the ${counted(distance - 1, 'check')} of the form`;
  if (weight !== distance) return `it has weight ${weight}; it must have weight ${distance}, ${checks}`;
  return `it has weight ${weight}, ${checks}, but isn't in the code`;
}

function lengthRefusal(name, values) {
  if (['GoppaCode', 'AlternantCode'].includes(name)) return `here are ${counted(values[1].length, 'point')}; a code has 1 to ${TEXTS.longest}`;
  return `the length ${['GeneratorPolCode', 'CheckPolCode'].includes(name) ? values[1] : values[0]} is not one of 1 to ${TEXTS.longest}`;
}

// why no field has an element of this order
function orderTold(length, size) {
  const p = characteristic(size);
  if (length % p === 0) return `${length} is a multiple of ${p}: no field that contains GF(${size}) has an element of this order`;
  let degree = 1;
  for (let rest = size % length; rest !== 1 % length; rest = (rest * size) % length) degree += 1;
  return `the smallest field with one that contains GF(${size}) has ${size}^${degree} elements; it isn't here`;
}

// Which degrees the irreducible divisors of x^n - 1 have: each is that of a set of exponents that multiplication by q permutes.
function divisorsTold(length, size) {
  const p = characteristic(size);
  let part = length;
  while (part % p === 0) part /= p;
  const degrees = new Map();
  const left = new Set(Array(part).keys());
  for (let first = 0; first < part; first += 1) {
    let [exponent, degree] = [first, 0];
    for (; left.delete(exponent); degree += 1) exponent = (exponent * size) % part;
    if (degree) degrees.set(degree, (degrees.get(degree) ?? 0) + 1);
  }
  const all = [...degrees].sort((a, b) => a[0] - b[0]).map(([degree, count]) => `${count} of degree ${degree}`).join(', ');
  return `over GF(${size}) the irreducible divisors of x^${length} - 1 are ${all}${part < length ? `, each ${length / part} times` : ''}`;
}

const COMBINED = ['ExtendedCode', 'PuncturedCode', 'ShortenedCode', 'EvenWeightSubcode', 'DirectSumCode', 'UUVCode', 'DirectProductCode', 'IntersectionCode', 'UnionCode', 'IsSubcode', 'IsSameCode', 'ConcatenatedCode'];
const OF_WORDS = ['IsCodeword', 'Decode', 'AlgebraicDecode', 'AlternantCertificate', 'NearestWord', 'Syndrome', 'InformationWord', 'ResidueCode', 'FillErasures'];
const OF_TWO_LISTS = ['AddWords', 'ScaleWord', 'DistanceCodeword'];
const BY_SHIFTS = ['CirculantCode', 'QuasiCyclicCode'];
const BY_LISTS = ['GeneratorPolCode', 'CheckPolCode', 'GoppaCode', 'AlternantCode'];

function distributionTold(q, n, k, r) {
  if (power(q, r) > 2n ** 24n) return `the code has ${q}^${k} words and its dual ${q}^${r}; one of them may have at most 2^24`;
  return `the code has ${q}^${k} words, more than 2^24; from its dual it is found only in a space of at most 2^63 vectors, and here are ${q}^${n}`;
}

function matrixLengthRefusal(name, values) {
  if (isList(values[0])) return values[0].length ? `the first row has ${entries(values[0][0].length)}; a row has 1 to ${TEXTS.longest}` : 'the matrix has no rows';
  if (name === 'ResidueCode') return 'the word is 0 nowhere, so no coordinate would be left';
  if (name === 'HammingCode') return `with ${values[0]} checks over GF(${values[1].size}) the length is above ${TEXTS.longest}`;
  if (name === 'ReedMullerCode') return `in ${values[1]} variables the length 2^${values[1]} is above ${TEXTS.longest}`;
  return `the length ${values[0]} is not one of 1 to ${TEXTS.longest}`;
}

function argumentRefusal(name, values) {
  if (name === 'AugmentedCode') return tooLarge(values[1], values[0].size);
  if (OF_WORDS.includes(name) || name === 'Encode') return tooLargeInList(values[1], values[0].size);
  if (name === 'HammingCode') return `a Hamming code has at least 2 checks, here ${values[0]}`;
  if (name === 'ReedMullerCode') return `the order ${values[0]} is above the number of variables ${values[1]}`;
  return tooLarge(values[0], values[1].size);
}

function designRefusal(name, values) {
  const [distance, least] = name === 'ReedSolomonCode' ? [values[1], 1] : [values[values.length - 2], 2];
  if (values[0] < least) return `a code of length ${values[0]} has none`;
  return `it is ${distance}; with the length ${values[0]} it is ${least} to ${values[0]}`;
}

// why a call with arguments of its kinds is refused
function refusal(name, values, fault) {
  const last = values[values.length - 1];
  const { number } = fault;
  if (number === 1) return `${values[0]} is not the size of a field here; the sizes are ${TEXTS.fieldSizes.join(', ')}`;
  if (number === 17) return `GF(${last.size}) has more than 16 elements; the sizes for codes are ${SYMBOL_SIZES.join(', ')}`;
  if (COMBINED.includes(name)) return combinedRefusal(name, values, fault);
  if (BY_SHIFTS.includes(name)) return circulantRefusal(name, values, fault);
  if (name === 'ConstructionXCode') return constructionXRefusal(values, fault);
  if (number === 2 && BY_LISTS.includes(name)) return lengthRefusal(name, values);
  if (number === 10) return `${values[values.length - 2].size} is no power of ${last.size}`;
  if (number === 4) return divisorsTold(values[1], values[2].size);
  if (BY_LISTS.includes(name)) return listRefusal(name, values, fault);
  if (number === 5) return orderTold(values[0], last.size);
  if (number === 6) return designRefusal(name, values);
  if (number === 7) return `it would have ${BigInt(values[0]) + 1n}; the sizes for codes are ${SYMBOL_SIZES.join(', ')}`;
  if (number === 2) return matrixLengthRefusal(name, values);
  if (OF_TWO_LISTS.includes(name)) return twoListsRefusal(values, fault);
  if (number === 13) return coordinatesRefusal(values[0], values[2]);
  if (number === 12) return lengthsRefusal(name, values);
  if (number === 3) return argumentRefusal(name, values);
  if (number === 15) return `${values[0].size}^${fault.values[0]} is above 2^20; for codes with more cosets there are NearestWord and, if they have an alternant form, AlgebraicDecode`;
  if (number === 18) return 'only BCHCode, ReedSolomonCode, GoppaCode and AlternantCode make codes that have one';
  if (number === 19) return attainedRefusal(...fault.values);
  if (number === 53) return noResidueLength(values[0], values[1].size);
  if (number === 50) return '`Decode(C, x)` gives a nearest word of the code';
  if (number === 47) return distributionTold(values[0].size, values[0].length, ...fault.values);
  if (number === 16) return `${values[0].length} rows over GF(${values[1].size}) have ${values[1].size}^${values[0].length} words, more than 65,536`;
  return '';
}

// --- faults of evaluation

// What the statements before the fault gave to names; `ask` runs a script of these, and gives the lines of its text, or null at a fault.
class Names {
  constructor(ask, statements) {
    this.ask = ask;
    this.statements = statements.filter((it) => it.target !== null);
  }
  all() {
    return [...new Set(this.statements.map((it) => it.target))];
  }
  values(parts) {
    const lines = this.ask(this.statements.map((it) => `${it.target}:=${written(it.expression)};`).join('') + parts.map((part) => `${written(part)};`).join(''));
    if (!lines || lines.length !== parts.length) throw new Error('the arguments of the call have no values');
    return lines.map(valueIn);
  }
}

const isCallName = (name) => name in TEXTS.calls || name in TEXTS.queries;

function unknown(expression, names) {
  const name = expression.value;
  const calls = [...Object.keys(TEXTS.calls), ...Object.keys(TEXTS.queries)];
  if (isCallName(name) && expression.kind !== 'call') return `\`${name}\` is a call: its arguments stand in parentheses, as \`${name}(..)\``;
  if (TEXTS.foreign[name]) return TEXTS.foreign[name];
  if (expression.kind === 'call') return `no call is named \`${name}\`; ${near(name, calls)}`;
  return `\`${name}\` was given no value before; ${near(name, [...names.all(), ...calls])}`;
}

const toldKinds = (kinds) => `${kinds.length} argument${kinds.length === 1 ? '' : 's'} (${kinds.map((kind) => TEXTS.kinds[kind]).join(', ') || 'none'})`;

function atCall(expression, fault, names) {
  const name = expression.value;
  if (fault.number === 44) return unknown(expression, names);
  // (it may be the value of the call that does not fit)
  if (fault.number === 45 && !(name in TEXTS.queries)) return null;
  if (fault.number === 45) return `\`${name}\` stands only as a statement of its own: not after \`:=\`, not in a call, not in a list`;
  if (fault.number === 46) {
    const forms = TEXTS.queries[name] ?? TEXTS.calls[name];
    return `\`${name}\` takes ${forms.map(toldKinds).join(' or ')}; here ${expression.parts.length === 1 ? 'is' : 'are'} ${expression.parts.length}`;
  }
  return refusal(name, names.values(expression.parts), fault);
}

// an explanation of a fault at or within a call, or null if it is elsewhere
function ofCall(expression, fault, names) {
  const name = expression.value;
  if (fault.place === expression.place) return atCall(expression, fault, names);
  for (const [i, part] of expression.parts.entries()) {
    const inner = ofExpression(part, fault, names);
    if (inner !== null) return inner;
    if (part.place === fault.place && fault.number === 45 && isCallName(name)) {
      const kinds = (TEXTS.queries[name] ?? TEXTS.calls[name]).find((form) => form.length === expression.parts.length);
      const [value] = names.values([part]);
      const instead = kinds[i] === 'field' && TEXTS.fieldSizes.includes(value) ? `: write \`GF(${value})\`` : '';
      return `argument ${i + 1} of \`${name}\` is ${TEXTS.kinds[kinds[i]]}; here is ${told(value)}${instead}`;
    }
  }
  return null;
}

function ofExpression(expression, fault, names) {
  if (expression.kind === 'call') return ofCall(expression, fault, names);
  if (expression.kind === 'name' && expression.place === fault.place && fault.number === 44) return unknown(expression, names);
  if (expression.kind !== 'list') return null;
  for (const [i, part] of expression.parts.entries()) {
    const inner = ofExpression(part, fault, names);
    if (inner !== null) return inner;
    if (part.place === fault.place && fault.number === 45) {
      const [first, here] = names.values([expression.parts[0], part]);
      return i === 0 ? `a list has numbers or lists of numbers; here is ${told(first)}` : `the first element is ${told(first)}, and this one is ${told(here)}`;
    }
  }
  return null;
}

// the fault of evaluation is in the last statement that begins before it
function ofStatements(statements, fault, ask) {
  const before = statements.filter((it) => it.expression.place <= fault.place);
  return ofExpression(before[before.length - 1].expression, fault, new Names(ask, before.slice(0, -1))) ?? '';
}

// --- faults of reading

function expected(allowed, fault) {
  if (fault.number !== 41 || !allowed.length) return '';
  const words = allowed.map((kind) => TEXTS.signs[kind] ?? `\`${kind}\``);
  return `expected ${words.length > 1 ? `${words.slice(0, -1).join(', ')} or ` : ''}${words[words.length - 1]}`;
}

function ofReading(script, fault, allowed) {
  if (fault.number === 40) return ofByte(script, fault.place);
  return (fault.number === 41 && ofToken(script, fault.place)) || expected(allowed, fault);
}

// the fault line that ends a text, or null
function faultOf(text) {
  const found = /(?:^|\n)fault (\d+) at (\d+)(?: with ([\d ]+))?\n$/.exec(text);
  return found ? new Fault(Number(found[1]), Number(found[2]), (found[3] ?? '').split(' ').filter(Boolean).map(Number)) : null;
}

// a sentence on a fault, or none if it can't be explained
function detailOf(script, fault, ask) {
  const { statements, fault: ofReader, allowed } = readScript(script);
  try {
    return ofReader ? ofReading(script, fault, allowed) : ofStatements(statements, fault, ask);
  } catch {
    return '';
  }
}

// The explanation of a fault: line and column from 1, the meaning of its number, the source of the line, and a sentence, perhaps empty.
function explanationOf(script, fault, ask) {
  const start = script.lastIndexOf('\n', fault.place - 1) + 1;
  const stop = script.indexOf('\n', fault.place);
  return {
    row: script.slice(0, fault.place).split('\n').length,
    column: [...readable(script.slice(fault.place ? start : 0, fault.place))].length + 1,
    source: readable(script.slice(fault.place ? start : 0, stop < 0 ? script.length : stop)),
    meaning: TEXTS.meanings[fault.number],
    detail: detailOf(script, fault, ask),
  };
}

// the same as the lines that `./codes explain` writes
function linesOf({ row, column, source, meaning, detail }) {
  const signs = [...source];
  const cut = Math.max(0, column - 1 - 60);
  const blanks = signs.slice(cut, column - 1).map((sign) => (sign === '\t' ? '\t' : ' ')).join('');
  return [`line ${row}, column ${column}: ${meaning}`, `  ${signs.slice(cut, cut + 120).join('')}`, `  ${blanks}^`, ...(detail ? [detail] : [])];
}
