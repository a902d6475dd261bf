'use strict';
// Where a teacher would point at a fault: the entry that is too large, the row that is too short, the place where a sign is missing. Each point
// is a pair of offsets in the script, equal ones if something is missing there.

const range = (expression) => [expression.place, expression.end];

// the innermost call, name, list or number that begins at a place
function expressionAt(expression, place) {
  for (const part of expression.parts) {
    const found = expressionAt(part, place);
    if (found) return found;
  }
  return expression.place === place ? expression : null;
}

// a list as it is written, there or where its name was given it
const listOf = (expression, statements) => (expression?.kind === 'name' ? listOf(given(statements, expression.value, expression.place), statements) : expression?.kind === 'list' ? expression : null);

function tooLargeEntry(list, size) {
  for (const part of list.parts) {
    const found = part.kind === 'list' ? tooLargeEntry(part, size) : part.kind === 'number' && BigInt(part.value) >= BigInt(size) ? part : null;
    if (found) return found;
  }
  return null;
}

const SIZE_OF_POINTS = ['GoppaCode', 'AlternantCode'];

// the parts of a call that its refusal is about
function refusedParts(call, fault, statements) {
  const { value: name, parts } = call;
  const last = parts[parts.length - 1];
  const list = (i) => listOf(parts[i], statements);
  const sizeOf = (it) => fieldOf(it, statements);
  const { number, values } = fault;
  if (number === 1 || number === 7 || number === 15 || number === 18 || number === 16 || number === 47) return [parts[0]];
  if (number === 17) return [last];
  if (number === 4) return [parts[0]];
  if (number === 5) return [parts[0]];
  if (number === 6) return [name === 'ReedSolomonCode' ? parts[1] : parts[parts.length - 2]];
  if (number === 8) return values.map((i) => list(1)?.parts[i] ?? parts[1]);
  if (number === 9) return [list(1)?.parts[values[0]] ?? parts[1]];
  if (number === 10) return [parts[parts.length - 2], last];
  if (number === 11) return parts;
  if (number === 13) return [parts[1]];
  if (number === 14) return [parts[1]];
  if (number === 12) {
    const rows = list(0);
    const uneven = rows?.parts.find((row) => row.kind === 'list' && row.parts.length !== rows.parts[0].parts.length);
    return parts.length === 2 && last && rows ? [uneven ?? parts[0]] : SIZE_OF_POINTS.includes(name) ? [parts[1], parts[2]] : [last];
  }
  if (number === 3) {
    const it = parts[values[0] - 1];
    const size = SIZE_OF_POINTS.includes(name) ? sizeOf(parts[parts.length - 2]) : sizeOf(name.endsWith('Code') ? last : parts[0]);
    const literal = listOf(it, statements);
    return [(literal && size && tooLargeEntry(literal, size)) || it];
  }
  if (number === 2) return [SIZE_OF_POINTS.includes(name) || name.endsWith('PolCode') || name === 'ReedMullerCode' ? parts[1] : parts[0]];
  return [];
}

function pointsOf(script, fault) {
  const read = readScript(script);
  const token = /[A-Za-z0-9_]+|:=|[\s\S]|$/y;
  token.lastIndex = fault.place;
  const here = [fault.place, fault.place + token.exec(script)[0].length];
  if (read.fault) {
    if (fault.number === 40) return [[fault.place, fault.place + Math.max(1, new TextEncoder().encode(characterHere(script, fault.place)).length)]];
    const lacks = fault.number === 41 && read.end > 0 && read.allowed.some((kind) => [';', ',', ')', ']'].includes(kind));
    return lacks ? [[read.end, read.end], here] : [here];
  }
  const statement = read.statements.filter((it) => it.expression.place <= fault.place).pop();
  const it = statement && expressionAt(statement.expression, fault.place);
  const isOwn = it?.kind === 'call' && (fault.number < 40 || fault.number === 47);
  const parts = isOwn ? refusedParts(it, fault, read.statements).filter(Boolean) : [];
  if (parts.length) return parts.map(range);
  return [it && fault.number === 45 && it.kind !== 'call' ? range(it) : here];
}

// the character at a place, or the byte there
function characterHere(script, place) {
  return [...readable(script.slice(place, place + 4))][0] ?? script[place] ?? '';
}
