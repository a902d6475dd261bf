'use strict';
// What is probably meant by a byte that begins no token, or by a token that may not stand where it does: tools/explain_bytes.py once more.

function ofPower(script, place) {
  const before = /(\d+|\))[ \t\n\r\f\v]*$/.exec(script.slice(0, place));
  const after = /^\^[ \t\n\r\f\v]*(\d{1,2})(?!\d)/.exec(script.slice(place));
  if (/Z\(\d+\)[ \t\n\r\f\v]*$/.test(script.slice(0, place))) return 'write the number of the element; docs/FROM_GUAVA.md lists the powers of `Z(q)`';
  if (before && after && before[1] !== ')' && before[1].length < 4 && Number(after[1]) < 64) return `there are no powers here: write ${power(before[1], after[1])}`;
  return 'there are no powers here: write the number';
}

function ofMinus(script, place) {
  const field = /GF\((\d{1,3})\)/.exec(script.slice(place));
  const number = /^-[ \t\n\r\f\v]*(\d{1,6})(?!\d)/.exec(script.slice(place));
  if (field && number && [2, 3, 5, 7, 11, 13].includes(Number(field[1]))) {
    const [size, value] = [Number(field[1]), Number(number[1])];
    return `there are no negative numbers: over GF(${size}) -${value} is ${(size - (value % size)) % size}`;
  }
  return 'there are no negative numbers and no differences: write the element, which is below the size of the field';
}

function ofString(script, place) {
  const digits = /^"(\d{1,40})"/.exec(script.slice(place));
  return `there are no strings: a word is a list of numbers${digits ? `, here [${[...digits[1]].join(',')}]` : ', as [1,0,1]'}`;
}

function ofSlash(script, place) {
  return '/*'.includes(script[place + 1] || ' ') ? 'comments begin with `#`' : 'there are no quotients here';
}

// a range, a fraction, or a part of a value: a name after the dot may be known
function ofPoint(script, place) {
  if (script[place + 1] === '.') return 'there are no ranges: write each number';
  const name = /^\w*/.exec(script.slice(place + 1))[0];
  if (isCallName(name)) return `there are no parts of values: write \`${name}(..)\` alone`;
  return TEXTS.foreign[name] ?? 'numbers are whole, and there are no parts of values';
}

const BY_CONTEXT = { '^': ofPower, '-': ofMinus, '"': ofString, '/': ofSlash, '.': ofPoint };

// the character whose first byte is at the place, or null if none is
function characterAt(script, place) {
  for (let length = 1; length <= 4; length += 1) {
    try {
      return new TextDecoder('utf-8', { fatal: true, ignoreBOM: true }).decode(bytesOf(script.slice(place, place + length)));
    } catch {
      continue;
    }
  }
  return null;
}

function ofCharacter(sign) {
  const code = `U+${sign.codePointAt(0).toString(16).toUpperCase().padStart(4, '0')}`;
  const named = TEXTS.unicode[code] ? `${code}, ${TEXTS.unicode[code]}` : code;
  if (/\p{L}/u.test(sign)) return `a name has the letters A to Z and a to z, without accents; this is ${named}`;
  if (/[\p{Zs}\p{Cf}\p{Zl}\p{Zp}]/u.test(sign)) return `this is no blank but ${named}: write a space in its place, or nothing`;
  if (/\p{Cc}/u.test(sign)) return `byte ${sign.codePointAt(0)} is no blank: blanks are spaces, tabs and line ends`;
  return `this is ${named}; outside comments a script has plain signs alone`;
}

function ofByte(script, place) {
  const mark = TEXTS.byteMarks.find(([bytes]) => place === 0 && script.startsWith(bytes));
  if (mark) return mark[1];
  const sign = characterAt(script, place);
  if (sign === null) return `byte ${script.charCodeAt(place)} is no part of a text in UTF-8`;
  if (BY_CONTEXT[sign]) return BY_CONTEXT[sign](script, place);
  if (TEXTS.byteSigns[sign]) return TEXTS.byteSigns[sign];
  return sign.length === 1 && sign > ' ' && sign < '\x7f' ? 'there is no such sign here' : ofCharacter(sign);
}

function ofToken(script, place) {
  const before = script.slice(0, place).replace(/[ \t\n\r\f\v]+$/, '');
  const rest = script.slice(place);
  if (rest.startsWith(';') && before.endsWith(';')) return 'one `;` is enough';
  const name = /\w+$/.exec(before)?.[0] ?? '';
  const words = before.slice(before.lastIndexOf(';') + 1).split(/[ \t\n\r\f\v]+/);
  if (rest.startsWith('in ') && !words.includes('for')) return 'whether x is a word of C is asked by `IsCodeword(C, x)`';
  if (isCallName(name) && /^[\w[]/.test(rest)) return `the arguments of \`${name}\` stand in parentheses, as \`${name}(..)\``;
  if ([/^[A-Za-z]*/.exec(rest)[0], /[A-Za-z]*$/.exec(before)[0]].some((word) => TEXTS.loops.includes(word))) return 'there are no loops, conditions or functions: a script is a list of statements, `name := call;` or `call;`';
  return '';
}
