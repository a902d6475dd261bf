'use strict';
// Words, matrices and weight distributions as pictures. Colours are classes e0 to e15 of the style; a picture says in its label what it shows.

const CELL = 22; // the side of a cell, if there is room
const WIDTH = 580; // what a picture may need without being scrolled
const MOST_DIGITS = 1600; // cells with a digit in each

// One path for each element that occurs: squares at its cells.
function squares(rows, side, gap) {
  const paths = new Map();
  rows.forEach((row, i) => row.forEach((a, j) => {
    if (a !== 0) paths.set(a, `${paths.get(a) ?? ''}M${j * side + gap / 2} ${i * side + gap / 2}h${side - gap}v${side - gap}h${gap - side}z`);
  }));
  return [...paths].map(([a, d]) => picture('path', { class: `cell e${a}`, d }));
}

function digits(rows, side) {
  return rows.flatMap((row, i) => row.map((a, j) => picture('text', { class: `digit d${a}`, x: j * side + side / 2, y: i * side + side / 2 }, a === 0 ? '·' : String(a))));
}

// Rows of elements as a grid of cells. `marked` has for each row a list of columns with a frame.
function grid(rows, { label, marked = [], names = [] }) {
  const columns = Math.max(1, ...rows.map((row) => row.length));
  const least = rows.some((row) => row.some((a) => a > 1)) ? 14 : 9;
  const many = rows.length * columns > MOST_DIGITS || columns > 64;
  const side = Math.max(many ? 4 : least, Math.min(CELL, Math.floor(WIDTH / columns)));
  const space = names.length ? 70 : 0;
  const [width, height] = [columns * side + space, rows.length * side];
  const cells = picture('g', { transform: `translate(${space} 0)` },
    picture('rect', { class: 'ground', width: columns * side, height, rx: 4 }),
    ...squares(rows, side, side > 16 ? 2 : side > 6 ? 1 : 0), ...(many || side < 13 ? [] : digits(rows, side)),
    ...marked.flatMap((places, i) => places.map((j) => picture('rect', { class: 'marked', x: j * side + 1, y: i * side + 1, width: side - 2, height: side - 2, rx: 3 }))));
  const drawn = picture('svg', { class: 'grid', role: 'img', 'aria-label': label, viewBox: `0 0 ${width} ${height}`, width, height },
    ...names.map((name, i) => picture('text', { class: 'name', x: 0, y: i * side + side / 2 }, name)), cells);
  return element('div', { class: 'wide', tabindex: width > 300 ? '0' : null, role: width > 300 ? 'group' : null, 'aria-label': width > 300 ? 'a picture that scrolls' : null }, drawn);
}

const ofField = (size) => (size ? ` over GF(${size})` : '');

function matrixPicture(rows, size) {
  const entries = rows.flat().length <= 200 ? `: ${rows.map((row) => row.join(' ')).join('; ')}` : '';
  return grid(rows, { label: `a matrix of ${rows.length} rows and ${rows[0]?.length ?? 0} columns${ofField(size)}${entries}` });
}

function wordPicture(word, size) {
  return grid([word], { label: `a word of length ${word.length} and weight ${weightOf(word)}${ofField(size)}: ${word.join(' ')}` });
}

// a received word above what it was decoded to, the places where they differ marked
function decodedPicture(received, decoded) {
  const errors = received.map((a, i) => (a === decoded[i] ? -1 : i)).filter((i) => i >= 0);
  const where = errors.length ? `they differ at ${errors.length === 1 ? 'coordinate' : 'coordinates'} ${errors.join(', ')}` : 'they are equal';
  return element('div', {}, grid([received, decoded], { label: `received ${received.join(' ')}, decoded ${decoded.join(' ')}: ${where}`, marked: [errors, errors], names: ['received', 'decoded'] }),
    element('p', { class: 'note' }, errors.length ? `${errors.length} ${errors.length === 1 ? 'error' : 'errors'}, at ${errors.length === 1 ? 'coordinate' : 'coordinates'} ${errors.join(', ')} (counted from 0)` : 'no error'));
}

// how many words there are of each weight
function barsPicture(counts) {
  const shown = counts.map((count, weight) => ({ count: Number(count), text: String(count), weight })).filter(({ count }) => count > 0);
  const most = Math.max(...shown.map(({ count }) => count));
  const top = 36;
  const [side, height] = [Math.max(5, Math.min(34, Math.floor((WIDTH - 20) / counts.length))), 150];
  const scale = (count) => Math.max(2, (count / most) * height);
  const wide = shown.length <= 24 && side >= 18;
  // (a count beside another one stands higher)
  const raised = (i) => (i > 0 && shown[i].weight === shown[i - 1].weight + 1 && !raised(i - 1) && (shown[i].text.length + shown[i - 1].text.length) * 4 + 2 > side ? 14 : 0);
  const bars = shown.map(({ count, text, weight }, i) => picture('g', {},
    picture('title', {}, `${text} of weight ${weight}`),
    picture('rect', { class: 'bar', x: weight * side + (side > 12 ? 2 : 0.5), y: top + height - scale(count), width: side - (side > 12 ? 4 : 1), height: scale(count), rx: side > 12 ? 2 : 0 }),
    picture('text', { class: 'axis', x: weight * side + side / 2, y: top + height + 15 }, wide || shown.length <= 12 || weight % 5 === 0 ? String(weight) : ''),
    wide ? picture('text', { class: 'axis count', x: weight * side + side / 2, y: top + height - scale(count) - 6 - raised(i) }, text.length > 6 ? Number(count).toExponential(1).replace('e+', 'e') : text) : ''));
  const width = counts.length * side + 20;
  const table = element('table', {}, element('thead', {}, element('tr', {}, element('th', { scope: 'col' }, 'Weight'), element('th', { scope: 'col' }, 'Words'))),
    element('tbody', {}, ...shown.map(({ text, weight }) => element('tr', {}, element('td', {}, String(weight)), element('td', {}, text)))));
  return element('div', {},
    element('div', { class: 'wide' }, picture('svg', { class: 'bars', role: 'img', 'aria-label': `bars: how many words there are of each weight; ${shown.length} weights occur`, viewBox: `-10 0 ${width} ${height + 60}`, width, height: height + 60 },
      picture('line', { class: 'line', x1: 0, x2: counts.length * side, y1: top + height, y2: top + height }), ...bars)),
    element('p', { class: 'note' }, `${shown.length} ${shown.length === 1 ? 'weight occurs' : 'weights occur'}`),
    element('details', {}, element('summary', {}, 'as a table'), table));
}

// the elements of a field, with their colours and the polynomials that they stand for
function legend(size) {
  const field = fieldOfSize(size);
  const items = [...Array(size).keys()].map((a) => element('li', {}, element('span', { class: `chip e${a} d${a}` }, a === 0 ? '·' : String(a)),
    field.degree > 1 && a >= field.p ? ` ${field.polynomialOf(a)}` : a === 0 ? ' 0' : ''));
  const why = field.degree > 1 ? `, polynomials modulo ${polynomialText(POLYNOMIALS[size])}` : size > 2 ? `, numbers modulo ${size}` : '';
  return element('div', { class: 'legend' }, element('span', {}, `GF(${size})${why}`), element('ul', {}, ...items));
}

function polynomialText(coefficients) {
  const terms = coefficients.map((c, i) => [c, i]).filter(([c]) => c).reverse();
  return terms.map(([c, i]) => (i === 0 ? String(c) : (c === 1 ? '' : String(c)) + (i === 1 ? 'x' : `x^${i}`))).join(' + ');
}
