'use strict';
// Fields of at most 16 elements, and reduced matrices over them, for pictures and explanations; docs/FORMATS.md, "Fields" and "The search".

const SYMBOL_SIZES = [2, 3, 4, 5, 7, 8, 9, 11, 13, 16];
// the polynomials of the fields whose size is no prime, as digits from the constant upwards
const POLYNOMIALS = { 4: [1, 1, 1], 8: [1, 1, 0, 1], 9: [2, 2, 1], 16: [1, 1, 0, 0, 1] };

function characteristic(size) {
  return [2, 3, 5, 7, 11, 13].find((p) => size % p === 0);
}

class Field {
  constructor(size) {
    this.size = size;
    this.p = characteristic(size);
    this.degree = Math.round(Math.log(size) / Math.log(this.p));
    this.sums = this.table((a, b) => this.number(this.digits(a).map((x, i) => x + this.digits(b)[i])));
    this.products = this.table((a, b) => this.product(a, b));
    this.negatives = this.sums.map((row) => row.indexOf(0));
    this.inverses = this.products.map((row) => row.indexOf(1));
  }
  table(of) {
    const all = [...Array(this.size).keys()];
    return all.map((a) => all.map((b) => of(a, b)));
  }
  digits(a) {
    return Array.from({ length: this.degree }, (_, i) => Math.floor(a / this.p ** i) % this.p);
  }
  number(digits) {
    return digits.reduce((sum, digit, i) => sum + (digit % this.p) * this.p ** i, 0);
  }
  product(a, b) {
    if (this.degree === 1) return (a * b) % this.p;
    const whole = Array(2 * this.degree - 1).fill(0);
    this.digits(a).forEach((x, i) => this.digits(b).forEach((y, j) => { whole[i + j] += x * y; }));
    const polynomial = POLYNOMIALS[this.size];
    for (let i = whole.length - 1; i >= this.degree; i -= 1) {
      const head = whole[i] % this.p;
      polynomial.forEach((x, j) => { whole[i - this.degree + j] += (this.p - head) * x; });
    }
    return this.number(whole.slice(0, this.degree));
  }
  // row + scale * other
  addScaled(row, scale, other) {
    return row.map((a, i) => this.sums[a][this.products[scale][other[i]]]);
  }
  dot(u, v) {
    return u.reduce((sum, a, i) => this.sums[sum][this.products[a][v[i]]], 0);
  }
  // an element as the polynomial that it stands for
  polynomialOf(a) {
    const terms = this.digits(a).map((digit, i) => [digit, i]).filter(([digit]) => digit).reverse();
    const power = (i) => (i === 0 ? '' : i === 1 ? 'x' : `x^${i}`);
    return terms.map(([digit, i]) => (i === 0 ? String(digit) : (digit === 1 ? '' : String(digit)) + power(i))).join(' + ') || '0';
  }
}

const fields = new Map();

function fieldOfSize(size) {
  if (!fields.has(size)) fields.set(size, new Field(size));
  return fields.get(size);
}

const weightOf = (word) => word.filter((a) => a !== 0).length;

// the greedy first basis among the columns in this order, rising, and the rows that are the identity on it
function systematic(field, matrix, order) {
  const rows = matrix.map((row) => [...row]);
  const pivots = [];
  for (const c of order) {
    const done = pivots.length;
    const i = rows.findIndex((row, at) => at >= done && row[c] !== 0);
    if (i < 0) continue;
    [rows[done], rows[i]] = [rows[i], rows[done]];
    const scale = field.inverses[rows[done][c]];
    rows[done] = rows[done].map((a) => field.products[scale][a]);
    rows.forEach((row, j) => {
      if (j !== done && row[c] !== 0) rows[j] = field.addScaled(row, field.negatives[row[c]], rows[done]);
    });
    pivots.push(c);
    if (pivots.length === rows.length) break;
  }
  return { basis: [...pivots].sort((a, b) => a - b), rows: pivots.map((c, i) => [c, rows[i]]).sort((a, b) => a[0] - b[0]).map((pair) => pair[1]) };
}

// the information sets of a search: of each how many of its columns are fresh
function freshOf(field, length, matrix) {
  const used = new Set();
  const fresh = [];
  for (;;) {
    const columns = [...Array(length).keys()];
    const { basis } = systematic(field, matrix, [...columns.filter((c) => !used.has(c)), ...columns.filter((c) => used.has(c))]);
    const own = basis.filter((c) => !used.has(c));
    if (fresh.length && 2 * own.length < matrix.length) return fresh;
    fresh.push(own.length);
    own.forEach((c) => used.add(c));
  }
}

// what divides all weights, as a search finds it
function divisorOf(field, rows) {
  const weights = rows.map(weightOf);
  const selfOrthogonal = () => rows.every((u, i) => rows.slice(i).every((v) => field.dot(u, v) === 0));
  if (field.size === 2 && weights.every((w) => w % 2 === 0)) return weights.every((w) => w % 4 === 0) && selfOrthogonal() ? 4 : 2;
  return field.size === 3 && weights.every((w) => w % 3 === 0) && selfOrthogonal() ? 3 : 1;
}

const BLOCK = 4096;

function binomial(n, k) {
  let value = 1;
  for (let i = 0; i < k; i += 1) value = (value * (n - i)) / (i + 1);
  return value;
}

// The plan of the search of a code with this generator matrix, which has a row: a list of the ends of its phases, each with its level and
// the bound that holds from there on, as long as no level is whole (then the bound is the least weight, here Infinity).
function planOf(size, matrix) {
  const field = fieldOfSize(size);
  const [k, length] = [matrix.length, matrix[0].length];
  const fresh = freshOf(field, length, matrix);
  const divisor = divisorOf(field, matrix);
  const levels = fresh.map(() => 0);
  const ends = [];
  let blocks = 0;
  for (let level = 1; level <= k; level += 1) {
    for (let set = 0; set < fresh.length; set += 1) {
      blocks += Math.ceil((binomial(k, level) * (size - 1) ** (level - 1)) / BLOCK);
      levels[set] = level;
      const sum = levels.reduce((total, w, i) => total + Math.max(0, w + 1 - (k - fresh[i])), 0);
      const bound = levels.includes(k) ? Infinity : Math.ceil(Math.max(1, sum) / divisor) * divisor;
      ends.push({ blocks, level, set, bound });
      if (blocks > 2 ** 40 || bound > length) return { ends, sets: fresh.length, dimension: k, divisor };
    }
  }
  return { ends, sets: fresh.length, dimension: k, divisor };
}

// after how many blocks a search is over if it finds no word lighter than `best`
function endOfPlan(plan, best) {
  return plan.ends.find((end) => end.bound >= best)?.blocks ?? Infinity;
}
