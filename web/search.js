'use strict';
// A search as its record lines tell it: the least weight so far, the bound, and when it ends.

const RECORD = /^query (\d+) blocks (\d+) bound (\d+) best (\d+)$/;

// the searches of a session, by the numbers of their queries
class Searches {
  constructor() {
    this.all = new Map();
    this.plans = new Map();
    this.rest = '';
    this.pace = [];
  }
  hear(text, now) {
    const lines = (this.rest + text).split('\n');
    this.rest = lines.pop();
    for (const line of lines) {
      const found = RECORD.exec(line);
      if (!found) continue;
      const [query, blocks, bound, best] = found.slice(1).map(Number);
      if (!this.all.has(query)) this.all.set(query, []);
      this.keep(this.all.get(query), { blocks, bound, best });
      if (this.last !== query) this.pace = [];
      this.last = query;
      this.pace = [...this.pace.filter((it) => now - it.now < 8000), ...(now - (this.pace[this.pace.length - 1]?.now ?? -Infinity) > 100 ? [{ blocks, now }] : [])];
    }
  }
  // the records at which something changed, and the last one
  keep(records, record) {
    const [before, last] = records.slice(-2);
    if (last && last.best === record.best && last.bound === record.bound && before.best === record.best && before.bound === record.bound) records.pop();
    records.push(record);
  }
  // blocks in a second, by the records of the last seconds
  rate() {
    const [first, last] = [this.pace[0], this.pace[this.pace.length - 1]];
    return last && last.now > first.now ? ((last.blocks - first.blocks) * 1000) / (last.now - first.now) : 0;
  }
  // `plans` are those of the statements that search, in order
  know(plans) {
    plans.forEach(({ index, plan }, query) => this.plans.set(query, { index, plan }));
  }
  ofStatement(index) {
    const query = [...this.plans].find(([, it]) => it.index === index)?.[0];
    return query === undefined ? null : this.all.get(query) ?? null;
  }
}

// A sentence about the end of a search: by its plan if that is known, else by the budget.
function endTold(records, plan, budget, rate) {
  const { blocks, best } = records[records.length - 1];
  const ofRate = rate ? `${grouped(rate)} blocks a second` : '';
  const end = plan ? endOfPlan(plan, best) : Infinity;
  const left = (blocksLeft) => (rate ? `, in about ${duration(blocksLeft / rate)}` : '');
  if (end <= budget) return `Unless a lighter word is found it ends after ${grouped(end)} blocks${left(end - blocks)}${ofRate ? ` (${ofRate})` : ''}.`;
  const whole = plan && end <= 2 ** 40 ? ` The whole search would take ${grouped(end)} blocks${rate ? `, ${duration(end / rate)}` : ''}: a budget of 2^${Math.ceil(Math.log2(end))}.` : '';
  return `The budget ends it after ${grouped(budget)} blocks${left(budget - blocks)}${ofRate ? ` (${ofRate})` : ''}.${whole}`;
}

// The least weight so far falls, and the bound rises, until they meet. The axis of blocks is logarithmic, so that the steps of the bound are even.
function searchPicture(records) {
  const [width, height, left, right, top, bottom] = [matchMedia('(max-width: 560px)').matches ? 330 : 620, 210, 34, 74, 14, 34];
  const last = records[records.length - 1];
  const most = Math.max(...records.map((it) => it.best), last.bound) + 1;
  const decades = Math.max(1, Math.log10(Math.max(2, last.blocks)));
  const x = (blocks) => left + ((width - left - right) * Math.log10(Math.max(1, blocks))) / decades;
  const y = (weight) => top + (height - top - bottom) * (1 - weight / most);
  const steps = (key) => records.map((it, i, all) => `${i ? `H${x(it.blocks).toFixed(1)}V` : `M${left} ${y(it[key]).toFixed(1)}H${x(it.blocks).toFixed(1)}V`}${y(it[key]).toFixed(1)}${i === all.length - 1 ? '' : ''}`).join('');
  const met = last.bound >= last.best;
  const between = `${steps('best')}L${x(last.blocks).toFixed(1)} ${y(last.bound).toFixed(1)}${backwards(records, x, y, left)}z`;
  const spread = Math.abs(y(last.best) - y(last.bound)) < 16;
  const marks = [...Array(Math.floor(decades) + 1).keys()].map((power) => picture('text', { class: 'axis', x: x(10 ** power), y: height - 14 }, power < 4 ? String(10 ** power) : `10${superscript(power)}`));
  const unit = Math.max(1, Math.ceil(most / 6));
  const lines = [...Array(Math.floor(most / unit) + 1).keys()].map((i) => picture('g', {}, picture('line', { class: 'grid-line', x1: left, x2: width - right, y1: y(i * unit), y2: y(i * unit) }), picture('text', { class: 'axis right', x: left - 7, y: y(i * unit) + 4 }, String(i * unit))));
  return picture('svg', { class: 'chart', role: 'img', 'aria-label': `the least weight found fell to ${last.best}, and the bound rose to ${last.bound}, in ${last.blocks} blocks`, viewBox: `0 0 ${width} ${height}` },
    ...lines, ...marks, picture('text', { class: 'axis', x: width - right + 36, y: height - 14 }, 'blocks'),
    picture('path', { class: 'between', d: between }), picture('path', { class: 'best', d: steps('best') }), picture('path', { class: 'bound', d: steps('bound') }),
    met ? picture('circle', { class: 'meet', cx: x(last.blocks), cy: y(last.best), r: 4.5 }) : '',
    met ? picture('text', { class: 'told', x: x(last.blocks) + 9, y: y(last.best) + 5 }, `d = ${last.best}`) : '',
    met ? '' : picture('text', { class: 'told best', x: x(last.blocks) + 8, y: y(last.best) + (spread ? -3 : 4) }, `d ≤ ${last.best}`),
    met ? '' : picture('text', { class: 'told bound', x: x(last.blocks) + 8, y: y(last.bound) + (spread ? 12 : 4) }, `d ≥ ${last.bound}`));
}

const superscript = (number) => [...String(number)].map((digit) => '⁰¹²³⁴⁵⁶⁷⁸⁹'[Number(digit)]).join('');

function backwards(records, x, y, left) {
  let path = '';
  for (let i = records.length - 1; i > 0; i -= 1) path += `L${x(records[i].blocks).toFixed(1)} ${y(records[i - 1].bound).toFixed(1)}L${x(records[i - 1].blocks).toFixed(1)} ${y(records[i - 1].bound).toFixed(1)}`;
  return `${path}L${left} ${y(records[0].bound).toFixed(1)}`;
}
