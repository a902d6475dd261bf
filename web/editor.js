'use strict';
// The editor: a field of text over the same text in colours, line numbers, a list of calls, and what the call at the caret does.

const LONGEST_COLOURED = 100000;
const TOKEN = /(#[^\n]*)|([A-Za-z]\w*)|(\d+)|(:=|[()[\],;])|[^\S]+|[^]/g;

class Editor {
  constructor({ field, shown, list, help, told }) {
    Object.assign(this, { field, shown, list, help, told, marks: [], original: null, listeners: [], chosen: 0, offers: [] });
    field.addEventListener('input', () => this.changed());
    field.addEventListener('keydown', (event) => this.pressed(event));
    for (const name of ['keyup', 'click', 'focus']) field.addEventListener(name, () => this.tellCall());
    field.addEventListener('blur', () => this.close());
    list.addEventListener('pointerdown', (event) => {
      event.preventDefault();
      const item = event.target.closest('[role=option]');
      if (item) this.accept(Number(item.dataset.index));
    });
    this.paint();
  }

  // The bytes of the script: those of the file that was opened, as long as nothing was typed.
  bytes() {
    return this.original ?? new TextEncoder().encode(this.field.value);
  }

  isTyped() {
    return this.original === null;
  }

  setBytes(bytes) {
    this.field.value = new TextDecoder('utf-8', { ignoreBOM: true }).decode(bytes);
    this.original = bytes.slice();
    this.marks = [];
    this.close();
    this.paint();
    this.listeners.forEach((hears) => hears());
  }

  // the index in the text of an offset in the bytes
  indexOf(offset) {
    return new TextDecoder('utf-8', { ignoreBOM: true }).decode(this.bytes().subarray(0, offset)).replace(/\r\n?/g, '\n').length;
  }

  mark(points) {
    this.marks = points.map((pair) => pair.map((offset) => this.indexOf(offset)));
    this.paint();
  }

  goTo(offset) {
    const index = this.indexOf(offset);
    this.field.focus();
    this.field.setSelectionRange(index, index);
    this.shown.querySelector('.wrong, .missing')?.scrollIntoView({ block: 'nearest' });
  }

  changed() {
    this.original = null;
    this.marks = [];
    this.paint();
    this.offer(false);
    this.tellCall();
    this.listeners.forEach((hears) => hears());
  }

  // --- colours

  paint() {
    const text = this.field.value;
    const lines = [];
    let line = element('div', { class: 'line' });
    const put = (piece, kind) => {
      piece.split('\n').forEach((part, i) => {
        if (i) {
          lines.push(line);
          line = element('div', { class: 'line' });
        }
        if (part) line.append(kind ? element('span', { class: kind }, part) : part);
      });
    };
    // (a long text is one piece, so that it is shown at once)
    if (text.length > LONGEST_COLOURED) line.append(`${text}\n`);
    else for (const { piece, kind } of this.pieces(text)) kind === 'missing' ? line.append(element('span', { class: 'missing' })) : put(piece, kind);
    lines.push(line);
    this.shown.replaceChildren(...lines);
  }

  // the text in pieces of one kind each, cut where a mark begins or ends
  * pieces(text) {
    const cuts = [...new Set(this.marks.flat())].sort((a, b) => a - b);
    const isWrong = (at) => this.marks.some(([from, to]) => from <= at && at < to);
    const isMissing = (at) => this.marks.some(([from, to]) => from === at && to === at);
    for (const found of text.matchAll(TOKEN)) {
      const kind = found[1] ? 'comment' : found[2] ? this.kindOfName(found[2], text, found.index + found[2].length) : found[3] ? 'number' : '';
      let from = found.index;
      const end = from + found[0].length;
      for (const cut of [...cuts.filter((it) => it > from && it < end), end]) {
        if (isMissing(from)) yield { kind: 'missing' };
        yield { piece: text.slice(from, cut), kind: `${kind}${isWrong(from) ? ' wrong' : ''}`.trim() };
        from = cut;
      }
    }
    if (isMissing(text.length)) yield { kind: 'missing' };
    if (this.marks.some(([from, to]) => from === text.length && to > from)) yield { piece: ' ', kind: 'wrong' };
  }

  kindOfName(name, text, end) {
    if (!/^\s*\(/.test(text.slice(end, end + 20))) return 'name';
    return name in TEXTS.queries ? 'query' : name in TEXTS.calls ? 'call' : 'name';
  }

  // --- the list of calls

  wordBefore() {
    const text = this.field.value.slice(0, this.field.selectionStart);
    if (/#[^\n]*$/.test(text)) return '';
    return /[A-Za-z]\w*$/.exec(text)?.[0] ?? '';
  }

  offer(asked) {
    const word = this.wordBefore();
    if (this.field.selectionStart !== this.field.selectionEnd || (!asked && word.length < 2) || this.field.value.length > LONGEST_COLOURED) return this.close();
    const own = readScript(signsOf(new TextEncoder().encode(this.field.value.slice(0, this.field.selectionStart)))).statements.map((it) => it.target).filter(Boolean);
    const names = [...new Set([...own, ...Object.keys(CALLS)])];
    const small = word.toLowerCase();
    const begins = names.filter((name) => name.toLowerCase().startsWith(small));
    const has = names.filter((name) => !begins.includes(name) && small.length > 2 && name.toLowerCase().includes(small));
    this.offers = [...begins, ...has].filter((name) => name !== word).slice(0, 12);
    if (!this.offers.length) return this.close();
    this.chosen = 0;
    this.list.replaceChildren(...this.offers.map((name, i) => element('li', { role: 'option', id: `offer${i}`, 'data-index': i },
      element('b', {}, CALLS[name]?.forms[0] ?? name), element('span', {}, CALLS[name] ? firstSentence(CALLS[name].says) : 'a name of this script'))));
    this.place();
    this.list.hidden = false;
    return this.choose(0);
  }

  // puts the list below the caret
  place() {
    const { selectionStart } = this.field;
    const before = this.field.value.slice(0, selectionStart).split('\n');
    const line = this.shown.children[before.length - 1];
    const walker = document.createTreeWalker(line, NodeFilter.SHOW_TEXT);
    let left = before[before.length - 1].length;
    let rectangle = line.getBoundingClientRect();
    for (let node = walker.nextNode(); node; node = walker.nextNode()) {
      if (left <= node.length) {
        const here = document.createRange();
        here.setStart(node, left);
        here.setEnd(node, left);
        rectangle = here.getBoundingClientRect();
        break;
      }
      left -= node.length;
    }
    const around = this.list.parentElement.getBoundingClientRect();
    this.list.style.left = `${Math.max(0, Math.min(rectangle.left - around.left, around.width - 300))}px`;
    this.list.style.top = `${rectangle.bottom - around.top + 4}px`;
  }

  choose(index) {
    this.chosen = (index + this.offers.length) % this.offers.length;
    [...this.list.children].forEach((item, i) => item.setAttribute('aria-selected', String(i === this.chosen)));
    this.list.children[this.chosen].scrollIntoView({ block: 'nearest' });
    this.field.setAttribute('aria-activedescendant', `offer${this.chosen}`);
    this.told.textContent = `${this.offers[this.chosen]}, ${this.chosen + 1} of ${this.offers.length}; Enter takes it`;
  }

  close() {
    this.list.hidden = true;
    this.offers = [];
    this.told.textContent = '';
    this.field.removeAttribute('aria-activedescendant');
  }

  accept(index) {
    const name = this.offers[index];
    const end = this.field.selectionStart;
    const takes = CALLS[name]?.forms[0].endsWith('()') ? '()' : CALLS[name] ? '(' : '';
    const bracket = this.field.value[end] === '(' ? '' : takes;
    this.field.setRangeText(name + bracket, end - this.wordBefore().length, end, 'end');
    this.changed();
    this.close();
  }

  pressed(event) {
    if (event.key === ' ' && event.ctrlKey) {
      event.preventDefault();
      this.offer(true);
    } else if (!this.list.hidden && !event.ctrlKey && !event.metaKey) {
      const does = { ArrowDown: () => this.choose(this.chosen + 1), ArrowUp: () => this.choose(this.chosen - 1), Enter: () => this.accept(this.chosen), Tab: () => this.accept(this.chosen), Escape: () => this.close() }[event.key];
      if (does) {
        event.preventDefault();
        does();
      }
    }
  }

  // --- what the call at the caret does

  // the innermost call whose parentheses are open at the caret, or the name there, and the argument
  callHere() {
    const text = this.field.value;
    const caret = this.field.selectionStart;
    const before = text.slice(Math.max(0, caret - 4000), caret).replace(/#[^\n]*/g, (it) => ' '.repeat(it.length));
    let [depth, argument] = [0, 0];
    for (let i = before.length - 1; i >= 0; i -= 1) {
      if (before[i] === ';') break;
      if (')]'.includes(before[i])) depth += 1;
      if (before[i] === ',' && depth === 0) argument += 1;
      if ('(['.includes(before[i])) {
        if (depth > 0) depth -= 1;
        else if (before[i] === '[') argument = 0;
        else {
          const name = /([A-Za-z]\w*)\s*$/.exec(before.slice(0, i))?.[1];
          if (name in CALLS) return { name, argument };
        }
      }
    }
    const name = (/[A-Za-z]\w*$/.exec(before)?.[0] ?? '') + (/^\w*/.exec(text.slice(caret))?.[0] ?? '');
    return name in CALLS ? { name, argument: -1 } : null;
  }

  tellCall() {
    const found = this.callHere();
    if (!found) {
      this.help.replaceChildren(element('p', { class: 'note' }, 'Ctrl+Enter runs the script, Ctrl+Space lists the calls. What the call at the caret does is said here.'));
      return;
    }
    const { forms, says, refused } = CALLS[found.name];
    this.help.replaceChildren(element('p', { class: 'forms' }, ...forms.flatMap((form, i) => [i ? ' or ' : '', ...formParts(form, found.argument)])), element('p', {}, codes(says)),
      ...(refused ? [element('p', { class: 'note' }, codes(refusalsInWords(refused)))] : []));
  }
}

const firstSentence = (text) => text.replace(/`/g, '').split(/(?<=\.) /)[0];

function formParts(form, argument) {
  const [name, words] = form.slice(0, -1).split('(');
  const parts = words ? words.split(', ') : [];
  return [element('b', {}, name), '(', ...parts.flatMap((word, i) => [i ? ', ' : '', i === argument ? element('mark', {}, word) : word]), ')'];
}

// a text with pieces in back quotes
function codes(text) {
  const whole = element('span', {});
  text.split('`').forEach((piece, i) => whole.append(i % 2 ? element('code', {}, piece) : piece));
  return whole;
}

// the numbers of faults, each with what it means where no condition follows
function refusalsInWords(refused) {
  return refused.replace(/^Refused: /, 'Refused with fault ');
}
