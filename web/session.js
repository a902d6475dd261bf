'use strict';
// Sessions: a worker runs the module; to stop is to end the worker, as a process is killed; to go on is `resume` over the slots that it left.

const BUDGET = 2 ** 20;
const SLOTS = ['codes.slot0', 'codes.slot1'];

// the module's bytes, packed in the page
let moduleBytes = null;

function startWorker() {
  const address = URL.createObjectURL(new Blob([`'use strict';\nconst TEXTS = ${JSON.stringify(TEXTS)};\n${WORKER}`], { type: 'text/javascript' }));
  const worker = new Worker(address);
  URL.revokeObjectURL(address);
  worker.postMessage({ kind: 'module', bytes: moduleBytes });
  return worker;
}

// one request to a worker of its own
function asked(request) {
  return new Promise((resolve) => {
    const worker = startWorker();
    const end = (answer) => {
      worker.terminate();
      resolve(answer);
    };
    worker.onmessage = ({ data }) => end(data);
    worker.onerror = (event) => end({ kind: 'failed', message: event.message });
    worker.postMessage(request);
  });
}

class Session {
  // `hears` has the functions changed(session), ended(session)
  constructor(hears) {
    Object.assign(this, { hears, state: 'none', worker: null, files: new Map(), searches: new Searches(), spent: 0 });
  }

  // the session that a former page left
  restore() {
    const kept = store.get('session');
    if (!kept) return;
    this.input = fromBase64(kept.script);
    this.budget = kept.budget;
    this.spent = kept.spent ?? 0;
    this.files = new Map(kept.slots.map(([name, text]) => [name, fromBase64(text)]));
    this.searches.hear(kept.records, performance.now());
    this.state = 'stopped';
    this.planning = this.askPlans();
    this.hears.changed(this);
  }

  keep() {
    clearTimeout(this.keeping);
    this.keeping = null;
    const slots = SLOTS.filter((name) => this.files.get(name)?.length).map((name) => [name, toBase64(this.files.get(name))]);
    const records = [...this.searches.all].flatMap(([query, list]) => list.map((it) => `query ${query} blocks ${it.blocks} bound ${it.bound} best ${it.best}\n`)).slice(-400).join('');
    this.isKept = slots.length ? store.set('session', { script: toBase64(this.input), budget: this.budget, spent: this.secondsSpent(), slots, records }) : (store.set('session', null), false);
  }

  // the seconds that the session took so far, over all its parts
  secondsSpent() {
    return this.spent + (this.state === 'running' ? (performance.now() - this.began) / 1000 : 0);
  }

  // at most twice a second
  keepSoon() {
    if (!this.keeping) this.keeping = setTimeout(() => this.keep(), 500);
  }

  forget() {
    clearTimeout(this.keeping);
    this.keeping = null;
    this.files = new Map();
    store.set('session', null);
  }

  run(input, budget) {
    this.end();
    this.forget();
    Object.assign(this, { input, budget, searches: new Searches(), planning: null, spent: 0 });
    this.start('run');
  }

  resume() {
    const hasSlot = SLOTS.some((name) => this.files.get(name)?.length);
    this.start(hasSlot ? 'resume' : 'run');
  }

  start(command) {
    this.state = 'running';
    this.began = performance.now();
    this.worker = startWorker();
    this.worker.onmessage = ({ data }) => this.hear(data);
    this.worker.onerror = (event) => this.hear({ kind: 'failed', message: event.message });
    const words = [command, 'keep=yes', ...(this.budget === BUDGET ? [] : [`budget=${this.budget}`])];
    this.worker.postMessage({ kind: 'run', words, input: this.input, files: this.files });
    this.hears.changed(this);
  }

  async hear(data) {
    if (data.kind === 'news') {
      const isFirst = this.searches.last === undefined;
      if (data.records) this.searches.hear(data.records, performance.now());
      data.files.forEach((bytes, name) => (bytes ? this.files.set(name, bytes) : this.files.delete(name)));
      if (data.files.size) this.keepSoon();
      if (isFirst && this.searches.last !== undefined) this.planning = this.askPlans();
      this.hears.changed(this);
      return;
    }
    this.seconds = this.secondsSpent();
    this.end();
    this.state = data.kind === 'done' ? 'done' : 'failed';
    this.result = data;
    this.forget();
    // (which search is that of which statement)
    const { planning } = this;
    await Promise.race([planning, new Promise((resolve) => setTimeout(resolve, 1500))]);
    if (planning === this.planning && !this.worker) this.hears.ended(this);
  }

  async askPlans() {
    const { searches } = this;
    const answer = await asked({ kind: 'plans', script: signsOf(this.input) });
    if (answer.kind !== 'plans') return;
    searches.know(answer.plans);
    if (searches === this.searches) this.hears.changed(this);
  }

  end() {
    this.worker?.terminate();
    this.worker = null;
  }

  stop() {
    this.end();
    this.spent = this.secondsSpent();
    this.state = 'stopped';
    this.keep();
    this.hears.changed(this);
  }
}
