'use strict';
// What the page keeps in the browser over a reload: the script, the budget, and the checkpoints of a session that was stopped. If the
// browser keeps nothing, the page works without.

const store = {
  get(key) {
    try {
      return JSON.parse(localStorage.getItem(`codes.${key}`));
    } catch {
      return null;
    }
  },
  // whether it was kept
  set(key, value) {
    try {
      if (value === null) localStorage.removeItem(`codes.${key}`);
      else localStorage.setItem(`codes.${key}`, JSON.stringify(value));
      return true;
    } catch {
      return false;
    }
  },
};

// what build.py packs into the page: the tables of explanations, the calls, the examples, and the script of the worker
let [TEXTS, CALLS, EXAMPLES, WORKER] = [{ calls: {}, queries: {} }, {}, [], ''];

const toBase64 = (bytes) => btoa(signsOf(bytes));
const fromBase64 = (text) => bytesOf(atob(text));

async function unpacked(bytes, format) {
  return new Uint8Array(await new Response(new Blob([bytes]).stream().pipeThrough(new DecompressionStream(format))).arrayBuffer());
}

async function packed(bytes, format) {
  return new Uint8Array(await new Response(new Blob([bytes]).stream().pipeThrough(new CompressionStream(format))).arrayBuffer());
}
