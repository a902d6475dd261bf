'use strict';
// The other half of host.c: the program's streams, and the files of its folder, in memory.

// the module ends by throwing this
class Ended {
  constructor(status) {
    this.status = status;
  }
}

// what is open under a number: a stream or a file
class Reader {
  constructor(bytes) {
    this.bytes = bytes;
    this.at = 0;
  }
  read(to) {
    const piece = this.bytes.subarray(this.at, this.at + to.length);
    to.set(piece);
    this.at += piece.length;
    return piece.length;
  }
}

class Writer {
  constructor(hears) {
    this.hears = hears;
  }
  write(piece) {
    this.hears(piece.slice());
    return piece.length;
  }
}

class OpenFile extends Reader {
  constructor(file, appends) {
    super(file.bytes);
    this.file = file;
    this.appends = appends;
  }
  read(to) {
    this.bytes = this.file.bytes;
    return super.read(to);
  }
  write(piece) {
    const at = this.appends ? this.file.bytes.length : this.at;
    this.resize(Math.max(this.file.bytes.length, at + piece.length));
    this.file.bytes.set(piece, at);
    this.at = at + piece.length;
    return piece.length;
  }
  resize(size) {
    if (size === this.file.bytes.length) return;
    const bytes = new Uint8Array(size);
    bytes.set(this.file.bytes.subarray(0, size));
    this.file.bytes = bytes;
  }
}

const ERRORS = { ENOENT: -2, EBADF: -9, EEXIST: -17, EISDIR: -21, EINVAL: -22 };
const FLAGS = { access: 3, create: 0o100, exclusive: 0o200, truncate: 0o1000, append: 0o2000 };

// The functions that host.c imports. `words` are the arguments, `input` the bytes of standard input, `files` a Map from names to bytes;
// `hears.output` and `hears.errors` are given what is written, `hears.changed(name, bytes)` a file that has another content (null: none).
function hostOf({ words, input, files = new Map(), hears }) {
  const folder = new Map([...files].map(([name, bytes]) => [name, { bytes }]));
  const open = new Map([[0, new Reader(input)], [1, new Writer(hears.output)], [2, new Writer(hears.errors)]]);
  const arguments_ = words.map((word) => new TextEncoder().encode(word));
  let memory;
  const bytesAt = (at, count) => new Uint8Array(memory.buffer, at >>> 0, count >>> 0);
  const textAt = (at, count) => new TextDecoder().decode(bytesAt(at, count)).replace(/^\.\//, '');
  const tell = (name) => hears.changed(name, folder.has(name) ? folder.get(name).bytes.slice() : null);
  const free = () => {
    let number = 3;
    while (open.has(number)) number += 1;
    return number;
  };

  const codes = {
    read: (file, to, most) => (open.get(file)?.read ? open.get(file).read(bytesAt(to, most)) : ERRORS.EBADF),
    write: (file, from, count) => (open.get(file)?.write ? open.get(file).write(bytesAt(from, count)) : ERRORS.EBADF),
    open: (path, length, flags) => {
      const name = textAt(path, length);
      const number = free();
      if (name === '.') {
        open.set(number, { isFolder: true });
        return number;
      }
      if (folder.has(name) && flags & FLAGS.create && flags & FLAGS.exclusive) return ERRORS.EEXIST;
      if (!folder.has(name)) {
        if (!(flags & FLAGS.create)) return ERRORS.ENOENT;
        folder.set(name, { bytes: new Uint8Array(0) });
      }
      const file = new OpenFile(folder.get(name), (flags & FLAGS.append) !== 0);
      if (flags & FLAGS.truncate) file.resize(0);
      file.name = name;
      file.changes = (flags & FLAGS.access) !== 0;
      open.set(number, file);
      return number;
    },
    close: (file) => {
      const it = open.get(file);
      if (!it) return ERRORS.EBADF;
      open.delete(file);
      if (it.changes && folder.get(it.name) === it.file) tell(it.name);
      return 0;
    },
    rename: (from, fromLength, to, toLength) => {
      const [name, other] = [textAt(from, fromLength), textAt(to, toLength)];
      if (!folder.has(name)) return ERRORS.ENOENT;
      folder.set(other, folder.get(name));
      if (name !== other) folder.delete(name);
      tell(name);
      tell(other);
      return 0;
    },
    unlink: (path, length) => {
      const name = textAt(path, length);
      if (!folder.delete(name)) return ERRORS.ENOENT;
      tell(name);
      return 0;
    },
    truncate: (file, size) => {
      if (!open.get(file)?.resize) return ERRORS.EINVAL;
      open.get(file).resize(size);
      return 0;
    },
    sync: (file) => (open.has(file) ? 0 : ERRORS.EBADF),
    size: (file) => (open.has(file) ? open.get(file).file?.bytes.length ?? 0 : ERRORS.EBADF),
    arg: (index, to, most) => {
      const word = arguments_[index];
      if (!word) return -1;
      if (word.length > most) return -2;
      bytesAt(to, most).set(word);
      return word.length;
    },
    exit: (status) => {
      throw new Ended(status);
    },
  };
  return { imports: { codes }, use: (instance) => { memory = instance.exports.memory; } };
}

// runs a compiled module once, and gives its status
function runModule(module, settings) {
  const host = hostOf(settings);
  const instance = new WebAssembly.Instance(module, host.imports);
  host.use(instance);
  try {
    instance.exports.run();
  } catch (thrown) {
    if (thrown instanceof Ended) return thrown.status;
    throw thrown;
  }
  throw new Error('the module did not end');
}

// the same, with what it wrote as bytes, and the files that it left
function resultOf(module, words, input, files = new Map()) {
  const pieces = { output: [], errors: [] };
  const left = new Map(files);
  const hears = {
    output: (piece) => pieces.output.push(piece),
    errors: (piece) => pieces.errors.push(piece),
    changed: (name, bytes) => (bytes ? left.set(name, bytes) : left.delete(name)),
  };
  const status = runModule(module, { words: ['codes', ...words], input, files, hears });
  return { status, output: joined(pieces.output), errors: joined(pieces.errors), files: left };
}

function joined(pieces) {
  const whole = new Uint8Array(pieces.reduce((sum, piece) => sum + piece.length, 0));
  let at = 0;
  for (const piece of pieces) {
    whole.set(piece, at);
    at += piece.length;
  }
  return whole;
}
