// The calls of the C library (its figpliers.h), in WebAssembly.

const isNode = typeof process !== 'undefined' && Boolean(process.versions?.node);

// An instance of a module that lies beside this file: its exports.
export async function loaded(name) {
  const url = new URL(name, import.meta.url);
  const bytes = isNode ? await (await import('node:fs/promises')).readFile(url) : await (await fetch(url)).arrayBuffer();
  return (await WebAssembly.instantiate(bytes, {})).instance.exports;
}

const encoder = new TextEncoder();
export const decoder = new TextDecoder('utf-8', { fatal: true, ignoreBOM: true });
const DONE = 0;
const TOO_SHORT = 2;
const MEMORY = 3;
const WORDS = {
  1: (at) => `the page is not UTF-8 at byte ${at}`,
  4: () => 'the tree is too large for an image',
  16: (at) => `the table is not UTF-8 at byte ${at}`,
  17: (at) => `line ${at} of the table is no row`,
  18: (at) => `row ${at} of the table has a bad name`,
  19: (at) => `row ${at} of the table has the name of an earlier one`,
  20: (at) => `row ${at} of the table has a value that is no character`,
  32: (at) => `the selectors are not UTF-8 at byte ${at}`,
  33: (at) => `the selectors are wrong at character ${at}`,
  48: () => 'the bytes are not the image of a tree',
  49: () => 'the tree has no node of that number',
  64: (at) => `the policy is not UTF-8 at byte ${at}`,
  65: (at) => `line ${at} of the policy is no rule`,
  66: () => 'the policy names what is never kept',
  67: () => 'there is no ready policy of that name',
  80: (at) => `the name of the context is not UTF-8 at byte ${at}`,
};

export class Fault extends Error {
  constructor(answer, at) {
    super(WORDS[answer]?.(at) ?? `answer ${answer} at ${at}`);
    this.name = 'Fault';
    this.answer = answer;
    this.at = at;
  }
}

export function bytesOf(text) {
  if (typeof text === 'string') return encoder.encode(text);
  if (text instanceof Uint8Array) return text;
  throw new TypeError('a page is a string or a Uint8Array');
}

// Memory of an instance, which the caller frees.
function room(wasm, size) {
  const place = wasm.fig_alloc(BigInt(size || 1));
  if (place === 0n) throw new RangeError('out of memory');
  return place;
}

// Puts texts into an instance's memory, and makes a call with them, with numbers behind them and with room for its output: again with
// as much as it wants where that was too short. `read` gets the output and the report, which it must not keep.
export function callOf(wasm, name, texts, numbers, guess, placeOfAt, read) {
  const owned = [];
  const take = (size) => {
    const place = room(wasm, size);
    owned.push(place);
    return place;
  };
  try {
    const words = [];
    for (const text of texts) {
      const place = take(text.length);
      new Uint8Array(wasm.memory.buffer, Number(place), text.length).set(text);
      words.push(place, BigInt(text.length));
    }
    const report = take(64);
    for (let wanted = guess; ; ) {
      const output = take(wanted);
      const answer = wasm[name](...words, ...numbers, output, BigInt(wanted), report);
      const told = new DataView(wasm.memory.buffer, Number(report), 64);
      const length = Number(told.getBigUint64(0, true));
      if (answer === DONE) return read(new Uint8Array(wasm.memory.buffer, Number(output), length), told);
      if (answer === MEMORY) throw new RangeError('out of memory');
      if (answer !== TOO_SHORT) throw new Fault(answer, Number(told.getBigUint64(placeOfAt, true)));
      wasm.fig_free(owned.pop());
      wanted = length;
    }
  } finally {
    for (const place of owned) wasm.fig_free(place);
  }
}

const wasm = await loaded('./figpliers.wasm');

// A call that does not clean.
export const call = (...words) => callOf(wasm, ...words);

// What a call writes of a node of an image.
export function ofNode(name, image, node) {
  return call(name, [image], [node], (image.length >> 1) + 64, 16, (output) => decoder.decode(output));
}

// The numbers of the nodes below a node of an image that selectors select.
export function selected(selectors, image, node) {
  return call('fig_select', [selectors, image], [node], 256, 16, (output) => new Uint32Array(output.slice().buffer));
}
