// What policies keep of pages, in a WebAssembly of its own.
import { bytesOf, callOf, decoder, loaded } from './library.mjs';

const wasm = await loaded('./cleaning.wasm');

function cleaned(name, page, policy) {
  const text = bytesOf(page);
  const [of, texts] = policy === undefined ? [name, [text]] : [`${name}_by`, [bytesOf(policy), text]];
  return callOf(wasm, of, texts, [], Math.ceil(text.length * 1.25) + 256, 8, (output, told) => ({
    text: decoder.decode(output),
    unwrapped: Number(told.getBigUint64(16, true)),
    dropped: Number(told.getBigUint64(24, true)),
    attributes: Number(told.getBigUint64(32, true)),
    comments: Number(told.getBigUint64(40, true)),
  }));
}

export const clean = (page, policy) => cleaned('fig_clean', page, policy);
export const cleanDocument = (page, policy) => cleaned('fig_clean_document', page, policy);

export function policy(name) {
  return callOf(wasm, 'fig_policy', [bytesOf(name)], [], 4096, 16, (output) => decoder.decode(output));
}
