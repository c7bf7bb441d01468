// Pages to trees, normal text and parse errors, in a WebAssembly without the sanitizer.
import { Fault, bytesOf, call, decoder } from './library.mjs';
import { Document, Node, imageLength } from './tree.mjs';

export { Document, Fault, Node };

const QUIRKS = ['no', 'limited', 'yes'];

// A call whose report is on a page, by the Standard's table of references or by another.
function byTable(name, page, table, times, read) {
  const texts = table === undefined ? [bytesOf(page)] : [bytesOf(table), bytesOf(page)];
  const guess = Math.ceil(texts.at(-1).length * times) + 1024;
  return call(table === undefined ? name : `${name}_with`, texts, [], guess, 16, read);
}

export function normalise(page, table) {
  return byTable('fig_normalise', page, table, 1.25, (text, told) => ({
    text: decoder.decode(text),
    errors: Number(told.getBigUint64(8, true)),
    quirks: QUIRKS[told.getUint8(24)],
    plain: told.getUint8(25) === 1,
  }));
}

export function parse(page, table) {
  return byTable('fig_tree', page, table, 4, (image) => new Document(image.slice()));
}

export function parseWithPlaces(page) {
  const text = bytesOf(page);
  return call('fig_placed_tree', [text], [], text.length * 5 + 1024, 16, (placed) => {
    const length = imageLength(placed);
    return new Document(placed.slice(0, length), placed.slice(length));
  });
}

export function fragment(page, context = 'body') {
  const text = bytesOf(page);
  const guess = text.length * 4 + 1024;
  return call('fig_fragment_tree', [bytesOf(context), text], [], guess, 16, (image) => new Document(image.slice()));
}

export function errors(page) {
  const text = bytesOf(page);
  const lines = call('fig_errors', [text], [], (text.length >> 2) + 1024, 16, (output) => decoder.decode(output)).split('\n').slice(0, -1);
  return lines.map((it) => ({ line: parseInt(it, 10), message: it.slice(it.indexOf(': ') + 2) }));
}
