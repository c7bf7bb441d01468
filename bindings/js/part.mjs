// A part of a tree as an image of its own, which costs the library no more than the part: it reads an image in full.

export const NO_NODE = 0xffffffff;
export const HEADER = 32;
export const NODE = 48;
export const ATTRIBUTE = 24;

// A word of a node's record.
export function wordOf(image, node, k) {
  return image.word(HEADER + NODE * node + 4 * k);
}

// The numbers of a node and of all nodes in it, the contents of a template just behind it; null if they are more than `most`.
export function inside(image, top, most) {
  const found = [];
  const waiting = [top];
  while (waiting.length) {
    if (found.length > most) return null;
    const node = waiting.pop();
    found.push(node);
    const contents = (wordOf(image, node, 0) & 255) === 1 ? wordOf(image, node, 10) : NO_NODE;
    if (contents !== NO_NODE) found.push(contents);
    for (const holder of [node, contents]) {
      let child = holder === NO_NODE ? NO_NODE : wordOf(image, holder, 2);
      for (; child !== NO_NODE; child = wordOf(image, child, 5)) waiting.push(child);
    }
  }
  return found;
}

// A node's words in the copy but for those of its neighbours, its attributes, and where its texts begin and end in the image. `place` is
// where they begin in the copy.
function moved(image, node, place, attributesAt, count, contents) {
  const words = Array.from({ length: 12 }, (_, k) => wordOf(image, node, k));
  const kind = words[0] & 255;
  const [begin, shift] = [words[6], place - words[6]];
  const attributes = [];
  let end = begin + words[7];
  if (kind === 1) {
    for (let k = 0, at = image.attributes + words[8]; k < count; k += 1, at += ATTRIBUTE) {
      const [nameAt, name, valueAt, value, namespace, prefix] = Array.from({ length: 6 }, (_, i) => image.word(at + 4 * i));
      attributes.push(nameAt + shift, name, valueAt + shift, value, namespace, prefix);
      end = valueAt + value;
    }
    words.splice(8, 3, attributesAt, count, contents);
  } else if (kind === 7) {
    end = words[8] + words[9];
    words[8] += shift;
  } else if (kind === 10) {
    end = words[10] + words[11];
    words[8] += shift;
    words[10] += shift;
  }
  words[6] = kind === 11 ? 0 : place;
  return { words, attributes, begin, end };
}

// The image of a document in which there are these nodes alone, the first of them as its child. `bare`: without its attributes.
export function copy(image, nodes, bare) {
  const news = new Map(nodes.map((node, i) => [node, i + 1]));
  const renumbered = (node) => news.get(node) ?? NO_NODE;
  const records = [9, NO_NODE, 1, 1, NO_NODE, NO_NODE, 0, 0, 0, 0, 0, 0];
  const attributes = [];
  const texts = [];
  let place = 0;
  for (const node of nodes) {
    const count = bare && node === nodes[0] ? 0 : wordOf(image, node, 9);
    const it = moved(image, node, place, 4 * attributes.length, count, renumbered(wordOf(image, node, 10)));
    for (let k = 1; k < 6; k += 1) it.words[k] = renumbered(it.words[k]);
    if (node === nodes[0]) it.words[1] = 0;
    for (const word of it.words) records.push(word);
    for (const word of it.attributes) attributes.push(word);
    texts.push(image.bytes.subarray(image.texts + it.begin, image.texts + it.end));
    place += it.end - it.begin;
  }
  const words = [0x54474946, 1, 4 * records.length, 4 * attributes.length, place, 0, 0, 0];
  const made = new Uint8Array(HEADER + 4 * (records.length + attributes.length) + place);
  const view = new DataView(made.buffer);
  let at = 0;
  for (const part of [words, records, attributes]) {
    for (const word of part) {
      view.setUint32(at, word, true);
      at += 4;
    }
  }
  for (const text of texts) {
    made.set(text, at);
    at += text.length;
  }
  return made;
}
