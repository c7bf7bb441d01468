// The tree of a page, read from its image (docs/TREE_IMAGE.md) as it is asked for: nothing is decoded before.
import { bytesOf, decoder, ofNode, selected } from './library.mjs';
import { ATTRIBUTE, HEADER, NODE, NO_NODE, copy, inside, wordOf } from './part.mjs';

// a node with more than this part of all nodes in it is written from the whole image
const SHARE = 8;
const KINDS = { 1: 'element', 3: 'text', 7: 'processing instruction', 8: 'comment', 9: 'document', 10: 'doctype', 11: 'contents' };
const NAMESPACES = [
  '',
  'http://www.w3.org/1999/xhtml',
  'http://www.w3.org/1998/Math/MathML',
  'http://www.w3.org/2000/svg',
  'http://www.w3.org/1999/xlink',
  'http://www.w3.org/XML/1998/namespace',
  'http://www.w3.org/2000/xmlns/',
];
const QUIRKS = ['no', 'limited', 'yes'];

// How many bytes an image has that other bytes follow.
export function imageLength(bytes) {
  const view = new DataView(bytes.buffer, bytes.byteOffset, bytes.byteLength);
  return HEADER + view.getUint32(8, true) + view.getUint32(12, true) + view.getUint32(16, true);
}

class Image {
  constructor(bytes, places) {
    this.bytes = bytes;
    this.places = places;
    this.view = new DataView(bytes.buffer, bytes.byteOffset, bytes.byteLength);
    if (bytes.length < HEADER || this.word(0) !== 0x54474946 || this.word(4) !== 1) {
      throw new TypeError('this is no image of a tree, or one of a later version');
    }
    this.attributes = HEADER + this.word(8);
    this.texts = this.attributes + this.word(12);
    if (places && (places.length / 8) * NODE !== this.word(8)) throw new TypeError('these are not the places of the nodes of this image');
  }

  // The line of a node, or its column; null without places.
  place(number, word) {
    if (!this.places) return null;
    return new DataView(this.places.buffer, this.places.byteOffset).getUint32(8 * number + 4 * word, true);
  }

  word(at) {
    return this.view.getUint32(at, true);
  }

  text(at, length) {
    const from = this.texts + at;
    // short names and values are mostly ASCII: faster so than by the decoder
    if (length < 24) {
      let text = '';
      for (let i = from; i < from + length; i += 1) {
        if (this.bytes[i] > 127) return decoder.decode(this.bytes.subarray(from, from + length));
        text += String.fromCharCode(this.bytes[i]);
      }
      return text;
    }
    return decoder.decode(this.bytes.subarray(from, from + length));
  }
}

export class Node {
  #image;
  #number;

  constructor(image, number) {
    this.#image = image;
    this.#number = number;
  }

  #word(k) {
    return wordOf(this.#image, this.#number, k);
  }

  #other(k) {
    const number = this.#word(k);
    return number === NO_NODE ? null : new Node(this.#image, number);
  }

  #text(k) {
    return this.#image.text(this.#word(k), this.#word(k + 1));
  }

  get kind() {
    return KINDS[this.#word(0) & 255];
  }

  get name() {
    return [1, 7, 10].includes(this.#word(0) & 255) ? this.#text(6) : '';
  }

  get namespace() {
    return NAMESPACES[(this.#word(0) >> 8) & 255] ?? '';
  }

  get data() {
    const kind = this.#word(0) & 255;
    return kind === 7 ? this.#text(8) : kind === 3 || kind === 8 ? this.#text(6) : '';
  }

  get publicId() {
    return (this.#word(0) & 255) === 10 ? this.#text(8) : '';
  }

  get systemId() {
    return (this.#word(0) & 255) === 10 ? this.#text(10) : '';
  }

  get line() {
    return this.#image.place(this.#number, 0);
  }

  get column() {
    return this.#image.place(this.#number, 1);
  }

  get parent() {
    return this.#other(1);
  }

  get firstChild() {
    return this.#other(2);
  }

  get lastChild() {
    return this.#other(3);
  }

  get previous() {
    return this.#other(4);
  }

  get next() {
    return this.#other(5);
  }

  get contents() {
    return (this.#word(0) & 255) === 1 ? this.#other(10) : null;
  }

  get children() {
    const list = [];
    for (let child = this.firstChild; child; child = child.next) list.push(child);
    return list;
  }

  get attributes() {
    const list = [];
    const count = (this.#word(0) & 255) === 1 ? this.#word(9) : 0;
    for (let k = 0, at = this.#image.attributes + this.#word(8); k < count; k += 1, at += ATTRIBUTE) {
      const word = (i) => this.#image.word(at + 4 * i);
      list.push({
        name: this.#image.text(word(0), word(1)),
        value: this.#image.text(word(2), word(3)),
        namespace: NAMESPACES[word(4)] ?? '',
      });
    }
    return list;
  }

  attribute(name) {
    return this.attributes.find((it) => it.name === name)?.value ?? null;
  }

  get number() {
    return this.#number;
  }

  isSame(other) {
    return this.#image === other.#image && this.#number === other.#number;
  }

  *walk() {
    let node = this.firstChild;
    while (node) {
      yield node;
      let following = node.firstChild;
      while (!following && node && !node.isSame(this)) {
        following = node.next;
        if (!following) node = node.parent;
      }
      node = following;
    }
  }

  elements(name, namespace = NAMESPACES[1]) {
    return [...this.walk()].filter((it) => it.kind === 'element' && it.name === name && it.namespace === namespace);
  }

  text() {
    if (this.kind === 'text') return this.data;
    let text = '';
    for (const node of this.walk()) if (node.kind === 'text') text += node.data;
    return text;
  }

  html() {
    const kind = this.#word(0) & 255;
    if (kind === 9) return ofNode('fig_serialize', this.#image.bytes, 0);
    if (kind === 11) return this.innerHtml();
    const part = inside(this.#image, this.#number, this.#image.word(8) / NODE / SHARE);
    if (!part) return ofNode('fig_serialize', this.#image.bytes, this.#number);
    return ofNode('fig_serialize', copy(this.#image, part, false), 1);
  }

  innerHtml() {
    const kind = this.#word(0) & 255;
    if (kind === 9) return this.html();
    // a template's contents come just behind it
    if (kind === 11) return new Node(this.#image, this.#number - 1).innerHtml();
    if (kind !== 1) return '';
    // without attributes, so that the tags are as long as the name
    const html = ofNode('fig_serialize', copy(this.#image, inside(this.#image, this.#number, Infinity), true), 1);
    const name = this.name.length;
    return html.slice(name + 2, Math.max(0, html.length - name - 3));
  }

  select(selectors) {
    return Array.from(selected(bytesOf(selectors), this.#image.bytes, this.#number), (number) => new Node(this.#image, number));
  }

  selectOne(selectors) {
    return this.select(selectors)[0] ?? null;
  }

  urls() {
    return ofNode('fig_links', this.#image.bytes, this.#number).split('\n').slice(0, -1);
  }
}

// A URL without the white space around it, and without tabs and line breaks, which are no part of it (URL Standard, section 4.4).
function inLine(url) {
  return url.replace(/^[ \t\n\f\r]+|[ \t\n\f\r]+$|[\t\n\r]/g, '');
}

function joined(base, url) {
  if (base === null) return url;
  return URL.canParse(url, base) ? new URL(url, base).href : url;
}

export class Document extends Node {
  #image;

  constructor(bytes, places = null) {
    const image = new Image(bytes, places);
    super(image, 0);
    this.#image = image;
  }

  links(base = null) {
    const written = this.elements('base').map((it) => it.attribute('href')).find((it) => it !== null);
    let absolute = base;
    if (written !== undefined && URL.canParse(inLine(written), base ?? undefined)) {
      absolute = new URL(inLine(written), base ?? undefined).href;
    }
    const found = [];
    for (const element of this.walk()) {
      if (element.kind !== 'element' || element.namespace !== NAMESPACES[1] || !['a', 'area'].includes(element.name)) continue;
      const url = element.attribute('href');
      if (url !== null) found.push({ element, url: joined(absolute, inLine(url)) });
    }
    return found;
  }

  get image() {
    return this.#image.bytes;
  }

  get places() {
    return this.#image.places;
  }

  get errors() {
    return Number(this.#image.view.getBigUint64(24, true));
  }

  get quirks() {
    return QUIRKS[this.#image.word(20)];
  }

  get root() {
    return this.children.find((it) => it.kind === 'element') ?? null;
  }
}
