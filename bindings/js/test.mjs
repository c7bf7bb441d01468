// test.mjs ROWS: the rows that all bindings are tested with, and what no row says. Prints how many passed and failed.
import { readFileSync } from 'node:fs';
import { fileURLToPath } from 'node:url';
import * as figpliers from 'figpliers';
import { Document, Fault, clean, cleanDocument, errors, fragment, normalise, parse, parseWithPlaces, policy } from 'figpliers';
import * as core from 'figpliers/core';
import { check, end, rowsOf, unescaped } from './testing.mjs';

const QUIRKS = ['no', 'limited', 'yes'];
const numbers = (it) => `${it.errors ? '+' : 0},0,${QUIRKS.indexOf(it.quirks)},${Number(it.plain)}`;
const counts = (it) => `0,${it.unwrapped},${it.dropped},${it.attributes},${it.comments}`;

// Answer, numbers and bytes of a row's call.
function called(name, table, page) {
  const words = name.endsWith('_with') ? [page, table] : [page];
  try {
    if (name.startsWith('clean')) {
      const words = name.endsWith('_by') ? [page, table] : [page];
      const it = (name.startsWith('clean_document') ? cleanDocument : clean)(...words);
      return [0, counts(it), Buffer.from(it.text)];
    }
    if (name === 'policy') return [0, '0,0,0,0', Buffer.from(policy(page))];
    if (name === 'select') {
      // the table of a row is its selectors
      const found = parse(page).select(table);
      return [0, numbers(normalise(page)), Buffer.from(Uint32Array.from(found, (it) => it.number).buffer)];
    }
    if (name === 'errors') {
      const lines = errors(page).map((it) => `${it.line}: ${it.message}\n`);
      return [0, numbers(normalise(page)), Buffer.from(lines.join(''))];
    }
    if (name === 'fragment_tree') {
      const document = fragment(page, table);
      return [0, numbers({ errors: document.errors, quirks: document.quirks, plain: false }), Buffer.from(document.image)];
    }
    if (name === 'placed_tree') {
      const document = parseWithPlaces(page);
      return [0, numbers(normalise(page)), Buffer.concat([document.image, document.places])];
    }
    const told = normalise(...words);
    if (!name.startsWith('tree')) return [0, numbers(told), Buffer.from(told.text)];
    const document = parse(...words);
    check(document.errors === told.errors && document.quirks === told.quirks, 'the header of an image');
    return [0, numbers(told), Buffer.from(document.image)];
  } catch (fault) {
    if (!(fault instanceof Fault)) throw fault;
    return [fault.answer, name.startsWith('clean') ? `${fault.at},0,0,0,0` : `0,${fault.at},0,0`, Buffer.alloc(0)];
  }
}

for (const row of rowsOf(process.argv[2])) {
  const [name, table, page, answer, told, text] = row;
  if (name === 'decode') continue; // a browser and Node have TextDecoder
  const [gotAnswer, gotTold, gotText] = called(name, unescaped(table), unescaped(page));
  const isText = gotText.equals(Buffer.from(unescaped(text)));
  check(gotAnswer === Number(answer) && gotTold === told && isText, `${row} ${gotAnswer} ${gotTold}`);
}

check(core.parse === parse && core.errors === errors && !('clean' in core), 'the part that does not clean');
check(parse('<p>').line === null && parseWithPlaces('<p>\n<i>').selectOne('i').line === 2, 'places, and none');
check(parse('<p>'.repeat(1000)).elements('p').length === 1000, 'many elements');
check([...parse('<div>'.repeat(20000)).walk()].length === 20003, 'deep elements');
const odd = parse('<!DOCTYPE a PUBLIC "b"><p id=c>d<svg xlink:href=e></svg></p><template><i>f</i></template>g<?h>');
check(odd.firstChild.name === 'a' && odd.firstChild.publicId === 'b' && odd.firstChild.systemId === '', 'a doctype');
const [p] = odd.elements('p');
check(p.attribute('id') === 'c' && p.attribute('x') === null && p.text() === 'd' && p.parent.name === 'body', 'a paragraph');
const [svg] = odd.elements('svg', 'http://www.w3.org/2000/svg');
check(svg.attributes[0].name === 'xlink:href' && svg.attributes[0].namespace === 'http://www.w3.org/1999/xlink', 'an attribute of XLink');
const [template] = odd.elements('template');
check(template.children.length === 0 && template.contents.text() === 'f' && template.text() === '', 'the contents of a template');
check(template.previous.isSame(p) && template.next.data === 'g' && odd.root.lastChild.lastChild.data === '?h', 'siblings');
check(new Document(odd.image.slice()).elements('p')[0].text() === 'd', 'an image that was handed on');
check(odd.select('p > *')[0].isSame(svg), 'what is selected');
check(clean('<b onclick=x>a</b><script>b</script>').text === '<b>a</b>', 'what is kept');
check(new Document(odd.image).select('svg').length === 1, 'selectors on an image alone');
check(odd.select('body')[0].select(':scope > *').length === 2, 'selectors below a node');
for (const wrong of [() => parse(1), () => new Document(new Uint8Array(40))]) {
  try {
    wrong();
    check(false, 'a wrong argument');
  } catch (fault) {
    check(fault instanceof TypeError, `${fault}`);
  }
}
// HTML of a part is what the library writes of the node in the whole image, here of one that has so many nodes that each part is small
const source = "<p a='&'>b<svg xlink:href=c></svg><script>1<2</script><template><i>d</i><template x>y</template></template><!--f--><td>h";
const whole = parse(source);
const front = parse(source + '<hr>'.repeat(200));
function* nodesIn(node) {
  yield node;
  for (const child of node.children) yield* nodesIn(child);
  if (node.contents) yield* nodesIn(node.contents);
}
const body = (document) => [...nodesIn(document.root.lastChild)].slice(1).filter((it) => it.name !== 'hr');
const [some, all] = [body(front), body(whole)];
check(some.length === all.length && some.every((it, i) => it.html() === all[i].html() && it.text() === all[i].text()), 'HTML of parts');
for (const node of all) {
  const isRaw = node.name === 'script' || node.contents;
  check(isRaw || node.kind !== 'element' || node.innerHtml() === node.children.map((it) => it.html()).join(''), `inside of ${node.name}`);
}
const broken = whole.image.slice();
broken[36] ^= 1;
try {
  new Document(broken).html();
  check(false, 'a changed image');
} catch (fault) {
  check(fault instanceof Fault && fault.answer === 48, `${fault}`);
}
check(parse("<a href='//['>").links('http://[')[0].url === '//[', 'links that cannot be read');
// the examples of the types: a call and what it answers
const types = readFileSync(fileURLToPath(import.meta.resolve('figpliers')).replace('index.mjs', 'index.d.ts'), 'utf8');
const examples = [...types.matchAll(/@example (.*?) \/\/ (.*?)(?: \*\/)?$/gm)];
const names = 'clean, errors, fragment, parse, parseWithPlaces';
const made = (code) => new Function('figpliers', `const { ${names} } = figpliers; return ${code};`)(figpliers);
for (const [, code, want] of examples) check(JSON.stringify(made(code)) === JSON.stringify(made(want)), code);
check(examples.length === 10, 'the number of examples');
end();
