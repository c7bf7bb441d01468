// What the types allow: compiled by tsc, never run.
import { Attribute, Cleaned, Document, Fault, Link, Node, Normal, ParseError, Quirks } from 'figpliers';
import { clean, cleanDocument, errors, fragment, normalise, parse, parseWithPlaces, policy } from 'figpliers';
import { parse as parseByCore } from 'figpliers/core';

const page: Document = parse('<a href=/b>c</a>', 'x; 41');
const hrefs: (string | null)[] = page.elements('a').map((it: Node) => it.attribute('href'));
for (const node of page.walk()) {
  const attributes: Attribute[] = node.attributes;
  console.log(node.kind === 'element' ? node.name : node.data, node.parent?.name, attributes.length, node.isSame(page));
}
const normal: Normal = normalise(new Uint8Array([60]));
const quirks: Quirks = new Document(page.image).quirks;
const kept: Cleaned[] = [clean('a'), cleanDocument('b'), clean('c', policy('mail'))];
const items: Node[] = page.select('ul > li');
const links: Link[] = page.links('http://a/').concat(page.links());
const html: string[] = [page.html(), page.innerHtml(), page.selectOne('p')?.html() ?? '', links[0].element.text()];
const found: ParseError[] = errors('<p>');
const at = (fault: unknown): number => (fault instanceof Fault ? fault.at : -1);
console.log(hrefs, normal.text, normal.plain, quirks, kept, items.length, page.number, at(null), html, found[0].line);
const lines: (number | null)[] = [parseWithPlaces('<p>').line, fragment('<td>', 'tr').column, parseByCore('').line];
console.log(lines);
// @ts-expect-error a page is no number
parse(1);
