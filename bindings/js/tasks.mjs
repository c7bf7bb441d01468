// tasks.mjs TASKS: the usual tasks with a page.
import { clean, errors, fragment, parse, parseWithPlaces } from 'figpliers';
import { check, end, rowsOf, unescaped } from './testing.mjs';

// The name of a node as `nodeName` of the DOM has it, but for its letters.
const nameOf = (node) => ({ text: '#text', comment: '#comment', document: '#document' })[node.kind] ?? node.name;
const onNode = {
  select: nameOf,
  text: (node) => node.text(),
  attributes: (node) => node.attributes.map((it) => `${it.name}=${it.value}`).join(' '),
  children: (node) => node.children.map(nameOf).join(' '),
  parent: (node) => nameOf(node.parent),
  html: (node) => node.html(),
  inner_html: (node) => node.innerHtml(),
  place: (node) => `${node.line}:${node.column}`,
};

function answer(task, argument, page) {
  if (task === 'clean') return clean(page, argument || undefined).text;
  if (task === 'errors') return errors(page).map((it) => `${it.line}: ${it.message}\n`).join('');
  if (task === 'fragment') return fragment(page, argument || undefined).root.innerHtml();
  const document = (task === 'place' ? parseWithPlaces : parse)(page);
  if (task.startsWith('links')) return document.links(argument || null).map((it) => `${it.url}\n`).join('');
  const nodes = argument ? document.select(argument) : [document, ...document.walk()];
  if (task === 'urls') return nodes.flatMap((node) => node.urls()).map((url) => `${url}\n`).join('');
  return nodes.map((node) => `${onNode[task](node)}\n`).join('');
}

for (const row of rowsOf(process.argv[2])) {
  const [task, argument, page, want] = row.map((field) => new TextDecoder().decode(unescaped(field)));
  const got = answer(task, argument, page);
  check(got === want, `${task} ${argument} ${page}: ${got}`);
}
end();
