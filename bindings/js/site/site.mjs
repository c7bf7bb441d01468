// The playground: what the page in the text field becomes. Each view is made when it is looked at.
import { clean, errors, normalise, parse, policy } from './figpliers/index.mjs';

const EXAMPLE = `<!DOCTYPE html>
<title>Fruit</title>
<ul id=list>
  <li>Apples <a href=/red onclick="steal()">red</a>
  <li>Pears &amp plums
</ul>
<p>One <b>two <i>three</b> four</i>
<table><tr>lost<td>cell</table>
<script>alert(1)</script>
`;
const at = (id) => document.getElementById(id);
const source = at('source');
const tabs = [...document.querySelectorAll('[role=tab]')];
const count = (number, what) => `${number} ${what}${number === 1 ? '' : 's'}`;

// Puts what `make` returns into an element, or why there is none.
function show(id, make) {
  try {
    at(id).replaceChildren(...[make()].flat());
  } catch (fault) {
    at(id).replaceChildren(String(fault.message ?? fault));
  }
}

// The line of a node in the tree.
function lineOf(node) {
  switch (node.kind) {
    case 'element':
      return `<${node.name}${node.attributes.map((it) => ` ${it.name}="${it.value}"`).join('')}>`;
    case 'text':
      return JSON.stringify(node.data);
    case 'comment':
      return `<!--${node.data}-->`;
    case 'doctype':
      return `<!DOCTYPE ${node.name}>`;
    case 'contents':
      return 'contents';
    default:
      return node.kind;
  }
}

// The lines of the tree, those of the nodes that are selected marked.
function treeLines(page, selected) {
  const lines = [];
  const waiting = page.children.reverse().map((node) => [node, 0]);
  while (waiting.length) {
    const [node, depth] = waiting.pop();
    const line = `${'  '.repeat(depth)}${lineOf(node)}\n`;
    if (selected.has(node.number)) {
      const mark = document.createElement('mark');
      mark.textContent = line;
      lines.push(mark);
    } else {
      lines.push(line);
    }
    for (const child of node.children.reverse()) waiting.push([child, depth + 1]);
    if (node.contents) waiting.push([node.contents, depth + 1]);
  }
  return lines;
}

function showTree() {
  const page = parse(source.value);
  const text = at('selector').value.trim();
  let selected = [];
  show('found', () => {
    if (!text) return '';
    selected = page.select(text);
    return count(selected.length, 'element');
  });
  show('tree', () => treeLines(page, new Set(selected.map((it) => it.number))));
  at('tree').querySelector('mark')?.scrollIntoView({ block: 'nearest' });
}

// Selects a line of the page.
function goTo(line) {
  const lines = source.value.split('\n');
  const from = lines.slice(0, line - 1).reduce((sum, it) => sum + it.length + 1, 0);
  source.focus();
  source.setSelectionRange(from, from + (lines[line - 1] ?? '').length);
  source.scrollTop = Math.max(0, (source.scrollHeight * (line - 3)) / lines.length);
}

function showErrors() {
  show('errors', () => {
    const found = errors(source.value).map(({ line, message }) => {
      const button = document.createElement('button');
      button.type = 'button';
      button.textContent = `line ${line}`;
      button.addEventListener('click', () => goTo(line));
      const item = document.createElement('li');
      item.append(button, ` ${message}`);
      return item;
    });
    return found.length ? found : 'No parse error.';
  });
}

function showCleaned() {
  let told = null;
  show('clean', () => {
    told = clean(source.value, policy(at('policy').value));
    return told.text;
  });
  show('counts', () => {
    if (!told) return '';
    const elements = `${told.unwrapped} unwrapped, ${told.dropped} dropped`;
    return `${elements}, ${count(told.attributes, 'attribute')}, ${count(told.comments, 'comment')} taken away`;
  });
}

const VIEWS = {
  'tab-tree': showTree,
  'tab-errors': showErrors,
  'tab-clean': showCleaned,
  'tab-normal': () => show('normal', () => normalise(source.value).text),
};

function update() {
  show('report', () => {
    const { errors: found, quirks, plain } = normalise(source.value);
    return `${count(found, 'parse error')}, ${quirks === 'no' ? 'no quirks' : `quirks: ${quirks}`}, ${plain ? 'plain' : 'not plain'}`;
  });
  VIEWS[tabs.find((it) => it.ariaSelected === 'true').id]();
}

function choose(tab) {
  for (const it of tabs) {
    it.ariaSelected = String(it === tab);
    it.tabIndex = it === tab ? 0 : -1;
    at(it.getAttribute('aria-controls')).hidden = it !== tab;
  }
  update();
}

async function take(file) {
  if (!file) return;
  source.value = await file.text();
  update();
}

for (const [i, tab] of tabs.entries()) {
  tab.addEventListener('click', () => choose(tab));
  tab.addEventListener('keydown', (event) => {
    const step = { ArrowRight: 1, ArrowLeft: -1 }[event.key];
    if (!step) return;
    const next = tabs[(i + step + tabs.length) % tabs.length];
    next.focus();
    choose(next);
  });
}
source.addEventListener('input', update);
at('selector').addEventListener('input', update);
at('policy').addEventListener('change', update);
at('file').addEventListener('change', (event) => take(event.target.files[0]));
source.addEventListener('dragover', (event) => {
  event.preventDefault();
  source.classList.add('dropping');
});
source.addEventListener('dragleave', () => source.classList.remove('dropping'));
source.addEventListener('drop', (event) => {
  source.classList.remove('dropping');
  if (!event.dataTransfer.files.length) return;
  event.preventDefault();
  take(event.dataTransfer.files[0]);
});
source.value = EXAMPLE;
update();
