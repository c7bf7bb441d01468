// Counts of what holds, and the rows of the tables that all bindings are tested with.
import { readFileSync } from 'node:fs';

let passed = 0;
let failed = 0;

export function check(holds, what) {
  if (holds) {
    passed += 1;
  } else {
    failed += 1;
    console.log('JavaScript:', what);
  }
}

export function unescaped(field) {
  const bytes = Buffer.from(field);
  const made = [];
  for (let at = 0; at < bytes.length; at += 1) {
    if (bytes[at] !== 0x5c) {
      made.push(bytes[at]);
      continue;
    }
    at += 1;
    const letter = String.fromCharCode(bytes[at]);
    if (letter === 'x') {
      made.push(parseInt(bytes.toString('latin1', at + 1, at + 3), 16));
      at += 2;
    } else {
      made.push({ n: 10, r: 13, t: 9, '\\': 92 }[letter]);
    }
  }
  return Uint8Array.from(made);
}

// The fields of each row of a table, as they are written.
export function rowsOf(path) {
  const rows = readFileSync(path, 'utf8').split('\n');
  return rows.filter((row) => row !== '' && !row.startsWith('#')).map((row) => row.split('\t'));
}

export function end() {
  console.log(`JavaScript: ${passed} passed, ${failed} failed`);
  process.exitCode = failed ? 1 : 0;
}
