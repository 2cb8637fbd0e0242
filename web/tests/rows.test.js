// What the repository's pages say of calls and answers: docs/TOOL.md, and the stored lines of crates/atlas_tool.
import assert from 'node:assert/strict';
import { readFileSync } from 'node:fs';
import { test } from 'node:test';

import * as wollemigo from '../node.js';
import { Tool, parse, replies } from './tool.js';

await wollemigo.load();
const root = new URL('../../', import.meta.url);

function rows(page) {
  const text = readFileSync(new URL(page, root), 'utf8');
  const table = text.slice(text.indexOf('| line | replies |')).split('\n\n')[0];
  const code = (cell) => [...cell.matchAll(/`([^`]*)`/g)].map((found) => found[1]);
  return table.split('\n').slice(2).map((row) => row.split('|').slice(1, 3).map(code));
}

test('the session of docs/TOOL.md', () => {
  const tool = new Tool(wollemigo);
  const all = rows('docs/TOOL.md');
  assert.equal(all.length, 14);
  for (const [[line], wanted] of all) assert.deepEqual(tool.answer(line), wanted, line);
});

test('the stored lines of the tool', () => {
  const read = (name) => readFileSync(new URL(`crates/atlas_tool/${name}`, root), 'utf8');
  assert.equal(replies(wollemigo, read('stdin')), read('stdout'));
});

test('what the tool answers where there is nothing, and to a bad line', () => {
  const cases = [
    ['alloc 1 1', 'no atlas\n'], ['take 1 1', 'no simple\n'], ['from-atlas', 'no atlas\n'], ['atlas 5 5\nfrom-atlas', 'ok\nno simple\n'],
    ['atlas 0 5', 'bad call\n'], ['atlas 5 5 0 1 1 1', 'bad call\n'], ['simple -1 1', 'bad call\n'], ['\nalloc 1', 'bad line 2\n'],
    ['atlas 5 5\nresize 0 5\nlive', 'ok\nbad call\nlive 0\n'], ['atlas 5 5\nalloc 0 5\nalloc 6 1', 'ok\nnone\nnone\n'],
  ];
  for (const [lines, wanted] of cases) assert.equal(replies(wollemigo, lines), wanted, lines);
  for (const line of ['alloc 1  1', ' live', 'live ', 'alloc +1 1', 'alloc 2147483648 1', 'free -1', 'free 4294967296', 'none']) {
    assert.equal(parse(line), null, line);
  }
});
