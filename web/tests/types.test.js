// The types: they name what is there, and TypeScript takes a program by them, where it is there.
import assert from 'node:assert/strict';
import { spawnSync } from 'node:child_process';
import { readFileSync } from 'node:fs';
import { test } from 'node:test';
import { fileURLToPath } from 'node:url';

import * as atlas from '../atlas.js';
import * as cache from '../cache.js';
import * as browser from '../index.js';
import * as node from '../node.js';
import * as nodeAtlas from '../node_atlas.js';
import * as nodeCache from '../node_cache.js';

const types = readFileSync(new URL('../index.d.ts', import.meta.url), 'utf8');
const sources = ['interface', 'errors', 'values', 'arrays', 'runtime', 'sheet', 'keys', 'atlas', 'cache', 'simple', 'paged']
  .map((name) => readFileSync(new URL(`../src/${name}.js`, import.meta.url), 'utf8')).join('\n');

test('what is exported is what the types name', () => {
  const named = [...types.matchAll(/^export (?:class|const|function) (\w+)/gm)].map((found) => found[1]);
  for (const api of [browser, node]) assert.deepEqual(Object.keys(api).sort(), named.sort());
  for (const [name, apis] of [['atlas', [atlas, nodeAtlas]], ['cache', [cache, nodeCache]]]) {
    const part = readFileSync(new URL(`../${name}.d.ts`, import.meta.url), 'utf8').match(/^export \{ (.*) \} from/m)[1].split(', ');
    for (const api of apis) assert.deepEqual(Object.keys(api).sort(), part);
  }
});

test('what a class has is what the types name', () => {
  for (const name of ['Atlas', 'SimpleAtlas', 'PagedAtlas', 'TextureCache']) {
    const body = types.slice(types.indexOf(`export class ${name} {`)).split('\n}\n')[0];
    const named = new Set([...body.matchAll(/^ {2}(?:static |readonly )?(\w+)[(:]/gm)].map((found) => found[1]));
    const made = [node[name], node[name].prototype, Object.getPrototypeOf(node[name].prototype)].flatMap(Object.getOwnPropertyNames);
    const there = new Set(made.filter((each) => !['length', 'name', 'prototype'].includes(each)));
    if (name === 'TextureCache') there.add('length');
    assert.deepEqual([...there].sort(), [...named].sort());
  }
});

test('each code that the types name is thrown, and no other', () => {
  const union = types.slice(types.indexOf('export type ErrorCode ='), types.indexOf('/** Thrown by every call'));
  const named = new Set([...union.matchAll(/^ {2}\| '(\w+)'/gm)].map((found) => found[1]));
  const thrown = new Set([...sources.matchAll(/'([A-Z][A-Z_]{4,})'/g)].map((found) => found[1]));
  // What the library answers and JavaScript throws in no case, or under another name.
  const others = ['SHORT', 'NO_ROOM', 'NOT_HELD', 'NO_CHANGE', 'HELD', 'FRAME_FULL', 'EMPTY', 'NULL_POINTER', 'OCCUPIED'];
  for (const name of others) thrown.delete(name);
  assert.deepEqual([...thrown].sort(), [...named].sort());
});

const program = fileURLToPath(new URL('program.ts', import.meta.url));
const tsc = spawnSync('tsc', ['--version']);
test('a program by the types', { skip: tsc.error !== undefined && 'there is no tsc' }, () => {
  const words = ['--noEmit', '--strict', '--target', 'es2022', '--module', 'es2022', '--lib', 'es2022,dom', program];
  const done = spawnSync('tsc', words, { encoding: 'utf8' });
  assert.equal(done.status, 0, done.stdout);
});

test('the types refuse what the package refuses, also without those of the DOM', { skip: tsc.error !== undefined && 'there is no tsc' }, () => {
  const refusing = fileURLToPath(new URL('refused.ts', import.meta.url));
  const wanted = readFileSync(refusing, 'utf8').split('\n').flatMap((line, at) => (line.endsWith('// refused') ? [at + 1] : []));
  const words = ['--noEmit', '--strict', '--target', 'es2022', '--module', 'es2022', '--lib'];
  for (const more of [['es2022'], ['es2022', '--exactOptionalPropertyTypes'], ['es2022,dom']]) {
    const { stdout } = spawnSync('tsc', [...words, ...more, refusing], { encoding: 'utf8' });
    const found = new Set([...stdout.matchAll(/refused\.ts\((\d+),/g)].map((each) => Number(each[1])));
    assert.deepEqual([...found].sort((a, b) => a - b), wanted, stdout);
    assert.doesNotMatch(stdout, /index\.d\.ts\(/);
  }
});
