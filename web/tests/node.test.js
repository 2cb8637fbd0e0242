// What is Node's alone: what its console shows, its collector, its files, and as much memory as a module may have.
import assert from 'node:assert/strict';
import { spawnSync } from 'node:child_process';
import { mkdtempSync, rmSync, writeFileSync } from 'node:fs';
import { tmpdir } from 'node:os';
import { join } from 'node:path';
import { test } from 'node:test';
import { fileURLToPath } from 'node:url';
import { inspect } from 'node:util';
import { setFlagsFromString } from 'node:v8';
import { runInNewContext } from 'node:vm';

import * as wollemigo from '../node.js';
import { refused } from './support.js';

const { Atlas, PagedAtlas, SimpleAtlas, TextureCache } = wollemigo;
await wollemigo.load();
const page = { width: 64, height: 64 };
// An atlas with memory for this many slots has some 600 MB, and there are 4 GB at most.
const MANY = 16777000;

test('what a console shows', () => {
  const [atlas, simple, cache] = [new Atlas(100, 50), new SimpleAtlas(90, 40), new TextureCache({ page })];
  const paged = new PagedAtlas(80, 40, 2);
  cache.insert('a', 5, 5);
  assert.match(inspect(paged), /^PagedAtlas \{ pageCount: 0 \}/);
  assert.match(inspect(atlas), /^Atlas \{\s+size: \{ width: 100, height: 50 \}/);
  assert.match(inspect(simple), /^SimpleAtlas \{\s+size: \{ width: 90, height: 40 \}/);
  assert.match(inspect(cache), /^TextureCache \{\s+length: 1,\s+pageCount: 1/);
  assert.match(inspect({ atlas }, { depth: 0 }), /Atlas/);
  for (const each of [atlas, simple, paged, cache]) {
    each.dispose();
    assert.match(inspect(each), /^\w+ \{ state: 'DISPOSED' \}$/);
  }
  assert.match(inspect(Object.create(Atlas.prototype)), /Atlas/);
  inspect(Atlas.prototype);
});

test('a console shows what is none of them', () => {
  const { [Symbol.for('nodejs.util.inspect.custom')]: shown } = Object.getPrototypeOf(Atlas).prototype;
  const gone = Proxy.revocable({}, {});
  gone.revoke();
  const values = [null, undefined, 5, {}, Object.create(null), gone.proxy, { get constructor() { throw new Error('of the caller'); } },
    { constructor: { name: Symbol('name') } }, Object.create(Atlas.prototype), new Proxy(new Atlas(5, 5), {}), Atlas.prototype];
  for (const value of values) assert.match(shown.call(value, 2, {}, () => 'read'), /^[\w()]+ \{\}$/);
});

/** What a bundle of the package, or a program of it, prints. */
function told(folder, name, text) {
  writeFileSync(join(folder, name), text);
  const done = spawnSync(process.execPath, [join(folder, name)], { encoding: 'utf8' });
  assert.equal(done.status, 0, done.stderr);
  return done.stdout;
}

test('a load that fails names the address and the remedy', () => {
  const folder = mkdtempSync(join(tmpdir(), 'wollemigo-'));
  const index = JSON.stringify(fileURLToPath(new URL('../index.js', import.meta.url)));
  const node = JSON.stringify(fileURLToPath(new URL('../node.js', import.meta.url)));
  const print = '.catch((error) => console.log(error.code, error.message, error.cause !== undefined))';
  try {
    assert.match(told(folder, 'file.mjs', `import { load } from ${node}; load('/no/such/file')${print};`),
      /^LOAD_FAILED .*\/no\/such\/file can't be read \(ENOENT.*; put the module there, or pass load\(\) its address or its bytes true\n$/);
    const server = `import { createServer } from 'node:http'; import { load } from ${index};
      const server = createServer((_, reply) => reply.writeHead(404).end()).listen(0, '127.0.0.1', async () => {
        await load('http://127.0.0.1:' + server.address().port + '/lib/wollemigo.wasm')${print};
        server.close(); });`;
    assert.match(told(folder, 'far.mjs', server), /the server answered 404 for http:\/\/127.0.0.1:\d+\/lib\/wollemigo.wasm; put the module there/);
    const bundle = spawnSync('esbuild', [JSON.parse(index), '--bundle', '--format=cjs', '--log-level=error'], { encoding: 'utf8' });
    if (bundle.error !== undefined) return;
    const text = `${bundle.stdout}\nmodule.exports.load()${print};`;
    assert.match(told(folder, 'classic.cjs', text), /this bundle has no address of its own.*pass load\(\) its address or its bytes true\n$/);
  } finally {
    rmSync(folder, { recursive: true });
  }
});

test('memory that is refused, and is there again after a disposal', () => {
  const all = [];
  const fill = () => {
    for (let i = 0; i < 30; i++) {
      all.push(new Atlas(100, 100));
      all.at(-1).allocate(20, 60);
      all.at(-1).reserve(MANY);
    }
  };
  refused(fill, 'MEMORY', 'reserve');
  for (const each of all) assert.deepEqual(each.allocated(), [{ id: 3, x: 0, y: 0, width: 20, height: 60 }]);
  for (const each of all) each.dispose();
  const again = new Atlas(100, 100);
  again.reserve(MANY);
  again.dispose();
});

test('what is forgotten is let go', async () => {
  setFlagsFromString('--expose-gc');
  const collect = runInNewContext('gc');
  for (let i = 0; i < 30; i++) {
    new Atlas(100, 100).reserve(MANY);
    collect();
    await new Promise((done) => setTimeout(done, 1));
  }
});
