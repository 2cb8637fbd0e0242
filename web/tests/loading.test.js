// Each way to hand the module over, each in a process of its own, and the lines of README.md for Node.
import assert from 'node:assert/strict';
import { spawnSync } from 'node:child_process';
import { mkdtempSync, mkdirSync, readFileSync, rmSync, symlinkSync, writeFileSync } from 'node:fs';
import { tmpdir } from 'node:os';
import { join } from 'node:path';
import { test } from 'node:test';
import { fileURLToPath } from 'node:url';

const web = fileURLToPath(new URL('..', import.meta.url));

/** What a program writes that finds the package by its name. */
function told(program) {
  const folder = mkdtempSync(join(tmpdir(), 'wollemigo-'));
  try {
    mkdirSync(join(folder, 'node_modules'));
    symlinkSync(web, join(folder, 'node_modules', 'wollemigo'));
    writeFileSync(join(folder, 'program.mjs'), program);
    const done = spawnSync(process.execPath, ['program.mjs'], { cwd: folder, encoding: 'utf8' });
    assert.equal(done.status, 0, done.stderr);
    return done.stdout;
  } finally {
    rmSync(folder, { recursive: true });
  }
}

test('each kind of source', () => {
  const file = JSON.stringify(join(web, 'wollemigo.wasm'));
  const sources = {
    nothing: '', path: file, address: `pathToFileURL(${file})`, 'address in text': `pathToFileURL(${file}).href`, bytes: `readFileSync(${file})`,
    'a buffer': `new Uint8Array(readFileSync(${file})).buffer`, 'a module': `new WebAssembly.Module(readFileSync(${file}))`,
    'a response': `new Response(readFileSync(${file}))`, 'a promise': `Promise.resolve(new Response(readFileSync(${file})))`,
  };
  const head = `import { readFileSync } from 'node:fs'; import { pathToFileURL } from 'node:url'; import { Atlas, load } from 'wollemigo';\n`;
  for (const [name, source] of Object.entries(sources)) {
    const more = source === '' ? 'load()' : `load(${source})`;
    const program = `${head}await Promise.all([${more}, load(), load('/no/such/file')]); console.log(new Atlas(100, 100).allocate(20, 60).id);`;
    assert.equal(told(program), '3\n', name);
  }
});

test('loadSync, and the entries with smaller modules', () => {
  const head = `import { readFileSync } from 'node:fs'; const bytes = (name) => readFileSync(${JSON.stringify(web)} + name + '.wasm');\n`;
  const uses = {
    '': `const { Atlas, loadSync } = await import('wollemigo'); loadSync(bytes('wollemigo')); console.log(new Atlas(100, 100).allocate(20, 60).id);`,
    'a module': `const { Atlas, loadSync } = await import('wollemigo/atlas'); loadSync(new WebAssembly.Module(bytes('atlas')));
      console.log(new Atlas(100, 100).allocate(20, 60).id);`,
    buffer: `const { Atlas, loadSync } = await import('wollemigo/atlas'); loadSync(new Uint8Array(bytes('atlas')).buffer);
      console.log(new Atlas(100, 100).allocate(20, 60).id);`,
    atlas: `const { Atlas, load } = await import('wollemigo/atlas'); await load(); console.log(new Atlas(100, 100).allocate(20, 60).id);`,
    cache: `const { TextureCache, load } = await import('wollemigo/cache'); await load();
      const cache = new TextureCache({ page: { width: 64, height: 64 } }); cache.insert('a', 5, 5); console.log(cache.insert('b', 5, 5).number + 2);`,
    'while another one is fetched': `const { Atlas, load, loadSync, memory } = await import('wollemigo'); const done = load();
      loadSync(bytes('wollemigo')); const atlas = new Atlas(100, 100); await done; await load();
      console.log(atlas.allocate(20, 60).id + memory().atlases - 1);`,
  };
  for (const [name, program] of Object.entries(uses)) assert.equal(told(head + program), '3\n', name);
  const refusals = `const { load, loadSync, WollemigoError } = await import('wollemigo'); const atlas = await import('wollemigo/atlas');
    const codes = [];
    for (const source of [undefined, null, 5, 'wollemigo.wasm', {}, [], new Uint8Array(5), bytes('atlas'), Promise.resolve(bytes('wollemigo'))]) {
      try { loadSync(source); } catch (error) { codes.push(error instanceof WollemigoError && error.code); }
    }
    try { atlas.loadSync(bytes('cache')); } catch (error) { codes.push(error.code); }
    try { loadSync(bytes('wollemigo'), 5); } catch (error) { codes.push(error.code); }
    console.log(codes.join(' '));`;
  assert.equal(told(head + refusals), `${'LOAD_FAILED '.repeat(10)}SURPLUS\n`);
});

test('both a smaller module and the whole one', () => {
  const program = `const small = await import('wollemigo/atlas'); const whole = await import('wollemigo');
    ORDER
    const one = new small.Atlas(100, 100);
    await whole.load();
    const [two, simple] = [one.clone(), new whole.SimpleAtlas(5, 5)];
    for (const atlas of [one, two, new whole.Atlas(100, 100)]) console.log(atlas.allocate(20, 60).id);
    try { simple.initFrom(one); console.log('one module'); } catch (error) { console.log(error.code); }
    simple.initFrom(new small.Atlas(7, 7));
    console.log(simple.size.width, new whole.TextureCache({ page: { width: 5, height: 5 } }).length);`;
  assert.equal(told(program.replace('ORDER', 'await small.load();')), '3\n3\n3\nBAD_OPTION\n7 0\n');
  assert.equal(told(program.replace('ORDER', 'await Promise.all([small.load(), whole.load()]);')), '3\n3\n3\none module\n7 0\n');
  assert.equal(told(program.replace('ORDER', 'await whole.load(); await small.load();')), '3\n3\n3\none module\n7 0\n');
});

test('a response of the right kind is compiled while it comes', () => {
  const file = JSON.stringify(join(web, 'wollemigo.wasm'));
  for (const [kind, wanted] of [['application/wasm', 1], ['text/plain', 0]]) {
    const program = `import { readFileSync } from 'node:fs'; import { Atlas, load } from 'wollemigo';
      let times = 0;
      const { compileStreaming } = WebAssembly;
      WebAssembly.compileStreaming = (source) => { times += 1; return compileStreaming(source); };
      await load(new Response(readFileSync(${file}), { headers: { 'Content-Type': '${kind}' } }));
      console.log(times, new Atlas(100, 100).allocate(20, 60).id);`;
    assert.equal(told(program), `${wanted} 3\n`, kind);
  }
});

test('the lines of README.md', () => {
  const [, program] = /^```js\n([^]*?)^```$/m.exec(readFileSync(join(web, 'README.md'), 'utf8'));
  assert.equal(told(program), '0 0 20 60\ncontainer 1024 1024\npageAdded 0\n0 1 1 true\n43 43 2\n');
});

test('the lines of README.md about a rearrangement', () => {
  const [, program] = /^```js rearranging\n([^]*?)^```$/m.exec(readFileSync(join(web, 'README.md'), 'utf8'));
  const count = '\nconsole.log(atlas.allocated().length);\n';
  assert.match(told(program + count), /^would be lost \d+ 48 8\n4\n$/);
  assert.match(told(program.replace('new Atlas(64, 64)', 'new Atlas(80, 80)') + count), /^(?:moved(?: \d+){6}\n){4}4\n$/);
});
