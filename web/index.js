/** The package in browsers, and wherever `fetch` reads what lies beside a script. Its types are in index.d.ts. */
import { NAMES } from './src/names.js';
import { sourceOf, start, startNow } from './src/runtime.js';

export * from './src/api.js';

export function load(source) {
  return start(arguments.length, NAMES, () => sourceOf(source, () => new URL('./wollemigo.wasm', import.meta.url), fetch));
}

export function loadSync(source) {
  startNow(arguments.length, NAMES, source);
}
