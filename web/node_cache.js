/** The cache alone, in Node. */
import { showInConsole } from './src/console.js';
import { bytes } from './src/disk.js';
import { sourceOf, start, startNow } from './src/runtime.js';

export { TextureCache } from './src/cache.js';
export { WollemigoError } from './src/errors.js';
export { memory } from './src/runtime.js';

// Some of what its module has, by which it is known.
const NAMES = ['cache_get_halves', 'cache_next_change'];

showInConsole();

export function load(source) {
  return start(arguments.length, NAMES, () => sourceOf(source, () => new URL('./cache.wasm', import.meta.url), bytes));
}

export function loadSync(source) {
  startNow(arguments.length, NAMES, source);
}
