/** Atlases alone, with a smaller module. */
import { sourceOf, start, startNow } from './src/runtime.js';

export { Atlas, GLYPHS, MOST_SLOTS } from './src/atlas.js';
export { WollemigoError } from './src/errors.js';
export { memory } from './src/runtime.js';

// Some of what its module has, by which it is known.
const NAMES = ['atlas_allocate', 'atlas_members'];

export function load(source) {
  return start(arguments.length, NAMES, () => sourceOf(source, () => new URL('./atlas.wasm', import.meta.url), fetch));
}

export function loadSync(source) {
  startNow(arguments.length, NAMES, source);
}
