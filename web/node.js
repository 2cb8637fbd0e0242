/** The package in Node: the module is read from the disk. */
import { showInConsole } from './src/console.js';
import { bytes } from './src/disk.js';
import { NAMES } from './src/names.js';
import { sourceOf, start, startNow } from './src/runtime.js';

export * from './src/api.js';

showInConsole();

export function load(source) {
  return start(arguments.length, NAMES, () => sourceOf(source, () => new URL('./wollemigo.wasm', import.meta.url), bytes));
}

export function loadSync(source) {
  startNow(arguments.length, NAMES, source);
}
