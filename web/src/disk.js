/** What lies on the disk, for Node; and what a server hands out. */
import { readFile } from 'node:fs/promises';

export function bytes(place) {
  if (/^https?:/.test(String(place))) return fetch(place);
  return readFile(typeof place === 'string' && place.startsWith('file:') ? new URL(place) : place);
}
