/** Sprites on several sheets, and on one that doesn't take them all. */
import { DONE, NO_ROOM, atMost } from './errors.js';
import { maybePlacedAt, onPageAt, sizeAt } from './interface.js';
import * as reading from './reading.js';
import { placed, refused, written } from './sheet.js';

/** The sheets that a call found, whose sizes begin at an address; null where a sprite is too large. */
export function sheetsRead(status, { runtime, many, places, told, bad }, sizes) {
  const words = runtime.words();
  if (status === NO_ROOM) return null;
  if (status !== DONE) throw refused(status, words, bad);
  return {
    sizes: reading.list(words, sizes >>> 2, words[told >>> 2], sizeAt.words, reading.size),
    places: reading.list(words, places >>> 2, many, onPageAt.words,
      (_, each) => ({ page: words[each + onPageAt.page] >>> 0, ...placed(words, each + onPageAt.placed) })),
  };
}

export function packPages(sprites, given) {
  atMost(2, arguments.length);
  const room = written(sprites, given, onPageAt.words + sizeAt.words);
  const { runtime, many, at, places, told, bad } = room;
  const sizes = places + 4 * onPageAt.words * many;
  return sheetsRead(runtime.calls.pack_pages(at, many, runtime.at, places, many, sizes, many, told, bad), room, sizes);
}

export function fill(sprites, given) {
  atMost(2, arguments.length);
  const { runtime, many, at, places, told, bad } = written(sprites, given, maybePlacedAt.words);
  const status = runtime.calls.fill(at, many, runtime.at, places, many, told, told + 16, bad);
  const words = runtime.words();
  if (status !== DONE) throw refused(status, words, bad);
  return {
    ...reading.size(words, (told >>> 2) + 4), left: words[told >>> 2] >>> 0,
    places: reading.list(words, places >>> 2, many, maybePlacedAt.words,
      (_, each) => (words[each + maybePlacedAt.isPlaced] === 0 ? null : placed(words, each + maybePlacedAt.placed))),
  };
}
