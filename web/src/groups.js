/** Sprites in groups on several sheets. */
import { atMost } from './errors.js';
import { NO_GROUP, onPageAt, sizeAt } from './interface.js';
import { sheetsRead } from './pages.js';
import { written } from './sheet.js';
import { badNumber, list } from './values.js';

/** The number of a group, as the library has it; null is none. */
function group(value, name) {
  if (value === null) return NO_GROUP;
  if (typeof value !== 'number' || value !== value >>> 0 || value === NO_GROUP) throw badNumber(value, name, 0, NO_GROUP - 1);
  return value >>> 0;
}

export function packGroups(sprites, groups, given) {
  atMost(3, arguments.length);
  const all = list(groups, 'groups', group);
  const room = written(sprites, given, onPageAt.words + sizeAt.words + 1);
  const { runtime, many, at, places, told, bad } = room;
  const sizes = places + 4 * onPageAt.words * many;
  const [from, numbers] = [sizes + 4 * sizeAt.words * many, all.slice(0, many)];
  runtime.write(from, numbers);
  const status = runtime.calls.pack_groups(at, many, from, numbers.length, runtime.at, places, many, sizes, many, told, bad);
  return sheetsRead(status, room, sizes);
}
