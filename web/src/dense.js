/** Sheets with no guillotine cuts. */
import { atMost } from './errors.js';
import { packedBy } from './sheet.js';

export function packDense(sprites, given) {
  atMost(2, arguments.length);
  return packedBy('pack_dense', sprites, given);
}
