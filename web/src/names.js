/** What a module has to have: the functions of the library, and those of rust/wasm beside them. web/play/build leaves the list out, since
 * it leaves out of the module what its pages don't call. */
import { EXPORTS } from './interface.js';

export const NAMES = import.meta.cut ? [] : [...EXPORTS, 'atlas_members', 'cache_get_halves', 'cache_insert_halves'];
