/** Atlases alone, with a smaller module, `atlas.wasm`. Its calls are those of the whole package. */
export { Atlas, GLYPHS, MOST_SLOTS, WollemigoError, load, loadSync, memory } from './index.js';
export type {
  Allocation, AtlasOptions, Areas, Change, ChangeList, Container, ErrorCode, Member, Memory, PlainSize, Rectangle, Size, Slots, Source,
} from './index.js';
