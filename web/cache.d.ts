/** The cache alone, with a smaller module, `cache.wasm`. Its calls are those of the whole package. */
export { TextureCache, WollemigoError, load, loadSync, memory } from './index.js';
export type {
  AtlasOptions, Areas, CacheChange, CacheOptions, Entry, ErrorCode, Key, KeyedPlace, Memory, Place, PlainSize, Rectangle, Size, Source, Statistics,
} from './index.js';
