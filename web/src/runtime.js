/** A running module: its calls, its memory, and places in it for handles and for what is passed by pointer. */
import { WollemigoError, atMost, failure, require, told } from './errors.js';

const PAGE = 65536;
/** The call of an export, of so many arguments; what it throws is a trap. */
function guarded(call, trap) {
  switch (call.length) {
    case 1: return (a) => { try { return call(a); } catch (error) { throw trap(error); } };
    case 2: return (a, b) => { try { return call(a, b); } catch (error) { throw trap(error); } };
    case 3: return (a, b, c) => { try { return call(a, b, c); } catch (error) { throw trap(error); } };
    case 4: return (a, b, c, d) => { try { return call(a, b, c, d); } catch (error) { throw trap(error); } };
    case 5: return (a, b, c, d, e) => { try { return call(a, b, c, d, e); } catch (error) { throw trap(error); } };
    default: return (...all) => { try { return call(...all); } catch (error) { throw trap(error); } };
  }
}

export class Runtime {
  #memory;
  #words;
  #cells = [];
  #room;

  /** Of a module that has these functions, and maybe more. */
  constructor({ exports }, names) {
    const missing = names.filter((name) => typeof exports[`guillotiere_${name}`] !== 'function');
    if (missing.length > 0 || !(exports.memory instanceof WebAssembly.Memory)) {
      throw new TypeError(`the module has no ${missing[0] ?? 'memory'}`);
    }
    this.hasTrapped = false;
    /** How many owners there are of each kind, by its name. */
    this.owners = { Atlas: 0, SimpleAtlas: 0, PagedAtlas: 0, TextureCache: 0 };
    this.#memory = exports.memory;
    this.#words = new Int32Array(this.#memory.buffer);
    const trap = (error) => this.trap(error);
    this.calls = {};
    for (const [name, call] of Object.entries(exports)) {
      if (name.startsWith('guillotiere_')) this.calls[name.slice(12)] = guarded(call, trap);
    }
    // The calls that are made most, without a function in between. Each is made within a `try`, and what it throws goes to `trap`.
    this.allocate = exports.guillotiere_atlas_allocate;
    this.deallocate = exports.guillotiere_atlas_deallocate;
    this.get = exports.guillotiere_cache_get_halves;
    this.insert = exports.guillotiere_cache_insert_halves;
    this.nextChange = exports.guillotiere_cache_next_change;
    /** Where values of a few words are passed: 256 bytes, as an address and as an index of words. */
    this.at = this.#take(1);
    this.word = this.at >>> 2;
    this.#room = { at: this.at + 256, bytes: PAGE - 4096 - 256 };
    this.#addCells(this.at + PAGE - 4096, this.at + PAGE);
  }

  has(names) {
    return names.every((name) => Object.hasOwn(this.calls, name));
  }

  /** What is told of a trap, after which nothing of this module is used. */
  trap(cause) {
    this.hasTrapped = true;
    return failure('TRAPPED', { cause });
  }

  /** Takes this many new pages of memory, which the module's own allocator then doesn't have; gives their address. */
  #take(pages) {
    try {
      return this.#memory.grow(pages) * PAGE;
    } catch (cause) {
      throw failure('MEMORY', { cause });
    }
  }

  #addCells(from, to) {
    for (let at = to - 4; at >= from; at -= 4) this.#cells.push(at);
  }

  get bytes() {
    return this.#memory.buffer.byteLength;
  }

  /** The memory by words. It is asked for anew after each call, which may have made the memory larger. */
  words() {
    if (this.#words.length === 0) this.#words = new Int32Array(this.#memory.buffer);
    return this.#words;
  }

  /** Writes these words from `at` on. */
  write(at, values) {
    const words = this.words();
    for (let i = 0; i < values.length; i++) words[(at >>> 2) + i] = values[i];
  }

  /** A place for a handle, which holds nothing. */
  takeCell() {
    if (this.#cells.length === 0) {
      const page = this.#take(1);
      this.#addCells(page, page + PAGE);
    }
    const cell = this.#cells.pop();
    this.words()[cell >>> 2] = 0;
    return cell;
  }

  giveCell(cell) {
    this.#cells.push(cell);
  }

  /** Room for so many bytes until it is asked for the next time. */
  room(bytes) {
    if (bytes > this.#room.bytes) {
      const pages = Math.ceil(Math.max(bytes, 2 * this.#room.bytes) / PAGE);
      // What was room before becomes places for handles.
      const { at, bytes: before } = this.#room;
      this.#room = { at: this.#take(pages), bytes: pages * PAGE };
      this.#addCells(at, at + Math.min(before, PAGE));
    }
    return this.#room.at;
  }
}

let current = null;
let starting = null;

/** The module that runs. */
export function running() {
  if (current === null) throw failure('NOT_LOADED');
  if (current.hasTrapped) throw failure('TRAPPED');
  return current;
}

/** How much memory the module has, and what takes it. */
export function memory() {
  atMost(0, arguments.length);
  const { bytes, owners } = running();
  return { bytes, atlases: owners.Atlas, simpleAtlases: owners.SimpleAtlas, pagedAtlases: owners.PagedAtlas, caches: owners.TextureCache };
}

/** Whether a module runs that has these functions. Another one may take its place, by a larger entry of the package: then what was made
 * before stays where it is. */
const isRunning = (names) => current !== null && !current.hasTrapped && current.has(names);

function unstartable(cause) {
  return new WollemigoError('LOAD_FAILED', `the module can't be started: ${told(cause)}`, { cause });
}

async function started(names, module) {
  try {
    const made = await WebAssembly.instantiate(await module(), {});
    if (!isRunning(names)) current = new Runtime(made instanceof WebAssembly.Instance ? made : made.instance, names);
  } catch (cause) {
    throw unstartable(cause);
  } finally {
    starting = null;
  }
}

/** Starts the module that a function gives, unless one with these functions runs or is being started; `given` is how many arguments `load`
 * was given. */
export async function start(given, names, module) {
  atMost(1, given);
  while (starting !== null && !isRunning(names)) await starting;
  if (isRunning(names)) return;
  starting = started(names, module);
  await starting;
}

/** Starts at once the module that bytes are, or one that is given, unless one with these functions runs; `given` as for `start`. */
export function startNow(given, names, source) {
  atMost(1, given);
  if (isRunning(names)) return;
  try {
    const isModule = !ArrayBuffer.isView(source) && !/ArrayBuffer\]$/.test(Object.prototype.toString.call(source));
    current = new Runtime(new WebAssembly.Instance(isModule ? source : new WebAssembly.Module(source), {}), names);
  } catch (cause) {
    throw unstartable(cause);
  }
}

/** What WebAssembly takes, of a response, of bytes or of a module. */
async function content(source) {
  if (typeof source?.arrayBuffer !== 'function') return source;
  // A response of the right kind is compiled while it comes.
  const isStreamed = typeof WebAssembly.compileStreaming === 'function' && typeof Response === 'function' && source instanceof Response
    && /^application\/wasm\s*$/i.test(source.headers.get('Content-Type') ?? '');
  if (source.ok !== false) return isStreamed ? WebAssembly.compileStreaming(source) : source.arrayBuffer();
  throw new TypeError(`the server answered ${source.status} for ${source.url || 'it'}; ${REMEDY}`);
}

const REMEDY = 'put the module there, or pass load() its address or its bytes';

/** What `load` takes, as WebAssembly takes it; `address` gives the module's place where nothing is given. */
export async function sourceOf(source, address, read) {
  const given = await (source === undefined ? beside(address) : source);
  return content(typeof given === 'string' || given instanceof URL ? await readAt(given, read) : given);
}

/** The address of the module next to a script, as a function gives it that bundlers know; a bundle for classic scripts or CommonJS has none. */
function beside(address) {
  try {
    return address();
  } catch (cause) {
    throw new TypeError('this bundle has no address of its own, next to which the module could lie; pass load() its address or its bytes',
      { cause });
  }
}

/** What `read` reads at an address, which is named where that fails. */
async function readAt(place, read) {
  try {
    return await read(place);
  } catch (cause) {
    throw new TypeError(`${place} can't be read (${told(cause)}); ${REMEDY}`, { cause });
  }
}

const registry = new FinalizationRegistry(({ runtime, cell, kind }) => {
  try {
    letGo(runtime, cell, kind);
  } catch {
    // A trap is told by the next call; nobody called this one.
  }
});

function letGo(runtime, cell, kind) {
  if (runtime.hasTrapped) return;
  runtime.owners[kind.name] -= 1;
  runtime.calls[kind.free](cell);
  runtime.giveCell(cell);
}

/** What owners are of, each by the call that lets its handle go. Only these modules have them, so nothing else makes an owner. */
export const ATLAS = Object.freeze({ name: 'Atlas', free: 'atlas_free' });
export const SIMPLE = Object.freeze({ name: 'SimpleAtlas', free: 'simple_free' });
export const PAGED = Object.freeze({ name: 'PagedAtlas', free: 'paged_free' });
export const CACHE = Object.freeze({ name: 'TextureCache', free: 'cache_free' });
const KINDS = new Set([ATLAS, SIMPLE, PAGED, CACHE]);

/** Whether a value is an owner of a kind: what it was made as, whatever its prototype is now. */
export let isOf;
/** The module that an owner's handle is in, and the place of that handle. The first throws of one that is of another kind, or out of use. */
export let runtimeOf;
export let handle;

/** Whether a value is an owner of any kind. Terser 5.16, which webpack brings, loses the parentheses of `!(#kind in value)`. */
export let isOwner;

/** What a call of an owner writes at `runtime.at`, as the reader reads it. */
export function found(owner, kind, call, reader) {
  const runtime = runtimeOf(owner, kind);
  require(runtime.calls[call](handle(owner), runtime.at));
  return reader(runtime.words(), runtime.word);
}

/** An object that owns what stands behind a handle. */
export class Owner {
  #runtime;
  #cell;
  #kind;

  static {
    isOwner = (value) => typeof value === 'object' && value !== null && #kind in value;
    isOf = (value, kind) => typeof value === 'object' && value !== null && #kind in value && value.#kind === kind;
    runtimeOf = (owner, kind) => {
      if (!isOf(owner, kind)) throw new WollemigoError('BAD_THIS', `a call of ${kind.name} was made on what is no ${kind.name}`);
      const runtime = owner.#runtime;
      if (runtime.hasTrapped) throw failure('TRAPPED');
      if (owner.#cell === 0) throw failure('DISPOSED');
      return runtime;
    };
    handle = (owner) => owner.#cell;
  }

  /** `make` fills the handle at a cell and gives a status; of a bad call, `why` says what was wrong. */
  constructor(kind, make, why, runtime = running()) {
    if (!KINDS.has(kind)) throw new WollemigoError('BAD_THIS', 'the class that owners have in common makes none by itself');
    const cell = runtime.takeCell();
    const status = make(runtime, cell);
    if (status !== 0) runtime.giveCell(cell);
    require(status, why);
    this.#runtime = runtime;
    this.#cell = cell;
    this.#kind = kind;
    runtime.owners[kind.name] += 1;
    registry.register(this, { runtime, cell, kind }, this);
  }

  dispose() {
    atMost(0, arguments.length);
    if (!isOwner(this)) {
      throw new WollemigoError('BAD_THIS', 'dispose was called on what has no memory of the module');
    }
    const cell = this.#cell;
    if (cell === 0) return;
    this.#cell = 0;
    registry.unregister(this);
    letGo(this.#runtime, cell, this.#kind);
  }
}
if (Symbol.dispose !== undefined) {
  Object.defineProperty(Owner.prototype, Symbol.dispose, { value: Owner.prototype.dispose, writable: true, configurable: true });
}
