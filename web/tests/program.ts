// Each call of the package once, as TypeScript sees it. It is compiled, and not run.
import {
  Allocation, Atlas, CacheChange, Container, ErrorCode, Filled, Key, MOST_SLOTS, PageAllocation, PagedAtlas, Pages, Rectangle, Sheet,
  SimpleAtlas, TextureCache, WollemigoError, fill, load, pack, packDense, packGroups, packPages,
} from '../index.js';

function follow(change: CacheChange): Key | number {
  switch (change.kind) {
    case 'pageAdded': return change.page + change.width;
    case 'pageGrown': return change.height;
    case 'evicted': return change.key;
    case 'moved': return change.from.inner.x - change.to.rectangle.x;
    case 'pageRemoved': return change.page;
  }
}

function deepest({ axis, members }: Container): number {
  return Math.max(...members.map((each) => (each.kind === 'container' ? deepest(each) : each.kind === 'live' ? each.id : each.x + axis.length)));
}

function useAtlas(): void {
  const atlas = new Atlas(5, 5, { alignment: { width: 1, height: 1 }, smallSizeThreshold: 32 }, MOST_SLOTS);
  const granted: Allocation | null = atlas.allocate(1, 1);
  if (granted !== null && atlas.allocateInto(2, 2, granted)) atlas.deallocate(granted.id);
  atlas.deallocateAll(new Set([1, 2]));
  const { changes, failures } = atlas.resizeAndRearrange(5, 5);
  const sum: number = changes[0].after.id + failures.length + atlas.rearrange().changes.length + atlas.options.largeSizeThreshold;
  const more: boolean = atlas.canFit(1, 1) || atlas.canGrowTo(1, 1) || atlas.isEmpty || sum > atlas.areas.free + atlas.slots.used;
  const [lost, largest]: [number, Rectangle | null] = [atlas.unusableArea(1, 1), atlas.largestFree()];
  if (lost > 0) largest?.width;
  if (more) [atlas.reserve(1), atlas.grow(5, 5), atlas.clear(), atlas.reset(5, 5), atlas.get(1), atlas.allocated(), atlas.freeBoxes(), deepest(atlas.cuts())];
  const simple = SimpleAtlas.from(atlas.clone());
  simple.initFrom(atlas);
  simple.allocate(atlas.size.width, 1)?.height;
  atlas.dispose();
  simple[Symbol.dispose]();
}

function usePages(): void {
  const layers = new PagedAtlas(5, 5, 16, { smallSizeThreshold: 0 });
  const image: PageAllocation | null = layers.allocate(1, 1);
  if (image === null) return;
  const [at, live]: [Rectangle | null, Allocation[]] = [layers.get(image.page, image.id), layers.allocated(image.page)];
  if (at !== null && live.length < layers.areas(0).free) layers.grow(0, layers.pageSize(0).width, 9);
  layers.deallocate(image.page, image.id);
  const left: number = layers.shrink() + layers.pageCount;
  if (left > 0) layers.clear();
  layers.dispose();
}

function useCache(): void {
  const cache = new TextureCache({ page: { width: 5, height: 5 }, pages: 2, atlas: {} });
  cache.beginFrame();
  for (const key of ['a', 1, 2n]) {
    if (cache.get(key) === null && cache.insert(key, 1, 1)?.isNew) cache.peek(key)?.inner.x;
  }
  for (const change of cache.changes()) follow(change);
  [cache.remove('a'), cache.has('b'), cache.clear(), cache.trim(5n), cache.endBatch(1), cache.compact(5n), cache.shrink(), cache.repack(0), cache.length, cache.numbers, cache.pageCount, cache.pageSize(0).width];
  if (!cache.repackKeepingAll(0)) return;
  for (let next = cache.newest(); next !== null; next = cache.older(next.key)) next.place.inner.x;
  for (const { key, place } of cache.clone()) [key, place.inner.x];
  [cache.reserve(5), cache.reserveSlots(20), cache.reserveChanges(cache.length + 5)];
  [cache.oldest()?.key, cache.areas(0).free, cache.unusableArea(0, 1, 1), cache.options.atlas.largeSizeThreshold, cache.options.padding];
  const { hits, misses, evictions, forced } = cache.statistics;
  cache.dispose();
  hits + misses + evictions + forced;
}

function useSheets(): number {
  const pages: Pages | null = packPages([{ width: 1, height: 1 }], { sheets: { kind: 'squares', greatest: 64 }, effort: 5 });
  const grouped: Pages | null = packGroups([{ width: 1, height: 1 }], new Set([0, null]), { turn: true });
  const filled: Filled = fill([{ width: 1, height: 1 }]);
  const dense: Sheet | null = packDense([{ width: 1, height: 1 }], { padding: 1 });
  const corner: number | undefined = filled.places[0]?.x;
  const sum = filled.left + filled.width + (grouped?.sizes.length ?? 0) + (corner ?? 0) + (dense?.places[0].x ?? 0);
  return sum + (pages === null ? 0 : pages.sizes[pages.places[0].page].height);
}

export async function use(): Promise<ErrorCode | Sheet | null> {
  await load(new URL('https://example.org/'));
  await load(fetch('wollemigo.wasm'));
  try {
    useAtlas();
    usePages();
    useCache();
    useSheets();
    return pack([{ width: 1, height: 1 }], { sheets: { kind: 'heights', width: 5, greatest: 9 }, turn: true, seed: 5n });
  } catch (error) {
    return error instanceof WollemigoError ? error.code : null;
  }
}

// @ts-expect-error a length is a number
export const wrong = (): void => { new Atlas('5', 5); };
