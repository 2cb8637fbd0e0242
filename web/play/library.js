// The package `wollemigo`, with boxes as the page keeps them: by their corners, as the tool tells them.
import { Atlas as Owned } from '../index.js';

export { load, pack, packDense, packGroups, packPages, TextureCache } from '../index.js';

const REPLIES = { BAD_CALL: 'bad call', NOT_LIVE: 'refused not live', SLOTS: 'refused slots', MEMORY: 'refused memory' };

/** What the tool replies where the library throws this error. */
export function replyTo(error) {
  if (!Object.hasOwn(REPLIES, error?.code ?? '')) throw error;
  return REPLIES[error.code];
}

const boxOf = ({ id, x, y, width, height }) => ({ id, x0: x, y0: y, x1: x + width, y1: y + height });

export class Atlas {
  constructor(width, height, { alignX, alignY, small, large }) {
    this.atlas = new Owned(width, height, {
      alignment: { width: alignX, height: alignY }, smallSizeThreshold: small, largeSizeThreshold: large,
    });
  }

  allocate(width, height) {
    const box = this.atlas.allocate(width, height);
    return box && boxOf(box);
  }

  free(id) {
    this.atlas.deallocate(id);
  }

  grow(width, height) {
    this.atlas.grow(width, height);
  }

  clear() {
    this.atlas.clear();
  }

  rearrange() {
    return rearranged(this.atlas.rearrange());
  }

  resize(width, height) {
    return rearranged(this.atlas.resizeAndRearrange(width, height));
  }

  live() {
    return this.atlas.allocated().map(boxOf);
  }

  holes() {
    return this.atlas.freeBoxes().map(boxOf);
  }

  cuts() {
    return this.atlas.cuts();
  }

  dispose() {
    this.atlas.dispose();
  }
}

function rearranged({ changes, failures }) {
  return {
    changes: changes.map(({ before, after }) => ({ from: boxOf(before), to: boxOf(after) })),
    failures: failures.map(boxOf),
  };
}
