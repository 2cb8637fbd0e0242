/** The calls of a simple atlas of bindings/tests/digest.c. */
import { SEVENS, answered, numberOf } from './sum.js';

const EMPTY = numberOf('EMPTY');
const OCCUPIED = numberOf('OCCUPIED');

export class Simple {
  constructor(api, draw, sum, atlases) {
    Object.assign(this, { api, draw, sum, atlases });
    this.simple = null;
  }

  call(call) {
    return this.simple === null ? { value: null, status: EMPTY } : answered(() => call(this.simple));
  }

  make() {
    const { SimpleAtlas } = this.api;
    const [options, width, height] = [this.draw.options(), this.draw.side(1500), this.draw.side(1500)];
    if (this.draw.oneIn(2)) {
      this.simple?.dispose();
      this.simple = null;
    }
    const hasOptions = !this.draw.oneIn(2);
    const make = () => new SimpleAtlas(width, height, hasOptions ? options : undefined);
    const { value, status } = this.simple === null ? answered(make) : { status: OCCUPIED };
    if (status === 0) this.simple = value;
    this.sum.add(status);
  }

  take() {
    const [width, height] = [this.draw.side(60), this.draw.side(60)];
    const { value, status } = this.call((simple) => simple.allocate(width, height));
    this.sum.add(status === 0 && value === null ? numberOf('NO_ROOM') : status);
    this.sum.box(value);
  }

  startAgain() {
    const [options, width, height] = [this.draw.options(), this.draw.side(1500), 1 + this.draw.below(1500)];
    const kind = this.draw.below(3);
    if (kind === 0) this.sum.add(this.call((simple) => simple.clear()).status);
    if (kind === 1) this.sum.add(this.call((simple) => simple.reset(width, height, options)).status);
    if (kind === 2) {
      const { atlas } = this.atlases.either();
      this.sum.add(atlas === null ? EMPTY : this.call((simple) => simple.initFrom(atlas)).status);
    }
  }

  grow() {
    const { value, status } = this.call((simple) => simple.size);
    const size = value ?? SEVENS.size;
    this.sum.add(status);
    this.sum.size(size);
    if (size.width > 6000 || size.height > 6000) return;
    const [width, height] = [size.width + this.draw.below(200) - 2, size.height + this.draw.below(200) - 2];
    this.sum.add(this.call((simple) => simple.canGrowTo(width, height)).value);
    this.sum.add(this.call((simple) => simple.grow(width, height)).status);
  }

  describe() {
    for (const what of ['options', 'slots']) {
      const { value, status } = this.call((simple) => simple[what]);
      this.sum.add(status);
      this.sum[what](value ?? SEVENS[what]);
    }
    this.sum.add(this.simple === null ? 1 : this.simple.isEmpty);
  }
}
