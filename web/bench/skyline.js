/** A skyline packer, as those that pack once in JavaScript: boxes go where their upper side is least, then leftmost. None is
 * taken back. It is here to measure beside. */
export class Skyline {
  constructor(width, height) {
    Object.assign(this, { width, height });
    this.steps = [{ x: 0, y: 0, width }];
  }

  /** The least y at which a box of this width lies on the steps from one on; -1 where it passes the right side. */
  #fit(first, width, height) {
    if (this.steps[first].x + width > this.width) return -1;
    let y = 0;
    for (let i = first, left = width; left > 0; i++) {
      y = Math.max(y, this.steps[i].y);
      left -= this.steps[i].width;
    }
    return y + height > this.height ? -1 : y;
  }

  allocate(width, height) {
    let best = -1;
    let least = Infinity;
    for (let i = 0; i < this.steps.length; i++) {
      const y = this.#fit(i, width, height);
      if (y >= 0 && y < least) [best, least] = [i, y];
    }
    if (best < 0) return null;
    const { x } = this.steps[best];
    this.#raise(best, x, least + height, width);
    return { x, y: least, width, height };
  }

  #raise(at, x, y, width) {
    let end = at;
    while (end < this.steps.length && this.steps[end].x + this.steps[end].width <= x + width) end += 1;
    if (end < this.steps.length) {
      const rest = this.steps[end];
      rest.width -= Math.max(0, x + width - rest.x);
      rest.x = Math.max(rest.x, x + width);
    }
    this.steps.splice(at, end - at, { x, y, width });
    for (const i of [at + 1, at]) {
      if (i === 0 || i >= this.steps.length || this.steps[i].y !== this.steps[i - 1].y) continue;
      this.steps[i - 1].width += this.steps[i].width;
      this.steps.splice(i, 1);
    }
  }
}
