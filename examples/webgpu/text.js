/** Text drawn by WebGPU through a texture cache: examples/webgl2/text.js in its other form. */
import { TextureCache } from '../../web/index.js';

// A texel is read by its own coordinates: those of a page's size would be wrong once the page grows.
const SHADER = `
struct Corner { @builtin(position) place: vec4f, @location(0) texel: vec2f, @location(1) colour: vec4f }
@group(0) @binding(0) var page: texture_2d<f32>;
@group(0) @binding(1) var<uniform> view: vec2f;
@vertex fn corner(@location(0) at: vec2f, @location(1) texel: vec2f, @location(2) colour: vec4f) -> Corner {
  return Corner(vec4f(at / view * vec2f(2, -2) + vec2f(-1, 1), 0, 1), texel, colour);
}
@fragment fn pixel(it: Corner) -> @location(0) vec4f { return it.colour * textureLoad(page, vec2i(it.texel), 0).r; }`;
const BLEND = { srcFactor: 'one', dstFactor: 'one-minus-src-alpha' };

export class TextRenderer {
  /** `target` gives the texture that a frame is drawn to; it has this format. */
  constructor(device, format, target, options) {
    Object.assign(this, { device, target, pages: [], quads: [], runs: [], isCleared: false });
    this.cache = new TextureCache({ padding: 1, ...options });
    this.view = device.createBuffer({ size: 8, usage: GPUBufferUsage.UNIFORM | GPUBufferUsage.COPY_DST });
    const module = device.createShaderModule({ code: SHADER });
    const attributes = [['float32x2', 0], ['float32x2', 8], ['float32x4', 16]]
      .map(([kind, offset], shaderLocation) => ({ format: kind, offset, shaderLocation }));
    this.pipeline = device.createRenderPipeline({
      layout: 'auto', vertex: { module, entryPoint: 'corner', buffers: [{ arrayStride: 32, attributes }] },
      fragment: { module, entryPoint: 'pixel', targets: [{ format, blend: { color: BLEND, alpha: BLEND } }] },
    });
  }

  begin() {
    this.cache.beginFrame();
    this.isCleared = false;
  }

  draw(glyph, x, y, colour) {
    const { page, inner } = this.placeOf(glyph);
    if (inner.width === 0 || inner.height === 0) return; // a blank, such as a space
    const { width, height } = inner;
    for (const [i, j] of [[0, 0], [1, 0], [0, 1], [0, 1], [1, 0], [1, 1]]) {
      this.quads.push(x + i * width, y + j * height, inner.x + i * width, inner.y + j * height, ...colour);
    }
    const last = this.runs.at(-1);
    if (last?.page === page) last.corners += 6;
    else this.runs.push({ page, corners: 6 });
  }

  placeOf(glyph) {
    const { key, width, height } = glyph;
    const held = this.cache.get(key);
    if (held !== null) return held;
    let place = this.cache.insert(key, width, height);
    this.follow();
    if (place === null) {
      this.flush(); // this frame uses all that the pages have room for
      this.cache.beginFrame();
      place = this.cache.insert(key, width, height);
      this.follow();
    }
    if (place.isNew) this.write(glyph, place);
    return place;
  }

  write({ width, height, coverage }, { page, rectangle: { x, y, ...size }, inner }) {
    if (size.width === 0 || size.height === 0) return;
    const pixels = new Uint8Array(size.width * size.height); // the border is cleared, too
    for (let row = 0; row < height; row++) {
      pixels.set(coverage.subarray(row * width, (row + 1) * width), (inner.y - y + row) * size.width + inner.x - x);
    }
    this.device.queue.writeTexture({ texture: this.pages[page].texture, origin: [x, y] }, pixels, { bytesPerRow: size.width }, size);
  }

  follow() {
    const before = new Map();
    for (const change of this.cache.changes()) {
      const { kind, page, from, to } = change;
      if (kind === 'pageAdded') this.pages.push(this.pageOf(change));
      if (kind === 'pageGrown') this.pages[page] = this.copyOf(this.pages[page], change);
      if (kind === 'pageRemoved') this.pages.pop();
      if (kind !== 'moved') continue;
      if (!before.has(from.page)) before.set(from.page, this.copyOf(this.pages[from.page], this.pages[from.page].texture));
      this.copy(before.get(from.page), from.rectangle, this.pages[to.page], to.rectangle);
    }
  }

  flush() {
    const { device, pipeline, quads, runs } = this;
    const texture = this.target();
    device.queue.writeBuffer(this.view, 0, new Float32Array([texture.width, texture.height]));
    const corners = new Float32Array(quads.length > 0 ? quads : 8);
    const buffer = device.createBuffer({ size: corners.byteLength, usage: GPUBufferUsage.VERTEX | GPUBufferUsage.COPY_DST });
    device.queue.writeBuffer(buffer, 0, corners);
    const encoder = device.createCommandEncoder();
    const attachment = { view: texture.createView(), loadOp: this.isCleared ? 'load' : 'clear', storeOp: 'store', clearValue: [0, 0, 0, 0] };
    const pass = encoder.beginRenderPass({ colorAttachments: [attachment] });
    pass.setPipeline(pipeline);
    pass.setVertexBuffer(0, buffer);
    let first = 0;
    for (const run of runs) {
      pass.setBindGroup(0, this.pages[run.page].group);
      pass.draw(run.corners, 1, first);
      first += run.corners;
    }
    pass.end();
    device.queue.submit([encoder.finish()]);
    buffer.destroy();
    Object.assign(this, { quads: [], runs: [], isCleared: true });
  }

  repack(page) {
    this.flush();
    this.cache.repack(page);
    this.follow();
  }

  pageOf({ width, height }) {
    const usage = GPUTextureUsage.TEXTURE_BINDING | GPUTextureUsage.COPY_SRC | GPUTextureUsage.COPY_DST;
    const texture = this.device.createTexture({ size: [width, height], format: 'r8unorm', usage });
    const entries = [{ binding: 0, resource: texture.createView() }, { binding: 1, resource: { buffer: this.view } }];
    return { texture, group: this.device.createBindGroup({ layout: this.pipeline.getBindGroupLayout(0), entries }) };
  }

  copyOf(old, size) {
    const made = this.pageOf(size);
    const { width, height } = old.texture;
    this.copy(old, { x: 0, y: 0, width, height }, made, { x: 0, y: 0 });
    return made;
  }

  copy(from, { x, y, width, height }, to, place) {
    if (width === 0 || height === 0) return;
    const encoder = this.device.createCommandEncoder();
    const into = { texture: to.texture, origin: [place.x, place.y] };
    encoder.copyTextureToTexture({ texture: from.texture, origin: [x, y] }, into, [width, height]);
    this.device.queue.submit([encoder.finish()]);
  }
}
